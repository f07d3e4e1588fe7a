"""What an error says if a handler doesn't make the recorded call: its code has changed, and calls the Greeter with another argument."""

from palqytun import VM, CommandType, JournalMismatch
from palqytun.frames import frame_of

JOURNAL = [
    'Start id="abc" debug_id="abc" known_entries=2',
    'Input value="Till"',
    'Call service_name="Greeter" handler_name="greet" parameter="Ada" invocation_id_notification_idx=1 result_completion_id=2',
]
NAMES = {CommandType.CALL: "ctx.service_call"}  # what handlers of this SDK write

vm = VM("application/vnd.restate.invocation.v7")
vm.notify_input(b"".join(map(frame_of, JOURNAL)))
vm.sys_input()
try:
    vm.sys_call("Greeter", "greet", b"Bob")
except JournalMismatch as error:
    print(error)
    print(error.in_words(NAMES))
    if error.difference is not None:
        print(error.difference.index, error.difference.field, error.difference.recorded, error.difference.asked)
