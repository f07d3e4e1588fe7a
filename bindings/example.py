"""One attempt of an invocation, call by call: its handler sleeps until one second after the Unix epoch, and is suspended."""

from palqytun import VM, Suspended

# Start (of the invocation `abc`, with one known entry and an empty state), and the entry: Input, whose value is `Till`.
JOURNAL = bytes.fromhex(
    "0001000000000000004200000000000000036162630000000000000003616263"
    "0000000000000000000000010000000000000000000000000000000000000000"
    "000000000000000000000000"
    "000a00000000000000140000000000000000000000000000000454696c6c"
)

vm = VM("application/vnd.restate.invocation.v7")
vm.notify_input(JOURNAL)  # bytes as they come from the runtime, cut anywhere
vm.notify_input_closed()  # no more come in this attempt
print(vm.sys_input().value)
slept = vm.sys_sleep(1000)  # until 1,000 ms after the Unix epoch; a handle
try:
    vm.do_await(slept)  # true: it is awake; false: feed more, or execute a run
except Suspended as error:
    print("suspended:", error.code)
print(vm.take_output().hex())  # whole frames, for the runtime
