"""Each method of `VM`, with what it answers and which frames it writes: a test of the module, and of the calls of `trait VM` below it."""

import pathlib
import struct

from handler import CONTENT_TYPE, frames, start
from palqytun import LAST_COMMAND, VM, BadLine, Cancelled, EphemeralReady, Failure, IdempotencyId, InvocationId, Retryable, Suspended, VMError
from palqytun import WorkflowId, retry_exponential, retry_fixed, retry_never
from palqytun import all_completed, all_succeeded_or_first_failed, first_completed, first_succeeded_or_all_failed, unknown

INPUT = bytes.fromhex((pathlib.Path(__file__).with_name("journal.hex")).read_text().splitlines()[2])


def notification(id, result):
    """The frame of a notification."""
    return struct.pack(">HQ", 30, len(id + result)) + id + result


def text(data):
    return struct.pack(">Q", len(data)) + data


def refused(call, *arguments, **options):
    """Tells by what a call is refused."""
    try:
        return call(*arguments, **options)
    except (VMError, BadLine, Cancelled, RuntimeError) as error:
        return f"{type(error).__name__}: {error}"


def begun():
    """A VM that runs its handler. Of the state a part was handed out, in which there is nothing."""
    vm = VM("application/vnd.restate.invocation.v8")
    body = text(b"abc") * 2 + text(b"") + struct.pack(">IQ", 1, 0) + b"\1" + bytes(4 + 8 + 8 + 3)
    vm.notify_input(struct.pack(">HQ", 1, len(body)) + body + INPUT)
    vm.sys_input()
    return vm


def shows(vm, *answers):
    """Prints what a call is answered, and the frames that it wrote (docs/WIRE.md), in hex."""
    print(*answers, *(frame.hex() for _, frame in frames(vm.take_output())))


def awaited(vm, handle):
    return vm.do_await(handle), vm.is_completed(handle), vm.take_notification(handle), vm.is_completed(handle)


with VM(CONTENT_TYPE, cancel="none", checks="on", seed=7) as vm:
    print(vm.version, vm.get_response_head())
    print(vm.state(), vm.last_command_index(), vm.is_ready_to_execute())
    vm.notify_input(bytearray(start(1)))
    vm.notify_input(memoryview(INPUT))
    print(vm.is_ready_to_execute(), vm.sys_input(), vm.state())
    print(awaited(vm, vm.sys_state_get("visits", name="n", unstable=True)))
    print(awaited(vm, vm.sys_state_get_keys(name="n")))
    odd, every = 'a "key" \\ with\nall é 𝄞', bytes(range(256))
    vm.sys_state_set(odd, every, name="n", unstable=True)
    print(vm.take_notification(vm.sys_state_get(odd)) == every)
    vm.sys_state_clear(odd, name="n")
    print(vm.take_notification(vm.sys_state_get(odd)))
    vm.sys_state_clear_all(name="n")
    print(vm.take_notification(vm.sys_state_get_keys()))
    print(vm.sys_sleep(1000, name="nap", now=5))
    options = dict(key="k", idempotency_key="i", scope="s", limit_key="l", headers=[("a", "b"), ("c", "d")], name="n", unstable=True)
    print(vm.sys_call("Service", "handler", every, **options), vm.sys_send("Service", "handler", b"", at=5, **options))
    print(vm.sys_awakeable(), vm.create_signal_handle("go"))
    failure = Failure(409, "no \"more\"", (("k", "v"), ("w", "")))
    vm.sys_complete_awakeable("prom_1", b"a", unstable=True)
    vm.sys_complete_signal("inv_1", "go", failure)
    vm.sys_cancel_invocation("inv_1")
    print(vm.sys_get_promise("p"), vm.sys_peek_promise("p"), vm.sys_complete_promise("p", failure, unstable=True))
    print(vm.sys_attach_invocation(InvocationId("inv_1")), vm.sys_get_invocation_output(WorkflowId("w", "k", "s")))
    print(vm.sys_attach_invocation(IdempotencyId("s", "h", "i", service_key="k", scope="s")))
    print(vm.do_await(27), vm.do_await(first_completed(27, all_completed(23, 26))), vm.do_await(unknown()))
    vm.notify_input(notification(b"\2" + text(b"go"), b"\2" + struct.pack(">I", 409) + text(b"no") + struct.pack(">Q", 1) + text(b"k") + text(b"v")))
    vm.notify_input(notification(b"\0" + struct.pack(">I", 7), b"\4" + text(b"inv_9")))
    vm.notify_input(notification(b"\1" + struct.pack(">I", 17), b"\1" + text(every)))
    print(vm.do_await(all_succeeded_or_first_failed(26, 27)), vm.do_await(first_succeeded_or_all_failed(27, 23)))
    print(awaited(vm, 27), awaited(vm, 23))
    print(vm.do_await(26), vm.take_notification(26) == every)
    print(vm.sys_call_with_deadline("Service", "handler", every, 1000, **options))
    vm.notify_input_closed()
    print(vm.line(""), vm.line("# nothing"), vm.line("what"), vm.line("index"))
    print(refused(vm.call, "what"))
    vm.sys_write_output(failure)
    vm.sys_end()
    print(vm.state(), vm.last_command_index(), len(vm.take_output()) > 500, vm.take_output())
    print(refused(vm.sys_sleep, 1))
print(refused(vm.state))
print(refused(vm.take_output))

print(refused(VM, None))
print(refused(VM, "text/plain"))
vm = VM("application/vnd.restate.invocation.v8")
print(refused(vm.call, "vm -"))
print(refused(vm.state))
print(refused(vm.notify_input, b""))
print(vm.call('vm "application/vnd.restate.invocation.v5"'))
vm.notify_error(418, "mine", stacktrace="here", behaviour="retry", delay=1500, related=LAST_COMMAND)
print(refused(vm.sys_input))
vm.free()
vm.free()
print(issubclass(Suspended, VMError))
with VM(CONTENT_TYPE) as vm:
    vm.notify_input(start(1) + INPUT)
    vm.sys_input()
    vm.notify_input(notification(b"\1" + struct.pack(">I", 1), b"\0"))
    print(refused(vm.do_await, vm.sys_sleep(1000)))

# Of the state `visits` is known to be 7, and it is whole.
with VM("application/vnd.restate.invocation.v8") as vm:
    vm.notify_input(start(1) + INPUT)
    vm.sys_input()
    known, other = vm.ephemeral_state_get("visits"), vm.ephemeral_state_get(odd)
    ready = vm.do_await(17)
    print(known, other, ready in (EphemeralReady(known), EphemeralReady(other)), bool(ready))
    print(vm.take_ephemeral_notification(known), vm.do_await(17), vm.take_ephemeral_notification(other), vm.take_ephemeral_notification(known))
    print(vm.last_command_index(), vm.take_output(), bytes(vm.lend_output()))
with VM(CONTENT_TYPE) as vm:
    vm.notify_input(start(1) + INPUT)
    vm.sys_input()
    print(refused(vm.ephemeral_state_get, "visits"))

# The recorded sleep, whose id is 1, is dropped and not replayed.
with VM(CONTENT_TYPE, replay="off") as vm:
    vm.notify_input(start(2) + INPUT + struct.pack(">HQQIQ", 18, 20, 1000, 1, 0))
    vm.sys_input()
    print(vm.state(), vm.last_command_index(), vm.sys_sleep(2000), int.from_bytes(vm.take_output()[18:22], "big"))
    print(refused(vm.sys_awakeable))

with VM(CONTENT_TYPE) as vm:
    vm.notify_input(start(1) + INPUT)
    vm.sys_input()
    run = vm.sys_run("charge")
    asked = vm.do_await(run.handle)
    print(run, asked, bool(asked), vm.do_await(run.handle))
    vm.propose_run_completion(run.handle, every)
    print(awaited(vm, run.handle))
    vm.notify_input(struct.pack(">HQI", 6, 4, 1))
    print(awaited(vm, run.handle)[2] == every, vm.sys_run("b"), vm.do_await(vm.sys_run("c").handle))
    vm.propose_run_completion(19, Retryable(418, "no", 3, stacktrace="here", delay=5), policy=retry_never())
    vm.propose_run_completion(18, failure)
    print(refused(vm.propose_run_completion, 18, b""))
for policy in retry_fixed(5, attempts=1), retry_exponential(5, 3, 2, longest=8, attempts=3, duration=9, pause=True):
    with VM(CONTENT_TYPE) as vm:
        vm.notify_input(start(1) + INPUT)
        vm.sys_input()
        run = vm.sys_run("charge")
        vm.do_await(run.handle)
        print(policy, refused(vm.propose_run_completion, run.handle, Retryable(418, "no", 3, delay=5), policy=policy))

# Each call that has a command, once more, with its frames: those that answer one handle,
with begun() as vm:
    shows(vm, vm.sys_sleep(1, name="n"))
    shows(vm, vm.sys_state_get("k"))
    shows(vm, vm.sys_state_get_keys())
    shows(vm, vm.sys_get_promise("p"))
    shows(vm, vm.sys_peek_promise("p"))
    shows(vm, vm.sys_complete_promise("p", b"v"))
    shows(vm, vm.sys_attach_invocation(InvocationId("x")))
    shows(vm, vm.sys_get_invocation_output(InvocationId("x")))
    shows(vm, vm.create_signal_handle("s"), vm.last_command_index())
    shows(vm, vm.sys_attach_invocation(WorkflowId("w", "k")))
    shows(vm, vm.sys_get_invocation_output(IdempotencyId("s", "h", "i", service_key="k")))

# those of other handlers,
with begun() as vm:
    shows(vm, vm.sys_call("s", "h", b"i"))
    shows(vm, vm.sys_call_with_deadline("s", "h", b"i", 5))
    shows(vm, vm.sys_send("s", "h", b"i", at=2))

# those that answer nothing,
with begun() as vm:
    shows(vm, vm.sys_state_set("k", b"v"))
    shows(vm, vm.sys_state_clear("k"))
    shows(vm, vm.sys_state_clear_all())
    shows(vm, vm.sys_complete_awakeable("a", b"v"))
    shows(vm, vm.sys_complete_signal("x", "s", b"v"))
    shows(vm, vm.sys_cancel_invocation("x"))
    shows(vm, vm.sys_write_output(b"v"))
    shows(vm, vm.sys_end(), vm.last_command_index(), vm.state())
    print(refused(vm.do_await, 17))

# a run and its proposal,
with begun() as vm:
    shows(vm, vm.sys_run("r"))
    shows(vm, vm.do_await(17))
    shows(vm, vm.propose_run_completion(17, b"v"))

# a sleep that is over, and an awakeable,
with begun() as vm:
    shows(vm, vm.sys_sleep(1, name="n"), vm.is_completed(17))
    vm.notify_input(notification(b"\0" + struct.pack(">I", 1), b"\0"))
    shows(vm, *awaited(vm, 17), vm.sys_awakeable())

# an ephemeral read, which is answered before an await,
with begun() as vm:
    shows(vm, vm.ephemeral_state_get("k"))
    vm.notify_input(struct.pack(">HQI", 9, 15, 1) + b"\1\1" + text(b"w"))
    shows(vm, vm.do_await(1), vm.take_ephemeral_notification(1))

# and those of the handler's runner.
with begun() as vm:
    print(vm.get_response_head(), vm.is_ready_to_execute(), vm.state())
    vm.notify_input_closed()
    print(vm.state())
    vm.notify_error(500, "no")
    print(vm.state())
