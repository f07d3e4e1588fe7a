"""A call of a VM is out of memory only if an allocation was refused: with ample memory none is, in any state, on any version, under any option.

No proof says so, since by contract each call may find no memory. A method of `VM` makes its typed call in C, which makes the call of
`trait VM`. The one call of the trait that no method makes, `take_output`, is made by the line `output`."""

from __future__ import annotations

import inspect
import itertools
import struct
import unittest
from collections.abc import Callable, Iterator
from typing import Any

from attempt import cancel_signal, completion, frame, input_frame, sleep_frame, start, text
from palqytun import (
    LAST_COMMAND,
    VM,
    Cancelled,
    CommandType,
    Failure,
    IdempotencyId,
    InvocationId,
    NextCommand,
    Related,
    Retryable,
    VMError,
    WorkflowId,
    all_completed,
    all_succeeded_or_first_failed,
    first_completed,
    first_succeeded_or_all_failed,
    retry_exponential,
    retry_fixed,
    retry_never,
    unknown,
)

Call = Callable[[VM], object]
Place = Callable[[VM], None]
Options = dict[str, Any]

VERSIONS = (5, 6, 7, 8)
OPTIONS: list[Options] = [
    {},
    {"seed": 7},
    *({"cancel": word} for word in ("none", "sends", "both", "off")),
    {"checks": "off"},
    *({"awaiting": word} for word in ("always", "never")),
    *({"mismatch": word} for word in ("pause", "fail")),
    {"replay": "off"},
    {"delivery": "overwrite"},
]

VOID = b"\0"
FAILURE = Failure(409, "no", (("k", "v"),))
HEADERS = [("a", "b"), ("c", "d")]
TARGET = {"key": "k", "idempotency_key": "i", "scope": "s", "limit_key": "l", "headers": HEADERS, "name": "n", "unstable": True}
TARGETS = (InvocationId("inv_1"), WorkflowId("w", "k"), WorkflowId("w", "k", "s"), IdempotencyId("s", "h", "i", service_key="k", scope="s"))
POLICIES = (retry_never(), retry_fixed(5, attempts=9), retry_fixed(5, pause=True), retry_exponential(5, 3, 2, longest=8, attempts=9, duration=9))


def value(data: bytes) -> bytes:
    return b"\1" + text(data)


def clear_all_frame() -> bytes:
    return frame(17, text(b""))


def named_signal(name: bytes, result: bytes) -> bytes:
    return frame(30, b"\2" + text(name) + result)


def invocation_id(id: int, called: bytes) -> bytes:
    return completion(id, b"\4" + text(called))


# What may come in: each kind of message, and bytes that are none.
FRAMES = [
    start(),
    frame(1, b"\0"),
    input_frame(),
    sleep_frame(1000, 1),
    frame(4, b""),
    completion(1, VOID),
    completion(1, b"\2" + struct.pack(">I", 65537) + text(b"no") + struct.pack(">Q", 1) + text(b"k") + text(b"v")),
    completion(1, value(b"v")),
    completion(9, VOID),
    invocation_id(1, b"inv_1"),
    cancel_signal(),
    named_signal(b"go", value(b"v")),
    frame(6, struct.pack(">I", 1)),
    frame(9, struct.pack(">I", 1) + b"\1" + value(b"v")),
    frame(9, struct.pack(">I", 1) + b"\0"),
    frame(30, b"\7"),
    frame(31, b""),
    completion(1, VOID)[:-1],
    b"",
]


def variants(function: Callable[..., object], *given: tuple[object, ...], **options: object) -> list[Call]:
    """Returns the calls of a method: one with each of these arguments, and one with the options too."""
    plain: list[Call] = [lambda vm, it=it: function(vm, *it) for it in given]  # type: ignore[misc]
    return plain + ([lambda vm: function(vm, *given[0], **options)] if options else [])


# Each method of a VM, called in each of its ways. Of a handle 17 is the first that is handed out.
CALLS: dict[str, list[Call]] = {
    "line": variants(VM.line, ("",), ("await 17",), ("what",), ("output",)),
    "call": variants(VM.call, ('sleep "" 1000',), ("index",)),
    "get_response_head": variants(VM.get_response_head, ()),
    "notify_input": variants(VM.notify_input, *((it,) for it in FRAMES)),
    "notify_input_closed": variants(VM.notify_input_closed, ()),
    "notify_error": [
        *variants(VM.notify_error, (500, "no"), stacktrace="at 1", behaviour="pause", delay=5, related=LAST_COMMAND),
        *variants(VM.notify_error, (570, "no"), behaviour="fail", related=NextCommand(CommandType.SLEEP, "n")),
        *variants(VM.notify_error, (418, ""), related=Related(3, CommandType.GET_STATE)),
    ],
    "take_output": variants(VM.take_output, ()),
    "lend_output": variants(VM.lend_output, ()),
    "is_ready_to_execute": variants(VM.is_ready_to_execute, ()),
    "is_completed": variants(VM.is_completed, (17,), (1,), (99,)),
    "do_await": variants(
        VM.do_await,
        (17,),
        (1,),
        (99,),
        (first_completed(),),
        (unknown(),),
        (first_completed(17, all_completed(18, 19)),),
        (all_succeeded_or_first_failed(17, first_succeeded_or_all_failed(18, 17)),),
        (unknown(17, 18),),
    ),
    "take_notification": variants(VM.take_notification, (17,), (18,), (1,), (99,)),
    "sys_input": variants(VM.sys_input, ()),
    "sys_sleep": variants(VM.sys_sleep, (1000,), (2**64 - 1,), name="n", now=5),
    "sys_state_get": variants(VM.sys_state_get, ("k",), ("known",), name="n", unstable=True),
    "sys_state_get_keys": variants(VM.sys_state_get_keys, (), name="n"),
    "ephemeral_state_get": variants(VM.ephemeral_state_get, ("k",), ("known",)),
    "take_ephemeral_notification": variants(VM.take_ephemeral_notification, (1,), (9,)),
    "sys_state_set": variants(VM.sys_state_set, ("k", b"v"), name="n", unstable=True),
    "sys_state_clear": variants(VM.sys_state_clear, ("k",), ("known",), name="n"),
    "sys_state_clear_all": variants(VM.sys_state_clear_all, (), name="n"),
    "sys_call": variants(VM.sys_call, ("s", "h", b"v"), **TARGET),
    "sys_call_with_deadline": variants(VM.sys_call_with_deadline, ("s", "h", b"v", 1000), ("s", "h", b"v", 2**64 - 1), **TARGET),
    "sys_send": variants(VM.sys_send, ("s", "h", b"v"), at=5, **TARGET),
    "sys_awakeable": variants(VM.sys_awakeable, ()),
    "create_signal_handle": variants(VM.create_signal_handle, ("go",)),
    "sys_complete_awakeable": variants(VM.sys_complete_awakeable, ("prom_1", b"v"), ("prom_1", FAILURE), unstable=True),
    "sys_complete_signal": variants(VM.sys_complete_signal, ("inv_1", "go", b"v"), ("inv_1", "go", FAILURE)),
    "sys_run": variants(VM.sys_run, ("r",)),
    "propose_run_completion": [
        *variants(VM.propose_run_completion, (18, b"v"), (18, FAILURE), (1, b"v"), (99, b"v")),
        *(call for it in POLICIES for call in variants(VM.propose_run_completion, (18, Retryable(503, "later", 3)), policy=it)),
    ],
    "sys_cancel_invocation": variants(VM.sys_cancel_invocation, ("inv_1",)),
    "sys_get_promise": variants(VM.sys_get_promise, ("p",)),
    "sys_peek_promise": variants(VM.sys_peek_promise, ("p",)),
    "sys_complete_promise": variants(VM.sys_complete_promise, ("p", b"v"), ("p", FAILURE), unstable=True),
    "sys_attach_invocation": variants(VM.sys_attach_invocation, *((it,) for it in TARGETS)),
    "sys_get_invocation_output": variants(VM.sys_get_invocation_output, *((it,) for it in TARGETS)),
    "sys_write_output": variants(VM.sys_write_output, (b"v",), (FAILURE,), unstable=True),
    "sys_end": variants(VM.sys_end, ()),
    "state": variants(VM.state, ()),
    "describe": variants(VM.describe, ()),
    "last_command_index": variants(VM.last_command_index, ()),
}


# ---- the states of a VM, each as what is done with a new one


def is_new(vm: VM) -> None:
    pass


def entries_are_missing(vm: VM) -> None:
    vm.notify_input(start(2) + input_frame())


def is_unread(vm: VM) -> None:
    vm.notify_input(start(2) + input_frame() + clear_all_frame())


def is_replaying(vm: VM) -> None:
    is_unread(vm)
    vm.sys_input()


def is_processing(vm: VM) -> None:
    vm.notify_input(start() + input_frame())
    vm.sys_input()


def has_results(vm: VM) -> None:
    """A sleep is over, under the handle 17; a run executes, under 18; and a key is known."""
    is_processing(vm)
    vm.sys_sleep(1000)
    vm.sys_run("r")
    vm.notify_input(completion(1, VOID))
    vm.do_await(17)
    vm.do_await(18)
    vm.sys_state_set("known", b"v")


def has_reads(vm: VM) -> None:
    """From version 8 on one ephemeral read is answered, and one is in flight."""
    has_results(vm)
    attempted(lambda vm: vm.ephemeral_state_get("known"), vm)
    attempted(lambda vm: vm.ephemeral_state_get("k"), vm)


def input_is_closed(vm: VM) -> None:
    has_results(vm)
    vm.notify_input_closed()


def is_suspended(vm: VM) -> None:
    is_processing(vm)
    vm.notify_input_closed()
    attempted(lambda vm: vm.do_await(vm.sys_sleep(1000)), vm)


def is_ended(vm: VM) -> None:
    is_processing(vm)
    vm.sys_end()


def has_failed(vm: VM) -> None:
    vm.notify_input(start(0))


PLACES: tuple[Place, ...] = (
    is_new,
    entries_are_missing,
    is_unread,
    is_replaying,
    is_processing,
    has_results,
    has_reads,
    input_is_closed,
    is_suspended,
    is_ended,
    has_failed,
)


# ---- what is done with a VM, and what comes of it


def attempted(call: Call, vm: VM) -> object:
    """Returns the answer of a call, or what it is refused by. Out of memory is raised as `MemoryError`."""
    try:
        answer = call(vm)
    except (VMError, Cancelled) as error:
        return error
    if answer == 'err 500 ""':
        raise MemoryError("a line's answer is out of memory")
    return answer


def do_all(calls: list[Call], place: Place, version: int, options: Options) -> bytes:
    """Makes a VM, brings it to a place and makes the calls. Returns the output, which is taken after each."""
    with VM(f"application/vnd.restate.invocation.v{version}", **options) as vm:
        place(vm)
        output = vm.take_output()
        for call in calls:
            attempted(call, vm)
            # Bytes that came may have failed the VM: its error is what a later call raises.
            attempted(VM.is_ready_to_execute, vm)
            output += vm.take_output()
        return output


def every() -> Iterator[tuple[int, Options]]:
    """Yields each version with the options by default, and with each option changed alone."""
    yield from itertools.product(VERSIONS, OPTIONS)


def split(frames: bytes) -> list[bytes]:
    """Returns the frames that stand one after another."""
    found = []
    while frames:
        size = 10 + int.from_bytes(frames[2:10], "big")
        found.append(frames[:size])
        frames = frames[size:]
    return found


def commands_in(frames: bytes) -> list[bytes]:
    """Returns those of the frames that are commands, which a journal keeps."""
    return [it for it in split(frames) if 10 <= int.from_bytes(it[:2], "big") < 30]


def recorded(entries: list[bytes]) -> Place:
    """Returns the place of a VM whose journal has the input and these entries, and whose handler has its input."""

    def place(vm: VM) -> None:
        vm.notify_input(start(1 + len(entries)) + input_frame() + b"".join(entries))
        vm.sys_input()

    return place


# ---- courses of calls


def sleeps_and_takes(vm: VM) -> None:
    """A sleep fails by a code of more than sixteen bits, and another has keys for its result of which one is no UTF-8."""
    first, second = vm.sys_sleep(1000), vm.sys_sleep(1000)
    vm.notify_input(completion(1, b"\2" + struct.pack(">I", 65537) + text(b"no") + struct.pack(">Q", 0)))
    vm.notify_input(completion(2, b"\3" + struct.pack(">Q", 1) + text(b"\xff")))
    attempted(lambda vm: vm.do_await(all_completed(first, second)), vm)
    attempted(lambda vm: vm.take_notification(first), vm)
    attempted(lambda vm: vm.take_notification(second), vm)


def runs_once(vm: VM) -> None:
    """A run is executed, proposed, acknowledged and taken."""
    run = vm.sys_run("r").handle
    vm.do_await(run)
    vm.propose_run_completion(run, b"v")
    vm.notify_input(frame(6, struct.pack(">I", 1)))
    attempted(lambda vm: vm.do_await(run), vm)
    attempted(lambda vm: vm.take_notification(run), vm)


def reads_the_state(vm: VM) -> None:
    """From version 8 on a key is read and its value comes; the same key is known once it is set."""
    attempted(lambda vm: vm.ephemeral_state_get("k"), vm)
    attempted(lambda vm: vm.notify_input(frame(9, struct.pack(">I", 1) + b"\1" + value(b"w"))), vm)
    attempted(lambda vm: vm.do_await(1), vm)
    attempted(lambda vm: vm.take_ephemeral_notification(1), vm)


def completes_a_tracked_id_by_a_value(vm: VM) -> None:
    vm.sys_call("s", "h", b"")
    vm.notify_input(completion(1, value(b"v")) + cancel_signal())
    attempted(lambda vm: vm.do_await(18), vm)


COURSES: tuple[Call, ...] = (sleeps_and_takes, runs_once, reads_the_state, completes_a_tracked_id_by_a_value)


def cancelled_await(children: int) -> list[Call]:
    """Returns the calls of a handler that calls this many others, sends to as many, and awaits a sleep."""
    callees: list[Call] = [lambda vm: vm.sys_call("s", "h", b""), lambda vm: vm.sys_send("s", "h", b"")] * children
    return [*callees, lambda vm: vm.sys_sleep(1000), lambda vm: vm.do_await(17 + 3 * children)]


def arrivals(children: int) -> list[bytes]:
    """Returns what comes for it: the ids of the invocations, and the cancel signal. A call has two completion ids, a send one."""
    ids = [3 * it + place for it in range(children) for place in (1, 3)]
    return [*(invocation_id(id, b"inv_%d" % id) for id in ids), cancel_signal()]


def after(frames: list[bytes], calls: list[Call]) -> list[Call]:
    """Returns the calls, the last of which is made once these frames have come."""
    return [*calls[:-1], lambda vm: vm.notify_input(b"".join(frames)), calls[-1]]


class Ample(unittest.TestCase):
    """Each test fails if a call raises `MemoryError`."""

    def test_ample_has_each_method(self) -> None:
        methods = {name for name, _ in inspect.getmembers(VM, inspect.isroutine) if not name.startswith("_")}
        # Only `free` isn't a call of the VM.
        self.assertEqual(set(CALLS), methods - {"free"})

    def test_ample_of_each_call_in_each_state(self) -> None:
        for place, (name, calls) in itertools.product(PLACES, CALLS.items()):
            with self.subTest(name, place=place.__name__):
                for (version, options), call in itertools.product(every(), calls):
                    do_all([call], place, version, options)

    def test_ample_of_each_call_over_what_it_wrote(self) -> None:
        """A call is popped where the journal has the commands that it writes."""
        for name, calls in CALLS.items():
            with self.subTest(name):
                for (version, options), call in itertools.product(every(), calls):
                    written = commands_in(do_all([call], is_processing, version, options))
                    do_all([call], recorded(written), version, options)
                    do_all([call], recorded([*written, clear_all_frame()]), version, options)

    def test_ample_of_courses(self) -> None:
        for course in COURSES:
            with self.subTest(course.__name__):
                for version, options in every():
                    do_all([course], is_processing, version, options)

    def test_ample_of_cancelled_awaits(self) -> None:
        """Over no call and send to three of each: the cancel commands are written, popped, and cut between."""
        for children, (version, options) in itertools.product(range(4), every()):
            with self.subTest(children=children, version=version, options=options):
                came, calls = arrivals(children), cancelled_await(children)
                written = commands_in(do_all(after(came, calls), is_processing, version, options))
                cancels = [it for it in written if it[1] == 22]
                self.assertEqual(len(cancels), self.cancelled(children, options))
                called = written[: len(written) - len(cancels)]
                for popped in range(len(cancels) + 1):
                    left = do_all(calls, recorded([*called, *came, *cancels[:popped]]), version, options)
                    if options != {"replay": "off"}:
                        self.assertEqual(commands_in(left), cancels[popped:])

    def cancelled(self, children: int, options: Options) -> int:
        """Returns how many of these calls and sends an await cancels: by default the calls."""
        return children * {"none": 0, "sends": 1, "both": 2, "off": 0}.get(str(options.get("cancel")), 1)


if __name__ == "__main__":
    unittest.main()
