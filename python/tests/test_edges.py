"""Errors have all their fields, errors and values can be copied and pickled, and large buffers are given back."""

import contextlib
import copy
import gc
import hashlib
import pathlib
import pickle
import resource
import threading
import time
import tomllib
import tracemalloc
import unittest
from collections.abc import Callable

import palqytun
from palqytun import _abi
from attempt import begun, cancel_signal, completion, fed, input_frame, sleep_frame, start
from palqytun import VM, VOID, Awakeable, BadLine, Cancelled, Closed, ExecuteRun, Failure, Fault, Future, Input, InvocationId, Journal, JournalFault
from palqytun import Code, CommandType, Difference, JournalMismatch, NextCommand, Related, RelatedCommand, Retryable, RetryPolicy, Run
from palqytun import Suspended, VMError, Waiting, WorkflowId, all_completed, first_completed
from palqytun import CANCEL_HANDLE, LAST_COMMAND, SUPPORTED_VERSIONS, content_type, retry_fixed, retry_never, seed_of_start
from palqytun.errors import BadFrame, error_of
from palqytun.frames import frame_of, line_of, split
from palqytun.frames import input_frame as input_with

PROJECT = pathlib.Path(__file__).resolve().parents[1]
KEPT = 1 << 16  # bytes of the largest buffer that may stay
LARGE = 1 << 21


class Errors(unittest.TestCase):
    def test_an_error_has_all_its_fields(self) -> None:
        vm = begun()
        vm.sys_run("seat")
        vm.notify_error(418, "no tea", stacktrace="at the pot", related=LAST_COMMAND)
        with self.assertRaises(VMError) as raised:
            vm.sys_sleep(1000)
        error = raised.exception
        self.assertEqual((error.code, error.text, error.hint), (418, "no tea", None))
        self.assertEqual((error.stacktrace, error.related), ("at the pot", Related(1, CommandType.RUN, "seat")))

    def test_an_error_without_them(self) -> None:
        vm = begun()
        vm.notify_error(418, "no tea")
        with self.assertRaises(VMError) as raised:
            vm.sys_sleep(1000)
        self.assertEqual((raised.exception.stacktrace, raised.exception.related), ("", None))

    def test_a_mismatch_names_the_call(self) -> None:
        vm = fed(start(2), input_frame(), sleep_frame(1000, 1))
        vm.sys_input()
        with self.assertRaises(JournalMismatch) as raised:
            vm.sys_run("charge")
        self.assertEqual(raised.exception.related, Related(1, CommandType.RUN, "charge"))


class RelatedCommands(unittest.TestCase):
    """The command of an error that a handler hands in, as the error's frame has it."""

    def related(self, command: RelatedCommand | None) -> str:
        vm = begun()
        vm.sys_run("seat")
        vm.notify_error(418, "no tea", related=command)
        frame = [it for _, it in split(vm.take_output())][-1]
        return line_of(frame).removeprefix('Error code=418 message="no tea" behaviour=Retry').strip()

    def test_each_kind(self) -> None:
        for command, wanted in (
            (None, ""),
            (LAST_COMMAND, 'index=1 type=26 name="seat"'),
            (NextCommand(CommandType.SLEEP), "index=2 type=18"),
            (NextCommand(CommandType.ONE_WAY_CALL, 'a) " delay=5'), r'index=2 type=20 name="a) \x22 delay=5"'),
            (Related(7, CommandType.GET_STATE, "k"), 'index=7 type=12 name="k"'),
            (Related(7, CommandType.CANCEL_INVOCATION), "index=7 type=22"),
        ):
            with self.subTest(command=command):
                self.assertEqual(self.related(command), wanted)

    def test_that_of_another_error(self) -> None:
        vm = fed(start(2), input_frame(), sleep_frame(1000, 1))
        vm.sys_input()
        with self.assertRaises(JournalMismatch) as raised:
            vm.sys_run("charge")
        self.assertEqual(self.related(raised.exception.related), 'index=1 type=26 name="charge"')

    def test_each_type_has_its_number(self) -> None:
        numbers = {name.removeprefix("COMMAND_"): it for name, it in vars(_abi).items() if name.startswith("COMMAND_")}
        self.assertEqual({it.name: at for at, it in enumerate(CommandType)}, numbers)

    def test_as_texts(self) -> None:
        texts = [str(it) for it in (Related(3, CommandType.RUN, "seat"), Related(0, CommandType.INPUT), NextCommand(CommandType.CALL), LAST_COMMAND)]
        self.assertEqual(texts, ['command 3, Run "seat"', "command 0, Input", "the next command, Call", "the last command"])


class OwnErrors(unittest.TestCase):
    """An error of the handler's own is no other than that, whatever its code and its text."""

    OWN = [(500, ""), (570, "CommandMismatchError"), (598, "ClosedError"), (599, "SUSPENDED"), (599, "mine"), (500, "\udcff")]

    def check(self, raised: Callable[[], object], code: int) -> None:
        with self.assertRaises(VMError) as found:
            raised()
        self.assertEqual((type(found.exception), found.exception.code, found.exception.hint), (VMError, code, None))

    def test_that_was_reported(self) -> None:
        for code, text in self.OWN:
            with self.subTest(code=code, text=text):
                vm = begun()
                vm.notify_error(code, text)
                for call in (lambda: vm.sys_sleep(1000), lambda: vm.do_await(1), vm.sys_end, lambda: vm.sys_state_set("k", b"v")):
                    self.check(call, code)

    def test_of_a_run(self) -> None:
        for code, text in self.OWN:
            with self.subTest(code=code, text=text):
                vm = begun()
                run = vm.sys_run("charge")
                vm.do_await(run.handle)
                self.check(lambda: vm.propose_run_completion(run.handle, Retryable(code, text)), code)
                self.check(lambda: vm.do_await(run.handle), code)

    def test_that_an_ended_vm_takes(self) -> None:
        """It has ended, which it says before the error is handed in, and has not failed."""
        for code, text in self.OWN:
            with self.subTest(code=code, text=text):
                vm = begun()
                vm.sys_end()
                with self.assertRaises(Closed):
                    vm.is_ready_to_execute()
                vm.notify_error(code, text)
                vm.notify_error(418, "no tea")  # it keeps its first error
                for call in (lambda: vm.sys_sleep(1000), vm.is_ready_to_execute, vm.sys_end):
                    self.check(call, code)

    def test_that_a_suspended_vm_takes(self) -> None:
        for code, text in self.OWN:
            with self.subTest(code=code, text=text):
                vm = begun()
                vm.notify_input_closed()
                with self.assertRaises(Suspended):
                    vm.do_await(vm.sys_sleep(1000))
                with self.assertRaises(Closed):
                    vm.is_ready_to_execute()
                vm.notify_error(code, text)
                self.check(vm.sys_end, code)

    def test_by_lines(self) -> None:
        for code, text in self.OWN:
            with self.subTest(code=code, text=text):
                vm, ran = begun(), begun()
                said = "0x" + text.encode("ascii", "backslashreplace").hex()
                self.assertEqual(vm.line(f"error {code} {said} delay=5"), "ok")
                self.assertEqual(vm.line('error 418 "no tea"'), "ok")  # it keeps its first error
                run = ran.sys_run("charge").handle
                ran.do_await(run)
                self.check(lambda: ran.call(f"propose {run} retryable 5 {code} {said}"), code)
                for it in (vm, ran):
                    for call in (lambda: it.call("end"), it.sys_end, it.is_ready_to_execute, lambda: it.call("await 1")):
                        self.check(call, code)

    def test_an_own_error_of_a_call_that_hands_one_in(self) -> None:
        """The version has no such behaviour, and nobody waits for the run."""
        for code in (418, Code.INTERNAL, Code.UNSUPPORTED_FEATURE):
            vms = [VM(content_type(6)), VM(content_type(6)), begun(), begun()]
            vms[0].notify_error(code, "mine", behaviour="pause")
            vms[1].line(f'error {code} "mine" behaviour=pause')
            with self.assertRaises(VMError):
                vms[2].propose_run_completion(99, Retryable(code, "mine"))
            with self.assertRaises(VMError):
                vms[3].call(f'propose 99 retryable 1 {code} "mine"')
            lacks = "573 UNSUPPORTED_FEATURE: UnsupportedFeatureForNegotiatedVersion"
            texts = [f"{lacks} (another behaviour than retry needs version 7, and the VM has version 6)", lacks, *["500 INTERNAL: no pending run"] * 2]
            for vm, text in zip(vms, texts):
                for call in (vm.sys_end, lambda: vm.call("end")):
                    with self.subTest(code=code, text=text), self.assertRaises(VMError) as found:
                        call()
                    self.assertEqual((str(found.exception), found.exception.is_own), (text, True))

    def test_a_line_that_makes_another_vm(self) -> None:
        vm = begun()
        vm.notify_error(598, "ClosedError")
        self.assertEqual(vm.line(' vm  "application/vnd.restate.invocation.v6"'), "ok V6")
        self.assertEqual(vm.describe(), "V6 WaitingPreFlight, no command")
        vm.notify_input(start() + input_frame())
        vm.call("sys_input")
        self.assertEqual(vm.describe(), "V6 abc Processing, last command 0")
        vm.call("end")
        self.assertRaises(Closed, vm.call, 'sleep "" 1')
        self.assertRaises(Closed, vm.sys_sleep, 1)

    def test_that_was_not_taken(self) -> None:
        """An error that the VM didn't fail by, with the code and the text of the VM's own that comes later."""
        vm = begun()
        self.assertRaises(BadLine, vm.notify_error, 598, "ClosedError", related=Related(-1, CommandType.RUN))
        run = vm.sys_run("charge")
        vm.do_await(run.handle)
        vm.propose_run_completion(run.handle, Retryable(598, "ClosedError"), policy=retry_never())
        vm.sys_end()
        self.assertRaises(Closed, vm.sys_sleep, 1000)
        self.assertRaises(Closed, vm.sys_sleep, 1000)

    def test_a_proposal_after_the_end(self) -> None:
        """It is nobody's error: the VM has ended, and takes no result of a run."""
        for code, text in self.OWN:
            with self.subTest(code=code, text=text):
                vm = begun()
                run = vm.sys_run("charge")
                vm.do_await(run.handle)
                vm.sys_end()
                vm.propose_run_completion(run.handle, Retryable(code, text))
                self.assertRaises(Closed, vm.sys_sleep, 1000)
                self.assertRaises(Closed, vm.sys_sleep, 1000)

    def test_a_proposal_that_nobody_waits_for(self) -> None:
        vm = begun()
        with self.assertRaises(VMError) as raised:
            vm.propose_run_completion(17, Retryable(418, "no tea"))
        self.assertEqual(raised.exception.code, 500)
        vm.notify_error(598, "ClosedError")  # it keeps its first error
        self.check(vm.sys_end, 500)

    def test_the_vm_has_its_own_still(self) -> None:
        vm = begun()
        vm.notify_input_closed()
        with self.assertRaises(Suspended):
            vm.do_await(vm.sys_sleep(1000))
        for code in (570, 599):
            vm = fed(start(2), input_frame(), sleep_frame(1000, 1))
            vm.sys_input()
            with self.assertRaises(JournalMismatch):
                vm.sys_run("charge")
            vm.notify_error(code, "CommandTypeMismatchError")  # it keeps its first error
            with self.assertRaises(JournalMismatch):
                vm.sys_run("charge")

    def test_another_run_that_is_tried_again(self) -> None:
        """What a policy keeps from the VM isn't its error."""
        vm = begun()
        run = vm.sys_run("charge")
        vm.do_await(run.handle)
        vm.propose_run_completion(run.handle, Retryable(599, "mine"), policy=retry_never())
        vm.notify_input_closed()
        with self.assertRaises(Suspended):
            vm.do_await(vm.sys_sleep(1000))


class Offers(unittest.TestCase):
    """What an SDK has to say of the VM before there is one, and what it writes into a log."""

    def test_versions(self) -> None:
        self.assertEqual(list(SUPPORTED_VERSIONS), [5, 6, 7, 8])
        for version in SUPPORTED_VERSIONS:
            self.assertEqual(VM(content_type(version)).version, f"V{version}")
        for version in (4, 9):
            self.assertRaises(ValueError, content_type, version)
            self.assertRaises(VMError, VM, f"application/vnd.restate.invocation.v{version}")

    def test_the_cancel_handle(self) -> None:
        vm = begun(cancel="off")
        self.assertEqual(vm.do_await(CANCEL_HANDLE), Waiting(True, False))
        vm.notify_input(cancel_signal())
        self.assertIs(vm.do_await(CANCEL_HANDLE), True)

    def test_a_seed(self) -> None:
        """Its bytes are those of the SHA-256 of "abc" and of nothing (FIPS 180-2)."""
        self.assertEqual(seed_of_start(start()), 0xBA7816BF8F01CFEA)
        self.assertEqual(seed_of_start(frame_of("Start")), 0xE3B0C44298FC1C14)
        seed = seed_of_start(frame_of('Start debug_id="d" id="\\xff\\x22" known_entries=1'))
        self.assertEqual(seed, int.from_bytes(hashlib.sha256(b'\xff"').digest()[:8], "big"))
        vm = VM(content_type(5), seed=seed)
        vm.notify_input(start() + input_frame())
        self.assertEqual(vm.sys_input().random_seed, seed)
        self.assertRaises(BadFrame, seed_of_start, input_frame())
        self.assertRaises(BadFrame, seed_of_start, b"x")

    def test_a_line_for_a_log(self) -> None:
        vm = fed(start(2), input_frame())
        self.assertEqual(vm.describe(), "V7 abc WaitingPreFlight, no command")
        vm.notify_input(sleep_frame(1000, 1))
        vm.sys_input()
        self.assertEqual(vm.describe(), "V7 abc Replaying, last command 0")
        vm.sys_sleep(1000)
        self.assertEqual(vm.describe(), "V7 abc Processing, last command 1")
        vm.notify_error(500, "")
        self.assertEqual(vm.describe(), "V7 abc Closed, last command 1")


class ReplayChecks(unittest.TestCase):
    """What docs/DEPLOYING.md says of a check without the runtime: a handler's calls over Start and a journal of an input and a sleep."""

    def replaying(self) -> VM:
        vm = fed(start(2), input_frame(), sleep_frame(1000, 1))
        vm.notify_input_closed()
        vm.sys_input()
        return vm

    def refusal(self, call: Callable[[VM], object]) -> VMError:
        with self.assertRaises(VMError) as raised:
            call(self.replaying())
        return raised.exception

    def test_the_handler_goes_on(self) -> None:
        vm = self.replaying()
        vm.sys_sleep(1000)
        self.assertEqual(vm.state(), "Processing")

    def test_it_stops_early(self) -> None:
        self.assertEqual(self.replaying().state(), "Replaying")

    def test_it_differs_by_another_command_or_another_field(self) -> None:
        self.assertEqual(self.refusal(lambda vm: vm.sys_state_set("k", b"v")).related, Related(1, CommandType.SET_STATE))
        self.assertEqual(self.refusal(lambda vm: vm.sys_state_set("k", b"v")).code, 570)
        self.assertEqual(self.refusal(lambda vm: vm.sys_sleep(1000, name="nap")).code, 570)

    def test_it_awaits_what_hasnt_come(self) -> None:
        self.assertEqual(self.refusal(lambda vm: vm.do_await(vm.sys_awakeable().handle)).code, 570)

    def test_it_ends_while_a_command_is_left(self) -> None:
        self.assertEqual(self.refusal(lambda vm: vm.sys_end()).code, 571)

    def test_the_version_isnt_supported(self) -> None:
        with self.assertRaises(VMError) as raised:
            VM("application/vnd.restate.invocation.v4")
        self.assertEqual(raised.exception.code, 415)


ERRORS = [
    VMError(500, "no seat", "call sys_input first", "at x", Related(3, CommandType.RUN, "seat")),
    error_of(570, "CommandMismatchError"),
    error_of(570, "CommandMismatchError", difference=Difference(4, "parameter", '"Ada"', None, CommandType.CALL, CommandType.CALL)),
    error_of(598, "ClosedError"),
    Suspended(599, "SUSPENDED"),
    JournalFault(Fault.NO_SUCH_ID),
    Cancelled("the invocation was cancelled"),
    BadLine("a text is no UTF-8"),
    BadFrame("it isn't one whole frame"),
]
VALUES = [
    *(VOID, Failure(409, "cancelled", (("a", "b"),)), InvocationId("inv"), WorkflowId("w", "k"), Awakeable(17, "sign_1"), Run(17, True)),
    *(ExecuteRun(17), Waiting(True, False), Retryable(500, "later"), Related(1, CommandType.RUN), Input("inv", 1, "k", (("a", "b"),), b"x")),
    *(first_completed(17, all_completed(18, 19)), retry_fixed(500, attempts=3), retry_never(), Fault.BAD_OUTPUT),
    *(CommandType.RUN, NextCommand(CommandType.SLEEP, "nap"), LAST_COMMAND),
]


class Copies(unittest.TestCase):
    def copies(self, it: object) -> list[object]:
        pickled = [pickle.loads(pickle.dumps(it, protocol)) for protocol in range(2, pickle.HIGHEST_PROTOCOL + 1)]
        return [*pickled, copy.copy(it), copy.deepcopy(it)]

    def test_errors(self) -> None:
        for error in ERRORS:
            for made in self.copies(error):
                self.assertIs(type(made), type(error))
                self.assertEqual((str(made), vars(made)), (str(error), vars(error)))

    def test_values(self) -> None:
        for value in VALUES:
            for made in self.copies(value):
                self.assertEqual((type(made), made, str(made)), (type(value), value, str(value)))
        for only in (VOID, LAST_COMMAND):
            self.assertIs(pickle.loads(pickle.dumps(only)), only)

    def test_a_tree_that_was_awaited(self) -> None:
        vm = begun()
        tree = first_completed(vm.sys_sleep(1000), vm.sys_sleep(2000))
        vm.do_await(tree)
        self.assertEqual(pickle.loads(pickle.dumps(tree)), tree)


class Trees(unittest.TestCase):
    def test_a_tree_and_a_policy_are_no_texts(self) -> None:
        for it in (first_completed(17), retry_never()):
            self.assertNotIsInstance(it, str)
            with self.assertRaises(TypeError):
                begun().sys_state_set(it, b"")
        self.assertEqual((repr(first_completed(17)), repr(retry_never())), ("<Future fc(17)>", "<RetryPolicy none>"))
        self.assertEqual(len({first_completed(17), first_completed(17), all_completed(17)}), 2)

    def test_a_deep_tree(self) -> None:
        tree: int | Future = 17
        for _ in range(500):
            tree = first_completed(tree)
        self.assertEqual(str(tree), "fc(" * 500 + "17" + ")" * 500)
        self.assertIsInstance(retry_never(), RetryPolicy)


class Buffers(unittest.TestCase):
    """What a large payload took is given back while the VM, or the journal, goes on."""

    def setUp(self) -> None:
        vm = begun()  # what is made once is there before it is counted
        vm.sys_state_set("k", b"x")
        self.assertGreater(len(vm.take_output()), 1)
        self.assertEqual(vm.line("state"), "ok Processing")
        tracemalloc.start()
        self.addCleanup(tracemalloc.stop)

    def assert_given_back(self) -> None:
        """At most one buffer stays, and it isn't large."""
        gc.collect()
        self.assertLess(tracemalloc.get_traced_memory()[0], KEPT + 50_000)

    def test_those_of_a_vm(self) -> None:
        vm = begun()
        vm.sys_state_set("k", b"x" * LARGE)
        self.assertGreater(len(vm.take_output()), LARGE)
        vm.sys_state_set("k", b"x" * 3000)
        vm.take_output()
        self.assertEqual(vm.line("state"), "ok Processing")
        self.assertGreater(tracemalloc.get_traced_memory()[1], LARGE)
        self.assert_given_back()
        vm.free()

    def test_a_large_part(self) -> None:
        vm, text = begun(), "no tea " * LARGE
        vm.notify_error(418, text)
        with self.assertRaises(VMError) as raised:
            vm.sys_sleep(1000)
        self.assertEqual(raised.exception.text, text)
        del raised, text
        self.assert_given_back()
        vm.free()

    def test_those_of_a_journal(self) -> None:
        journal, vm = Journal([input_with(frame_of("Input"), b"x" * LARGE)]), begun()
        vm.sys_state_set("k", b"x" * LARGE)
        [row] = journal.store(vm.take_output()).rows
        self.assertGreater(len(row.frame), LARGE)
        del row
        self.assert_given_back()
        journal.free()

    def test_those_of_the_core(self) -> None:
        """What the process has of memory, in pages: a payload of 32 MiB that was sent isn't kept."""
        pages, vm, payload = pathlib.Path("/proc/self/statm"), begun(), b"x" * (16 * LARGE)
        before = int(pages.read_text().split()[1])
        vm.sys_complete_awakeable("sign_1", payload)
        self.assertGreater(len(vm.take_output()), len(payload))
        after = int(pages.read_text().split()[1])
        self.assertLess((after - before) * resource.getpagesize(), len(payload) // 2)
        vm.free()

    def test_those_of_what_was_taken(self) -> None:
        """20,000 sleeps that are taken one by one hold as much as a few. Kept places held 3 MB."""
        pages, vm = pathlib.Path("/proc/self/statm"), begun()
        before = 0
        for number in range(20_100):
            if number == 100:
                before = int(pages.read_text().split()[1])
            handle = vm.sys_sleep(1000)
            vm.take_output()
            vm.notify_input(completion(number + 1, b"\0"))
            vm.do_await(first_completed(handle))
            self.assertIs(vm.take_notification(handle), VOID)
        after = int(pages.read_text().split()[1])
        self.assertLess((after - before) * resource.getpagesize(), 1 << 20)
        vm.free()

    def test_a_part_that_is_gone(self) -> None:
        vm = begun()
        vm.sys_awakeable()
        vm.is_completed(17)  # as if another thread had made this call before the id was read
        with self.assertRaisesRegex(RuntimeError, "another thread's call of this VM came between"):
            vm._parts.text(0)


Called = Callable[[VM, bytes], object]

COPYING: dict[str, Called] = {
    "notify_input": lambda vm, data: vm.notify_input(completion(2**31, value_of(data))),
    "take_output": lambda vm, data: [vm.sys_state_set("k", data), vm.take_output()],
    "sys_state_set": lambda vm, data: vm.sys_state_set("k", data),
    "sys_call": lambda vm, data: vm.sys_call("S", "h", data),
    "sys_call with headers": lambda vm, data: vm.sys_call("S", "h", data, headers=[("a", "b")]),
    "sys_call_with_deadline": lambda vm, data: vm.sys_call_with_deadline("S", "h", data, 1000),
    "sys_send": lambda vm, data: vm.sys_send("S", "h", data),
    "sys_complete_awakeable": lambda vm, data: vm.sys_complete_awakeable("sign_1abc", data),
    "sys_complete_signal": lambda vm, data: vm.sys_complete_signal("inv", "s", data),
    "sys_complete_promise": lambda vm, data: vm.sys_complete_promise("p", data),
    "a bytearray": lambda vm, data: vm.sys_state_set("k", bytearray(data)),
}
"""Calls that copy a payload, and leave the VM such that they can be made again."""


def value_of(data: bytes) -> bytes:
    return b"\1" + len(data).to_bytes(8, "big") + data


class Locks(unittest.TestCase):
    """Calls that copy a large payload let other threads run, and others keep the interpreter's lock. A second thread's call finds the VM busy only
    while the lock is free."""

    LIMIT = 600  # seconds

    def is_found_busy(self, call: Called, data: bytes, rounds: int) -> bool:
        """Whether another thread's call comes into one of the calls."""
        vm, found, ended = begun(), threading.Event(), threading.Event()

        def ask() -> None:
            while not ended.is_set() and not found.is_set():
                try:
                    vm.last_command_index()
                except RuntimeError as error:
                    self.assertIn("has not ended", str(error))
                    found.set()

        other = threading.Thread(target=ask)
        other.start()
        until = time.monotonic() + self.LIMIT
        try:
            for _ in range(rounds):
                if found.is_set() or time.monotonic() > until:
                    break
                with contextlib.suppress(RuntimeError):  # this call may find the other's
                    call(vm, data)
                    vm.take_output()
        finally:
            ended.set()
            other.join()
        return found.is_set()

    def test_large_payloads(self) -> None:
        data = b"x" * LARGE
        for name, call in COPYING.items():
            with self.subTest(name):
                self.assertTrue(self.is_found_busy(call, data, 100_000))

    def test_small_payloads(self) -> None:
        for name, call in COPYING.items():
            with self.subTest(name):
                self.assertFalse(self.is_found_busy(call, b"x" * 100, 300))

    def test_the_results_are_whole(self) -> None:
        """Each call that lets other threads run gives what it gives without them."""
        data, vm = bytes(range(256)) * (LARGE // 256), begun()
        vm.sys_state_set("k", data)
        self.assertEqual(vm.take_notification(vm.sys_state_get("k")), data)
        self.assertEqual(vm.take_output().count(data), 2)  # it was set, and the read has it too
        run = vm.sys_run("r").handle
        self.assertEqual(vm.do_await(run), ExecuteRun(run))
        vm.propose_run_completion(run, data)
        vm.sys_write_output(data)
        self.assertEqual(vm.take_output().count(data), 2)
        self.assertEqual(fed(start(), input_frame(data)).sys_input().value, data)


class Version(unittest.TestCase):
    def test_it_is_the_packages(self) -> None:
        project = tomllib.loads((PROJECT / "pyproject.toml").read_text(encoding="utf-8"))["project"]
        self.assertEqual(palqytun.__version__, project["version"])
        self.assertEqual(palqytun.build.split()[0], palqytun.__version__)


if __name__ == "__main__":
    unittest.main()
