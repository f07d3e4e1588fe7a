"""In what a call isn't as the journal has it: an error says it as `vmscript --details` does, with both values, and by a formatter's own names."""

import _testcapi
import copy
import gc
import json
import os
import pickle
import sys
import unittest
import unittest.mock
from collections.abc import Callable
from pathlib import Path

import palqytun
from attempt import CONTENT_TYPE, begun, completion, fed, input_frame, sleep_frame, start
from palqytun import VM, CommandType, Difference, JournalMismatch, VMError, _differing, content_type, first_completed
from palqytun.frames import frame_of, line_of, split

TOP = Path(__file__).resolve().parents[2]
sys.path.insert(0, str(TOP))
from tools.conformance import python_vm  # noqa: E402
from tools.conformance.suite import Step, Suite, add  # noqa: E402
from tools.programs.plays import Answered, all_plays  # noqa: E402

AWAITS = "and the code awaits what hasn't come"
CALL = 'Call service_name="Greeter" handler_name="greet" parameter="{}" invocation_id_notification_idx={} result_completion_id={}'


def in_python(about: str) -> str:
    """A line of --details as an exception's message. The ids that an await waits for are the VM's own."""
    if "UncompletedDoProgressDuringReplay" in about:
        error, _, waited = about.rpartition(": ")
        return f"{error}: {waited.partition('; ')[2]}, {AWAITS}"
    if about.startswith("573 "):
        error, _, lacks = about.rpartition(": ")
        return f"{error} ({lacks})"
    return about.replace("GetLazy", "Get").replace("GetEager", "Get")


def told(steps: list[Step]) -> dict[int, str]:
    """What the error of each step says that fails, by the places of the steps."""
    vm, found = VM(steps[0].get("content_type"), **steps[0].get("options", {})), {}
    for at, step in enumerate(steps[1:], 1):
        name = str(step["call"])
        given = {it: python_vm.argument(name, it, value) for it, value in step.items() if it not in ("call", *python_vm.WANTS)}
        try:
            getattr(vm, name)(**given)
        except VMError as error:
            found[at] = str(error)
    return found


class Rows(unittest.TestCase):
    def test_each_row_of_details(self) -> None:
        self.addCleanup(os.chdir, os.getcwd())
        os.chdir(TOP)
        names, files = all_plays("vmscript")
        types, count = {name: number for number, name in names.types.items()}, 0
        for play in files["crates/vmscript/rows/details.rows"]:
            assert isinstance(play, Answered)
            suite = Suite()
            add(suite, play, types)
            steps = json.loads(suite.rows[0].json)["steps"]
            said, lines = told(steps), play.input.decode().splitlines()
            for line, about in play.details:
                begun = sum(not it.startswith("#") for it in lines[: line - 1])
                first = min(at for at in said if at >= begun)  # an error that is handed in is raised by the next call
                with self.subTest(play.row, under=play.under):
                    self.assertEqual(said[first].removesuffix(" (call sys_input first)"), in_python(about))
                count += 1
        self.assertGreater(count, 90)


def refusal(call: Callable[[VM], object], *entries: bytes, **options: str) -> VMError:
    """What a call is refused by that comes after the input, where these entries are recorded."""
    vm = fed(start(1 + len(entries)), input_frame(), *entries, **options)
    vm.sys_input()
    try:
        call(vm)
    except VMError as error:
        return error
    raise AssertionError("the call was made")


def difference(call: Callable[[VM], object], *entries: bytes, **options: str) -> Difference | None:
    return refusal(call, *entries, **options).difference


class Fields(unittest.TestCase):
    def test_a_call_with_another_argument(self) -> None:
        error = refusal(lambda vm: vm.sys_call("Greeter", "greet", b"Bob"), frame_of(CALL.format("Ada", 1, 2)))
        self.assertIsInstance(error, JournalMismatch)
        self.assertEqual(error.difference, Difference(1, "parameter", '"Ada"', '"Bob"', CommandType.CALL, CommandType.CALL))
        text = '570 JOURNAL_MISMATCH: CommandMismatchError: command 1, Call, is recorded with parameter "Ada", and the call gives "Bob"'
        self.assertEqual(str(error), text)

    def test_ids_follow_those_before(self) -> None:
        """The call is made again where no ids are before it. Its own ids are those of its place."""
        entries = [sleep_frame(1000, 1), frame_of(CALL.format("Ada", 2, 3))]
        found = difference(lambda vm: [vm.sys_sleep(1000), vm.sys_call("Greeter", "greet", b"Bob")], *entries)
        self.assertEqual(found and (found.index, found.field), (2, "parameter"))
        entries[1] = frame_of(CALL.format("Ada", 2, 7))
        found = difference(lambda vm: [vm.sys_sleep(1000), vm.sys_call("Greeter", "greet", b"Ada")], *entries)
        self.assertEqual(found and (found.field, found.recorded, found.asked), ("result_completion_id", "7", "3"))

    def test_what_isnt_compared(self) -> None:
        """A payload that replay doesn't compare isn't named, although it differs too, and comes first."""
        entry = frame_of(CALL.format("Ada", 1, 2) + ' name="n"')
        for call, options in (
            (lambda vm: vm.sys_call("Greeter", "greet", b"Bob", name="m", unstable=True), {}),
            (lambda vm: vm.sys_call("Greeter", "greet", bytearray(b"Bob"), name="m", unstable=True), {}),
            (lambda vm: vm.sys_call("Greeter", "greet", b"Bob", name="m"), {"checks": "off"}),
        ):
            found = difference(call, entry, **options)
            self.assertEqual(found and (found.field, found.recorded, found.asked), ("name", '"n"', '"m"'))

    def test_a_large_payload(self) -> None:
        entry = frame_of('Output result=value("a")')
        found = difference(lambda vm: vm.sys_write_output(b'"\xff' + bytes(1 << 20)), entry)
        assert found is not None and found.asked is not None
        self.assertEqual((found.recorded, found.asked[:19], found.asked[-2:], len(found.asked)), ('value("a")', r'value("\x22\xff\x00', "..", 122))

    def test_a_default_and_an_empty_text(self) -> None:
        entry = frame_of(CALL.format("", 1, 2) + ' idempotency_key="i"')
        found = difference(lambda vm: vm.sys_call("Greeter", "greet", b"Ada", idempotency_key="i"), entry)
        self.assertEqual(found and (found.field, found.recorded, found.asked), ("parameter", None, '"Ada"'))
        found = difference(lambda vm: vm.sys_call("Greeter", "greet", b""), entry)
        self.assertEqual(found and (found.field, found.recorded, found.asked), ("idempotency_key", '"i"', None))

    def test_an_await_where_a_command_is_recorded(self) -> None:
        found = difference(lambda vm: vm.do_await(first_completed(vm.sys_awakeable().handle)), sleep_frame(1000, 1))
        self.assertEqual(found, Difference(1, "type", "Sleep", None, CommandType.SLEEP, None))

    def test_the_journal_may_come_in_pieces(self) -> None:
        journal = start(2) + input_frame() + sleep_frame(1000, 1) + completion(1, b"\0")[:-1]
        vm = fed(*(journal[at : at + 7] for at in range(0, len(journal), 7)))
        vm.sys_input()
        with self.assertRaises(VMError) as raised:
            vm.sys_run("charge")
        self.assertEqual(raised.exception.difference, Difference(1, "type", "Sleep", "Run", CommandType.SLEEP, CommandType.RUN))

    def test_each_later_call_says_the_same(self) -> None:
        vm = fed(start(2), input_frame(), sleep_frame(1000, 1))
        vm.sys_input()
        said = set[str]()
        for call in (lambda: vm.sys_sleep(1000, name="nap"), lambda: vm.sys_sleep(1000), vm.sys_awakeable, vm.sys_end, vm.take_output, vm.sys_end):
            try:
                call()
            except VMError as error:
                said.add(str(error))
        self.assertEqual(len(said), 1)
        self.assertIn('is recorded with name nothing, and the call gives "nap"', said.pop())

    def test_without_memory_for_it(self) -> None:
        """The error is raised as it is."""
        with unittest.mock.patch.object(_differing, "found", side_effect=MemoryError):
            error = refusal(lambda vm: vm.sys_run("charge"), sleep_frame(1000, 1))
        self.assertEqual((error.text, error.difference), ("CommandTypeMismatchError", None))

    def test_of_an_error_that_was_handed_in(self) -> None:
        vm = fed(start(2), input_frame(), sleep_frame(1000, 1))
        vm.sys_input()
        vm.notify_error(570, "CommandTypeMismatchError")
        with self.assertRaises(VMError) as raised:
            vm.sys_run("charge")
        self.assertIsNone(raised.exception.difference)

    def test_of_lines(self) -> None:
        """What a line has done isn't known, so nothing is said of it."""
        for lines in (['sleep "nap" 1000'], ['vm "' + CONTENT_TYPE + '"', f"input 0x{(start(2) + input_frame() + sleep_frame(1, 1)).hex()}", "sys_input"]):
            vm = fed(start(2), input_frame(), sleep_frame(1000, 1))
            vm.sys_input()
            for line in lines:
                vm.line(line)
            with self.assertRaises(VMError) as raised:
                vm.sys_run("charge")
            self.assertEqual((raised.exception.code, raised.exception.difference), (570, None))


class Retries(unittest.TestCase):
    """What is done after an error."""

    def error(self, vm: VM) -> VMError:
        with self.assertRaises(VMError) as raised:
            vm.sys_run("charge")
        return raised.exception

    def test_of_a_mismatch(self) -> None:
        for mismatch, behaviour in (("follow", "retry"), ("pause", "pause"), ("fail", "fail")):
            vm = fed(start(2), input_frame(), sleep_frame(1000, 1), mismatch=mismatch)
            vm.sys_input()
            error = self.error(vm)
            self.assertEqual((error.behaviour, error.delay), (behaviour, None))
            copied = pickle.loads(pickle.dumps(error))
            self.assertEqual((copied.behaviour, copied.difference), (behaviour, error.difference))

    def test_of_an_error_that_was_handed_in(self) -> None:
        vm = begun()
        vm.notify_error(418, "no tea", behaviour="pause", delay=500)
        error = self.error(vm)
        self.assertEqual((error.behaviour, error.delay), ("pause", 500))

    def test_of_lines(self) -> None:
        """It isn't known."""
        vm = begun()
        vm.notify_error(418, "no tea")
        with self.assertRaises(VMError) as raised:
            vm.call('run "charge"')
        self.assertEqual((raised.exception.behaviour, raised.exception.delay), (None, None))


class Features(unittest.TestCase):
    """What a call needs that the version hasn't."""

    def said(self, vm: VM, *calls: Callable[[], object]) -> list[str]:
        found = []
        for call in calls:
            try:
                call()
            except VMError as error:
                found.append(error.hint or "")
        return found

    def begun(self, version: int) -> VM:
        vm = VM(content_type(version))
        vm.notify_input(start() + input_frame())
        vm.sys_input()
        return vm

    def test_each_later_call_says_the_same(self) -> None:
        vm = self.begun(6)
        said = self.said(vm, lambda: vm.sys_send("S", "h", b"", limit_key="k"), lambda: vm.sys_call("S", "h", b"", scope="x"), vm.sys_end)
        self.assertEqual(said, ["a limit key needs version 7, and the VM has version 6"] * 3)

    def test_of_the_first_call_alone(self) -> None:
        vm = self.begun(6)
        vm.notify_error(418, "no tea", behaviour="pause")
        said = self.said(vm, lambda: vm.sys_call("S", "h", b"", scope="x"))
        self.assertEqual(said, ["another behaviour than retry needs version 7, and the VM has version 6"])

    def test_of_an_error_that_was_handed_in(self) -> None:
        vm = self.begun(6)
        vm.notify_error(573, "UnsupportedFeatureForNegotiatedVersion")
        self.assertEqual(self.said(vm, lambda: vm.sys_call("S", "h", b"", scope="x")), [""])


class Words(unittest.TestCase):
    NAMES = {CommandType.CALL: "ctx.service_call", CommandType.SLEEP: "ctx.sleep"}

    def test_an_sdks_own(self) -> None:
        error = refusal(lambda vm: vm.sys_call("Greeter", "greet", b"Bob"), frame_of(CALL.format("Ada", 1, 2)))
        self.assertEqual(error.in_words(), str(error))
        self.assertEqual(error.in_words(self.NAMES), str(error).replace("Call", "ctx.service_call"))
        error = refusal(lambda vm: vm.sys_run("charge"), sleep_frame(1000, 1))
        self.assertTrue(error.in_words(self.NAMES).endswith(": command 1 is recorded as ctx.sleep, and the call makes Run"))
        assert error.related is not None
        self.assertEqual(error.related.in_words({CommandType.RUN: "ctx.run"}), 'command 1, ctx.run "charge"')

    def test_of_an_error_without_a_difference(self) -> None:
        self.assertEqual(VMError(418, "no tea").in_words(self.NAMES), "418 no tea")

    def test_copies(self) -> None:
        error = refusal(lambda vm: vm.sys_run("charge"), sleep_frame(1000, 1))
        for made in (pickle.loads(pickle.dumps(error)), copy.copy(error), copy.deepcopy(error)):
            self.assertEqual((type(made), str(made), vars(made)), (type(error), str(error), vars(error)))
            self.assertIsNotNone(made.difference)


class Kept(unittest.TestCase):
    """What is fed is kept while the journal is replayed, and no longer."""

    def is_kept(self, then: Callable[[VM, int], object]) -> bool:
        vm = fed(start(2), input_frame(), sleep_frame(1000, 1))
        vm.sys_input()
        self.assertIsNotNone(vm._fed)
        then(vm, vm.sys_sleep(1000))
        return vm._fed is not None

    def test_until_the_vm_waits_or_writes(self) -> None:
        self.assertTrue(self.is_kept(lambda vm, slept: vm.take_output()))
        self.assertFalse(self.is_kept(lambda vm, slept: vm.do_await(slept)))
        self.assertFalse(self.is_kept(lambda vm, slept: vm.do_await(first_completed(slept))))
        self.assertFalse(self.is_kept(lambda vm, slept: [vm.sys_run("charge"), vm.take_output()]))
        self.assertFalse(self.is_kept(lambda vm, slept: vm.do_await(vm.sys_run("charge").handle)))
        self.assertFalse(self.is_kept(lambda vm, slept: vm.free()))

    def test_nothing_without_replay(self) -> None:
        self.assertIsNone(fed(start(), input_frame(), replay="off")._fed)

    def test_nothing_that_comes_later(self) -> None:
        vm = begun()
        before = vm._fed
        vm.notify_input(completion(1, b"\0"))
        self.assertIs(vm._fed, before)

    def test_nothing_once_the_vm_is_gone(self) -> None:
        piece = start()
        before, vm = sys.getrefcount(piece), VM(CONTENT_TYPE)
        vm.notify_input(piece)
        self.assertEqual(sys.getrefcount(piece), before + 1)
        del vm
        gc.collect()
        self.assertEqual(sys.getrefcount(piece), before)


if palqytun.implementation == "c":

    class Refused(unittest.TestCase):
        """By ctypes a call that finds no memory isn't made."""

        def test_without_memory_the_vm_is_fed(self) -> None:
            vm, journal = VM(CONTENT_TYPE), start() + input_frame()
            pieces = [journal[at : at + 4] for at in range(0, len(journal), 4)]
            for piece in pieces:
                try:
                    _testcapi.set_nomemory(0, 0)
                    vm.notify_input(piece)
                finally:
                    _testcapi.remove_mem_hooks()
            self.assertEqual((vm._fed, vm.sys_input().value), (None, b"Till"))


class Streams(unittest.TestCase):
    def test_a_stream_is_split(self) -> None:
        whole = frame_of("End") + sleep_frame(1000, 1)
        self.assertEqual([line_of(it) for _, it in split(memoryview(whole))], ["End", "Sleep wake_up_time=1000 result_completion_id=1"])
        for length in range(1, len(whole)):
            if length != len(frame_of("End")):
                with self.assertRaises(ValueError):
                    list(split(whole[:length]))


if __name__ == "__main__":
    unittest.main()
