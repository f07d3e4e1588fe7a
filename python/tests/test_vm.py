"""What a VM answers, raises and hints at, in attempts."""

import ctypes.util
import os
import pathlib
import subprocess
import sys
import tempfile
import unittest

import palqytun
from attempt import CONTENT_TYPE, begun, cancel_signal, completion, fed, input_frame, sleep_frame, start
from palqytun import _abi
from palqytun import VM, Cancelled, Closed, Code, ExecuteRun, JournalMismatch, Suspended, VMError, Waiting
from palqytun import all_completed, first_completed


class Errors(unittest.TestCase):
    def refusal(self, call, *arguments) -> VMError:
        with self.assertRaises(VMError) as raised:
            call(*arguments)
        return raised.exception

    def test_a_mismatch(self) -> None:
        vm = fed(start(2), input_frame(), sleep_frame(1000, 1))
        vm.sys_input()
        error = self.refusal(vm.sys_run, "charge")
        self.assertIsInstance(error, JournalMismatch)
        self.assertEqual((error.code, error.text, error.hint), (Code.JOURNAL_MISMATCH, "CommandTypeMismatchError", None))
        self.assertEqual(str(error), "570 JOURNAL_MISMATCH: CommandTypeMismatchError: command 1 is recorded as Sleep, and the call makes Run")

    def test_the_end(self) -> None:
        vm = begun()
        vm.sys_end()
        error = self.refusal(vm.sys_sleep, 1000)
        self.assertIsInstance(error, Closed)
        self.assertEqual(error.code, Code.CLOSED)

    def test_a_suspension(self) -> None:
        vm = begun()
        slept = vm.sys_sleep(1000)
        vm.notify_input_closed()
        error = self.refusal(vm.do_await, slept)
        self.assertIsInstance(error, Suspended)
        self.assertEqual(error.code, Code.SUSPENDED)

    def test_another_error_is_of_no_class_of_its_own(self) -> None:
        self.assertIs(type(self.refusal(VM, "text/plain")), VMError)
        self.assertEqual(self.refusal(VM, None).code, Code.UNSUPPORTED_MEDIA_TYPE)

    def test_a_bad_frame(self) -> None:
        vm = fed(b"\xff" * 20)
        error = self.refusal(vm.sys_input)
        self.assertEqual((error.code, error.text, error.hint), (Code.PROTOCOL_VIOLATION, "BadMessage", None))

    def test_a_call_before_the_input(self) -> None:
        for call in (lambda vm: vm.sys_sleep(1000), lambda vm: vm.do_await(17), lambda vm: vm.sys_state_set("k", b"")):
            vm = fed(start(), input_frame())
            error = self.refusal(call, vm)
            self.assertEqual((error.code, error.hint), (Code.JOURNAL_MISMATCH, "call sys_input first"))
            self.assertTrue(str(error).endswith(" (call sys_input first)"))

    def test_a_call_before_the_journal(self) -> None:
        for known in [(), (start(),), (start(2), input_frame())]:
            for call in (VM.sys_input, lambda vm: vm.sys_sleep(1000)):
                vm = fed(*known)
                error = self.refusal(call, vm)
                self.assertEqual(error.hint, "feed input until is_ready_to_execute() is true, and call sys_input first")

    def test_a_second_input(self) -> None:
        self.assertEqual(self.refusal(begun().sys_input).hint, "sys_input was called before")

    def test_a_journal_without_an_input_gets_no_hint(self) -> None:
        error = self.refusal(fed(start(), sleep_frame(1000, 1)).sys_input)
        self.assertEqual((error.code, error.hint), (Code.JOURNAL_MISMATCH, None))

    def test_a_first_await_that_the_journal_lacks_gets_no_hint(self) -> None:
        vm = fed(start(2), input_frame(), sleep_frame(1000, 1))
        vm.sys_input()
        error = self.refusal(vm.do_await, 17)
        self.assertEqual((error.text, error.hint), ("UncompletedDoProgressDuringReplay", None))

    def test_names(self) -> None:
        for name in palqytun.__all__:
            self.assertTrue(hasattr(palqytun, name), name)
        self.assertEqual(palqytun.__all__, palqytun.core.__all__)


class Awaits(unittest.TestCase):
    def test_both_flags(self) -> None:
        with begun() as vm:
            slept, run = vm.sys_sleep(1000), vm.sys_run("charge")
            self.assertEqual(vm.do_await(slept), Waiting(input=True, run=False))
            self.assertEqual(vm.do_await(run.handle), ExecuteRun(run.handle))
            self.assertEqual(vm.do_await(all_completed(slept, run.handle)), Waiting(input=True, run=True))
            vm.notify_input_closed()
            self.assertEqual(vm.do_await(run.handle), Waiting(input=False, run=True))
            vm.propose_run_completion(run.handle, b"paid")
            with self.assertRaises(Suspended):
                vm.do_await(run.handle)

    def test_what_waits_is_false(self) -> None:
        for answer in (Waiting(True, True), Waiting(False, False), ExecuteRun(17)):
            self.assertFalse(answer)

    def test_awake(self) -> None:
        with begun() as vm:
            slept = vm.sys_sleep(1000)
            vm.notify_input(completion(1, b"\0"))
            self.assertIs(vm.do_await(first_completed(slept, vm.sys_sleep(2000))), True)

    def test_cancelled(self) -> None:
        with begun() as vm:
            vm.notify_input(cancel_signal())
            with self.assertRaises(Cancelled):
                vm.do_await(vm.sys_sleep(1000))


class Sessions(unittest.TestCase):
    def test_a_vm_that_was_let_go(self) -> None:
        vm = VM(CONTENT_TYPE)
        vm.free()
        vm.free()
        for call in (vm.state, vm.sys_input, vm.take_output, vm.notify_input_closed):
            with self.assertRaises(RuntimeError):
                call()

    def test_long_output(self) -> None:
        with begun() as vm:
            vm.sys_write_output(b"a" * 100_000)
            self.assertIn(b"a" * 100_000, vm.take_output())
            self.assertEqual(vm.take_output(), b"")


class Loading(unittest.TestCase):
    def run_python(self, code: str, library: str) -> subprocess.CompletedProcess[str]:
        path = str(pathlib.Path(palqytun.__file__).parents[1])
        env = {**os.environ, "PALQYTUN_LIBRARY": library, "PYTHONPATH": path}
        return subprocess.run([sys.executable, "-c", code], env=env, capture_output=True, text=True)

    def test_an_import_loads_nothing(self) -> None:
        ran = self.run_python("import palqytun.core; palqytun.retry_fixed(5); print(palqytun.Failure(500, 'no'))", "/nowhere.so")
        self.assertEqual((ran.returncode, ran.stdout), (0, "Failure(code=500, message='no', metadata=())\n"), ran.stderr)

    def test_a_library_that_is_missing(self) -> None:
        ran = self.run_python("import palqytun; palqytun.VM(None)", "/nowhere.so")
        self.assertEqual(ran.returncode, 1)
        self.assertRegex(ran.stderr.splitlines()[-1], "^ImportError: /nowhere.so: .*: ./bindings/build makes it")

    def test_another_library(self) -> None:
        other = ctypes.util.find_library("c")
        ran = self.run_python("import palqytun; palqytun.VM(None)", str(other))
        self.assertRegex(ran.stderr.splitlines()[-1], "^ImportError: .*: its interface has no number, and this package wants [0-9]+: ./bindings/build")

    def test_a_library_with_another_interface(self) -> None:
        with tempfile.TemporaryDirectory() as room:
            source, made = pathlib.Path(room, "other.c"), pathlib.Path(room, "other.so")
            source.write_text(f"unsigned palqytun_abi(void) {{ return {_abi.ABI + 1}; }}\n", encoding="utf-8")
            subprocess.run(["cc", "-shared", "-fPIC", str(source), "-o", str(made)], check=True)
            ran = self.run_python("import palqytun; palqytun.VM(None)", str(made))
        wanted = f"^ImportError: {made}: its interface has the number {_abi.ABI + 1}, and this package wants {_abi.ABI}: ./bindings/build"
        self.assertRegex(ran.stderr.splitlines()[-1], wanted)

    def test_a_library_that_lacks_a_function(self) -> None:
        with tempfile.TemporaryDirectory() as room:
            source, made = pathlib.Path(room, "other.c"), pathlib.Path(room, "other.so")
            source.write_text(f"unsigned palqytun_abi(void) {{ return {_abi.ABI}; }}\n", encoding="utf-8")
            subprocess.run(["cc", "-shared", "-fPIC", str(source), "-o", str(made)], check=True)
            ran = self.run_python("import palqytun; palqytun.VM(None)", str(made))
        self.assertRegex(ran.stderr.splitlines()[-1], f"^ImportError: {made}: .*palqytun_.*: ./bindings/build makes it")

    def test_arguments_are_checked_first(self) -> None:
        ran = self.run_python("import palqytun; palqytun.VM(None, wait='x')", "/nowhere.so")
        self.assertRegex(ran.stderr.splitlines()[-1], "^TypeError: VM has no option wait")


if __name__ == "__main__":
    unittest.main()
