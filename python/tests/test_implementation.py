"""The calls in C and those by ctypes: which are made, that both are one interface, and that those in C keep nothing and count what they hold."""

import gc
import json
import os
import pathlib
import resource
import shutil
import subprocess
import sys
import tempfile
import threading
import time
import tracemalloc
import unittest
from collections.abc import Callable

import palqytun
from attempt import CONTENT_TYPE, begun, completion, start, input_frame
from methods import parameters
from palqytun import VM, VOID, Failure, Waiting, _library, first_completed

PACKAGE = pathlib.Path(palqytun.__file__).parent
VARIABLE = "PALQYTUN_IMPLEMENTATION"
SHAPE = """
import inspect, json, palqytun
of = {}
for name in dir(palqytun.VM):
    it = inspect.getattr_static(palqytun.VM, name)
    if not name.startswith("_"):
        of[name] = (inspect.getdoc(it), list(inspect.signature(it).parameters) if callable(it) else None)
print(json.dumps([palqytun.implementation, of, palqytun.VM.__name__, palqytun.VM.__module__, palqytun.VM.__doc__]))
"""


def run(code: str, wanted: str | None, package: pathlib.Path = PACKAGE) -> subprocess.CompletedProcess[str]:
    env = {name: it for name, it in os.environ.items() if name != VARIABLE}
    env |= {"PYTHONPATH": str(package.parent)} | ({} if wanted is None else {VARIABLE: wanted})
    return subprocess.run([sys.executable, "-B", "-c", code], env=env, capture_output=True, text=True, timeout=600)


class Choice(unittest.TestCase):
    def implementation(self, wanted: str | None, package: pathlib.Path = PACKAGE) -> str:
        ran = run("import palqytun; palqytun.VM(None, seed=-1) if 0 else print(palqytun.implementation)", wanted, package)
        return ran.stdout.strip() or ran.stderr.splitlines()[-1]

    def test_the_environment_demands_one(self) -> None:
        for wanted in ("c", "ctypes"):
            self.assertEqual(self.implementation(wanted), wanted)
        self.assertEqual(self.implementation(None), "c")
        self.assertEqual(self.implementation("rust"), f"ImportError: {VARIABLE} must be c or ctypes, not 'rust'")
        self.assertEqual(palqytun.implementation, os.environ.get(VARIABLE, "c"))

    def test_a_package_without_the_module(self) -> None:
        with tempfile.TemporaryDirectory() as room:
            other = pathlib.Path(room, "palqytun")
            shutil.copytree(PACKAGE, other, ignore=shutil.ignore_patterns("*.so", "__pycache__", "runtime"))
            self.assertEqual(self.implementation(None, other), "ctypes")
            self.assertRegex(self.implementation("c", other), f"^ImportError: {VARIABLE} is c, but there is no module in C for this interpreter: ")

    def test_the_module_is_of_one_importer(self) -> None:
        """A second import in a process, as of another interpreter in it, gets calls by ctypes; the first keeps its own."""
        code = f"""
import sys, palqytun
first = palqytun.VM({CONTENT_TYPE!r})
for name in [it for it in sys.modules if it.split('.')[0] == 'palqytun']:
    del sys.modules[name]
import palqytun as again
print(palqytun.implementation, again.implementation, first.state(), again.VM({CONTENT_TYPE!r}).state())"""
        self.assertEqual(run(code, None).stdout, "c ctypes WaitingPreFlight WaitingPreFlight\n")

    def test_each_loads_what_it_needs(self) -> None:
        code = f"import sys, palqytun; palqytun.VM({CONTENT_TYPE!r}).sys_sleep; print('ctypes' in sys.modules, 'palqytun._c' in sys.modules)"
        self.assertEqual(run(code, "c").stdout, "False True\n")
        self.assertEqual(run(code, "ctypes").stdout, "True False\n")


class Interface(unittest.TestCase):
    def test_both_are_one(self) -> None:
        """Each method has the same parameters and the same text."""
        (first, *by_c), (second, *by_ctypes) = (json.loads(run(SHAPE, it).stdout) for it in ("c", "ctypes"))
        self.assertEqual((first, second), ("c", "ctypes"))
        self.assertEqual(by_c, by_ctypes)

    def test_the_parameters_are_those_of_the_sources(self) -> None:
        (_, of, *_) = json.loads(run(SHAPE, "c").stdout)
        self.assertEqual({name: taken[1:] for name, (_, taken) in of.items()}, {name: list(it) for name, it in parameters().items()})

    def test_a_class_below(self) -> None:
        class Own(VM):
            def sys_sleep(self, wake_up_time: int, **more: object) -> int:  # type: ignore[override]
                return super().sys_sleep(wake_up_time + 1)

        with Own(CONTENT_TYPE) as vm:
            vm.notify_input(start() + input_frame())
            vm.sys_input()
            self.assertEqual(vm.sys_sleep(999), 17)
            self.assertIn((1000).to_bytes(8, "big"), vm.take_output())

    def test_a_vm_that_was_not_made(self) -> None:
        for call in (VM.state, VM.take_output, VM.sys_end):
            with self.assertRaises((AttributeError, RuntimeError)):
                call(VM.__new__(VM))

    def test_a_method_of_something_else(self) -> None:
        with self.assertRaises((TypeError, AttributeError)):
            VM.state(object())  # type: ignore[arg-type]


def whole_attempt(vm: VM, at: int) -> None:
    """Calls of many kinds, in C and left to Python, refused ones too."""
    slept = vm.sys_sleep(1000, name="nap")
    vm.sys_state_set("key", b"value", name=None, unstable=True)
    vm.do_await(slept)
    vm.do_await(first_completed(slept, vm.sys_state_get("key")))
    for wrong in (lambda: vm.sys_sleep(-1), lambda: vm.sys_sleep("x"), lambda: vm.sys_state_set("\udcff", b""), lambda: vm.sys_sleep(1, nap="x")):
        try:
            wrong()
        except (TypeError, ValueError):
            continue
        raise AssertionError("a wrong argument was taken")
    vm.notify_input(completion(2 * at + 1, b"\0"))
    vm.do_await(slept)
    vm.take_notification(slept)
    vm.sys_call("Greeter", "greet", bytearray(b"Ada"), headers=[("a", "b")])
    vm.take_output()


def resident() -> int:
    """Bytes of memory that this process has."""
    return int(pathlib.Path("/proc/self/statm").read_text().split()[1]) * resource.getpagesize()


def traced() -> int:
    """Bytes that Python's allocators have given."""
    return tracemalloc.get_traced_memory()[0]


class Memory(unittest.TestCase):
    CALLS = 100_000

    def growth(self, measure: Callable[[], int], call: Callable[[int], None], calls: int) -> int:
        """How many bytes more there are after so many calls. What is made once may come in one stretch of calls, and a leak comes in each: so it is
        the least of three stretches."""
        found = []
        for _ in range(3):
            gc.collect()
            before = measure()
            for at in range(calls // 3):
                call(at)
            gc.collect()
            found.append(measure() - before)
        return min(found)

    def assert_no_growth(self, call: Callable[[int], None], calls: int = CALLS) -> None:
        """So many calls leave less than ten bytes each behind: no block of Python's, and no page to speak of."""
        self.growth(resident, call, 300)
        self.assertLess(self.growth(resident, call, calls), 10 * calls // 3 + 50_000)
        tracemalloc.start()
        self.addCleanup(tracemalloc.stop)
        self.growth(traced, call, 300)
        self.assertLess(self.growth(traced, call, 3000), 10_000)

    def test_calls_that_change_nothing(self) -> None:
        vm = begun(awaiting="never")
        slept = vm.sys_sleep(1000)

        def call(at: int) -> None:
            vm.state(), vm.last_command_index(), vm.is_completed(slept), vm.do_await(slept), vm.take_notification(slept), vm.is_ready_to_execute()

        self.assert_no_growth(call)

    def test_wrong_arguments(self) -> None:
        vm = begun()

        def call(at: int) -> None:
            for wrong in (lambda: vm.is_completed(-1), lambda: vm.sys_sleep("x"), lambda: vm.sys_state_set(b"k", b"")):
                with self.assertRaises((TypeError, ValueError)):
                    wrong()

        self.assert_no_growth(call, 9_000)

    def test_values(self) -> None:
        """State that is set, read and taken, in attempts of a hundred reads."""
        kept = [begun()]

        def call(at: int) -> None:
            if at % 100 == 0:
                kept[0] = begun()
            vm = kept[0]
            vm.sys_state_set("key", bytes(at % 700))
            self.assertEqual(vm.take_notification(vm.sys_state_get("key")), bytes(at % 700))
            vm.take_output()

        self.assert_no_growth(call)

    def test_refusals(self) -> None:
        vm = begun()
        vm.notify_error(418, "no tea", stacktrace="at the pot", related=palqytun.LAST_COMMAND)

        def call(at: int) -> None:
            with self.assertRaises(palqytun.VMError):
                vm.sys_sleep(1000)

        self.assert_no_growth(call, 6_000)

    def test_vms(self) -> None:
        def call(at: int) -> None:
            VM(CONTENT_TYPE)

        self.assert_no_growth(call)

    def test_a_leak_is_found(self) -> None:
        """The measure notices what is kept: bytes of Python's, and VMs."""
        kept = list[object]()
        with self.assertRaises(AssertionError):
            self.assert_no_growth(lambda at: kept.append(bytes(20)))
        with self.assertRaises(AssertionError):
            self.assert_no_growth(lambda at: kept.append(VM(CONTENT_TYPE)), 3_000)

    def test_whole_attempts(self) -> None:
        def call(at: int) -> None:
            vm = begun()
            whole_attempt(vm, 0)
            if at % 2:
                vm.free()

        self.assert_no_growth(call, 1_500)

    def test_counts_of_what_is_held(self) -> None:
        """What is passed to calls, and what they return, is held by nobody afterwards."""
        vm = begun()
        slept = vm.sys_sleep(1000)
        held: list[object] = ["a key that is no other", b"a value that is no other", VOID, True, None, vm.do_await(slept), vm.state(), 10**9, VM]
        self.assertIsInstance(held[5], Waiting)
        before = [sys.getrefcount(it) for it in held]
        for _ in range(1000):
            vm.sys_state_set(held[0], held[1], name=None, unstable=True)  # type: ignore[arg-type]
            vm.take_notification(vm.sys_state_get(held[0]))  # type: ignore[arg-type]
            vm.sys_sleep(held[7], name=held[0])  # type: ignore[arg-type]
            vm.sys_call(held[0], held[0], held[1], key=held[0], name=held[0])  # type: ignore[arg-type]
            vm.sys_write_output(held[1])  # type: ignore[arg-type]
            vm.do_await(slept), vm.state(), vm.take_output()
            with self.assertRaises(TypeError):
                vm.sys_state_set(held[0], held[0])  # type: ignore[arg-type]
        gc.collect()
        for it, count in zip(held, before, strict=True):
            self.assertLess(abs(sys.getrefcount(it) - count), 20, repr(it))


class Threads(unittest.TestCase):
    def each(self, count: int, work: Callable[[int], None]) -> None:
        """Does work on threads at once; none may fail."""
        failed = list[BaseException]()

        def guarded(at: int) -> None:
            try:
                work(at)
            except BaseException as error:
                failed.append(error)

        threads = [threading.Thread(target=guarded, args=(at,)) for at in range(count)]
        for it in threads:
            it.start()
        for it in threads:
            it.join()
        self.assertEqual(failed, [])

    def test_a_vm_each(self) -> None:
        def work(at: int) -> None:
            for _ in range(200):
                with begun() as vm:
                    whole_attempt(vm, 0)

        self.each(8, work)

    def test_one_for_all(self) -> None:
        """Calls of one VM that meet each other are made one after another, or refused: nothing else comes of them."""
        vm, until = begun(), time.monotonic() + 5
        data = b"x" * 200_000

        def work(at: int) -> None:
            while time.monotonic() < until:
                try:
                    vm.sys_state_set("k", data)
                    vm.take_notification(vm.sys_state_get("k"))
                    vm.take_output()
                    vm.do_await(vm.sys_sleep(1000))
                except RuntimeError as error:
                    self.assertRegex(str(error), "has not ended|came between")

        self.each(4, work)
        self.assertEqual(vm.state(), "Processing")

    def test_a_vm_that_is_freed_meanwhile(self) -> None:
        """A call of a VM that another thread frees is refused, or was made before."""
        for _ in range(50):
            vm = begun()
            barrier = threading.Barrier(2)

            def work(at: int, vm: VM = vm, barrier: threading.Barrier = barrier) -> None:
                barrier.wait()
                try:
                    vm.free() if at else [vm.sys_state_set("k", b"x" * 100_000) for _ in range(20)]
                except RuntimeError as error:
                    self.assertRegex(str(error), "has not ended|was closed")

            self.each(2, work)


class Left(unittest.TestCase):
    """What the methods in C leave to those in Python."""

    def test_results_of_each_kind(self) -> None:
        vm = begun()
        vm.sys_state_set("k", b"v")
        self.assertEqual(vm.take_notification(vm.sys_state_get_keys()), ["k"])
        vm = begun()
        slept = vm.sys_sleep(1000)
        vm.notify_input(completion(1, b"\2" + (500).to_bytes(4, "big") + bytes(7) + b"\2no" + bytes(8)))
        self.assertIs(vm.do_await(slept), True)
        self.assertEqual(vm.take_notification(slept), Failure(500, "no"))

    def test_numbers_and_texts_of_classes_of_their_own(self) -> None:
        class Number(int):
            pass

        class Text(str):
            pass

        vm = begun()
        self.assertEqual(vm.sys_sleep(Number(1000), name=Text("nap")), 17)
        self.assertIn(b"nap", vm.take_output())
        self.assertIs(vm.is_completed(Number(17)), False)
        vm.sys_state_set(Text("k"), memoryview(b"v"))
        self.assertEqual(vm.take_notification(vm.sys_state_get(Text("k"))), b"v")

    def test_which_are_made_in_c(self) -> None:
        extension = _library.extension
        self.assertEqual(extension is not None, palqytun.implementation == "c")
        if extension is not None:
            self.assertLessEqual({"sys_sleep", "do_await", "take_notification", "take_output", "notify_input"}, set(extension.METHODS))
            self.assertLessEqual(set(extension.METHODS), set(parameters()))


if __name__ == "__main__":
    unittest.main()
