"""The output that a VM lends: the bytes that `take_output` would copy, as they were while they are read, whatever comes meanwhile."""

import _testcapi
import gc
import pathlib
import resource
import unittest

import palqytun
from attempt import CONTENT_TYPE, begun
from palqytun import VM, _library

LARGE = 1 << 21
MAPPED = 1 << 25  # bytes that malloc gives back at once


def pages() -> int:
    """Bytes of memory that this process has."""
    return int(pathlib.Path("/proc/self/statm").read_text().split()[1]) * resource.getpagesize()


class Loans(unittest.TestCase):
    def test_the_bytes_are_those_of_the_output(self) -> None:
        for size in (0, 5, 600, _library.KEPT + 1, LARGE):
            one, other = begun(), begun()
            for vm in (one, other):
                vm.sys_state_set("k", b"x" * size)
            with one.lend_output() as output:
                self.assertEqual(bytes(output), other.take_output())
                self.assertTrue(output.readonly)
            self.assertEqual((one.take_output(), bytes(one.lend_output())), (b"", b""))

    def test_other_calls_leave_it(self) -> None:
        vm = begun()
        vm.sys_state_set("k", b"first")
        with vm.lend_output() as output:
            before = bytes(output)
            for at in range(300):
                vm.sys_state_set(f"k{at}", b"x" * 1000)
                if at % 100 == 99:
                    self.assertIn(b"k%d" % at, vm.take_output())
            vm.sys_state_set("k", b"last")
            self.assertEqual(bytes(output), before)
        self.assertIn(b"last", bytes(vm.lend_output()))

    def test_it_outlives_the_vm(self) -> None:
        vm = begun()
        vm.sys_state_set("k", b"x" * LARGE)
        output = vm.lend_output()
        del vm
        gc.collect()
        self.assertEqual(bytes(output).count(b"x"), LARGE)

    def test_what_was_large_is_given_back(self) -> None:
        vm, payload = begun(), b"x" * MAPPED
        before = pages()
        vm.sys_complete_awakeable("sign_1", payload)
        with vm.lend_output() as output:
            self.assertGreater(len(output), MAPPED)
        vm.lend_output().release()
        self.assertLess(pages() - before, MAPPED // 2)

    def test_the_output_ends_the_replay(self) -> None:
        vm = begun()
        vm.lend_output().release()
        self.assertIsNotNone(vm._fed)
        vm.sys_state_set("k", b"v")
        vm.lend_output().release()
        self.assertIsNone(vm._fed)

    def test_a_vm_that_was_not_made(self) -> None:
        with self.assertRaises((AttributeError, RuntimeError)):
            VM.lend_output(VM.__new__(VM))
        vm = VM(CONTENT_TYPE)
        self.assertEqual(bytes(vm.lend_output()), b"")


if palqytun.implementation == "c":

    class Views(unittest.TestCase):
        """By ctypes the bytes are a copy, of which the VM knows nothing."""

        def test_what_would_end_it_is_refused(self) -> None:
            vm = begun()
            vm.sys_state_set("k", b"v")
            with vm.lend_output() as output:
                before = bytes(output)
                for call in (vm.free, vm.lend_output, lambda: vm.__exit__(None, None, None)):
                    with self.assertRaisesRegex(BufferError, "^the output that was lent is still read$"):
                        call()
                self.assertEqual((bytes(output), vm.state()), (before, "Processing"))
                with memoryview(output)[3:] as part:
                    output.release()
                    with self.assertRaises(BufferError):
                        vm.free()
                    self.assertEqual(bytes(part), before[3:])
            vm.free()
            with self.assertRaises(RuntimeError):
                vm.lend_output()

        def test_without_memory_for_a_view(self) -> None:
            """Nothing is lost, and nothing comes before it."""
            vm = begun()
            vm.sys_state_set("k", b"first")
            _testcapi.set_nomemory(0, 0)
            try:
                vm.lend_output()
            except MemoryError:
                refused = True
            finally:
                _testcapi.remove_mem_hooks()
            self.assertTrue(refused)
            vm.sys_state_set("k", b"second")
            self.assertRaises(MemoryError, vm.take_output)
            with vm.lend_output() as output:
                self.assertIn(b"first", bytes(output))
                self.assertNotIn(b"second", bytes(output))
            self.assertIn(b"second", vm.take_output())


if __name__ == "__main__":
    unittest.main()
