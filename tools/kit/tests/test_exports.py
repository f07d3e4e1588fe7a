"""The functions that C calls are read from their signatures; what can't be read is named."""

import tempfile
import unittest
from pathlib import Path

from tools.kit.errors import Refused
from tools.kit.exports import Export, compare, read_exports, read_prototypes

TOP = Path(__file__).resolve().parents[3]
SOURCES = sorted((TOP / "crates/ffi/src").glob("*.rt"))
HEADER = TOP / "bindings/proved.h"

ONE = """
/// Does it.
#[unsafe(no_mangle)]
pub extern "C" fn proved_one(
    alloc: Global,
    vm: &mut Vm,
    name: Lent,
    at: usize,
    out: &mut [u8],
    unstable: bool,
) -> Told
    ensures { A vm.old.value (b result) }
{
    one(alloc, vm)
}
"""
DECLARED = """
/* Does it, as proved_none(x) doesn't. */
palqytun_told proved_one(palqytun_vm *vm, palqytun_bytes name, size_t at, uint8_t *out, size_t out_len,
    bool unstable);
"""


class Reading(unittest.TestCase):
    def setUp(self) -> None:
        self.room = Path(self.enterContext(tempfile.TemporaryDirectory()))

    def read(self, text: str) -> list[Export]:
        (self.room / "calls.rt").write_text(text, encoding="utf-8")
        return read_exports([self.room / "calls.rt"])

    def assert_refused(self, text: str, why: str) -> None:
        with self.assertRaisesRegex(Refused, why):
            self.read(text)

    def test_a_signature(self) -> None:
        (it,) = self.read(ONE)
        self.assertEqual((it.name, it.module, it.result), ("proved_one", "calls", "Told"))
        self.assertEqual([one.kind for one in it.parameters], ["allocator", "reference", "struct", "number", "slice", "number"])
        self.assertEqual(it.lowered, ["ptr", "ptr", "ptr", "i64", "ptr", "i64", "i1"])

    def test_its_wrapper_takes_no_struct_by_value(self) -> None:
        (it,) = self.read(ONE)
        self.assertIn("(made: *mut Told, alloc: Global, vm: &mut Vm, name: &Lent, at: usize, out: &mut [u8], unstable: bool)", it.wrapper())
        self.assertIn("std::ptr::write(made, proved_one(alloc, vm, *name, at, out, unstable))", it.wrapper())

    def test_what_cannot_be_read_is_named(self) -> None:
        for old, new, why in (
            ("name: Lent", "name: (u8, u8)", r"calls.rt: proved_one: the type `\(u8, u8\)` of the parameter name"),
            ("name: Lent", "name: *mut u8", r"proved_one: the type `\*mut u8` of the parameter name"),
            ("name: Lent", "name: Option<Lent>", "proved_one: the type `Option<Lent>` of the parameter name"),
            ("name: Lent", "Lent", "proved_one: the parameter `Lent` can't be read"),
            ("-> Told", "-> (u8, u8)", r"proved_one: the result `\(u8, u8\)` can't be returned to C"),
            ('extern "C" fn', "fn", "1 functions are marked no_mangle, and 0 were read"),
        ):
            self.assert_refused(ONE.replace(old, new), why)

    def test_a_signature_that_does_not_end(self) -> None:
        self.assert_refused(ONE[: ONE.index(") -> Told")], "proved_one: its signature can't be read")

    def prototypes(self, text: str) -> object:
        (self.room / "it.h").write_text(text, encoding="utf-8")
        return read_prototypes(self.room / "it.h")

    def test_a_prototype(self) -> None:
        (self.room / "it.h").write_text(DECLARED, encoding="utf-8")
        between = read_prototypes(self.room / "it.h")["proved_one"].between()
        self.assertIn("void lowered_proved_one(palqytun_told *, palqytun_vm *, palqytun_bytes *, size_t, uint8_t *, size_t, bool);", between)
        self.assertIn("lowered_proved_one(&made, vm, &name, at, out, out_len, unstable);", between)

    def test_a_prototype_that_cannot_be_read(self) -> None:
        with self.assertRaisesRegex(Refused, "it.h: these functions can't be read: proved_two"):
            self.prototypes("int proved_two(int (*call)(void));")
        with self.assertRaisesRegex(Refused, "it.h: the parameters of proved_two can't be read"):
            self.prototypes("int proved_two(int);")


class Comparing(unittest.TestCase):
    def setUp(self) -> None:
        self.exports, self.prototypes = read_exports(SOURCES), read_prototypes(HEADER)

    def test_the_repository(self) -> None:
        compare(self.exports, self.prototypes)
        self.assertEqual(len(self.exports), len(self.prototypes))

    def test_a_function_that_one_lacks(self) -> None:
        with self.assertRaisesRegex(Refused, "don't both have proved_new"):
            compare([it for it in self.exports if it.name != "proved_new"], self.prototypes)
        with self.assertRaisesRegex(Refused, "don't both have proved_make"):
            compare(self.exports, {name: it for name, it in self.prototypes.items() if name != "proved_make"})

    def test_a_function_that_differs(self) -> None:
        with self.assertRaisesRegex(Refused, "proved_make isn't the same function"):
            compare(self.exports, {**self.prototypes, "proved_make": self.prototypes["proved_line"]})


if __name__ == "__main__":
    unittest.main()
