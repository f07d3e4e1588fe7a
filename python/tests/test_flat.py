"""The calls without structs by value: each has the status of its plain form, and an attempt needs no struct but in memory."""

import ctypes
import pathlib
import re
import struct
import unittest

from attempt import CONTENT_TYPE, input_frame, start
from palqytun import _abi
from palqytun._library import library
from palqytun._structs import FUNCTIONS

HEADER = pathlib.Path(__file__).resolve().parents[2] / "bindings/palqytun_flat.h"
DECLARED = re.compile(r"^uint32_t (palqytun_flat_\w+)\((.*)\);$", re.M)
NUMBERS = {"bool": ctypes.c_bool, "uint32_t": ctypes.c_uint32, "uint64_t": ctypes.c_uint64, "size_t": ctypes.c_size_t}
REPLIED = struct.Struct("IIIII4xQNN")


def flat_functions() -> dict[str, tuple[ctypes._CFuncPtr, list[str]]]:
    """The functions of the header, with their parameters. Each takes numbers and pointers alone."""
    library()
    loaded = ctypes.CDLL(library().path)
    found = {}
    for name, taken in DECLARED.findall(re.sub(r"/\*.*?\*/", "", HEADER.read_text(encoding="utf-8"), flags=re.S)):
        function, words = getattr(loaded, name), taken.split(", ")
        function.argtypes = [ctypes.c_void_p if "*" in it else NUMBERS[it.split()[0]] for it in words]
        function.restype = ctypes.c_uint32
        found[name.removeprefix("palqytun_flat_")] = (function, words)
    return found


class Flat(unittest.TestCase):
    def setUp(self) -> None:
        self.functions = {name: it for name, (it, _) in flat_functions().items()}

    def test_each_call_with_a_struct_has_a_flat_form(self) -> None:
        by_value = {name for name, (taken, result) in FUNCTIONS.items() if any(is_struct(it) for it in (*taken, result))}
        self.assertEqual(self.functions.keys(), by_value)

    def test_nothing_gets_the_same_status(self) -> None:
        plain = ctypes.CDLL(library().path)
        for name, function in self.functions.items():
            taken, result = FUNCTIONS[name]
            other = getattr(plain, f"palqytun_{name}")
            other.argtypes, other.restype = taken, result
            given = [it() if is_struct(it) else 0 if it in NUMBERS.values() else None for it in taken]
            said = other(*given)
            status = said.status if is_struct(result) else said
            self.assertEqual(function(*[0 if it in NUMBERS.values() else None for it in function.argtypes]), status, name)

    def test_an_attempt(self) -> None:
        vm, out, plain = ctypes.c_void_p(), ctypes.create_string_buffer(REPLIED.size), ctypes.CDLL(library().path)
        self.assertEqual(plain.palqytun_open(ctypes.byref(vm)), _abi.DONE)
        name = CONTENT_TYPE.encode()
        self.assertEqual(self.functions["make"](vm, name, len(name), None, out), _abi.DONE)
        self.assertEqual(REPLIED.unpack(out.raw)[:3], (_abi.DONE, _abi.VERSION, 7))
        fed = start(1) + input_frame()
        self.assertEqual(plain.palqytun_feed(vm, fed, ctypes.c_size_t(len(fed))), _abi.DONE)
        self.assertEqual(self.functions["input"](vm, None), _abi.DONE)
        self.assertEqual(self.functions["sleep"](vm, b"rest", 4, 1000, out), _abi.DONE)
        self.assertEqual(REPLIED.unpack(out.raw)[:3], (_abi.DONE, _abi.HANDLE, 17))
        self.assertEqual(self.functions["state_get"](vm, b"\xff", 1, None, 0, out), _abi.BAD_TEXT)
        self.assertEqual(plain.palqytun_close(vm), _abi.DONE)
        self.assertEqual(self.functions["sleep"](vm, b"rest", 4, 1000, out), _abi.NO_SESSION)


def is_struct(it: object) -> bool:
    return isinstance(it, type) and issubclass(it, ctypes.Structure)


if __name__ == "__main__":
    unittest.main()
