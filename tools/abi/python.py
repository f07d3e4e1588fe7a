"""Python's tables of the interface. `python/src/palqytun/_abi.py` has the numbers of the header, and what calls take and return as plain values;
`_structs.py` has the structs and functions for ctypes."""

from __future__ import annotations

from . import glue, words
from .header import Header

MODULE = "python/src/palqytun/_abi.py"
STRUCTS = "python/src/palqytun/_structs.py"
PREFIX = "palqytun_"
SIMPLE = {
    "bool": "ctypes.c_bool",
    "uint16_t": "ctypes.c_uint16",
    "uint32_t": "ctypes.c_uint32",
    "uint64_t": "ctypes.c_uint64",
    "size_t": "ctypes.c_size_t",
    "uint8_t *": "ctypes.c_char_p",
    "const uint8_t *": "ctypes.c_char_p",
    "const char *": "ctypes.c_char_p",
    "palqytun_vm *": "ctypes.c_void_p",
    "palqytun_journal *": "ctypes.c_void_p",
    "palqytun_vm **": "ctypes.POINTER(ctypes.c_void_p)",
    "palqytun_journal **": "ctypes.POINTER(ctypes.c_void_p)",
}
NUMBERS = {"uint16_t": "int", "uint32_t": "int", "uint64_t": "int", "size_t": "int"}
SAID = {"bool": "bool", **NUMBERS}
PLAIN = {**SAID, "palqytun_bytes": "Octets", "palqytun_optional": "Octets | None", "const palqytun_pair *": "Pairs"}
MADE = {"palqytun_bytes": "Bytes.of(it.{})", "palqytun_optional": "Optional.of(it.{})", "const palqytun_pair *": "*pairs_of(it.{})"}
RETURNED = ("told", "replied", "retry", "row", "stored", "effect", "judged", "frame_row", "compared")

HEAD = '''"""The numbers of the library for C, and what its calls take and return. `tools/header --write` writes this file, from `palqytun.h`."""

from __future__ import annotations

from dataclasses import dataclass
from typing import Final, Protocol
'''

STRUCTS_HEAD = '''"""The structs and functions of the library for C, for ctypes. `tools/header --write` writes this file, from `palqytun.h`."""

from __future__ import annotations

import ctypes
from functools import lru_cache
from typing import Any

from palqytun import _abi

_SHORT = 100  # bytes
'''

PLAIN_HEAD = '''
Octets = bytes
Pairs = tuple[tuple[Octets, Octets], ...]
'''

PAIRS_OF = '''
def pairs_of(pairs: _abi.Pairs) -> tuple[ctypes.Array[Pair], int]:
    """The pairs as a row, and how many they are. The row has one at least, so that no pointer is NULL."""
    if not pairs:
        return _NO_PAIRS, 0
    return (Pair * len(pairs))(*(Pair(Bytes.of(key), Bytes.of(value)) for key, value in pairs)), len(pairs)


_NO_PAIRS = (Pair * 1)()
'''

OF = {
    "palqytun_bytes": """
    @classmethod
    def of(cls, it: bytes) -> Bytes:
        \"\"\"Bytes. Those that are likely to come again, as names and keys, are kept.\"\"\"
        return _short(it) if len(it) <= _SHORT else cls(it, len(it))""",
    "palqytun_optional": """
    @classmethod
    def of(cls, it: bytes | None) -> Optional:
        return _ABSENT if it is None else cls(True, Bytes.of(it))""",
}


BESIDE = {
    "palqytun_bytes": """

@lru_cache(maxsize=1024)
def _short(it: bytes) -> Bytes:
    return Bytes(it, len(it))""",
    "palqytun_optional": """

_ABSENT = Optional(False, Bytes(None, 0))""",
    "palqytun_pair": PAIRS_OF,
}


def _named(name: str) -> str:
    """The class of a struct: `palqytun_frame_row` is FrameRow."""
    return "".join(word.capitalize() for word in name.removeprefix(PREFIX).split("_"))


def _type(ty: str) -> str:
    """The type for ctypes."""
    if ty in SIMPLE:
        return SIMPLE[ty]
    plain = ty.removeprefix("const ").removesuffix("*").strip()
    return f"ctypes.POINTER({_named(plain)})" if ty.endswith("*") else _named(plain)


def _of(name: str, fields: list[tuple[str, str]]) -> str:
    """The function that makes a struct of plain values."""
    if name in OF:
        return OF[name]
    if name.removeprefix(PREFIX) not in glue.GIVEN:
        return ""
    made = ", ".join(MADE.get(ty, "it.{}").format(field) for ty, field in fields if not field.endswith("_len"))
    head = f"    @classmethod\n    def of(cls, it: _abi.{_named(name)}) -> {_named(name)}:"
    return f"\n{head}\n        return cls({made})"


def _struct(name: str, fields: list[tuple[str, str]]) -> str:
    rows = [f'        ("{field}", {_type(ty)}),' for ty, field in fields]
    said = [f"    {field}: {SAID[ty]}" for ty, field in fields if ty in SAID]
    lines = [f"class {_named(name)}(ctypes.Structure):", f'    """{name}."""', "", "    _fields_ = [", *rows, "    ]", *said, _of(name, fields)]
    return "\n".join([*lines, *([BESIDE[name]] if name in BESIDE else [])]).rstrip("\n")


def _given(name: str, fields: list[tuple[str, str]]) -> str:
    """What a call takes in place of a struct."""
    rows = [f"    {field}: {PLAIN[ty]}" for ty, field in fields if not field.endswith("_len")]
    return "\n".join(["@dataclass(slots=True)", f"class {_named(name)}:", f'    """{name}."""', "", *rows])


def _returned(name: str, fields: list[tuple[str, str]]) -> str:
    """What a call returns: numbers by their names."""
    rows = [f"    @property\n    def {field}(self) -> {SAID[ty]}: ..." for ty, field in fields]
    return "\n".join([f"class {_named(name)}(Protocol):", f'    """{name}."""', "", *rows])


def module_of(header: Header) -> str:
    """The text of the module of numbers and plain values."""
    parts = [HEAD]
    parts.append("\n".join(f"{name.removeprefix('PALQYTUN_')}: Final = {number}" for name, number in header.numbers.items()) + "\n")
    parts += ["\n".join(f"{name.removeprefix('PALQYTUN_')}: Final = {number}" for name, number in enum.items()) + "\n" for enum in header.enums]
    rows = [f'    {name}: "{text}",' for name, _, text in words.statuses(header)]
    parts.append("\n".join(["TEXTS: Final = {", *rows, "}", '"""What each status says."""']) + "\n")
    parts.append(f'HOW_TO_MAKE_IT: Final = "{words.HOW_TO_MAKE_IT}"\nANOTHER: Final = "{words.ANOTHER}"\n')
    parts.append(PLAIN_HEAD.lstrip("\n"))
    parts += ["\n" + _given(f"{PREFIX}{it}", header.structs[f"{PREFIX}{it}"]) + "\n" for it in glue.GIVEN]
    parts += ["\n" + _returned(f"{PREFIX}{it}", header.structs[f"{PREFIX}{it}"]) + "\n" for it in RETURNED]
    return "\n".join(parts)


def structs_of(header: Header) -> str:
    """The text of the module for ctypes."""
    parts = [STRUCTS_HEAD]
    parts += ["\n" + _struct(name, fields) + "\n" for name, fields in header.structs.items()]
    rows = []
    for name, it in header.functions.items():
        taken = ", ".join(_type(ty) for ty, _ in it.parameters)
        rows.append(f'    "{name.removeprefix(PREFIX)}": ([{taken}], {"None" if it.result == "void" else _type(it.result)}),')
    table = "\n".join(["FUNCTIONS: dict[str, tuple[list[Any], Any]] = {", *rows, "}", '"""What each function takes and returns, by its name without `palqytun_`."""'])
    return "\n".join([*parts, f"\n{table}\n"])
