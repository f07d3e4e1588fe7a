"""Each call without structs by value: `bindings/palqytun_flat.h` and `bindings/flat.c`, for callers whose foreign functions take and return numbers and
pointers alone."""

from __future__ import annotations

from tools.kit.exports import Prototype

from .header import Header

HEADER = "bindings/palqytun_flat.h"
CODE = "bindings/flat.c"
PREFIX, FLAT = "palqytun_", "palqytun_flat_"
SAID = "/* tools/header --write writes this file, from palqytun.h. */\n"
LENT = {"palqytun_bytes": "(palqytun_bytes){{{0}, {0}_len}}", "palqytun_optional": "(palqytun_optional){{{0} != NULL, {{{0}, {0}_len}}}}"}

HEAD = """/* The calls of palqytun.h without structs by value, for foreign functions that take and return numbers and pointers alone.

   Each is named as the call of palqytun.h that it makes, and differs in this: bytes are a pointer and a length; so are optional bytes, of
   which there are none if the pointer is NULL; and what the call returns is written to returned, which may be NULL. The status is returned too. */
"""


def _is_struct(ty: str) -> bool:
    return ty.startswith(PREFIX) and not ty.endswith("*")


def is_flattened(it: Prototype) -> bool:
    """Whether a function takes or returns a struct by value."""
    return _is_struct(it.result) or any(_is_struct(ty) for ty, _ in it.parameters)


def _declared(ty: str, name: str) -> list[str]:
    if ty in LENT:
        return [f"const uint8_t *{name}", f"size_t {name}_len"]
    return [f"{ty}{'' if ty.endswith('*') else ' '}{name}"]


def head(it: Prototype) -> str:
    """The flat form of a function, as it is declared."""
    taken = [text for ty, name in it.parameters for text in _declared(ty, name)]
    taken += [f"{it.result} *returned"] if _is_struct(it.result) else []
    return f"uint32_t {FLAT}{it.name.removeprefix(PREFIX)}({', '.join(taken)})"


def row(it: Prototype) -> str:
    """The flat form of a function, by its types."""
    name, _, taken = head(it).removeprefix("uint32_t ").partition("(")
    return f"{name}({', '.join(word.rpartition(' ')[0] + ' *' * ('*' in word.rpartition(' ')[2]) for word in taken.rstrip(')').split(', '))}) -> uint32_t"


def _function(it: Prototype) -> str:
    call = f"{it.name}({', '.join(LENT.get(ty, '{0}').format(name) for ty, name in it.parameters)})"
    if not _is_struct(it.result):
        return f"{head(it)}\n{{\n    return {call};\n}}\n"
    return f"{head(it)}\n{{\n    {it.result} made = {call};\n    if (returned != NULL)\n        *returned = made;\n    return made.status;\n}}\n"


def declared(header: Header) -> str:
    """The text of the header."""
    rows = [f"{head(it)};" for it in header.functions.values() if is_flattened(it)]
    guard = '#ifndef PALQYTUN_FLAT_H\n#define PALQYTUN_FLAT_H\n\n#include "palqytun.h"\n\n#ifdef __cplusplus\nextern "C" {\n#endif\n'
    return "\n".join([HEAD + SAID + guard, *rows, "\n#ifdef __cplusplus\n}\n#endif\n\n#endif\n"])


def code(header: Header) -> str:
    """The text of the functions."""
    functions = [_function(it) for it in header.functions.values() if is_flattened(it)]
    return f'/* The functions of palqytun_flat.h. */\n{SAID}#include "palqytun_flat.h"\n\n' + "\n".join(functions)
