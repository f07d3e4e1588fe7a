"""The C code between the header's functions and the proved calls: `bindings/proved.h` declares the latter, and `bindings/calls.c` has a
function of the header for each, which takes the handle, lends what it is given, and makes the call."""

from __future__ import annotations

from collections.abc import Iterator

from tools.kit.exports import Export, Parameter

from .sources import NUMBERS, STRUCTS, c_types

PROVED, PUBLIC = "proved_", "palqytun_"
KINDS = {"Vm": ("palqytun_vm", "A_VM"), "Journal": ("palqytun_journal", "A_JOURNAL")}
"""The types of what a handle is of: the handle's type in C, and the kind."""
MADE = {"proved_new", "proved_free", "proved_journal_new", "proved_journal_free"}
"""The calls that `bindings/handles.c` makes itself."""
WITH_ARRAYS = {"GivenValue", "GivenTarget"}
SAID = "/* tools/header --write writes this file, from crates/ffi. */\n"


def _plain(ty: str) -> str:
    """The type without its reference and lifetime."""
    return ty.removeprefix("&").removeprefix("mut ").strip().partition("<")[0]


def _is_handle(it: Parameter) -> bool:
    return it.kind == "reference" and _plain(it.type) in KINDS


def _is_written(it: Parameter) -> bool:
    """Whether the call writes a struct there."""
    return it.kind == "reference" and it.type.startswith("&mut") and not _is_handle(it)


def _declared(it: Parameter, handle: str) -> list[str]:
    """The parameters in C that a parameter is."""
    if _is_handle(it):
        return [f"{handle}{it.name}"]
    types = c_types(it.type)
    names = [it.name, f"{it.name}_len"]
    return [f"{ty}{'' if ty.endswith('*') else ' '}{name}" for ty, name in zip(types, names, strict=False)]


def _head(it: Export, name: str, handle: str) -> str:
    result = "void" if it.result is None else NUMBERS.get(it.result) or STRUCTS[it.result]
    taken = [text for one in it.parameters for text in _declared(one, handle)]
    return f"{result} {name}({', '.join(taken) or 'void'})"


def _handle(it: Export) -> tuple[str, str, str] | None:
    """The name of the parameter that is a handle, its type, and its kind, if there is one."""
    for one in it.parameters:
        if _is_handle(one):
            return (one.name, *KINDS[_plain(one.type)])
    return None


def proved_header(exports: list[Export]) -> str:
    """The text of bindings/proved.h."""
    rows = [f"{_head(it, it.name, 'palqytun_held *')};" for it in exports]
    return "\n".join([
        "/* The proved calls, which the crate `ffi` exports. They stand behind bindings/calls.c, and aren't shown to callers. */",
        SAID + "#ifndef PALQYTUN_PROVED_H\n#define PALQYTUN_PROVED_H\n\n#include \"handles.h\"\n",
        *rows,
        "\n#endif\n",
    ])


def _lent(it: Parameter) -> Iterator[str]:
    """The lines that lend what a parameter is."""
    plain = _plain(it.type)
    if it.kind == "slice" and it.type.startswith("&mut"):
        yield f"{it.name} = lend_room(&status, {it.name}, {it.name}_len);"
    elif it.kind == "slice":
        yield f"{it.name} = lend_items(&status, {it.name}, {it.name}_len, sizeof *{it.name});"
    elif _is_written(it):
        yield f"lend_out(&status, {it.name});"
    elif it.kind == "struct":
        yield f"lend_{STRUCTS[plain].removeprefix(PUBLIC)}(&status, &{it.name});"
    elif it.kind == "reference" and plain not in KINDS:
        arrays = ", &arrays" if plain in WITH_ARRAYS else ""
        yield f"lend_{STRUCTS[plain].removeprefix(PUBLIC)}(&status, {it.name}, &lent_{it.name}{arrays});"


def _given(it: Parameter) -> list[str]:
    """What the proved call is given for a parameter."""
    if it.kind == "allocator":
        return []
    if _is_handle(it):
        return ["held"]
    if it.kind == "slice":
        return [it.name, f"{it.name}_len"]
    return [f"&lent_{it.name}" if it.kind == "reference" and not _is_written(it) else it.name]


def _function(it: Export) -> str:
    """The function of the header for a proved call."""
    handle = _handle(it)
    name = PUBLIC + it.name.removeprefix(PROVED)
    has_arrays = any(one.kind == "reference" and _plain(one.type) in WITH_ARRAYS for one in it.parameters)
    lines = ["uint32_t status = PALQYTUN_DONE;"]
    if has_arrays:
        lines.append("lent_arrays arrays = {0};")
    for one in it.parameters:
        if one.kind == "reference" and not _is_handle(one) and not _is_written(one):
            lines.append(f"{STRUCTS[_plain(one.type)]} lent_{one.name} = {{0}};")
    lines += [line for one in it.parameters for line in _lent(one)]
    if handle:
        lines.append(f"palqytun_held *held = handle_take(&status, {handle[0]}, {handle[2]});")
    call = f"{it.name}({', '.join(word for one in it.parameters for word in _given(one))})"
    result = NUMBERS.get(it.result or "") or STRUCTS[it.result or ""]
    none = "status" if result == "uint32_t" else f"({result}){{.status = status}}"
    lines += ["if (status != PALQYTUN_DONE) {", "    lend_end(&arrays);", f"    return {none};", "}"] if has_arrays else ["if (status != PALQYTUN_DONE)", f"    return {none};"]
    lines.append(f"{result} made = {call};")
    lines += ["handle_give(held);"] if handle else []
    lines += ["lend_end(&arrays);"] if has_arrays else []
    lines.append("return made;")
    body = "\n".join(f"    {line}" for line in lines)
    return f"{_head(it, name, f'{handle[1]} *' if handle else '')}\n{{\n{body}\n}}\n"


def calls(exports: list[Export]) -> str:
    """The text of bindings/calls.c."""
    functions = [_function(it) for it in exports if it.name not in MADE]
    head = (
        "/* The functions of the header, each over the proved call of its name: what the caller lends is made fit for it (bindings/lending.c),\n"
        "   the handle is taken and given back (bindings/handles.c), and the call is made. */\n"
    )
    return head + SAID + '#include "proved.h"\n\n' + "\n".join(functions)
