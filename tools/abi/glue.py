"""The calls of bindings that are written in C: `calls.c` in the folder of each, beside its `glue.h`, which says how a value of the language is read
and made. Each function of the header is there as `call_NAME`: it reads its arguments, makes the call, and gives back what that returned.

`glue.h` has: `it_value`, a value; `CALL(name)` and `BEGIN(count)`, the head and the first lines of a function; `ARG(i)`; `field(lent, value, name)`;
`read_X(lent, value)` for bytes, optional, pairs, nodes, handle, bool, u16, u32, u64 and size; `is_read(lent)`, whether all was read;
`give_X(lent, ..)` for status, replied and bytes, and `give_row(lent, names, values, count)` for other structs; `MAKES(name)` for the table.
Where the interpreter has a lock, `UNLOCKED(size, call)` makes a call that copies about so many bytes."""

from __future__ import annotations

from dataclasses import dataclass

from tools.kit.exports import Prototype

from . import loading
from .header import Header

PREFIX = "palqytun_"
NUMBERS = {"bool": "bool", "uint16_t": "u16", "uint32_t": "u32", "uint64_t": "u64", "size_t": "size"}
OWN = frozenset({"open", "open_over", "journal_open", "close", "journal_close", "abi", "version", "build", "is_proved", "status_name", "status_text", "code_name"})
"""What a binding has in its own way."""
LENDS = frozenset({"lend_output"})
"""What lends the caller memory, of which a value of the language would be a copy."""
LINES = frozenset({"line", "answer"})


@dataclass(frozen=True)
class Folder:
    """How a call is made, and which calls `calls.c` lacks."""

    how: str = "{call}"
    lacks: frozenset[str] = OWN | LENDS | LINES


FOLDERS = {
    "bindings/java/src/main/c": Folder(),
    "bindings/node/src": Folder(),
    "bindings/ruby/ext/palqytun": Folder(),
    "python/extension": Folder("UNLOCKED({size}, {call})", OWN | LENDS),
}
GIVEN = ("options", "target", "value", "error", "command", "invocation", "policy")
OUT = [("uint8_t *", "out"), ("size_t", "out_len"), ("palqytun_told *", "returned")]

HEAD = """/* The calls of palqytun_abi.h with values of the language. */
{said}#include "glue.h"
"""


def _reader(name: str, fields: list[tuple[str, str]]) -> str:
    """A function that reads a struct of its fields."""
    plain = name.removeprefix(PREFIX)
    rows = [f"static {name} read_{plain}(struct lent *lent, it_value of)", "{", f"    {name} made = {{0}};"]
    for ty, field in fields:
        if ty == "const palqytun_pair *":
            rows.append(f'    made.{field} = read_pairs(lent, field(lent, of, "{field}"), &made.{field}_len);')
        elif ty == "palqytun_bytes" or ty == "palqytun_optional":
            rows.append(f'    made.{field} = read_{ty.removeprefix(PREFIX)}(lent, field(lent, of, "{field}"));')
        elif not field.endswith("_len"):
            rows.append(f'    made.{field} = read_{NUMBERS[ty]}(lent, field(lent, of, "{field}"));')
    return "\n".join([*rows, "    return made;", "}", ""])


def _read(parameters: list[tuple[str, str]]) -> tuple[list[str], list[str]]:
    """The lines that read the arguments, and what is passed to the library."""
    rows, passed = list[str](), list[str]()
    for ty, name in parameters:
        at, plain = f"ARG({len(rows)})", ty.removeprefix("const ").removesuffix("*").strip().removeprefix(PREFIX)
        if ty in loading.HANDLES:
            rows.append(f"    uintptr_t {name} = read_handle(&lent, {at});")
        elif ty == "const uint8_t *":
            rows.append(f"    palqytun_bytes {name} = READ(&lent, {at});")
            passed.append(f"{name}.at")
            continue
        elif ty == "size_t" and name.endswith("_len") and passed and passed[-1].endswith(".at"):
            passed.append(f"{name.removesuffix('_len')}.len")
            continue
        elif plain == "node":
            rows.append(f"    size_t {name}_len = 0;\n    const palqytun_node *{name} = read_nodes(&lent, {at}, &{name}_len);")
        elif name == "nodes_len":
            passed.append(name)
            continue
        elif plain in GIVEN and ty.endswith("*"):
            rows.append(f"    {ty.removeprefix('const ').removesuffix('*').strip()} {name} = read_{plain}(&lent, {at});")
            passed.append(f"&{name}")
            continue
        else:
            rows.append(f"    {ty} {name} = read_{NUMBERS[ty]}(&lent, {at});")
        passed.append(name)
    return rows, passed


def _call(it: Prototype, header: Header, how: str) -> str:
    name, parameters = it.name.removeprefix(PREFIX), loading.passed(it)[1]
    writes = parameters[-3:] == OUT
    returns = parameters[-1][0].removesuffix(" *") if parameters[-1][1] == "returned" else ""
    taken = parameters[:-3] if writes else parameters[:-1] if returns else parameters
    rows, passed = _read(taken)
    optional = {one for ty, one in it.parameters if ty == "palqytun_optional"}
    rows = [row.replace("READ(", "read_lent(" if row.split()[1] in optional else "read_bytes(") for row in rows]
    made = [f"CALL({name})", "{", f"    BEGIN({len(rows)});", *rows]
    given = ", ".join(passed)
    if writes:
        call = how.format(size="lent.size + out_len(&out)", call=f"pq_{name}({given}{given and ', '}out_at(&out), out_len(&out), &out.told)")
        made += ["    struct out out = {0};", "    do", "        if (is_read(&lent))", f"            {call};"]
        made += ["    while (is_short(&out));", "    return give_bytes(&lent, &out);"]
    elif returns:
        call = how.format(size="lent.size", call=f"pq_{name}({given}, &returned)")
        made += [f"    {returns} returned = {{0}};", "    if (is_read(&lent))", f"        {call};"]
        made.append("    return give_replied(&lent, &returned);" if returns == "palqytun_replied" else _row(returns, header))
    else:
        call = how.format(size="lent.size", call=f"status = pq_{name}({given})")
        made += ["    uint32_t status = 0;", "    if (is_read(&lent))", f"        {call};", "    return give_status(&lent, status);"]
    return "\n".join([*made, "}", ""])


def _row(struct: str, header: Header) -> str:
    """The lines that give back a struct of numbers."""
    names = [field for _, field in header.structs[struct]]
    quoted, values = ", ".join(f'"{it}"' for it in names), ", ".join(f"returned.{it}" for it in names)
    lines = [f"    static const char *const names[] = {{{quoted}}};", f"    const uint64_t values[] = {{{values}}};"]
    return "\n".join([*lines, f"    return give_row(&lent, names, values, {len(names)});"])


def calls_of(header: Header, folder: Folder) -> str:
    """The text of the file."""
    functions = [it for it in header.functions.values() if it.name.removeprefix(PREFIX) not in folder.lacks]
    parts = [HEAD.format(said=loading.SAID)]
    parts += [_reader(f"{PREFIX}{it}", header.structs[f"{PREFIX}{it}"]) for it in GIVEN]
    parts += [_call(it, header, folder.how) for it in functions]
    rows = [f"    MAKES({it.name.removeprefix(PREFIX)})" for it in functions]
    return "\n".join([*parts, "const struct made CALLS[] = {", *rows, "    {0},", "};", ""])
