"""The text of the interface: `bindings/palqytun.abi` has each function, struct and number of the header, a line each."""

from __future__ import annotations

from . import flat
from .header import Header

TEXT = "bindings/palqytun.abi"


def text_of(header: Header) -> str:
    """The text, in an order that no edit of the header changes."""
    rows = [f"abi {header.numbers['PALQYTUN_ABI']}"]
    for name, it in sorted(header.functions.items()):
        taken = ", ".join(ty for ty, _ in it.parameters)
        rows.append(f"function {name}({taken}) -> {it.result}")
    rows += [f"function {flat.row(it)}" for _, it in sorted(header.functions.items()) if flat.is_flattened(it)]
    for name, fields in sorted(header.structs.items()):
        rows += [f"struct {name} {at} {ty} {field}" for at, (ty, field) in enumerate(fields)]
    rows += [f"number {name} {number}" for name, number in sorted(header.enumerators.items())]
    return "\n".join(rows) + "\n"


def broken(old: str, new: str) -> list[str]:
    """The lines of an interface that another of the same number no longer has. A number that is raised may change any."""
    before, after = old.splitlines(), new.splitlines()
    if not before or before[0] != after[0]:
        return []
    gone = [it for it in before if it not in set(after)]
    structs = {it.split()[1] for it in before if it.startswith("struct ")}
    longer = [it for it in after if it.startswith("struct ") and it.split()[1] in structs and it not in set(before)]
    return gone + [it for it in longer if it not in gone]
