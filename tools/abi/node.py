"""Node's tables of the interface: `bindings/node/lib/abi.js` has the numbers, names and error texts, and `abi.d.ts` their types."""

from __future__ import annotations

from . import words
from .header import Header

MODULE = "bindings/node/lib/abi.js"
TYPES = "bindings/node/lib/abi.d.ts"
HEAD = "// tools/header --write writes this file, from palqytun.h.\n"


def camel(name: str) -> str:
    """A word as a literal: CallsAndSends is callsAndSends."""
    return name[0].lower() + name[1:]


def _versions(header: Header) -> tuple[int, int]:
    return header.enumerators["PALQYTUN_MINIMUM_VERSION"], header.enumerators["PALQYTUN_MAXIMUM_VERSION"]


def module_of(header: Header) -> str:
    """The text of the module."""
    parts = [HEAD, "'use strict';\n"]
    numbers = [f"  {words.plain(name)}: {number}," for name, number in {**header.numbers, **header.enumerators}.items()]
    parts.append("\n".join(["/** The numbers of the interface. */", "exports.NUMBERS = Object.freeze({", *numbers, "});", ""]))
    rows = [f'  {number}: ["{name}", "{text}"],' for name, number, text in words.statuses(header)]
    parts.append("\n".join(["/** The name of each status, and what it says. */", "exports.STATUSES = Object.freeze({", *rows, "});", ""]))
    for it in words.groups(header):
        rows = [f"  {camel(case)}: {number}," for case, number in it.cases]
        parts.append("\n".join([f"/** {it.about} */", f"exports.{it.name} = Object.freeze({{", *rows, "});", ""]))
    low, high = _versions(header)
    parts.append(f"/** The versions of the messages that a VM may have: the least and the greatest. */\nexports.SUPPORTED_VERSIONS = Object.freeze([{low}, {high}]);\n")
    return "\n".join(parts)


def types_of(header: Header) -> str:
    """The text of the types."""
    parts = [HEAD]
    names = " | ".join(f"'{name}'" for name, _, _ in words.statuses(header))
    parts.append(f"/** How a call ended. */\nexport type Status = {names};\n")
    for it in words.groups(header):
        cases = " | ".join(f"'{camel(case)}'" for case, _ in it.cases)
        parts.append(f"/** {it.about} */\nexport type {it.name} = {cases};\n")
    low, high = _versions(header)
    parts.append(f"/** The versions of the messages that a VM may have: the least and the greatest. */\nexport const SUPPORTED_VERSIONS: readonly [{low}, {high}];\n")
    return "\n".join(parts)
