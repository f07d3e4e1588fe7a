"""The statements of docs/PROTOCOL.md as a module of TypeScript, so that the SDK in that language has no statement of its own."""

from __future__ import annotations

import json
import re
from collections.abc import Callable, Iterator
from pathlib import Path

PAGE = "docs/PROTOCOL.md"
MODULE = "typescript/src/statements.ts"
_BLOCK = re.compile(r"^```sql\n-- ([\w-]+)\n(.*?)^```$", re.MULTILINE | re.DOTALL)
_VERSION = re.compile(r"^\*\*Version (\d+)\.\*\* ", re.MULTILINE)
_VALUE = re.compile(r"(?<!:):(\w+)")

# The type of each value of a statement. The server infers none within a SELECT, so each has it.
_TYPES = {
    "bytea": "frame value result suspension",
    "bigint": "seed epoch before at completes entries run",
    "integer": "exclusive priority most shielded failed retries failures",
    "float8": "lease since now due deadline expires failing_since failed_since",
    "text[]": "full handlers ids paths",
    "bigint[]": "seqs places completions",
    "bytea[]": "frames",
    "text": "worker code serves id service handler key idem parent trace queue queue_key invocation name status error how chain next channel word said path limits first last",
}
_TYPE_OF = {name: kind for kind, names in _TYPES.items() for name in names.split()}


class BadPage(Exception):
    """The page has no version, or a value without a type."""


def statements(page: str) -> Iterator[tuple[str, list[str]]]:
    """The statements of each name."""
    for name, text in _BLOCK.findall(page):
        yield name, text.strip().split(";\n")


def with_values(sql: str, value: Callable[[str, str], str]) -> str:
    """A statement on one line, with what is given for each value by its name and its type."""

    def given(found: re.Match[str]) -> str:
        name = found[1]
        if name not in _TYPE_OF:
            raise BadPage(f"{PAGE}: the value :{name} has no type: give it one in tools/pages/protocol.py")
        return value(name, _TYPE_OF[name])

    return _VALUE.sub(given, " ".join(sql.split()))


def _statement(sql: str) -> str:
    """One statement: its text with numbered values, and their names."""
    names: list[str] = []

    def numbered(name: str, kind: str) -> str:
        if name not in names:
            names.append(name)
        return f"${names.index(name) + 1}::{kind}"

    text = with_values(sql, numbered)
    return f"    {{ text: {json.dumps(text)}, names: {json.dumps(names)} }},"


def module(page: str) -> str:
    """The module that a page makes."""
    version = _VERSION.search(page)
    if version is None:
        raise BadPage(f"{PAGE} has no line that begins with **Version N.**")
    lines = [f"// tools/protocol --write writes this file, from {PAGE}.", "", "/** The protocol's version, and the schema's. */"]
    lines += [f"export const VERSION = {version[1]};", "", "/** The statements of the protocol, by their names. */", "export const STATEMENTS = {"]
    for name, those in statements(page):
        lines += [f"  '{name}': [", *map(_statement, those), "  ],"]
    return "\n".join([*lines, "} as const;", "", "export type StatementName = keyof typeof STATEMENTS;", ""])


def of(top: Path) -> str:
    """The module that the page of a repository makes."""
    return module((top / PAGE).read_text(encoding="utf-8"))


def check(top: Path) -> str | None:
    """What is wrong with the module: nothing, if it is what the page makes."""
    file = top / MODULE
    is_same = file.exists() and file.read_text(encoding="utf-8") == of(top)
    return None if is_same else f"{MODULE} isn't what {PAGE} makes: tools/protocol --write writes it"
