"""Reads sources of Rattle by text: what is code, functions and their bodies, and what a `use` imports."""

from __future__ import annotations

import re
from collections.abc import Iterator
from dataclasses import dataclass
from functools import cache

SKIPPED = re.compile(r"//[^\n]*|\"(?:\\.|[^\"\\])*\"|'(?:\\[^']+|[^'\\])'", re.DOTALL)
FUNCTION = re.compile(r"\bfn\s+(\w+)")
CLAUSE = re.compile(r"\b(?:requires|ensures)\b[ \w]*\Z")
GHOST_USE = re.compile(r"\bghost use\b[^;]*;")
USE = re.compile(r"(?<!ghost )\b(?P<passes>pub )?use\s+(?P<tree>[^;]*);")
OPENING, CLOSING = "([{", ")]}"


@cache
def code_of(text: str) -> str:
    """Returns a source with spaces for its comments, texts and signs, so that each index stays."""
    return SKIPPED.sub(lambda it: re.sub(r"[^\n]", " ", it[0]), text)


@dataclass(frozen=True)
class Function:
    """A function with a body: its name, the line of its `fn`, and how many lines stand between the braces of its body."""

    name: str
    line: int
    lines: int


def closing(code: str, at: int) -> int:
    """Returns the index of the bracket that closes the one at an index."""
    depth = 0
    for match in re.compile(r"[(\[{})\]]").finditer(code, at):
        depth += 1 if match[0] in OPENING else -1
        if depth == 0:
            return match.start()
    return len(code)


def body_of(code: str, at: int) -> tuple[int, int] | None:
    """Returns the braces of the body of a function whose name ends at an index; none if it has no body. The braces of its clauses
    aren't those of its body."""
    while match := re.compile(r"[(\[{;})\]]").search(code, at):
        if match[0] == "{" and not CLAUSE.search(code, max(0, match.start() - 200), match.start()):
            return match.start(), closing(code, match.start())
        if match[0] not in OPENING:
            return None
        at = closing(code, match.start()) + 1
    return None


def functions(text: str) -> Iterator[Function]:
    """Yields the functions of a source that have a body."""
    code = code_of(text)
    for match in FUNCTION.finditer(code):
        if body := body_of(code, match.end()):
            first, last = body
            lines = code.count("\n", first, last)
            yield Function(match[1], code.count("\n", 0, match.start()) + 1, max(lines - 1, 0))


@dataclass(frozen=True)
class Use:
    """What one part of a `use` names: its path, the name that it has then, and whether it is passed on."""

    path: tuple[str, ...]
    name: str
    passes: bool
    line: int


def split(text: str) -> Iterator[str]:
    """Yields the parts of a list between commas that stand in no braces."""
    depth = start = 0
    for at, sign in enumerate(text):
        depth += (sign == "{") - (sign == "}")
        if sign == "," and depth == 0:
            yield text[start:at].strip()
            start = at + 1
    yield text[start:].strip()


def leaves(tree: str, before: tuple[str, ...] = ()) -> Iterator[tuple[tuple[str, ...], str]]:
    """Yields the paths of a `use`'s tree, each with the name that its last word has."""
    tree = tree.strip()
    head, brace, rest = tree.partition("{")
    if brace:
        path = (*before, *(it for it in head.strip().split("::") if it))
        for part in split(rest.rpartition("}")[0]):
            if part:
                yield from leaves(part, path)
        return
    path_text, _, alias = tree.partition(" as ")
    path = (*before, *path_text.strip().split("::"))
    if path[-1] == "self":
        path = path[:-1]
    yield path, alias.strip() or path[-1]


def uses(text: str) -> Iterator[Use]:
    """Yields what a source imports, but for what the prover alone reads."""
    code = GHOST_USE.sub(lambda it: re.sub(r"[^\n]", " ", it[0]), code_of(text))
    for match in USE.finditer(code):
        for path, name in leaves(match["tree"]):
            yield Use(path, name, match["passes"] is not None, code.count("\n", 0, match.start()) + 1)
