"""The statements that pages name: the clauses of a function of a Rust source, and the definitions that they mention."""

from __future__ import annotations

import re
from collections.abc import Iterator, Mapping
from dataclasses import dataclass

from tools.checks.clauses import WORDS, Import, bare, blocks_around, blocks_of, bound, cited, ghost_parts, imports, parameters, tokens
from tools.checks.theorems import Theorem, header_of

from .definitions import Place, Sources, operators_of

CLAUSE = re.compile(r"\b(requires|ensures)\b([ \w]*)$")


@dataclass(frozen=True)
class Stated:
    """A clause of a theorem: its name, if it has one, the index in its source at which it begins, its text with its line breaks, and what it
    mentions, in order."""

    kind: str
    name: str
    at: int
    text: str
    cites: tuple[Place, ...]


class Unknown(Exception):
    """Why a theorem has no statement: what was asked for, and what there is."""


def statements_of(sources: Sources, theorem: Theorem) -> list[Stated]:
    """Returns the clauses of a theorem: those that are named, or all, and what it requires; of a type those of its whole file."""
    source = theorem.path.read_text()
    owner, _, last = theorem.name.rpartition("::")
    header = header_of(source, last, owner or None)
    start = source.index(header) if header else 0
    found = list(read(sources, source, start, start + len(header) if header else len(source)))
    names = [it.name for it in found if it.kind == "ensures"]
    if missing := [it for it in theorem.clauses if it not in names]:
        raise Unknown(f"{theorem.name} has no clause {missing[0]}; it has {', '.join(filter(None, names)) or 'none with a name'}")
    return [it for it in found if it.kind == "requires" or not theorem.clauses or it.name in theorem.clauses]


def read(sources: Sources, source: str, start: int, end: int) -> Iterator[Stated]:
    """Yields the clauses that stand between two indexes of a source."""
    text = bare(source, "//")
    blocks = list(blocks_of(re.sub(r"'(?:\\[^']+|[^'\\])'|\"(?:\\.|[^\"\\])*\"", lambda it: "_" * len(it[0]), text)))
    imported = [(name, it, set(blocks_around(it.at, blocks))) for name, it in imports(text, True)]
    for first, last in ghost_parts(text):
        head = CLAUSE.search(text[max(0, first - 80) : first])
        if head and start <= first < end:
            around = blocks_around(first, blocks)
            seen = {name: it for name, it, of_it in imported if of_it.issubset(around)}
            cites = tuple(mentioned(sources, text[first:last], parameters(text, first), seen))
            yield Stated(head[1], head[2].strip(), max(0, first - 80) + head.start(), inside(source[first:last]), cites)


def mentioned(sources: Sources, part: str, own: set[str], seen: Mapping[str, Import]) -> Iterator[Place]:
    """Yields what the text of a clause mentions, where these are the function's parameters and what its file imports."""
    found = tokens(part)
    operators = operators_of(set(seen))
    local = own | bound(found)
    for token, member in cited(found):
        it = seen.get(operators.get(token.text, token.text))
        if it and token.text not in local | WORDS and (place := sources.resolve(it.module, it.name or member)):
            yield place


def inside(part: str) -> str:
    """Returns the text between the braces of a clause."""
    return part.strip().removeprefix("{").removesuffix("}").strip()
