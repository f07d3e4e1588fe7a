"""Which guarantees and laws there are: README's table says the guarantees, and docs/THEOREMS.md names the laws."""

from __future__ import annotations

import re
from collections.abc import Iterator
from dataclasses import dataclass
from functools import cached_property
from pathlib import Path

from tools.checks.theorems import Theorem, header_of, theorems_in
from tools.survey.tree import Fault, House

from .closure import Closure, closure_of, layer
from .definitions import Sources
from .statements import Stated, statements_of

ROW = re.compile(r"\| (?P<number>\d+) \| (?P<says>\*\*(?P<title>[^*]+)\*\*.*?) \| (?P<stated>.*) \|$")


@dataclass(frozen=True)
class Guarantee:
    """A row of README's table: its number, its title without a full stop, its sentences, and the theorems that state it."""

    number: int
    title: str
    says: str
    theorems: tuple[Theorem, ...]

    @property
    def page(self) -> Path:
        """The path of its page below the top."""
        words = re.sub(r"[^\w ]", "", self.title).lower().split()
        return Path("docs", "guarantees", f"{self.number}-{'-'.join(words)}.md")


class Shelf:
    """The guarantees and laws of a tree, each with its closure."""

    def __init__(self, top: Path) -> None:
        self.top = top
        self.sources = Sources(top)
        self.messages = layer(House(top))
        self.statements: dict[Theorem, list[Stated]] = {}

    @cached_property
    def guarantees(self) -> list[Guarantee]:
        found = [
            Guarantee(int(it["number"]), it["title"].rstrip("."), it["says"], tuple(theorems_in(it["stated"], self.top)))
            for line in (self.top / "README.md").read_text(encoding="utf-8").splitlines()
            if (it := ROW.match(line))
        ]
        if not found:
            raise Fault("README.md: it has no table of guarantees; a row is | 1 | **Title.** Sentences. | [`function`](path): `clause` |")
        return found

    @cached_property
    def laws(self) -> list[Theorem]:
        """The laws that docs/THEOREMS.md names in its tables, each once, with all its clauses."""
        text = (self.top / "docs" / "THEOREMS.md").read_text(encoding="utf-8").partition("\n## Tables\n")[2]
        named = (it for line in text.splitlines() for it in theorems_in(line, self.top / "docs"))
        return list(dict.fromkeys(Theorem(it.path, it.name, ()) for it in named if is_law(it)))

    def named(self, name: str, clauses: tuple[str, ...] = ()) -> list[Theorem]:
        """Returns the theorems that a number of a guarantee, or a name in docs/THEOREMS.md, stands for."""
        for it in self.guarantees:
            if name == str(it.number):
                return list(it.theorems)
        lines = (self.top / "docs" / "THEOREMS.md").read_text(encoding="utf-8").splitlines()
        found = {(it.path, it.name): None for line in lines for it in theorems_in(line, self.top / "docs") if name == it.name}
        if not found:
            raise Fault(f"docs/THEOREMS.md names no {name}; ask for a guarantee by its number, or for a function by its name there, as Attempt::step")
        return [Theorem(path, last, clauses) for path, last in found]

    def stated(self, theorem: Theorem) -> list[Stated]:
        """Returns the clauses of a theorem, which are read once."""
        if theorem not in self.statements:
            self.statements[theorem] = statements_of(self.sources, theorem)
        return self.statements[theorem]

    def closure(self, theorems: list[Theorem]) -> Closure:
        return closure_of(self.sources, [it for theorem in theorems for it in self.stated(theorem)], self.messages)


def is_law(theorem: Theorem) -> bool:
    """Says whether a theorem is a function that does nothing."""
    source = theorem.path.read_text(encoding="utf-8")
    owner, _, last = theorem.name.rpartition("::")
    header = header_of(source, last, owner or None)
    return header is not None and source[source.index(header) + len(header) :].strip().startswith("{}")


def each_clause(theorems: list[Theorem]) -> Iterator[Theorem]:
    """Yields theorems with one clause each, where clauses are named."""
    for it in theorems:
        yield from (Theorem(it.path, it.name, (clause,)) for clause in it.clauses) if it.clauses else (it,)
