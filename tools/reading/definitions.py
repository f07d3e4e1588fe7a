"""The definitions of specs/: where each stands, its text, its words, and what it cites."""

from __future__ import annotations

import re
from collections.abc import Iterator, Mapping
from dataclasses import dataclass, field
from functools import cached_property
from pathlib import Path

from tools.checks.clauses import DEFINED, WORDS, Clause, Import, bare, bound, cited, clauses, constructors, imports
from tools.checks.clauses import left_names, parts_of, tokens, without_imports
from tools.checks.modules import Modules
from tools.survey.phrases import sentence

FIXITY = {"infix", "infixl", "infixr", "mod"}


@dataclass(frozen=True)
class Place:
    """What a name stands for: a definition of a file of specs, or a type of a Rust source. Paths are below the top."""

    path: Path
    name: str

    @property
    def crate(self) -> str:
        return self.path.parts[1]

    @cached_property
    def is_type(self) -> bool:
        return self.path.suffix == ".rt"


@dataclass
class Definition:
    """A definition: its line from 1, the first sentence of the comment above it, its text without comments, and what it cites, in order."""

    place: Place
    line: int
    words: str
    parts: list[str] = field(default_factory=list)
    cites: dict[Place, None] = field(default_factory=dict)

    @property
    def lines(self) -> list[str]:
        """The lines of its text, without comments and blank ones."""
        return [line.rstrip() for part in self.parts for line in part.splitlines() if line.strip()]


class File:
    """A file of specs: its text, its clauses, what it imports, and what it defines."""

    def __init__(self, path: Path) -> None:
        self.raw = path.read_text()
        self.text = bare(self.raw, "--")
        self.imports = dict(imports(self.text, False))
        self.clauses = [it for it in clauses(without_imports(self.text)) if is_own(it)]

    @cached_property
    def names(self) -> dict[str, str]:
        """What the file defines itself: each name, and that of the definition that it belongs to."""
        found: dict[str, str] = {}
        for clause in self.clauses:
            if (match := DEFINED.match(clause.text)) and not clause.is_local:
                name = match["type"] or match["name"]
                found[name] = name
                if match["kind"] == "data":
                    found |= {it: name for it in re.findall(r"^ +(\S+) :(?= |$)", clause.text, re.MULTILINE)}
        return found

    def words_above(self, line: int) -> str:
        """Returns the first sentence of the comment that stands right above a line; an empty text if there is none."""
        above: list[str] = []
        for it in reversed(self.raw.splitlines()[: line - 1]):
            if not re.match(r"\s*--(?! ----)", it):
                break
            above.insert(0, re.sub(r"^\s*-- ?", "", it))
        return sentence(" ".join(" ".join(above).split()))


class Sources:
    """The definitions of a tree, read file by file as they are asked for."""

    def __init__(self, top: Path) -> None:
        self.top = top
        self.modules = Modules(top)
        self.files: dict[str, File | None] = {}
        self.found: dict[str, dict[str, Definition]] = {}
        self.places: dict[tuple[str, str | None], Place | None] = {}
        self.known: dict[Place, Definition] = {}

    def file(self, home: str) -> File | None:
        if home not in self.files:
            path = self.modules.path(home)
            self.files[home] = File(path) if path.is_file() else None
        return self.files[home]

    def place(self, home: str, name: str) -> Place:
        return Place(self.modules.path(home).relative_to(self.top), name)

    def resolve(self, module: str, name: str | None) -> Place | None:
        """Returns what a name of a module stands for; none if it is of the kit or generated, or a module."""
        if (module, name) not in self.places:
            self.places[module, name] = self.looked_up(self.modules.home(module), name)
        return self.places[module, name]

    def looked_up(self, home: str, name: str | None) -> Place | None:
        above, _, last = home.rpartition(".")
        parts = home.split(".")
        if parts[0] != "Rattle" or len(parts) < 4 or parts[1] not in self.modules.crates:
            return None
        if self.file(home):
            return self.defined(home, name) if name else None
        if self.file(above):  # a type of data as a module, with its constructors
            return self.defined(above, last)
        return self.declared(home) if parts[2:4] == ["specs", "declared"] else None

    def defined(self, home: str, name: str) -> Place | None:
        """Returns what a name of a file of specs stands for, there or where the file takes it from."""
        file = self.file(home)
        if not file:
            return None
        if name in file.names:
            return self.place(home, file.names[name])
        it = file.imports.get(name)
        return self.resolve(it.module, it.name) if it else None

    def declared(self, home: str) -> Place | None:
        """Returns the type of a Rust source that a generated module is about."""
        source = self.modules.source(home)
        return Place(source[0].relative_to(self.top), source[1][0]) if source and source[1] else None

    def definition(self, place: Place) -> Definition:
        """Returns a definition of a file of specs."""
        if place not in self.known:
            home = ".".join(["Rattle", *place.path.with_suffix("").parts[1:]])
            if home not in self.found:
                self.found[home] = self.read(home)
            self.known[place] = self.found[home][place.name]
        return self.known[place]

    def read(self, home: str) -> dict[str, Definition]:
        """Returns the definitions of a file of specs by their names."""
        file = self.file(home)
        if file is None:
            raise LookupError(f"there is no file {self.modules.path(home)}")
        found: dict[str, Definition] = {}
        current = ""
        for clause in file.clauses:
            if (match := DEFINED.match(clause.text)) and not clause.is_local:
                current = match["type"] or match["name"]
                line = file.text.count("\n", 0, clause.at) + 1
                found[current] = Definition(self.place(home, current), line, file.words_above(line))
            elif not clause.is_local and (head := clause.text.split()[0]) in found:
                current = head
            if current:
                found[current].parts.append(clause.text)
                found[current].cites |= dict.fromkeys(self.cited_by(home, clause, file.imports, file.names))
        for it in found.values():
            it.cites.pop(it.place, None)
        return found

    def cited_by(self, home: str, clause: Clause, seen: Mapping[str, Import], names: Mapping[str, str]) -> Iterator[Place]:
        """Yields what a clause of a file cites, where it has imported `seen` and defines `names`."""
        found = tokens(clause.text, clause.at)
        operators = operators_of({*seen, *names})
        local = clause.around | bound(found) | (left_names(found) - constructors(found, set(operators)) - names.keys())
        for token, member in cited(found):
            name = operators.get(token.text, token.text)
            if token.text in local or token.text in WORDS:
                continue
            it = seen.get(name)
            place = self.resolve(it.module, it.name or member) if it else self.defined(home, name) if name in names else None
            if place:
                yield place


def is_own(clause: Clause) -> bool:
    """Says whether a clause defines something: it says neither how an operator is written nor which modules there are."""
    words = clause.text.split()
    return words[0] not in FIXITY and words[:2] != ["pub", "mod"]


def operators_of(names: set[str]) -> dict[str, str]:
    """Returns the words of operators, as `++` of `◌++◌`, each with its operator."""
    return {part: name for name in names if "◌" in name for part in parts_of({name})}
