"""Looks up each name that docs/DEFINITIONS.md gives: crates, files, their definitions, functions and their clauses.

Its tables have two columns of names. `Stated in` names files by crate and folder, as `vm_parts/specs/Came`, or by their last word after such a
one; what stands in brackets after a file is defined there. `Carried by` names functions and types of the code, or definitions of any file; what
stands in brackets after a function is a clause of it, or such a definition. The map names crates, and files of their specs. A path of a file may
stand anywhere else on the page."""

from __future__ import annotations

import re
from collections import defaultdict
from collections.abc import Iterator
from functools import cached_property
from pathlib import Path

from .modules import Modules

PAGE = Path("docs", "DEFINITIONS.md")
FILE = re.compile(r"\w+/(?:specs|proofs)/\w+")
SOURCE = re.compile(r"\w+/src/[\w/]+\.rt")
# A name in backquotes, or brackets in which names stand.
PART = re.compile(r"\((?P<inside>[^()]*)\)|`(?P<name>[^`]+)`")
QUOTED = re.compile(r"`([^`]+)`")
DECLARED = re.compile(r"\b(?:fn|struct|enum|trait|type) (\w+)|\bimpl\b[^{;]*?\b(\w+) for\b")
DEFINED = r"^ *(?:(?:abbrev|opaque|unfoldable) )*(?:pub )?(?:(?:record|data) {name}\b|{name} :)"
CLAUSES = r"(?:pub )?(?:extern \"C\" )?fn {name}\b(?:(?!\bfn )[\s\S])*?ensures {clause} \{{"
WORD = re.compile(r"\w+(?:::\w+)*")

Found = Iterator[tuple[int, str | None]]


class Names:
    """What the crates of a tree declare."""

    def __init__(self, top: Path) -> None:
        self.top = top
        self.modules = Modules(top)

    @cached_property
    def sources(self) -> list[str]:
        return [path.read_text(encoding="utf-8") for path in sorted((self.top / "crates").glob("*/src/**/*.rt"))]

    @cached_property
    def declared(self) -> dict[str, list[str]]:
        """The functions, types and traits that the code declares or implements, each with the sources that have it."""
        found: dict[str, list[str]] = defaultdict(list)
        for text in self.sources:
            for it in DECLARED.finditer(text):
                found[it[1] or it[2]].append(text)
        return found

    @cached_property
    def specs(self) -> str:
        return "\n".join(path.read_text(encoding="utf-8") for path in sorted((self.top / "crates").glob("*/specs/**/*.antt")))

    def is_defined(self, name: str) -> bool:
        return re.search(DEFINED.format(name=re.escape(name)), self.specs, re.MULTILINE) is not None

    def lacks_file(self, path: str) -> str | None:
        file = self.top / "crates" / (path if path.endswith(".rt") else f"{path}.antt")
        return None if file.is_file() else f"there is no file {path}"

    def lacks_definition(self, path: str, name: str) -> str | None:
        """Returns why a file doesn't define a name, not even as a field of a record; none if it does."""
        found = self.modules.definitions(".".join(["Rattle", *path.split("/")])) or {}
        if name in found or re.search(rf"^\s+(?:pub )?{re.escape(name)} :", (self.top / "crates" / f"{path}.antt").read_text(), re.MULTILINE):
            return None
        return f"{path} defines no {name}"

    def lacks_function(self, name: str) -> str | None:
        last = name.rpartition("::")[2]
        return None if last in self.declared or last in self.modules.crates or self.is_defined(last) else f"no crate declares {name}"

    def lacks_clause(self, name: str, clause: str) -> str | None:
        if FILE.fullmatch(clause):
            return self.lacks_file(clause)
        last = name.rpartition("::")[2]
        has = re.compile(CLAUSES.format(name=last, clause=re.escape(clause)))
        is_there = any(has.search(text) for text in self.declared[last]) or self.lacks_function(clause) is None
        return None if is_there else f"{name} has no clause {clause}"


def stated(names: Names, cell: str, at: int) -> Found:
    """Looks up a cell of the column of files."""
    file = folder = ""
    for part in PART.finditer(cell):
        if part["inside"] is not None:
            yield from ((at, names.lacks_definition(file, it)) for it in QUOTED.findall(part["inside"]) if file)
            continue
        file = part["name"] if "/" in part["name"] else f"{folder}/{part['name']}"
        folder = file.rpartition("/")[0]
        why = names.lacks_file(file)
        file = "" if why else file
        yield at, why


def carried(names: Names, cell: str, at: int) -> Found:
    """Looks up a cell of the column of functions."""
    last = ""
    for part in PART.finditer(cell):
        if part["inside"] is None:
            last = part["name"].removeprefix("trait ")
            if WORD.fullmatch(last):
                yield at, names.lacks_function(last)
        elif names.lacks_function(last) is None:
            yield from ((at, names.lacks_clause(last, it)) for it in QUOTED.findall(part["inside"]))


def mapped(names: Names, lines: list[tuple[int, str]]) -> Found:
    """Looks up the map. A line names crates, or files of the crates that the last line before it named which names some."""
    crates: list[str] = []
    for at, line in lines:
        head = re.split(r" \.{2,}|(?<=\w)  |\(", re.sub(r"\(on [^)]*\)(?=,)", "", line.lstrip(" │├└─")))[0]
        words = re.findall(r"\w+", head)
        if found := [it for it in words if it.islower()]:
            crates = found
            yield from ((at, None if it in names.modules.crates else f"there is no crate {it}") for it in found)
        for it in words:
            if not it.islower():
                is_there = any(names.lacks_file(f"{crate}/specs/{it}") is None for crate in crates)
                yield at, None if is_there else f"{', '.join(crates)} has no specs/{it}"


def cells(line: str) -> list[str]:
    return [it.strip() for it in re.split(r"(?<!\\)\|", line)[1:-1]]


def looked_up(names: Names, text: str) -> Found:
    """Looks up the names of a page, and yields the line of each, with what is wrong."""
    block: list[tuple[int, str]] = []
    for at, line in enumerate(text.splitlines(), 1):
        row = cells(line)
        if len(row) == 4 and not set(row[0]) <= {"-"} and row[2] != "Stated in":
            yield from stated(names, row[2], at)
            yield from carried(names, row[3], at)
        elif line.startswith("    "):
            block.append((at, line))
        yield from ((at, names.lacks_file(it)) for it in FILE.findall(line) + SOURCE.findall(line) if len(row) != 4)
    yield from mapped(names, block)


def check(top: Path) -> Iterator[tuple[str, str | None]]:
    """Yields the line of each name that the page gives, and what is wrong with it."""
    for at, wrong in looked_up(Names(top), (top / PAGE).read_text(encoding="utf-8")):
        yield f"{PAGE}:{at}", wrong
