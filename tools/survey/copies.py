"""Exact copies across crates: runs of equal lines that stand in files of several crates."""

from __future__ import annotations

import re
from collections import defaultdict
from dataclasses import dataclass
from pathlib import Path

from .tree import House

LEAST = 6
# Lines that say nothing by themselves: comments, imports, attributes, lone punctuation.
THIN = re.compile(r"//|--|(?:ghost |pub |unfoldable )*use\b|(?:pub )?mod\b|#!?\[|[\W_]*$")
IMPORT = re.compile(r"^(?:ghost |pub |unfoldable )*use\b[^;{\n]*\{[^}]*\}", re.MULTILINE)


@dataclass(frozen=True)
class Place:
    """A run of lines that say something: its file, and their numbers."""

    path: Path
    numbers: tuple[int, ...]

    def __str__(self) -> str:
        return f"{self.path}:{self.numbers[0]}-{self.numbers[-1]}"


@dataclass(frozen=True)
class Copy:
    """Equal lines in two files of different crates: how many, and where."""

    lines: int
    one: Place
    other: Place


Line = tuple[int, str]


def said(text: str) -> list[Line]:
    """Returns the lines of a file that say something, each with its number and without its indent."""
    plain = IMPORT.sub(lambda it: re.sub(r"[^\n]", "", it[0]), text)
    return [(at, line.strip()) for at, line in enumerate(plain.splitlines(), 1) if not THIN.match(line.strip())]


def windows(files: dict[Path, list[Line]]) -> list[list[tuple[Path, int]]]:
    """Returns the places of each run of LEAST lines that stands in several crates: the first in each of them."""
    found: dict[tuple[str, ...], dict[str, tuple[Path, int]]] = defaultdict(dict)
    for path, lines in files.items():
        for at in range(len(lines) - LEAST + 1):
            run = tuple(line for _, line in lines[at : at + LEAST])
            found[run].setdefault(path.parts[1], (path, at))
    return [list(places.values()) for places in found.values() if len(places) > 1]


def copies(house: House) -> list[Copy]:
    """Returns the copies across crates, the longest first. A run that stands in several crates is paired with the first of them."""
    files = {path: said(text) for crate in house.crates for path, text in sources(house, crate).items()}
    starts = {(one, it) for one, *rest in windows(files) for it in rest}
    found = []
    for (one, at), (other, there) in starts:
        if ((one, at - 1), (other, there - 1)) in starts:
            continue
        length = LEAST
        while ((one, at + length - LEAST + 1), (other, there + length - LEAST + 1)) in starts:
            length += 1
        found.append(Copy(length, place(files, one, at, length), place(files, other, there, length)))
    return sorted(found, key=lambda it: (-it.lines, str(it.one), str(it.other)))


def sources(house: House, crate: str) -> dict[Path, str]:
    return house.files(crate, "src") | house.files(crate, "specs", "proofs", suffix=".antt")


def place(files: dict[Path, list[Line]], path: Path, at: int, length: int) -> Place:
    return Place(path, tuple(number for number, _ in files[path][at : at + length]))


def repeated(found: list[Copy], suffix: str) -> int:
    """Returns how many lines of files with this ending stand again in another crate, each counted once."""
    return len({(it.other.path, at) for it in found if it.other.path.suffix == suffix for at in it.other.numbers})
