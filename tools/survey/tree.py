"""The tree of the repository: the crates of crates.txt, and the files that are text."""

from __future__ import annotations

import os
import re
from collections.abc import Iterator
from dataclasses import dataclass
from functools import cached_property
from pathlib import Path

# What builds make: it is no part of the repository. Neither are hidden folders, but for HIDDEN.
MADE = {"out", "__pycache__", "build", "dist", "target"}
HIDDEN = {".ci"}
# A larger file is data: nobody edits it by hand.
MOST_BYTES = 1 << 20
ROW = re.compile(r"(?P<name>\w+)(?P<static> +staticlib)?(?P<settings>(?: +\w+=\w+)*)(?: *:(?P<below>[\w\s]*))?")
# The folders of a crate in the order in which a change is written: definitions, code, what proves it, what tries it.
PARTS = ("specs", "src", "proofs", "must-fail", "wrong-bodies", "rows", "runs")


class Fault(Exception):
    """Why the tree can't be read: what was wrong, and what is allowed."""


@dataclass(frozen=True)
class Crate:
    """A line of crates.txt: a crate, and the libraries that it names, of the repository and of the kit."""

    name: str
    is_static: bool
    below: tuple[str, ...]
    of_kit: tuple[str, ...]


def rows_of(text: str) -> Iterator[tuple[int, re.Match[str]]]:
    """Yields the lines of crates.txt that name a crate, with their numbers."""
    for at, line in enumerate(text.splitlines(), 1):
        row = line.partition("#")[0].strip()
        if not row:
            continue
        match = ROW.fullmatch(row)
        if not match:
            raise Fault(f"crates.txt:{at}: {row!r} is no line of it; a line is NAME: LIBRARY .., or NAME staticlib: LIBRARY ..")
        yield at, match


def crates_of(text: str) -> dict[str, Crate]:
    """Returns the crates of a crates.txt by their names, each after all that it stands on and else in the order of its lines."""
    rows = [(at, row["name"], row) for at, row in rows_of(text)]
    names = {name for _, name, _ in rows}
    found: dict[str, Crate] = {}
    for at, name, row in rows:
        if name in found:
            raise Fault(f"crates.txt:{at}: {name} is on two lines; a crate has one")
        words = (row["below"] or "").split()
        below, of_kit = (tuple(it for it in words if (it in names) is own) for own in (True, False))
        found[name] = Crate(name, row["static"] is not None, below, of_kit)
    return {name: found[name] for name in bottom_up(found)}


def bottom_up(crates: dict[str, Crate]) -> list[str]:
    """Returns the names of crates, each after all that it stands on."""
    done: list[str] = []
    waiting = list(crates)
    while waiting:
        free = [name for name in waiting if all(it in done for it in crates[name].below)]
        if not free:
            raise Fault(f"crates.txt: {', '.join(waiting)} stand on each other; a crate stands only on those below it")
        done.append(free[0])
        waiting.remove(free[0])
    return done


class House:
    """A tree of the repository."""

    def __init__(self, top: Path) -> None:
        self.top = top
        listed = top / "crates.txt"
        if not listed.is_file():
            raise Fault(f"there is no {listed}; name the top of the repository")
        self.crates = crates_of(listed.read_text(encoding="utf-8"))

    @cached_property
    def texts(self) -> dict[Path, str]:
        """The files of the repository that are text, each by its path below the top."""
        found: dict[Path, str] = {}
        for folder, below, names in os.walk(self.top):
            below[:] = sorted(it for it in below if it in HIDDEN or it not in MADE and not it.startswith("."))
            for path in (Path(folder, name) for name in sorted(names)):
                if path.is_file() and not path.is_symlink() and path.stat().st_size <= MOST_BYTES:
                    try:
                        found[path.relative_to(self.top)] = path.read_text(encoding="utf-8")
                    except UnicodeDecodeError:
                        continue
        return found

    def files(self, crate: str, *parts: str, suffix: str = ".rt") -> dict[Path, str]:
        """Returns the files of a crate in these of its folders, with this ending."""
        return {path: text for path, text in self.by_crate.get(crate, {}).items() if path.parts[2] in parts and path.suffix == suffix}

    @cached_property
    def by_crate(self) -> dict[str, dict[Path, str]]:
        found: dict[str, dict[Path, str]] = {}
        for path, text in self.texts.items():
            if path.parts[0] == "crates" and len(path.parts) > 2:
                found.setdefault(path.parts[1], {})[path] = text
        return found

    def is_program(self, crate: str) -> bool:
        return Path("crates", crate, "src", "main.rt") in self.texts

    def root(self, crate: str) -> Path:
        """Returns the root file of a crate: its main.rt, or its lib.rt."""
        return Path("crates", crate, "src", "main.rt" if self.is_program(crate) else "lib.rt")
