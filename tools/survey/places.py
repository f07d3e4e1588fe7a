"""What a name touches: the files that name it, in the order in which a change of it is written."""

from __future__ import annotations

import difflib
import re
from collections import Counter
from collections.abc import Iterator
from dataclasses import dataclass
from pathlib import Path

from .phrases import phrase
from .spellings import Name
from .tree import PARTS, House
from .written import written_by

# A line that shows how this command is called names nothing that a change touches; neither do the files of the survey, nor what stands in for
# modules of the original where it is measured.
CALL = re.compile(r"tools/where\b")
OWN = ("tools/survey/", "tools/benchmarks/original/")
DATA = ("rows", "runs", "stdin", "stdout", "args", "data")


@dataclass(frozen=True)
class Group:
    """What stands outside the crates' code: a part of the tree, and the beginnings of the paths in it."""

    title: str
    starts: tuple[str, ...]


# After the crates, in this order. A path belongs to the first group that it begins with.
GROUPS = (
    Group("C: the header and what is built with it", ("bindings/palqytun.h", "bindings/palqytun.map", "bindings/packaging/", "bindings/build")),
    Group("Rust, Go, Java, Node and Ruby: the crate and the packages", ("bindings/rust/", "bindings/go/", "bindings/java/", "bindings/node/", "bindings/ruby/")),
    Group("C and Python: examples and their output", ("bindings/",)),
    Group("Python: the package", ("python/src/", "python/extension/")),
    Group("Python: tests, examples, benches", ("python/tests/", "python/examples/", "python/bench/")),
    Group("TypeScript: the SDK", ("typescript/",)),
    Group("the simulation", ("tools/simulation/", "tools/simulate")),
    Group("rules and checks, and the commands of tools", (".ci/", "tools/")),
    Group("commands at the top", ("demo", "prove", "test")),
    Group("rows and runs of the programs", ("crates/",)),
    Group("pages", ("",)),
)


@dataclass(frozen=True)
class Place:
    """A file that names something: which of its lines do, where in the order it stands, and the command that writes it, if one does."""

    path: Path
    lines: tuple[int, ...]
    group: str
    phrase: str
    written_by: str = ""

    @property
    def crate(self) -> str | None:
        return self.path.parts[1] if self.path.parts[0] == "crates" else None


def is_data(path: Path) -> bool:
    """Says whether a file of a crate is what a program reads or has to print."""
    return len(path.parts) > 2 and path.parts[2] in DATA


def order(house: House, path: Path) -> tuple[int, int, str]:
    """Returns where in the order of a change a file stands: the crates bottom up, and then the groups."""
    parts = path.parts
    if parts[0] == "crates" and len(parts) > 2 and parts[1] in house.crates and not is_data(path):
        at = list(house.crates).index(parts[1])
        return at, PARTS.index(parts[2]) if parts[2] in PARTS else len(PARTS), str(path)
    at = next(at for at, it in enumerate(GROUPS) if str(path).startswith(it.starts))
    return len(house.crates) + at, 0, str(path)


def title(house: House, path: Path, by: str) -> str:
    if by:
        return f"written by {by}, and not by hand"
    at, _, _ = order(house, path)
    return list(house.crates)[at] if at < len(house.crates) else GROUPS[at - len(house.crates)].title


def named_lines(text: str, names: list[Name]) -> tuple[int, ...]:
    """Returns the numbers of the lines that name one of these."""
    if not any(it.may_stand_in(text) for it in names):
        return ()
    lines = enumerate(text.splitlines(), 1)
    return tuple(at for at, line in lines if any(it.pattern.search(line) for it in names) and not CALL.search(line))


def places(house: House, names: list[Name]) -> list[Place]:
    """Returns the files that name one of these, in the text or in their path, in the order of a change; those that commands write are the last."""
    found = []
    for path, text in house.texts.items():
        if str(path).startswith(OWN):
            continue
        lines = named_lines(text, names)
        if lines or any(it.may_stand_in(str(path)) and it.pattern.search("/".join(path.parts[2:])) for it in names):
            by = written_by(path, text)
            found.append(Place(path, lines, title(house, path, by), phrase(path, text), by))
    return sorted(found, key=lambda it: (it.written_by, order(house, it.path)))


def by_hand(found: list[Place]) -> list[Place]:
    """Returns those places that people edit."""
    return [it for it in found if not it.written_by]


def spellings(house: House, found: list[Place], names: list[Name]) -> Counter[str]:
    """Returns the spellings of names in these places, each with how often it stands there."""
    return Counter(it for place in found for name in names for it in name.spellings(house.texts[place.path]))


def alike(house: House, name: str) -> list[str]:
    """Returns names of the sources that are spelled much like this one."""
    known = {word for crate in house.crates for text in house.files(crate, "src").values() for word in re.findall(r"\b[A-Za-z]\w{3,}\b", text)}
    return difflib.get_close_matches(name, known, 3, 0.75)


def crates_of(found: list[Place]) -> list[str]:
    """Returns the crates of places, in their order."""
    return list(dict.fromkeys(it.crate for it in found if it.crate))


def summary(names: list[Name], found: list[Place]) -> str:
    """Returns how many files and crates names touch, in one line."""
    edited = by_hand(found)
    data = sum(is_data(it.path) for it in edited)
    of_data = f", {data} of them rows and runs" if data else ""
    more = len(found) - len(edited)
    written = f"; {more} more are written by {', '.join(writers(found))}" if more else ""
    return f"{' '.join(it.name for it in names)}: {len(edited)} files in {len(crates_of(edited))} crates{of_data}{written}"


def writers(found: list[Place]) -> list[str]:
    """Returns the commands that write some of these places."""
    return sorted({it.written_by for it in found if it.written_by})


def listing(house: House, found: list[Place], names: list[Name], with_lines: bool) -> Iterator[str]:
    """Yields the lines that list places: a heading a group, and under it a line a file."""
    group = ""
    for place in found:
        if place.group != group:
            group = place.group
            said = phrase(house.root(group), house.texts.get(house.root(group), "")) if group in house.crates else ""
            yield ""
            yield f"{group}: {said}" if said else group
        yield f"{len(place.lines):6}  {place.path}{'  ' + place.phrase if place.phrase else ''}"
        if with_lines:
            text = house.texts[place.path].splitlines()
            yield from (f"        {at}: {text[at - 1].strip()}" for at in place.lines)
