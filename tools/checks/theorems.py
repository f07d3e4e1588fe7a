"""The theorems that pages name: a link to a file of Rattle, whose text is the function in backquotes, and then maybe its clauses."""

from __future__ import annotations

import re
from collections.abc import Iterator
from dataclasses import dataclass
from pathlib import Path

# A link, with its text and its target.
LINK = re.compile(r"\[([^\]\[]*)\]\(([^)\s]+)\)")
# The clauses that are named after such a link: after a colon, or in the next cell of a table.
CLAUSES = re.compile(r"\s*[:|]\s*((?:`\w+`(?:, )?)+)")
QUOTED = re.compile(r"`([^`]+)`")


@dataclass(frozen=True)
class Theorem:
    """A function that a page names as a theorem, or a type for all that is said of it, with the clauses that the page names, if any."""

    path: Path
    name: str
    clauses: tuple[str, ...]


def theorems_in(line: str, folder: Path) -> Iterator[Theorem]:
    """Yields the theorems that a line of a page names, where links are read from the page's folder."""
    for link in LINK.finditer(line):
        path = (folder / link.group(2)).resolve()
        if path.suffix == ".rt" and path.is_file():
            after = CLAUSES.match(line, link.end())
            named = tuple(QUOTED.findall(after.group(1))) if after else ()
            yield from (Theorem(path, name.removeprefix("trait "), named) for name in QUOTED.findall(link.group(1)))


def header_of(source: str, name: str, owner: str | None) -> str | None:
    """Returns the text between a function's name and its body, or nothing if the file has no such function of this owner."""
    inside = owner is None
    lines = source.splitlines()
    for at, line in enumerate(lines):
        if owner is not None and re.match(r"(?:pub )?(?:impl|trait)\b", line):
            inside = re.search(rf"\b{owner}\b", line.partition(" where ")[0]) is not None
        if inside and re.match(rf"\s*(?:pub )?(?:extern \"C\" )?fn {name}\b", line):
            rest: list[str] = []
            for more in lines[at + 1 :]:
                if re.match(r"\s*(?:\{\}?$|(?:pub )?fn |\}$)", more):
                    break
                rest.append(more)
            return "\n".join([line, *rest])
    return None


def declares(source: str, name: str) -> bool:
    return re.search(rf"\b(?:struct|enum|trait) {name}\b", source) is not None
