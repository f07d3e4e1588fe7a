"""What tools/map writes in docs/internals/ARCHITECTURE.md: the families and their crates, from crates.txt and each crate's first comment; the limits."""

from __future__ import annotations

from collections.abc import Iterator
from pathlib import Path

from .families import FAMILIES, Family, families, reduced, stands_on
from .limits import LIMITS, limits_of
from .phrases import comment
from .tree import Fault, House

PAGE = Path("docs", "internals", "ARCHITECTURE.md")
MAP = (
    "<!-- From here to the end of the map `tools/map` writes, from crates.txt and the first comment of each crate. -->",
    "<!-- The end of the map. -->",
)
FIGURES = (
    "<!-- From here to the end of the figures `tools/map` writes, from tools/survey/limits.txt. -->",
    "<!-- The end of the figures. -->",
)


def about(house: House, crate: str) -> str:
    """Returns what a crate is for: its first comment."""
    said = comment(house.root(crate), house.texts.get(house.root(crate), ""))
    if not said:
        raise Fault(f"{house.root(crate)}: its first line is no comment; a crate's first comment (`//!`) says what it is for")
    return said.replace("|", "\\|")


def quoted(names: list[str]) -> str:
    return ", ".join(f"`{it}`" for it in names)


def rows(house: House, family: Family, crates: list[str], below: dict[str, list[str]]) -> Iterator[str]:
    """Yields the part of one family: its sentence, and a table with a row a crate."""
    yield from (f"### {family.title}", "", family.about, "", "| Crate | Is | Depends on |", "|---|---|---|")
    for crate in crates:
        yield f"| [`{crate}`](../../crates/{crate}) | {about(house, crate)} | {quoted(below[crate])} |"
    yield ""


def overview(house: House, members: dict[str, list[str]]) -> Iterator[str]:
    """Yields the table of families."""
    on = stands_on(house)
    titles = {it.name: it.title for it in FAMILIES}
    yield from ("| Family | Crates | Depends on |", "|---|---|---|")
    for family in FAMILIES:
        if members[family.name]:
            link = f"[{family.title}](#{family.title.lower().replace(' ', '-')})"
            yield f"| {link} | {quoted(members[family.name])} | {', '.join(titles[it] for it in on[family.name])} |"
    yield ""


def written(house: House) -> str:
    """Returns the map as it stands between its marks. What a crate reaches by another that it stands on isn't named."""
    members = families(house)
    below = reduced({name: frozenset(crate.below) for name, crate in house.crates.items()})
    lines = list(overview(house, members))
    for family in FAMILIES:
        if members[family.name]:
            lines += rows(house, family, members[family.name], below)
    return "\n" + "\n".join(lines)


def figures(house: House) -> str:
    """Returns the table of limits and goals."""
    rows = [f"| {it.figure} | {it.limit:,} | {it.goal:,} |" for it in limits_of(house.texts.get(LIMITS, ""))]
    return "\n".join(["", "| Figure | Limit | Goal |", "|---|--:|--:|", *rows, "", ""])


def placed(page: str, marks: tuple[str, str], text: str) -> str:
    """Returns a page with this text between two marks."""
    before, first, rest = page.partition(marks[0] + "\n")
    _, last, after = rest.partition(marks[1])
    if not first or not last:
        raise Fault(f"{PAGE}: two marks aren't there; put these lines around what tools/map writes: {marks[0]} and {marks[1]}")
    return before + first + text + last + after


def page_of(house: House, now: str) -> str:
    """Returns the page with its map and its figures."""
    return placed(placed(now, MAP, written(house)), FIGURES, figures(house))
