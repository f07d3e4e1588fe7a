"""What has to hold of the figures: a limit each in limits.txt, and the imports by a second name in imports.known. Both only shrink.

A line of limits.txt is FIGURE: LIMIT, GOAL. The limit is what holds today, or the goal if that holds; a figure above it fails. So does one
below it, as long as the goal isn't there: then `tools/house --shrink` writes the limit that holds. A greater one is written by hand."""

from __future__ import annotations

import re
from collections.abc import Iterable
from dataclasses import dataclass
from pathlib import Path

from .figures import Figure, Survey, counted
from .tree import Fault

LIMITS = Path("tools", "survey", "limits.txt")
KNOWN = Path("tools", "survey", "imports.known")
SHRINK = "write what holds now by tools/house --shrink"


@dataclass(frozen=True)
class Limit:
    """A figure's limit and its goal."""

    figure: str
    limit: int
    goal: int

    def wrong(self, value: int) -> str | None:
        """Returns why a figure of this value fails."""
        if value > self.limit:
            return f"{self.figure}: {value:,}, and the limit is {self.limit:,} (the goal: {self.goal:,}); {LIMITS} has the limits"
        if value < self.limit and self.limit > self.goal:
            return f"{self.figure}: {value:,}, less than its limit of {self.limit:,}; {SHRINK}"
        return None

    def shrunk(self, value: int) -> Limit:
        return Limit(self.figure, min(self.limit, max(value, self.goal)), self.goal)

    def __str__(self) -> str:
        return f"{self.figure}: {self.limit}, {self.goal}"


def limits_of(text: str) -> list[Limit]:
    """Returns the limits that a limits.txt has."""
    found = []
    for at, line in enumerate(text.splitlines(), 1):
        if not line.strip() or line.startswith("#"):
            continue
        match = re.fullmatch(r"(.+): (\d+), (\d+)", line.strip())
        if not match:
            raise Fault(f"{LIMITS}:{at}: {line!r} is no limit; a line is FIGURE: LIMIT, GOAL")
        found.append(Limit(match[1], int(match[2]), int(match[3])))
    return found


def known_of(text: str) -> dict[str, int]:
    """Returns the second names that imports.known has, each with how many crates import by it."""
    found = {}
    for at, line in enumerate(text.splitlines(), 1):
        name, colon, count = line.rpartition(": ")
        if not colon or not count.isdigit():
            raise Fault(f"{KNOWN}:{at}: {line!r} is no line of it; a line is CRATE::ITEM by CRATE: COUNT")
        found[name] = int(count)
    return found


def second_names(survey: Survey) -> dict[str, int]:
    """Returns the items that are imported by a second name, and those passed on, each with how often."""
    imported = counted(f"{it.home}::{it.item} by {it.by}" for it in survey.second)
    passed = counted(f"{home} passed on by {crate}" for crate, _, home in survey.passed_on)
    return known_of("\n".join(sorted([*imported, *passed])))


def wrong_names(known: dict[str, int], now: dict[str, int]) -> list[str]:
    """Returns in which second names a tree differs from those that are known."""
    found = []
    for name in sorted(known.keys() | now.keys()):
        was, count = known.get(name, 0), now.get(name, 0)
        if count > was:
            why = "is imported by a second name" if was == 0 else f"is so in {count} places, and {KNOWN} says {was}"
            found.append(f"{name} {why}; import it from the crate that defines it")
        elif count < was:
            found.append(f"{name}: {count}, and {KNOWN} says {was}; {SHRINK}")
    return found


def wrong_limits(limits: list[Limit], values: dict[str, int]) -> list[str]:
    """Returns which limits don't hold."""
    if not limits:
        return [f"{LIMITS}: it has no limit"]
    missing = [f"{LIMITS}: {it.figure}: there is no such figure" for it in limits if it.figure not in values]
    return missing + [why for it in limits if it.figure in values and (why := it.wrong(values[it.figure]))]


def check(survey: Survey, figures: Iterable[Figure]) -> tuple[int, list[str]]:
    """Returns how many checks passed, and what is wrong: each limit is one, and so is each item that has a second name."""
    texts = survey.house.texts
    limits, known, now = limits_of(texts.get(LIMITS, "")), known_of(texts.get(KNOWN, "")), second_names(survey)
    wrong = wrong_limits(limits, {it.name: it.value for it in figures}) + wrong_names(known, now)
    looked_at = max(len(limits), 1) + len(known.keys() | now.keys())
    return looked_at - len(wrong), wrong


def shrink(survey: Survey, figures: Iterable[Figure]) -> list[str]:
    """Writes the limits and the second names that hold now, if none is more than it was; returns what is more."""
    texts, top = survey.house.texts, survey.house.top
    values = {it.name: it.value for it in figures}
    now = second_names(survey)
    known = known_of(texts[KNOWN]) if KNOWN in texts else now
    limits = limits_of(texts.get(LIMITS, ""))
    more = [why for it in limits if values.get(it.figure, 0) > it.limit and (why := it.wrong(values[it.figure]))]
    more += [why for why in wrong_names(known, now) if SHRINK not in why]
    if not more:
        head = [line for line in texts.get(LIMITS, "").splitlines() if line.startswith("#")]
        lines = [*head, *(str(it.shrunk(values[it.figure])) for it in limits if it.figure in values)]
        (top / LIMITS).write_text("\n".join(lines) + "\n", encoding="utf-8")
        (top / KNOWN).write_text("".join(f"{name}: {count}\n" for name, count in now.items()), encoding="utf-8")
    return more
