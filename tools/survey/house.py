"""Prints the figures of the house: crates, ways down through crates.txt, functions, copies, second names, files that a command touches.

usage: tools/house             prints each figure, with its limit and its goal, and the first of what it counts
       tools/house --all       prints all that is counted
       tools/house --json      prints the figures as JSON
       tools/house --check     says what doesn't hold, of the limits, the imports and the map; the last line is 'N passed, M failed'
       tools/house --shrink    writes the limits and the known imports that hold now; it refuses if one is more than it was

The limits stand in tools/survey/limits.txt. The rule of import is: an item is imported from the crate that defines it; only
journal_protocol and palqytun pass on what others define. What still breaks it stands in tools/survey/imports.known, which only shrinks."""

from __future__ import annotations

import argparse
import json
import sys
from collections.abc import Iterator
from pathlib import Path

from . import limits, map
from .figures import Figure, Survey
from .tree import Fault, House

MOST = 6


def parsed(words: list[str]) -> argparse.Namespace:
    parser = argparse.ArgumentParser(prog="tools/house", description=__doc__, formatter_class=argparse.RawDescriptionHelpFormatter)
    parser.add_argument("--top", type=Path, default=Path(__file__).resolve().parents[2], help="another tree than this one")
    how = parser.add_mutually_exclusive_group()
    for option in ("--all", "--json", "--check", "--shrink"):
        how.add_argument(option, action="store_true")
    return parser.parse_args(words)


def shown(figure: Figure, limit: limits.Limit | None, most: int) -> Iterator[str]:
    """Yields the lines that show a figure."""
    goal = f"goal {limit.goal:,}" if limit else ""
    yield f"{figure.name:34}{figure.value:>10,}  {goal:12}  {figure.said}".rstrip()
    yield from (f"    {it}" for it in figure.these[:most])
    if len(figure.these) > most:
        yield f"    (+{len(figure.these) - most} more: tools/house --all)"


def table(survey: Survey, most: int) -> list[str]:
    known = {it.figure: it for it in limits.limits_of(survey.house.texts.get(limits.LIMITS, ""))}
    return [line for figure in survey.figures() for line in shown(figure, known.get(figure.name), most)]


def check(survey: Survey) -> tuple[list[str], bool]:
    """Returns the lines of the check, and whether all holds."""
    passed, wrong = limits.check(survey, survey.figures())
    more, also = map.check(survey.house)
    wrong += also
    return [*wrong, f"{passed + more} passed, {len(wrong)} failed"], not wrong


def said(survey: Survey, how: argparse.Namespace) -> tuple[list[str], bool]:
    """Returns what the command prints, and whether all holds."""
    if how.check:
        return check(survey)
    if how.shrink:
        more = limits.shrink(survey, survey.figures())
        return more, not more
    if how.json:
        return [json.dumps([it.as_json() for it in survey.figures()], indent=1)], True
    return table(survey, sys.maxsize if how.all else MOST), True


def main(words: list[str]) -> int:
    how = parsed(words)
    try:
        lines, holds = said(Survey(House(how.top)), how)
    except Fault as why:
        print(f"house: {why}", file=sys.stderr)
        if how.check:
            print("0 passed, 1 failed")
        return 1
    print("\n".join(lines))
    return int(not holds)
