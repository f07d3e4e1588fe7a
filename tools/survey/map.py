"""Writes the map of the crates: the tables in docs/internals/ARCHITECTURE.md and the picture docs/pictures/house.svg.

usage: tools/map            writes both anew
       tools/map --check    says whether both are as this command writes them; its last line is 'N passed, M failed'

They are made from crates.txt, the first comment of each crate, and two tables: the families (tools/survey/families.py) and the ways of data
(tools/survey/courses.py), of which each stop is looked up in the sources."""

from __future__ import annotations

import argparse
import sys
from collections.abc import Callable
from pathlib import Path

from . import courses
from .families import FAMILIES, gone
from .page import PAGE, page_of
from .picture import PICTURE, picture
from .tree import Fault, House


def made(house: House) -> dict[Path, Callable[[str], str]]:
    """Returns the files that this command writes, each as a function of what it is now."""
    return {PAGE: lambda now: page_of(house, now), PICTURE: lambda _: picture(house)}


def check(house: House) -> tuple[int, list[str]]:
    """Returns how many checks of the map passed, and what is wrong."""
    wrong = [*courses.wrong(house), *(f"tools/survey/families.py: {it} is no crate of crates.txt; take it out of FAMILIES" for it in gone(house))]
    for path, make in made(house).items():
        now = house.texts.get(path, "")
        if now != make(now):
            wrong.append(f"{path}: it isn't what crates.txt, the crates' first comments and the limits say; write it by tools/map")
    looked_at = sum(len(it.stops) for it in courses.COURSES) + sum(len(it.crates) for it in FAMILIES) + len(made(house))
    return looked_at - len(wrong), wrong


def write(house: House) -> None:
    wrong = courses.wrong(house)
    if wrong:
        raise Fault("; ".join(wrong))
    for path, make in made(house).items():
        (house.top / path).write_text(make(house.texts.get(path, "")), encoding="utf-8")


def main(words: list[str]) -> int:
    parser = argparse.ArgumentParser(prog="tools/map", description=__doc__, formatter_class=argparse.RawDescriptionHelpFormatter)
    parser.add_argument("--check", action="store_true")
    parser.add_argument("--top", type=Path, default=Path(__file__).resolve().parents[2], help="another tree than this one")
    how = parser.parse_args(words)
    try:
        house = House(how.top)
        if not how.check:
            write(house)
            return 0
        passed, wrong = check(house)
    except Fault as why:
        print(f"map: {why}", file=sys.stderr)
        if how.check:
            print("0 passed, 1 failed")
        return 1
    print("\n".join([*wrong, f"{passed} passed, {len(wrong)} failed"]))
    return int(bool(wrong))
