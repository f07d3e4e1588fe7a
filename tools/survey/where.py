"""Lists what a command, a field, an option, an error, a version, an event or a fault touches, in the order to edit.

usage: tools/where NAME ..            lists the files that name it, crate by crate, bottom up; then C, Python, rules, rows, pages, and last
                                      those that commands write from the others
       tools/where NAME .. --count    prints how many files and crates there are
       tools/where NAME .. --edit     prints the paths alone of those that people edit
       tools/where NAME .. --lines    prints each line that names it
       tools/where NAME .. --alone    passes over longer names; goes with each of these

A name is found in each of its spellings: PeekPromise is also peek_promise, PEEK_PROMISE, peekPromise and peek-promise, alone or as part of
a longer name (sys_peek_promise, PeekPromiseCommand), in a file's text or in its path. Of several names all files are listed. The number
before a file is how many of its lines name it; what stands after it is from the file's first comment. To see what a new thing touches,
name one of its kind that is there already."""

from __future__ import annotations

import argparse
import sys
from pathlib import Path

from .places import alike, by_hand, listing, places, spellings, summary
from .spellings import Name
from .tree import Fault, House


def parsed(words: list[str]) -> argparse.Namespace:
    parser = argparse.ArgumentParser(prog="tools/where", description=__doc__, formatter_class=argparse.RawDescriptionHelpFormatter)
    parser.add_argument("names", nargs="+", metavar="NAME")
    parser.add_argument("--top", type=Path, default=Path(__file__).resolve().parents[2], help="another tree than this one")
    parser.add_argument("--alone", action="store_true")
    how = parser.add_mutually_exclusive_group()
    how.add_argument("--count", action="store_true")
    how.add_argument("--edit", action="store_true")
    how.add_argument("--lines", action="store_true")
    return parser.parse_args(words)


def said(house: House, names: list[Name], how: argparse.Namespace) -> list[str]:
    """Returns the lines that the command prints."""
    found = places(house, names)
    if not found:
        raise Fault(nothing(house, names))
    if how.edit:
        return [str(it.path) for it in by_hand(found)]
    if how.count:
        return [summary(names, found)]
    spelled = ", ".join(f"{it} {count}" for it, count in spellings(house, found, names).most_common(12))
    return [summary(names, found), f"spelled: {spelled}", *listing(house, found, names, how.lines)]


def nothing(house: House, names: list[Name]) -> str:
    """Returns what is said if no file names anything of these."""
    near = [it for name in names for it in alike(house, name.name)]
    hint = f"; names that are there: {', '.join(near)}" if near else ""
    return f"no file names {' or '.join(it.name for it in names)} in any spelling{hint}"


def main(words: list[str]) -> int:
    how = parsed(words)
    try:
        lines = said(House(how.top), [Name(it, how.alone) for it in how.names], how)
    except Fault as why:
        print(f"where: {why}", file=sys.stderr)
        return 1
    print("\n".join(lines))
    return 0
