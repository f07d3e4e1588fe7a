"""Prints what has to be read to believe a statement: its clauses, and each definition that they mention, through definitions.

usage: tools/guarantees                    lists the guarantees and laws, with their sizes
       tools/guarantees NAME [CLAUSE ..]   prints the definitions of one in reading order: NAME is the number of a guarantee in README.md, or a
                                           function that docs/THEOREMS.md names, as run_rounds or Attempt::step; all its clauses by default
           --text                          with the text of each definition
           --heaviest N                    the N definitions without which most others needn't be read
           --once                          each definition that mentions others which nothing else mentions, with these
       tools/guarantees --write            writes docs/guarantees and the sizes in docs/THEOREMS.md, which tools/documents compares

Definitions of the layer of messages, which say how bytes are laid out, are counted apart."""

from __future__ import annotations

import argparse
import sys
from pathlib import Path

from tools.checks.theorems import Theorem
from tools.survey.tree import Fault

from . import pages
from .closure import Closure, count, once, weights
from .definitions import Definition
from .guarantees import Shelf
from .statements import Unknown


def listed(shelf: Shelf) -> None:
    """Prints the guarantees and laws."""
    rows = [(f"{it.number}. {it.title}", list(it.theorems)) for it in shelf.guarantees] + [(it.name, [it]) for it in shelf.laws]
    for name, theorems in rows:
        of = shelf.closure(theorems)
        print(f"{len(of.above):5,} definitions, {of.lines:5,} lines  {name}")


def shown(definition: Definition, with_text: bool) -> None:
    print(f"{definition.place.path}:{definition.line}: {definition.place.name}, {len(definition.lines)} lines. {definition.words}")
    if with_text:
        print("\n".join(f"    {line}" for line in definition.lines), end="\n\n")


def read(shelf: Shelf, theorems: list[Theorem], with_text: bool) -> None:
    """Prints the clauses of some theorems, and their definitions in reading order."""
    of = shelf.closure(theorems)
    for theorem in theorems:
        for it in shelf.stated(theorem):
            print(f"{theorem.path.relative_to(shelf.top)}: {theorem.name}: {it.kind} {it.name}\n    {it.text}")
    for definition in of.above:
        shown(definition, with_text)
    print(f"{len(of.above):,} definitions, {of.lines:,} lines in {of.files} files; {len(of.types)} types")
    print(f"and of messages and bytes {len(of.messages):,} definitions, {count(of.messages):,} lines")


def heaviest(of: Closure, most: int) -> None:
    """Prints the definitions that weigh most."""
    for it, those in weights(of)[:most]:
        print(f"{len(those):4} definitions, {count(those):5} lines only by {it.place.name} ({it.place.path})")


def mentioned_once(of: Closure) -> None:
    """Prints each definition that mentions others which nothing else mentions: these can become part of it."""
    rows = once(of)
    for it, those in rows:
        print(f"{it.place.name}: {', '.join(f'{other.place.name} ({len(other.lines)})' for other in those)}")
    print(f"{sum(len(those) for _, those in rows)} of {len(of.above)} definitions are mentioned by one other alone")


def main(words: list[str]) -> int:
    parser = argparse.ArgumentParser(prog="tools/guarantees", description=__doc__, formatter_class=argparse.RawDescriptionHelpFormatter)
    parser.add_argument("name", nargs="?", metavar="NAME")
    parser.add_argument("clauses", nargs="*", metavar="CLAUSE")
    parser.add_argument("--text", action="store_true")
    parser.add_argument("--heaviest", type=int, metavar="N")
    parser.add_argument("--once", action="store_true")
    parser.add_argument("--write", action="store_true")
    parser.add_argument("--top", type=Path, default=Path(__file__).resolve().parents[2], help="another tree than this one")
    how = parser.parse_args(words)
    try:
        if how.write:
            pages.write(how.top)
        elif how.name is None:
            listed(Shelf(how.top))
        else:
            shelf = Shelf(how.top)
            theorems = shelf.named(how.name, tuple(how.clauses))
            if how.heaviest:
                heaviest(shelf.closure(theorems), how.heaviest)
            elif how.once:
                mentioned_once(shelf.closure(theorems))
            else:
                read(shelf, theorems, how.text)
    except (Fault, Unknown) as why:
        print(f"guarantees: {why}", file=sys.stderr)
        return 1
    return 0
