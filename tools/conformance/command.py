"""The command: it writes the suite, or plays it through bindings."""

from __future__ import annotations

import argparse
import os
import subprocess
import sys
import tempfile
from pathlib import Path

from tools.programs.row_files import BadRow

from . import suite

TOP = Path(__file__).resolve().parents[2]
SECONDS = 2400  # for a player
SHOWN = 20  # differences that are printed
WRITTEN = "PALQYTUN_SUITE"  # the variable that names a file in which this command has written the suite of these rows
ABOUT = """Plays the conformance suite: the rows of vmscript through the typed calls of a binding. A PLAYER is a command that reads the suite on
standard input, a row a line; for each row it prints 'ok ROW', or lines that say what differs and then 'not ok ROW'. By default the player is
that of Python. The last line is 'N passed, M failed': rows. If PALQYTUN_SUITE names a file that --write made of these rows, the suite is taken
from there."""


def arguments(words: list[str]) -> argparse.Namespace:
    parser = argparse.ArgumentParser("tools/conform", description=ABOUT)
    parser.add_argument("players", nargs="*", metavar="PLAYER", help="commands that play the suite")
    parser.add_argument("--library", type=Path, help="the shared object for the player of Python (that of its package by default)")
    parser.add_argument("--all", action="store_true", help="each row under each of its versions and options, not under one of each")
    parser.add_argument("--write", type=Path, metavar="FILE", help="write the suite there, and play nothing")
    return parser.parse_args(words)


def played(words: list[str], rows: Path, count: int) -> tuple[int, int]:
    """Lets a player play the suite, says what differs, and returns how many rows passed and failed."""
    with rows.open("rb") as source, tempfile.TemporaryFile("w+") as said:
        status = subprocess.run(words, stdin=source, stdout=said, timeout=SECONDS).returncode
        said.seek(0)
        lines = said.read().splitlines()
    passed = sum(it.startswith("ok ") for it in lines)
    wrong = [it for it in lines if not it.startswith("ok ")]
    print("\n".join(wrong[:SHOWN]))
    if len(wrong) > SHOWN:
        print(f"and {len(wrong) - SHOWN} lines more")
    print(f"{' '.join(words[-1:])}: {passed} of {count} rows, status {status}", flush=True)
    return passed, max(count - passed, 1 if status else 0)


def rows_of(is_all: bool) -> str:
    """The suite, a row a line, from the rows as they stand. What is in it is printed."""
    found = suite.read(is_all)
    print(f"{len(found.rows)} rows, {sum(len(it.steps) for it in found.rows)} calls")
    for why, count in sorted(found.cut.items()):
        print(f"{count} rows end before {why}")
    return "".join(f"{it.json}\n" for it in found.rows)


def main(words: list[str]) -> int:
    options = arguments(words)
    os.chdir(TOP)
    written = None if options.all or options.write else os.environ.get(WRITTEN)
    try:
        text = Path(written).read_text(encoding="utf-8") if written else rows_of(options.all)
    except BadRow as error:
        print(error)
        print("0 passed, 1 failed")
        return 1
    if options.write:
        options.write.write_text(text, encoding="utf-8")
        return 0
    if options.library:
        os.environ["PALQYTUN_LIBRARY"] = str(options.library.resolve())
    players = [it.split() for it in options.players] or [[sys.executable, "-m", "tools.conformance.python_player"]]
    passed = failed = 0
    count = text.count("\n")
    with tempfile.TemporaryDirectory() as room:
        rows = Path(room, "rows.jsonl")
        rows.write_text(text, encoding="utf-8")
        for player in players:
            one, other = played(player, rows, count)
            passed, failed = passed + one, failed + other
    print(f"{passed} passed, {failed} failed")
    return 1 if failed else 0
