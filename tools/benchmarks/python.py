"""`tools/bench python`: what a call of the VM takes from Python, in C and by ctypes, beside the same call from C: nanoseconds of the processor, and with
--instructions what a call executes.

A call is made 1,000 times a round on a VM that has its input. The programs are run in turn, and the best round of each counts, so that what else the
machine does counts least. `whole` is a sleep that is sent, completed, awaited and taken: five calls."""

from __future__ import annotations

import argparse
import os
import subprocess
import sys
from functools import cache
from pathlib import Path

from tools.kit.errors import Refused

from . import building, core, languages
from .measuring import read_counted

CASES = ("state_of", "is_completed", "take", "await", "sleep", "state", "call", "whole")
NAMES = {"state_of": "`state`", "is_completed": "`is_completed`", "take": "`take_notification`", "await": "`do_await`, which waits"}
NAMES |= {"sleep": "`sys_sleep`", "state": "`sys_state_set`", "call": "`sys_call`", "whole": "a whole sleep"}
WAYS = ("C", "Python", "Python by ctypes")
COUNTED = 2000  # calls


def add(parser: argparse.ArgumentParser) -> None:
    parser.add_argument("--library", type=Path, default=core.LIBRARY, metavar="FILE", help="Palqytun's library (bindings/out/libpalqytun.so)")
    parser.add_argument("--rounds", type=int, default=20, metavar="N", help="rounds of a case in a turn (20)")
    parser.add_argument("--turns", type=int, default=5, metavar="N", help="how often each program is run (5)")
    parser.add_argument("--instructions", action="store_true", help="count instructions too, by callgrind, which takes minutes")


def nanoseconds(library: Path, rounds: int, turns: int) -> dict[str, dict[str, float]]:
    """The least of each case, by way."""
    found: dict[str, dict[str, float]] = {way: {} for way in WAYS}
    for _ in range(turns):
        for way in WAYS:
            for case, ns in languages.rows_of(way, library, rounds).items():
                found[way][case] = min(ns, found[way].get(case, ns))
    return found


@cache
def executed(way: str, library: Path, case: str, calls: int) -> int:
    """The instructions of a process in Python that makes so many calls."""
    program = [sys.executable, "-B", str(languages.HERE / "bench.py"), case, str(calls)]
    words = ["valgrind", "--tool=callgrind", "--callgrind-out-file=/dev/null", *program]
    env = {**os.environ, **languages.environment(way, library), "PYTHONHASHSEED": "0"}
    ran = subprocess.run(words, env=env, stdin=subprocess.DEVNULL, capture_output=True, text=True)
    if ran.returncode != 0:
        raise Refused(f"{' '.join(program)}: {ran.stderr[-1000:]}")
    return read_counted(ran.stderr)


def instructions(way: str, library: Path, case: str) -> int:
    """What a call from Python executes: in a process, without what one executes that makes no call."""
    return (executed(way, library, case, COUNTED) - executed(way, library, CASES[0], 0)) // COUNTED


def measure(options: argparse.Namespace) -> None:
    library = options.library.resolve()
    languages.build_module()
    print(f"{building.about(library)}; Python {sys.version.split()[0]}\n")
    found = nanoseconds(library, options.rounds, options.turns)
    more = ["instructions", "by ctypes"] if options.instructions else []
    heads = ["ns", "C", "Python", "to C", "by ctypes", "to Python", *more]
    print(f"| {' | '.join(heads)} |\n|{'---|' * len(heads)}", flush=True)
    for case in CASES:
        c, python, ctypes = (found[way][case] for way in WAYS)
        cells = [NAMES[case], f"{c:,.0f}", f"{python:,.0f}", f"{python / c:.1f}", f"{ctypes:,.0f}", f"{ctypes / python:.1f}"]
        cells += [f"{instructions(way, library, case):,}" for way in WAYS[1:]] if options.instructions else []
        print(f"| {' | '.join(cells)} |", flush=True)
