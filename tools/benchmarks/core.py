"""`tools/bench core`: the typed calls of C beside the original's calls."""

from __future__ import annotations

import argparse
import datetime
import os
import platform
import shutil
from collections.abc import Callable
from concurrent.futures import ThreadPoolExecutor
from pathlib import Path

from tools.gate.evidence import machine
from tools.kit import about as builds
from tools.kit.commands import run
from tools.kit.errors import Refused
from tools.kit.progress import Progress

from . import building, measuring, profiling, tables
from .cases import CASES, LONG, MOST, NAMES
from .measuring import Player, Point, Row, Setting

PAGE = building.TOP / "docs/BENCHMARKS.md"
LIBRARY = building.TOP / "bindings/out/libpalqytun.so"
SIZES = {"instructions": (5, 100, 10_000), "heap": (5, 100, 10_000), "time": (5, 100, 10_000, 100_000)}
SETTINGS = (Setting(cancels=True), Setting(cancels=False))
FEW = 100  # entries of a case whose entries are apart, in a profile
WAYS = ("instructions", "heap", "profile", "time")
BESIDE_HEAP = ("allocations", "copies")  # what the same runs count


def numbers(text: str) -> list[int]:
    """Sizes, as 5,100,10000."""
    found = [int(it) for it in text.split(",") if it.isdigit() and 0 < int(it) <= MOST]
    if len(found) != text.count(",") + 1:
        raise argparse.ArgumentTypeError(f"sizes are numbers from 1 to {MOST:,} with commas between, not {text!r}")
    return found


def names(allowed: tuple[str, ...]) -> Callable[[str], list[str]]:
    def read(text: str) -> list[str]:
        unknown = [it for it in text.split(",") if it not in allowed]
        if unknown:
            raise argparse.ArgumentTypeError(f"there is no {unknown[0]!r}: they are {', '.join(allowed)}")
        return text.split(",")

    return read


def add(parser: argparse.ArgumentParser) -> None:
    parser.add_argument("--original", type=Path, metavar="FOLDER", help="the folder of the original, shared core 8.2.0; without it Palqytun alone is measured")
    parser.add_argument("--library", type=Path, default=LIBRARY, metavar="FILE", help="Palqytun's library (bindings/out/libpalqytun.so)")
    parser.add_argument("--measure", type=names(WAYS), default=["instructions", "heap"], metavar="WAY,..", help=f"{', '.join(WAYS)}; the first two by default")
    parser.add_argument("--sizes", type=numbers, metavar="N,..", help="entries of a case (5,100,10000, and 100000 by the clock); a profile has 10,000")
    parser.add_argument("--cases", type=names(NAMES), default=list(NAMES), metavar="CASE,..", help="these cases alone")
    parser.add_argument("--default-options", action="store_true", help="don't measure with cancellation off too")
    parser.add_argument("--runs", type=int, default=9, metavar="N", help="alternating runs, of which the fastest counts as time (9)")
    parser.add_argument("--jobs", type=int, choices=range(1, 65), default=1, metavar="N", help="points that are measured at a time, but never by the clock (1)")
    parser.add_argument("--write", action="store_true", help="write the tables into docs/BENCHMARKS.md")


def counting() -> None:
    if shutil.which("valgrind") is None:
        raise Refused("valgrind, which counts instructions, is not on the path; Debian: apt-get install valgrind")


def way(name: str, runs: int) -> Callable[[list[Player], Point], Row]:
    """How a measure is taken."""
    if name == "heap":
        return measuring.heap(building.compile_heap())
    if name == "time":
        return measuring.clock(runs)
    counting()
    return measuring.instructions


def shown(way: str) -> list[tables.Measure]:
    """The tables that a way of measuring gives."""
    return [it for it in tables.MEASURES if it.name == way or (way == "heap" and it.name in BESIDE_HEAP)]


def remark(options: argparse.Namespace, name: str, commit: str, load: float) -> str:
    """When and on what was measured. `load` is that of the machine when this began."""
    compiler = run(["rustc", "--version"], "rustc").split()[1] if options.original else ""
    said = [
        f"Measured on {datetime.date.today()} at commit `{commit}`, by the library `{building.about(options.library)}`.",
        f"Machine: {machine()}, {' '.join(platform.libc_ver())}.",
        f"The original was compiled by rustc {compiler}." if compiler else "",
        f"The load was {load:.0f} when this began and {os.getloadavg()[0]:.0f} when it ended." if name == "time" else "",
    ]
    return " ".join(it for it in said if it)


def measure_by(name: str, options: argparse.Namespace, players: list[Player]) -> list[Row]:
    """Takes a measure at each point, and prints each row."""
    rows, take, figures = [], way(name, options.runs), [it.figure for it in shown(name)]
    print(f"{name}: here / original = ratio{'' if name == 'heap' else ', for an entry'}", flush=True)
    cases = [it for it in CASES if it.name in options.cases]
    points = measuring.points(cases, options.sizes or SIZES[name], SETTINGS[:1] if options.default_options else SETTINGS)
    with ThreadPoolExecutor(1 if name == "time" else options.jobs) as pool:
        for row in pool.map(lambda point: take(measuring.players_of(players, point), point), points):
            print("   ".join([tables.line(row, figures[0]), *(tables.cell(row, it) for it in figures[1:])]), flush=True)
            rows.append(row)
    return rows


def profile(options: argparse.Namespace, players: list[Player], commit: str, progress: Progress) -> None:
    """Says where the instructions of each case go, and prints or writes it. Unless some are chosen, these are the cases with a target."""
    counting()
    cases = [it for it in CASES if it.name in options.cases and (it.target is not None or len(options.cases) < len(CASES))]
    those = [Point(it, FEW if it.apart else min(LONG, it.most), SETTINGS[0]) for it in cases]
    points = [(player, it) for it in those for player in measuring.players_of(players, it)]
    with ThreadPoolExecutor(options.jobs) as pool:
        found = list(pool.map(lambda it: profiling.profile(*it), points))
    text = tables.profile(found, remark(options, "profile", commit, 0))
    if options.write:
        tables.write(PAGE, "profile", text)
        progress.step(f"the profile stands in {PAGE.relative_to(building.TOP)}")
    else:
        print(text)


def measure(options: argparse.Namespace) -> None:
    """Builds both sides, measures them, and prints or writes the tables."""
    progress = Progress()
    players = [building.original(options.original, progress)] if options.original else []
    players.append(building.here(options.library))
    commit = builds.commit(building.TOP)  # before a page is written
    for name in options.measure:
        if name == "profile":
            profile(options, players, commit, progress)
            continue
        load = os.getloadavg()[0]
        rows = measure_by(name, options, players)
        for it in shown(name) if options.write else []:
            parts = [tables.section(it, rows, remark(options, name, commit, load))]
            parts += [tables.targets_section(rows)] if name == "instructions" and options.original else []
            tables.write(PAGE, it.name, "\n\n".join(parts))
            progress.step(f"{it.name} stands in {PAGE.relative_to(building.TOP)}")
