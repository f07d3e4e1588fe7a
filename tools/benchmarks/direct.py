"""`tools/bench direct`: what C's typed calls add to the VM's own calls, which the program vmbench makes with no C between.

Both play the same cases, with cancellation off. Instructions of the whole program are counted by valgrind, without what it takes for no entries at
all. What the callers take to write the frames that they feed is counted in both."""

from __future__ import annotations

import argparse
import subprocess
from pathlib import Path

from tools.kit.errors import Refused
from tools.kit.progress import Progress
from tools.kit.unproved import build_program

from . import building, core
from .measuring import read_counted

CASES = {
    "sleeps": "a sleep that is completed, awaited and taken before the next",
    "replay": "the same, all of it recorded",
    "signals": "a signal of one name, its next delivery awaited and taken",
    "state": "a key that is set, got and taken",
    "calls": "a call, its invocation id and its result awaited and taken",
    "runs": "a run that is executed, its result proposed, acknowledged, awaited and taken",
}


def add(parser: argparse.ArgumentParser) -> None:
    parser.add_argument("--library", type=Path, default=core.LIBRARY, metavar="FILE", help="Palqytun's library (bindings/out/libpalqytun.so)")
    parser.add_argument("--vmbench", type=Path, metavar="FILE", help="the program vmbench; built without a proof if none is named")
    parser.add_argument("--sizes", type=core.numbers, default=[1_000, 10_000], metavar="N,..", help="entries of a case (1000,10000)")


def instructions(program: Path, case: str, size: int) -> int:
    words = ["valgrind", "--tool=callgrind", "--callgrind-out-file=/dev/null", str(program), case, str(size)]
    ran = subprocess.run(words, stdin=subprocess.DEVNULL, capture_output=True, text=True)
    if ran.returncode != 0:
        raise Refused(f"{program.name} {case} {size}: status {ran.returncode}")
    return read_counted(ran.stderr)


def measure(options: argparse.Namespace) -> None:
    typed = building.compile_c("direct", options.library)
    vmbench = options.vmbench
    if vmbench is None:
        vmbench = building.OUT / "vmbench"
        build_program("vmbench", vmbench, Progress())
    print(f"{'case':<8}", *(f"{f'{it:,}':>10} {'direct':>8} {'ratio':>5}" for it in options.sizes), "  an entry is")
    for case, what in CASES.items():
        cells = []
        least = [instructions(it, case, 0) for it in (typed, vmbench)]
        for size in options.sizes:
            each = [(instructions(it, case, size) - fixed) // size for it, fixed in zip((typed, vmbench), least)]
            cells.append(f"{each[0]:>10,} {each[1]:>8,} {each[0] / max(each[1], 1):>5.2f}")
        print(f"{case:<8}", *cells, f"  {what}", flush=True)
