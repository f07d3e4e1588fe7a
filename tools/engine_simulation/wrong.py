"""Engines with a fault: the simulation has to find each.

usage: python3 -m tools.engine_simulation.wrong [SEEDS]

The files of wrong/ are edits of the engine's sources, a fault each. One program has all of them (tools/kit/edited.py): which fault its engine has is said
by the last two digits of its clock, so that one build is enough. EDITED_VMENGINE of the environment names a build, without a proof; else it is built. For
each fault random scripts are played (at most SEEDS, 400) until a rule is broken; with digits that name no fault none may be. The last line is
'N passed, M failed'."""

from __future__ import annotations

import os
import subprocess
import sys
import tempfile
from pathlib import Path

from tools.kit import edited
from tools.simulation.program import Bad

from .play import Tally, play_seed
from .program import Program

BUILT = "EDITED_VMENGINE"
NO_FAULT = 99
"""Digits of the clock that name no fault."""


def build(room: Path) -> str:
    """The program whose engine has all faults."""
    if BUILT in os.environ:
        return os.environ[BUILT]
    made = room / edited.PROGRAM
    words = [sys.executable, "tools/unproved", "program", edited.name_of(edited.PROGRAM), made, "--quick"]
    subprocess.run(words, cwd=edited.TOP, check=True)
    return str(made)


def broken(program: Program, digits: int, seeds: int) -> str | None:
    """The first rule that a seed breaks."""
    tally = Tally()
    for seed in range(1, seeds + 1):
        try:
            play_seed(program, seed, digits, tally)
        except Bad as bad:
            return str(bad).partition("\n")[0]
    return None


def judge(program: Program, seeds: int) -> int:
    """Looks for each fault, says what broke, and returns how many weren't found."""
    failed = 0
    for it in edited.edits():
        if it.number == 0:
            continue
        found = broken(program, it.number, seeds)
        failed += found is None
        print(f"{it.number:02} {it.what} {'NOT FOUND' if found is None else 'Found: ' + found[:200]}", flush=True)
    found = broken(program, NO_FAULT, seeds // 8)
    if found is not None:
        print(f"without a fault a rule is broken: {found}")
    failed += found is not None
    print(f"{len(edited.edits()) - failed} passed, {failed} failed")
    return int(failed > 0)


def main() -> int:
    seeds = int(sys.argv[1]) if len(sys.argv) > 1 else 400
    with tempfile.TemporaryDirectory(prefix="wrong-engines-") as room:
        return judge(Program(build(Path(room))), seeds)


if __name__ == "__main__":
    sys.exit(main())
