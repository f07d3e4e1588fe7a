"""The archive of the crate `ffi` as the kit builds it: what it stands on is proved first, if it isn't yet."""

from __future__ import annotations

import os
import re
import subprocess
from collections.abc import Iterable
from pathlib import Path

from .crates import Crates
from .errors import Refused
from .progress import Progress

_BEGUN = re.compile(r"rt: chose --jobs \d+ for (\w+)$")
_DONE = re.compile(r"logic=proved functions=(\d+)")
LAST_LINES = 40


def tell_progress(lines: Iterable[str], names: list[str], progress: Progress) -> list[str]:
    """Says which crate of these, in the order of their proofs, is being proved. Returns the last lines that rt printed."""
    said: list[str] = []
    name = ""
    for line in lines:
        said = [*said[1 - LAST_LINES :], line.rstrip("\n")]
        if (begun := _BEGUN.match(said[-1])) and begun[1] in names:
            name = begun[1]
            progress.step(f"{name} is being proved: {names.index(name)} of {len(names)} crates are done")
        elif (done := _DONE.match(said[-1])) and name:
            progress.step(f"{name} is proved: {done[1]} functions")
            name = ""
    return said


def prove_archive(top: Path, progress: Progress) -> Path:
    """Proves what isn't proved yet, and builds the archive."""
    crates = Crates(top)
    names = [it.name for it in crates.below(["ffi"])]
    progress.step(f"{len(names)} crates are below the library; those that were proved before stay. The first time takes an hour or more")
    folder = top / "crates/ffi"
    # rt prints nothing of a crate that is kept.
    with subprocess.Popen(["rt", "lib"], cwd=folder, env=os.environ, stdout=subprocess.PIPE, stderr=subprocess.STDOUT, text=True, errors="replace") as ran:
        if ran.stdout is None:
            raise Refused("rt lib has no output")
        said = tell_progress(ran.stdout, names, progress)
    if ran.returncode != 0:
        raise Refused("\n".join([*said, f"rt lib in crates/ffi ended with status {ran.returncode}: its last lines are above"]))
    return folder / "out/libffi.a"
