"""What jobs run in: the Python of the tests, how many cores there are, and the files that stand for programs."""

from __future__ import annotations

import os
import re
import shutil
import sys
from collections.abc import Mapping
from pathlib import Path

from . import packages
from .proofs import SAYS_KEPT

TOP = Path(__file__).resolve().parents[2]
MEMORY = 4_000_000  # kilobytes for each crate that is proved


def write_program(path: Path, text: str) -> None:
    """Writes a script that can be run."""
    path.parent.mkdir(parents=True, exist_ok=True)
    path.write_text(text, encoding="utf-8")
    path.chmod(0o755)


def with_bytecode(env: Mapping[str, str]) -> dict[str, str]:
    """An environment in which Python keeps what it compiles in out/: a worker of the tests starts in half the time by that. Nothing is written
    beside the sources."""
    return {**{name: it for name, it in env.items() if name != "PYTHONDONTWRITEBYTECODE"}, "PYTHONPYCACHEPREFIX": str(TOP / "out/pycache")}


def environment(folder: Path) -> dict[str, str]:
    """The environment of all jobs: `python3` is this Python for them, by a file in this folder, whichever is the first on the path."""
    write_program(folder / "python3", f'#!/bin/sh\nexec "{sys.executable}" "$@"\n')
    path = f"{folder}{os.pathsep}{os.environ['PATH']}"
    return with_bytecode({**os.environ, "PATH": path, "PALQYTUN_PYTHON": sys.executable})


def start_anew(command: str, words: list[str]) -> None:
    """Goes on with this command in the Python of the tests, if this isn't it."""
    python = packages.chosen_python(packages.read())
    if "PALQYTUN_PYTHON" in os.environ or same(python, sys.executable):
        return
    os.environ["PALQYTUN_PYTHON"] = python
    sys.stdout.flush()
    os.execv(python, [python, "-B", str(TOP / command), *words])


def same(one: str, other: str) -> bool:
    """Whether these are one program."""
    return os.path.realpath(shutil.which(one) or one) == os.path.realpath(other)


def processors() -> int:
    """How many processors this process may run on."""
    return len(os.sched_getaffinity(0))


def free_memory() -> int:
    """How many kilobytes of memory can be had."""
    with open("/proc/meminfo", encoding="ascii") as lines:
        return next(int(it.split()[1]) for it in lines if it.startswith("MemAvailable:"))


def cores(kilobytes: int) -> int:
    """How many jobs run at a time: as many as there are cores for us, if each has this much memory."""
    return max(1, min(processors(), free_memory() // kilobytes))


def named_lanes() -> int | None:
    """How many crates RT_JOBS says to prove at a time."""
    named = os.environ.get("RT_JOBS", "")
    return int(named) if re.fullmatch("[1-9][0-9]*", named) else None


def lanes() -> int:
    """How many crates are proved at a time: RT_JOBS, or as many as there are cores, if each has 4 GB."""
    return named_lanes() or cores(MEMORY)


def keeps_proofs() -> bool:
    """Whether `rt ci` keeps what it has proved, beside the kit, for a later one on this machine: the kit's `rt` is one that says so of a crate, and
    may write there. Not every kit's does."""
    rt = shutil.which("rt")
    if rt is None:
        return False
    place = Path(rt).resolve()
    return any(SAYS_KEPT.encode() in it.read_bytes() for it in place.parent.glob("rt*")) and os.access(place.parents[2], os.W_OK)


def with_priority(nice: int, words: tuple[str, ...]) -> tuple[str, ...]:
    """A command that leaves the processors to others by this much. Where Linux weighs sessions, a process's own number counts only within its session, so
    the session has the same."""
    return ("sh", "-c", '{ echo "$0" >/proc/self/autogroup; } 2>/dev/null; exec nice -n "$0" "$@"', str(nice), *words)
