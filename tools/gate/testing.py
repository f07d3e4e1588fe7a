"""./test: runs every test, and proves nothing."""

from __future__ import annotations

import argparse
import os
import shutil
import signal
import sys
import time
from dataclasses import replace
from pathlib import Path

from .environment import TOP, cores, environment, start_anew
from .jobs import Job, Runner, never, total, with_needed
from .parts import OUT, PARTS, TAKEN, all_jobs
from .show import Show, minutes, times
from .spare import Spare, idle_seconds

MEMORY = 1_500_000  # kilobytes that a job takes at most

ABOUT = """Runs every test, and proves nothing: what is proved, ./prove proves. Parts that don't need each other run side by side.
The last line is 'N passed, M failed, K skipped'. Each job's output is kept in out/test/logs, and their times in out/test/times."""


def arguments(words: list[str]) -> argparse.Namespace:
    parser = argparse.ArgumentParser("./test", description=ABOUT)
    parser.add_argument("parts", nargs="*", metavar="PART", help="these parts alone, with what they need; all by default")
    parser.add_argument("--list", action="store_true", help="name the parts, with what they are for and their usual seconds")
    parser.add_argument("--no-skips", action="store_true", help="a skip is a failure")
    parser.add_argument("--jobs", type=int, default=cores(MEMORY), metavar="N", help="how many run at a time (%(default)s)")
    parser.add_argument("--nice", type=int, default=0, metavar="N", help="leave the processors to other work by this much, from 0 to 10 (%(default)s)")
    options = parser.parse_args(words)
    names = [it.name for it in PARTS]
    if unknown := [it for it in options.parts if it not in names]:
        parser.error(f"there is no part {unknown[0]}: they are {', '.join(names)}")
    if options.jobs < 1:
        parser.error("--jobs wants a number above 0")
    if not 0 <= options.nice <= 10:
        parser.error("--nice wants a number from 0 to 10")
    return options


def wanted(names: list[str]) -> list[Job]:
    """The jobs of these parts, or of all, and those that they need. What they only come after may be left out."""
    every = all_jobs()
    those = with_needed([it for it in every if it.part in names], every) if names else every
    present = {it.name for it in those}
    return [replace(it, after=tuple(one for one in it.after if one in present)) for it in those]


def listed() -> None:
    """Prints the parts."""
    width = max(len(it.name) for it in PARTS)
    for it in PARTS:
        seconds = sum(job.seconds for job in it.jobs())
        print(f"{it.name:{width}}  {minutes(seconds):>11} of a core  {it.what}")


def run(options: argparse.Namespace) -> int:
    """Runs the parts, and returns the status."""
    jobs, begun, idle = [replace(it, nice=it.nice + options.nice) for it in wanted(options.parts)], time.monotonic(), idle_seconds()
    print(f"{len(jobs)} jobs on {options.jobs} cores; nothing is proved; logs: {OUT}/logs", flush=True)
    shutil.rmtree(TAKEN, ignore_errors=True)
    show = Show(jobs, options.no_skips)
    spare = Spare(MEMORY) if options.jobs == cores(MEMORY) else never
    runner = Runner(jobs, options.jobs, Path(OUT, "logs"), show, environment(TOP / OUT / "bin"), spare)
    done = runner.run()
    show.close()
    Path(OUT, "times").write_text(times(done.values()), encoding="utf-8")
    found = total(done, options.no_skips)
    print(f"./test took {minutes(time.monotonic() - begun)}, and {minutes(sum(it.used for it in done.values()))} of a core")
    print(f"this host's processors had nothing to do for {minutes(idle_seconds() - idle)} together")
    print(found)
    return 1 if found.failed else 0


def main(words: list[str]) -> int:
    options = arguments(words)
    os.chdir(TOP)
    if options.list:
        listed()
        return 0
    if shutil.which("rt") is None:
        print("./test: the kit's command rt is not on the path", file=sys.stderr)
        print("0 passed, 1 failed, 0 skipped")
        return 1
    start_anew("test", words)
    signal.signal(signal.SIGTERM, lambda *_: sys.exit(143))
    return run(options)
