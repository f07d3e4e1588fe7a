"""Runs files of tests for Node, each in a process of its own. One whose process stays open is named, with its output and what keeps it open.

usage: python3 -m tools.callers.node_tests [--limit SECONDS] [--at-once N] FILE..

It prints the output of each file that failed. The last line is 'N passed, M failed, K skipped'."""

from __future__ import annotations

import argparse
import contextlib
import os
import re
import signal
import subprocess
import sys
import tempfile
import time
from collections.abc import Iterable, Sequence
from concurrent.futures import ThreadPoolExecutor
from pathlib import Path

from tools.gate import counts as counting

COUNT = re.compile(r"^\W (pass|fail|cancelled|skipped|todo) (\d+)$", re.M)
LIMIT = 600  # seconds that a file may take beside all else that the gate runs: it usually takes less than 30
A_MOMENT = 2  # seconds in which a process says what keeps it open
OPEN = "what keeps it open: "
HOOK = f"process.on('SIGUSR2', () => console.error('{OPEN}' + process.getActiveResourcesInfo().join(' ')));\n"


def command(files: Iterable[str]) -> list[str]:
    """The command that runs these files, at the top of the repository."""
    return [sys.executable, "-B", "-m", "tools.callers.node_tests", *files]


def counted(output: str, status: int | None) -> counting.Counts:
    """The counts of a file's output. Whatever didn't pass has failed, and so has a file without a test."""
    said = {word: int(count) for word, count in COUNT.findall(output)}
    passed = said.pop("pass", 0)
    return counting.with_status(counting.Counts(passed, sum(said.values()) or int(passed == 0)), 1 if status is None else status)


def run(file: str, hook: str, limit: float) -> tuple[counting.Counts, str]:
    """Runs a file. Returns its counts and its output; what it started ends with it."""
    with tempfile.TemporaryFile() as output:
        process = subprocess.Popen(["node", "--require", hook, file], stdin=subprocess.DEVNULL, stdout=output, stderr=subprocess.STDOUT, start_new_session=True)
        status = None
        try:
            status = process.wait(limit)
        except subprocess.TimeoutExpired:
            process.send_signal(signal.SIGUSR2)
            time.sleep(A_MOMENT)
        finally:
            with contextlib.suppress(ProcessLookupError):
                os.killpg(process.pid, signal.SIGKILL)
            process.wait()
        output.seek(0)
        said = output.read().decode(errors="replace")
    late = f"{file} had not ended after {limit:g} seconds\n" if status is None else ""
    return counted(said, status), said + late


def main(words: Sequence[str]) -> int:
    parser = argparse.ArgumentParser("tools.callers.node_tests", description=__doc__, formatter_class=argparse.RawDescriptionHelpFormatter)
    parser.add_argument("--limit", type=float, default=LIMIT, metavar="SECONDS", help=f"that a file may take ({LIMIT})")
    parser.add_argument("--at-once", type=int, default=3, metavar="N", help="how many files are run side by side (3)")
    parser.add_argument("files", nargs="+", metavar="FILE")
    options = parser.parse_args(words)
    found = counting.Counts()
    with tempfile.TemporaryDirectory() as room, ThreadPoolExecutor(options.at_once) as pool:
        hook = Path(room, "hook.cjs")
        hook.write_text(HOOK, encoding="utf-8")
        for file, (counts, said) in zip(options.files, pool.map(lambda it: run(it, str(hook), options.limit), options.files), strict=True):
            found += counts
            if counts.failed:
                print(f"== {file}: {counts}\n{said}", flush=True)
    print(found)
    return 1 if found.failed else 0


if __name__ == "__main__":
    sys.exit(main(sys.argv[1:]))
