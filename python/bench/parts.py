"""How much of a workflow, a step or a call is the core, SQL, and the rest of the runtime: parts.py [--scale F] [--turns N] prints a table for calls of the core in
C, and one for calls by ctypes.

A worker runs in this process, on SQLite in a folder of its own, whose commits don't wait for the disk. A cell is microseconds of the processor for a
unit, the best of some turns: a workflow (`empty`, `sleeps`), a step of 50 (`steps`), a call of 10 (`calls`). `core` is the time within `VM`, `Journal`
and `palqytun.frames`, with what their arguments and results take in Python; `SQL` is the time within sqlite3. In brackets is how often one is called
from the rest. What the timing itself takes is measured, and taken off."""

from __future__ import annotations

import argparse
import asyncio
import functools
import inspect
import json
import os
import pathlib
import subprocess
import sys
import tempfile
import time
from collections.abc import Callable
from typing import Any

HERE = pathlib.Path(__file__).parent
sys.path[:0] = [str(HERE), str(HERE.parent / "src")]
IMPLEMENTATIONS = ("c", "ctypes")
UNITS = ("empty", "steps", "calls", "sleeps")
PARTS = ("core", "SQL", "the rest")
Call = Callable[..., Any]


class Clock:
    """Which part runs, and what each has taken of the processor."""

    def __init__(self) -> None:
        self.part, self._last = "the rest", time.process_time_ns()
        self.spent, self.entered = dict.fromkeys(PARTS, 0), dict.fromkeys(PARTS, 0)

    def switch(self, part: str) -> str:
        """Another part runs from now on. Returns the one before."""
        now = time.process_time_ns()
        self.spent[self.part] += now - self._last
        self._last, before, self.part = now, self.part, part
        return before

    def timed(self, part: str, call: Call) -> Call:
        """A call whose time is that part's."""

        @functools.wraps(call)
        def timing(*given: Any, **named: Any) -> Any:
            if self.part == part:
                return call(*given, **named)
            before = self.switch(part)
            self.entered[part] += 1
            try:
                return call(*given, **named)
            finally:
                self.switch(before)

        return timing


    def forget(self) -> None:
        """Begins anew."""
        self.switch("the rest")
        self.spent, self.entered = dict.fromkeys(PARTS, 0), dict.fromkeys(PARTS, 0)

    def own(self) -> tuple[float, float]:
        """Nanoseconds that the timing of a call takes: within the part that is called, and in the rest."""
        calls, nothing = 20_000, self.timed("core", lambda: None)
        self.forget()
        for _ in range(calls):
            nothing()
        self.switch("the rest")
        return self.spent["core"] / calls, self.spent["the rest"] / calls


clock = Clock()


def time_the_core() -> None:
    """Has what is called of the core timed, before anything imports it by name."""
    from palqytun import VM, Journal, frames

    for of in (VM, Journal, frames.Message):
        for name in ("__init__", *(it for it in dir(of) if not it.startswith("_"))):
            if inspect.isroutine(it := inspect.getattr_static(of, name)):
                setattr(of, name, clock.timed("core", it))
    for name in frames.__all__:
        if inspect.isfunction(it := getattr(frames, name)):
            setattr(frames, name, clock.timed("core", it))


class Timed:
    """A connection or a cursor of sqlite3, whose calls are timed."""

    def __init__(self, it: Any) -> None:
        self._it = it
        for name in ("execute", "executemany", "commit", "rollback", "cursor", "fetchone", "fetchmany", "fetchall"):
            if hasattr(it, name):
                setattr(self, name, self._timed(getattr(it, name)))

    def _timed(self, call: Call) -> Call:
        def made(*given: Any) -> Any:
            found = timing(*given)
            return Timed(found) if hasattr(found, "fetchone") else found

        timing = clock.timed("SQL", call)
        return made

    def __getattr__(self, name: str) -> Any:
        return getattr(self._it, name)


def net(spent: dict[str, int], entered: dict[str, int], own: tuple[float, float]) -> dict[str, float]:
    """Nanoseconds of each part, without what the timing took."""
    crossings = sum(entered.values())
    return {it: spent[it] - (crossings * own[1] if it == "the rest" else entered[it] * own[0]) for it in PARTS}


async def played(url: str, name: str, scale: float) -> dict[str, tuple[float, float]]:
    """Microseconds and crossings of each part, for a unit."""
    import runtime
    from palqytun.runtime.database import Database, connect
    from palqytun.runtime.engine import Engine

    handler, count, argument, invocations, steps = runtime.RUNS[name]
    count = max(2, int(count * scale))
    await asyncio.to_thread(runtime.submitted, url, handler, count, argument)

    async def opened(url: str) -> Database:
        db: Any = await connect(url, worker=True)
        db._connection = Timed(db._connection)
        return db  # type: ignore[no-any-return]

    engine = Engine(runtime.app, url, idle=0.0, connect=opened)
    own = clock.own()
    clock.forget()
    task = asyncio.create_task(engine.run())
    await engine.is_open()
    await runtime.until_done(engine, count * invocations)
    clock.switch("the rest")
    spent, entered = net(clock.spent, clock.entered, own), clock.entered
    engine.stop()
    await task
    return {it: (spent[it] / 1000 / count / steps, entered[it] / count / steps) for it in PARTS}


async def play(scale: float, turns: int) -> None:
    """Prints what each unit takes, as JSON."""
    time_the_core()
    folder = "/dev/shm" if os.path.isdir("/dev/shm") else None
    with tempfile.TemporaryDirectory(prefix="palqytun-parts-", dir=folder) as room:
        found = {}
        for name in UNITS:
            those = [await played(f"{room}/db?synchronous=OFF", name, scale) for _ in range(turns)]
            found[name] = min(those, key=lambda it: sum(micros for micros, _ in it.values()))
    print(json.dumps(found))


def table(implementation: str, scale: float, turns: int) -> str:
    """The table of one way of making calls, each in a process of its own."""
    env = {**os.environ, "PALQYTUN_IMPLEMENTATION": implementation}
    words = [sys.executable, "-B", __file__, "--play", "--scale", str(scale), "--turns", str(turns)]
    ran = subprocess.run(words, env=env, stdout=subprocess.PIPE, text=True, check=True)
    rows = [f"| calls of the core by {implementation} | {' | '.join(PARTS)} | in all |", f"|{'---|' * (len(PARTS) + 2)}"]
    for name, parts in json.loads(ran.stdout).items():
        total = sum(micros for micros, _ in parts.values())
        cells = [f"{micros:,.0f}, {micros / total:.0%}{f' ({entered:.1f})' if entered else ''}" for micros, entered in parts.values()]
        rows.append(f"| `{name}` | {' | '.join(cells)} | {total:,.0f} |")
    return "\n".join(rows)


def main() -> None:
    parser = argparse.ArgumentParser("parts.py", description=__doc__, formatter_class=argparse.RawDescriptionHelpFormatter)
    parser.add_argument("--scale", type=float, default=0.2, help="how many workflows, beside those of runtime.py (0.2)")
    parser.add_argument("--turns", type=int, default=3, help="how often each is played (3)")
    parser.add_argument("--play", action="store_true", help=argparse.SUPPRESS)
    options = parser.parse_args()
    if options.play:
        asyncio.run(play(options.scale, options.turns))
    else:
        print(*(table(it, options.scale, options.turns) for it in IMPLEMENTATIONS), sep="\n\n")


if __name__ == "__main__":
    main()
