"""How fast the runtime is, beside the same rows without the core: bench/runtime.py [DB] [WHAT..] [--scale F] [--idle S] [--workers N]

DB is a SQLite file's path, maybe with `?synchronous=NORMAL`, which is removed first, or the URL of a PostgreSQL database, which is emptied.
Each run's statements are written down, and then made again on an empty database, transaction by transaction, with neither core nor handler:
`rows alone` is what that takes. `floor` is a loop of one insert a transaction. With several workers (PostgreSQL) the others are processes
of their own, and nothing is written down. CPU seconds are this process's own; on a loaded machine they say more than the wall's.

`long` is one workflow of 1,000, 3,000 and 10,000 calls one after the other, whose attempt waits and isn't suspended. `suspended` makes 10,000
workflows that wait for a signal, and then asks a new worker for the result of another handler; at last all of them get their signal.
"""

from __future__ import annotations

import argparse
import asyncio
import inspect
import json
import os
import pathlib
import subprocess
import sys
import tempfile
import time
from collections.abc import Awaitable, Callable, Iterator
from typing import Any

sys.path.insert(0, str(pathlib.Path(__file__).parent.parent / "src"))
from palqytun.runtime import App, Context, Service, gather, inbox, invocations, journal  # noqa: E402
from palqytun.runtime.database import Database, connect  # noqa: E402
from palqytun.runtime.database.plain import Plain  # noqa: E402
from palqytun.runtime.database.schema import TABLES  # noqa: E402
from palqytun.runtime.engine import Engine  # noqa: E402
from palqytun.runtime.invocations import New  # noqa: E402
from palqytun.runtime.outcome import Outcome  # noqa: E402

bench = Service("Bench")


async def nothing() -> int:
    return 1


@bench.handler()
async def empty(ctx: Context, n: int) -> int:
    return n


@bench.handler()
async def steps(ctx: Context, n: int) -> int:
    for _ in range(n):
        await ctx.run("step", nothing)
    return n


@bench.handler()
async def calls(ctx: Context, n: int) -> int:
    for i in range(n):
        await ctx.call(empty, i)
    return n


@bench.handler()
async def fans(ctx: Context, n: int) -> int:
    return len(await gather(*[ctx.call(empty, i) for i in range(n)]))


@bench.handler()
async def sleeps(ctx: Context, n: float) -> None:
    await ctx.sleep(n)


@bench.handler()
async def waits(ctx: Context, n: int) -> int:
    await ctx.run("step", nothing)
    return await ctx.signal("go", int)


app = App(bench)

# What is run: its handler, how many workflows, the argument, and how many invocations and steps a workflow is.
RUNS = {
    "empty": ("empty", 3000, 1, 1, 1),
    "single": ("steps", 1, 1000, 1, 1000),
    "steps": ("steps", 200, 50, 1, 50),
    "calls": ("calls", 200, 10, 11, 10),
    "fans": ("fans", 20, 100, 101, 100),
    "sleeps": ("sleeps", 2000, 0.01, 1, 1),
}


GO = journal.named_signal("go", journal.value(b"1"))


_SAID = {"begin", "commit", "rollback", "rows", "several", "change", "put", "must", "many", "each"}
_SAID |= {"hurry", "notify", "notify_holder", "ready", "pass_on"}


class Recorded:
    """A connection that writes down its statements."""

    def __init__(self, db: Database):
        self._db, self.said = db, list[tuple[str, tuple[Any, ...]]]()

    def __getattr__(self, name: str) -> Any:
        found = getattr(self._db, name)
        if name not in _SAID:
            return found

        def made(*words: Any, **named: Any) -> Any:
            kept = tuple(list(it) if isinstance(it, Iterator) else it for it in (*words, *named.values()))
            self.said.append((name, kept))
            return found(*kept)

        return made

    async def another(self) -> Database | None:
        """What is written down is made by one connection."""
        return None


def emptied(url: str) -> None:
    if "://" in url:
        with Plain(url) as db:
            db.done(lambda to: to.change(f"TRUNCATE {', '.join(TABLES)} RESTART IDENTITY"))
        return
    for end in ("", "-wal", "-shm", ".lock"):
        pathlib.Path(url.partition("?")[0] + end).unlink(missing_ok=True)


def floor(url: str) -> None:
    """A loop of one insert a transaction, which is the least that a step by itself can cost."""
    emptied(url)
    count = 1000

    async def inserted(db: Database) -> float:
        begun = time.perf_counter()
        for at in range(count):
            await db.begin()
            await db.change("INSERT INTO journal(invocation, at, frame) VALUES ('floor', ?, ?)", (at, b"x" * 60))
            await db.commit()
        return time.perf_counter() - begun

    with Plain(url) as db:
        print(f"floor    {count / db.wait(inserted(db.db)):9.0f} transactions/s", flush=True)


def submitted(url: str, handler: str, count: int, argument: object) -> None:
    """An empty database with workflows that haven't begun."""
    emptied(url)
    with Plain(url) as db:
        db.done(lambda to: made(to, [New("Bench", handler, argument=json.dumps(argument).encode(), id=f"inv_{n:06d}") for n in range(count)]))


async def made(db: Database, all_of_them: list[New]) -> Outcome:
    out = Outcome()
    for new in all_of_them:
        await invocations.create(db, app, out, new)
    return out


async def again(url: str, said: list[tuple[str, tuple[Any, ...]]]) -> float:
    """Seconds that the statements take by themselves."""
    db = await connect(url)
    begun = time.perf_counter()
    for name, words in said:
        answer = getattr(db, name)(*words)
        if inspect.isawaitable(answer):
            await answer
    took = time.perf_counter() - begun
    db.close()
    return took


async def timed(url: str, name: str, scale: float, idle: float) -> None:
    """One worker, and then its rows alone."""
    handler, count, argument, invocations_of_one, steps_of_one = RUNS[name]
    count = max(1, int(count * scale))
    await asyncio.to_thread(submitted, url, handler, count, argument)
    recorded: list[Recorded] = []

    async def opened(url: str) -> Database:
        recorded.append(Recorded(await connect(url, worker=True)))
        return recorded[-1]

    engine = Engine(app, url, idle=idle, connect=opened)
    begun, used = time.perf_counter(), time.process_time()
    task = asyncio.create_task(engine.run())
    await engine.is_open()
    await until_done(engine, count * invocations_of_one)
    took, cpu, done = time.perf_counter() - begun, time.process_time() - used, count * steps_of_one
    assert engine._committer is not None
    transactions = engine._committer.counts["transactions"]
    engine.stop()
    await task
    await asyncio.to_thread(submitted, url, handler, count, argument)
    alone = await again(url, recorded[0].said)
    print(f"{name:<8} {count / took:9.0f} workflows/s {done / took:9.0f} steps/s {done / cpu:9.0f} steps/CPU s  {transactions} transactions  {took:.2f} s;", end=" ")
    print(f"rows alone {done / alone:.0f} steps/s, {took / alone:.2f} times as fast", flush=True)


async def timed_with_others(url: str, name: str, scale: float, idle: float, workers: int) -> None:
    """Several workers, all of which are there before the workflows are."""
    handler, count, argument, invocations_of_one, steps_of_one = RUNS[name]
    count = max(1, int(count * scale))
    await asyncio.to_thread(emptied, url)
    engine = Engine(app, url, idle=idle)
    task = asyncio.create_task(engine.run())
    await engine.is_open()
    env = {**os.environ, "PYTHONPATH": str(pathlib.Path(__file__).parent.parent / "src")}
    others = [subprocess.Popen(command(url, idle), env=env) for _ in range(workers - 1)]
    while (await engine.transact(lambda db: db.rows("SELECT COUNT(*) FROM workers")))[0][0] < workers:
        await asyncio.sleep(0.05)
    all_of_them = [New("Bench", handler, argument=json.dumps(argument).encode(), id=f"inv_{n:06d}") for n in range(count)]
    out = await engine.transact(lambda db: made(db, all_of_them))
    begun = time.perf_counter()
    engine.tell(out)
    await until_done(engine, count * invocations_of_one)
    took, done = time.perf_counter() - begun, count * steps_of_one
    engine.stop()
    await task
    for other in others:
        other.terminate()
        other.wait()
    print(f"{name:<8} {count / took:9.0f} workflows/s {done / took:9.0f} steps/s, {workers} workers, {took:.2f} s", flush=True)


async def measured(url: str, idle: float, work: Callable[[Engine], Awaitable[None]]) -> float:
    """Seconds from a worker's begin until some work is done."""
    engine, begun = Engine(app, url, idle=idle), time.perf_counter()
    task = asyncio.create_task(engine.run())
    await engine.is_open()
    await work(engine)
    took = time.perf_counter() - begun
    engine.stop()
    await task
    return took


async def long(url: str, scale: float) -> None:
    for count in (1000, 3000, 10_000):
        count = int(count * scale)
        await asyncio.to_thread(submitted, url, "calls", 1, count)
        used = time.process_time()
        took = await measured(url, 1.0, lambda engine: until_done(engine, count + 1))
        used = time.process_time() - used
        print(f"long     {count} calls one after the other in {took:.1f} s, {count / took:.0f} calls/s, {count / used:.0f} calls/CPU s", flush=True)


async def suspended(url: str, scale: float) -> None:
    count = int(10_000 * scale)
    await asyncio.to_thread(submitted, url, "waits", count, 1)
    took = await measured(url, 0.0, lambda engine: until_status(engine, "suspended", count))

    async def first(engine: Engine) -> None:
        await engine.result(await engine.submit(New("Bench", "empty", argument=b"1")))

    async def delivered(db: Database) -> None:
        for n in range(count):
            await inbox.deliver(db, Outcome(), f"inv_{n:06d}", GO)

    async def resolved(engine: Engine) -> None:
        await engine.transact(delivered)
        await until_done(engine, count + 1)

    answered, ended = await measured(url, 0.0, first), await measured(url, 0.0, resolved)
    print(f"suspended {count} in {took:.1f} s; a new worker's first answer after {1000 * answered:.0f} ms; all of them end in {ended:.1f} s", flush=True)


def command(url: str, idle: float) -> list[str]:
    """A worker in a process of its own."""
    return [sys.executable, "-m", "palqytun", "run", __file__, "--db", url, "--port", "-1", "--idle", str(idle)]


async def until_done(engine: Engine, count: int) -> None:
    await until_status(engine, "done", count)


async def until_status(engine: Engine, status: str, count: int) -> None:
    sql = "SELECT COUNT(*) FROM invocations WHERE status=?"
    while (await engine.transact(lambda db: db.rows(sql, (status,))))[0][0] < count:
        await asyncio.sleep(0.02)


async def main() -> None:
    parser = argparse.ArgumentParser()
    parser.add_argument("db", nargs="?", default="")
    parser.add_argument("what", nargs="*", default=["floor", *RUNS, "long", "suspended"])
    parser.add_argument("--scale", type=float, default=1.0)
    parser.add_argument("--idle", type=float, default=0.0)
    parser.add_argument("--workers", type=int, default=1)
    options = parser.parse_args()
    with tempfile.TemporaryDirectory(prefix="palqytun-bench-") as folder:
        url = options.db or f"{folder}/db"
        for name in options.what:
            if name == "floor":
                await asyncio.to_thread(floor, url)
            elif name in ("long", "suspended"):
                await (long if name == "long" else suspended)(url, options.scale)
            elif options.workers > 1:
                await timed_with_others(url, name, options.scale, options.idle, options.workers)
            else:
                await timed(url, name, options.scale, options.idle)
        await asyncio.to_thread(emptied, url)


if __name__ == "__main__":
    asyncio.run(main())
