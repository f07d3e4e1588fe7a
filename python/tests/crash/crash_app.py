"""The workload of the crash tests: what a workflow does doesn't depend on when it runs, so its commands are known."""

import asyncio
import os
import pathlib
import random
import time

from palqytun.runtime import App, Cancelled, Context, Retry, Schedule, Service, TerminalError, Transaction, VirtualObject, Workflow
from palqytun.runtime import gather, select, wait_any

load, counter, gate, line, ticks = Service("Load"), VirtualObject("Counter"), Workflow("Gate"), VirtualObject("Line"), VirtualObject("Ticks")
months = VirtualObject("Months")
BIG = "x" * 100_000
WIDE, PUSHED, LAST = 40, 5, 3


class Outside:
    """What effects reach: a file, to which each execution adds a line with its idempotency key."""

    file = os.environ.get("CRASH_EFFECTS", "/dev/null")
    delay = float(os.environ.get("CRASH_DELAY", 0.1))


async def effect(key: str) -> str:
    await asyncio.sleep(random.random() * Outside.delay)
    _written(key)
    return key


def _written(key: str) -> None:
    file = os.open(Outside.file, os.O_WRONLY | os.O_APPEND | os.O_CREAT)
    os.write(file, f"{key}\n".encode())
    os.close(file)


def plainly(key: str) -> str:
    """The same in a thread."""
    time.sleep(random.random() * Outside.delay)
    _written(key)
    return key


async def flaky(key: str) -> str:
    """Fails at the first two executions."""
    await effect(key)
    if Outside.file != "/dev/null" and pathlib.Path(Outside.file).read_text().count(key) < 3:
        raise OSError("not yet")
    return key


@load.handler()
async def leaf(ctx: Context, n: int) -> int:
    await ctx.run("leaf", effect, ctx.uuid())
    return n + 1


async def booked(to: Transaction, id: str) -> int:
    """A row of the database's own, once an order."""
    return await to.execute("INSERT INTO booked(id) VALUES (?)", id)


@load.handler()
async def order(ctx: Context, n: int) -> str:
    """Calls of objects, runs, a transaction, a sleep, and a send for later."""
    await gather(*[ctx.call(add, 1, key=str((n + i) % 7)) for i in range(3)])
    await ctx.run("reserve", effect, ctx.uuid())
    await ctx.run("charge", lambda: plainly(ctx.run_key))
    await ctx.run("ship", plainly, ctx.uuid())
    await ctx.transaction("book", booked, ctx.invocation_id)
    await ctx.sleep(0.2)
    await ctx.send(add, 10, key=str(n % 7), delay=0.1)
    return "ordered"


@load.handler()
async def tasks(ctx: Context, n: int) -> int:
    """Coroutines side by side, each of some steps."""

    async def one(i: int) -> int:
        key = ctx.uuid()
        first = await ctx.call(leaf, i)
        await ctx.run(f"task {i}", effect, key)
        return first

    return sum(await gather(*[ctx.spawn(one(i)) for i in range(4)]))


@load.handler()
async def retried(ctx: Context, n: int) -> str:
    if ctx.patched("flaky"):
        await ctx.run("flaky", flaky, ctx.uuid(), retry=Retry(initial=0.02, longest=0.1))
    try:
        await ctx.call("Load/fails", n)
    except TerminalError as error:
        return f"{error.message}, {await ctx.call(repeated, n)}"
    return "no error"


@load.handler()
async def repeated(ctx: Context, n: int) -> int:
    """Two calls by one idempotency key, the second with another argument: a conflict."""
    await ctx.call(leaf, n, idempotency_key=f"leaf {n}")
    try:
        return await ctx.call(leaf, n + 1, idempotency_key=f"leaf {n}")
    except TerminalError as error:
        return error.code


@load.handler()
async def fails(ctx: Context, n: int) -> None:
    raise TerminalError(f"{n} fails", 418)


@load.handler()
async def awaits(ctx: Context, n: int) -> list:
    """An awakeable and a signal, which another invocation completes."""
    id, awaited = ctx.awakeable()
    signal = ctx.signal("go")
    ctx.send(completes, [id, ctx.invocation_id])
    first = await awaited
    which, value = await select(signal, ctx.sleep(36000))
    return [len(await ctx.run("big", lambda: first)), which, value]


@load.handler()
async def completes(ctx: Context, ids: list) -> None:
    await ctx.sleep(0.03)
    ctx.resolve_awakeable(ids[0], BIG)
    ctx.send_signal(ids[1], "go", "gone")


@load.handler()
async def cancels(ctx: Context, n: int) -> str:
    id = await ctx.send(patient, ctx.invocation_id)
    await ctx.signal("begun")  # one that hasn't begun ends at once, and undoes nothing
    await ctx.sleep(0.1)
    ctx.cancel(id)
    try:
        await ctx.attach(id)
    except TerminalError as error:
        return error.message
    return "not cancelled"


@load.handler()
async def patient(ctx: Context, caller: str) -> None:
    ctx.send_signal(caller, "begun")
    try:
        await wait_any(ctx.call(sleeps, 1), ctx.call(sleeps, 2))
    except Cancelled:
        await ctx.run("undo", effect, ctx.uuid())
        raise


@load.handler()
async def sleeps(ctx: Context, n: int) -> None:
    await ctx.sleep(36000)


@load.handler()
async def opens(ctx: Context, n: int) -> list:
    """A workflow that waits for a promise."""
    main = ctx.call("Gate/main", n, key=str(n))
    await ctx.sleep(0.02)
    await ctx.call("Gate/open", "open", key=str(n))
    return [await main, await ctx.call("Gate/look", None, key=str(n))]


@gate.main()
async def main(ctx: Context, n: int) -> str:
    ctx.set("step", "waits")
    word = await ctx.promise("opened").value()
    ctx.set("step", "opened")
    return word


@gate.handler()
async def open(ctx: Context, word: str) -> None:
    await ctx.promise("opened").resolve(word)


@gate.handler()
async def look(ctx: Context, _: None) -> str:
    return await ctx.get("step")


@load.handler()
async def fans(ctx: Context, n: int) -> list:
    """Many runs at once, in threads and not; calls of a handler with a limit; and a row of sends to one key."""
    keys = [ctx.uuid() for _ in range(WIDE)]
    done = await gather(*[ctx.run("one", plainly if i % 2 else effect, key) for i, key in enumerate(keys)])
    few = await gather(*[ctx.call(limited, i) for i in range(3)])
    for i in range(PUSHED):
        await ctx.send(push, [n, i], key=str(n % 2))
    return [done == keys, few]


@load.handler()
async def continues(ctx: Context, n: int) -> list:
    """What it calls goes on as new invocations, with its key and its attributes, and gives the result of the last one."""
    ctx.set_attribute("number", n)
    done = await ctx.call(month, [n, 1], key=str(n))
    ctx.set_attribute("months", len(done))
    return done


@months.handler()
async def month(ctx: Context, it: list) -> list:
    n, number = it
    ctx.set_attribute("month", number)
    await ctx.run("month", effect, ctx.uuid())
    ctx.set("months", (await ctx.get("months") or []) + [number])
    ctx.set_attribute("first", True if number == 1 else None)
    await ctx.sleep(0.02)
    if number < LAST:
        ctx.continue_as_new([n, number + 1])
    return await ctx.get("months")


@load.handler(limit=2)
async def limited(ctx: Context, n: int) -> int:
    await ctx.run("limited", effect, ctx.uuid())
    return n


@line.handler()
async def push(ctx: Context, it: list) -> None:
    ctx.set("line", (await ctx.get("line") or []) + [it])


@counter.handler()
async def add(ctx: Context, n: int) -> None:
    ctx.set("count", (await ctx.get("count") or 0) + n)


@ticks.handler()
async def tick(ctx: Context, _: None) -> str:
    """It is called by the clock: each time makes one call."""
    time = ctx.headers["scheduled-for"]
    ctx.set("times", (await ctx.get("times") or []) + [time])
    return time


# The workflows, each with what it ends with.
KINDS = {
    "order": lambda n: "ordered",
    "tasks": lambda n: 10,
    "retried": lambda n: f"{n} fails, 409",
    "awaits": lambda n: [len(BIG), 0, "gone"],
    "cancels": lambda n: "cancelled",
    "opens": lambda n: ["open", "opened"],
    "fans": lambda n: [True, [0, 1, 2]],
    "continues": lambda n: [1, 2, 3],
}
app = App(load, counter, gate, line, ticks, months, schedules=[Schedule("tick", tick, key="clock", every=0.25)])
