"""Random programs for the runtime: a program is a list of steps, which a handler performs, and whose result a few lines say without it."""

from __future__ import annotations

import asyncio
import os
from typing import Any

from palqytun.runtime import App, Cancelled, Context, Retry, Service, TerminalError, VirtualObject, Workflow, gather, select

Step = list[Any]  # its name, and what it takes
Program = list[Step]

programs, cells, rooms = Service("Programs"), VirtualObject("Cells"), Workflow("Rooms")


class Outside:
    """The file to which each execution of an effect adds its key."""

    file = os.devnull


def _written(key: str, n: int) -> int:
    file = os.open(Outside.file, os.O_WRONLY | os.O_APPEND | os.O_CREAT)
    os.write(file, f"{key}\n".encode())
    os.close(file)
    return n


async def _run(ctx: Context, n: int) -> int:
    return await ctx.run("plain", lambda: _written(ctx.run_key, n))


async def _async_run(ctx: Context, n: int) -> int:
    async def effect() -> int:
        await asyncio.sleep(0.001)
        return _written(ctx.run_key, n)

    return await ctx.run("async", effect)


async def _failing(ctx: Context, n: int) -> str:
    def effect() -> None:
        _written(ctx.run_key, n)
        raise OSError(f"{n} fails")

    try:
        await ctx.run("fails", effect, retry=Retry(initial=0.001, attempts=2))
    except TerminalError as error:
        return error.message
    return "no error"


async def _sleep(ctx: Context, n: int) -> int:
    await ctx.sleep(n / 1000)
    return n


async def _call(ctx: Context, program: Program) -> list:
    return await ctx.call(perform, program)


async def _send(ctx: Context, n: int) -> list:
    """Sends to an object, in a row, and then asks it: it has got them in their order."""
    key = ctx.uuid()
    for i in range(n):
        await ctx.send(push, i, key=key)
    return await ctx.call(push, n, key=key)


async def _timeout(ctx: Context, n: int) -> list:
    """A signal that nobody sends is given up, and a sleep that is shorter isn't."""
    soon = await ctx.timeout(ctx.run("soon", lambda: _written(ctx.run_key, n)), 3600)
    try:
        await ctx.timeout(ctx.signal("never"), n / 1000)
    except TimeoutError:
        return ["late", soon]
    return ["came", soon]


async def _awakeable(ctx: Context, n: int) -> int:
    id, awaited = ctx.awakeable(int)
    await ctx.send(complete, [id, n])
    return await awaited


async def _promise(ctx: Context, n: int) -> list:
    """A workflow waits for a promise, which is completed once: before it waits, or after it."""
    key = ctx.uuid()
    main = ctx.call(wait, n, key=key) if n % 2 else None
    first = await ctx.call(give, n, key=key)
    second = await ctx.call(give, n + 1, key=key)
    return [first, second, await (main or ctx.call(wait, n, key=key))]


async def _cancel(ctx: Context, n: int) -> list:
    """A call that is cancelled undoes what it did."""
    id = await ctx.send(patient, n)
    ctx.cancel(id)
    try:
        await ctx.attach(id)
    except TerminalError as error:
        return [error.code, error.message]
    return ["not cancelled"]


async def _beside(ctx: Context, program: Program) -> list:
    """The steps as coroutines side by side."""
    return await gather(*[ctx.spawn(_performed(ctx, it)) for it in program])


async def _first(ctx: Context, n: int) -> list:
    return list(await select(ctx.sleep(3600), ctx.run("first", lambda: _written(ctx.run_key, n))))


_STEPS = {it.__name__[1:]: it for it in (_run, _async_run, _failing, _sleep, _call, _send, _timeout, _awakeable, _promise, _cancel, _beside, _first)}


async def _performed(ctx: Context, step: Step) -> Any:
    return await _STEPS[step[0]](ctx, step[1])


@programs.handler()
async def perform(ctx: Context, program: Program) -> list:
    return [await _performed(ctx, it) for it in program]


@programs.handler()
async def complete(ctx: Context, what: list) -> None:
    ctx.resolve_awakeable(what[0], what[1])


@programs.handler()
async def patient(ctx: Context, n: int) -> None:
    try:
        await ctx.sleep(36000)
    except Cancelled:
        await ctx.run("undo", lambda: _written(ctx.run_key, n))
        raise


@cells.handler()
async def push(ctx: Context, n: int) -> list:
    pushed = (await ctx.get("pushed") or []) + [n]
    ctx.set("pushed", pushed)
    return pushed


@rooms.main()
async def wait(ctx: Context, n: int) -> list:
    return [n, await ctx.promise("word", int).value()]


@rooms.handler()
async def give(ctx: Context, n: int) -> str:
    try:
        await ctx.promise("word", int).resolve(n)
    except TerminalError as error:
        return str(error.code)
    return "given"


app = App(programs, cells, rooms)


def expected(program: Program) -> list:
    """What a program ends with."""
    return [_expected(*it) for it in program]


def _expected(name: str, given: Any) -> Any:
    if name in ("call", "beside"):
        return expected(given)
    return {
        "failing": lambda n: f"OSError: {n} fails",
        "send": lambda n: list(range(n + 1)),
        "timeout": lambda n: ["late", n],
        "promise": lambda n: ["given", "409", [n, n]],
        "cancel": lambda n: [409, "cancelled"],
        "first": lambda n: [1, n],
    }.get(name, lambda n: n)(given)
