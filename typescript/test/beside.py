"""Handlers in Python beside those of the SDK's tests: `palqytun run beside.py`, on the same database."""

import asyncio
import os
import pathlib

from palqytun.runtime import App, Context, JsonCodec, ObjectContext, Queue, Sealed, Service, TerminalError, VirtualObject

NAME = os.environ["BESIDE_NAME"]  # of its services: each test has its own, since several run side by side
python, shelf = Service(NAME), VirtualObject(f"{NAME}Shelf")
SHARED = Queue("shared", concurrency=2)  # also that of a handler in TypeScript (queues.test.ts)


@python.handler()
async def sends(ctx: Context, it: list) -> str:
    """Sends [path, argument, options]; its id."""
    path, argument, options = it
    return await ctx.send(path, argument, **options)


@python.handler()
async def echo(ctx: Context, value: object) -> object:
    return value


@python.handler(queue=SHARED)
async def busy(ctx: Context, file: str) -> None:
    await ctx.run("busy", _noted, pathlib.Path(file))


async def _noted(file: pathlib.Path) -> None:
    """Writes when it begins, and when it ends."""
    for line in ("begin python", "end python"):
        with file.open("a") as to:
            to.write(f"{line}\n")
        await asyncio.sleep(0.02)


@python.handler()
async def calls(ctx: Context, it: list) -> object:
    """Calls [path, argument, options]."""
    path, argument, options = it
    return await ctx.call(path, argument, **options)


@shelf.handler()
async def put(ctx: ObjectContext, it: str) -> list:
    ctx.set("all", found := [*(await ctx.get("all", list) or ()), it])
    return found


@python.handler()
async def refuses(ctx: Context, it: str) -> None:
    raise TerminalError(f"{it} is refused", 402)


KEYS = {"a": bytes(range(32)), "b": bytes(range(64))}  # those of sealing.test.ts
newest = os.environ.get("BESIDE_SEALED")
app = App(python, shelf, codec=Sealed(JsonCodec(), KEYS, newest) if newest else None)
