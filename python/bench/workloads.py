"""The handlers whose cost `table.py` measures, by the public interface alone, so that other versions of the runtime can run them."""

from __future__ import annotations

import pathlib
import sys

if "palqytun" not in sys.modules:
    sys.path.append(str(pathlib.Path(__file__).parent.parent / "src"))
from palqytun.runtime import App, Context, Service, VirtualObject, gather  # noqa: E402

bench, cell = Service("Bench"), VirtualObject("Cell")


async def nothing() -> int:
    return 1


@bench.handler()
async def empty(ctx: Context, n: int) -> int:
    return n


@bench.handler()
async def steps(ctx: Context, n: int) -> int:
    for _ in range(n):
        await ctx.run("step", nothing)
    return n


@bench.handler()
async def calls(ctx: Context, n: int) -> int:
    for i in range(n):
        await ctx.call(empty, i)
    return n


@bench.handler()
async def fans(ctx: Context, n: int) -> int:
    return len(await gather(*[ctx.call(empty, i) for i in range(n)]))


@bench.handler()
async def sleeps(ctx: Context, n: int) -> None:
    await ctx.sleep(n / 1000)


@cell.handler()
async def add(ctx: Context, n: int) -> int:
    total: int = (await ctx.get("total", int) or 0) + n
    ctx.set("total", total)
    return total


app = App(bench, cell)
