"""The handlers whose invocations are in the kept databases. A handler here isn't changed: the journals that are kept are its."""

import dataclasses
import os

from palqytun.runtime import App, Context, Service, VirtualObject, Workflow

trip, seat, visa = Service("Trip"), VirtualObject("Seat"), Workflow("Visa")


@dataclasses.dataclass
class Order:
    name: str
    seats: int = 1


@trip.handler()
async def sleeps(ctx: Context, order: Order) -> Order:
    await ctx.run("book", lambda: "booked")
    await ctx.sleep(3)
    return Order(order.name, await ctx.run("count", lambda: order.seats + 1))


@trip.handler()
async def asks(ctx: Context, it: str) -> list:
    child = ctx.call("Trip/waits", it)
    await ctx.send("Seat/take", 1, key="late", delay=4)
    return ["asked", await child]


@trip.handler()
async def waits(ctx: Context, it: str) -> str:
    _, paid = ctx.awakeable()
    return f"{it} {await paid}"


@trip.handler()
async def dies(ctx: Context, it: str) -> str:
    """The first worker dies in its run."""
    await ctx.run("before", lambda: 1)
    return await ctx.run("dies", lambda: os._exit(9) if os.environ.get("FLIGHT_DIES") else "survived")


@trip.handler()
async def quick(ctx: Context, it: str) -> str:
    return it.upper()


@seat.handler()
async def take(ctx: Context, count: int) -> int:
    taken = (await ctx.get("taken") or 0) + count
    await ctx.sleep(3)
    ctx.set("taken", taken)
    return taken


@seat.shared()
async def taken(ctx: Context, _: None) -> int:
    return await ctx.get("taken") or 0


@visa.main()
async def main(ctx: Context, it: str) -> str:
    ctx.set("asked", it)
    return await ctx.promise("stamp").value()


@visa.handler()
async def stamp(ctx: Context, it: str) -> None:
    await ctx.promise("stamp").resolve(it)


app = App(trip, seat, visa)
