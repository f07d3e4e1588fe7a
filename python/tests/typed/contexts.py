"""What a type checker says of handlers. A line with `type: ignore[KIND]` has to be refused so: mypy --strict says of one that it isn't needed if
the line is well. It is checked, and never run."""

from __future__ import annotations

from typing import assert_type

from palqytun.runtime import (
    App,
    Client,
    Context,
    ObjectContext,
    Retry,
    Service,
    ServiceContext,
    SharedObjectContext,
    SharedWorkflowContext,
    TerminalError,
    Transaction,
    VirtualObject,
    Workflow,
    WorkflowContext,
    gather,
    step,
)

mail, stock, visa = Service("Mail"), VirtualObject("Stock"), Workflow("Visa")


@step(retry=Retry(attempts=3), timeout=5)
async def pay(key: str, amount: int = 1) -> float:
    return float(amount)


@step(name="print")
def printed(text: str) -> bytes:
    return text.encode()


async def plain(amount: int) -> int:
    return amount


async def moved(to: Transaction, count: int) -> int:
    return await to.execute("UPDATE boxes SET count=?", count)


@step(retry=Retry(attempts=3), timeout=5)
async def moved_back(to: Transaction, count: int) -> int:
    return await to.execute("UPDATE boxes SET count=?", count)


@mail.handler()
async def send(ctx: ServiceContext, to: str) -> int:
    ctx.get("sent")  # type: ignore[attr-defined]
    ctx.set("sent", 1)  # type: ignore[attr-defined]
    ctx.promise("sent")  # type: ignore[attr-defined]
    assert_type(await ctx.run(pay, "key", amount=5), float)
    assert_type(await ctx.run(printed, "text"), bytes)
    await ctx.run(pay, "key", amount="much")  # type: ignore[arg-type]
    assert_type(await ctx.transaction("moved", moved, 5), int)
    await ctx.transaction("moved", moved, "five")  # type: ignore[arg-type]
    assert_type(await ctx.transaction(moved_back, 5), int)
    await ctx.transaction(moved_back, "five")  # type: ignore[arg-type]
    assert_type(await ctx.run("named", plain, 5, retry=Retry(attempts=1)), int)
    assert_type(await ctx.timeout(ctx.run(printed, "text"), 5), bytes)
    return await ctx.timeout(ctx.call(left, None, key=to), 5)


@stock.handler()
async def take(ctx: ObjectContext, count: int) -> int:
    left = await ctx.get("left", int) or 0
    ctx.set("left", left - count)
    ctx.promise("left")  # type: ignore[attr-defined]
    return left - count


@stock.shared()
async def left(ctx: SharedObjectContext, _: None) -> int:
    ctx.set("left", 1)  # type: ignore[attr-defined]
    ctx.clear_all()  # type: ignore[attr-defined]
    return await ctx.get("left", int) or 0


@visa.main()
async def main(ctx: WorkflowContext, name: str) -> str:
    ctx.set("name", name)
    assert_type(await ctx.promise("stamp", str).value(), str)
    [one, other] = await gather(ctx.call(send, name), ctx.sleep(1))
    return await ctx.promise("stamp", str).value()


@visa.handler()
async def stamp(ctx: SharedWorkflowContext, text: str) -> None:
    ctx.set("name", text)  # type: ignore[attr-defined]
    await ctx.promise("stamp", str).resolve(text)


@mail.handler()
async def any_kind(ctx: Context, it: str) -> str:
    """The context of every kind has these calls, and a handler may ask for no more."""
    ctx.get("state")  # type: ignore[attr-defined]
    return await ctx.call(main, it, key=it)


@stock.shared()  # type: ignore[arg-type]
async def writes(ctx: ObjectContext, count: int) -> None:
    """A shared handler has no context that writes."""


@mail.handler()  # type: ignore[arg-type]
async def reads(ctx: SharedObjectContext, count: int) -> None:
    """A service has no state."""


app = App(mail, stock, visa)


async def from_outside() -> None:
    async with Client(app, "shop.db") as client:
        assert_type(await client.call(take, 5, key="pen"), int)
        await client.call(take, "five", key="pen")  # type: ignore[misc]
        sent = await client.send(send, "ann")
        assert_type(await sent.result(), int)
        try:
            await sent.result(wait=0.5)
        except (TimeoutError, TerminalError):
            await sent.cancel()
