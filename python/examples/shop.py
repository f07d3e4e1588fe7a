"""A shop: an order takes its items from the stock, pays, and ships; what was done is undone in reverse order if a later step fails.

    palqytun run examples/shop.py --db shop.db
    curl localhost:8080/Shop/order -d '{"customer": "ann", "items": [{"name": "pen", "count": 2}], "card": "4242"}'

Kill it at any moment and run it again: it goes on where it stopped.
"""

from __future__ import annotations

import asyncio
import dataclasses
import functools
import pathlib
from collections.abc import Callable

from palqytun.runtime import App, Durable, ObjectContext, Retry, Service, ServiceContext, SharedObjectContext, SharedWorkflowContext
from palqytun.runtime import TerminalError, VirtualObject, Workflow, WorkflowContext, gather, step

shop, stock, approval = Service("Shop"), VirtualObject("Stock"), Workflow("Approval")
FULL = 100  # of each item, at first
LEDGER = pathlib.Path("shop-ledger.txt")


@dataclasses.dataclass
class Item:
    name: str
    count: int = 1


@dataclasses.dataclass
class Order:
    customer: str
    items: list[Item]
    card: str
    slow: float = 0  # seconds that the parcel waits


@dataclasses.dataclass
class Receipt:
    payment: str
    parcel: str


def book(line: str) -> None:
    with LEDGER.open("a") as ledger:
        print(line, file=ledger)


@step(retry=Retry(attempts=5), timeout=30)
async def pay(key: str, card: str) -> str:
    """What the bank does. The key makes a payment that is asked for twice one payment."""
    await asyncio.sleep(0.05)
    if card == "0000":
        raise TerminalError("the card is refused", 402)
    book(f"paid {key}")
    return f"payment-{key[:8]}"


def refund(payment: str) -> None:
    book(f"refunded {payment}")


def ship(key: str, customer: str) -> str:
    if customer == "nobody":
        raise TerminalError("nobody lives there", 404)
    book(f"shipped {key}")
    return f"parcel-{key[:8]}"


def returned(ctx: ServiceContext, item: Item) -> Durable[None]:
    return ctx.call(put_back, item.count, key=item.name)


@shop.handler()
async def order(ctx: ServiceContext, order: Order) -> Receipt:
    undo: list[Callable[[], Durable[object]]] = []
    try:
        for item in order.items:
            await ctx.call(take, item.count, key=item.name)
            undo.append(functools.partial(returned, ctx, item))
        payment = await ctx.run(pay, ctx.uuid(), order.card)
        undo.append(lambda: ctx.run("refund", refund, payment))
        if order.slow:
            await ctx.sleep(order.slow)
        parcel = await ctx.run("ship", ship, ctx.uuid(), order.customer)
        ctx.log.info("%s is on its way", parcel)
        return Receipt(payment, parcel)
    except TerminalError:
        with ctx.shield():
            for undone in reversed(undo):
                await undone()
        raise


@stock.handler()
async def take(ctx: ObjectContext, count: int) -> int:
    left = await ctx.get("left", int)
    left = (FULL if left is None else left) - count
    if left < 0:
        raise TerminalError(f"there are not {count} of {ctx.key}", 409)
    ctx.set("left", left)
    return left


@stock.handler()
async def put_back(ctx: ObjectContext, count: int) -> None:
    ctx.set("left", (await ctx.get("left", int) or 0) + count)


@stock.shared()
async def left(ctx: SharedObjectContext, _: None) -> int:
    found = await ctx.get("left", int)
    return FULL if found is None else found


@shop.handler()
async def inventory(ctx: ServiceContext, names: list[str]) -> dict[str, int]:
    return dict(zip(names, await gather(*[ctx.call(left, key=name) for name in names])))


@approval.main()
async def ask(ctx: WorkflowContext, question: str) -> str:
    """Waits for a person, at most a day."""
    ctx.set("question", question)
    try:
        return await ctx.timeout(ctx.promise("answer", str).value(), 86400)
    except TimeoutError:
        return "nobody answered"


@approval.handler()
async def answer(ctx: SharedWorkflowContext, word: str) -> None:
    await ctx.promise("answer").resolve(word)


@approval.handler()
async def question(ctx: SharedWorkflowContext, _: None) -> str | None:
    return await ctx.get("question", str)


app = App(shop, stock, approval)
