"""Orders: an item is taken from the stock, paid, and shipped fifteen seconds later.

    palqytun run python/examples/orders.py --db orders.db
    curl localhost:8080/Shop/order -d '"pen"'
"""

import pathlib

from palqytun.runtime import App, ObjectContext, Service, ServiceContext, TerminalError, VirtualObject

shop, stock = Service("Shop"), VirtualObject("Stock")
LEDGER = pathlib.Path("ledger.txt")


def book(line: str) -> None:
    with LEDGER.open("a") as ledger:
        print(line, file=ledger)


def pay(key: str) -> str:
    """What the bank does. A bank pays once for each key."""
    book(f"paid {key}")
    return f"payment-{key[:8]}"


def ship(payment: str) -> str:
    book(f"shipped for {payment}")
    return f"parcel of {payment}"


@shop.handler()
async def order(ctx: ServiceContext, item: str) -> str:
    await ctx.call(take, 1, key=item)  # another handler, with a journal of its own
    payment = await ctx.run("pay", pay, ctx.uuid())  # an effect: executed at least once, and its result is recorded
    await ctx.sleep(15)  # a durable timer
    return await ctx.run("ship", ship, payment)


@stock.handler()
async def take(ctx: ObjectContext, count: int) -> int:
    found = await ctx.get("left", int)
    left = (100 if found is None else found) - count
    if left < 0:
        raise TerminalError(f"there are not {count} of {ctx.key}", 409)
    ctx.set("left", left)
    return left


app = App(shop, stock)
