"""Orders whose code was changed while some were open: docs/DEPLOYING.md.

    palqytun run python/examples/patched.py --db orders.db
    curl localhost:8080/Orders/place -d '{"customer": "ann", "days": 0}'
"""

import dataclasses

from palqytun.runtime import App, Service, ServiceContext

orders = Service("Orders")


@dataclasses.dataclass
class Order:
    customer: str
    days: float = 1


@orders.handler()
async def place(ctx: ServiceContext, order: Order) -> list[str]:
    did = [await ctx.run("charge", charge, order.customer)]
    if ctx.patched("mail"):
        did.append(await ctx.run("mail", mail, order.customer))
    await ctx.sleep(order.days * 86400)
    did.append(await ctx.run("ship", ship, order.customer))
    return did


def charge(customer: str) -> str:
    return f"charged {customer}"


def mail(customer: str) -> str:
    return f"mailed {customer}"


def ship(customer: str) -> str:
    return f"shipped to {customer}"


app = App(orders)
