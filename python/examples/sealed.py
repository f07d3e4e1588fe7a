"""A service whose values and errors are encrypted in the database. The keys are in the environment, as hexadecimal digits by their ids: SHOP_KEYS="2026-11=00ff.."

    SHOP_KEYS="2026-11=$(openssl rand -hex 64)" palqytun run python/examples/sealed.py --db sealed.db
    curl localhost:8080/Cards/charge -d '"4242"'
"""

import os

from palqytun.runtime import App, JsonCodec, Sealed, Service, ServiceContext, TerminalError

cards = Service("Cards")


@cards.handler()
async def charge(ctx: ServiceContext, card: str) -> str:
    if card == "0000":
        raise TerminalError(f"the card {card} is refused", 402)
    return await ctx.run("charge", lambda: f"charged {card}")


# The last one is the newest, by which what is new is encrypted.
KEYS = {id: bytes.fromhex(key) for id, _, key in (it.partition("=") for it in os.environ["SHOP_KEYS"].split(","))}
app = App(cards, codec=Sealed(JsonCodec(), KEYS, list(KEYS)[-1]))
