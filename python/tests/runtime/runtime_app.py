"""The handlers of test_runtime.py."""

import asyncio
import dataclasses

from palqytun.runtime import App, Cancelled, Context, Retry, Service, TerminalError, VirtualObject, Workflow, gather, select, wait_any

service, thing, flow = Service("S"), VirtualObject("O"), Workflow("W")
seen: list = []
ONCE = Retry(attempts=1, pause=True)


@dataclasses.dataclass
class Item:
    name: str
    count: int = 1


@dataclasses.dataclass
class Order:
    items: list[Item]
    note: str | None = None


@service.handler()
async def echo(ctx: Context, it):
    return it


@service.handler()
async def refuses(ctx: Context, it):
    raise TerminalError("refused", 418, (("k", "v"),))


@service.handler()
async def trees(ctx: Context, it):
    a, b, c = (ctx.call(echo, n) for n in range(3))
    never = ctx.sleep(3600)
    first = await select(gather(a, b), never)
    settled = await gather(ctx.call(refuses), c, return_exceptions=True)
    winner = await wait_any(ctx.call(refuses), ctx.call(echo, 7))
    nested = await gather(select(never, ctx.call(echo, 8)), wait_any(ctx.call(echo, 9)))
    try:
        await gather(never, ctx.call(refuses))
    except TerminalError as error:
        return [first, [settled[0].code, settled[1]], winner, nested, error.code, error.metadata]


@service.handler()
async def spawns(ctx: Context, it):
    order = []

    async def part(n):
        await ctx.sleep(3600 * (3 - n))
        order.append(n)
        return await ctx.call(echo, n)

    both = await gather(*[ctx.spawn(part(n)) for n in range(3)])
    return [both, order]


@service.handler()
async def retries(ctx: Context, it):
    def fails():
        seen.append("try")
        raise OSError("broken")

    try:
        await ctx.run("fails", fails, retry=Retry(initial=0.01, attempts=3))
    except TerminalError as error:
        return error.message


@service.handler(retry=Retry(initial=0.01, attempts=2, pause=True))
async def breaks(ctx: Context, it):
    await ctx.run("once", lambda: seen.append("once"))
    if len(seen) < 4:
        seen.append("broke")
        raise ValueError("a bug")
    return "mended"


@service.handler(retry=Retry(initial=0.01, attempts=2))
async def gives_up(ctx: Context, it):
    raise ValueError("a bug")


@service.handler(retry=ONCE)
async def impure(ctx: Context, it):
    await asyncio.sleep(0.01)


@service.handler(retry=ONCE)
async def combines(ctx: Context, it):
    await gather(ctx.sleep(0), asyncio.get_running_loop().create_future())


@service.handler(retry=ONCE)
async def swallows(ctx: Context, it):
    """Goes on after its attempt was suspended."""
    other = ctx.sleep(3600)
    try:
        await ctx.sleep(3600)
    except BaseException:
        await other


@service.handler(retry=ONCE)
async def swallows_a_mismatch(ctx: Context, it):
    if not seen:
        seen.append("slept")
        await ctx.sleep(3600)
    try:
        await ctx.call(echo, 1)
    except BaseException:
        seen.append("swallowed")
    return "wrong"


@service.handler(retry=ONCE)
async def changed(ctx: Context, it):
    if not seen:
        seen.append("slept")
        await ctx.sleep(3600)
    else:
        await ctx.call(echo, 1)


@service.handler()
async def waits(ctx: Context, it):
    id, awaited = ctx.awakeable()
    seen.append((ctx.invocation_id, id))
    return [await awaited, await ctx.signal("go")]


@service.handler()
async def cancelled(ctx: Context, it):
    try:
        await ctx.call("S/waits")
    except Cancelled:
        await ctx.run("undo", lambda: seen.append("undone"))
        raise


@service.handler()
async def later(ctx: Context, it):
    return len(await ctx.send("O/add", 1, key="later", delay=0.1))


@service.handler(retry=ONCE)
async def within(ctx: Context, what):
    chance, log = ctx.random, ctx.log
    uses = {
        "sleep": lambda: ctx.sleep(1),
        "uuid": ctx.uuid,
        "random": lambda: ctx.random.random(),
        "drawn": lambda: chance.randint(1, 6),
        "log": lambda: ctx.log,
        "logged": lambda: log.warning("said"),
        "key": lambda: ctx.key,
        "headers": lambda: ctx.headers,
    }
    if what == "run_key":
        return ctx.run_key
    await ctx.run("within", uses[what], retry=Retry(attempts=1))


@service.handler()
async def pays(ctx: Context, it):
    """The second payment is made, and breaks after that."""

    async def pay(n):
        seen.append((ctx.run_key, n))
        if len(seen) == 2:
            raise OSError("the connection broke")
        return n

    return [await ctx.run("pay", pay, n, retry=Retry(initial=0.01)) for n in (1, 2, 3)]


@service.handler()
async def unwritable(ctx: Context, it):
    def made():
        seen.append("made")
        return object()

    return await ctx.run("made", made)


@service.handler()
async def misread(ctx: Context, it):
    try:
        await ctx.run("made", lambda: {"title": "pen"}, gives=Item)
    except TerminalError:
        await ctx.run("undo", lambda: seen.append("undone"))
        raise


@service.handler()
async def misuses(ctx: Context, what):
    if what == "promise":
        return await ctx.promise("p").value()
    return await (ctx.get("n") if what == "get" else ctx.keys())


@service.handler()
async def tidies(ctx: Context, it):
    try:
        await ctx.sleep(3600)
    finally:
        seen.append("finally")
        ctx.set("n", 1)
    return "tidy"


@service.handler(retry=ONCE)
async def odd(ctx: Context, what):
    if what == "name":
        await ctx.run("a\udc80", lambda: 1)
    if what == "raise":
        raise OSError("caf\udce9")
    if what == "terminal":
        raise TerminalError("caf\udce9", 418)
    if what == "result":
        return object()
    if what == "code":
        raise TerminalError("x", 70_000)
    if what == "text":
        return await ctx.run('a\0"b\\\n\u2028', lambda: "é\0\n𝄞")


@service.handler()
async def typed(ctx: Context, order: Order) -> Order:
    def packed() -> Item:
        return Item("packed", sum(it.count for it in order.items))

    first = await ctx.call(doubled, order.items[0])
    return Order([first, await ctx.run("pack", packed)], note=type(first).__name__)


@service.handler()
async def doubled(ctx: Context, item: Item) -> Item:
    return Item(item.name, 2 * item.count)


@service.handler()
async def logs(ctx: Context, it):
    ctx.log.warning("before the sleep")
    await ctx.sleep(3600)
    ctx.log.warning("after the sleep")


@service.handler()
async def ticks(ctx: Context, it):
    seen.append(it)


few_run = 0


@service.handler(limit=2)
async def few(ctx: Context, it):
    async def counted():
        global few_run
        few_run += 1
        seen.append(few_run)
        while len(seen) < 2:  # another one is at work beside it
            await asyncio.sleep(0.01)
        await asyncio.sleep(0.05)
        few_run -= 1

    await ctx.run("count", counted)


@service.handler()
async def slow(ctx: Context, it):
    try:
        return await ctx.timeout(ctx.signal("never"), 0.05)
    except TimeoutError as error:
        return [error.code, error.message]


@thing.handler()
async def add(ctx: Context, n):
    before = await ctx.get("n") or 0
    seen.append((ctx.key, before))
    await ctx.sleep(0.01)
    ctx.set("n", before + n)
    return [before + n, await ctx.keys()]


@thing.handler()
async def forget(ctx: Context, it):
    ctx.set("m", 1)
    ctx.clear("m")
    kept = await ctx.keys()
    ctx.clear_all()
    return [kept, await ctx.keys()]


@thing.shared()
async def look(ctx: Context, it):
    return [await ctx.get("n"), await ctx.get("no"), await ctx.keys()]


@thing.shared()
async def writes(ctx: Context, it):
    ctx.set("n", 1)


@flow.main()
async def main(ctx: Context, it):
    return await ctx.promise("p").value()


@flow.handler()
async def done(ctx: Context, it):
    before = await ctx.promise("p").peek()
    await ctx.promise("p").resolve(it)
    try:
        await ctx.promise("p").resolve(it)
    except TerminalError as error:
        return [before, error.code, await ctx.promise("p").peek()]


app = App(service, thing, flow)
