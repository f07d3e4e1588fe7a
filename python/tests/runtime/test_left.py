"""What nobody waits for any more, and what is too large to be handed out with each attempt."""

import asyncio
import gc
import unittest
import weakref
from unittest import mock

import support  # isort: skip
from palqytun.runtime import App, Context, Retry, Service, VirtualObject, invocations, operate, select
from palqytun.runtime.attempt import Attempt
from support import Runtime

service, thing = Service("Left"), VirtualObject("Large")
LARGE = "x" * invocations.HANDED_OUT
tries: list[int] = []


@service.handler()
async def echo(ctx: Context, n: int) -> int:
    return n


@service.handler()
async def loses(ctx: Context, n: int) -> list:
    """Sleeps that lose, and one that is kept for later."""
    kept = ctx.sleep(0.3)
    for i in range(n):
        await ctx.timeout(ctx.call(echo, i), 3600)
    which, _ = await select(ctx.signal("go"), ctx.sleep(7200))
    await kept
    return [which]


@service.handler(retry=Retry(initial=0.01))
async def fails(ctx: Context, _: None) -> str:
    """A handler that fails holds a sleep, which its next attempt awaits."""
    waits = ctx.sleep(0.5)
    await ctx.run("one", lambda: 1)
    tries.append(1)
    if len(tries) < 3:
        raise ValueError("not yet")
    await waits
    return "slept"


@thing.handler()
async def changes(ctx: Context, _: None) -> list:
    """A value that is small, then large, then small again; each time it is read before and after the attempt was suspended."""
    seen = []
    for value in ("small", LARGE, "again", None, LARGE):
        if value is None:
            ctx.clear("value")
        else:
            ctx.set("value", value)
        seen.append(await ctx.get("value"))
        await ctx.call(echo, 1)
        seen.append(await ctx.get("value"))
    return [None if it is None else it[:10] for it in seen] + [await ctx.keys(), await ctx.get("none")]


@thing.handler()
async def put(ctx: Context, size: int) -> None:
    ctx.set("large", "x" * size)


@thing.handler()
async def waits(ctx: Context, _: None) -> int:
    await ctx.signal("go")
    return 1


class Given:
    """What a run is given."""


@service.handler()
async def gives(ctx: Context, n: int) -> int:
    """How many of the values that runs were given are still held, once each later run has ended."""
    held = 0
    before: list[weakref.ref[Given]] = []
    for _ in range(n):
        it = Given()
        before.append(weakref.ref(it))
        await ctx.run("takes", takes, it)
        del it
        gc.collect()
        held += sum(one() is not None for one in before[:-1])
    return held


async def takes(it: Given) -> int:
    return 1


app = App(service, thing)


@support.on_each_database
class Timers(support.OnADatabase):
    def with_runtime(self, idle, test):
        async def go():
            async with Runtime(app, self.url, idle=idle) as runtime:
                await test(runtime)

        asyncio.run(asyncio.wait_for(go(), support.LONG))

    def test_those_of_sleeps_that_have_lost_are_deleted(self):
        async def test(runtime):
            id = await runtime.send("Left/loses", 20)
            due = "SELECT COUNT(*) FROM timers WHERE due>(SELECT MAX(created) FROM invocations)+1000"
            begun = "SELECT COUNT(*) FROM timers WHERE due>(SELECT MAX(created) FROM invocations)+5000"
            while (await runtime.rows(begun))[0][0] < 1:
                await asyncio.sleep(0.01)
            self.assertEqual(await runtime.rows(due), [(1,)])
            await runtime.engine.notify(id, support.journal.named_signal("go", support.journal.value(b"1")))
            self.assertEqual(await runtime.result(id), [0])
            self.assertEqual(await runtime.rows("SELECT COUNT(*) FROM timers"), [(0,)])

        for idle in (0, 60):
            self.with_runtime(idle, test)

    def test_that_of_a_handler_that_fails_is_kept(self):
        async def test(runtime):
            tries.clear()
            self.assertEqual(await runtime.call("Left/fails"), "slept")
            self.assertEqual(len(tries), 3 if runtime.engine.idle else 4)

        self.with_runtime(60, test)


@support.on_each_database
class Purges(support.OnADatabase):
    def test_one_without_an_end_stops_nobody(self):
        """A purge that finds more each time: calls end meanwhile, and the worker keeps its lease, which on SQLite is for good."""
        batches = 0

        async def purge(db, older):
            nonlocal batches
            batches += 1
            await db.rows("SELECT id FROM invocations WHERE status='done' AND ended<? LIMIT 200", (db.now() - older,))
            return 200

        async def go():
            with mock.patch.object(operate, "purge", purge):
                async with Runtime(app, self.url, idle=60, keep=0, lease=5) as runtime:  # which is kept each third of that
                    leases = "SELECT lease FROM workers"
                    first = await runtime.rows(leases)
                    for n in range(5):
                        before = batches
                        self.assertEqual(await runtime.call("Left/echo", n), n)
                        while batches < before + 5:
                            await asyncio.sleep(0.01)
                    while self.kind == "postgres" and await runtime.rows(leases) == first:
                        await asyncio.sleep(0.01)
                    self.assertEqual(await runtime.call("Left/echo", 5), 5)

        asyncio.run(asyncio.wait_for(go(), support.LONG))


@support.on_each_database
class Runs(support.OnADatabase):
    def test_what_a_run_was_given_is_held_until_its_end_alone(self):
        async def go():
            async with Runtime(app, self.url, idle=60) as runtime:
                self.assertEqual(await runtime.call("Left/gives", 4), 0)

        asyncio.run(asyncio.wait_for(go(), support.LONG))


@support.on_each_database
class States(support.OnADatabase):
    def test_values_that_change_their_size(self):
        async def go():
            async with Runtime(app, self.url, idle=0) as runtime:
                large = LARGE[:10]
                seen = ["small", "small", large, large, "again", "again", None, None, large, large, ["value"], None]
                self.assertEqual(await runtime.call("Large/changes", key="k"), seen)

        asyncio.run(asyncio.wait_for(go(), support.LONG))

    def test_a_large_value_is_not_handed_out(self):
        """What each attempt of its key is fed is as small as that of another key."""
        fed, begun = [], Attempt._begun

        async def counted(attempt, input):
            fed.append((attempt.claim.handler, len(input)))
            await begun(attempt, input)

        async def go():
            async with Runtime(app, self.url, idle=0) as runtime:
                await runtime.call("Large/put", 2 << 20, key="k")
                id = await runtime.send("Large/waits", key="k")
                await runtime.until(id, "suspended")
                await runtime.engine.notify(id, support.journal.named_signal("go", support.journal.value(b"1")))
                self.assertEqual(await runtime.result(id), 1)

        with mock.patch.object(Attempt, "_begun", counted):
            asyncio.run(asyncio.wait_for(go(), support.LONG))
        self.assertEqual([handler for handler, _ in fed], ["put", "waits", "waits"])
        self.assertLess(max(size for _, size in fed), 1000)


if __name__ == "__main__":
    unittest.main()
