"""What operators do: cancel, kill, pause, resume and restart, one or many; the state of keys; and who did it."""

import asyncio
import functools
import json
import time
import unittest

import support  # isort: skip
from palqytun.runtime import App, Cancelled, Context, Retry, Service, TerminalError, VirtualObject, Workflow, acts, audit, gather, keyed, operate, restarting
from palqytun.runtime.filters import Filter
from palqytun.runtime.outcome import Outcome
from support import Runtime

service, thing, flow = Service("Acts"), VirtualObject("Kept"), Workflow("Flows")
seen = []


@service.handler()
async def waits(ctx: Context, it):
    seen.append(("begun", ctx.invocation_id))
    try:
        return await ctx.call(sleeps, 3600)
    except Cancelled:
        await ctx.run("undo", lambda: seen.append("undone"))
        raise


@service.handler()
async def books(ctx: Context, it):
    await ctx.run("book", lambda: seen.append("booked"))
    try:
        await ctx.sleep(3600)
    except Cancelled:
        await ctx.run("undo", lambda: seen.append("undone"))
        raise


@service.handler()
async def sleeps(ctx: Context, seconds):
    seen.append(("slept", ctx.invocation_id))
    await ctx.sleep(seconds)
    return "awake"


@service.handler(retry=Retry(initial=3600))
async def backs_off(ctx: Context, it):
    try:
        await ctx.sleep(0)
        if len(seen) < 1:
            seen.append("broke")
            raise ValueError("a bug")
        await ctx.sleep(3600)
    except Cancelled:
        seen.append("undone")
        raise


@service.handler(retry=Retry(attempts=1, pause=True))
async def pauses(ctx: Context, it):
    if it not in seen:
        seen.append(it)
        raise ValueError("a bug")
    await ctx.sleep(3600)


@service.handler()
async def undoes(ctx: Context, it):
    """Its undoing takes two steps."""
    try:
        await ctx.sleep(3600)
    except Cancelled:
        await ctx.run("one", lambda: seen.append("one"))
        await ctx.sleep(3600)
        await ctx.run("two", lambda: seen.append("two"))
        raise


@service.handler()
async def shields(ctx: Context, seconds):
    seen.append("begun")
    with ctx.shield():
        await ctx.call(sleeps, seconds)
        await ctx.run("first", lambda: seen.append("first"))
    try:
        await ctx.sleep(3600)
    except Cancelled:
        seen.append("cancelled")
        raise


@service.handler()
async def steps(ctx: Context, it):
    first = await ctx.run("first", lambda: seen.append("first") or 1)
    slept, called = ctx.sleep(0.01), ctx.call("Acts/doubles", 2)
    second = await ctx.run("second", lambda: seen.append("second") or 2)
    await slept
    if seen.count("second") < 2:
        raise TerminalError("not yet", 418)
    return [first, second, await called, ctx.uuid()]


@service.handler()
async def doubles(ctx: Context, n):
    seen.append("doubled")
    return 2 * n


@service.handler()
async def asks(ctx: Context, it):
    promise = ctx.call("Flows/look", None, key="k")
    await ctx.run("step", lambda: seen.append("step"))
    return await promise


@thing.handler()
async def adds(ctx: Context, n):
    before = await ctx.get("n") or 0
    ctx.set("n", before + n)
    await ctx.run("note", lambda: seen.append(n))
    if n < 0:
        await ctx.sleep(3600)
    return before + n


@flow.main()
async def opens(ctx: Context, it):
    seen.append("main")
    return await ctx.promise("p").value()


@flow.handler()
async def look(ctx: Context, it):
    return await ctx.promise("p").value()


@flow.handler()
async def answer(ctx: Context, it):
    await ctx.promise("p").resolve(it)


app = App(service, thing, flow)


def with_worker(test=None, **options):
    if test is None:
        return functools.partial(with_worker, **options)

    @functools.wraps(test)
    def run(self):
        async def go():
            seen.clear()
            async with Runtime(app, self.url, **options) as runtime:
                await asyncio.wait_for(test(self, runtime), support.LONG)

        asyncio.run(go())

    return run


async def until(found):
    while not found():
        await asyncio.sleep(0.01)


class Acting(support.OnADatabase):
    async def act(self, runtime, name, id):
        return await runtime.engine.act(name, id, "ann")

    async def refused(self, awaitable, code, text):
        with self.assertRaises(TerminalError) as caught:
            await awaitable
        self.assertEqual(caught.exception.code, code)
        self.assertIn(text, caught.exception.message)

    async def time_passes(self, runtime):
        """All that sleeps is woken."""
        await runtime.engine.transact(lambda db: db.change("UPDATE timers SET due=0"))
        while await runtime.rows("SELECT * FROM timers"):
            await asyncio.sleep(0.01)

    async def what(self, runtime, id):
        return [(it["who"], it["what"]) for it in await runtime.engine.transact(lambda db: audit.records(db, id))]


@support.on_each_database
class Cancelling(Acting):
    @with_worker
    async def test_twice(self, runtime):
        """The second one ends no await of the undoing."""
        id = await runtime.send("Acts/undoes")
        await runtime.until(id, "suspended")
        self.assertEqual([await self.act(runtime, "cancel", id) for _ in range(2)], ["cancelled", "was cancelled before"])
        await until(lambda: "one" in seen)
        self.assertEqual(await self.act(runtime, "cancel", id), "was cancelled before")
        await runtime.time_passes(id)
        self.assertEqual((await runtime.result(id))[0], 409)
        self.assertEqual(seen, ["one", "two"])
        self.assertEqual(await self.what(runtime, id), [("ann", "cancel")])
        await self.refused(self.act(runtime, "cancel", id), 409, "has ended")
        await self.refused(self.act(runtime, "cancel", "inv_none"), 404, "there is no invocation")

    @with_worker
    async def test_what_is_to_begin_later(self, runtime):
        """It never begins, and its key stays free."""
        late = await runtime.send("Acts/sleeps", 1, due=2e10)
        self.assertEqual(await self.act(runtime, "cancel", late), "cancelled, before it began")
        self.assertEqual((await runtime.result(late))[:2], (409, "cancelled"))
        holds, waits = await runtime.send("Kept/adds", -1, key="k"), await runtime.send("Kept/adds", 1, key="k")
        await runtime.until(holds, "suspended")
        self.assertEqual(await self.act(runtime, "cancel", waits), "cancelled, before it began")
        self.assertEqual((await runtime.result(waits))[:2], (409, "cancelled"))
        self.assertEqual(await self.act(runtime, "cancel", holds), "cancelled")
        self.assertEqual((await runtime.result(holds))[0], 409)
        self.assertEqual(await runtime.call("Kept/adds", 5, key="k"), 4)

    @with_worker
    async def test_what_waits_for_its_next_try_or_is_paused(self, runtime):
        id = await runtime.send("Acts/backs_off")
        await runtime.until(id, "ready")
        await until(lambda: seen)
        while (await runtime.rows("SELECT retries FROM invocations WHERE id=?", id))[0][0] < 1:
            await asyncio.sleep(0.01)
        self.assertEqual(await self.act(runtime, "cancel", id), "cancelled")
        self.assertEqual((await runtime.result(id))[0], 409)
        self.assertEqual(seen[-1], "undone")
        id = await runtime.send("Acts/pauses", 1)
        await runtime.until(id, "paused")
        self.assertEqual(await self.act(runtime, "cancel", id), "cancelled")
        self.assertEqual((await runtime.result(id))[0], 409)

    @with_worker
    async def test_by_a_handler(self, runtime):
        """A cancellation of another invocation reaches what is paused or is to begin later, too."""
        late, paused = await runtime.send("Acts/sleeps", 1, due=2e10), await runtime.send("Acts/pauses", 2)
        await runtime.until(paused, "paused")
        for id in (late, paused):
            await runtime.engine.notify(id, acts.journal.cancellation())
            self.assertEqual((await runtime.result(id))[0], 409)

    @with_worker
    async def test_a_shield(self, runtime):
        id = await runtime.send("Acts/shields", 0.3)
        await until(lambda: seen)
        self.assertEqual(await self.act(runtime, "cancel", id), "cancelled")
        self.assertEqual((await runtime.result(id))[0], 409)
        self.assertEqual([it for it in seen if isinstance(it, str) and it != "begun"], ["first", "cancelled"])
        self.assertEqual(await self.act(runtime, "kill", await runtime.send("Acts/shields", 3600, due=time.time() + 3600)), "killed")

    @with_worker
    async def test_a_shield_that_is_suspended(self, runtime):
        """The cancellation waits while it is, and doesn't wake it again and again."""
        id = await runtime.send("Acts/shields", 3600)
        await runtime.until(id, "suspended")
        await self.act(runtime, "cancel", id)
        await runtime.until_rows([("suspended", 1)], "SELECT status, shielded FROM invocations WHERE id=?", id)
        await asyncio.sleep(0.3)
        [(epoch,)] = await runtime.rows("SELECT epoch FROM invocations WHERE id=?", id)
        self.assertLessEqual(epoch, 2)
        await self.time_passes(runtime)
        self.assertEqual((await runtime.result(id))[0], 409)
        self.assertEqual(seen[-1], "cancelled")


@support.on_each_database
class Killing(Acting):
    @with_worker
    async def test_what_has_children(self, runtime):
        id = await runtime.send("Acts/waits")
        caller = await runtime.send("Acts/waits")
        await runtime.until(id, "suspended")
        [(child,)] = await runtime.rows("SELECT id FROM invocations WHERE parent=?", id)
        await until(lambda: ("slept", child) in seen)
        self.assertEqual(await self.act(runtime, "kill", id), "killed; 1 calls are cancelled")
        self.assertEqual((await runtime.result(id))[:2], (409, "killed"))
        self.assertEqual((await runtime.result(child))[:2], (409, "cancelled"))
        self.assertNotIn("undone", seen)
        self.assertEqual(await self.what(runtime, id), [("ann", "kill")])
        row = await runtime.engine.transact(lambda db: operate.invocation(db, id))
        self.assertEqual((row["status"], row["failed"], row["error"]), ("failed", 409, "409 killed"))
        await self.refused(self.act(runtime, "kill", id), 409, "has ended")
        await runtime.until(caller, "suspended")  # another one isn't touched

    @with_worker(idle=60)
    async def test_while_it_runs(self, runtime):
        """Its attempt ends, its key is free, and whoever waits gets the failure."""
        id = await runtime.send("Kept/adds", -1, key="k")
        while not await runtime.rows("SELECT * FROM timers"):
            await asyncio.sleep(0.01)
        self.assertIn(id, runtime.engine.live)
        waits = asyncio.create_task(runtime.result(id))
        self.assertEqual(await self.act(runtime, "kill", id), "killed")
        self.assertEqual((await waits)[:2], (409, "killed"))
        await until(lambda: id not in runtime.engine.live)
        self.assertEqual(await runtime.call("Kept/adds", 2, key="k"), 1)
        self.assertEqual(await runtime.rows("SELECT * FROM timers"), [])


@support.on_each_database
class Pausing(Acting):
    @with_worker
    async def test_each_status(self, runtime):
        late, waits = await runtime.send("Acts/sleeps", 0, due=2e10), await runtime.send("Acts/sleeps", 3600)
        await runtime.until(waits, "suspended")
        for id in (late, waits):
            self.assertEqual([await self.act(runtime, "pause", id) for _ in range(2)], ["paused", "is paused"])
            self.assertEqual(tuple(await runtime.status(id)), ("paused", "paused by ann"))
        await self.time_passes(runtime)  # what it waits for comes, and doesn't wake it
        self.assertEqual((await runtime.status(waits))[0], "paused")
        self.assertEqual([await self.act(runtime, "resume", id) for id in (late, waits)], ["resumed"] * 2)
        self.assertEqual(await runtime.result(waits), "awake")
        self.assertEqual(tuple(await runtime.status(late)), ("ready", None))
        await self.refused(self.act(runtime, "resume", late), 409, "is ready, and not paused")

    @with_worker(idle=60)
    async def test_while_it_runs(self, runtime):
        id = await runtime.send("Acts/sleeps", 3600)
        while not await runtime.rows("SELECT * FROM timers"):
            await asyncio.sleep(0.01)
        await self.act(runtime, "pause", id)
        await until(lambda: id not in runtime.engine.live)
        self.assertEqual((await runtime.status(id))[0], "paused")
        await self.time_passes(runtime)
        await self.act(runtime, "resume", id)
        self.assertEqual(await runtime.result(id), "awake")


@support.on_each_database
class Restarting(Acting):
    async def restarted(self, runtime, id, step=0):
        return await runtime.engine.done(lambda db, out: restarting.restart(db, app, out, id, "ann", step))

    async def entries(self, runtime, id):
        return await runtime.engine.transact(lambda db: operate.journal_of(db, id))

    async def place(self, runtime, id, begins):
        return next(at for at, line in enumerate(await self.entries(runtime, id)) if line.startswith(begins))

    @with_worker
    async def test_from_the_start(self, runtime):
        id = await runtime.send("Acts/steps", idempotency_key="once")
        self.assertEqual((await runtime.result(id))[:2], (418, "not yet"))
        new = await self.restarted(runtime, id)
        result = await runtime.result(new)
        self.assertEqual(result[:3], [1, 2, 4])
        self.assertEqual(seen.count("first"), 2)
        self.assertEqual(await runtime.send("Acts/steps", idempotency_key="once"), new)  # the key names the new one
        self.assertEqual((await runtime.engine.transact(lambda db: operate.invocation(db, new)))["origin"], id)
        self.assertEqual(await self.what(runtime, id), [("ann", "restart")])

    @with_worker
    async def test_from_a_step(self, runtime):
        """What is before it isn't executed again, and what it waits for comes: a sleep, a call, and a result that came later."""
        id = await runtime.send("Acts/steps")
        await runtime.result(id)
        before = await self.entries(runtime, id)
        step = next(at for at, line in enumerate(before) if "name='second'" in line)
        new = await self.restarted(runtime, id, step)
        self.assertEqual((await self.entries(runtime, new))[:step], before[:step])
        self.assertEqual((await runtime.result(new))[:3], [1, 2, 4])
        self.assertEqual((seen.count("first"), seen.count("second"), seen.count("doubled")), (1, 2, 1))

    @with_worker
    async def test_a_cancellation_before_it_has_begun(self, runtime):
        """One that is restarted from a step is cancelled by its handler, which undoes what stands before the step; from the start nothing of it runs."""

        async def cancelled(db, out, step):
            new = await restarting.restart(db, app, out, id, "ann", step)
            await acts.cancel(db, app, out, new, "ann")
            return new

        id = await runtime.send("Acts/books")
        await runtime.until(id, "suspended")
        place = await self.place(runtime, id, "Sleep")
        await self.act(runtime, "kill", id)
        for step, undone in ((0, 0), (place, 1)):
            new = await runtime.engine.done(lambda db, out: cancelled(db, out, step))  # in one transaction, so no worker claims it between
            self.assertEqual((await runtime.result(new))[:2], (409, "cancelled"))
            self.assertEqual((seen.count("booked"), seen.count("undone")), (1, undone))

    @with_worker
    async def test_what_is_open_before_the_step(self, runtime):
        """A killed one waited for a call; the new one waits for the same call."""
        id = await runtime.send("Acts/asks")
        await until(lambda: "step" in seen)
        await runtime.until(id, "suspended")
        step = next(at for at, line in enumerate(await self.entries(runtime, id)) if line.startswith("Run"))
        [(child,)] = await runtime.rows("SELECT id FROM invocations WHERE parent=?", id)
        await runtime.engine.transact(lambda db: db.change("UPDATE invocations SET parent=NULL WHERE id=?", (child,)))  # so it isn't cancelled
        await self.act(runtime, "kill", id)
        new = await self.restarted(runtime, id, step)
        await runtime.until(new, "suspended")
        await runtime.call("Flows/answer", "yes", key="k")
        self.assertEqual(await runtime.result(new), "yes")
        self.assertEqual(seen.count("step"), 2)

    @with_worker
    async def test_the_main_of_a_workflow(self, runtime):
        first = await runtime.send("Flows/opens", key="w")
        await runtime.until(first, "suspended")
        await self.refused(self.restarted(runtime, first), 409, "hasn't ended: kill it before")
        await self.act(runtime, "kill", first)
        self.assertEqual(await runtime.send("Flows/opens", key="w"), first)
        new = await self.restarted(runtime, first)
        self.assertEqual(await runtime.send("Flows/opens", key="w"), new)
        await runtime.call("Flows/answer", 3, key="w")
        self.assertEqual(await runtime.result(new), 3)

    @with_worker
    async def test_what_is_refused(self, runtime):
        """And nothing is stored of it."""
        id = await runtime.send("Kept/adds", 1, key="k")
        await runtime.result(id)
        note = await self.place(runtime, id, "Run")
        await self.refused(self.restarted(runtime, id, note), 409, "has changed the state")
        await self.refused(self.restarted(runtime, id, 1000), 400, "no command with the number 1000")
        await self.refused(self.restarted(runtime, "inv_none"), 404, "there is no invocation")
        other = await runtime.send("Acts/steps")
        await runtime.result(other)
        await runtime.engine.transact(lambda db: db.change("UPDATE invocations SET handler='waits' WHERE id=?", (other,)))
        step = next(at for at, line in enumerate(await self.entries(runtime, other)) if "name='second'" in line)
        await self.refused(self.restarted(runtime, other, step), 409, "doesn't make the commands before this step any more")
        self.assertEqual(await runtime.rows("SELECT id FROM invocations WHERE origin IS NOT NULL"), [])
        self.assertEqual(await runtime.call("Kept/adds", 1, key="k"), 2)


@support.on_each_database
class Many(Acting):
    @with_worker
    async def test_by_a_filter(self, runtime):
        ids = [await runtime.send("Acts/pauses", n) for n in range(3)]
        other = await runtime.send("Acts/sleeps", 3600)
        for id in ids:
            await runtime.until(id, "paused")
        asked = Filter(status="paused", service="Acts", error="valueerror")
        self.assertEqual(await runtime.engine.transact(lambda db: acts.count(db, "cancel", asked)), 3)
        found = await runtime.engine.transact(lambda db: acts.found(db, "cancel", asked))
        self.assertEqual([id for _, id in found], ids[::-1])
        done = [some async for some in runtime.engine.act_on_all("resume", asked, "ann")]
        self.assertEqual(done, [dict.fromkeys(ids[::-1], "resumed")])
        for id in ids:
            await runtime.until(id, "suspended")
        self.assertEqual([len(some) async for some in runtime.engine.act_on_all("kill", Filter(older=0), "ann")], [4])
        self.assertEqual((await runtime.result(other))[0], 409)
        self.assertEqual(await runtime.engine.transact(lambda db: acts.count(db, "kill", Filter())), 0)
        self.assertEqual(await runtime.engine.transact(lambda db: acts.count(db, "restart", Filter(status="failed"))), 4)

    @with_worker(limit=0)
    async def test_some_at_a_time(self, runtime):
        ids = [await runtime.send("Acts/sleeps", 1) for _ in range(2 * acts.AT_ONCE + 5)]
        done = [some async for some in runtime.engine.act_on_all("kill", Filter(service="Acts"), "ann")]
        self.assertEqual([len(it) for it in done], [acts.AT_ONCE, acts.AT_ONCE, 5])
        self.assertEqual(sorted(id for some in done for id in some), sorted(ids))


@support.on_each_database
class States(Acting):
    @with_worker
    async def test_list_read_set_and_clear(self, runtime):
        for key in ("a", "b%", "c"):
            await runtime.call("Kept/adds", 3, key=key)
        ask = runtime.engine.transact
        self.assertEqual(await ask(keyed.services), ["Kept"])
        self.assertEqual(await ask(lambda db: keyed.keys(db, "Kept")), [("a", 1, 1), ("b%", 1, 1), ("c", 1, 1)])
        self.assertEqual(await ask(lambda db: keyed.keys(db, "Kept", "%")), [("b%", 1, 1)])
        self.assertEqual(await ask(lambda db: keyed.keys(db, "Kept", most=1, after="b%")), [("c", 1, 1)])
        self.assertEqual(await ask(lambda db: keyed.change(db, "Kept", "a", "n", b"40", "ann")), 1)
        self.assertEqual(await runtime.call("Kept/adds", 2, key="a"), 42)
        self.assertEqual(await ask(lambda db: keyed.change(db, "Kept", "c", None, None, "bob")), 1)
        self.assertEqual(await runtime.call("Kept/adds", 2, key="c"), 2)
        said = [(it["who"], it["what"], it["key"], it["name"], it["detail"]) for it in await ask(audit.records)]
        self.assertEqual(said, [("bob", "clear state", "c", "n", "was 3"), ("ann", "set state", "a", "n", "40; was 3")])
        self.assertEqual(await runtime.rows("SELECT * FROM locks"), [])

    @with_worker
    async def test_a_key_that_is_held(self, runtime):
        id = await runtime.send("Kept/adds", -1, key="k")
        await runtime.until(id, "suspended")
        await self.refused(runtime.engine.transact(lambda db: keyed.change(db, "Kept", "k", "n", b"1", "ann")), 409, f"Kept/k is held by {id}")
        self.assertEqual(await runtime.engine.transact(audit.records), [])
        await self.act(runtime, "kill", id)
        self.assertEqual(await runtime.engine.transact(lambda db: keyed.change(db, "Kept", "k", "n", b"1", "ann")), 1)

    def test_values(self):
        self.assertEqual(keyed.shown(b"\xff\x00"), "0xff00")
        with self.assertRaisesRegex(TerminalError, "the state is no value"):
            keyed.checked(app.codec, b"{")


if __name__ == "__main__":
    unittest.main()
