"""An invocation that goes on as a new one: `ctx.continue_as_new`."""

import asyncio
import unittest

import support  # isort: skip
from support import Runtime

from palqytun.runtime import App, Cancelled, Context, ObjectContext, Retry, Service, VirtualObject, Workflow, WorkflowContext, replay, restarting, step
from palqytun.runtime.journal import cancellation, named_signal, value
from palqytun.runtime.outcome import Outcome
from palqytun.testing import Fake, Testing, crash_everywhere, faked

loops, box, flow = Service("Loops"), VirtualObject("Box"), Workflow("Flow")
LAST = 3


@step()
def effect(n: int) -> int:
    return n


@loops.handler()
async def counts(ctx: Context, n: int) -> list:
    drawn = ctx.uuid()
    done = await ctx.run(effect, n)
    if done < LAST:
        ctx.continue_as_new(n + 1)
    return [n, drawn != ctx.uuid()]


@loops.handler()
async def calls(ctx: Context, n: int) -> list:
    return [await ctx.call(counts, n), await ctx.call(adds, n, key="k")]


@loops.handler()
async def waits(ctx: Context, it: str) -> str:
    """Goes on once, and then waits for a signal."""
    if it == "first":
        ctx.continue_as_new("second")
    try:
        return await ctx.signal("go", str)
    except Cancelled:
        return "cancelled"


@loops.handler()
async def waits_for(ctx: Context, it: object) -> str:
    return await ctx.call(waits, "first")


@box.handler()
async def adds(ctx: ObjectContext, n: int) -> list:
    ctx.set("n", (await ctx.get("n", list) or []) + [n])
    await ctx.sleep(0)
    if n < LAST:
        ctx.continue_as_new(n + 1)
    return await ctx.get("n", list)


@flow.main()
async def main(ctx: WorkflowContext, n: int) -> int:
    if n < LAST:
        ctx.continue_as_new(n + 1)
    return n + await ctx.promise("add", int).value()


@flow.handler()
async def add(ctx: Context, n: int) -> None:
    await ctx.promise("add").resolve(n)


@loops.handler(retry=Retry(attempts=1, pause=True))
async def wrong(ctx: Context, it: str) -> str:
    if it == "argument":
        ctx.continue_as_new(5)
    if it == "spawn":
        return await ctx.spawn(within(ctx))
    try:
        ctx.continue_as_new("again")
    except BaseException:
        return "caught"


async def within(ctx: Context) -> str:
    ctx.continue_as_new("again")


@loops.handler(timeout=100_000)
async def limited(ctx: Context, n: int) -> str:
    if n < LAST:
        ctx.continue_as_new(n + 1)
    await ctx.sleep(1000)
    return "late"


app = App(loops, box, flow)


@support.on_each_database
class Continuing(support.OnADatabase):
    def runs(self, test):
        async def go():
            async with Runtime(app, self.url) as runtime:
                await test(runtime)

        asyncio.run(go())

    def test_the_last_ones_result(self):
        async def test(runtime):
            first = await runtime.send("Loops/counts", 0, idempotency_key="once")
            self.assertEqual(await runtime.result(first), [LAST, True])
            rows = await runtime.rows("SELECT id, status, how, idem, chain, continued, result IS NULL, parent FROM invocations ORDER BY seq")
            ids = [row[0] for row in rows]
            self.assertEqual(ids[0], first)
            self.assertEqual([tuple(row[1:4]) for row in rows], [("done", "continued", None)] * LAST + [("done", "ended", "once")])
            self.assertEqual([tuple(row[4:6]) for row in rows], [(first, id) for id in [*ids[1:], None]])
            self.assertEqual([bool(row[6]) for row in rows], [True] * LAST + [False])
            self.assertEqual(await runtime.send("Loops/counts", 0, idempotency_key="once"), ids[-1])
            for id in ids:
                self.assertEqual(await runtime.result(id), [LAST, True])
            await runtime.engine.transact(lambda db: db.change("DELETE FROM invocations WHERE id=?", (first,)))
            self.assertEqual(await runtime.result(first), [LAST, True])  # the first one is purged
            self.assertIsNone(await runtime.engine.result("inv_none"))
            checked = await runtime.engine.transact(lambda db: replay.replay_all(app, db, None, True))
            self.assertEqual([it.difference for it in checked], [None] * LAST)

        self.runs(test)

    def test_callers_and_keys(self):
        async def test(runtime):
            self.assertEqual(await runtime.call("Loops/calls", 0), [[LAST, True], [0, 1, 2, 3]])
            found = [await runtime.send("Box/adds", n, "order") for n in (0, 2, 3)]
            self.assertEqual([await runtime.result(id) for id in found], [[0, 1, 2, 3], [0, 1, 2, 3, 2, 3], [0, 1, 2, 3, 2, 3, 3]])
            self.assertEqual([await runtime.rows(f"SELECT * FROM {it}") for it in ("locks", "waiters", "inbox", "timers")], [[]] * 4)

        self.runs(test)

    def test_a_workflow(self):
        async def test(runtime):
            first = await runtime.send("Flow/main", 0, "k")
            while len(await runtime.rows("SELECT id FROM invocations WHERE handler='main'")) <= LAST:
                await asyncio.sleep(0.02)
            again = await runtime.send("Flow/main", 0, "k")
            self.assertEqual(await runtime.rows("SELECT id, continued FROM invocations WHERE id=?", again), [(again, None)])
            await runtime.call("Flow/add", 10, "k")
            self.assertEqual([await runtime.result(id) for id in (first, again)], [LAST + 10] * 2)

        self.runs(test)

    def test_what_is_sent_to_the_first_one(self):
        async def test(runtime):
            for act in ("signal", "cancel"):
                first = await runtime.send("Loops/waits", "first")
                await self.waits(runtime, 1 + (act == "cancel"))
                if act == "signal":
                    self.assertTrue(await runtime.engine.notify(first, named_signal("go", value(b'"went"'))))
                else:
                    self.assertEqual(await runtime.engine.act("cancel", first, "ann"), "cancelled")
                self.assertEqual(await runtime.result(first), "went" if act == "signal" else "cancelled")
            calls = await runtime.send("Loops/waits_for")
            await self.waits(runtime, 3)
            found = await runtime.rows("SELECT id FROM invocations WHERE parent=? AND continued IS NOT NULL", calls)
            self.assertEqual(await runtime.engine.act("kill", calls, "ann"), "killed; 1 calls are cancelled")
            self.assertEqual(await runtime.result(found[0][0]), "cancelled")

        self.runs(test)

    async def waits(self, runtime, count):
        """So many have gone on and are suspended then, or were."""
        sql = "SELECT id FROM invocations WHERE handler='waits' AND chain<>id AND (status='suspended' OR status='done')"
        while len(await runtime.rows(sql)) < count:
            await asyncio.sleep(0.02)

    async def gone_on(self, runtime, id):
        while not (await runtime.rows("SELECT continued FROM invocations WHERE id=?", id))[0][0]:
            await asyncio.sleep(0.02)

    def test_what_came_before_goes_over(self):
        """A signal and a cancellation that are in the inbox when it goes on."""

        async def test(runtime):
            for frame, ends in ((named_signal("go", value(b'"went"')), "went"), (None, (409, "cancelled", ()))):
                first = await runtime.send("Loops/waits", "first", due=4e9)
                if frame is None:
                    await runtime.engine.transact(lambda db: db.change("UPDATE invocations SET epoch=1 WHERE id=?", (first,)))
                    await runtime.engine.transact(lambda db: db.change("INSERT INTO inbox(invocation, frame, fresh) VALUES (?,?,0)", (first, cancellation())))
                else:
                    self.assertTrue(await runtime.engine.notify(first, frame))
                await runtime.engine.transact(lambda db: db.change("UPDATE invocations SET due=1 WHERE id=?", (first,)))
                runtime.engine.look()
                self.assertIn(await runtime.result(first), (ends, "cancelled") if frame is None else (ends,))

        self.runs(test)

    def test_what_is_wrong(self):
        async def test(runtime):
            code, message, _ = await runtime.call("Loops/wrong", "argument")
            self.assertEqual(code, 400)
            self.assertIn("the argument of ctx.continue_as_new in Loops/wrong: ", message)
            for kind, said in (("spawn", "it belongs to the handler itself"), ("caught", "the handler caught what ctx.continue_as_new raises")):
                id = await runtime.send("Loops/wrong", kind)
                self.assertIn(said, (await runtime.until(id, "paused"))[1])
            self.assertEqual(await runtime.rows("SELECT id FROM invocations WHERE continued IS NOT NULL"), [])

        self.runs(test)

    def test_limits_of_time_and_restarts(self):
        async def test(runtime):
            first = await runtime.send("Loops/limited", 0)
            await self.gone_on(runtime, first)
            while len(rows := await runtime.rows("SELECT deadline, created, id FROM invocations ORDER BY seq")) <= LAST:
                await asyncio.sleep(0.02)
            for deadline, created, _ in rows:
                self.assertAlmostEqual(deadline - created, 100_000, 2)
            self.assertEqual(await runtime.engine.act("kill", first, "ann"), "killed")
            with self.assertRaisesRegex(Exception, "goes on as inv_.*: restart that one, or the last one"):
                await runtime.engine.transact(lambda db: restarting.restart(db, app, Outcome(), first, "ann"))
            self.assertIn("is made again as ", await runtime.engine.act("restart", first, "ann"))
            [(origin,)] = await runtime.rows("SELECT origin FROM invocations WHERE origin IS NOT NULL")
            self.assertEqual(origin, rows[-1][2])

        self.runs(test)

    def test_many(self):
        """What each of a long row costs doesn't grow with it."""

        async def test(runtime):
            first = await runtime.send("Loops/counts", LAST - 60)
            self.assertEqual(await runtime.result(first), [LAST, True])

        self.runs(test)


class Deaths(unittest.TestCase):
    def test_at_each_commit(self):
        with faked(effect, Fake(lambda n: n)) as done:
            self.assertGreater(asyncio.run(crash_everywhere(app, calls, LAST - 1, fakes=[done])), 20)

    def test_in_the_kit(self):
        async def go():
            async with Testing(app) as it:
                sent = await it.send(adds, 0, key="k")
                self.assertEqual(await sent.result(), [0, 1, 2, 3])

        asyncio.run(go())


if __name__ == "__main__":
    unittest.main()
