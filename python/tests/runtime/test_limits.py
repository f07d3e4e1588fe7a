"""Limits of time: of an invocation, of an attempt, and of the wait until it begins."""

import asyncio
import threading
import time
import unittest

import support  # isort: skip
from support import Runtime

from palqytun.runtime import App, Cancelled, Context, ObjectContext, Retry, Service, TerminalError, VirtualObject
from palqytun.testing import Testing, crash_everywhere

slow, box = Service("Slow"), VirtualObject("Box")
seen = []


@slow.handler(timeout=100_000)
async def late(ctx: Context, it: object) -> None:
    await ctx.call(child)


@slow.handler()
async def child(ctx: Context, it: object) -> None:
    try:
        await ctx.sleep(100_000)
    except Cancelled:
        seen.append("cancelled")
        raise


@slow.handler()
async def calls(ctx: Context, it: object) -> list:
    try:
        return [await ctx.call(late)]
    except TerminalError as error:
        return [error.code, error.message]


@slow.handler(attempt_timeout=0.5)
async def hangs(ctx: Context, it: str) -> int:
    """Its effect hangs twice."""
    await ctx.sleep(0)
    await ctx.run("quick", lambda: seen.append("quick"))
    return await ctx.run("effect", {"async": never, "thread": blocks}[it])


@slow.handler(attempt_timeout=0.2, retry=Retry(attempts=2, initial=0.01))
async def always(ctx: Context, it: object) -> None:
    await ctx.run("never", asyncio.sleep, 100)


@slow.handler(attempt_timeout=0.3)
async def waits(ctx: Context, it: object) -> str:
    """To wait takes nothing of an attempt's time."""
    await ctx.sleep(1.0)
    return await ctx.run("then", lambda: "waited")


@box.handler(timeout=100_000)
async def holds(ctx: ObjectContext, it: float) -> str:
    await ctx.sleep(it)
    return "held"


@box.handler(timeout=100_000)
async def itself(ctx: ObjectContext, it: object) -> None:
    await ctx.call(itself, key=ctx.key)


@box.handler(queue_timeout=0.3)
async def turn(ctx: ObjectContext, it: object) -> None: ...


async def never() -> int:
    seen.append("tried")
    await asyncio.sleep(0 if seen.count("tried") > 2 else 100)
    return len(seen)


def blocks() -> int:
    seen.append("tried")
    if seen.count("tried") <= 2:
        gate.wait(30)
    return len(seen)


gate = threading.Event()
app = App(slow, box)
UNENDED, UNBEGUN = (408, "timed out: it didn't end within its timeout", ()), (408, "timed out: it didn't begin within its queue_timeout", ())


@support.on_each_database
class Times(support.OnADatabase):
    def setUp(self):
        super().setUp()
        seen.clear()
        gate.clear()
        self.addCleanup(gate.set)

    def runs(self, test, **options):
        async def go():
            async with Runtime(app, self.url, **options) as runtime:
                await test(runtime)

        asyncio.run(go())

    async def overdue(self, runtime, id):
        """Its time is over, whatever the clock says."""
        await runtime.engine.transact(lambda db: db.change("UPDATE invocations SET deadline=1 WHERE id=?", (id,)))
        runtime.engine.look()

    def test_an_invocation_and_its_calls(self):
        async def test(runtime):
            calls = await runtime.send("Slow/calls")
            while not (found := await runtime.rows("SELECT parent, id FROM invocations WHERE handler='child' AND status='suspended'")):
                await asyncio.sleep(0.02)
            await self.overdue(runtime, found[0][0])
            self.assertEqual(await runtime.result(calls), list(UNENDED[:2]))
            rows = await runtime.rows("SELECT handler, failed, how FROM invocations WHERE handler IN ('late', 'calls') ORDER BY handler")
            self.assertEqual([tuple(it) for it in rows], [("calls", None, "ended"), ("late", 408, "overdue")])
            self.assertEqual((await runtime.result(found[0][1]))[0], 409)
            self.assertEqual(seen, ["cancelled"])

        with self.assertLogs("palqytun", "INFO") as logged:
            self.runs(test)
        self.assertTrue(any("Slow/late" in it and "408 timed out" in it for it in logged.output), logged.output)

    def test_one_that_waits_for_itself(self):
        """What it calls waits for its key, and is cancelled when its time is over. The key is free then."""

        async def test(runtime):
            id = await runtime.send("Box/itself", key="k")
            await runtime.until(id, "suspended")
            [(called, status)] = await runtime.rows("SELECT id, status FROM invocations WHERE parent=?", id)
            self.assertEqual(status, "ready")
            await self.overdue(runtime, id)
            self.assertEqual(await runtime.result(id), UNENDED)
            self.assertEqual((await runtime.result(called))[0], 409)
            self.assertEqual(await runtime.call("Box/holds", 0, "k"), "held")

        self.runs(test, idle=0)

    def test_the_times_of_one_that_begins_later(self):
        async def test(runtime):
            id = await runtime.send("Box/holds", 1, "k", due=time.time() + 1000)
            [(deadline, due)] = await runtime.rows("SELECT deadline, due FROM invocations WHERE id=?", id)
            self.assertAlmostEqual(deadline - due, 100_000, 3)
            await runtime.engine.act("kill", id, "ann")
            said = await runtime.engine.act("restart", id, "ann")
            [(deadline, created)] = await runtime.rows("SELECT deadline, created FROM invocations WHERE id=?", said.rpartition(" ")[2])
            self.assertAlmostEqual(deadline - created, 100_000, 3)

        self.runs(test)

    def test_the_key_is_free_then(self):
        async def test(runtime):
            first, second = [await runtime.send("Box/holds", it, "k") for it in (1000, 0)]
            await runtime.until(first, "suspended")
            await self.overdue(runtime, first)
            self.assertEqual(await runtime.result(first), UNENDED)
            self.assertEqual(await runtime.result(second), "held")
            self.assertEqual(await runtime.rows("SELECT holder FROM locks"), [])

        self.runs(test)

    def test_one_that_is_paused(self):
        async def test(runtime):
            id = await runtime.send("Box/holds", 1000, "k")
            await runtime.engine.act("pause", id, "ann")
            await self.overdue(runtime, id)
            self.assertEqual(await runtime.result(id), UNENDED)

        self.runs(test)

    def test_a_wait_for_its_turn(self):
        async def test(runtime):
            first = await runtime.send("Box/holds", 100_000, "k")
            await runtime.until(first, "suspended")
            self.assertEqual(await runtime.call("Box/turn", None, "k"), UNBEGUN)
            self.assertEqual((await runtime.status(first))[0], "suspended")

        self.runs(test)

    def test_an_attempt(self):
        async def test(runtime):
            for kind in ("async", "thread"):
                seen.clear()
                self.assertEqual(await runtime.call("Slow/hangs", kind), len(seen))
                self.assertGreaterEqual(seen.count("tried"), 3)
            errors = [it for it, in await runtime.rows("SELECT error FROM attempts WHERE how='failed'")]
            self.assertGreaterEqual(len(errors), 4)
            self.assertTrue(all("the attempt took longer than its attempt_timeout of 0.5 s" in it for it in errors), errors)

        self.runs(test)

    def test_attempts_that_are_over(self):
        async def test(runtime):
            code, message, _ = await runtime.call("Slow/always")
            self.assertEqual((code, message), (500, "TimeoutError: the attempt took longer than its attempt_timeout of 0.2 s"))
            self.assertEqual(await runtime.call("Slow/waits"), "waited")

        self.runs(test, idle=10)


class Kit(unittest.TestCase):
    def test_deaths_change_nothing(self):
        self.assertGreater(asyncio.run(crash_everywhere(app, calls)), 5)

    def test_the_clock_moves_on_to_the_end_of_a_limit(self):
        async def go():
            async with Testing(app) as it:
                before = it.now
                with self.assertRaises(TerminalError) as raised:
                    await it.call(holds, 1e6, key="k")
                self.assertEqual((raised.exception.code, raised.exception.message), UNENDED[:2])
                self.assertLess(it.now - before, 2e5)

        asyncio.run(go())

    def test_what_is_no_limit(self):
        for name in ("timeout", "queue_timeout", "attempt_timeout"):
            for seconds in (0, -1, float("inf"), float("nan")):
                with self.subTest(name, seconds=seconds), self.assertRaisesRegex(ValueError, f"Free/child has the {name} .*, and it is a number of seconds above 0"):
                    Service("Free").handler(**{name: seconds})(child.function)


if __name__ == "__main__":
    unittest.main()
