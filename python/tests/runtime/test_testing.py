"""The test kit, and the examples that use it."""

import asyncio
import pathlib
import sys
import time
import unittest

import support  # isort: skip

sys.path.append(str(support.PYTHON / "examples"))
from orders_test import Orders as Orders  # noqa: E402
from palqytun.runtime import App, Context, Schedule, Service, TerminalError, VirtualObject, Workflow, gather, step  # noqa: E402
from palqytun.testing import Fake, Testing, crash_everywhere, faked  # noqa: E402

shop, stock, visa = Service("Shop"), VirtualObject("Stock"), Workflow("Visa")
leaks = []


@step()
async def pay(amount: int) -> list[int]:
    raise AssertionError("the bank is real")


@shop.handler()
async def order(ctx: Context, count: int) -> list:
    left = await gather(*[ctx.call(take, count, key=it) for it in ("pen", "ink")])
    paid = await ctx.run(pay, count)
    await ctx.sleep(3600)
    return [left, paid, await ctx.now()]


@stock.handler()
async def sleeps(ctx: Context, seconds: int) -> str:
    await ctx.sleep(seconds)
    return "slept"


@stock.handler()
async def take(ctx: Context, count: int) -> int:
    left = (await ctx.get("left", int) or 10) - count
    if left < 0:
        raise TerminalError("none is left", 409)
    ctx.set("left", left)
    return left


@visa.main()
async def main(ctx: Context, name: str) -> str:
    return await ctx.timeout(ctx.promise("stamp", str).value(), 86400)


@visa.handler()
async def stamp(ctx: Context, text: str) -> None:
    await ctx.promise("stamp").resolve(text)


@shop.handler()
async def waits(ctx: Context, _: None) -> str:
    leaks.append(ctx.awakeable(str))
    return await leaks[-1][1]


@shop.handler()
async def depends(ctx: Context, _: None) -> int:
    """It isn't a function of its journal: each attempt leaves another state and another effect."""
    leaks.append(1)
    await ctx.run("first", lambda: None)
    ctx_count = len(leaks)
    await ctx.call(take, 1, key="pen")
    return ctx_count


app = App(shop, stock, visa)


class Kit(unittest.TestCase):
    def setUp(self):
        leaks.clear()

    def test_time_is_skipped(self):
        async def go():
            begun = time.monotonic()
            async with Testing(app) as it:
                with faked(pay, Fake([5])) as paid:
                    before = it.now
                    [left, money, now] = await it.call(order, 3)
                self.assertEqual((left, money, len(paid.calls), paid.calls[0].arguments), ([7, 7], [5], 1, (3,)))
                self.assertTrue(3600 <= now - before < 3700 and now <= it.now)
                self.assertEqual(await it.state("Stock", "pen"), {"left": 7})
                await it.set_state("Stock", "ink", left=1)
                with self.assertRaises(TerminalError) as raised:
                    await it.call(order, 3)
                self.assertEqual(raised.exception.code, 409)
                with self.assertRaises(TerminalError) as raised:
                    await it.call(main, "ann", key="late")
                self.assertEqual(raised.exception.code, 408)
                sent = await it.send(main, "ben", key="soon")
                await it.skip(3600)
                await it.call(stamp, "stamped", key="soon")
                self.assertEqual(await sent.result(), "stamped")
            self.assertLess(time.monotonic() - begun, 1800)

        asyncio.run(go())

    def test_one_that_waits_for_its_key_lets_time_be_skipped(self):
        async def go():
            async with Testing(app) as shop:
                first = await shop.send(sleeps, 86400, key="pen")
                second = await shop.send(take, 1, key="pen")
                await shop.skip(3600)
                self.assertTrue(await shop.is_settled())
                self.assertEqual([await second.result(), await first.result()], [9, "slept"])

        asyncio.run(go())

    def test_what_waits_for_what_does_not_come(self):
        async def go():
            async with Testing(app) as it:
                sent = await it.send(waits)
                with self.assertRaisesRegex(TimeoutError, "waits for what doesn't come by itself: suspended"):
                    await sent.result()
                await it.complete(leaks[0][0], "paid")
                self.assertEqual(await sent.result(), "paid")

        asyncio.run(go())

    def test_other_handlers_are_answers(self):
        async def go():
            async with Testing(app, answers={"Stock/take": lambda count: -count}) as it:
                with faked(pay, Fake([1])):
                    self.assertEqual((await it.call(order, 3))[0], [-3, -3])
            async with Testing(app, answers={"Stock/take": TerminalError("closed", 410)}) as it:
                with self.assertRaisesRegex(TerminalError, "closed"):
                    await it.call(order, 3)

        asyncio.run(go())
        with self.assertRaisesRegex(ValueError, "there is no handler Stock/none"):
            Testing(app, answers={"Stock/none": 1})

    def test_deaths_change_nothing(self):
        with faked(pay, Fake([5])) as paid:
            answers = App(shop, stock)
            deaths = asyncio.run(crash_everywhere(answers, take, 3, key="pen", fakes=[paid]))
        self.assertGreater(deaths, 2)

    def test_deaths_find_what_depends_on_attempts(self):
        with self.assertRaisesRegex(AssertionError, "with a death (at|after) commit [0-9]+ the result is "):
            asyncio.run(crash_everywhere(app, depends, None))

    def test_schedules(self):
        """The clock stops at each of their times, also if other handlers are answers."""
        far = (time.gmtime().tm_hour + 12) % 24  # no time comes while this test runs
        nightly = App(shop, stock, schedules=[Schedule("nightly", take, 1, key="pen", cron=f"0 {far} * * *")])

        async def go():
            async with Testing(nightly) as it:
                await it.skip(10 * 86400)
                self.assertEqual(await it.state("Stock", "pen"), {"left": 0})
            async with Testing(nightly, answers={"Stock/take": 1}) as it:
                await it.skip(86400)
                self.assertEqual(await it.state("Stock", "pen"), {})
                self.assertEqual(len(await it._asked("SELECT id FROM invocations WHERE status='done'")), 1)

        asyncio.run(go())

    def test_nothing_is_left_on_the_disk(self):
        async def go():
            async with Testing(app) as it:
                self.assertEqual(await it.call(take, 1, key="pen"), 9)

        before = set(pathlib.Path.cwd().iterdir())
        asyncio.run(go())
        self.assertEqual(set(pathlib.Path.cwd().iterdir()) - before, set())


if __name__ == "__main__":
    unittest.main()
