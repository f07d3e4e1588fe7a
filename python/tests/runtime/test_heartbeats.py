"""Heartbeats: runs that say how far they have come, those that don't beat in time, and those that go on where one before was."""

import asyncio
import threading
import time
import unittest
from unittest import mock

import support  # isort: skip
import needs

if lacks := needs.lacks_server():
    raise unittest.SkipTest(lacks)
from palqytun.runtime import App, Context, GivenUp, Retry, Service, Step, gather, heartbeat, heartbeats, last_progress, step
from palqytun.runtime.lease import Lease
from palqytun.runtime.serving import Settings
from palqytun.testing import crash_everywhere
from served import Served
from spoken import palqytun

long = Service("Long")
free, seen = threading.Event(), []
FAST = Retry(initial=0.01, longest=0.01)


def in_thread(rows: int) -> str:
    """Says each row, and then waits."""
    for number in range(1, rows + 1):
        heartbeat({"rows": number})
    assert free.wait(support.LONG)
    return "thread"


async def in_loop(rows: int) -> str:
    heartbeat(f"{rows} rows")
    while not free.is_set():
        await asyncio.sleep(0.01)
    return "loop"


@long.handler()
async def tells(ctx: Context, rows: int) -> list:
    first = ctx.run("in thread", in_thread, rows, heartbeat=support.LONG)
    second = ctx.run("in loop", in_loop, rows)
    return await gather(first, second)


@step(heartbeat=0.3, retry=FAST)
async def stalls() -> str:
    seen.append("begun")
    if len(seen) < 3:
        await asyncio.sleep(support.LONG)
    return "beats"


@step(heartbeat=0.3, retry=FAST)
def stalls_in_thread() -> str:
    """The first execution beats, and not again until another one was begun in its place. At its next beat it is told that it has been given up."""
    seen.append("begun")
    if len(seen) > 1:
        return "again"
    heartbeat(1)
    while len(seen) < 2:
        time.sleep(0.01)
    try:
        heartbeat(2)
    except GivenUp as error:
        seen.append(str(error))
        raise
    return "not given up"


class Clock:
    """The clock by which silence is measured: it goes on if a test says so, and so a host that stands still makes no silence."""

    now = 1000.0

    def monotonic(self) -> float:
        return self.now


clock = Clock()


@step(heartbeat=0.5)
async def goes_on() -> int:
    """It takes several times as long as it may be silent."""
    for number in range(12):
        await asyncio.sleep(0.15)
        clock.now += 0.4
        heartbeat(number)
    return 12


@step(heartbeat=60, retry=FAST)
def from_where_it_was() -> list:
    before = last_progress(int)
    seen.append(before)
    for number in range((before or 0) + 1, 9):
        heartbeat(number)
        if number % 3 == 0 and len(seen) < 3:
            raise OSError("broken")
    return [before, number]


@long.handler()
async def runs(ctx: Context, name: str) -> object:
    return await ctx.run(STEPS[name])


@long.handler(retry=Retry(attempts=1, pause=True))
async def unwritable(ctx: Context, it: object) -> None:
    await ctx.run("x", lambda: heartbeat(object()), retry=Retry(attempts=1))


STEPS: dict[str, Step] = {it.name: it for it in (stalls, stalls_in_thread, goes_on, from_where_it_was)}
app = App(long)


@support.on_each_database
class Heartbeats(support.OnADatabase):
    def setUp(self):
        super().setUp()
        free.clear()
        seen.clear()
        self.addCleanup(free.set)

    def served(self, test):
        async def go():
            async with Served(app, self.url, Settings()) as served:
                await test(served)

        asyncio.run(go())

    async def progress(self, served, id, wanted):
        """Waits until the invocation shows this progress, by the names of its runs. What is said first is stored at once, and what is said last a second later."""
        for _ in range(int(support.LONG / 0.02)):
            found = {it["name"]: it["value"] for it in (await served.ask(f"/-/invocations/{id}", None, "GET"))[1]["progress"]}
            if found == wanted:
                return
            await asyncio.sleep(0.02)
        self.assertEqual(found, wanted)

    def test_they_are_seen(self):
        async def test(served):
            id = (await served.ask("/Long/tells/send", 40))[1]["invocation"]
            await self.progress(served, id, {"in thread": '{"rows":40}', "in loop": '"40 rows"'})
            _, page, _ = await served.ask(f"/-/page/{id}", None, "GET")
            self.assertIn("40 rows", page)
            said = await asyncio.to_thread(palqytun, "invocations", "inspect", id, "--db", self.url)
            self.assertRegex(said[1], r'# progress of in thread: {"rows":40}, [\d.]+ m?s ago\n# progress of in loop: "40 rows", ')
            free.set()
            self.assertEqual((await served.ask(f"/-/invocations/{id}/result", None, "GET"))[1], ["thread", "loop"])

        self.served(test)

    def test_one_that_is_silent_is_tried_again(self):
        async def test(served):
            with self.assertLogs("palqytun", "WARNING") as logged:
                self.assertEqual((await served.ask("/Long/runs", "stalls"))[1], "beats")
            self.assertEqual(seen, ["begun"] * 3)
            said = [it for it in logged.output if "failed in the run 'stalls'" in it]
            self.assertEqual(len(said), 2)
            self.assertIn("TimeoutError: it hasn't beaten for 0.3 s", said[0])

        self.served(test)

    def test_a_thread_that_is_given_up_is_told(self):
        async def test(served):
            self.assertEqual((await served.ask("/Long/runs", "stalls_in_thread"))[1], "again")
            await served.until(lambda: len(seen) == 3)
            self.assertEqual(sorted(seen), ["begun", "begun", "this run isn't waited for any more, so it can end"])

        self.served(test)

    def test_one_that_beats_may_take_long(self):
        async def test(served):
            self.assertEqual((await served.ask("/Long/runs", "goes_on"))[1], 12)
            self.assertEqual(await served.rows("SELECT 1 FROM attempts WHERE how='failed'"), [])

        with mock.patch.object(heartbeats, "time", clock):
            self.served(test)

    def test_it_goes_on_where_the_one_before_was(self):
        async def test(served):
            self.assertEqual((await served.ask("/Long/runs", "from_where_it_was"))[1], [6, 8])
            self.assertEqual(seen, [None, 3, 6])

        self.served(test)

    def test_a_killed_one_is_told(self):
        async def test(served):
            id = (await served.ask("/Long/tells/send", 1))[1]["invocation"]
            await self.progress(served, id, {"in thread": '{"rows":1}', "in loop": '"1 rows"'})
            pulses = [it for attempt in served.engine.live.values() for it in attempt._executing.values()]
            self.assertEqual(len(pulses), 2)
            await served.ask(f"/-/invocations/{id}/kill")
            await served.until(lambda: not served.engine.live)
            free.set()

        self.served(test)

    def test_a_value_that_cant_be_written(self):
        async def test(served):
            status, found, _ = await served.ask("/Long/unwritable", None)
            self.assertEqual(status, 500)
            self.assertIn("TypeError: a value of type object is not JSON", found["message"])

        self.served(test)

    def test_another_workers_is_not_stored(self):
        async def test(served):
            id = (await served.ask("/Long/tells/send", 1))[1]["invocation"]
            await self.progress(served, id, {"in thread": '{"rows":1}', "in loop": '"1 rows"'})
            stale = Lease(id, 7, None)
            self.assertFalse(await served.engine.transact(lambda db: heartbeats.keep(db, stale, 99, "other", b"1")))
            self.assertEqual(await served.rows("SELECT 1 FROM progress WHERE run=99"), [])
            free.set()

        self.served(test)


class Alone(unittest.TestCase):
    def test_outside_a_run(self):
        heartbeat(1)
        self.assertIsNone(last_progress(int))

    def test_limits(self):
        for seconds in (0, -1):
            with self.assertRaisesRegex(ValueError, f"a heartbeat is a number of seconds above 0, and not {seconds}"):
                step(heartbeat=seconds)(len)

    def test_deaths_change_nothing(self):
        """A worker dies at each commit, those of heartbeats too."""
        service = Service("Beats")

        async def beats() -> list:
            before = last_progress(int) or 0
            for number in range(before + 1, 4):
                heartbeat(number)
                await asyncio.sleep(0)
            return [3]

        @service.handler()
        async def works(ctx: Context, it: object) -> list:
            return [await ctx.run("first", beats, heartbeat=60), await ctx.run("second", beats, heartbeat=60)]

        self.assertGreater(asyncio.run(crash_everywhere(App(service), works)), 5)

    def test_many_beats_cost_little(self):
        """However often it beats, it is stored about once a second."""
        stored = []

        async def keep(value):
            stored.append(value)
            return True

        async def go():
            pulse = heartbeats.Pulse(app.codec, 60, None, keep)
            pulse.begin()
            for number in range(20_000):
                pulse.beat(number)
                if number % 1000 == 0:
                    await asyncio.sleep(0)
            await pulse.close()
            with self.assertRaises(GivenUp):
                pulse.beat(1)

        begun = time.monotonic()
        asyncio.run(go())
        self.assertLess(len(stored), 3 + (time.monotonic() - begun))
        self.assertEqual(stored[-1], b"19999")


if __name__ == "__main__":
    unittest.main()
