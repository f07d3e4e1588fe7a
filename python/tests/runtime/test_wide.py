"""What is wide, in one attempt: it takes time in proportion, and keeps nobody else out."""

import asyncio
import gc
import secrets
import threading
import time
import unittest

import support  # isort: skip
from palqytun.runtime import App, Context, Service, TerminalError, VirtualObject, gather, journal
from palqytun.runtime.services import Retry
from support import Runtime

service, thing = Service("S"), VirtualObject("O")
at_once = [0, 0]  # now, and at most
may_end = threading.Event()
TRIES = 4  # of a measurement: other work of the host only adds to it, so the least counts


async def counted(n: int) -> int:
    at_once[0] += 1
    at_once[1] = max(at_once)
    await asyncio.sleep(0.001)
    at_once[0] -= 1
    return n


async def held(n: int) -> int:
    """It lasts until the test says so."""
    at_once[0] += 1
    at_once[1] = max(at_once)
    while not may_end.is_set():
        await asyncio.sleep(0.01)
    at_once[0] -= 1
    return n


@service.handler()
async def echo(ctx: Context, n: int) -> int:
    return n


@service.handler()
async def runs(ctx: Context, n: int) -> int:
    return sum(await gather(*[ctx.run("one", counted, 1) for _ in range(n)]))


@service.handler()
async def holds(ctx: Context, n: int) -> int:
    return sum(await gather(*[ctx.run("one", held, 1) for _ in range(n)]))


@service.handler()
async def plain_runs(ctx: Context, n: int) -> int:
    return sum(await gather(*[ctx.run("one", int, 1) for _ in range(n)]))


@service.handler()
async def sleeps(ctx: Context, n: int) -> int:
    return len(await gather(*[ctx.sleep(0.5) for _ in range(n)]))


@service.handler()
async def spawned(ctx: Context, n: int) -> int:
    async def two() -> int:
        return await ctx.run("one", counted, 1) + await ctx.run("none", counted, 0)

    return sum(await gather(*[ctx.spawn(two()) for _ in range(n)]))


@service.handler()
async def waits(ctx: Context, n: int) -> int:
    """A long journal, and then a signal."""
    done = sum(await gather(*[ctx.run("one", counted, 1) for _ in range(n)]))
    await ctx.signal("go")
    return done


@service.handler()
async def calls(ctx: Context, n: int) -> int:
    return sum(await gather(*[ctx.call(echo, 1) for _ in range(n)]))


@thing.handler()
async def sets(ctx: Context, n: int) -> int:
    for i in range(n):
        ctx.set(f"name {i}", i)
    return len(await ctx.keys())


app = App(service, thing)


@support.on_each_database
class Wide(support.OnADatabase):
    def test_time_is_in_proportion(self):
        """By the processor's time, ten times as many take some ten times as long; with a square it were 100 times."""

        async def go():
            async with Runtime(app, self.url, idle=0.5) as runtime:
                await runtime.call("S/runs", 100)
                for path in ("S/runs", "S/plain_runs", "S/sleeps", "S/spawned", "O/sets", "S/calls"):
                    few, many = (100, 1000) if path != "S/calls" else (20, 200)
                    least = max(await self.took(runtime, path, few), 0.02)
                    took = []
                    while not took or (min(took) >= 30 * least and len(took) < TRIES):
                        took.append(await self.took(runtime, path, many))
                    assert min(took) < 30 * least, (path, least, took)

        asyncio.run(go())

    async def took(self, runtime, path, count):
        """How many seconds of a processor an invocation takes."""
        gc.collect()
        begun = time.process_time()
        id = await runtime.send(path, count, key=secrets.token_hex(4) if path[0] == "O" else "")
        assert await runtime.result(id) == count
        return time.process_time() - begun

    def test_a_long_journal_lets_others_have_their_turn(self):
        """While an invocation with 6,000 entries is claimed and fed, nothing of the runtime's holds the loop. Time is the processor's."""

        longest = []
        while not longest or (min(longest) >= 0.25 and len(longest) < TRIES):
            try:
                longest.append(asyncio.run(asyncio.wait_for(self.held(), support.LONG)))
            finally:
                gc.enable()
        self.assertLess(min(longest), 0.25)

    async def held(self):
        """For how many seconds of a processor the loop was held at most, while a long journal was fed."""
        async with Runtime(app, self.url, idle=0) as runtime:
            id = await runtime.send("S/waits", 3000)
            await runtime.until(id, "suspended")
            gc.collect()
            gc.disable()  # a collection isn't the runtime's
            held, last = [], time.thread_time()
            await runtime.engine.notify(id, journal.named_signal("go", journal.value(b"1")))
            ended = asyncio.create_task(runtime.result(id))
            while not ended.done():
                await asyncio.sleep(0)
                now = time.thread_time()
                held.append(now - last)
                last = now
            self.assertEqual(await ended, 3000)
            return max(held)

    def test_so_many_runs_at_once_and_others_beside_them(self):
        async def go():
            at_once[:] = [0, 0]
            may_end.clear()
            async with Runtime(app, self.url, effects=10) as runtime:
                wide = await runtime.send("S/holds", 800)
                while not at_once[1]:
                    await asyncio.sleep(0.001)
                assert await runtime.call("S/runs", 3) == 3  # while those of the other are executed, and wait for their turn
                may_end.set()
                assert await runtime.result(wide) == 800
            assert at_once[1] <= 10, at_once

        asyncio.run(go())


class Values(unittest.TestCase):
    def test_terminal_errors(self):
        assert TerminalError(ValueError("inner")).message == "ValueError: inner"
        assert TerminalError("x", 404, {"a": "b"}).metadata == (("a", "b"),)
        for wrong in (4.5, "404", None):
            with self.assertRaisesRegex(TypeError, "a failure's code is a whole number"):
                TerminalError("x", wrong)
        with self.assertRaisesRegex(TypeError, "pairs of texts"):
            TerminalError("x", 400, {"a": 1})

    def test_retries(self):
        assert Retry(factor=(10**6, 1)).delay(63) == Retry(factor=(10**6, 1)).delay(10**6) == 10.0
        for wrong in ({"initial": -1}, {"longest": float("nan")}, {"duration": float("inf")}, {"attempts": 0}, {"factor": (1, 0)}):
            with self.assertRaises(ValueError):
                Retry(**wrong)


if __name__ == "__main__":
    unittest.main()
