"""How a worker stops: runs end within the grace, what waits is suspended, and nothing that a handler does keeps the process."""

import asyncio
import os
import signal
import subprocess
import sys
import textwrap
import threading
import time
import unittest
from unittest import mock

import support  # isort: skip
from palqytun.runtime import App, Context, Service, gather
from palqytun.runtime.claiming import Claimer
from palqytun.runtime.engine import Unavailable
from palqytun.runtime.executions import Closed, Executions, Slots
from support import Runtime

service = Service("S")
begun: list = []
logged: list = []
free: dict = {}  # an event for each run of `branches`, which ends once it is set
hung = threading.Event()
HELD = "the event loop is held"


@service.handler()
async def slow(ctx: Context, seconds: float) -> list:
    """Two runs side by side, and two more after them."""

    def plain(what: str) -> str:
        begun.append(what)
        time.sleep(seconds)
        return what

    async def alike(what: str) -> str:
        begun.append(what)
        await asyncio.sleep(seconds)
        return what

    first = await gather(ctx.run("plain", plain, "plain"), ctx.run("async", alike, "async"))
    return [*first, await ctx.run("next", alike, "next"), await ctx.run("last", alike, "last")]


@service.handler()
async def branches(ctx: Context, _: None) -> list:
    """Two runs side by side, and a third one after the first."""

    async def held(what: str) -> str:
        begun.append(what)
        await free[what].wait()
        return what

    async def two() -> list:
        return [await ctx.run("first", held, "first"), await ctx.run("third", held, "third")]

    return await gather(ctx.spawn(two()), ctx.run("second", held, "second"))


@service.handler()
async def waits(ctx: Context, _: None) -> str:
    await ctx.signal("go")
    return "gone"


def hanging() -> None:
    begun.append("hangs")
    hung.wait(3600)


@service.handler()
async def hangs(ctx: Context, _: None) -> str:
    if not begun:
        await ctx.run("hangs", hanging)
    return "free"


@service.handler()
async def blocks(ctx: Context, seconds: float) -> None:
    while not any(HELD in it and "S/blocks of inv_" in it for it in logged):
        time.sleep(seconds)


app = App(service)


@support.on_each_database
class Stopping(support.OnADatabase):
    def setUp(self):
        super().setUp()
        begun.clear()

    def test_runs_end_within_the_grace_and_are_executed_once(self):
        async def go():
            async with Runtime(app, self.url, grace=support.LONG, idle=5) as runtime:
                id = await runtime.send("S/slow", 0.5)
                while len(begun) < 2:
                    await asyncio.sleep(0.01)
            assert begun.count("plain") == begun.count("async") == 1 and len(begun) < 4, begun
            async with Runtime(app, self.url) as runtime:
                assert await runtime.result(id) == ["plain", "async", "next", "last"]
            assert sorted(begun) == ["async", "last", "next", "plain"], begun

        asyncio.run(go())

    def test_a_run_that_may_not_begin_beside_one_that_is_executed(self):
        async def go():
            free.update({it: asyncio.Event() for it in ("first", "second", "third")})
            async with Runtime(app, self.url, grace=support.LONG) as runtime:
                id, live = await runtime.send("S/branches"), runtime.engine.live
                while len(begun) < 2:
                    await asyncio.sleep(0.01)
                runtime.engine.stop()
                free["first"].set()
                await runtime.until_rows([(1,)], "SELECT COUNT(*) FROM journal WHERE invocation=? AND completes IS NOT NULL", id)
                while not live[id].bell.is_awaited:
                    await asyncio.sleep(0.01)
                free["second"].set()
            free["third"].set()
            async with Runtime(app, self.url) as runtime:
                assert await runtime.result(id) == [["first", "third"], "second"]
            assert sorted(begun) == ["first", "second", "third"], begun

        asyncio.run(go())

    def test_what_waits_is_suspended_and_requests_are_answered(self):
        async def go():
            runtime = Runtime(app, self.url, idle=support.LONG, grace=support.LONG)
            async with runtime:
                id = await runtime.send("S/waits")
                await runtime.until(id, "running")
                asked = asyncio.create_task(runtime.engine.result(id))
                await asyncio.sleep(0.1)
                runtime.engine.stop()
                with self.assertRaises(Unavailable) as raised:
                    await asked
                assert raised.exception.code == 503 and raised.exception.retry_after > 0
                with self.assertRaises(Unavailable):
                    await runtime.send("S/waits")
            async with Runtime(app, self.url) as runtime:
                assert (await runtime.status(id))[0] == "suspended"

        asyncio.run(go())

    def test_what_the_grace_isnt_enough_for_is_given_back(self):
        async def go():
            async with Runtime(app, self.url, grace=0.2) as runtime:
                id = await runtime.send("S/hangs")
                while not begun:
                    await asyncio.sleep(0.01)
            async with Runtime(app, self.url, lease=60) as runtime:  # nobody's lease has to run out
                assert await runtime.result(id) == "free"
            hung.set()

        asyncio.run(asyncio.wait_for(go(), support.LONG))

    def test_what_has_no_attempt_is_taken_back(self):
        async def go():
            async with Runtime(app, self.url, idle=600) as runtime:
                id, engine = await runtime.send("S/waits"), runtime.engine
                await runtime.until(id, "running")
                while id not in engine.live:
                    await asyncio.sleep(0.01)
                first = engine.live.pop(id)
                engine.lease = 1.0  # so it looks soon. What the database has of the lease stays, however long the host stands still
                looks = asyncio.create_task(engine._sweeps(engine._committer, Claimer(engine._former, app, support.LEASE)))
                while engine.live.get(id) in (None, first):
                    await asyncio.sleep(0.01)
                looks.cancel()
                assert (await runtime.rows("SELECT how FROM attempts WHERE invocation=?", id)) == [("lost",)]

        with self.assertLogs("palqytun", "WARNING") as said:
            asyncio.run(asyncio.wait_for(go(), support.LONG))
        assert any("has no attempt, and is tried again" in it for it in said.output)

    def test_who_holds_the_loop_is_said(self):
        async def go():
            async with Runtime(app, self.url) as runtime:
                await runtime.call("S/blocks", 0.3)

        with self.assertLogs("palqytun", "WARNING") as watched, mock.patch.object(sys.modules[__name__], "logged", watched.output):
            asyncio.run(go())
        said = [it for it in watched.output if HELD in it and "S/blocks of inv_" in it]
        assert said and f"{__file__}:" in said[0], watched.output
        assert said[0].endswith((": time.sleep(seconds)", " in it for it in logged):")), watched.output


def ended(program, *signals, again=False):
    """How a program ends: its status, and what it said. `again`: the last signal is sent until it has ended."""
    environment = {**os.environ, "PYTHONPATH": str(support.PYTHON / "src")}
    how = {"env": environment, "stdout": subprocess.PIPE, "stderr": subprocess.STDOUT, "text": True}
    with subprocess.Popen([sys.executable, "-c", textwrap.dedent(program)], **how) as it:
        if signals:
            it.stdout.readline()
        for number in signals:
            it.send_signal(number)
        while again and it.poll() is None:
            time.sleep(0.2)
            it.send_signal(number)
        said, _ = it.communicate(timeout=support.LONG)
        return it.returncode, said


class Processes(unittest.TestCase):
    def test_a_loop_that_doesnt_answer_ends_its_process(self):
        status, said = ended("""
            import asyncio, time
            from palqytun.runtime.watchdog import Watchdog
            async def main():
                Watchdog(asyncio.get_running_loop(), stuck=1.0)
                time.sleep(3600)
            asyncio.run(main())
        """)
        assert status == 70 and "didn't reply for 1 s, so this worker ends" in said, (status, said)

    def test_tasks_cant_end_the_loop(self):
        status, said = ended("""
            import asyncio
            from palqytun.runtime import process
            async def exits():
                raise SystemExit(3)
            async def swallows():
                while True:
                    try:
                        await asyncio.sleep(60)
                    except asyncio.CancelledError:
                        pass
            async def main():
                asyncio.create_task(swallows())
                asyncio.create_task(exits())
                await asyncio.sleep(0.1)
                asyncio.get_running_loop().stop()
                await asyncio.sleep(0.1)
                print("the end")
            process.run(main())
        """)
        assert status == 0 and "the end" in said and "SystemExit of a task would have ended the worker" in said, (status, said)

    def test_a_thread_that_stays_is_left(self):
        status, said = ended("""
            import threading
            from palqytun.runtime import process
            threading.Thread(target=threading.Event().wait).start()
            process.leave(5)
        """)
        assert status == 5 and "is still at work, and is left" in said, (status, said)

    def test_signals_are_heard_by_a_loop_that_is_held(self):
        program = """
            import asyncio, time
            from palqytun.runtime.process import Signals
            async def main():
                stops = asyncio.Event()
                Signals(asyncio.get_running_loop(), lambda: print("stops") or stops.set(), 3600)
                print("begun", flush=True)
                time.sleep(SECONDS)
                await stops.wait()
            asyncio.run(main())
        """
        status, said = ended(program.replace("SECONDS", "1"), signal.SIGTERM)
        assert status == 0 and "stops" in said, (status, said)
        status, said = ended(program.replace("SECONDS", "3600"), signal.SIGTERM, again=True)
        assert status == 128 + signal.SIGTERM, (status, said)


class Executed(unittest.IsolatedAsyncioTestCase):
    async def test_slots_are_given_in_turn(self):
        slots, order = Slots(2), []

        async def one(owner):
            await slots.take(owner)
            order.append(owner)
            await asyncio.sleep(0.01)
            slots.give(owner)

        many = [asyncio.create_task(one("many")) for _ in range(20)]
        await asyncio.sleep(0)
        await asyncio.gather(*many, one("few"), one("few"))
        assert order.index("few") <= 2 and order.count("many") == 20

    async def test_an_owner_has_half_of_the_slots(self):
        slots = Slots(10)
        tasks = [asyncio.create_task(slots.take("many")) for _ in range(8)]
        await asyncio.sleep(0)
        await asyncio.sleep(0)
        assert sum(it.done() for it in tasks) == 5
        await asyncio.wait_for(slots.take("other"), support.LONG)
        tasks[7].cancel()
        slots.give("many")
        await asyncio.sleep(0)
        assert sum(it.done() for it in tasks) == 7  # with the one that was cancelled
        slots.close()
        with self.assertRaises(Closed):
            await tasks[6]

    async def test_what_was_cancelled_gives_its_slot_back(self):
        slots = Slots(1)
        await slots.take("first")
        task = asyncio.create_task(slots.take("second"))
        await asyncio.sleep(0)
        slots.give("first")  # the second one has it, and doesn't know yet
        task.cancel()
        await asyncio.gather(task, return_exceptions=True)
        await asyncio.wait_for(slots.take("third"), support.LONG)

    async def test_a_threads_slot_is_free_once_it_has_ended(self):
        executions, has_begun, free = Executions(1, 1), threading.Event(), threading.Event()
        first = asyncio.create_task(executions.execute("first", lambda: has_begun.set() or free.wait(support.LONG), ()))
        while not has_begun.is_set():
            await asyncio.sleep(0.01)
        first.cancel()
        second = asyncio.create_task(executions.execute("second", lambda: 2, ()))
        done, _ = await asyncio.wait([second], timeout=0.3)
        assert not done
        free.set()
        assert (await asyncio.wait_for(second, support.LONG)).value == 2
        executions.end()


if __name__ == "__main__":
    unittest.main()
