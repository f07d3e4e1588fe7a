"""What handlers can do, on both databases."""

import asyncio
import time
import unittest

import support  # isort: skip
import runtime_app
from palqytun.runtime import App, Context, Schedule, Service, TerminalError, VirtualObject, effects, invocations, journal, storing
from palqytun.runtime.lease import Fenced
from palqytun.runtime.replay import replay_all
from runtime_app import seen
from support import Runtime, suspends, with_runtime


@support.on_each_database
class Handlers(support.OnADatabase):
    @with_runtime
    async def test_calls_and_failures(self, runtime):
        assert await runtime.call("S/echo", {"a": [1, None]}) == {"a": [1, None]}
        assert await runtime.call("S/refuses") == (418, "refused", (("k", "v"),))
        with self.assertRaises(TerminalError):
            await runtime.call("S/none")

    @with_runtime
    async def test_await_trees(self, runtime):
        assert await runtime.call("S/trees") == [[0, [0, 1]], [418, 2], 7, [[1, 8], 9], 418, [["k", "v"]]]

    @with_runtime
    async def test_coroutines_side_by_side(self, runtime):
        """They go on in the order in which their sleeps are over."""
        id = await runtime.send("S/spawns")
        await runtime.until_rows([(3,)], "SELECT COUNT(*) FROM timers")
        await runtime.engine.transact(lambda db: db.change("UPDATE timers SET due=due-100000"))
        runtime.engine.look()
        assert await runtime.result(id) == [[0, 1, 2], [2, 1, 0]]

    @with_runtime
    async def test_timeout(self, runtime):
        assert await runtime.call("S/slow") == [408, "it took longer than 0.05 s"]

    @with_runtime
    async def test_runs_are_retried(self, runtime):
        assert await runtime.call("S/retries") == "OSError: broken" and seen == ["try"] * 3

    @with_runtime
    async def test_attempts_are_retried_then_paused_then_resumed(self, runtime):
        id = await runtime.send("S/breaks")
        _, error = await runtime.until(id, "paused")
        assert "a bug" in error and seen == ["once", "broke", "broke"]
        seen.append("mended")
        assert await runtime.engine.act("resume", id, "ann") == "resumed"
        assert await runtime.result(id) == "mended"

    @with_runtime
    async def test_attempts_are_retried_then_failed(self, runtime):
        assert (await runtime.call("S/gives_up"))[:2] == (500, "ValueError: a bug")

    @with_runtime
    async def test_what_is_not_durable_is_refused(self, runtime):
        assert "awaits what its context gives" in (await runtime.until(await runtime.send("S/impure"), "paused"))[1]
        assert "can be combined" in (await runtime.until(await runtime.send("S/combines"), "paused"))[1]

    @suspends
    @with_runtime
    async def test_a_handler_that_catches_too_much_is_refused(self, runtime):
        assert "catch `Exception` instead" in (await runtime.until(await runtime.send("S/swallows"), "paused"))[1]
        id = await runtime.send("S/swallows_a_mismatch")
        await runtime.time_passes(id)
        assert "catch `Exception` instead" in (await runtime.until(id, "paused"))[1]
        assert seen == ["slept", "swallowed"]

    @suspends
    @with_runtime
    async def test_a_changed_handler_is_refused(self, runtime):
        id = await runtime.send("S/changed")
        await runtime.time_passes(id)
        assert (await runtime.until(id, "paused"))[1].startswith("570 JOURNAL_MISMATCH: CommandTypeMismatchError")

    @with_runtime
    async def test_awakeables_and_signals(self, runtime):
        id = await runtime.send("S/waits")
        while not seen:
            await asyncio.sleep(0.01)
        invocation, number = effects.awakeable_of(seen[0][1])
        assert invocation == id
        assert await runtime.engine.notify(id, journal.named_signal("go", journal.value(b'"first"')))
        assert await runtime.engine.notify(id, journal.signal(number, journal.value(b'"awake"')))
        assert await runtime.result(id) == ["awake", "first"]
        assert not await runtime.engine.notify(id, journal.named_signal("go", journal.value(b"1")))

    @with_runtime
    async def test_cancel(self, runtime):
        id = await runtime.send("S/cancelled")
        while not seen:
            await asyncio.sleep(0.01)
        child = seen.pop()[0]
        assert await runtime.engine.cancel(id)
        assert (await runtime.result(id))[:2] == (409, "cancelled") and seen.count("undone") == 1
        assert (await runtime.result(child))[:2] == (409, "cancelled")

    @with_runtime
    async def test_one_at_a_time_of_a_key(self, runtime):
        ids = [await runtime.send("O/add", 1, key="k") for _ in range(5)] + [await runtime.send("O/add", 1, key="other")]
        assert [await runtime.result(id) for id in ids] == [[n + 1, ["n"]] for n in range(5)] + [[1, ["n"]]]
        assert sorted({n for key, n in seen if key == "k"}) == list(range(5))
        assert await runtime.call("O/look", key="k") == [5, None, ["n"]]
        assert (await runtime.call("O/writes", key="k"))[1].startswith("this handler only reads")
        assert await runtime.call("O/forget", key="k") == [["n"], []]
        assert await runtime.call("O/look", key="k") == [None, None, []]
        with self.assertRaises(TerminalError):
            await runtime.send("O/add", 1)

    @with_runtime
    async def test_sends_with_a_delay(self, runtime):
        begun = time.time()
        assert await runtime.call("S/later") == 28
        while await runtime.call("O/look", key="later") == [None, None, []]:
            await asyncio.sleep(0.01)
        assert time.time() - begun > 0.1

    @with_runtime
    async def test_workflows_and_promises(self, runtime):
        id = await runtime.send("W/main", 1, key="k")
        assert await runtime.send("W/main", 2, key="k") == id
        assert await runtime.call("W/done", "word", key="k") == [None, 409, "word"]
        assert await runtime.result(id) == "word"

    @with_runtime
    async def test_idempotency_keys(self, runtime):
        ids = {await runtime.send("S/echo", 0, idempotency_key="same") for _ in range(3)}
        assert len(ids) == 1 and await runtime.result(ids.pop()) == 0

    @with_runtime
    async def test_typed_arguments(self, runtime):
        order = {"items": [{"name": "pen", "count": 2}, {"name": "ink"}]}
        pen = {"name": "pen", "count": 4}
        assert await runtime.call("S/typed", order) == {"items": [pen, {"name": "packed", "count": 3}], "note": "Item"}
        code, message, _ = await runtime.call("S/typed", {"items": [{"title": "pen"}]})
        assert code == 400 and "Item has no field title" in message

    @suspends
    def test_the_log_is_silent_in_replay(self):
        async def go():
            async with Runtime(runtime_app.app, self.url) as runtime:
                id = await runtime.send("S/logs")
                await runtime.time_passes(id)
                await runtime.result(id)
                assert runtime.engine.counts["attempts"] == 2

        with self.assertLogs("palqytun.handler", "INFO") as logged:
            asyncio.run(go())
        said = [it.getMessage().split(" ", 1)[1] for it in logged.records]
        assert said == ["before the sleep", "after the sleep"]

    @with_runtime
    async def test_the_context_is_the_handlers_alone(self, runtime):
        for what, said in (
            ("sleep", "the context is used within the run 'within'"),
            ("uuid", "ctx.uuid is used within the run 'within': draw it before"),
            ("random", "ctx.random is used"),
            ("drawn", "ctx.random is used"),
            ("log", "ctx.log is used"),
            ("logged", "ctx.log is used"),
            ("key", "ctx.key is used"),
            ("headers", "ctx.headers is used"),
        ):
            assert said in (await runtime.until(await runtime.send("S/within", what), "paused"))[1], what
        assert "known within a run only" in (await runtime.until(await runtime.send("S/within", "run_key"), "paused"))[1]

    @with_runtime
    async def test_each_run_has_a_key_of_its_own(self, runtime):
        id = await runtime.send("S/pays")
        assert await runtime.result(id) == [1, 2, 3]
        keys = [key for key, _ in seen]
        assert len(keys) == 4 and keys[1] == keys[2] and len(set(keys)) == 3 and all(it.startswith(f"{id}-") for it in keys)

    @with_runtime
    async def test_a_result_that_cant_be_stored_is_one(self, runtime):
        assert (await runtime.call("S/unwritable"))[1].startswith("the result of the run 'made' can't be stored: TypeError")
        assert seen == ["made"]

    @with_runtime
    async def test_a_result_of_another_type_is_a_failure_at_its_await(self, runtime):
        assert (await runtime.call("S/misread"))[1].startswith("a result that can't be read as Item") and seen == ["undone"]

    @with_runtime
    async def test_calls_of_another_kind_of_service_are_refused(self, runtime):
        for what in ("promise", "get", "keys"):
            assert "S is a Service, which has no" in (await runtime.call("S/misuses", what))[1]

    @suspends
    @with_runtime
    async def test_a_suspended_handlers_finally_has_no_context(self, runtime):
        """Python runs it as the attempt ends, and the journal has nothing of it. A service has no state, so the last attempt is refused."""
        id = await runtime.send("S/tidies")
        await runtime.time_passes(id)
        assert "has no key and so no state" in (await runtime.result(id))[1] and len(seen) == 2

    @with_runtime
    async def test_odd_texts_and_values(self, runtime):
        for what, said in (("name", "no meaning"), ("raise", "caf"), ("result", "not JSON"), ("code", "from 0 to 65535")):
            assert said in (await runtime.until(await runtime.send("S/odd", what), "paused"))[1]
        assert (await runtime.call("S/odd", "terminal"))[:2] == (418, "caf\\udce9")
        assert await runtime.call("S/odd", "text") == "é\0\n𝄞"
        assert await runtime.call("O/add", 1, key="ключ/é") == [1, ["n"]]

    @suspends
    def test_a_lost_lease_is_fenced(self):
        """A second worker takes an invocation whose worker is thought dead; what the first one still writes is refused."""

        async def go():
            async with Runtime(runtime_app.app, self.url) as runtime:
                id = await runtime.send("S/waits")
                await runtime.until(id, "suspended")
                await runtime.engine.notify(id, journal.named_signal("go", journal.value(b"1")))  # it isn't awake by this
                [row] = await runtime.rows(f"SELECT {invocations.CLAIMED} FROM invocations WHERE id=?", id)
                [first] = await runtime.engine.transact(lambda db: invocations.claim(db, "dead", [invocations.Claimable(*row)]))
                while (await runtime.rows("SELECT epoch FROM invocations WHERE id=?", id))[0][0] == first.lease.epoch:  # `dead` has no lease
                    await asyncio.sleep(0.02)
                sleep = bytes.fromhex("0012" "0000000000000014") + bytes(8) + (1).to_bytes(4, "big") + bytes(8)
                with self.assertRaises(Fenced):
                    await runtime.engine.transact(lambda db: storing.store(db, runtime.engine.app, first, sleep, 0))
                await runtime.until(id, "suspended")
                assert await runtime.rows("SELECT COUNT(*) FROM timers") == [(0,)]

        asyncio.run(go())

    def test_calls_by_the_clock(self):
        async def go():
            app = App(runtime_app.service, schedules=[Schedule("often", runtime_app.ticks, "tick", every=0.05)])
            async with Runtime(app, self.url):
                while len(seen) < 3:
                    await asyncio.sleep(0.01)

        asyncio.run(asyncio.wait_for(go(), support.LONG))
        assert set(seen) == {"tick"}

    @with_runtime
    async def test_at_most_so_many_attempts_at_once(self, runtime):
        ids = [await runtime.send("S/few") for _ in range(7)]
        assert [await runtime.result(id) for id in ids] == [None] * 7
        assert max(seen) == 2 and len(seen) == 7

    def test_what_has_ended_is_purged(self):
        async def go():
            async with Runtime(runtime_app.app, self.url, keep=0.2, lease=0.3) as runtime:
                id = await runtime.send("S/echo", 1)
                while await runtime.rows("SELECT 1 FROM journal WHERE invocation=?", id):
                    await asyncio.sleep(0.05)
                assert await runtime.rows("SELECT 1 FROM invocations") == []

        asyncio.run(asyncio.wait_for(go(), support.LONG))

    @with_runtime
    async def test_stored_journals_are_replayed_by_changed_code(self, runtime):
        await runtime.call("S/trees")
        await runtime.call("O/add", 1, key="k")
        id = await runtime.send("S/waits")
        while not any(isinstance(it, tuple) and it[0] == id for it in seen):
            await asyncio.sleep(0.01)
        found = await runtime.engine.transact(lambda db: replay_all(runtime.engine.app, db, None, True))
        assert len(found) > 10 and not [it for it in found if it.difference]
        changed = App(Service("S"), VirtualObject("O"), runtime_app.flow)
        changed.services["S"].handlers = runtime_app.service.handlers

        @changed.services["O"].handler()
        async def add(ctx: Context, n):
            ctx.set("n", 1)

        different = [it for it in await runtime.engine.transact(lambda db: replay_all(changed, db, None, True)) if it.difference]
        text = "command 1 is recorded as GetEagerState, and the code makes SetState 'n'"
        assert [(it.handler, it.command, it.difference) for it in different] == [("O/add", 1, text)], different


if __name__ == "__main__":
    unittest.main()
