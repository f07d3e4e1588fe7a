"""docs/PROTOCOL.md: its tables are those of the schema, its statements are understood by the server, and a worker that makes no others works beside
Python's: handlers of both call each other, each goes on with what the other began, and what both leave is alike."""

import asyncio
import re
import time
import unittest

import support  # isort: skip
import needs

if lacks := needs.lacks_postgres():
    raise unittest.SkipTest(lacks)
import third
from palqytun.frames import line_of
from palqytun.runtime import App, Context, ObjectContext, Retry, Service, VirtualObject
from palqytun.runtime.database.schema import MIGRATIONS, TABLES

_ROW = re.compile(r"^\| (?:`(\w+)`)? *\| `(\w+)` \| (text|integer|float|bytes)(\*?) \|", re.MULTILINE)
_TYPES = {"text": "text", "bigint": "integer", "integer": "integer", "double precision": "float", "bytea": "bytes"}
_VALUE = re.compile(r"%\(\w+\)s")
_VERSION = "1"
mine, theirs = Service("Mine"), VirtualObject("Third")
made: list[str] = []


@mine.handler()
async def pay(ctx: Context, amount: int) -> str:
    return f"paid {amount}"


@mine.handler()
async def go(ctx: Context, city: str) -> str:
    id, signed = ctx.awakeable(str)
    booked = await ctx.call("Third/book", [city, id, 0.2], key="both")
    return f"{booked}, {await signed}"


@theirs.handler(retry=Retry(attempts=3))
async def book(ctx: ObjectContext, argument: list) -> str:
    """What `_book` does too, by the calls of another SDK."""
    seen = await ctx.get("seen", int)
    seat = await ctx.run("seat", lambda: _noted(f"seat to {argument[0]}"))
    ctx.set("seen", (seen or 0) + 1)
    await ctx.sleep(argument[2])
    paid = await ctx.call(pay, 5)
    if argument[1]:
        ctx.resolve_awakeable(argument[1], "signed")
    return f"{seat}, {paid}, {seen}"


def _noted(line: str) -> str:
    made.append(line)
    return line


def _book(attempt: third.Attempt, argument: list) -> str:
    vm = attempt.vm
    seen = attempt.awaited(vm.sys_state_get("seen"))
    seat = attempt.run_step("seat", lambda: _noted(f"seat to {argument[0]}"))
    vm.sys_state_set("seen", str((seen or 0) + 1).encode())
    attempt.awaited(vm.sys_sleep(int((time.time() + argument[2]) * 1000)))
    paid = attempt.awaited(vm.sys_call("Mine", "pay", b"5")[1])
    if argument[1]:
        vm.sys_complete_awakeable(argument[1], b'"signed"')
    return f"{seat}, {paid}, {seen}"


class Page(support.OnADatabase, unittest.TestCase):
    kind = "postgres"

    def test_its_version_is_the_schemas(self):
        self.assertIn(f"\n**Version {len(MIGRATIONS)}.** ", third.PAGE.read_text())

    def test_its_tables_are_the_schemas(self):
        shown, table = [], ""
        for name, column, kind, star in _ROW.findall(third.PAGE.read_text()):
            table = name or table
            shown.append((table, column, kind, bool(star)))
        sql = "SELECT table_name, column_name, data_type, is_nullable='YES' FROM information_schema.columns WHERE table_name=ANY(%s) AND table_schema=current_schema() ORDER BY 1, 2"
        with third.Store(self.url).db as db:
            found = [(table, column, _TYPES[kind], star) for table, column, kind, star in db.execute(sql, ([*TABLES, "schema_versions"],))]
        self.assertEqual(sorted(shown), sorted(found))

    def test_the_server_understands_each_statement(self):
        with third.Store(self.url).db as db:
            for name, some in third.statements().items():
                for sql in some:
                    with self.subTest(name):
                        if name == "session":
                            db.execute(sql)
                            continue
                        db.execute("PREPARE it AS " + _VALUE.sub("NULL", sql))
                        db.execute("DEALLOCATE it")


class Workers(support.OnADatabase, unittest.TestCase):
    """Workers of both kinds on one database."""

    kind = "postgres"

    def setUp(self):
        super().setUp()
        made.clear()

    def python(self, *services):
        return support.Runtime(App(*services), self.url, idle=0.0, version=_VERSION)

    def other(self, handler=_book):
        worker = third.Third(self.url, "Third", "book", handler, _VERSION)
        self.addCleanup(worker.db.close)
        worker.enter()
        return worker

    def status(self, id):
        with third.Store(self.url).db as db:
            return db.execute("SELECT status FROM invocations WHERE id=%s", (id,)).fetchone()[0]

    def hour_passes(self):
        """Each sleep is over."""
        with third.Store(self.url).db as db:
            self.assertEqual(db.execute("UPDATE timers SET due=0").rowcount, 1)

    def ended(self, id):
        return lambda: self.status(id) == "done"

    def test_handlers_of_both_call_each_other(self):
        async def test():
            worker = self.other()
            async with self.python(mine) as runtime:
                id = await runtime.send("Mine/go", "Oslo")
                await asyncio.to_thread(worker.until, self.ended(id))
                self.assertEqual(await runtime.result(id), "seat to Oslo, paid 5, None, signed")
            worker.leave()

        asyncio.run(asyncio.wait_for(test(), support.LONG))
        self.assertEqual(made, ["seat to Oslo"])

    def test_what_both_leave_is_alike(self):
        async def test():
            async with self.python(mine, theirs) as runtime:
                by_python = await runtime.send("Third/book", ["Rome", "", 0.2], "python")
                await runtime.result(by_python)
            worker = self.other()
            async with self.python(mine) as runtime:
                by_page = await runtime.send("Third/book", ["Rome", "", 0.2], "page")
                await asyncio.to_thread(worker.until, self.ended(by_page))
                self.assertEqual(await runtime.result(by_page), "seat to Rome, paid 5, None")
            worker.leave()
            return by_python, by_page

        both = asyncio.run(asyncio.wait_for(test(), support.LONG))
        self.assertEqual(*map(self.left, both))

    def left(self, id):
        """What an invocation leaves, without its own names and times."""
        own = "status, exclusive, version, idem, entries, retries, suspension, error, how, deaths, failures, failed, shielded, parent, code, result"
        with third.Store(self.url).db as db:
            row = db.execute(f"SELECT {own} FROM invocations WHERE id=%s", (id,)).fetchone()
            hows = db.execute("SELECT how FROM attempts WHERE invocation=%s GROUP BY how ORDER BY how", (id,)).fetchall()
            entries = db.execute("SELECT at, completes, frame FROM journal WHERE invocation=%s ORDER BY at", (id,)).fetchall()
            key = db.execute("SELECT key FROM invocations WHERE id=%s", (id,)).fetchone()[0]
            state = db.execute("SELECT name, value FROM state WHERE service='Third' AND key=%s", (key,)).fetchall()
            rest = [db.execute(f"SELECT COUNT(*) FROM {it}").fetchone()[0] for it in ("inbox", "timers", "waiters", "promise_waiters", "locks")]
        lines = [(at, completes, re.sub(r"wake_up_time=\d+|inv_[0-9a-f]{24}", "..", line_of(frame))) for at, completes, frame in entries]
        return row, hows, lines, state, rest

    def test_each_goes_on_with_what_the_other_began(self):
        async def test():
            worker = self.other()
            async with self.python(mine) as runtime:
                first = await runtime.send("Third/book", ["Oslo", "", 3600], "first")
                await asyncio.to_thread(worker.until, lambda: self.status(first) == "suspended")
            worker.leave()
            self.hour_passes()
            async with self.python(mine, theirs) as runtime:  # it waits for a sleep, whose timer the page's worker has made
                self.assertEqual(await runtime.result(first), "seat to Oslo, paid 5, None")
                second = await runtime.send("Third/book", ["Rome", "", 3600], "second")
                await runtime.until(second, "suspended")
            self.hour_passes()
            worker = self.other()
            async with self.python(mine) as runtime:
                await asyncio.to_thread(worker.until, self.ended(second))
                self.assertEqual(await runtime.result(second), "seat to Rome, paid 5, None")
            worker.leave()

        asyncio.run(asyncio.wait_for(test(), support.LONG))
        self.assertEqual(made, ["seat to Oslo", "seat to Rome"])

    def test_a_worker_that_is_lost(self):
        """Its lease ends, and Python's worker goes on. What it stores then is refused by the fence."""

        async def test():
            worker = self.other()
            async with self.python(mine) as runtime:
                id = await runtime.send("Third/book", ["Oslo", "", 0.2], "lost")
                [attempt] = await asyncio.to_thread(worker.look)
            worker.db.execute("UPDATE workers SET lease=0 WHERE id=%s", (worker.worker,))
            async with self.python(mine, theirs) as runtime:
                self.assertEqual(await runtime.result(id), "seat to Oslo, paid 5, None")
            with self.assertRaises(third.Fenced):
                attempt.run()

        asyncio.run(asyncio.wait_for(test(), support.LONG))
        self.assertEqual(made.count("seat to Oslo"), 2)  # an effect is executed at least once

    def test_a_handler_that_fails_and_a_worker_that_stops(self):
        tries = []

        def fails(attempt, argument):
            tries.append(argument)
            if len(tries) < 3:
                raise ValueError("no seat")
            return _book(attempt, argument)

        async def test():
            worker = self.other(fails)
            async with self.python(mine) as runtime:
                id = await runtime.send("Third/book", ["Oslo", "", 0.2], "fails")
                [attempt] = await asyncio.to_thread(worker.look)
                attempt.release()
                await asyncio.to_thread(worker.until, lambda: len(tries) == 2)
                self.assertEqual(await runtime.status(id), ("ready", "500 no seat"))
                await asyncio.to_thread(worker.until, self.ended(id))
                self.assertEqual(await runtime.result(id), "seat to Oslo, paid 5, None")
                hows = await runtime.rows("SELECT how FROM attempts WHERE invocation=? ORDER BY epoch", id)
                self.assertEqual([how for how, in hows][:3], ["released", "failed", "failed"])
            worker.leave()

        asyncio.run(asyncio.wait_for(test(), support.LONG))


if __name__ == "__main__":
    unittest.main()
