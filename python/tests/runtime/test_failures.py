"""What operators see of failures: the status `failed`, what is asked for by a filter, and the lines of the log."""

import asyncio
import functools
import logging
import pathlib
import time
import unittest
from unittest import mock

import support  # isort: skip
from palqytun.runtime import App, Context, Retry, Service, TerminalError, gather, operate
from palqytun.runtime.database import connect
from palqytun.runtime.database import postgres as server
from palqytun.runtime.database import schema
from palqytun.runtime.database.plain import Plain
from palqytun.runtime.filters import Filter
from palqytun.runtime.journal import failure, value
from palqytun.runtime.notes import Note
from support import Runtime

service = Service("Fails")
HERE = pathlib.Path(__file__).name
TWICE = Retry(initial=0.01, attempts=2, pause=True, jitter=0)


@service.handler()
async def refuses(ctx: Context, it):
    raise TerminalError("no such\naddress", 404)


@service.handler()
async def works(ctx: Context, it):
    return it


@service.handler(retry=TWICE)
async def breaks(ctx: Context, it):
    raise ValueError("a bug")  # the line that the log names


@service.handler(retry=Retry(initial=0.01, attempts=2))
async def gives_up(ctx: Context, it):
    raise ValueError("a bug")


@service.handler()
async def sends_to_nobody(ctx: Context, it):
    ctx.send("None/such", it)
    await ctx.run("one", lambda: 1)
    ctx.send("Fails/none", it, delay=60)
    return await ctx.call("None/such", it)


tries = []


def _unsteady():
    tries.append(1)
    if len(tries) < 3:
        raise OSError("not yet")  # the run's line
    return len(tries)


@service.handler()
async def runs(ctx: Context, it):
    return await gather(ctx.run("unsteady", _unsteady, retry=Retry(initial=0.01)))


@service.handler(retry=TWICE)
async def changes(ctx: Context, it):
    tries.append(1)
    if len(tries) == 1:
        await ctx.sleep(3600)
    await ctx.run("other", lambda: 1)  # replay meets a sleep here


@service.handler(retry=TWICE)
async def counts(ctx: Context, it):
    tries.append(1)
    await ctx.call(works, len(tries))  # each attempt gives another number
    await ctx.sleep(3600)


@service.handler(retry=TWICE)
async def returns_sooner(ctx: Context, it):
    tries.append(1)
    if len(tries) == 1:
        await ctx.sleep(3600)
    return 1


app = App(service)


def line(text):
    """The place of a line of this file, as the log names it."""
    [number] = [at for at, it in enumerate(pathlib.Path(__file__).read_text().splitlines(), 1) if text in it and "line(" not in it]
    return f"{HERE}:{number}"


def with_worker(test):
    @functools.wraps(test)
    def run(self):
        async def go():
            tries.clear()
            async with Runtime(app, self.url) as runtime:
                with self.assertLogs("palqytun", logging.INFO) as self.logged:
                    await test(self, runtime)

        asyncio.run(go())

    return run


@support.on_each_database
class Failures(support.OnADatabase):
    async def notes(self, id, count=1):
        """What the log says of an invocation, once it says so much. A note is logged after the commit that others see."""
        until = time.monotonic() + support.LONG
        while len(found := [it for it in self.logged.records if getattr(it, "invocation", None) == id]) < count:
            self.assertLess(time.monotonic(), until, found)
            await asyncio.sleep(0.01)
        return found

    @with_worker
    async def test_the_status(self, runtime):
        await asyncio.gather(*[runtime.call(f"Fails/{it}", 1) for it in ("refuses", "works", "gives_up")])
        rows = await runtime.engine.transact(operate.invocations)
        found = {it["handler"]: (it["status"], it["failed"], it["error"]) for it in rows}
        self.assertEqual(found["refuses"], ("failed", 404, "404 no such\naddress"))
        self.assertEqual(found["works"], ("done", None, None))
        self.assertEqual(found["gives_up"], ("failed", 500, "500 ValueError: a bug"))
        self.assertEqual({operate.error_of(it) for it in rows}, {"404 no such", "", "500 ValueError: a bug"})
        counted = await runtime.engine.transact(operate.by_status)
        self.assertEqual((counted["done"], counted["failed"]), (1, 2))

    @with_worker
    async def test_filters(self, runtime):
        await asyncio.gather(*[runtime.call(f"Fails/{it}", 1) for it in ("refuses", "works", "works", "gives_up")])
        rows = await runtime.engine.transact(operate.invocations)
        for asked, names in [
            (Filter(), ["gives_up", "refuses", "works", "works"]),
            (Filter(status="failed"), ["gives_up", "refuses"]),
            (Filter(status="done"), ["works", "works"]),
            (Filter(status="paused"), []),
            (Filter(handler="works", older=0), ["works", "works"]),
            (Filter(service="Fails", older=3600), []),
            (Filter(newer=3600, error="VALUEerror"), ["gives_up"]),
            (Filter(error="4%4"), []),
            (Filter(text=rows[0]["id"][5:].upper()), [rows[0]["handler"]]),
            (Filter(text="no such"), ["refuses"]),
            (Filter(before=rows[1]["seq"]), sorted(it["handler"] for it in rows[2:])),
            (Filter(after=rows[1]["seq"]), [rows[0]["handler"]]),
        ]:
            with self.subTest(asked):
                self.assertEqual(sorted(it["handler"] for it in await runtime.engine.transact(lambda db: operate.invocations(db, asked))), names)
        self.assertEqual(Filter.of({"status": "failed", "older": "3.5", "before": "7", "key": "", "other": "x"}), Filter(status="failed", older=3.5, before=7))
        self.assertEqual(Filter(older=3.5, before=7).given, {"older": "3.5", "before": "7"})
        for query in ({"status": "lost"}, {"older": "-1"}, {"older": "x"}, {"before": "-1"}, {"after": "1e3"}):
            with self.subTest(query), self.assertRaises(TerminalError) as refused:
                Filter.of(query)
            self.assertEqual(refused.exception.code, 400)

    @with_worker
    async def test_an_attempt_that_fails_and_a_pause_are_lines(self, runtime):
        id = await runtime.send("Fails/breaks", 1)
        await runtime.until(id, "paused")
        first, second = await self.notes(id, 2)
        self.assertRegex(first.getMessage(), rf"^Fails/breaks {id} attempt 1 failed, next in 0\.01 s: ValueError: a bug \(.*{line('the line that the log names')}\)$")
        self.assertRegex(second.getMessage(), rf"^Fails/breaks {id} attempt 2 failed, and it is paused until it is resumed: ValueError: a bug \(")
        self.assertEqual((first.levelname, first.event, first.handler, first.attempt, first.delay), ("WARNING", "attempt failed", "Fails/breaks", 1, 0.01))
        self.assertEqual((second.levelname, second.event), ("ERROR", "paused"))

    @with_worker
    async def test_an_end_by_a_failure_is_a_line(self, runtime):
        id = await runtime.send("Fails/refuses", 1)
        await runtime.result(id)
        [note] = await self.notes(id)
        self.assertEqual((note.levelname, note.getMessage()), ("INFO", f"Fails/refuses {id} failed: 404 no such"))

    @with_worker
    async def test_a_send_that_nobody_serves_is_a_line(self, runtime):
        id = await runtime.send("Fails/sends_to_nobody", 1)
        self.assertEqual((await runtime.result(id))[:1], (404,))
        rows = await runtime.rows("SELECT id, service, handler, status FROM invocations WHERE how='unserved' ORDER BY seq")
        self.assertEqual([row[1:] for row in rows], [("None", "such", "paused"), ("Fails", "none", "paused")])
        for sent, name, handler, _ in rows:
            [note] = await self.notes(sent)
            why = f"404 there is no handler {name}/{handler}, of this app or of a worker that is alive"
            self.assertEqual((note.levelname, note.event, note.handler, note.error), ("WARNING", "unserved", f"{name}/{handler}", why))
            self.assertEqual(note.getMessage(), f"{name}/{handler} {sent} waits for a worker that serves it: {why}")

    @with_worker
    async def test_a_run_that_fails_is_a_line(self, runtime):
        id = await runtime.send("Fails/runs", 1)
        self.assertEqual(await runtime.result(id), [3])
        notes = await self.notes(id, 2)
        self.assertEqual([(it.event, it.run, it.attempt) for it in notes], [("attempt failed", "unsteady", 1), ("attempt failed", "unsteady", 2)])
        self.assertRegex(notes[0].getMessage(), r"attempt 1 failed in the run 'unsteady', next in \d\.\d\d s: OSError: not yet \(.*" + line("the run's line"))

    @with_worker
    async def test_a_journal_that_is_not_the_handlers_is_a_line(self, runtime):
        id = await runtime.send("Fails/changes", 1)
        await runtime.until(id, "suspended")
        await runtime.engine.transact(lambda db: db.change("UPDATE timers SET due=0"))
        await runtime.until(id, "paused")
        [note] = await self.notes(id)
        self.assertEqual(note.event, "paused")
        said = "570 JOURNAL_MISMATCH: CommandTypeMismatchError: command 1 is recorded as Sleep, and the code makes Run 'other'"
        self.assertIn(f": {said} (", note.getMessage())
        self.assertTrue(note.where.endswith(line("replay meets a sleep here")), note.where)
        [row] = await runtime.engine.transact(lambda db: db.rows("SELECT error FROM invocations WHERE id=?", (id,)))
        self.assertEqual(row[0].partition("\n")[0], said)

    @with_worker
    async def test_what_differs_between_attempts_is_named(self, runtime):
        for handler, said in (
            ("counts", "570 JOURNAL_MISMATCH: CommandMismatchError: command 1, Call Fails/works, is recorded with parameter b'1', and the code gives b'2'"),
            ("returns_sooner", "570 JOURNAL_MISMATCH: CommandTypeMismatchError: command 1 is recorded as Sleep, and the code makes Output"),
        ):
            tries.clear()
            id = await runtime.send(f"Fails/{handler}", 1)
            while (found := await runtime.status(id))[0] != "paused":
                await runtime.engine.transact(lambda db: db.change("UPDATE timers SET due=0"))
                await asyncio.sleep(0.02)
            self.assertEqual(found[1].partition("\n")[0], said)

    def test_a_database_of_the_version_before(self):
        """What had ended then has its code."""
        if self.kind == "postgres":
            with Plain(self.url) as db:
                db.done(lambda to: _forgotten(to))
        with mock.patch.object(schema, "MIGRATIONS", schema.MIGRATIONS[:4]), mock.patch.object(server, "MIGRATIONS", schema.MIGRATIONS[:4]):
            with Plain(self.url) as db:
                sql = "INSERT INTO invocations(id, service, handler, key, exclusive, version, seed, status, due, entries, created, result, error)"
                for id, result in (("inv_1", failure(404, "x", [("k", "v")])), ("inv_2", value(b"1")), ("inv_3", OUTPUT), ("inv_4", None)):
                    done = "ready" if result is None else "done"
                    db.done(lambda to: to.change(f"{sql} VALUES (?, 'S', 'echo', '', 0, 7, 1, ?, 1, 1, 1, ?, 'before')", (id, done, result)))
        with Plain(self.url, lambda url: connect(url, migrates=True)) as db:
            found = db.done(lambda to: to.rows("SELECT id, failed, error FROM invocations ORDER BY id"))
        self.assertEqual([tuple(it) for it in found], [("inv_1", 404, "404"), ("inv_2", None, None), ("inv_3", 65535, "65535"), ("inv_4", None, "before")])


OUTPUT = bytes.fromhex("001d000000000000001c010000ffff00000000000000076e6f20737563680000000000000000")  # a failure with code 65535


async def _forgotten(db):
    """No tables any more."""
    for table in (*schema.TABLES, "schema_versions"):
        await db.change(f"DROP TABLE {table} CASCADE")


class Lines(unittest.TestCase):
    def test_a_note_of_what_never_began(self):
        self.assertEqual(str(Note("paused", "inv_1", "S/h", 0, "it can't be claimed")), "S/h inv_1 is paused until it is resumed: it can't be claimed")
        self.assertEqual(str(Note("attempt lost", "inv_1", "S/h", 3, "x", delay=0)), "S/h inv_1 attempt 3 was lost, next at once: x")


if __name__ == "__main__":
    unittest.main()
