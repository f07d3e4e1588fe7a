"""The two databases: migrations, errors, groups of operations, and workers that hear of each other."""

import asyncio
import contextlib
import struct
import time
import unittest
from unittest import mock

import support  # isort: skip
import runtime_app
from palqytun.runtime import App, Context, Service, TerminalError, committer, invocations, journal
from palqytun.runtime.committer import Committer, Stopped
from palqytun.runtime.database import Conflict, StatementFailed, Unsuitable, connect, schema
from palqytun.runtime.database.plain import Plain
from palqytun.runtime.database.sqlite import InUse
from palqytun.runtime.invocations import CLAIMED, Claimable, New
from palqytun.runtime.lease import Growth
from palqytun.runtime.outcome import Outcome
from support import Runtime


def rows(db, sql):
    return db.done(lambda to: to.rows(sql))


NEWEST = len(schema.MIGRATIONS)


def worker(url):
    return Plain(url, opened=lambda url: connect(url, worker=True))


class Files(support.InAFolder, unittest.TestCase):
    def test_a_database_lacks_some_migrations(self):
        url = str(self.folder / "db")
        Plain(url).close()
        patch = mock.patch.object(schema, "MIGRATIONS", [*schema.MIGRATIONS, "CREATE TABLE more(at {float});\nCREATE INDEX more_at ON more(at)"])
        patch.start()
        self.addCleanup(mock.patch.stopall)
        db, newest = worker(url), len(schema.MIGRATIONS)
        assert rows(db, "SELECT version FROM schema_versions ORDER BY version") == [(it,) for it in range(1, newest + 1)]
        assert rows(db, "SELECT * FROM more") == []
        db.close()
        Plain(url).close()
        patch.stop()
        with self.assertRaisesRegex(schema.NewerSchema, f"has schema version {newest}"):
            Plain(url)

    def test_a_database_of_an_older_package_is_refused(self):
        url = str(self.folder / "db")
        with mock.patch.object(schema, "MIGRATIONS", schema.MIGRATIONS[:2]):
            Plain(url).close()
        with self.assertRaisesRegex(schema.OlderSchema, "has schema version 2, and this package reads 3 and later"):
            Plain(url)

    def test_a_full_disk(self):
        """What is to be stored waits for room, and is stored then. Meanwhile the worker reads, and its session goes on."""

        async def go():
            async with Runtime(runtime_app.app, str(self.folder / "db")) as runtime:
                to = runtime.engine._committer
                allowed = to.db._connection.execute
                [[pages]] = allowed("PRAGMA page_count")
                allowed(f"PRAGMA max_page_count={pages}")  # a file of this size has no room for more
                with self.assertLogs("palqytun", "WARNING") as logged:
                    sent = [asyncio.create_task(runtime.call("S/echo", "x" * 100_000)) for _ in range(5)]
                    while to.counts["conflicts"] < 10:
                        await asyncio.sleep(0.01)
                self.assertEqual(sum("the database's disk is full" in it for it in logged.output), 1)
                self.assertEqual(await runtime.rows("SELECT COUNT(*) FROM invocations WHERE status='paused'"), [(0,)])
                allowed("PRAGMA max_page_count=1000000")
                self.assertEqual(await asyncio.gather(*sent), ["x" * 100_000] * 5)
                self.assertEqual(runtime.engine.counts["sessions"], 1)

        with mock.patch.object(committer, "_SAID", 2 * support.LONG):  # it is said once in this time
            asyncio.run(asyncio.wait_for(go(), support.LONG))

    def test_a_migration_that_fails_changes_nothing(self):
        url = str(self.folder / "db")
        Plain(url).close()
        patch = mock.patch.object(schema, "MIGRATIONS", [*schema.MIGRATIONS, "CREATE TABLE more(at {float});\nNO STATEMENT"])
        patch.start()
        self.addCleanup(mock.patch.stopall)
        with self.assertRaisesRegex(StatementFailed, "SQLITE_ERROR: near"):
            worker(url)
        patch.stop()
        db = Plain(url)
        assert rows(db, "SELECT COUNT(*) FROM sqlite_master WHERE name='more'") == [(0,)]

    def test_a_database_of_the_version_before(self):
        """It is migrated, with what it holds; what waits for something and has ended is removed."""
        url = str(self.folder / "db")
        with mock.patch.object(schema, "MIGRATIONS", schema.MIGRATIONS[:3]):
            with Plain(url) as db:
                sql = "INSERT INTO invocations(id, service, handler, key, exclusive, version, seed, status, due, entries, created)"
                db.change(f"{sql} VALUES ('inv_1', 'S', 'echo', '', 0, 7, 1, 'ready', 1, 1, 1), ('inv_2', 'W', 'main', 'k', 1, 7, 1, 'done', 1, 1, 1)")
                db.change("INSERT INTO promise_waiters VALUES ('W', 'k', 'p', 'inv_1', 1), ('W', 'k', 'p', 'inv_2', 1)")
        with worker(url) as db:
            self.assertEqual(db.rows("SELECT id, deaths, failures, failed_since FROM invocations WHERE status<>'done'"), [("inv_1", 0, 0, None)])
            self.assertEqual(db.rows("SELECT waiter FROM promise_waiters"), [("inv_1",)])

    def test_one_worker_a_file_by_whatever_name(self):
        (self.folder / "link").symlink_to(self.folder / "db")
        first = worker(str(self.folder / "db"))
        with self.assertRaises(InUse):
            worker(str(self.folder / "link"))
        first.close()

    def test_one_worker_a_file(self):
        first = worker(str(self.folder / "db"))
        with self.assertRaises(InUse):
            worker(str(self.folder / "db"))
        Plain(str(self.folder / "db")).close()
        first.close()
        worker(str(self.folder / "db")).close()

    def test_workers_in_memory_have_nothing_in_common(self):
        with contextlib.chdir(self.folder):
            for it in (worker(":memory:"), worker(":memory:")):
                it.close()
        self.assertEqual(list(self.folder.iterdir()), [])

    def test_a_file_that_is_no_database(self):
        (self.folder / "db").write_bytes(b"no database" * 1000)
        for opened in (Plain, worker, worker):  # the lock of a worker that wasn't made is given back
            with self.assertRaisesRegex(Unsuitable, "^.*/db is a file, and no SQLite database$"):
                opened(str(self.folder / "db"))
        with self.assertRaises(ValueError):
            Plain(f"{self.folder / 'other'}?synchronous=SOMETIMES")


@support.on_each_database
class Databases(support.OnADatabase):
    def test_operations_of_a_group(self):
        """One that fails is made alone, and those beside it are committed; one that is in others' way is made again."""

        async def go():
            committer = Committer(await connect(self.url))
            tries = []

            def insert(name):
                return lambda db: db.change("INSERT INTO workers VALUES (?, 0)", (name,))

            async def fails(db):
                await insert("fails")(db)
                raise TerminalError("no")

            async def conflicts(db):
                tries.append(1)
                await insert("conflicts")(db)
                if len(tries) < 4:
                    raise Conflict("later")
                return "done"

            answers = await asyncio.gather(
                *[committer.submit(it) for it in (insert("a"), fails, conflicts, insert("b"))], return_exceptions=True
            )
            assert answers[0] == 1 and isinstance(answers[1], TerminalError) and answers[2] == "done" and answers[3] == 1
            assert sorted(await committer.submit(lambda db: db.rows("SELECT id FROM workers"))) == [("a",), ("b",), ("conflicts",)]
            before = committer.counts["transactions"]
            await asyncio.gather(*[committer.submit(insert(str(n))) for n in range(100)])
            assert committer.counts["transactions"] - before <= 6
            await committer.close()
            with self.assertRaises(Stopped):
                await committer.submit(insert("late"))

        asyncio.run(go())

    def test_stores_of_a_group(self):
        """Each has its own fence: one whose lease is lost isn't stored, and those beside it are."""
        ids = [f"inv_{n}" for n in range(3)]
        frame = struct.pack(">HQQ3sI", 26, 15, 3, b"run", 1)

        async def claimed(db):
            for id in ids:
                await invocations.create(db, runtime_app.app, Outcome(), New("S", "echo", id=id))
            found = [Claimable(*row) for row in await db.rows(f"SELECT {CLAIMED} FROM invocations ORDER BY id")]
            await db.change("UPDATE invocations SET retries=3, failing_since=1.5")
            return await invocations.claim(db, "one", found)

        def grown(claim):
            growth = Growth(claim.lease)
            growth.store(frame + struct.pack(">HQIBQ2s", 5, 15, 1, 0, 2, b"ok"), 0)
            return growth

        async def go():
            committer = Committer(await connect(self.url))
            claims = await committer.submit(claimed)
            await committer.submit(lambda db: db.change("UPDATE invocations SET epoch=2 WHERE id=?", (ids[1],)))
            before = committer.counts["transactions"]
            assert await asyncio.gather(*[committer.append(grown(it)) for it in claims]) == [True, False, True]
            assert committer.counts["transactions"] == before + 1
            rows = await committer.submit(lambda db: db.rows("SELECT invocation, at, completes, frame FROM journal WHERE at>0 ORDER BY invocation, at"))
            completed = journal.completion(1, journal.value(b"ok"))
            assert [(id, at, done, bytes(it)) for id, at, done, it in rows] == [
                row for id in (ids[0], ids[2]) for row in ((id, 1, None, frame), (id, 2, 1, completed))
            ]
            rows = await committer.submit(lambda db: db.rows("SELECT entries, retries, failing_since FROM invocations ORDER BY id"))
            assert [tuple(row) for row in rows] == [(3, 0, None), (1, 3, 1.5), (3, 0, None)]
            # The same store again: the place isn't free any more, so it is fenced too.
            for it in claims:
                it.lease.journal.undo()
            assert await asyncio.gather(*[committer.append(grown(it)) for it in claims]) == [False, False, False]
            await committer.close()

        asyncio.run(go())

    def test_a_signal_to_nobody(self):
        async def go():
            async with Runtime(runtime_app.app, self.url) as runtime:
                assert not await runtime.engine.cancel("inv_none")
                assert not await runtime.engine.notify("inv_none", journal.named_signal("go", journal.void()))
                assert await runtime.engine.result("inv_none") is None

        asyncio.run(go())


class Servers(support.OnADatabase, unittest.TestCase):
    kind = "postgres"

    def test_workers_hear_of_each_other(self):
        """Each step needs the other worker, and neither looks at the database by itself while this lasts."""
        url = self.url
        first, second = Service("First"), Service("Second")

        @first.handler()
        async def asks(ctx: Context, n: int) -> int:
            return sum([await ctx.call("Second/answers", n) for _ in range(3)])

        @second.handler()
        async def answers(ctx: Context, n: int) -> int:
            return n + 1

        async def go():
            async with Runtime(App(first, second), url, poll=3000, idle=0.5) as one, Runtime(App(first, second), url, poll=3000, idle=0.5) as two:
                begun = time.monotonic()
                ids = [await (one if n % 2 else two).send("First/asks", n) for n in range(10)]
                results = [await (two if n % 2 else one).result(id) for n, id in enumerate(ids)]
                assert results == [3 * (n + 1) for n in range(10)]
                id = await one.send("First/asks", 1)
                assert await two.result(id) == 6
                assert time.monotonic() - begun < 2000

        asyncio.run(go())

    def test_a_lost_connection_is_made_again(self):
        url = self.url

        async def go():
            async with Runtime(runtime_app.app, url, lease=30) as runtime:
                runtime_app.seen.clear()
                id = await runtime.send("S/waits")
                while not runtime_app.seen:
                    await asyncio.sleep(0.01)
                other = await connect(url)
                await other.rows("SELECT pg_terminate_backend(pid) FROM pg_stat_activity WHERE datname=current_database() AND pid<>pg_backend_pid()")
                other.close()
                while runtime.engine.counts["sessions"] < 2:
                    await asyncio.sleep(0.05)
                assert await runtime.call("S/echo", 1) == 1
                assert await runtime.engine.cancel(id)
                assert (await runtime.result(id))[:2] == (409, "cancelled")

        asyncio.run(go())

    def test_an_unreachable_database(self):
        async def go():
            runtime = Runtime(runtime_app.app, "postgresql://postgres@127.0.0.1:1/none")
            task = asyncio.create_task(runtime.engine.run())
            await asyncio.sleep(0.5)
            with self.assertRaises(TerminalError) as caught:
                await runtime.send("S/echo", 1)
            assert caught.exception.code == 503
            runtime.engine.stop()
            await asyncio.wait_for(task, support.LONG)

        asyncio.run(go())


if __name__ == "__main__":
    unittest.main()
