"""A PostgreSQL server that hurts: it restarts, ends sessions and statements, has locks of others, a full disk, or may only be read."""

import asyncio
import contextlib
import os
import pathlib
import re
import subprocess
import sys
import time
import unittest
from unittest import mock

import support  # isort: skip
import needs
import postgres
import runtime_app
from palqytun.runtime import App, Client, Context, Service, Transaction, Unavailable, committer, transactions
from palqytun.runtime.committer import Committer
from palqytun.runtime.database import Conflict, Full, Lost, StatementFailed, connect
from palqytun.runtime.database.plain import Plain
from palqytun.runtime.invocations import New
from postgres import with_settings
from support import Runtime

service = Service("Servers")
app = App(service)


async def nothing() -> int:
    return 1


@service.handler()
async def steps(ctx: Context, count: int) -> int:
    return sum([await ctx.run("step", nothing) for _ in range(count)])


async def slow() -> int:
    await asyncio.sleep(0.1)
    return 1


@service.handler()
async def slowly(ctx: Context, count: int) -> int:
    return sum([await ctx.run("step", slow) for _ in range(count)])


@contextlib.asynccontextmanager
async def two(url):
    """Two connections."""
    one, other = await connect(url), await connect(url)
    try:
        yield one, other
    finally:
        one.close()
        other.close()


class Errors(unittest.TestCase):
    def setUp(self):
        if lacks := needs.lacks_module("psycopg"):
            self.skipTest(lacks)

    def test_by_their_sqlstate(self):
        from palqytun.runtime.database.pipeline import named_by

        kinds = {
            Lost: ("08006", "08P01", "57P01", "57P02", "57P03", "", None),
            Conflict: ("40001", "40P01", "55P03", "57014", "25006", "53300"),
            Full: ("53100",),
            StatementFailed: ("54000", "53200", "22021", "23505", "42601", "42P01", "XX000", "P0001"),
        }
        for kind, states in kinds.items():
            for state in states:
                self.assertIs(type(named_by(state, "text")), kind, state)


class OnAServer(support.OnADatabase, unittest.TestCase):
    kind = "postgres"

    def test_a_statement_that_takes_too_long(self):
        """It is ended by the server, the connection stays, and the operation is made again."""
        tries = []

        async def slow(db):
            tries.append(1)
            await db.rows("SELECT pg_sleep(?::float8)", (20.0 if len(tries) < 3 else 0.0,))
            return "done"

        async def go():
            to = Committer(await connect(with_settings(self.url, {"statement_timeout": "1s"})))
            self.assertEqual(await asyncio.wait_for(to.submit(slow), support.LONG), "done")
            self.assertGreaterEqual(len(tries), 3)
            self.assertIsNone(to.lost)
            await to.close()

        asyncio.run(go())

    def test_a_row_that_another_has_locked(self):
        """Who needs it waits, and nobody else: neither those of its group, nor other operations, nor beats."""
        with Plain(self.url) as db:
            db.change("INSERT INTO state VALUES ('S', 'k', 'locked', '1')")

        async def go():
            async with two(self.url) as (outside, _):
                async with Runtime(runtime_app.app, self.url, lease=3) as runtime:
                    await outside.begin()
                    await outside.rows("SELECT * FROM state WHERE name='locked' FOR UPDATE")
                    submit = runtime.engine._committer.submit
                    beside = [submit(lambda db, n=n: db.change("INSERT INTO state VALUES ('S', 'k', ?, '1')", (f"beside {n}",))) for n in range(5)]
                    many = [submit(lambda db: db.change("UPDATE state SET value='2' WHERE name='locked'")) for _ in range(8)]
                    waits = asyncio.gather(*many)
                    await asyncio.wait_for(asyncio.gather(*beside), support.LONG)
                    end = time.monotonic() + 4
                    while time.monotonic() < end:
                        self.assertEqual(await runtime.call("S/echo", 1), 1)
                    while await runtime.rows(f"SELECT COUNT(*) FROM workers WHERE lease>{outside.clock}") != [(1,)]:
                        await asyncio.sleep(0.1)
                    self.assertFalse(waits.done())
                    await outside.rollback()
                    self.assertEqual(await asyncio.wait_for(waits, support.LONG), [1] * 8)
                    self.assertEqual(runtime.engine.counts["sessions"], 1)

        asyncio.run(go())

    def test_a_worker_has_six_connections_at_most(self):
        """Those for transactions, which are all at work, one that listens, and one for the lease."""
        counted = "SELECT COUNT(*) FROM pg_stat_activity WHERE application_name='counted'"

        async def slow(db):
            [(count,)] = await db.rows(counted)
            await db.rows("SELECT pg_sleep(0.5)")
            return count

        async def go():
            async with Runtime(runtime_app.app, with_settings(self.url, {"application_name": "counted"})) as runtime:
                found = await asyncio.gather(*[runtime.engine._committer.submit(slow, is_slow=True) for _ in range(24)])
                [(after,)] = await runtime.rows(counted)
                self.assertLessEqual(max(*found, after), 6)
                self.assertGreaterEqual(after, 3)

        asyncio.run(go())

    def test_a_reader_that_is_taken_away(self):
        """Somebody else has removed the reader of a connection's socket from the loop: its group goes on, and so does the worker."""

        used = []

        async def slow(db):
            await db.change("SET LOCAL lock_timeout=0")
            used.append(db._pipeline._pg.socket)
            return await db.rows("SELECT pg_advisory_xact_lock(7), 7")

        async def go():
            async with two(self.url) as (outside, _), Runtime(runtime_app.app, self.url) as runtime:
                await outside.rows("SELECT pg_advisory_lock(7)")
                waits = runtime.engine._committer.submit(slow, is_slow=True)
                while not (used and asyncio.get_running_loop().remove_reader(used[0])):
                    await asyncio.sleep(0.001)
                await outside.rows("SELECT pg_advisory_unlock(7)")
                self.assertEqual((await asyncio.wait_for(waits, support.LONG))[0][1], 7)
                self.assertEqual(await runtime.call("S/echo", 1), 1)
                self.assertEqual(runtime.engine.counts["sessions"], 1)

        asyncio.run(go())

    def test_no_connection_beside_a_slow_group(self):
        """The server has none to give, again and again, while groups are slow: the worker goes on."""

        async def none():
            await asyncio.sleep(0.05)
            raise Conflict("53300: sorry, too many clients already")

        async def go():
            async with Runtime(runtime_app.app, self.url) as runtime:
                submit, db = runtime.engine._committer.submit, runtime.engine._committer.db
                with mock.patch.object(db, "another", none), mock.patch.object(committer, "_WITHOUT", 0.0):
                    for n in range(10):
                        slow = submit(lambda db: db.rows("SELECT pg_sleep(0.08)"))
                        self.assertEqual(await runtime.call("S/echo", n), n)
                        await slow
                self.assertEqual(runtime.engine.counts["sessions"], 1)

        asyncio.run(go())

    def test_a_transaction_that_takes_too_long(self):
        """Its statement is ended, and nobody else is: the session goes on, and what runs beside it is executed once."""
        handlers, tries, beside = Service("Long"), [], []

        async def slow(to: Transaction) -> int:
            tries.append(1)
            await to.rows("SELECT pg_sleep(?)", 3600.0 if len(tries) < 3 else 0.0)
            return len(tries)

        @handlers.handler()
        async def stores(ctx: Context, it: object) -> int:
            return await ctx.transaction("slow", slow)

        async def effect() -> None:
            beside.append(1)
            while len(tries) < 3:
                await asyncio.sleep(0.01)

        @handlers.handler()
        async def runs(ctx: Context, it: object) -> None:
            await ctx.run("effect", effect)

        async def go():
            async with Runtime(App(handlers), self.url, idle=600) as runtime:
                self.enterContext(mock.patch("palqytun.runtime.database.pipeline._DRAINING", support.LONG))
                with mock.patch.object(transactions, "LASTS", 0.5):
                    ids = [await runtime.send("Long/runs"), await runtime.send("Long/stores")]
                    self.assertGreaterEqual(await runtime.result(ids[1]), 3)
                    self.assertIsNone(await runtime.result(ids[0]))
                self.assertEqual((runtime.engine.counts["sessions"], len(beside)), (1, 1))

        asyncio.run(go())

    def test_a_slow_statement_stops_nobody(self):
        async def slow(db):
            await db.change("SET LOCAL lock_timeout=0")
            await db.rows("SELECT pg_advisory_xact_lock(7)")

        async def go():
            async with two(self.url) as (outside, _), Runtime(runtime_app.app, self.url) as runtime:
                await outside.rows("SELECT pg_advisory_lock(7)")
                waits = runtime.engine._committer.submit(slow, is_slow=True)
                self.assertEqual([await runtime.call("S/echo", n) for n in range(3)], [0, 1, 2])
                self.assertFalse(waits.done())
                await outside.rows("SELECT pg_advisory_unlock(7)")
                await asyncio.wait_for(waits, support.LONG)

        asyncio.run(go())

    def test_a_deadlock(self):
        """Two workers take two rows, each in another order. Both get them."""
        with Plain(self.url) as db:
            db.many("INSERT INTO workers VALUES (?, 0)", [("a",), ("b",)])
            db.change("SELECT 1")

        have = set()

        def both(first, second):
            async def operation(db):
                await db.change("UPDATE workers SET lease=lease+1 WHERE id=?", (first,))
                have.add(first)
                while len(have) < 2:
                    await asyncio.sleep(0.01)
                await db.change("UPDATE workers SET lease=lease+1 WHERE id=?", (second,))

            return operation

        async def go():
            url = with_settings(self.url, {"deadlock_timeout": "100ms"})
            one, other = Committer(await connect(url)), Committer(await connect(url))
            await asyncio.wait_for(asyncio.gather(one.submit(both("a", "b")), other.submit(both("b", "a"))), support.LONG)
            self.assertEqual(await one.submit(lambda db: db.rows("SELECT id, lease FROM workers ORDER BY id")), [("a", 2.0), ("b", 2.0)])
            self.assertGreater(one.counts["conflicts"] + other.counts["conflicts"], 0)
            await one.close()
            await other.close()

        asyncio.run(go())

    def test_a_connection_that_listens_is_made_again(self):
        async def go():
            async with two(self.url) as (one, other):
                words = []
                end = await one.listen("listener", words.append)
                await other.rows("SELECT pg_terminate_backend(pid) FROM pg_stat_activity WHERE query LIKE 'LISTEN%' AND pid<>pg_backend_pid()")
                until = time.monotonic() + support.LONG
                while "ready" not in words and time.monotonic() < until:
                    await asyncio.sleep(0.05)
                await other.begin()
                other.notify("ended inv_1")
                await other.commit()
                while "ended inv_1" not in words and time.monotonic() < until:
                    await asyncio.sleep(0.05)
                self.assertEqual(words, ["ready", "ended inv_1"])
                end()

        asyncio.run(go())

    def test_a_busy_loop_is_no_dead_worker(self):
        """The thread keeps the lease, while the event loop does nothing for it."""

        async def go():
            async with Runtime(runtime_app.app, self.url, lease=2) as runtime:
                beats, begun, beat = runtime.engine._beats, time.monotonic(), set()
                while len(beat) < 4 and time.monotonic() < begun + support.LONG:
                    time.sleep(0.1)
                    beat.add(beats.last)
                self.assertEqual(len(beat), 4)
                [worker] = {it for it, in await runtime.rows("SELECT id FROM workers")}
                await runtime.rows("SELECT 1 FROM workers FOR UPDATE")
                await runtime.engine.transact(lambda db: db.change("DELETE FROM workers"))  # it was thought dead
                while not (found := await runtime.rows("SELECT id FROM workers")):
                    await asyncio.sleep(0.05)
                self.assertEqual(found, [(worker,)])

        asyncio.run(go())


class OwnCluster(unittest.TestCase):
    """A server of its own, which the test may hurt."""

    def setUp(self):
        if lacks := needs.lacks_postgres():
            self.skipTest(lacks)
        self.cluster = self.enterContext(postgres.cluster({"restart_after_crash": "on"}))

    async def ended(self, runtime, count):
        until = time.monotonic() + support.LONG
        while time.monotonic() < until:
            with contextlib.suppress(Exception):  # the database is away
                if (await runtime.rows("SELECT COUNT(*) FROM invocations WHERE status='done'")) == [(count,)]:
                    return await runtime.rows("SELECT COUNT(*) FROM journal")
            await asyncio.sleep(0.1)
        raise AssertionError(await runtime.rows("SELECT id, status, error FROM invocations WHERE status<>'done'"))

    def test_restarts(self):
        """Fast and immediate, in the middle of the work: each step is stored once, and each workflow ends."""

        async def go():
            async with Runtime(app, self.cluster.url, lease=5) as runtime:
                for n in range(10):
                    await runtime.send("Servers/steps", 30)
                for mode in ("fast", "immediate"):
                    await asyncio.to_thread(self.cluster.restart, mode)
                    await asyncio.wait_for(runtime.engine.is_open(), support.LONG)
                self.assertEqual(await self.ended(runtime, 10), [(10 * (2 + 2 * 30),)])
                self.assertGreater(runtime.engine.counts["sessions"], 1)

        asyncio.run(go())

    def test_a_standby_as_the_database(self):
        """A worker is refused in one line, which says what is wanted, and claims nothing."""
        with postgres.standby(self.cluster) as standby:
            app = pathlib.Path(__file__).parent / "runtime_app.py"
            words = [sys.executable, "-m", "palqytun", "run", str(app), "--db", standby.url, "--port", "-1", "--wait-for-database", "15"]
            ran = subprocess.run(words, capture_output=True, text=True, timeout=support.LONG)
        self.assertEqual((ran.returncode, ran.stdout), (2, ""))
        wanted = r"palqytun: the database postgresql://\S+ can't be opened: a worker has to write, and this session may only read: the server is a standby, or"
        lines = [it for it in ran.stderr.splitlines() if re.match(wanted, it)]
        self.assertEqual(len(lines), 1, ran.stderr)
        [line] = lines
        self.assertTrue(line.endswith("name the primary, or all servers and target_session_attrs=read-write"), line)

    def test_a_database_that_may_only_be_read(self):
        """What is to be stored waits until it may be written again, by the same sessions."""

        def only_reads(value):
            with Plain(self.cluster.url) as db:
                db.change(f"ALTER SYSTEM SET default_transaction_read_only={value}")
                db.change("SELECT pg_reload_conf()")

        async def go():
            async with Runtime(runtime_app.app, self.cluster.url) as runtime:
                self.assertEqual(await runtime.call("S/echo", 1), 1)
                await asyncio.to_thread(only_reads, "on")
                while await runtime.rows("SELECT current_setting('transaction_read_only')") != [("on",)]:
                    await asyncio.sleep(0.05)
                waits = asyncio.create_task(runtime.call("S/echo", 2))
                await asyncio.sleep(1.5)
                self.assertFalse(waits.done())
                await asyncio.to_thread(only_reads, "off")
                self.assertEqual(await asyncio.wait_for(waits, support.LONG), 2)
                self.assertEqual(runtime.engine.counts["sessions"], 1)

        asyncio.run(go())

    def test_a_full_disk(self):
        """That of the journal: a small file system. What is to be stored waits for room, and no invocation is paused."""
        place = self.cluster.folder / "small"
        place.mkdir()
        words = ["mount", "-t", "tmpfs", "-o", "size=4m", "palqytun", str(place)]
        if os.geteuid() != 0 or subprocess.run(words, capture_output=True).returncode:
            self.skipTest("a small file system can't be mounted")
        self.addCleanup(subprocess.run, ["umount", "-l", str(place)], check=False)
        self.cluster.owned(place)
        with Plain(self.cluster.url) as db:
            db.change(f"CREATE TABLESPACE small LOCATION '{place}'")
            db.change("ALTER TABLE journal SET TABLESPACE small")
        filler = place / "filler"

        def fill():
            with filler.open("wb", buffering=0) as file, contextlib.suppress(OSError):
                while True:
                    file.write(bytes(65536))

        async def go():
            async with Runtime(app, self.cluster.url, lease=5) as runtime:
                ids = [await runtime.engine.submit(New("Servers", "steps", argument=b"20")) for _ in range(5)]
                fill()
                sent = [asyncio.create_task(runtime.engine.submit(New("Servers", "steps", argument=b"300"))) for _ in range(10)]
                until = time.monotonic() + support.LONG
                while not (conflicts := runtime.engine._committer.counts["conflicts"]) and time.monotonic() < until:
                    await asyncio.sleep(0.05)
                self.assertGreater(conflicts, 0)
                filler.unlink()
                for id in [*ids, *await asyncio.wait_for(asyncio.gather(*sent), support.LONG)]:
                    self.assertIn(await runtime.result(id), (20, 300))
                self.assertEqual(runtime.engine.counts["sessions"], 1)

        asyncio.run(go())


class Wire:
    """A connection between a worker and its server that may stop: what either of them says is kept, as by a network that is away."""

    def __init__(self, url):
        import psycopg

        parts = psycopg.conninfo.conninfo_to_dict(url)
        host, port = parts["host"], parts.get("port", 5432)
        self._there = (lambda: asyncio.open_unix_connection(f"{host}/.s.PGSQL.{port}")) if host.startswith("/") else (lambda: asyncio.open_connection(host, port))
        self._parts, self._goes, self._tasks = parts, asyncio.Event(), set()
        self._goes.set()

    async def url(self):
        """The server's address by this wire."""
        self._server = await asyncio.start_server(self._begun, "127.0.0.1", 0)
        return f"postgresql://{self._parts['user']}@127.0.0.1:{self._server.sockets[0].getsockname()[1]}/{self._parts['dbname']}"

    def stop(self):
        self._goes.clear()

    def go(self):
        self._goes.set()

    def end(self):
        self._server.close()
        for task in self._tasks:
            task.cancel()

    async def _begun(self, reader, writer):
        try:
            from_there, to_there = await self._there()
        except OSError:
            writer.close()
            return
        for one, other in ((reader, to_there), (from_there, writer)):
            task = asyncio.create_task(self._carried(one, other))
            self._tasks.add(task)
            task.add_done_callback(self._tasks.discard)

    async def _carried(self, reader, writer):
        with contextlib.suppress(OSError):
            while data := await reader.read(1 << 16):
                await self._goes.wait()
                writer.write(data)
                await writer.drain()
        writer.close()


class Networks(support.OnADatabase, unittest.TestCase):
    kind = "postgres"

    async def again(self, runtime):
        """A call of a worker, which is made again until it has its database. The server may have ended its session while it wasn't heard of."""
        while True:
            with contextlib.suppress(Unavailable):
                return await runtime.call("Servers/slowly", 2)
            await asyncio.sleep(0.1)

    def test_a_network_that_stops(self):
        """Another worker goes on with what the one has that nobody hears of. Once it is heard of again it is fenced, and works as before."""

        async def go():
            wire, begun = Wire(self.url), time.monotonic()
            async with Runtime(app, await wire.url(), lease=1.5, idle=60) as far:
                id = await far.send("Servers/slowly", 40)
                while (await far.rows("SELECT entries FROM invocations WHERE id=?", id))[0][0] < 8:
                    await asyncio.sleep(0.02)
                async with Runtime(app, self.url, lease=1.5, idle=60) as near:
                    wire.stop()
                    self.assertEqual(await near.result(id), 40)
                    self.assertGreater(time.monotonic() - begun, 1.5)
                    [(epoch,)] = await near.rows("SELECT epoch FROM invocations WHERE id=?", id)
                    self.assertGreaterEqual(epoch, 2)
                    [(commands, completions)] = await near.rows("SELECT COUNT(*) FILTER (WHERE completes IS NULL), COUNT(completes) FROM journal WHERE invocation=?", id)
                    self.assertEqual((commands, completions), (42, 40))  # with the input and the output
                    wire.go()
                    self.assertEqual(await asyncio.wait_for(self.again(far), support.LONG), 2)
            wire.end()

        asyncio.run(asyncio.wait_for(go(), 2 * support.LONG))

    def test_a_worker_and_a_client_that_end_while_it_stops(self):
        """Each part of their end has its limit, also a claim that is never answered."""

        async def go():
            wire = Wire(self.url)
            url = await wire.url()
            far, client = Runtime(app, url, grace=0.1, idle=60), Client(app, url)
            await far.__aenter__()
            await client.__aenter__()
            waits = asyncio.create_task(client.call("Servers/slowly", 1000))
            while not far.engine.live:
                await asyncio.sleep(0.02)
            wire.stop()
            await asyncio.sleep(0.5)
            begun = time.monotonic()
            await asyncio.gather(far.__aexit__(), client.__aexit__())
            self.assertLess(time.monotonic() - begun, support.LONG / 2)
            with self.assertRaises(Unavailable):
                await waits
            wire.end()

        asyncio.run(asyncio.wait_for(go(), support.LONG))


class Pipelines(support.OnADatabase, unittest.TestCase):
    """Statements over one connection."""

    kind = "postgres"

    def test_statements_that_are_made_often_are_prepared(self):
        async def go():
            db = await connect(self.url)
            for n in range(5):
                await db.begin()
                db.put("INSERT INTO workers VALUES (?, ?)", (str(n), float(n)))
                self.assertEqual((await db.rows("SELECT MAX(lease) FROM workers"))[0][0], n)
                await db.commit()
            prepared = {it for it, in await db.rows("SELECT statement FROM pg_prepared_statements")}
            self.assertIn("INSERT INTO workers VALUES ($1, $2)", prepared)
            db.close()

        asyncio.run(go())

    def test_arrays_without_a_value_have_their_type(self):
        async def go():
            db = await connect(self.url)
            sql = "SELECT * FROM unnest(?::bigint[], ?::bytea[], ?::text[], ?::boolean[])"
            self.assertEqual(await db.rows(sql, ([None], [None], [None], [None])), [(None, None, None, None)])
            self.assertEqual(await db.rows(sql, ([], [], [], [])), [])
            self.assertEqual(await db.rows(sql, ([None, 2], [b"", None], ["a", None], [None, True])), [(None, b"", "a", None), (2, None, None, True)])
            db.close()

        asyncio.run(go())

    def test_one_that_fails_when_it_is_prepared(self):
        """And those behind it that weren't prepared then are later."""

        async def go():
            db = await connect(self.url)
            for _ in range(5):
                await db.begin()
                db.put("SELECT no FROM nothing")
                db.put("SELECT 1 FROM workers WHERE id=?", ("x",))
                with self.assertRaisesRegex(StatementFailed, "42P01"):
                    await db.commit()
                await db.rollback()
            await db.change("CREATE TEMP TABLE nothing(no INTEGER)")
            for _ in range(5):
                self.assertEqual(await db.rows("SELECT no FROM nothing"), [])
                self.assertEqual(await db.rows("SELECT 1 FROM workers WHERE id=?", ("x",)), [])
            db.close()

        asyncio.run(go())

    def test_a_statement_that_is_given_up(self):
        """The server ends it, and the connection is as before: also if statements were prepared beside it, or it was all that was sent."""

        async def go():
            async with two(self.url) as (db, other):
                for n in range(5):
                    await db.begin()
                    db.put("INSERT INTO workers VALUES (?, 0)", (f"{n}",))
                    with self.assertRaises(asyncio.TimeoutError):
                        await asyncio.wait_for(db.rows("SELECT pg_sleep(3600)"), 0.2)
                    await db.rollback()
                    self.assertEqual(await db.rows("SELECT COUNT(*) FROM workers"), [(0,)])
                self.assertEqual(await other.rows("SELECT pid FROM pg_stat_activity WHERE query LIKE '%pg_sleep(3600)%' AND state='active' AND pid<>pg_backend_pid()"), [])

        asyncio.run(asyncio.wait_for(go(), support.LONG))

    def test_a_server_that_does_not_end_what_is_given_up(self):
        async def go():
            async with two(self.url) as (db, other):
                [(process,)] = await db.rows("SELECT pg_backend_pid()")
                with self.assertRaises(asyncio.TimeoutError):
                    await asyncio.wait_for(db.rows("SELECT pg_sleep(1800)"), 0.2)
                from palqytun.runtime.database import pipeline  # where psycopg is missing, this is skipped

                no_cancel = mock.patch.object(pipeline, "_apart", lambda cancel: asyncio.sleep(0))
                with no_cancel, mock.patch.object(pipeline, "_DRAINING", 0.2), self.assertRaises(Lost):
                    await db.rows("SELECT 1")
                await other.rows("SELECT pg_terminate_backend(?::int)", (process,))

        asyncio.run(asyncio.wait_for(go(), support.LONG))

    def test_no_further_connection(self):
        """The server has no room for one: what there is goes on."""

        async def go():
            to = Committer(await connect(self.url))
            tried = asyncio.Event()

            async def another():
                tried.set()
                raise Conflict("too many")

            async def waits(db):
                await tried.wait()
                await db.rows("SELECT pg_sleep(0.2)")

            with mock.patch.object(to.db, "another", another), self.assertLogs("palqytun") as said:
                slow = to.submit(waits)
                while to._queue:
                    await asyncio.sleep(0)
                self.assertEqual(await to.submit(lambda db: db.rows("SELECT 1")), [(1,)])
                self.assertTrue(slow.done())
            self.assertIn("too many", said.output[0])
            await to.close()

        asyncio.run(go())


if __name__ == "__main__":
    unittest.main()
