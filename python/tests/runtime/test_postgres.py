"""The driver of PostgreSQL: no thread waits, the event loop goes on, and what the server doesn't answer is `Lost`."""

import asyncio
import contextlib
import os
import random
import socket
import struct
import threading
import time
import unittest
import urllib.parse
from unittest import mock

import support  # isort: skip
import needs
import runtime_app
from palqytun.runtime import App, Context, Service, VirtualObject, desk, inbox, invocations, journal
from palqytun.runtime.claiming import Claimer
from palqytun.runtime.committer import After
from palqytun.runtime.database import Each, Lost, Reading, Unsuitable, connect, pipeline, postgres
from palqytun.runtime.database.plain import Plain
from palqytun.runtime.invocations import New
from palqytun.runtime.lease import Growth
from palqytun.runtime.outcome import Outcome
from postgres import with_settings
from support import Runtime

service, account = Service("Postgres"), VirtualObject("Account")
LEVELS = ("read committed", "repeatable read", "serializable")
# Defaults of a server that would hurt, or that change how values are written; and what a session has in their place.
HOSTILE = {
    "default_transaction_isolation": ("serializable", "read committed"),
    "default_transaction_deferrable": ("on", "on"),  # it says nothing of transactions that may write
    "statement_timeout": ("20s", "0"),
    "lock_timeout": ("20s", "1s"),
    "idle_session_timeout": ("20s", "0"),
    "extra_float_digits": ("-15", "-15"),
    "synchronous_commit": ("off", "on"),
    "client_encoding": ("LATIN1", "UTF8"),
    "standard_conforming_strings": ("off", "off"),
    "bytea_output": ("escape", "escape"),
    "DateStyle": ("German", "German, DMY"),
    "TimeZone": ("Asia/Kathmandu", "Asia/Kathmandu"),
}


@service.handler()
async def collects(ctx: Context, count: int) -> list[int]:
    return [await ctx.signal("go", int) for _ in range(count)]


@service.handler()
async def ends(ctx: Context, n: int) -> int:
    await ctx.run("a moment", asyncio.sleep, random.random() * 0.03)
    return n


@service.handler()
async def calls(ctx: Context, count: int) -> int:
    for n in range(count):
        await ctx.call(ends, n)
    return count


opened = threading.Event()


async def opens() -> None:
    while not opened.is_set():
        await asyncio.sleep(0.01)


@service.handler()
async def waits(ctx: Context, n: int) -> int:
    await ctx.run("waits", opens)
    return n


@service.handler()
async def steps(ctx: Context, count: int) -> int:
    for n in range(count):
        await ctx.run("step", lambda: 1)
    return count


@service.handler()
async def attaches(ctx: Context, id: str) -> int:
    return await ctx.attach(id, int)


@account.handler()
async def add(ctx: Context, amount: int) -> int:
    ctx.set("money", (await ctx.get("money", int) or 0) + amount)
    return amount


async def signalled(db, id, number):
    """A signal to an invocation, by a connection that is no worker's."""
    await db.begin()
    await inbox.deliver(db, Outcome(), id, journal.named_signal("go", journal.value(str(number).encode())))
    await db.commit()


async def quiet(db, *runtimes):
    """Until whoever was woken has looked: each worker has heard what was said so far, and makes no transaction for a while. `db` is no worker's."""
    with contextlib.ExitStack() as stack:
        heard = [stack.enter_context(it.engine.told_of("nobody")) for it in runtimes]
        await db.begin()
        db.notify("ended nobody")
        await db.commit()
        await asyncio.wait_for(asyncio.gather(*heard), support.LONG)  # words come in their order
    before, same = None, 0
    while same < 5:
        await asyncio.sleep(0.2)
        made = [it.engine._committer for it in runtimes]
        counts = [it.counts["transactions"] for it in made]
        before, same = counts, same + 1 if counts == before and not any(it._working or it._queue for it in made) else 0


class OnAServer(support.OnADatabase, unittest.TestCase):
    kind = "postgres"

    def run_with(self, test):
        """Runs a test with a connection."""

        async def go():
            db = await connect(self.url)
            try:
                await test(db)
            finally:
                db.close()

        asyncio.run(go())

    def test_the_event_loop_goes_on(self):
        async def test(db):
            """What a statement waits for is done by the loop meanwhile."""
            threads, other = threading.active_count(), await connect(self.url)
            await other.rows("SELECT pg_advisory_lock(7)")
            await db.change("SET lock_timeout=0")
            waits = asyncio.create_task(db.rows("SELECT pg_advisory_lock(7), 7"))
            waiting = "SELECT 1 FROM pg_locks WHERE locktype='advisory' AND NOT granted"
            while not await other.rows(waiting):
                await asyncio.sleep(0.01)
            await other.rows("SELECT pg_advisory_unlock(7)")
            self.assertEqual((await asyncio.wait_for(waits, support.LONG))[0][1], 7)
            self.assertEqual(threading.active_count(), threads)
            other.close()

        self.run_with(test)

    def test_more_than_a_socket_holds(self):
        """Both ways: the statement is sent and the answer is read in parts."""

        async def test(db):
            data = os.urandom(1_000_000) * 20
            [(found,)] = await db.rows("SELECT ?::bytea", (data,))
            self.assertEqual(bytes(found), data)

        self.run_with(test)

    def test_statements_are_made_in_order_however_many_are_queued(self):
        count = 601

        async def test(db):
            await db.begin()
            db.many("INSERT INTO workers VALUES (?, ?)", [(f"{n:04d}", n) for n in range(count)])
            db.put("DELETE FROM workers WHERE id<?", ("0100",))
            self.assertEqual(await db.change("UPDATE workers SET lease=0"), count - 100)
            db.put("DELETE FROM workers WHERE id='0100'")
            await db.commit()
            self.assertEqual(await db.rows("SELECT COUNT(*), MIN(id) FROM workers"), [(count - 101, "0101")])

        self.run_with(test)

    def test_a_late_reply_does_not_set_the_clock(self):
        async def test(db):
            async def told(late):
                asked = time.monotonic()
                [(now,)] = await db.rows(f"SELECT {db.clock}")
                time.sleep(late)  # the loop is held before it can handle the reply
                db.told(now, asked)
                return now

            for _ in range(20):
                await told(0.0)  # one of these replies came at once
            before = db.now() - time.monotonic()
            now = await told(0.5)
            self.assertAlmostEqual(db.now() - time.monotonic(), before, delta=0.1)
            for jump in (36000.0, -36000.0):  # the server's clock was set
                db.told(now + jump, time.monotonic())
                self.assertAlmostEqual(db.now(), now + jump, delta=1000)

        self.run_with(test)

    def test_an_error_in_what_is_queued(self):
        """It is raised by the next statement, and the transaction leaves nothing."""

        async def test(db):
            await db.begin()
            await db.change("INSERT INTO workers VALUES ('one', 0)")
            db.put("INSERT INTO workers VALUES ('one', 0)")
            with self.assertRaisesRegex(Exception, "duplicate key"):
                await db.commit()
            await db.rollback()
            self.assertEqual(await db.rows("SELECT * FROM workers"), [])

        self.run_with(test)

    def test_a_rollback_of_nothing_asks_nothing(self):
        async def test(db):
            await db.begin()
            db.put("INSERT INTO workers VALUES ('one', 0)")
            with mock.patch.object(db, "_send", side_effect=AssertionError):
                await db.rollback()
            self.assertEqual(await db.rows("SELECT * FROM workers"), [])

        self.run_with(test)

    def test_a_connection_is_lost_while_a_statement_is_made(self):
        async def test(db):
            other = await connect(self.url)
            [(number,)] = await db.rows("SELECT pg_backend_pid()")
            waits = asyncio.create_task(db.rows("SELECT pg_sleep(3600)"))
            await asyncio.sleep(0.1)
            await other.rows("SELECT pg_terminate_backend(?::int)", (number,))
            with self.assertRaises(Lost):
                await asyncio.wait_for(waits, support.LONG)
            with self.assertRaises(Lost):
                await db.rows("SELECT 1")
            other.close()

        self.run_with(test)

    def test_words_are_heard_after_the_commit_and_not_after_a_rollback(self):
        async def test(db):
            other, words = await connect(self.url), []
            end = await other.listen("other", words.append)
            for word, ends in (("kept", db.commit), ("dropped", db.rollback), ("last", db.commit)):
                await db.begin()
                db.notify(word)
                db.notify(word)
                await db.rows("SELECT 1")
                await ends()
            while "last" not in words:
                await asyncio.sleep(0.01)
            self.assertEqual(words, ["kept", "last"])
            end()
            end()
            other.close()

        self.run_with(test)


class TwoWorkers(support.OnADatabase, unittest.TestCase):
    """They look at the database by themselves only once in 3,000 seconds, so what isn't heard of fails the test."""

    kind = "postgres"

    def collected(self, idle, count, between):
        """Runs two workers, one of which has an invocation that collects signals; each is followed by `between`."""

        async def go():
            options = {"poll": 3000, "idle": idle, "lease": 3000}
            async with Runtime(App(service), self.url, **options) as one, Runtime(App(service), self.url, **options) as two:
                db = await connect(self.url)
                id = await one.send("Postgres/collects", count)
                await one.until(id, "running" if idle > 1 else "suspended")
                await quiet(db, one, two)
                holder, other = (one, two) if id in one.engine.live else (two, one)
                for number in range(count):
                    await signalled(db, id, number)
                    await between(holder.engine, other.engine)
                self.assertEqual(await asyncio.wait_for(holder.result(id), support.LONG), list(range(count)))
                db.close()

        asyncio.run(go())

    def test_only_the_holder_of_a_lease_is_woken(self):
        looks = []

        async def between(holder, other):
            looks.append(other._committer.counts["transactions"])
            await asyncio.sleep(0.05)

        self.collected(100, 20, between)
        self.assertEqual(set(looks), {looks[0]})

    def test_a_worker_claims_what_it_makes(self):
        """Calls, completions, keys that are free: the other one isn't woken for any of it."""

        async def go():
            options = {"poll": 3000, "idle": 0, "lease": 3000}
            apps = [App(service, account) for _ in range(2)]
            async with Runtime(apps[0], self.url, **options) as one, Runtime(apps[1], self.url, **options) as two:
                await one.call("Postgres/ends", 0)  # from here on it knows the other one
                db = await connect(self.url)
                await quiet(db, one, two)
                db.close()
                before = two.engine._committer.counts["transactions"]
                self.assertEqual(await asyncio.wait_for(one.call("Postgres/calls", 5), support.LONG), 5)
                for n in range(5):
                    await one.call("Account/add", n, "k")
                self.assertEqual(two.engine._committer.counts["transactions"], before)
                workers = await one.rows("SELECT DISTINCT right(worker, 12) FROM invocations")
                self.assertEqual(len(workers), 1)

        asyncio.run(go())

    def test_what_a_worker_leaves_is_passed_on(self):
        """It has room for four of twelve. Each of three takes some, though none looks by itself."""

        async def go():
            options, count = {"poll": 3000, "idle": 600, "lease": 3000, "limit": 4}, 12
            opened.clear()
            async with contextlib.AsyncExitStack() as stack:
                three = [await stack.enter_async_context(Runtime(App(service), self.url, **options)) for _ in range(3)]
                first = await three[0].send("Postgres/waits", 0)
                while not three[0].engine.live:
                    await asyncio.sleep(0.01)
                ids = [first, *[await three[0].send("Postgres/waits", n) for n in range(1, count)]]
                async with asyncio.timeout(support.LONG):
                    while [len(it.engine.live) for it in three] != [4, 4, 4]:
                        await asyncio.sleep(0.01)
                opened.set()
                self.assertEqual([await asyncio.wait_for(three[0].result(it), support.LONG) for it in ids], list(range(count)))

        asyncio.run(go())

    def test_who_waits_while_it_ends(self):
        """What an end reads of those who wait comes before all else in its group. Those who begin to wait at the same time get the result too."""

        async def go():
            options = {"poll": 3000, "idle": 600, "lease": 3000}
            async with Runtime(App(service), self.url, **options) as one, Runtime(App(service), self.url, **options) as two:
                for n in range(8):
                    ids = [await one.send("Postgres/ends", n) for _ in range(5)]
                    waiting = [asyncio.create_task(it.call("Postgres/attaches", id)) for id in ids for it in (one, two, one, two)]
                    self.assertEqual(await asyncio.wait_for(asyncio.gather(*waiting), support.LONG), [n] * 20)

        asyncio.run(go())

    def test_signals_in_a_row(self):
        """They come while the attempt is fed, waits, is suspended and is claimed again, by one worker or the other."""

        async def between(holder, other):
            await asyncio.sleep(random.random() * 0.02)

        for idle in (0, 0.01, 100):
            with self.subTest(idle=idle):
                self.collected(idle, 40, between)


class Counts(support.OnADatabase, unittest.TestCase):
    """What operations cost the server, counted: a machine that is busy counts alike."""

    kind = "postgres"

    async def before(self, runtime):
        """What comes before the work, and isn't counted."""

    def counted(self, work):
        """The round trips of some work by a worker with nothing else to do, each with its statements."""
        trips, made = [], pipeline.Pipeline.all_made

        async def all_made(own, statements):
            trips.append([it.sql for it in statements])
            return await made(own, statements)

        async def go():
            async with Runtime(App(service), self.url, poll=3000, lease=3000, idle=600) as runtime:
                await runtime.call("Postgres/ends", 0)
                await self.before(runtime)
                db = await connect(self.url)
                await quiet(db, runtime)
                db.close()
                with mock.patch.object(pipeline.Pipeline, "all_made", all_made):
                    await work(runtime)

        with mock.patch.object(desk, "_LOOKED", 150_000.0):  # who waits for a result is told, and doesn't look by itself
            asyncio.run(go())
        return trips

    async def group(self, runtime, count):
        """One group of so many operations, each of which reads, and changes what it has read."""
        seen = Reading("SELECT seq, frame FROM inbox WHERE invocation=? ORDER BY seq LIMIT ?", "text", "bigint")
        gone = Each(1, "DELETE FROM inbox{rows} WHERE invocation=? AND frame=?", "text", "bytea", by="USING")

        def operation(name):
            async def then(db, found):
                db.each(gone, (name, bytes(found[0][0][1])), AssertionError(name))

            return After(lambda db: [(seen, (name, 1))], then)

        names = [f"{n:03d}" for n in range(count)]
        await asyncio.gather(*(runtime.engine._committer.follow(operation(it)) for it in names))

    def test_a_group_of_twenty_costs_what_one_of_two_costs(self):
        """Two round trips, four statements and a commit: BEGIN, the reads, the changes, COMMIT."""

        async def filled(runtime):
            await runtime.rows("DELETE FROM inbox RETURNING seq")
            await runtime.rows("INSERT INTO inbox(invocation, frame) SELECT lpad(i::text, 3, '0'), 'x' FROM generate_series(0, 99) AS i RETURNING seq")

        self.before = filled
        for count in (2, 20):
            reads, changes = self.counted(lambda runtime: self.group(runtime, count))
            self.assertEqual((len(reads), len(changes)), (2, 2), count)
            self.assertEqual((reads[0][:5], changes[-1]), (b"BEGIN", b"COMMIT"))

    def test_a_step(self):
        """A step alone is one statement in one round trip, which is its commit."""
        found = []
        for count in (10, 20):
            trips = self.counted(lambda runtime: runtime.call("Postgres/steps", count))
            found.append([it for it in trips if any(sql.startswith(b"WITH asked") for sql in it)])
        self.assertEqual(len(found[1]) - len(found[0]), 10)
        self.assertEqual({len(it) for it in found[0] + found[1]}, {1})


class Settings(support.OnADatabase, unittest.TestCase):
    """A session doesn't depend on the server's defaults. Here they are those of the user in this database."""

    kind = "postgres"

    def setUp(self):
        super().setUp()
        with Plain(self.url) as db:
            [(database, self.user, self.schema, version)] = db.rows(
                "SELECT current_database(), current_user, current_schema()::text, current_setting('server_version_num')::int"
            )
            self.of_user = f'ALTER ROLE "{self.user}" IN DATABASE "{database}"'
            self.addCleanup(self.change, f"{self.of_user} RESET ALL")
            self.defaults = {name: it for name, it in HOSTILE.items() if version >= 140000 or name != "idle_session_timeout"}

    def change(self, *statements):
        with Plain(self.url) as db:
            for it in statements:
                db.change(it)

    def shown(self, url):
        with Plain(url) as db:
            return {name: db.rows(f"SHOW {name}")[0][0] for name in self.defaults}

    def test_defaults_that_hurt(self):
        self.change(*[f"{self.of_user} SET {name} TO '{value}'" for name, (value, _) in self.defaults.items()])
        self.assertEqual(self.shown(self.url), {name: value for name, (_, value) in self.defaults.items()})
        values = ("a\\b'c\"\N{SNOWMAN}", bytes(range(256)), 1732857600.1234567)
        with Plain(self.url) as db:
            [(text, data, number)] = db.rows("SELECT ?, ?::bytea, ?::float8", values)
            self.assertEqual((text, bytes(data), number), values)

    def test_a_worker_among_defaults_that_hurt(self):
        async def go():
            async with Runtime(runtime_app.app, self.url) as runtime:
                self.assertEqual(await runtime.call("S/echo", "a\\b'\N{SNOWMAN}"), "a\\b'\N{SNOWMAN}")

        self.change(*[f"{self.of_user} SET {name} TO '{value}'" for name, (value, _) in self.defaults.items()])
        asyncio.run(go())

    def test_what_the_url_asks_for_stays(self):
        asked = {"synchronous_commit": "off", "statement_timeout": "20s", "lock_timeout": "2s", "default_transaction_isolation": "serializable"}
        shown = self.shown(with_settings(self.url, asked))
        self.assertEqual({name: shown[name] for name in asked}, {**asked, "default_transaction_isolation": "read committed"})

    def test_another_way_to_be_on_the_disk_stays(self):
        self.change(f"{self.of_user} SET synchronous_commit TO 'local'")
        self.assertEqual(self.shown(self.url)["synchronous_commit"], "local")

    def test_a_database_of_another_encoding(self):
        self.change("DROP DATABASE IF EXISTS palqytun_latin", "CREATE DATABASE palqytun_latin ENCODING 'LATIN1' TEMPLATE template0 LC_COLLATE 'C' LC_CTYPE 'C'")
        self.addCleanup(self.change, "DROP DATABASE palqytun_latin")
        with self.assertRaisesRegex(Unsuitable, "encoding is LATIN1, and has to be UTF8"):
            Plain(f"{self.url}{'&' if '?' in self.url else '?'}dbname=palqytun_latin")

    def test_no_place_for_tables(self):
        with self.assertRaisesRegex(Unsuitable, "the search_path names no schema"):
            Plain(with_settings(self.url, {"search_path": "nowhere"}))

    def test_a_user_without_rights(self):
        self.change("DROP ROLE IF EXISTS palqytun_guest", "CREATE ROLE palqytun_guest", f"GRANT USAGE ON SCHEMA {self.schema} TO palqytun_guest")
        self.addCleanup(self.change, "DROP OWNED BY palqytun_guest", "DROP ROLE palqytun_guest")
        with self.assertRaisesRegex(Unsuitable, "permission denied .*: the user has to own the tables"):
            Plain(with_settings(self.url, {"role": "palqytun_guest"}))

    def test_a_user_who_may_only_read(self):
        """A worker is refused before it claims anything, and says which rights are wanted. A command reads."""
        self.change("DROP ROLE IF EXISTS palqytun_reader", "CREATE ROLE palqytun_reader", f"GRANT USAGE ON SCHEMA {self.schema} TO palqytun_reader")
        self.change(f"GRANT SELECT ON ALL TABLES IN SCHEMA {self.schema} TO palqytun_reader")
        self.addCleanup(self.change, "DROP OWNED BY palqytun_reader", "DROP ROLE palqytun_reader")
        url = with_settings(self.url, {"role": "palqytun_reader"})
        with Plain(url) as db:
            self.assertEqual(db.rows("SELECT * FROM invocations"), [])
        lacks = "the user palqytun_reader has no INSERT, UPDATE, DELETE on attempts, and lacks rights on [0-9]+ more tables: a worker's user owns the tables"
        with self.assertRaisesRegex(Unsuitable, lacks):
            self.as_worker(url)
        self.change(f"GRANT INSERT, UPDATE, DELETE ON ALL TABLES IN SCHEMA {self.schema} TO palqytun_reader", "REVOKE UPDATE ON inbox FROM palqytun_reader")
        lacks = "the user palqytun_reader has no USAGE on audit, and lacks rights on 3 more tables: .* has SELECT, .* and USAGE on their sequences"
        with self.assertRaisesRegex(Unsuitable, lacks):
            self.as_worker(url)
        self.change(f"GRANT USAGE ON ALL SEQUENCES IN SCHEMA {self.schema} TO palqytun_reader")
        with self.assertRaisesRegex(Unsuitable, "the user palqytun_reader has no UPDATE on inbox: a worker's user"):
            self.as_worker(url)
        self.change("GRANT UPDATE ON inbox TO palqytun_reader")
        self.as_worker(url)

    def test_an_old_server(self):
        """This one, if the oldest that is allowed were newer than it."""
        with Plain(self.url) as db:
            [(version,)] = db.rows("SELECT current_setting('server_version_num')::int / 10000")
        with mock.patch.object(postgres, "_OLDEST", 10000 * (version + 1)):
            with self.assertRaisesRegex(Unsuitable, f"the server is PostgreSQL {version}, and has to be {version + 1} or newer"):
                Plain(self.url)

    def test_a_database_that_may_only_be_read(self):
        """A command may read it. A worker says what is wrong, and tries again."""
        url = with_settings(self.url, {"default_transaction_read_only": "on"})
        with Plain(url) as db:
            self.assertEqual(db.rows("SELECT * FROM invocations"), [])
        with self.assertRaisesRegex(Lost, "this session may only read"):
            Plain(url, opened=lambda it: connect(it, worker=True))

    def test_what_may_lose_commits_is_refused(self):
        """A worker refuses it, unless a setting says that it is meant."""
        off = with_settings(self.url, {"synchronous_commit": "off"})
        with self.assertRaisesRegex(Unsuitable, "with synchronous_commit=off what was committed may be lost .* set palqytun.unsafe=on"):
            self.as_worker(off)
        self.as_worker(with_settings(self.url, {"synchronous_commit": "off", "palqytun.unsafe": "on"}))
        with Plain(off) as db:  # a command doesn't mind
            self.assertEqual(db.rows("SHOW synchronous_commit"), [("off",)])

    def test_a_server_without_fsync(self):
        with mock.patch.object(postgres, "_CHECKED", "SELECT 'UTF8', 'off', 'off', 'on', NULL, 150000"):
            with self.assertRaisesRegex(Unsuitable, "with fsync=off"):
                self.as_worker(self.url)
        with mock.patch.object(postgres, "_CHECKED", "SELECT 'UTF8', 'off', 'off', 'on', 'on', 150000"):
            self.as_worker(self.url)

    def as_worker(self, url):
        Plain(url, opened=lambda it: connect(it, worker=True)).close()


class Isolation(support.OnADatabase, unittest.TestCase):
    """A statement reads all that was committed before it, whichever isolation level is the server's default. In each test a transaction goes on
    after another worker's, as that of a group of operations does."""

    kind = "postgres"
    app = App(service, account)

    def at_each_level(self, test):
        for level in LEVELS:
            with self.subTest(level=level):
                url = with_settings(support.emptied("postgres", self.folder), {"default_transaction_isolation": level})
                asyncio.run(self.with_two(url, test))

    async def with_two(self, url, test):
        """The second of the two connections is in a transaction that has read something."""
        one, two = await connect(url), await connect(url)
        try:
            await one.begin()
            await invocations.create(one, self.app, Outcome(), New("Account", "add", "k", b"1", due=2, id="inv_second"))  # due by each one's clock
            await one.commit()
            await two.begin()
            await two.rows("SELECT * FROM workers")
            await test(one, two)
        finally:
            one.close()
            two.close()

    async def claimed(self, db, worker):
        return (await Claimer(worker, self.app, support.LEASE).claim(db, (), 1)).claims[0]

    def test_money_is_kept(self):
        """The other worker calls an object, which has 70 from then on. The next call of it is handed these, and so adds to them."""

        async def test(one, two):
            await one.begin()
            await invocations.create(one, self.app, Outcome(), New("Account", "add", "k", b"70", due=1, id="inv_first"))
            self.assertEqual((await self.claimed(one, "one")).invocation, "inv_first")
            await one.change("INSERT INTO state(service, key, name, value) VALUES ('Account', 'k', 'money', '70')")
            await one.change("UPDATE invocations SET status='done' WHERE id='inv_first'")
            await invocations.end(one, Outcome(), "inv_first", "Account", "k", journal.void())
            await one.commit()
            claim = await self.claimed(two, "two")
            await two.commit()
            self.assertEqual(claim.invocation, "inv_second")
            self.assertIn(b"money" + struct.pack(">Q", 2) + b"70", claim.input)

        self.at_each_level(test)

    def test_a_result_reaches_who_waits(self):
        """The other worker's invocation begins to wait for one that ends."""

        async def test(one, two):
            await one.begin()
            await invocations.create(one, self.app, Outcome(), New("Postgres", "collects", argument=b"1", due=1))
            waits = await self.claimed(one, "one")
            await invocations.attach(one, Growth(waits.lease), "inv_second", 1)
            await one.commit()
            await invocations.end(two, Outcome(), "inv_second", "Account", "", journal.void())
            await two.commit()
            self.assertEqual([it for it, in await one.rows("SELECT invocation FROM inbox")], [waits.invocation])

        self.at_each_level(test)


class Several(support.OnADatabase, unittest.TestCase):
    """A URL of two servers, of which the first is no good."""

    kind = "postgres"

    def setUp(self):
        super().setUp()
        from psycopg.conninfo import conninfo_to_dict

        self.values = conninfo_to_dict(self.url)
        self.enterContext(mock.patch.object(postgres, "_PATIENCE", 4.0))

    def beside(self, *ports: int) -> str:
        """A URL of servers on the loopback, and of the database as the last one."""
        hosts = ",".join([*["127.0.0.1"] * len(ports), self.values.get("host", "127.0.0.1")])
        those = ",".join(map(str, [*ports, self.values.get("port", 5432)]))
        found = {"host": hosts, "port": those, "target_session_attrs": "read-write", "sslmode": "disable"}
        return f"postgresql://{self.values['user']}@/{self.values['dbname']}?{urllib.parse.urlencode(found)}"

    def server(self, backlog: int = 5) -> socket.socket:
        made = socket.create_server(("127.0.0.1", 0), backlog=backlog)
        self.addCleanup(made.close)
        return made

    def refuses(self) -> int:
        with socket.create_server(("127.0.0.1", 0)) as made:
            return made.getsockname()[1]

    def says_nothing(self) -> int:
        return self.server().getsockname()[1]

    def is_out_of_reach(self) -> int:
        """No packet is replied to: those who connect wait, as for a host that has no power."""
        port = self.server(0).getsockname()[1]
        for _ in range(8):
            client = socket.socket()
            self.addCleanup(client.close)
            client.setblocking(False)
            with contextlib.suppress(BlockingIOError):
                client.connect(("127.0.0.1", port))
        return port

    def hangs_up(self) -> int:
        made = self.server()

        def go():
            with contextlib.suppress(OSError):
                while True:
                    made.accept()[0].close()

        thread = threading.Thread(target=go, daemon=True)
        thread.start()
        self.addCleanup(thread.join, support.LONG)
        self.addCleanup(made.shutdown, socket.SHUT_RDWR)
        return made.getsockname()[1]

    def test_the_second_is_reached(self):
        for kind in (self.refuses, self.says_nothing, self.is_out_of_reach, self.hangs_up):
            with self.subTest(kind.__name__), Plain(self.beside(kind())) as db:
                self.assertEqual(db.rows("SELECT 1"), [(1,)])

    def test_a_beat_is_stored_by_the_second(self):
        with Plain(self.url) as db:
            for kind in (self.refuses, self.says_nothing, self.is_out_of_reach, self.hangs_up):
                with self.subTest(kind.__name__):
                    beats = postgres.ThreadOfBeats(self.beside(kind()), kind.__name__, 0.3, lambda: True)
                    self.addCleanup(beats.stop)
                    beats.start()
                    until = time.monotonic() + support.LONG
                    while not db.rows("SELECT 1 FROM workers WHERE id=?", (kind.__name__,)):
                        self.assertLess(time.monotonic(), until, "no beat is stored")
                        time.sleep(0.05)

    def test_the_one_that_was_reached_is_tried_first(self):
        silent = self.server()
        silent.settimeout(support.LONG)

        async def go():
            first = await connect(self.beside(silent.getsockname()[1]))
            await asyncio.to_thread(silent.accept)
            another = await first.another()
            for it in (first, another):
                self.assertEqual(await it.rows("SELECT 1"), [(1,)])
                it.close()

        asyncio.run(go())
        silent.settimeout(0)
        with self.assertRaises(BlockingIOError):
            silent.accept()

    def test_what_each_has_said(self):
        one, two = self.refuses(), self.says_nothing()
        with self.assertRaises(Lost) as raised:
            asyncio.run(connect(f"postgresql://postgres@/none?host=127.0.0.1,127.0.0.1&port={one},{two}&sslmode=disable"))
        self.assertRegex(str(raised.exception), f"^127.0.0.1:{one}: .*refused.*; 127.0.0.1:{two}: the server hasn't replied for 2.0 seconds$")

    def test_lists_that_do_not_fit(self):
        with self.assertRaisesRegex(Lost, "match"):
            asyncio.run(connect("postgresql://postgres@/none?host=one,two&port=1,2,3"))


class Silent(unittest.TestCase):
    """A server that takes connections and says nothing."""

    def setUp(self):
        if lacks := needs.lacks_module("psycopg"):
            self.skipTest(lacks)
        self.server = socket.create_server(("127.0.0.1", 0))
        self.server.settimeout(support.LONG)
        self.addCleanup(self.server.close)
        self.url = f"postgresql://postgres@127.0.0.1:{self.server.getsockname()[1]}/none?sslmode=disable"

    def test_patience_ends(self):
        with mock.patch.object(postgres, "_PATIENCE", 2.0), self.assertRaisesRegex(Lost, "hasn't replied for 2.0 seconds"):
            asyncio.run(connect(self.url))
        self.assert_it_is_closed(self.server.accept()[0])

    def test_a_connection_that_is_given_up(self):
        async def go():
            task = asyncio.create_task(connect(self.url))
            client, _ = await asyncio.to_thread(self.server.accept)
            task.cancel()
            await asyncio.gather(task, return_exceptions=True)
            self.assertTrue(task.cancelled())
            return client

        self.assert_it_is_closed(asyncio.run(go()))

    def assert_it_is_closed(self, client):
        with client:
            client.settimeout(support.LONG)
            while client.recv(1000):
                pass


if __name__ == "__main__":
    unittest.main()
