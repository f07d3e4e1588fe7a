"""Claims: the order of a key, attempts that are lost, clocks, names and sizes, and queries that don't look at what has ended."""

import asyncio
import os
import re
import secrets
import threading
import time
import unittest
from unittest import mock

import support  # isort: skip
import runtime_app
from palqytun import frames
from palqytun.runtime import App, Context, Queue, Retry, Service, TerminalError, VirtualObject, Workflow, acts, deadlines, gather, inbox, invocations
from palqytun.runtime import claiming, journal, operate, watchdog
from palqytun.runtime.claiming import Claimer
from palqytun.runtime.committer import Committer
from palqytun.runtime.database import Reading, connect
from palqytun.runtime.database.plain import Plain
from palqytun.runtime.filters import Filter
from palqytun.runtime.invocations import New
from palqytun.runtime.outcome import Outcome
from support import Runtime

plain, thing, flow = Service("Claims"), VirtualObject("Thing"), Workflow("Flow")


@thing.handler()
async def adds(ctx: Context, n: int) -> None:
    ctx.set("order", [*(await ctx.get("order") or []), n])


@thing.shared()
async def order(ctx: Context, _: None) -> list[int]:
    return await ctx.get("order") or []


@thing.handler()
async def names(ctx: Context, name: str) -> str:
    ctx.set(name, name)
    return await ctx.get(name, str)


@plain.handler()
async def echoes(ctx: Context, it: object) -> object:
    return it


@plain.handler()
async def sleeps(ctx: Context, seconds: float) -> None:
    await ctx.sleep(seconds)


@plain.handler()
async def waits(ctx: Context, id: str) -> object:
    return await gather(ctx.attach(id), ctx.signal("go"))


@flow.main()
async def asks(ctx: Context, _: None) -> object:
    return await ctx.promise("said").value()


@plain.handler(queue=Queue("asked", concurrency=5, per_worker=4, per_key=3, rate=(100, 1)))
async def queued(ctx: Context, it: object) -> None: ...


@plain.handler(limit=5)
async def limited(ctx: Context, it: object) -> None: ...


app = App(plain, thing, flow)

failing, RETRY = Service("Fails"), Retry(initial=0.001, longest=0.01, attempts=3, pause=True)


def raises():
    raise OSError("it is away")


@failing.handler(retry=RETRY)
async def by_run(ctx: Context, _: int) -> None:
    await ctx.run("raises", raises)


@failing.handler(retry=RETRY)
async def by_itself(ctx: Context, _: int) -> None:
    raises()


fails = App(failing)


def protocol_of_others():
    """The statements of a worker in another language, which wants PostgreSQL's driver."""
    import third

    return third.statements()


class OnOne(support.OnADatabase):
    LEASE = 10 * support.LONG

    def setUp(self):
        super().setUp()
        self.db = Plain(self.url)
        self.addCleanup(self.db.close)

    def create(self, *words, **options):
        """Makes an invocation, and waits until this worker's clock, which is behind the database's by what a reply takes, is past that moment."""
        id, _ = self.db.done(lambda db: invocations.create(db, app, Outcome(), New(*words, **options)))
        [(made,)] = self.db.done(lambda db: db.rows(f"SELECT {db.clock}"))
        while self.db.db.now() < made:
            time.sleep(0.001)
        return id

    def claim(self, worker="one", most=500):
        return self.db.done(lambda db: Claimer(worker, app, self.LEASE).claim(db, (), most)).claims

    def claimed(self, worker="one", most=500):
        return [it.invocation for it in self.claim(worker, most)]

    def enter(self, worker):
        self.db.done(Claimer(worker, app, self.LEASE).enter)


@support.on_each_database
class Order(OnOne):
    def test_the_first_of_each_key(self):
        self.enter("one")
        ids = {key: [self.create("Thing", "adds", key, b"1") for _ in range(3)] for key in "ab"}
        self.assertEqual({it.invocation for it in self.claim()}, {ids["a"][0], ids["b"][0]})
        self.assertEqual(self.claim(), [])

    def test_one_that_is_tried_again_keeps_its_place(self):
        """It has the key, and is due later than those behind it."""
        self.enter("one")
        first, _ = self.create("Thing", "adds", "k", b"1"), self.create("Thing", "adds", "k", b"2")
        self.claim()
        self.db.change("UPDATE invocations SET status='ready', due=due+1000 WHERE id=?", (first,))
        self.assertEqual(self.claim(), [])
        self.db.change("UPDATE invocations SET due=1 WHERE id=?", (first,))
        self.assertEqual([it.invocation for it in self.claim()], [first])

    def test_a_later_time_is_a_later_place(self):
        self.enter("one")
        late, soon = self.create("Thing", "adds", "k", b"1", due=time.time() + 1000), self.create("Thing", "adds", "k", b"2")
        self.assertEqual([it.invocation for it in self.claim()], [soon])
        self.assertNotEqual(late, soon)


@support.on_each_database
class Held(OnOne):
    def test_a_claim_that_holds_the_loop(self):
        """Who holds it is no handler, and that is said."""
        said, late = [], deadlines.late

        def held(*words):
            said.append(watchdog.holder(threading.get_ident()))
            return late(*words)

        self.enter("one")
        with mock.patch.object(deadlines, "late", held):
            self.assertEqual(self.claim(), [])
        self.assertRegex(said[0], "^no handler, or the host is busy, in .*test_claims.py")


class ThreeWorkers(support.OnADatabase, unittest.TestCase):
    kind = "postgres"

    def test_calls_of_a_key_are_in_their_order(self):
        """Each is stored by another worker than the one before, and each of three takes what it gets."""

        async def go():
            options = {"poll": 0.05, "idle": 0}
            async with Runtime(app, self.url, **options) as a, Runtime(app, self.url, **options) as b, Runtime(app, self.url, **options) as c:
                count = 60
                for n in range(count):
                    await (a, b, c)[n % 3].send("Thing/adds", n, "k")
                while len(found := await a.call("Thing/order", None, "k")) < count:
                    await asyncio.sleep(0.1)
                self.assertEqual(found, list(range(count)))
                while len(await a.rows("SELECT DISTINCT worker FROM invocations WHERE handler='adds'")) < 2:  # who claims which is chance
                    self.assertIsNone(await c.call("Thing/adds", 0, "other"))

        asyncio.run(asyncio.wait_for(go(), support.LONG))


@support.on_each_database
class Lost(OnOne):
    def lost(self, worker):
        """A worker claims, and ends without a word."""
        self.enter(worker)
        claims = self.claim(worker)
        self.db.change("DELETE FROM workers")
        return claims

    def row(self, id):
        return self.db.rows("SELECT status, deaths, error FROM invocations WHERE id=?", (id,))[0]

    def test_five_in_a_row(self):
        id = self.create("Claims", "echoes", argument=b"1")
        for n in range(5):
            self.assertEqual([it.invocation for it in self.lost(f"worker-{n}")], [id])
        self.assertEqual(self.lost("worker-5"), [])
        status, deaths, error = self.row(id)
        self.assertEqual((status, deaths), ("paused", 5))
        self.assertRegex(error, "5 attempts in a row were lost .*, with the workers worker-0, worker-1, worker-2, worker-3, worker-4:")
        self.assertEqual(self.db.done(lambda db: acts.resume(db, None, Outcome(), id, "ann")), "resumed")
        self.assertEqual(len(self.lost("worker-6")), 1)

    @mock.patch.object(claiming, "_ALONE", OnOne.LEASE)
    def test_those_that_a_worker_had_beside_it(self):
        """After two deaths each is claimed alone, so one that ends workers takes no other with it."""
        ids = [self.create("Claims", "echoes", argument=b"1") for _ in range(4)]
        for worker in ("one", "two"):
            self.assertEqual(len(self.lost(worker)), 4)
        self.enter("three")
        new = self.create("Claims", "echoes", argument=b"1")
        claimed = {it.invocation for it in self.claim("three")}
        [first] = claimed - {new}
        self.assertEqual(self.claim("three"), [])
        self.db.change("UPDATE invocations SET deaths=0 WHERE id=?", (first,))  # it has stored something
        [second] = self.claim("three")
        self.assertIn(second.invocation, set(ids) - {first})
        # The one that ends its worker is claimed last from then on.
        self.db.change("DELETE FROM workers WHERE id='three'")
        self.db.change("UPDATE invocations SET status='done' WHERE id IN (?, ?)", (first, new))
        self.enter("four")
        [third] = self.claim("four")
        self.assertNotEqual(third.invocation, second.invocation)

    @mock.patch.object(claiming, "_ALONE", OnOne.LEASE)
    def test_those_that_have_to_wait_hide_no_others(self):
        """However many are to be claimed alone, or have an attempt here that has lost its lease, a claim takes as many others as it may."""
        suspects = [self.create("Claims", "echoes", argument=b"1") for _ in range(5)]
        for worker in ("one", "two"):
            self.assertEqual(len(self.lost(worker)), 5)
        had = [self.create("Claims", "echoes", argument=b"1") for _ in range(2)]
        self.db.change("UPDATE invocations SET status='running', worker='three', epoch=1 WHERE status='ready'")
        new = [self.create("Claims", "echoes", argument=b"1") for _ in range(3)]
        self.enter("four")
        self.assertEqual([self.claimed("four", 2) for _ in range(4)], [had, [suspects[0], new[0]], new[1:], []])
        self.db.change("DELETE FROM workers")
        live = self.claimed("five", 20)
        last = self.create("Claims", "echoes", argument=b"1")
        found = self.db.done(lambda db: Claimer("five", app, self.LEASE).claim(db, live, 1))
        self.assertEqual([it.invocation for it in found.claims], [last])

    def test_others_are_claimed_beside_it(self):
        id, other = self.create("Claims", "echoes", argument=b"1"), self.create("Claims", "echoes", argument=b"2")
        self.lost("one")
        self.db.change("UPDATE invocations SET deaths=4 WHERE id=?", (id,))
        self.assertEqual([it.invocation for it in self.lost("two")], [other])

    def test_progress_begins_anew(self):
        """A step that is stored, or an attempt that ends by itself."""
        self.create("Claims", "sleeps", argument=b"1000")
        for n in range(4):
            self.lost(f"worker-{n}")

        async def go():
            async with Runtime(app, self.url, idle=0) as runtime:
                [(id,)] = await runtime.rows("SELECT id FROM invocations")
                await runtime.until(id, "suspended")
                self.assertEqual(await runtime.rows("SELECT deaths FROM invocations"), [(0,)])

        asyncio.run(go())

    def test_they_come_by_their_age(self):
        """What a dead worker had goes on before what was due later, and after what was due before, however many there are."""
        before, had, after = ([self.create("Claims", "echoes", argument=b"1") for _ in range(3)] for _ in range(3))

        def due(seconds, ids):
            for id in ids:
                self.db.change("UPDATE invocations SET due=created+? WHERE id=?", (seconds, id))

        due(1000, [*before, *after])
        self.assertEqual([it.invocation for it in self.lost("one")], had)
        for seconds, ids in ((-60, before), (-40, had), (-20, after)):
            due(seconds, ids)
        self.enter("two")
        self.assertEqual([self.claimed("two", 2) for _ in range(5)], [before[:2], [before[2], had[0]], had[1:], after[:2], after[2:]])


@support.on_each_database
class Timers(OnOne):
    def test_one_that_fires_as_its_attempt_is_suspended(self):
        """A claim that waits for its turn leaves it to an attempt that has ended by then. So the worker claims again, and doesn't wait until it looks by
        itself."""
        submit, left = Committer.submit, []

        async def go():
            async with Runtime(app, self.url, idle=0, poll=10 * support.LONG) as runtime:

                async def later(committer, claim):
                    while runtime.engine.live:
                        await asyncio.sleep(0.005)
                    left.append(claim)
                    return await submit(committer, claim)

                def submitted(committer, operation, *more, **named):
                    if operation.__qualname__.startswith("Engine._loop.") and runtime.engine.live:
                        return asyncio.ensure_future(later(committer, operation))
                    return submit(committer, operation, *more, **named)

                with mock.patch.object(Committer, "submit", submitted):
                    while not left:  # on a busy host a timer may fire after its attempt is suspended, or before the worker looks at it
                        self.assertIsNone(await runtime.call("Claims/sleeps", 0))

        asyncio.run(asyncio.wait_for(go(), support.LONG))


@support.on_each_database
class Turns(OnOne):
    def test_nothing_keeps_others_out_for_good(self):
        """However much waits that has no limit, what has one or a queue is begun, and the other way round."""
        many, few = [self.create("Claims", "echoes", argument=b"1") for _ in range(6)], [self.create("Claims", it, argument=b"1") for it in ("limited", "queued")]
        self.enter("one")
        claimer = Claimer("one", app, self.LEASE)
        found = [self.db.done(lambda db: claimer.claim(db, (), 1)).claims[0].invocation for _ in range(6)]
        self.assertEqual(found, [many[0], few[0], many[1], few[1], *many[2:4]])


@support.on_each_database
class Woken(OnOne):
    """Suspended invocations for which something came."""

    def suspended(self, number):
        """One that waits for signal 17, and gets the one of this number."""
        id = self.create("Claims", "echoes", argument=b"1")
        suspension = frames.frame_of("Suspension future=(kind=FirstCompleted signals=[17])")
        self.db.change("UPDATE invocations SET status='suspended', suspension=?, epoch=1 WHERE id=?", (suspension, id))
        self.db.done(lambda db: inbox.deliver(db, Outcome(), id, journal.signal(number, journal.void())))
        return id

    def test_those_that_stay_hide_none(self):
        """A claim that has read as many as it might, of which some stay as they are, says that there may be more, and the next one finds them. One that
        finds nothing doesn't say so."""
        self.enter("one")
        stay, wake = [self.suspended(18) for _ in range(7)], [self.suspended(17) for _ in range(2)]
        claimed, looks = [], 0
        while (found := self.db.done(lambda db: Claimer("one", app, self.LEASE).claim(db, (), 3))).has_more:
            claimed, looks = claimed + [it.invocation for it in found.claims], looks + 1
            self.assertLess(looks, 10)
        self.assertEqual({*claimed, *(it.invocation for it in found.claims)}, {*wake})
        self.assertEqual(self.db.rows("SELECT COUNT(*) FROM invocations WHERE status='suspended'"), [(len(stay),)])


@support.on_each_database
class Failures(support.OnADatabase):
    """Those of a run count for its own `retry`, and those of the handler for the handler's."""

    def failed(self, path, count):
        """The counts of an invocation that has failed so often, and its status."""

        async def go():
            async with Runtime(fails, self.url) as runtime:
                id = await runtime.send(path, count)
                sql = "SELECT retries, failures, status FROM invocations WHERE id=?"
                while (row := (await runtime.rows(sql, id))[0])[0] < count and row[2] != "paused":
                    await asyncio.sleep(0.01)
                return tuple((await runtime.rows(sql, id))[0])

        return asyncio.run(go())

    def test_a_run_that_is_tried_for_ever(self):
        retries, failures, status = self.failed("Fails/by_run", 6)
        self.assertGreaterEqual(retries, 6)
        self.assertEqual(failures, 0)
        self.assertIn(status, ("ready", "running"))

    def test_a_handler_that_fails(self):
        self.assertEqual(self.failed("Fails/by_itself", 6), (3, 3, "paused"))


@support.on_each_database
class Waiters(support.OnADatabase):
    def test_who_has_ended_waits_for_nothing(self):
        async def go():
            async with Runtime(app, self.url, idle=0) as runtime:
                target = await runtime.send("Claims/sleeps", 1000)
                some = [await runtime.send("Claims/waits", target) for _ in range(3)] + [await runtime.send("Flow/asks", None, "k")]
                for id in some:
                    await runtime.until(id, "suspended")
                counts = "SELECT (SELECT COUNT(*) FROM waiters), (SELECT COUNT(*) FROM promise_waiters)"
                self.assertEqual(await runtime.rows(counts), [(3, 1)])
                for id in some:
                    await runtime.engine.cancel(id)
                    self.assertEqual((await runtime.result(id))[0], 409)
                self.assertEqual(await runtime.rows(counts), [(0, 0)])

        asyncio.run(go())


@support.on_each_database
class Names(support.OnADatabase):
    """What may be stored is the same on each database."""

    def test_what_is_refused(self):
        text = "x" * 1001
        wrong = [
            ({"key": text}, "the key has 1001 bytes in UTF-8, and 1000 are allowed"),
            ({"key": "\N{SNOWMAN}" * 400}, "the key has 1200 bytes"),
            ({"key": "a\0b"}, "the key has the character NUL"),
            ({"key": "\ud800"}, "the key has half of a surrogate pair"),
            ({"key": "k", "idempotency_key": text}, "the idempotency key has 1001 bytes"),
            ({"key": "k", "idempotency_key": "\0"}, "the idempotency key has the character NUL"),
            ({"key": ""}, "is called with a key"),
        ]

        async def go():
            async with Runtime(app, self.url) as runtime:
                for options, said in wrong:
                    with self.subTest(said), self.assertRaisesRegex(TerminalError, said) as caught:
                        await runtime.send("Thing/adds", 1, **options)
                    self.assertEqual(caught.exception.code, 400)
                for name in (text, "a\0b"):
                    self.assertRegex(str(await runtime.call("Thing/names", name, "k")), "400.*the name of a state has")
                self.assertEqual((await runtime.call("Claims/echoes", 1), await runtime.rows("SELECT name FROM state")), (1, []))

        asyncio.run(go())

    def test_the_longest_that_are_allowed(self):
        """They can't be compressed, as an index of PostgreSQL would."""
        key, name, idem = (secrets.token_hex(500) for _ in range(3))

        async def go():
            async with Runtime(app, self.url) as runtime:
                self.assertEqual(await runtime.call("Thing/names", name, key, idempotency_key=idem), name)
                self.assertEqual(await runtime.rows("SELECT key, name FROM state"), [(key, name)])

        asyncio.run(go())

    def test_large_values(self):
        """Eight megabytes in the database, and one through a handler."""
        data = os.urandom(8_000_000)
        with Plain(self.url) as db:
            db.change("INSERT INTO state VALUES ('Thing', 'k', 'n', ?)", (data,))
            self.assertEqual([bytes(it) for it, in db.rows("SELECT value FROM state")], [data])

        async def go():
            async with Runtime(app, self.url) as runtime:
                text = os.urandom(300_000).hex() + "\N{SNOWMAN}\\\"\n" * 50_000
                self.assertEqual(await runtime.call("Claims/echoes", text), text)
                self.assertEqual(await runtime.call("Claims/echoes", "a\0b"), "a\0b")

        asyncio.run(go())


class Clocks(support.OnADatabase, unittest.TestCase):
    """The clock of the worker's host is an hour ahead of the database's, or behind."""

    kind = "postgres"

    def at(self, offset):
        real = time.time
        return mock.patch.object(time, "time", lambda: real() + offset)

    def test_sleeps_and_delays_by_a_clock_that_is_ahead(self):
        with self.at(3600):
            asyncio.run(self.slept())

    def test_sleeps_and_delays_by_a_clock_that_is_behind(self):
        with self.at(-3600):
            asyncio.run(self.slept())

    async def slept(self):
        async with Runtime(app, self.url, idle=0) as runtime:
            long = await runtime.send("Claims/sleeps", 1800)  # so long that a busy host looks at the timer before it is due
            await runtime.until(long, "suspended")
            [(due, now)] = await runtime.rows(f"SELECT due, {self.clock} FROM timers")
            self.assertTrue(now < due <= now + 1800, (due, now))
            begun, seconds = time.monotonic(), 2
            sleeps = await runtime.send("Claims/sleeps", seconds)
            later = await runtime.send("Claims/echoes", 1, due=time.time() + seconds)
            self.assertEqual((await runtime.result(sleeps), await runtime.result(later)), (None, 1))
            self.assertTrue(seconds - 0.1 < time.monotonic() - begun < 3000)
            times = await runtime.rows(f"SELECT created, ended, {self.clock} FROM invocations WHERE id<>?", long)
            for created, ended, now in times:
                self.assertTrue(now - 3000 < created < ended <= now + 0.1)

    clock = "extract(epoch from clock_timestamp())::float8"

    def test_what_is_kept_by_a_clock_that_is_ahead(self):
        async def kept():
            async with Runtime(app, self.url) as runtime:
                self.assertEqual(await runtime.call("Claims/echoes", 1), 1)
                for older, left in ((1800, 1), (-10, 0)):
                    await runtime.engine.transact(lambda db: operate.purge(db, older))
                    self.assertEqual(await runtime.rows("SELECT COUNT(*) FROM invocations"), [(left,)])

        with self.at(3600):
            asyncio.run(kept())


@support.on_each_database
class Plans(OnOne):
    """No query of a worker looks at what has ended: each finds its rows by an index."""

    ENDED = 100_000

    def setUp(self):
        super().setUp()
        for key in "ab":
            self.create("Thing", "adds", key, b"1")
        self.create("Claims", "echoes", argument=b"1")
        numbers = {
            "sqlite": "WITH RECURSIVE n(i) AS (SELECT 1 UNION ALL SELECT i+1 FROM n WHERE i<?) SELECT i FROM n",
            "postgres": "SELECT i FROM generate_series(1,?) AS i",
        }[self.kind]
        self.columns = "handler, exclusive, version, seed, entries, created"
        self.numbered = f"FROM invocations, ({numbers}) AS many WHERE handler='echoes' AND status='ready'"
        self.db.change(
            f"INSERT INTO invocations(id, key, status, due, ended, service, {self.columns}) SELECT 'ended_' || i, 'k', 'done', 1, 1, service,"
            f" {self.columns} {self.numbered}",
            (self.ENDED,),
        )
        if self.kind == "postgres":  # each test begins with an empty table, which the planner has to be told of
            support.patient(self.db)
            self.addCleanup(self.db.change, "VACUUM invocations")
            self.addCleanup(self.db.change, "TRUNCATE invocations")
            self.db.change("ANALYZE")  # as its autovacuum does; nobody does it to a file

    def statements(self, *operations):
        """The statements on invocations that operations make."""
        said = []

        class Saying:
            def __getattr__(_, name):
                return getattr(self.db.db, name)

            def _said(_, name, sql, values=()):
                said.append((sql, tuple(values)))
                return getattr(self.db.db, name)(sql, values)

            def several(it, asked):
                asked = [(one.one if isinstance(one, Reading) else one, values) for one, values in asked]
                said.extend((sql, tuple(values)) for sql, values in asked)
                return getattr(self.db.db, "several")(asked)

            rows = lambda it, *words: it._said("rows", *words)  # noqa: E731
            change = lambda it, *words: it._said("change", *words)  # noqa: E731
            put = lambda it, *words: it._said("put", *words)  # noqa: E731

        for operation in operations:
            self.db.done(lambda _: operation(Saying()))
        return [(sql, values) for sql, values in said if "invocations" in sql and not sql.startswith("INSERT INTO attempts")]

    def plan(self, sql, values):
        self.db.begin()
        try:
            if self.kind == "sqlite":
                return [row[3] for row in self.db.rows(f"EXPLAIN QUERY PLAN {sql}", values)]
            return [line for line, in self.db.rows(f"EXPLAIN {sql}", values)]
        finally:
            self.db.rollback()

    def pages(self, sql, values):
        """How many pages a statement looks at, on a server."""
        self.db.begin()
        try:
            [(found,)] = self.db.rows(f"EXPLAIN (ANALYZE, BUFFERS, FORMAT JSON) {sql}", values)
            return found[0]["Plan"]["Shared Hit Blocks"] + found[0]["Plan"]["Shared Read Blocks"]
        finally:
            self.db.rollback()

    def is_a_scan(self, line):
        """Whether what has ended is read. By their service invocations are found only for a list of these."""
        if self.kind == "sqlite" and line.startswith(("SCAN it", "SCAN invocations", "SCAN first")) and " INDEX " not in line:
            return True
        return "Seq Scan on invocations" in line or "invocations_of_service" in line

    def test_each_query(self):
        worker = Claimer("one", app, self.LEASE)

        async def told(db):
            await inbox.deliver(db, Outcome(), next(iter(ids)), journal.named_signal("go", journal.void()))

        ids = [self.create("Claims", "echoes", argument=b"1"), self.create("Claims", "queued", argument=b"1")]
        lists = [Filter(service="Claims"), Filter(status="done", service="Claims")]
        operations = [
            worker.enter,
            told,
            worker.sweep,
            worker.serve,
            lambda db: worker.claim(db, (), 500),
            lambda db: worker.claim(db, (), 500),
            operate.by_status,
            operate.waiting,
            operate.queues,
            lambda db: operate.invocations(db, Filter(status="paused")),
            lambda db: operate.invocations(db, Filter(status="failed", error="x")),
            lambda db: operate.purge(db, 1e10),
            lambda db: invocations.create(db, app, Outcome(), New("Thing", "adds", "k", b"1", idempotency_key="k")),
        ]
        found = self.statements(*operations)
        self.assertGreater(len(found), 10)
        self.assertEqual(self.db.done(operate.by_status)["done"], self.ENDED)
        for sql, values in found:
            with self.subTest(sql):
                self.assertEqual([line for line in self.plan(sql, values) if self.is_a_scan(line)], [])
        for sql, values in self.statements(*[lambda db, it=it: operate.invocations(db, it) for it in lists]):
            with self.subTest(sql):
                self.assertEqual([line for line in self.plan(sql, values) if self.is_a_scan(line) and "invocations_of_service" not in line], [])

    def test_what_waits_for_a_worker(self):
        """Neither what is paused for other reasons nor what waits for other workers is looked at, however much it is; nor by a worker in another language."""
        for how, service in (("paused", "Claims"), ("unserved", "Elsewhere")):
            self.db.change(
                f"INSERT INTO invocations(id, key, status, how, due, service, {self.columns}) SELECT '{how}_' || i, 'k', 'paused', '{how}', 1, '{service}',"
                f" {self.columns} {self.numbered}",
                (20_000,),
            )
        if self.kind == "postgres":
            self.db.change("ANALYZE invocations")
        statements = self.statements(Claimer("one", app, self.LEASE).serve)
        self.assertTrue(statements)
        if self.kind == "postgres":
            statements.append((re.sub(r"%\(\w+\)s", "?", protocol_of_others()["unserved"][0]), ("Claims", ["echoes"], 100)))
        for sql, values in statements:
            with self.subTest(sql):
                if self.kind == "sqlite":
                    self.assertIn("SEARCH invocations USING INDEX invocations_unserved (service=? AND handler=?)", self.plan(sql, values))
                else:
                    self.assertLess(self.pages(sql, values), 60)


if __name__ == "__main__":
    unittest.main()
