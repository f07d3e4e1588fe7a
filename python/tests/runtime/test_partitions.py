"""Partitions of a PostgreSQL database: they are made once, with all that the database holds, and a statement on one invocation or on one key touches one of them."""

import asyncio
import contextlib
import io
import os
import re
import sys
import unittest
from unittest import mock

import support  # isort: skip
import needs
import postgres
import recording
from support import LONG, TOP, Runtime

sys.path.insert(0, str(TOP / "python/bench"))
import large as bench  # noqa: E402
import places  # noqa: E402

if lacks := needs.lacks_postgres():
    raise unittest.SkipTest(lacks)
from palqytun.runtime import App, Context, Service, Workflow, WorkflowContext, command, journal, operate
from palqytun.runtime.database import Conflict, partitions, schema
from palqytun.runtime.database.plain import Plain

PAGE, PARTS, OWN = TOP / "docs/SCALE.md", 3, "parts"
THOROUGH = bool(os.environ.get("PALQYTUN_TEST_THOROUGH"))
COUNTS = "SELECT parent.relname::text, COUNT(*) FROM pg_inherits JOIN pg_class AS parent ON parent.oid=inhparent AND relkind='p' AND relnamespace=?::regnamespace GROUP BY 1"
INDEXES = "SELECT indexname::text, indexdef FROM pg_indexes WHERE schemaname=current_schema() AND tablename=ANY(?::text[])"
LIKE = "id, service, handler, key, exclusive, version, idem, seed, status, due, entries, created"
# Of statements that touch several partitions: a part of each, and why.
CLAIMS = "a claim takes what is due first of all partitions"
ELSEWHERE = "it is about other invocations, whichever these are"
OPERATORS = "an operator's list is of all partitions"
SEVERAL = {
    r"FROM timers WHERE due<=": CLAIMS,
    r"SELECT MIN\(due\)": CLAIMS,
    r"FROM inbox WHERE fresh=1": CLAIMS,
    r"FROM invocations AS it WHERE .* status='ready'": CLAIMS,
    r"status='suspended' AND id IN": CLAIMS,
    r"status='running' AND worker NOT IN": CLAIMS,
    r"FROM invocations WHERE deadline<=|FROM invocations WHERE expires<=": CLAIMS,
    r"WITH deleted0 AS": f"{ELSEWHERE}: what one that ends has awaited",
    r"handler=\$2 AND key=\$3 AND idem=": f"{ELSEWHERE}: that of an idempotency key, for a second request",
    r"COUNT\(\*\) FROM invocations|COUNT\(\*\) FROM \(SELECT 1 FROM invocations|MIN\(seq\)|DISTINCT": OPERATORS,
}
# These are made now and then, so a short run may be without them.
NOW_AND_THEN = {
    r"how='unserved'": CLAIMS,
    r"WHERE status='running' AND worker=": "what a worker has is compared with what it knows of",
    r"WHERE status='done' AND ended<": "a purge takes what ended first of all partitions",
}
# Of fences, which name the invocations of a group. The planner doesn't count on what it can leave out, and few invocations run: so it may read the index
# of these, `invocations_running`, in each partition.
FENCES = (r"^(WITH found AS \()?UPDATE invocations SET .* FROM unnest\(", r"^WITH asked AS \(SELECT \* FROM unnest\(")
DIVIDE = partitions.divide
kept, once = Service("Kept"), Workflow("Once")


@kept.handler()
async def echoes(ctx: Context, it: object) -> object:
    return it


@kept.handler()
async def waits(ctx: Context, _: None) -> object:
    return await ctx.signal("go")


@kept.handler()
async def goes_on(ctx: Context, left: int) -> str:
    if left:
        await ctx.signal("on")
        await ctx.continue_as_new(left - 1)
    return "over"


@once.main()
async def main(ctx: WorkflowContext, it: object) -> object:
    return it


app = App(kept, once)


def palqytun(*words):
    """The status of a command, and what it says."""
    said = io.StringIO()
    with mock.patch.object(sys, "argv", ["palqytun", *words]), contextlib.redirect_stdout(said), contextlib.redirect_stderr(said):
        try:
            return command.main(), said.getvalue()
        except SystemExit as ended:
            return ended.code, said.getvalue()


def rows_of(url):
    """All rows of all tables, except those of workers."""
    with Plain(url) as db:
        names = [it for it in schema.TABLES if it not in ("workers", "serving")]
        return {it: sorted(map(repr, db.rows(f"SELECT * FROM {it}"))) for it in names}


class Own(support.OnADatabase):
    """A test with a schema of its own, which has no tables yet."""

    kind = "postgres"

    def setUp(self):
        super().setUp()
        self.public, self.url = self.url, places.in_schema(self.url, OWN)
        self.dropped()
        self.sql(f"CREATE SCHEMA {OWN}")
        self.addCleanup(self.dropped)

    def dropped(self):
        self.sql(f"DROP SCHEMA IF EXISTS {OWN} CASCADE")

    def sql(self, sql):
        with Plain(self.public) as db:
            db.done(lambda to: to.change(sql))

    def rows(self, sql, *values):
        with Plain(self.public) as db:
            return db.rows(sql, values)

    def tables(self):
        """How many tables and indexes there are."""
        return self.rows("SELECT COUNT(*) FROM pg_class WHERE relnamespace=?::regnamespace", OWN)[0][0]

    def migrated(self, parts=PARTS):
        return palqytun("migrate", "--partitions", f"{parts}", "--db", self.url)


class Parted(support.InAFolder):
    """A test on tables with partitions and without rows. The tests of a class share them."""

    kind, parts = "postgres", PARTS

    @classmethod
    def setUpClass(cls):
        cls.public = postgres.url()
        made = places.partitioned(cls.public, cls.parts, OWN)
        cls.url = made.__enter__()
        cls.addClassCleanup(made.__exit__, None, None, None)

    def setUp(self):
        super().setUp()
        self.db = Plain(self.url)
        self.addCleanup(self.db.close)
        for it in schema.TABLES:
            self.db.change(f"DELETE FROM {it}")


class Made(Own, unittest.TestCase):
    def test_a_new_database(self):
        version, parts = f"the database has schema version {len(schema.MIGRATIONS)}", f"it has {PARTS} partitions"
        said = f"{version}, and had 0; {parts}; 0 invocations haven't ended"
        with mock.patch.object(partitions, "divide", self.divided):
            self.assertEqual(self.migrated(), (0, f"{said}\n"))
        self.assertEqual(self.migrated(), (0, f"{version} already; {parts} already; 0 invocations haven't ended\n"))
        self.assertIn(said.replace(parts, "it has 16 partitions"), (TOP / "docs/OPERATING.md").read_text())
        self.assertEqual(dict(self.rows(COUNTS, OWN)), dict.fromkeys([*partitions.PLACES, partitions.IDEMPOTENCY], PARTS))
        self.assertLessEqual(self.locks, partitions.locks(PARTS))  # the server has to have these, so what is said of them isn't too little
        self.assertGreater(self.locks, 0.8 * partitions.locks(PARTS))
        said = f"palqytun: the database has {PARTS} partitions, and their number doesn't change: begin a new database with 4\n"
        self.assertEqual(self.migrated(4), (2, said))

    async def divided(self, db, parts):
        copied = await DIVIDE(db, parts)
        [(self.locks,)] = await db.rows("SELECT COUNT(*) FROM pg_locks WHERE pid=pg_backend_pid()")
        return copied

    def test_what_is_refused(self):
        """One line says what is wanted, and nothing is made."""
        for parts in (0, partitions.MOST + 1, "many"):
            status, said = self.migrated(parts)
            self.assertEqual((status, said.splitlines()[-1].split("error: ")[1]), (2, f"argument --partitions: '{parts}' is no whole number from 1 to 1024"))
        sessions = sum(self.rows("SELECT current_setting('max_connections')::bigint, current_setting('max_prepared_transactions')::bigint")[0])
        many = partitions.needed(partitions.MOST)
        self.assertEqual(many, 12 * 60 * 1024)
        status, said = self.migrated(partitions.MOST)
        wanted = rf"palqytun: 1024 partitions take {many:,} locks at once, and the server has [0-9,]+: set max_locks_per_transaction={-(-many // sessions)} or more"
        self.assertEqual(status, 2)
        self.assertRegex(said, f"^{wanted}, or take fewer partitions\n$")
        self.assertEqual(self.tables(), 0)
        file = str(self.folder / "file.db")
        Plain(file).close()
        self.assertEqual(palqytun("migrate", "--partitions", "3", "--db", file), (2, f"palqytun: only PostgreSQL has partitions, and {file} is a SQLite file\n"))

    def test_a_server_without_a_lock_left(self):
        """An operation waits for one, and isn't thought to be wrong."""
        with Plain(self.public) as db, self.assertRaisesRegex(Conflict, "the server has too few locks: set max_locks_per_transaction"):
            db.rows("SELECT pg_advisory_xact_lock(i) FROM generate_series(1, 10000000) AS i")

    def test_what_is_in_the_way(self):
        """A worker that is alive, and a view of the user's: all is as it was."""
        Plain(self.url).close()
        with Plain(self.url) as db:
            db.change("CREATE VIEW own AS SELECT id FROM invocations")
            before = self.tables()
            said = "2BP01: cannot drop table invocations_whole because other objects depend on it"
            self.assertEqual(self.migrated(), (2, f"palqytun: the database gets no partitions: {said}\n"))
            self.assertEqual(self.tables(), before)
            db.change(f"INSERT INTO workers(id, lease) VALUES ('one', {db.db.clock}+60)")
        self.assertEqual(self.migrated(), (2, "palqytun: 1 worker is alive, and all is copied into the partitions: stop all workers first\n"))
        self.assertEqual(self.tables(), before)


class Copied(Own, unittest.TestCase):
    """A database that is in use gets partitions while no worker is alive, and a worker goes on."""

    def test_all_that_it_holds(self):
        asyncio.run(asyncio.wait_for(self.begun(), LONG))
        with Plain(self.url) as db:
            db.change("ALTER TABLE journal SET (autovacuum_vacuum_scale_factor=0.01)")
            db.change("GRANT SELECT ON invocations TO PUBLIC")
            db.change("CREATE VIEW own AS SELECT id FROM palqytun_invocations")
        before = rows_of(self.url)
        status, said = self.migrated()
        count = sum(len(before[it]) for it in partitions.PLACES)
        self.assertEqual((status, said.split("; ")[1]), (0, f"it has {PARTS} partitions, into which {count} rows were copied"))
        self.assertEqual(rows_of(self.url), before)
        options = self.rows(f"SELECT reloptions::text FROM pg_class WHERE oid='{OWN}.journal_1'::regclass")
        self.assertEqual(options, [("{autovacuum_vacuum_scale_factor=0.01}",)])
        self.assertEqual(self.rows(f"SELECT has_table_privilege('public', '{OWN}.invocations', 'SELECT')"), [(True,)])
        self.assertEqual(self.rows(f"SELECT COUNT(*) FROM {OWN}.own"), [(len(before["invocations"]),)])
        asyncio.run(asyncio.wait_for(self.goes_on(), LONG))

    async def begun(self):
        async with Runtime(app, self.url) as runtime:
            await runtime.call("Kept/echoes", 1, idempotency_key="done")
            await runtime.call("Once/main", 2, "k")
            for key in ("a", "b", "c", "d"):
                await runtime.until(await runtime.send("Kept/waits", idempotency_key=key), "suspended")

    async def goes_on(self):
        async with Runtime(app, self.url) as runtime:
            self.assertEqual(await runtime.call("Kept/echoes", 1, idempotency_key="done"), 1)
            self.assertEqual(await runtime.rows("SELECT COUNT(*) FROM invocations"), [(6,)])
            for key in ("a", "b", "c", "d"):
                waits = await runtime.send("Kept/waits", idempotency_key=key)
                self.assertTrue(await runtime.engine.notify(waits, journal.named_signal("go", journal.value(b'"on"'))))
                self.assertEqual(await runtime.result(waits), "on")
            self.assertEqual(await runtime.call("Kept/echoes", 3), 3)
            self.assertEqual(await runtime.rows("SELECT COUNT(*), COUNT(DISTINCT seq) FROM invocations"), [(7, 7)])


class Keys(Parted, unittest.TestCase):
    """An idempotency key is one of all partitions."""

    def made(self, id, idem, key=""):
        """Whether an invocation is made."""
        values = f"'{id}', 'Kept', 'echoes', '{key}', 0, 7, '{idem}', 1, 'done', 1, 1, 1"
        return self.db.change(f"INSERT INTO invocations({LIKE}) VALUES ({values}) ON CONFLICT DO NOTHING")

    def kept(self):
        found = self.db.rows("SELECT idem, invocation FROM idempotency ORDER BY invocation")
        self.assertEqual(found, self.db.rows("SELECT idem, id FROM invocations WHERE idem IS NOT NULL ORDER BY id"))
        return found

    def test_it_is_taken_once(self):
        """Whichever partition the second invocation's id has."""
        self.assertEqual([self.made(f"inv_{it}", "once") for it in range(10)], [1, *[0] * 9])
        self.assertEqual([self.made(f"inv_{it}", "once", "k") for it in range(10, 20)], [1, *[0] * 9])
        self.assertEqual(self.kept(), [("once", "inv_0"), ("once", "inv_10")])

    def test_an_id_that_is_there_takes_no_key(self):
        self.assertEqual([self.made("inv_0", "one"), self.made("inv_0", "two"), self.made("inv_1", "two")], [1, 0, 1])
        self.assertEqual(self.kept(), [("one", "inv_0"), ("two", "inv_1")])

    def test_it_is_given_back(self):
        self.made("inv_0", "one")
        self.db.change("UPDATE invocations SET idem=NULL")
        self.assertEqual((self.kept(), self.made("inv_1", "one")), ([], 1))
        self.db.change("DELETE FROM invocations WHERE id='inv_1'")
        self.assertEqual((self.kept(), self.made("inv_2", "one")), ([], 1))
        self.db.change("UPDATE invocations SET idem='two' WHERE id='inv_2'")
        self.assertEqual(self.kept(), [("two", "inv_2")])
        self.db.change("TRUNCATE invocations")
        self.assertEqual((self.kept(), self.made("inv_3", "two")), ([], 1))

    def test_many_at_once(self):
        """Of requests to two workers one makes the invocation; it hands the key on, and a restart takes it."""

        async def go():
            async with Runtime(app, self.url) as one, Runtime(app, self.url) as two:
                both = [it.send("Kept/goes_on", 2, idempotency_key="once") for it in (one, two) * 10]
                [first] = set(await asyncio.gather(*both))
                for _ in range(2):
                    self.assertTrue(await one.engine.notify(first, journal.named_signal("on", journal.value(b"null"))))
                self.assertEqual(await two.result(first), "over")
                last = await two.send("Kept/goes_on", 2, idempotency_key="once")
                self.assertNotEqual(last, first)
                self.assertEqual(await one.rows("SELECT COUNT(*) FROM invocations"), [(3,)])
                said = await one.engine.act("restart", last, "test")
                self.assertIn(again := (await one.rows("SELECT id FROM invocations WHERE origin=?", last))[0][0], said)
                self.assertEqual(await two.send("Kept/goes_on", 0, idempotency_key="once"), again)  # the argument of the last one

        asyncio.run(asyncio.wait_for(go(), LONG))
        self.assertEqual(len(self.kept()), 1)

    def test_a_purge(self):
        for it in range(10):
            self.made(f"inv_{it}", f"{it}")
        self.db.change("UPDATE invocations SET ended=1")
        self.db.done(lambda to: operate.purge(to, 1.0))
        self.assertEqual(self.kept(), [])


class Places(Parted, unittest.TestCase):
    parts = 16 if THOROUGH else PARTS

    def test_the_same_indexes(self):
        """Each has the columns of that without partitions; a unique one also what names the partition, except that of idempotency keys. The other database
        has partitions itself, if its pass has and a test before has made its tables."""
        tables = list(partitions.PLACES)
        with Plain(self.public) as public:
            plain, parted = (dict(it.rows(INDEXES, (tables,))) for it in (public, self.db))
        self.assertEqual(sorted(plain), sorted(parted))
        is_unique = "UNIQUE" in plain["invocations_idem"]
        for name, made in parted.items():
            columns = re.search(r"\((.*?)\)", plain[name])[1]
            self.assertIn(f"({columns}", made)
            self.assertEqual("UNIQUE" in plain[name], "UNIQUE" in made or (name == "invocations_idem" and is_unique), made)

    def test_statements_of_a_run(self):
        """None touches more partitions of a table than it names invocations or keys, except for those that are listed with a reason."""
        ended = 100_000 if THOROUGH else 2000
        bench.filled(self.db, ended, ended // 10)
        found = asyncio.run(recording.partitions(self, self.url))
        self.maxDiff = None
        others = {sql: tables for sql, tables in found.items() if not any(re.search(it, sql) for it in (*SEVERAL, *NOW_AND_THEN))}
        fences = {sql: tables for sql, tables in others.items() if any(re.search(it, sql) for it in FENCES)}
        self.assertEqual([it for it in fences.values() if it != {"invocations"}], [])
        self.assertEqual({sql: tables for sql, tables in others.items() if sql not in fences}, {})
        [gone] = [tables for sql, tables in found.items() if sql.startswith("WITH deleted0 AS")]
        self.assertEqual(gone, {"waiters", "promise_waiters"})
        self.assertEqual([it for it in SEVERAL if not any(re.search(it, sql) for sql in found)], [])

    def test_a_statement_that_names_no_place_is_seen(self):
        for sql, tables in (("DELETE FROM inbox WHERE seq=1", ["inbox"]), ("DELETE FROM inbox WHERE seq=1 AND invocation='inv_1'", [])):
            [(plan,)] = self.db.rows(f"{places.EXPLAIN}{sql}")
            self.assertEqual(places.several_of(plan), tables)

    def test_statements_of_the_protocol(self):
        """docs/SCALE.md lists those that touch several, and why."""
        listed = re.findall(r"^\| `([a-z-]+)` \| (`.*`) \| [a-z].* \|$", PAGE.read_text(), re.MULTILINE)
        self.assertEqual(places.several_in(self.url), {name: re.findall(r"`(\w+)`", those) for name, those in listed})
        [(several, count)] = re.findall(r"([0-9]+) of ([0-9]+) touch one partition of each table", PAGE.read_text())
        names = {name for name, _ in places.statements()}
        self.assertEqual((int(several), int(count)), (len(names) - len(listed), len(names)))


if __name__ == "__main__":
    unittest.main()
