"""A database of each earlier schema, with invocations in flight, is moved to the newest one, and a worker ends what was begun.

`schemas/N.sql` is a SQLite database as a package of schema version N left it: its worker died in the middle of `flight_app.py`. From version 3 on
its rows are put into PostgreSQL too, into tables that the first N migrations make. These make the same tables on SQLite as the file has."""

import asyncio
import contextlib
import io
import multiprocessing
import os
import pathlib
import sqlite3
import sys
import time
import unittest
from unittest import mock

import support  # isort: skip
import postgres
from support import LONG, Runtime

from palqytun.runtime import command, inbox, journal
from palqytun.runtime.database import Unsuitable, connect, schema
from palqytun.runtime.database.plain import Plain
from palqytun.runtime.outcome import Outcome

SCHEMAS = pathlib.Path(__file__).parent / "schemas"
sys.path.append(str(SCHEMAS))
import flight_app  # noqa: E402

NEWEST = len(schema.MIGRATIONS)
KEPT = range(1, NEWEST)


def kept(version, path=":memory:"):
    """The database of a version, as a SQLite file."""
    made = sqlite3.connect(path)
    made.executescript((SCHEMAS / f"{version}.sql").read_text())
    return made


def tables(db):
    """The tables and indexes of a SQLite database, as they were made."""
    return sorted(row[0] for row in db.execute("SELECT sql FROM sqlite_master WHERE sql IS NOT NULL AND name NOT LIKE 'sqlite%'"))


def palqytun(*words):
    """The status and the output of a command."""
    said, wrong = io.StringIO(), io.StringIO()
    with mock.patch.object(sys, "argv", ["palqytun", *words]), contextlib.redirect_stdout(said), contextlib.redirect_stderr(wrong):
        return command.main(), said.getvalue() + wrong.getvalue()


class Kept(support.InAFolder, unittest.TestCase):
    def test_there_is_a_database_of_each_schema(self):
        """A new migration needs the database of the version before it: docs/DEPLOYING.md says how one is made."""
        self.assertEqual([it for it in KEPT if not (SCHEMAS / f"{it}.sql").is_file()], [])

    def test_no_migration_was_changed(self):
        for version in KEPT:
            with self.subTest(version), mock.patch.object(schema, "MIGRATIONS", schema.MIGRATIONS[:version]), mock.patch.object(schema, "_OLDEST", 1):
                path = str(self.folder / str(version))
                Plain(path).close()
                self.assertEqual(tables(sqlite3.connect(path)), tables(kept(version)))

    def test_results_in_another_form_are_refused(self):
        for version in (1, 2):
            path = str(self.folder / str(version))
            kept(version, path).close()
            status, said = palqytun("migrate", "--db", path)
            self.assertEqual(status, 2)
            self.assertIn(f"has schema version {version}, and this package reads 3 and later", said)


@support.on_each_database
class Migrations(support.OnADatabase):
    versions = tuple(it for it in KEPT if it >= 3)

    def tearDown(self):
        if self.kind == "postgres":
            self._dropped()

    def _dropped(self):
        """Leaves an empty database of the newest version, whatever is there."""

        async def drop():
            db = await connect(self.url)
            await db.begin()
            for it in (*schema.TABLES, "schema_versions"):
                db.put(f"DROP TABLE IF EXISTS {it} CASCADE")
            await db.commit()
            db.close()

        with mock.patch.object(schema, "missing", lambda *_: []), mock.patch("palqytun.runtime.database.postgres.missing", lambda *_: []):
            asyncio.run(drop())

    def _made(self, version):
        """The kept database of a version, at the test's URL."""
        if self.kind == "sqlite":
            self.url = str(self.folder / str(version))
            kept(version, self.url).close()
            return
        self._dropped()
        with mock.patch("palqytun.runtime.database.postgres.MIGRATIONS", schema.MIGRATIONS[:version]), mock.patch.object(schema, "MIGRATIONS", schema.MIGRATIONS[:version]):
            with Plain(self.url) as db:
                db.done(lambda to: self._filled(to, kept(version)))

    async def _filled(self, db, source):
        for table in schema.TABLES:
            try:
                names = [row[1] for row in source.execute(f"PRAGMA table_info({table})")]
                rows = source.execute(f"SELECT * FROM {table}").fetchall()
            except sqlite3.OperationalError:
                continue
            if rows:
                db.many(f"INSERT INTO {table}({','.join(names)}) VALUES ({','.join('?' * len(names))})", rows)
            if "seq" in names:
                db.put(f"SELECT setval(pg_get_serial_sequence('{table}', 'seq'), (SELECT COALESCE(MAX(seq), 0) + 1 FROM {table}), false)")
        db.put("UPDATE workers SET lease=0")  # that of a file's only worker has no end

    async def _ends(self):
        """A worker goes on with what the database holds."""
        async with Runtime(flight_app.app, self.url) as runtime:
            again = [("Trip/quick", "done before", "once"), ("Trip/sleeps", {"name": "ann", "seats": 2}, "sleeps"), ("Trip/dies", "dan", "dies")]
            found = [await runtime.send(path, argument, idempotency_key=key) for path, argument, key in again]
            self.assertEqual([await runtime.result(id) for id in found], ["DONE BEFORE", {"name": "ann", "seats": 3}, "survived"])
            [(waits,)] = await runtime.rows("SELECT id FROM invocations WHERE handler='waits'")
            await runtime.engine.transact(lambda db: inbox.deliver(db, Outcome(), waits, journal.signal(17, journal.value(b'"paid"'))))
            asks = await runtime.send("Trip/asks", "ben", idempotency_key="asks")
            self.assertEqual(await runtime.result(asks), ["asked", "ben paid"])
            await runtime.call("Visa/stamp", "stamped", "v")
            self.assertEqual(await runtime.result(await runtime.send("Visa/main", "cleo", "v")), "stamped")
            until = time.monotonic() + LONG
            while left := await runtime.rows("SELECT id, handler, status, error FROM invocations WHERE status<>'done'"):
                self.assertLess(time.monotonic(), until, left)
                await asyncio.sleep(0.02)
            self.assertEqual([await runtime.call("Seat/taken", key=key) for key in ("a", "late")], [10, 1])

    def test_invocations_in_flight_go_on(self):
        for version in self.versions:
            with self.subTest(version):
                self._made(version)
                status, said = palqytun("invocations", "list", "--db", self.url)
                self.assertEqual((status, said), (2, f"palqytun: {schema.NotMigrated(version)}\n"))
                if self.kind == "postgres":
                    with self.assertRaises(schema.NotMigrated):
                        Plain(self.url, lambda url: connect(url, worker=True))
                self.assertEqual(palqytun("migrate", "--db", self.url), (0, f"the database has schema version {NEWEST}, and had {version}; 8 invocations haven't ended\n"))
                self.assertEqual(palqytun("migrate", "--db", self.url), (0, f"the database has schema version {NEWEST} already; 8 invocations haven't ended\n"))
                asyncio.run(self._ends())

    def _lost(self):
        """A migration whose process, or on a server whose session, dies before its commit, once all its statements are made."""
        if self.kind == "postgres":
            changed = [*schema.MIGRATIONS[:-1], f"{schema.MIGRATIONS[-1]};\nSELECT pg_terminate_backend(pg_backend_pid())"]
            with mock.patch.object(schema, "MIGRATIONS", changed):
                status, said = palqytun("migrate", "--db", self.url)
            self.assertEqual(status, 2)
            self.assertRegex(said, "^palqytun: .*(terminating connection|closed the connection)")
            return
        dying = multiprocessing.get_context("fork").Process(target=_dies, args=(self.url,))
        dying.start()
        dying.join(LONG)
        self.assertEqual(dying.exitcode, 9)

    def test_a_migration_that_is_lost(self):
        version = self.versions[0]
        self._made(version)
        self._lost()
        self.assertEqual(palqytun("invocations", "list", "--db", self.url), (2, f"palqytun: {schema.NotMigrated(version)}\n"))
        self.assertEqual(palqytun("migrate", "--db", self.url), (0, f"the database has schema version {NEWEST}, and had {version}; 8 invocations haven't ended\n"))
        asyncio.run(self._ends())


def _dies(url):
    """The process of a migration ends after its last statement."""

    def made(*given):
        yield from schema.missing(*given)
        os._exit(9)

    with mock.patch("palqytun.runtime.database.sqlite.missing", made):
        palqytun("migrate", "--db", url)


class OwnSchema(Migrations, unittest.TestCase):
    """The tables are in the schema that the URL names, beside those of another application of the same names, which stay as they are."""

    kind = "postgres"
    versions = (3, NEWEST - 1)

    def setUp(self):
        super().setUp()
        self.public = self.url
        with Plain(self.public) as db:
            db.done(lambda to: to.change("DROP SCHEMA IF EXISTS own CASCADE"))
            db.done(lambda to: to.change("CREATE SCHEMA own"))
        self.url += "&options=-csearch_path%3Down"

    def tearDown(self):
        super().tearDown()
        sql = "SELECT table_name FROM information_schema.tables WHERE table_schema='own' AND table_type='BASE TABLE'"
        with Plain(self.public) as db:
            db.done(lambda to: to.change("DROP SCHEMA own CASCADE"))
            self.assertEqual(db.rows("SELECT COUNT(*) FROM invocations"), [(0,)])
            self.assertEqual(db.rows(sql), [])

    def test_a_new_database(self):
        """A worker sets it up by itself, and the views are there too."""

        async def go():
            async with Runtime(flight_app.app, self.url) as runtime:
                self.assertEqual(await runtime.call("Trip/quick", "ann"), "ANN")

        asyncio.run(asyncio.wait_for(go(), LONG))
        with Plain(self.public) as db:
            self.assertEqual(db.rows("SELECT status FROM own.palqytun_invocations"), [("done",)])
            there = {name for name, in db.rows("SELECT table_name FROM information_schema.tables WHERE table_schema='own' AND table_type='BASE TABLE'")}
            self.assertEqual(there, {*schema.TABLES, "schema_versions"})


class Place(support.OnADatabase, unittest.TestCase):
    """Where the tables of a new database are, if nobody names a place: beside those of an application that has tables of the same names, and one of its own."""

    kind = "postgres"
    name = "palqytun_place"

    def setUp(self):
        super().setUp()
        self.first, self.url = self.url, f"{self.url}{'&' if '?' in self.url else '?'}dbname={self.name}"
        self.change(self.first, f"DROP DATABASE IF EXISTS {self.name}", f"CREATE DATABASE {self.name}")
        self.addCleanup(self.change, self.first, f"DROP DATABASE {self.name}")
        theirs = postgres.with_settings(self.url, {"search_path": "theirs"})
        with mock.patch.object(schema, "missing", lambda *_: []), mock.patch("palqytun.runtime.database.postgres.missing", lambda *_: []):
            own = [f"CREATE TABLE public.{it}(theirs TEXT)" for it in ("invocations", "state", "schema_versions", "parcels")]
            self.change(theirs, *own, "INSERT INTO public.parcels VALUES ('pen')")

    def change(self, url, *statements):
        with Plain(url) as db:
            for it in statements:
                db.change(it)

    def in_schema(self, name):
        sql = f"SELECT table_name::text FROM information_schema.tables WHERE table_schema='{name}' AND table_type='BASE TABLE'"
        with Plain(self.url) as db:
            return {table for table, in db.rows(sql)}

    def test_a_schema_of_their_own(self):
        async def go():
            async with Runtime(flight_app.app, self.url) as runtime:
                self.assertEqual(await runtime.call("Trip/quick", "ann"), "ANN")
                return await runtime.rows("SELECT theirs FROM parcels")

        self.assertEqual(palqytun("migrate", "--db", self.url), (0, f"the database has schema version {NEWEST}, and had 0; 0 invocations haven't ended\n"))
        self.assertEqual(self.in_schema("palqytun"), {*schema.TABLES, "schema_versions"})
        self.assertEqual(asyncio.run(asyncio.wait_for(go(), LONG)), [("pen",)])
        self.assertEqual(self.in_schema("public"), {"invocations", "state", "schema_versions", "parcels"})
        with Plain(self.url) as db:
            self.assertEqual(db.rows("SELECT status FROM palqytun.palqytun_invocations"), [("done",)])
            self.assertEqual(db.rows("SELECT COUNT(*) FROM public.invocations"), [(0,)])

    def test_a_worker_makes_it(self):
        async def go():
            async with Runtime(flight_app.app, self.url) as runtime:
                self.assertEqual(await runtime.call("Trip/quick", "ann"), "ANN")

        asyncio.run(asyncio.wait_for(go(), LONG))
        self.assertEqual(self.in_schema("palqytun"), {*schema.TABLES, "schema_versions"})

    def test_a_place_that_the_user_or_the_database_has(self):
        for of in (f"DATABASE {self.name}", f"ROLE CURRENT_USER IN DATABASE {self.name}"):
            with self.subTest(of):
                self.change(self.first, f"ALTER {of} SET search_path TO shop")
                with mock.patch("palqytun.runtime.database.postgres.missing", lambda *_: []):
                    self.change(self.url, "DROP SCHEMA IF EXISTS shop CASCADE", "CREATE SCHEMA shop")
                Plain(self.url).close()
                self.assertEqual(self.in_schema("shop"), {*schema.TABLES, "schema_versions"})
                self.assertEqual(self.in_schema("palqytun"), set())
                self.change(self.first, f"ALTER {of} RESET search_path")

    def test_a_user_without_rights_there(self):
        """Nothing is made a second time, in another place."""
        Plain(self.url).close()
        self.change(self.first, "DROP ROLE IF EXISTS palqytun_visitor", "CREATE ROLE palqytun_visitor")
        self.addCleanup(self.change, self.first, "DROP ROLE palqytun_visitor")
        with self.assertRaisesRegex(Unsuitable, "the user palqytun_visitor has no USAGE on the schema palqytun, in which the tables are"):
            Plain(postgres.with_settings(self.url, {"role": "palqytun_visitor"}))

    def test_a_user_who_may_make_no_schema(self):
        """The tables are where the path leads, as by earlier packages."""
        guest = postgres.with_settings(self.url, {"role": "palqytun_tenant"})
        self.change(self.first, "DROP ROLE IF EXISTS palqytun_tenant", "CREATE ROLE palqytun_tenant")
        self.addCleanup(self.change, self.first, "DROP ROLE palqytun_tenant")
        with mock.patch("palqytun.runtime.database.postgres.missing", lambda *_: []):
            self.change(self.url, "DROP TABLE public.invocations, public.state, public.schema_versions", "GRANT ALL ON SCHEMA public TO palqytun_tenant")
            self.addCleanup(self.change, self.url, "DROP OWNED BY palqytun_tenant CASCADE")
        Plain(guest).close()
        with Plain(guest, lambda url: connect(url, worker=True)) as db:
            self.assertEqual(db.rows("SELECT COUNT(*) FROM invocations"), [(0,)])
        self.assertEqual(self.in_schema("public"), {*schema.TABLES, "schema_versions", "parcels"})
        self.assertEqual(self.in_schema("palqytun"), set())


class InPublic(Migrations, unittest.TestCase):
    """Tables that an earlier package has made where the path leads stay there, and are found by who names no place."""

    kind = "postgres"
    versions = (3, NEWEST - 1)
    name = "palqytun_public"

    def setUp(self):
        super().setUp()
        self.first, self.plain = self.url, f"{self.url}{'&' if '?' in self.url else '?'}dbname={self.name}"
        with Plain(self.first) as db:
            db.change(f"DROP DATABASE IF EXISTS {self.name}")
            db.change(f"CREATE DATABASE {self.name}")

    def tearDown(self):
        with Plain(self.first) as db:
            db.change(f"DROP DATABASE {self.name}")

    def _made(self, version):
        self.url = postgres.with_settings(self.plain, {"search_path": "public"})
        super()._made(version)
        self.url = self.plain

    async def _ends(self):
        await super()._ends()
        with contextlib.closing(await connect(self.url)) as db:
            self.assertEqual(await db.rows("SELECT current_schema()::text, to_regclass('public.invocations') IS NOT NULL, to_regnamespace('palqytun') IS NULL"), [("public", True, True)])


if __name__ == "__main__":
    unittest.main()
