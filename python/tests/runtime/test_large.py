"""A PostgreSQL database with 100,000 invocations that have ended and 10,000 that wait: each statement of a worker finds its rows by an index, and a claim
looks at as many pages as in a database with a hundredth of them."""

import asyncio
import re
import sys
import unittest

import support  # isort: skip
import needs
from support import TOP, Runtime

PAGE = TOP / "docs/SCALE.md"
sys.path.insert(0, str(TOP / "python/bench"))
import large as bench  # noqa: E402
import recording  # noqa: E402

if lacks := needs.lacks_postgres():
    raise unittest.SkipTest(lacks)
from palqytun.runtime.database import connect, pipeline
from palqytun.runtime.database.plain import Plain
from palqytun.runtime.database.schema import TABLES

ENDED, SUSPENDED = 100_000, 10_000
# A scan of a whole table is no fault here: they have a row for each worker, or for each of the app's schedules, handlers with a limit, and queues.
SMALL = {"workers", "serving", "schedules", "limits", "queues", "starts"}


class Large(support.OnADatabase, unittest.TestCase):
    kind = "postgres"

    def setUp(self):
        super().setUp()
        self.addCleanup(self.emptied)

    def emptied(self):
        """The next test's planner knows of no large table."""
        with Plain(self.url) as db:
            bench.emptied(db)

    def filled(self, ended, waiting):
        with Plain(self.url) as db:
            bench.filled(db, ended, waiting)

    def recorded(self):
        """The statements of a run, each once."""
        return asyncio.run(recording.statements(self, self.url))

    def plans(self, statements):
        """The lines of each statement's plan."""

        async def go():
            db = await connect(self.url)
            for it in statements:
                if it.sql.startswith(recording.VERBS):
                    await db.begin()
                    result = await db._send(it._replace(sql=b"EXPLAIN " + it.sql, otherwise=None))
                    yield it.sql.decode(), [line for line, in await db._pipeline.rows(result)]
                    await db.rollback()
            db.close()

        async def all_of_them():
            return [it async for it in go()]

        return asyncio.run(all_of_them())

    def test_each_statement_of_a_run_has_its_index(self):
        self.filled(ENDED, SUSPENDED)
        without = pipeline.statement("SELECT id FROM invocations WHERE error=?", ("that no index has",))
        scans, seen = [], set()
        for sql, lines in self.plans([*self.recorded(), without]):
            whole = {line.split(" on ")[1].split()[0] for line in lines if "Seq Scan on " in line}
            seen |= {it for it in TABLES if f" on {it} " in "\n".join(lines) or f" on {it}\n" in "\n".join(lines)}
            scans += [(table, sql) for table in whole & set(TABLES) - SMALL]
        self.assertEqual(scans, [("invocations", without.sql.decode())])
        self.assertLessEqual({"invocations", "journal", "inbox", "timers", "waiters", "state", "promises", "promise_waiters", "locks"}, seen)

    def test_a_claim_costs_the_same_in_a_large_database(self):
        counts = []
        for part in (100, 1):
            self.filled(ENDED // part, SUSPENDED // part)
            with Plain(self.url) as db:
                counts.append(bench.claims(db))
            self.emptied()
        # Each index of a table of a hundred times the rows is at most one level higher, and ten rows are found and written by some.
        self.assertLess(counts[1], 2 * counts[0], counts)

    def test_each_index_is_listed(self):
        """docs/SCALE.md has the query that each serves."""
        listed = re.findall(r"^\| `([a-z_]+)` \| [a-z]", PAGE.read_text(), re.MULTILINE)
        with Plain(self.url) as db:
            found = db.rows("SELECT indexname::text FROM pg_indexes WHERE schemaname=current_schema() AND tablename=ANY(?::text[])", (list(TABLES),))
        self.assertEqual(sorted(listed), sorted(name for name, in found))

    def test_the_settings_of_autovacuum(self):
        """Those of docs/SCALE.md, as they stand there. A worker works beside them."""
        [block] = re.findall(r"^```sql\n(.*?)^```$", PAGE.read_text(), re.MULTILINE | re.DOTALL)
        statements = block.strip().removesuffix(";").split(";\n")
        self.assertGreater(len(statements), 4)
        with Plain(self.url) as db:
            support.patient(db)
            for it in statements:
                table, names = re.fullmatch(r"ALTER TABLE (\w+) SET \((.*)\)", it).groups()
                db.change(it)
                [(options,)] = db.rows("SELECT array_to_string(reloptions, ', ') FROM pg_class WHERE oid=to_regclass(?)", (table,))
                self.assertEqual(options, names)
                self.addCleanup(self.change, f"ALTER TABLE {table} RESET ({', '.join(one.split('=')[0] for one in names.split(', '))})")

        async def go():
            async with Runtime(recording.app, self.url, idle=0) as runtime:
                self.assertEqual(await runtime.call("Large/does", 2), 2)

        asyncio.run(go())

    def change(self, sql):
        with Plain(self.url) as db:
            support.patient(db)
            db.change(sql)


if __name__ == "__main__":
    unittest.main()
