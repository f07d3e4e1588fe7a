"""Databases that a worker can't use: `palqytun run` says in one line what is wanted, before it claims anything. A standby is in test_servers."""

import asyncio
import os
import pathlib
import subprocess
import sys
import unittest

import support  # isort: skip
import runtime_app
from palqytun.runtime import invocations
from palqytun.runtime.database.plain import Plain
from palqytun.runtime.invocations import New
from palqytun.runtime.outcome import Outcome
from postgres import with_settings
from support import PYTHON, Runtime

APP = pathlib.Path(__file__).parent / "runtime_app.py"
ROLE = "palqytun_clerk"
# The command, beside a server whose version is older than the oldest that is allowed.
OLD = "import sys; from palqytun.runtime.database import postgres; postgres._OLDEST = 990000; from palqytun.runtime import command; sys.exit(command.main())"
RIGHTS = "a worker's user owns the tables, or has SELECT, INSERT, UPDATE, DELETE on all of them and USAGE on their sequences"


class Refusals(support.OnADatabase, unittest.TestCase):
    """An invocation is ready, and is ready afterwards: nothing was claimed."""

    kind = "postgres"

    def setUp(self):
        super().setUp()
        with Plain(self.url) as db:
            db.done(lambda to: invocations.create(to, runtime_app.app, Outcome(), New("S", "echo", "", b'"x"', id="inv_ready")))

    def change(self, *statements):
        with Plain(self.url) as db:
            for it in statements:
                db.change(it)

    def refused(self, url, *program):
        """The line that a worker says."""
        words = [sys.executable, *(program or ("-m", "palqytun")), "run", str(APP), "--db", url, "--port", "-1"]
        ran = subprocess.run(words, env={**os.environ, "PYTHONPATH": str(PYTHON / "src")}, capture_output=True, text=True, timeout=support.LONG)
        self.assertEqual((ran.returncode, ran.stdout), (2, ""), ran.stderr)
        with Plain(self.url) as db:
            self.assertEqual(db.rows("SELECT id, status, epoch FROM invocations"), [("inv_ready", "ready", 0)])
            self.assertEqual(db.rows("SELECT COUNT(*) FROM workers"), [(0,)])
        [line] = [it for it in ran.stderr.splitlines() if it.startswith("palqytun: ")]
        self.assertNotIn("Traceback", ran.stderr)
        return line

    def test_a_user_who_lacks_rights(self):
        with Plain(self.url) as db:
            [(schema,)] = db.rows("SELECT current_schema()::text")
        rights = [f"GRANT USAGE ON SCHEMA {schema} TO {ROLE}", f"GRANT SELECT ON ALL TABLES IN SCHEMA {schema} TO {ROLE}"]
        self.change(f"DROP ROLE IF EXISTS {ROLE}", f"CREATE ROLE {ROLE}", *rights)
        self.addCleanup(self.change, f"DROP OWNED BY {ROLE}", f"DROP ROLE {ROLE}")
        line = self.refused(with_settings(self.url, {"role": ROLE}))
        self.assertRegex(line, f"^palqytun: the user {ROLE} has no INSERT, UPDATE, DELETE on .*: {RIGHTS}$")

    def test_an_old_server(self):
        line = self.refused(self.url, "-c", OLD)
        self.assertRegex(line, "^palqytun: the server is PostgreSQL [0-9]+, and has to be 99 or newer$")

    def test_no_extension_is_needed(self):
        """Not even the one that each database has, so none that is absent stops a worker."""
        self.change("DROP DATABASE IF EXISTS palqytun_bare", "CREATE DATABASE palqytun_bare TEMPLATE template0")
        self.addCleanup(self.change, "DROP DATABASE palqytun_bare WITH (FORCE)")
        bare = f"{self.url}{'&' if '?' in self.url else '?'}dbname=palqytun_bare"

        async def go():
            async with Runtime(runtime_app.app, bare) as runtime:
                self.assertEqual(await runtime.rows("SELECT COUNT(*) FROM pg_extension"), [(1,)])
                await runtime.engine.transact(lambda db: db.change("DROP EXTENSION plpgsql"))
                self.assertEqual(await runtime.call("S/echo", "x"), "x")
                self.assertEqual(await runtime.rows("SELECT COUNT(*) FROM pg_extension"), [(0,)])

        asyncio.run(go())


if __name__ == "__main__":
    unittest.main()
