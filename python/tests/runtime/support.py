"""What the tests stand on: this tree's package, an empty database for each test, and a worker.

PALQYTUN_LIBRARY may name the shared object. PALQYTUN_TEST_POSTGRES is the URL of a database that may be emptied, by a superuser; without it a
temporary cluster is made. PALQYTUN_TEST_IDLE is for how many seconds attempts wait before they are suspended; 0 without it. PALQYTUN_TEST_PARTITIONS is
how many partitions a PostgreSQL database gets; none without it.
"""

import asyncio
import functools
import json
import os
import pathlib
import shutil
import sys
import tempfile
import time
import unittest

TOP = pathlib.Path(__file__).resolve().parents[3]
PYTHON = TOP / "python"
sys.path[:0] = [str(PYTHON / "src"), str(PYTHON / "tests"), str(pathlib.Path(__file__).parent)]

import emptying  # noqa: E402
import needs  # noqa: E402
import postgres  # noqa: E402
import runtime_app  # noqa: E402
from palqytun import testing  # noqa: E402
from palqytun.runtime import desk, journal  # noqa: E402
from emptying import patient  # noqa: E402, F401
from palqytun.runtime.database import postgres as server  # noqa: E402
from palqytun.runtime.database.sqlite import SQLite  # noqa: E402
from palqytun.runtime.engine import Engine  # noqa: E402
from palqytun.runtime.invocations import New  # noqa: E402

IDLE = float(os.environ.get("PALQYTUN_TEST_IDLE", 0))
LONG = 300.0  # seconds after which a test that waits has failed, however busy its host is
LEASE = 60.0  # seconds; a host that stands still for a while makes no dead worker of one that lives
server._PATIENCE = desk._ANSWERED = LONG  # nor a database that doesn't reply


@functools.cache
def migrated():
    """A database in memory that was made by all migrations."""
    return SQLite(":memory:")


def copied(memory):
    """Makes a database in memory as a copy of one that was migrated. A test that lets a handler die at each commit has a hundred, and a seventh of its time
    would be for their migrations; test_migrations has these."""
    migrated()._connection.backup(memory._connection)


testing._Memory._migrate = copied


def emptied(kind, folder):
    """The URL of an empty database."""
    if kind == "sqlite":
        return str(folder / "db")
    url = postgres.url()
    emptying.emptied(url)
    return url


class InAFolder:
    """A test in a folder of its own."""

    def setUp(self):
        runtime_app.seen.clear()
        self.folder = pathlib.Path(tempfile.mkdtemp(prefix="palqytun-test-"))
        self.addCleanup(shutil.rmtree, self.folder, True)


class OnADatabase(InAFolder):
    """A test on an empty database."""

    kind = "sqlite"

    def setUp(self):
        if self.kind == "postgres" and (lacks := needs.lacks_postgres()):
            self.skipTest(lacks)
        super().setUp()
        self.url = emptied(self.kind, self.folder)


def on_each_database(tests):
    """Makes test cases of a class of tests, one for each database."""
    for kind in ("sqlite", "postgres"):
        name = f"{tests.__name__}_{kind}"
        case = type(name, (tests, unittest.TestCase), {"kind": kind, "__module__": tests.__module__, "__qualname__": name})
        setattr(sys.modules[tests.__module__], name, case)
    return tests


def suspends(test):
    """A test for which attempts that wait are to be suspended."""
    return unittest.skipIf(IDLE, "attempts that wait are to be suspended")(test)


def with_runtime(test):
    """A test with a worker."""

    @functools.wraps(test)
    def run(self):
        async def go():
            async with Runtime(runtime_app.app, self.url) as runtime:
                await test(self, runtime)

        asyncio.run(go())

    return run


class Runtime:
    def __init__(self, app, url, **options):
        self.engine = Engine(app, url, **{"idle": IDLE, "poll": 0.2, "lease": LEASE, **options})

    async def __aenter__(self):
        self.task = asyncio.create_task(self.engine.run())
        await asyncio.wait_for(self.engine.is_open(), LONG)
        return self

    async def __aexit__(self, *error):
        self.engine.stop()
        await self.task

    async def send(self, path, argument=None, key="", **options):
        name, handler = path.split("/")
        data = b"" if argument is None else json.dumps(argument).encode()
        return await self.engine.submit(New(name, handler, key, data, **options))

    async def result(self, id, wait=LONG):
        kind, it = journal.answer(await self.engine.result(id, wait))
        return (json.loads(it) if it else None) if kind == "value" else it

    async def call(self, *arguments, **options):
        return await self.result(await self.send(*arguments, **options))

    async def rows(self, sql, *values):
        return await self.engine.transact(lambda db: db.rows(sql, values))

    async def status(self, id):
        return (await self.rows("SELECT status, error FROM invocations WHERE id=?", id))[0]

    async def until(self, id, status):
        until = time.monotonic() + LONG
        while (found := await self.status(id))[0] != status:
            if time.monotonic() > until:
                raise AssertionError(found)
            await asyncio.sleep(0.02)
        return found

    async def until_rows(self, wanted, sql, *values):
        """Waits until a query has these rows."""
        until = time.monotonic() + LONG
        while (found := await self.rows(sql, *values)) != wanted:
            if time.monotonic() > until:
                raise AssertionError(found)
            await asyncio.sleep(0.02)

    async def time_passes(self, id):
        """An invocation is suspended, and then what it sleeps for is over: so no sleep ends before its attempt is suspended, however slow the host is."""
        await self.until(id, "suspended")
        await self.engine.transact(lambda db: db.change("UPDATE timers SET due=0 WHERE invocation=?", (id,)))
        self.engine.look()
