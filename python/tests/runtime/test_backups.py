"""Backups: a copy is made while a worker goes on; the database is lost later, and a worker goes on with the copy. SQLite by its online backup, PostgreSQL by
`pg_dump` and by a base backup with the log up to a point in time."""

import asyncio
import contextlib
import sqlite3
import time
import unittest

import support  # isort: skip
import needs
import postgres
from support import LONG, Runtime

from palqytun.runtime import App, Context, ObjectContext, Service, VirtualObject

trip, seat = Service("Trip"), VirtualObject("Seat")
did: list = []


@trip.handler()
async def goes(ctx: Context, name: str) -> list:
    """Books before it waits, and pays after that."""
    await ctx.run("book", lambda: did.append((name, "book", ctx.run_key)))
    taken = await ctx.call(take, name, key="seat")
    word = await ctx.signal("go", str)
    await ctx.run("pay", lambda: did.append((name, "pay", ctx.run_key)))
    return [taken, word]


@seat.handler()
async def take(ctx: ObjectContext, name: str) -> list:
    ctx.set("taken", [*(await ctx.get("taken", list) or []), name])
    return await ctx.get("taken", list)


@trip.handler()
async def sleeps(ctx: Context, seconds: float) -> str:
    await ctx.sleep(seconds)
    return "awake"


app = App(trip, seat)


async def begun(runtime, name):
    """A trip that waits for its signal."""
    id = await runtime.send("Trip/goes", name, idempotency_key=name)
    until = time.monotonic() + LONG
    while (name, "book") not in [it[:2] for it in did] or (await runtime.status(id))[0] != "suspended":
        assert time.monotonic() < until, did
        await asyncio.sleep(0.02)
    return id


async def ends(runtime, id):
    await runtime.engine.client.invocation(id).signal("go", "gone")
    return await runtime.result(id)


def keys(name, step):
    return [key for who, what, key in did if (who, what) == (name, step)]


class Lost(support.InAFolder):
    """A database that is lost, and its backup."""

    def setUp(self):
        super().setUp()
        did.clear()

    async def lost(self, url, backup):
        """What a worker does before a backup and after it, until its database is lost: the ids of a trip and a sleep from before, and of a trip from
        after."""
        async with Runtime(app, url, idle=0, lease=5) as runtime:  # in the copy this worker lives until its lease ends
            ann, sleep = await begun(runtime, "ann"), await runtime.send("Trip/sleeps", 0.5)
            await asyncio.to_thread(backup)
            ben = await begun(runtime, "ben")
            self.assertEqual(await ends(runtime, ann), [["ann"], "gone"])
            await runtime.result(sleep)
        return ann, sleep, ben

    async def restored(self, url, ann, sleep, ben):
        async with Runtime(app, url, idle=0) as runtime:
            self.assertEqual(await runtime.result(sleep), "awake")
            self.assertEqual(await runtime.rows("SELECT 1 FROM invocations WHERE id=?", ben), [])  # it came after the backup
            self.assertEqual(await ends(runtime, ann), [["ann"], "gone"])
            again = await begun(runtime, "ben")
            self.assertEqual(await ends(runtime, again), [["ann", "ben"], "gone"])
        self.assertEqual(len(keys("ann", "book")), 1)  # its record was in the backup
        self.assertEqual(len(keys("ann", "pay")), 2)  # this one wasn't, so it is done again, with its key
        self.assertEqual(len(set(keys("ann", "pay"))), 1)
        self.assertEqual(len(set(keys("ben", "book"))), 2)  # to the database it is another trip


class OnAFile(Lost, unittest.TestCase):
    def test_an_online_backup(self):
        def backup():
            with contextlib.closing(sqlite3.connect(url)) as source, contextlib.closing(sqlite3.connect(copy)) as target:
                source.backup(target)

        url, copy = str(self.folder / "db"), str(self.folder / "copy")
        found = asyncio.run(self.lost(url, backup))
        asyncio.run(self.restored(copy, *found))


class OnAServer(Lost, unittest.TestCase):
    kind = "servers of its own"  # whose settings no pass of tools/runtime changes

    def setUp(self):
        if lacks := needs.lacks_postgres():
            self.skipTest(lacks)
        super().setUp()

    def test_pg_dump(self):
        with postgres.cluster() as server, postgres.cluster() as other:
            found = asyncio.run(self.lost(server.url, lambda: server.program("pg_dump", "-Fc", "-f", server.folder / "dump")))
            (server.folder / "dump").chmod(0o644)
            server.folder.chmod(0o755)
            other.program("pg_restore", server.folder / "dump")
            server.kill()
            asyncio.run(self.restored(other.url, *found))

    def test_a_point_in_time(self):
        """The base backup is older than all, and the log has what came up to the point."""
        import psycopg

        with postgres.cluster(postgres.ARCHIVES) as server:
            base = server.base()

            def point():
                with psycopg.connect(server.url, autocommit=True) as db:
                    db.execute("SELECT pg_create_restore_point('noon')")

            found = asyncio.run(self.lost(server.url, point))
            with psycopg.connect(server.url, autocommit=True) as db:
                [(last,)] = db.execute("SELECT pg_walfile_name(pg_switch_wal())").fetchall()
                until = time.monotonic() + LONG
                while not (base.parent / "archive" / last).exists():
                    self.assertLess(time.monotonic(), until)
                    time.sleep(0.1)
            server.kill()
            with postgres.recovered(base, "noon") as again:
                asyncio.run(self.restored(again.url, *found))


if __name__ == "__main__":
    unittest.main()
