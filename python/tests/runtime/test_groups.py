"""Groups of operations: a bad member undoes nothing of the others, and what is in the way of one keeps nobody else out."""

import asyncio
import sqlite3
import time
import unittest
from unittest import mock

import support  # isort: skip
import runtime_app
from palqytun.runtime import App, ObjectContext, TerminalError, VirtualObject, committer, desk, invocations
from palqytun.runtime.committer import Committer
from palqytun.runtime.database import Conflict, Each, Lost, Reading, StatementFailed, connect
from palqytun.runtime.database.plain import Plain
from palqytun.runtime.invocations import New
from palqytun.runtime.outcome import Outcome


def inserted(name):
    return lambda db: db.change("INSERT INTO workers VALUES (?, 0)", (name,))


def put(*names):
    """Changes whose errors are raised later."""

    async def operation(db):
        for it in names:
            db.put("INSERT INTO workers VALUES (?, 0)", (it,))

    return operation


async def refused(db):
    await inserted("refused")(db)
    raise TerminalError("no", 400)


cell = VirtualObject("Cell")


@cell.handler()
async def many(ctx: ObjectContext, n: int) -> None:
    """Changes of the state that are stored together: the last value of a name counts."""
    for it in (1, 2, n):
        ctx.set("last", it)
    ctx.set(f"of {n}", n)
    await ctx.run("stored", lambda: None)
    ctx.set("gone", 1)
    ctx.clear("gone")
    ctx.clear("last")
    ctx.set("last", [n])
    ctx.set("new", n)
    await ctx.run("stored too", lambda: None)
    if n % 2:
        ctx.clear_all()
        ctx.set("only", n)


@support.on_each_database
class States(support.OnADatabase):
    def test_the_last_change_counts(self):
        """Of each of twenty keys at once."""
        keys = [f"{n:02d}" for n in range(20)]

        async def go():
            async with support.Runtime(App(cell), self.url) as runtime:
                await asyncio.gather(*(runtime.call("Cell/many", n, key) for n, key in enumerate(keys)))
                return await runtime.rows("SELECT key, name, value FROM state ORDER BY key, name")

        expected = []
        for n, key in enumerate(keys):
            even = [("last", f"[{n}]"), ("new", f"{n}"), (f"of {n}", f"{n}")]
            expected += [(key, name, value) for name, value in ([("only", f"{n}")] if n % 2 else sorted(even))]
        self.assertEqual([(key, name, bytes(value).decode()) for key, name, value in asyncio.run(go())], expected)


@support.on_each_database
class Groups(support.OnADatabase):
    def with_committer(self, test):
        async def go():
            to = Committer(await connect(self.url))
            try:
                await test(to)
            finally:
                await to.close()

        asyncio.run(go())

    def names(self):
        with Plain(self.url) as db:
            return [it for it, in db.rows("SELECT id FROM workers ORDER BY id")]

    def test_bad_members(self):
        """Whatever is wrong with them: the operation's own refusal, a row that is there, a value that can't be stored, a statement without
        meaning. The others are committed, by two transactions however many are bad."""
        wrong = [
            refused,
            inserted("first"),
            put("second", "second"),
            lambda db: db.rows("SELECT no FROM nothing"),
            lambda db: db.change("INSERT INTO workers VALUES (?, 0)", (2**80,)),
            lambda db: db.change("INSERT INTO workers VALUES (?, 0)", ("\ud800",)),
        ]

        async def test(to):
            await to.submit(inserted("first"))
            before = to.counts["transactions"]
            good = [to.submit(inserted(f"good {n:02d}")) for n in range(10)]
            bad = [to.submit(it) for it in wrong]
            more = [to.submit(put(f"more {n:02d}")) for n in range(10)]
            errors = [type(it) for it in await asyncio.gather(*bad, return_exceptions=True)]
            self.assertEqual(errors, [TerminalError, *[StatementFailed] * 5])
            self.assertEqual(await asyncio.gather(*good), [1] * 10)
            await asyncio.gather(*more)
            self.assertLessEqual(to.counts["transactions"] - before, 4)

        self.with_committer(test)
        self.assertEqual(self.names(), ["first", *[f"good {n:02d}" for n in range(10)], *[f"more {n:02d}" for n in range(10)]])

    def test_changes_of_rows_that_are_alike(self):
        """They are made by their ranks, those of a rank without types in their order, and all before the statement that follows. A server makes those of a
        shape in one statement, whose count is that of its rows."""
        second = Each(2, "UPDATE workers SET lease=lease+?{rows} WHERE id=?", "double precision", "text")
        first = Each(1, "INSERT INTO workers(id, lease) SELECT ?,?{rows}", "text", "double precision")
        kept = Each(3, "UPDATE workers SET lease=lease*10 WHERE id=?"), Each(3, "UPDATE workers SET lease=lease+1 WHERE id=?")
        gone = Each(4, "DELETE FROM workers{rows} WHERE id=? AND lease>?", "text", "double precision", by="USING")

        def made(count, missing=None):
            async def operation(db):
                for n in range(count):
                    if not db.is_remote:  # a file's are made as they come
                        db.each(first, (f"{n:03d}", 1.0))
                    db.each(second, (float(n), f"{n:03d}"), TerminalError("it isn't there", 404))
                    if db.is_remote:
                        db.each(first, (f"{n:03d}", 1.0))
                if missing is not None:
                    db.each(second, (0.0, missing), TerminalError("it isn't there", 404))
                for it in kept * 2:
                    db.each(it, ("001",))
                db.each(gone, ("000", 0.0))
                return await db.rows("SELECT COUNT(*), MAX(lease) FROM workers")

            return operation

        async def test(to):
            many = 450  # more than one statement takes
            self.assertEqual(await to.submit(made(many)), [(many - 1, float(many))])
            self.assertEqual(await to.submit(lambda db: db.rows("SELECT lease FROM workers WHERE id='001'")), [(((2 * 10 + 1) * 10 + 1),)])
            await to.submit(lambda db: db.change("DELETE FROM workers"))
            with self.assertRaisesRegex(TerminalError, "it isn't there"):
                await to.submit(made(3, "nobody"))
            self.assertEqual(await to.submit(lambda db: db.rows("SELECT * FROM workers")), [])

        self.with_committer(test)

    def test_queries_that_are_alike(self):
        """Each has its own rows, in their order, and none if there are none."""
        read = Reading("SELECT seq, frame FROM inbox WHERE invocation=? ORDER BY seq LIMIT ?", "text", "bigint")
        other = Reading("SELECT id FROM workers WHERE id=?", "text")

        async def test(to):
            await to.submit(inserted("here"))
            sql = "INSERT INTO inbox(invocation, frame) VALUES (?,?)"
            for n in range(6):
                await to.submit(lambda db, n=n: db.change(sql, ("ab"[n % 2], b"%d" % n)))
            asked = [(read, ("b", 2)), (other, ("here",)), (read, ("a", 9)), (read, ("c", 9)), ("SELECT 7", ()), (other, ("away",))]
            found = await to.submit(lambda db: db.several(asked))
            frames = [[bytes(frame) for _, frame in found[at]] for at in (0, 2, 3)]
            self.assertEqual(frames, [[b"1", b"3"], [b"0", b"2", b"4"], []])
            self.assertEqual([found[at] for at in (1, 4, 5)], [[("here",)], [(7,)], []])

        self.with_committer(test)

    def test_a_conflict_is_never_final(self):
        """However often it is met; and meanwhile others are stored."""
        tries, stored = [], []

        async def conflicts(db):
            tries.append(1)
            await inserted("late")(db)
            if len(tries) < 40 or len(stored) < 20:
                raise Conflict("not yet")

        async def test(to):
            with mock.patch.object(committer, "_LONGEST", 0.05):
                late = to.submit(conflicts)
                for n in range(20):
                    stored.append(await to.submit(inserted(f"{n:02d}")))
                await asyncio.wait_for(late, support.LONG)

        self.with_committer(test)
        self.assertGreaterEqual(len(tries), 40)
        self.assertEqual(len(self.names()), 21)

    def test_a_further_connection_that_fails_when_the_first_is_free(self):
        """One is tried for since a group is slow. Once it is known that there is none, nothing is in work any more."""

        async def test(to):
            tried = asyncio.Event()

            async def another():
                tried.set()
                await slow
                while to._working:
                    await asyncio.sleep(0)
                raise Lost("there is none")

            async def waits(db):
                await tried.wait()
                await inserted("slow")(db)

            with mock.patch.object(to.db, "another", another):
                slow = to.submit(waits)
                while to._queue:
                    await asyncio.sleep(0)
                await asyncio.wait_for(to.submit(inserted("next")), support.LONG)

        self.with_committer(test)
        self.assertEqual(self.names(), ["next", "slow"])

    def test_a_further_connection_is_tried_for_again(self):
        """While the slow group is still in work."""

        async def test(to):
            tries, ended, another = [], asyncio.Event(), to.db.another

            async def second():
                tries.append(1)
                if len(tries) < 3:
                    raise Conflict("too many connections")
                ended.set()
                return await another()

            async def waits(db):
                await ended.wait()

            with mock.patch.object(to.db, "another", second), mock.patch.object(committer, "_WITHOUT", 0.05):
                slow = to.submit(waits)
                while to._queue:
                    await asyncio.sleep(0)
                await asyncio.wait_for(to.submit(inserted("next")), support.LONG)
                await asyncio.wait_for(slow, support.LONG)

        self.with_committer(test)

    def test_groups_that_cannot_begin(self):
        """By a fault of the runtime's own: who waits is told, and the session ends."""

        async def test(to):
            with mock.patch.object(to, "_free", side_effect=ValueError("a fault")), self.assertLogs("palqytun", "ERROR"):
                with self.assertRaisesRegex(committer.Stopped, "a fault"):
                    await asyncio.wait_for(to.submit(inserted("never")), support.LONG)
            self.assertTrue(to.is_lost.is_set())

        self.with_committer(test)

    def test_who_does_not_wait_any_more(self):
        """An operation whose future was cancelled isn't made again."""

        async def conflicts(db):
            raise Conflict("for ever")

        async def test(to):
            future = to.submit(conflicts)
            await asyncio.sleep(0.2)
            future.cancel()
            await to.submit(inserted("next"))
            count = to.counts["conflicts"]
            await asyncio.sleep(0.5)
            self.assertLessEqual(to.counts["conflicts"], count + 1)

        self.with_committer(test)

    @staticmethod
    def some():
        """Invocations, one of which has a name."""
        return [New("S", "echo", argument=b"%d" % n, id=id) for n, id in ((0, None), (1, None), (2, None), (1, "inv_bad"), (0, None), (1, None), (2, None))]

    def test_a_claim_whose_row_fails(self):
        """The invocation is paused with what the database says, and the worker goes on with the others."""
        if self.kind == "sqlite":
            statements = [
                "CREATE TRIGGER fails BEFORE UPDATE ON invocations WHEN NEW.id='inv_bad' AND NEW.status='running'"
                " BEGIN SELECT RAISE(ABORT, 'it fails'); END"
            ]
        else:
            statements = [
                "CREATE FUNCTION fails() RETURNS trigger LANGUAGE plpgsql AS $$ BEGIN RAISE EXCEPTION 'it fails'; END $$",
                "CREATE TRIGGER fails BEFORE UPDATE ON invocations FOR EACH ROW WHEN (NEW.id='inv_bad' AND NEW.status='running') EXECUTE FUNCTION fails()",
            ]
            self.addCleanup(self.change, "DROP FUNCTION fails CASCADE")
        self.change(*statements)
        with Plain(self.url) as db:
            made = [db.done(lambda to, it=it: invocations.create(to, runtime_app.app, Outcome(), it))[0] for it in self.some()]
        good = [it for it in made if it != "inv_bad"]

        async def go():
            async with support.Runtime(runtime_app.app, self.url) as runtime:
                self.assertEqual([await runtime.result(it) for it in good], [0, 1, 2] * 2)
                self.assertRegex((await runtime.until("inv_bad", "paused"))[1], "it can't be claimed: .*it fails")

        asyncio.run(go())

    def change(self, *statements):
        with Plain(self.url) as db:
            for it in statements:
                db.change(it)


class AFileThatIsLocked(support.OnADatabase, unittest.TestCase):
    """Another program writes to the worker's SQLite file."""

    def test_the_loop_goes_on_and_so_does_the_worker(self):
        async def go():
            async with support.Runtime(runtime_app.app, self.url) as runtime:
                self.assertEqual(await runtime.call("S/echo", 1), 1)
                other = sqlite3.connect(self.url, isolation_level=None)
                other.execute("BEGIN IMMEDIATE")
                waits, made = asyncio.create_task(runtime.call("S/echo", 2)), runtime.engine._committer
                self.assertEqual(made.db._connection.execute("PRAGMA busy_timeout").fetchall(), [(0,)])  # it isn't waited for in SQLite, but in the loop
                before = made.counts["conflicts"]
                while made.counts["conflicts"] < before + 20:
                    await asyncio.sleep(0.01)
                self.assertFalse(waits.done())
                other.execute("ROLLBACK")
                self.assertEqual(await asyncio.wait_for(waits, support.LONG), 2)
                other.close()

        asyncio.run(go())

    def test_a_request_that_waits_for_too_long(self):
        async def go():
            async with support.Runtime(runtime_app.app, self.url) as runtime:
                other = sqlite3.connect(self.url, isolation_level=None)
                other.execute("BEGIN IMMEDIATE")
                with mock.patch.object(desk, "_ANSWERED", 0.3), self.assertRaisesRegex(TerminalError, "something has been in the way") as caught:
                    await runtime.send("S/echo", 1)
                self.assertEqual(caught.exception.code, 503)
                other.close()
                self.assertEqual(await runtime.call("S/echo", 2), 2)

        asyncio.run(go())

    def test_a_reader_keeps_no_worker_out(self):
        """What reads sees one state of the database, as long as it takes."""

        async def counts(db):
            before = await db.rows("SELECT COUNT(*) FROM workers")
            writer.execute("INSERT INTO workers VALUES ('new', 0)")
            return before == await db.rows("SELECT COUNT(*) FROM workers")

        with Plain(self.url) as reader:
            writer = sqlite3.connect(self.url, isolation_level=None)
            self.assertTrue(reader.read(counts))
            self.assertEqual(reader.rows("SELECT id FROM workers"), [("new",)])
            writer.close()

    def test_a_file_that_is_locked_when_it_is_opened(self):
        """One that was opened before needs no lock to be opened again."""
        Plain(self.url).close()
        other = sqlite3.connect(self.url, isolation_level=None)
        other.execute("BEGIN IMMEDIATE")
        with Plain(self.url) as db:
            self.assertEqual(db.rows("SELECT * FROM workers"), [])
            with self.assertRaises(Conflict):
                db.change("INSERT INTO workers VALUES ('one', 0)")
        other.close()


if __name__ == "__main__":
    unittest.main()
