"""Queues: limits of several handlers, over all workers, by key and by worker; rates, priorities, and turns of keys."""

import asyncio
import secrets
import unittest

import support  # isort: skip
from support import Runtime

from palqytun import frames
from palqytun.runtime import App, Client, Context, ObjectContext, Queue, Service, TerminalError, VirtualObject, gather, inbox, invocations, journal, operate, queues
from palqytun.runtime.claiming import Claimer
from palqytun.runtime.database.plain import Plain
from palqytun.runtime.invocations import New
from palqytun.runtime.outcome import Outcome
from palqytun.testing import Testing, crash_everywhere

WIDE, KEYED, RATED = Queue("wide", concurrency=3, per_worker=2), Queue("keyed", concurrency=4, per_key=2), Queue("rated", rate=(2, 100))
work, box, seen = Service("Work"), VirtualObject("Box"), []


@work.handler(queue=WIDE)
async def one(ctx: Context, it: object) -> None: ...


@work.handler(queue=WIDE)
async def two(ctx: Context, it: object) -> None: ...


@work.handler(queue=KEYED)
async def keyed(ctx: Context, it: object) -> str:
    return ctx.headers.get(queues.KEY, "")


@work.handler(queue=RATED)
async def rated(ctx: Context, it: object) -> None: ...


@work.handler()
async def free(ctx: Context, it: object) -> None: ...


@box.handler(queue=Queue("boxes", per_key=1))
async def fills(ctx: ObjectContext, it: int) -> list:
    ctx.set("all", [*(await ctx.get("all", list) or []), it])
    return await ctx.get("all", list)


@work.handler()
async def calls(ctx: Context, it: object) -> list:
    await ctx.send(keyed, priority=5, queue_key="ann")
    return [await ctx.call(keyed, queue_key="ben"), await ctx.call(fills, 1, key="k", priority=-1)]


@work.handler()
async def many(ctx: Context, it: object) -> list:
    called = [ctx.call(keyed, queue_key=str(n % 2)) for n in range(4)] + [ctx.call(fills, n, key="k") for n in range(2)]
    await gather(*[ctx.call(rated) for _ in range(3)])
    return [await it for it in called]


app = App(work, box)


class OnAConnection(support.OnADatabase):
    def setUp(self):
        super().setUp()
        self.plain = Plain(self.url)
        self.addCleanup(self.plain.close)
        self.workers = [self.worker(name) for name in ("one", "two")[: 1 + self.plain.db.is_shared]]

    def worker(self, name, of=app):
        claimer = Claimer(f"{name}-{secrets.token_hex(4)}", of, 10 * support.LONG)
        self.done(claimer.enter)
        return claimer

    def done(self, operation, *arguments):
        return self.plain.done(lambda db: operation(db, *arguments))

    def rows(self, sql, *values):
        return self.done(lambda db: db.rows(sql, values))

    def make(self, handler, count=1, service="Work", key="", **headers):
        """Invocations that are due since a minute."""
        named = tuple((name, str(it)) for name, it in zip((queues.KEY, queues.PRIORITY), (headers.get("queue_key"), headers.get("priority"))) if it is not None)
        ids = [self.done(invocations.create, app, Outcome(), New(service, handler, key, headers=named))[0] for _ in range(count)]
        self.done(lambda db: db.change("UPDATE invocations SET due=due-60 WHERE epoch=0 AND due>created-1"))
        return ids

    def claim(self, worker=0, room=100):
        found = self.done(self.workers[worker].claim, (), room)
        return [it.invocation for it in found.claims]

    def end(self, *ids):
        for id in ids:
            self.done(lambda db: db.change("UPDATE invocations SET status='done' WHERE id=?", (id,)))


@support.on_each_database
class Limits(OnAConnection):
    def test_concurrency_of_handlers_and_workers(self):
        ids = self.make("one", 3) + self.make("two", 3)
        nobodys = self.make("free", 2)
        found = self.claim()
        self.assertEqual(sorted(found), sorted([*nobodys, *ids[:2]]))
        self.assertEqual(self.claim(), [])
        if self.plain.db.is_shared:
            self.assertEqual(self.claim(1), ids[2:3])  # three at once in all
            self.end(ids[0], ids[2])
            self.assertEqual([self.claim(1, 1), self.claim(0)], [ids[3:4], ids[4:5]])
        else:
            self.end(ids[0])
            self.assertEqual(self.claim(), ids[2:3])

    def test_keys(self):
        ann, ben = self.make("keyed", 5, queue_key="ann"), self.make("keyed", 1, queue_key="ben")
        self.assertEqual(sorted(self.claim()), sorted([*ann[:2], *ben]))
        self.assertEqual(self.claim(), [])
        self.end(ann[0])
        self.assertEqual(self.claim(), ann[2:3])

    def again(self, *ids):
        """These are ready, and have begun before."""
        for id in ids:
            self.done(lambda db, id=id: db.change("UPDATE invocations SET epoch=1 WHERE id=?", (id,)))

    def wake(self, *ids):
        """These were suspended, and what they waited for has come."""
        suspension = frames.frame_of("Suspension future=(kind=FirstCompleted signals=[17])")
        for id in ids:
            self.done(lambda db, id=id: db.change("UPDATE invocations SET status='suspended', suspension=?, epoch=1 WHERE id=?", (suspension, id)))
            self.done(lambda db, id=id: inbox.deliver(db, Outcome(), id, journal.signal(17, journal.void())))

    def test_a_key_that_is_full_hides_no_other(self):
        """What goes on of a key that has no room, however much it is, keeps nothing of other keys waiting."""
        for goes_on in (self.again, self.wake):
            with self.subTest(goes_on.__name__):
                ann = self.make("keyed", 8, queue_key="ann")
                self.assertEqual(self.claim(room=2), ann[:2])
                ben = self.make("keyed", 1, queue_key="ben")
                goes_on(*ann[2:], *ben)
                self.assertEqual(self.claim(), ben)
                self.end(*ann, *ben)

    def test_more_of_a_key_than_it_has_room_for(self):
        """A claim that has read as much as it might says that there may be more, and the next one finds it; one that takes nothing doesn't say so."""
        for goes_on in (self.again, self.wake):
            with self.subTest(goes_on.__name__):
                ann, ben = self.make("keyed", 8, queue_key="ann"), self.make("keyed", 1, queue_key="ben")
                goes_on(*ann, *ben)
                found = self.done(self.workers[0].claim, (), 100)
                self.assertTrue(found.has_more)
                claimed = [it.invocation for it in found.claims]
                for _ in range(5):
                    found = self.done(self.workers[0].claim, (), 100)
                    claimed += [it.invocation for it in found.claims]
                self.assertEqual((len(claimed), set(ben) - set(claimed), found.has_more), (3, set(), False))
                self.end(*ann, *ben)

    def test_keys_have_their_turns(self):
        """However many of one key are there: those of each have a turn before it has its second."""
        many = {key: self.make("keyed", count, queue_key=key) for key, count in (("a", 20), ("b", 2), ("c", 2), ("", 1))}
        order = []
        while found := self.claim(room=1):
            order += found
            self.end(*found)
        turns = [next(key for key, ids in many.items() if id in ids) for id in order]
        self.assertEqual(turns[:7], ["", "a", "b", "c", "a", "b", "c"])
        self.assertEqual(turns[7:], ["a"] * 18)
        self.assertEqual([it for it in order if it in many["a"]], many["a"])

    def test_priorities(self):
        low, high, plain = [self.make("one", 1, priority=it)[0] for it in (-5, 5, 0)]
        found = []
        for _ in range(3):
            found += self.claim(room=1)
            self.end(*found)
        self.assertEqual(found, [high, plain, low])

    def test_a_rate(self):
        ids = self.make("rated", 5)
        found = self.done(self.workers[0].claim, (), 100)
        self.assertEqual([it.invocation for it in found.claims], ids[:2])
        self.end(*ids[:2])
        self.assertEqual(self.claim(), [])
        again = self.done(self.workers[-1].claim, (), 100)
        [(first,)] = self.rows("SELECT MIN(at) FROM starts")
        self.assertLessEqual(first, self.plain.db.now())
        self.assertIsNotNone(again.next_due)
        self.done(lambda db: db.change("UPDATE starts SET at=at-100"))
        self.assertEqual(self.claim(), ids[2:4])
        # One that has begun before isn't counted again, and goes on though the rate is used up.
        self.done(lambda db: db.change("UPDATE invocations SET status='ready', due=due-1 WHERE id=?", (ids[2],)))
        self.assertEqual(self.claim(), ids[2:3])
        self.assertEqual(self.rows("SELECT COUNT(*) FROM starts"), [(2,)])

    def test_other_code(self):
        """A handler goes into a queue, and out of it: open invocations go with it."""
        [id] = self.make("free")
        [queued] = self.make("one")
        other = Service("Work")
        other.handler(queue=Queue("late"))(free.function)
        other.handler()(one.function)
        self.worker("other", App(other))
        self.assertEqual(self.rows("SELECT id, queue, queue_key FROM invocations ORDER BY seq"), [(id, "late", ""), (queued, None, "")])

    def test_what_is_shown_of_them(self):
        self.make("keyed", 3, queue_key="ann")
        self.make("keyed", 1, queue_key="ben")
        later, waits, stands = self.make("keyed", 3, queue_key="cleo")
        self.done(lambda db: db.change("UPDATE invocations SET due=due+1000 WHERE id=?", (later,)))
        self.claim(room=2)
        for id, status in ((waits, "suspended"), (stands, "paused")):
            self.done(lambda db, id=id, status=status: db.change("UPDATE invocations SET status=? WHERE id=?", (status, id)))
        found = {it["name"]: it for it in self.done(operate.queues)}
        self.assertEqual(set(found), {"wide", "keyed", "rated", "boxes"})
        oldest = found["keyed"].pop("oldest")
        self.assertTrue(60 <= oldest < 60 + support.LONG, oldest)
        shown = {"name": "keyed", "length": 2, "later": 1, "running": 2, "keys": 1, "limits": {"concurrency": 4, "per_key": 2}}
        self.assertEqual(found["keyed"], shown)
        self.assertEqual(found["rated"], {"name": "rated", "length": 0, "oldest": 0.0, "later": 0, "running": 0, "keys": 0, "limits": {"rate": [2, 100]}})
        other = Service("Work")
        other.handler(queue=Queue("keyed", per_worker=7))(keyed.function)
        self.worker("other", App(other))
        self.assertEqual([it["limits"] for it in self.done(operate.queues) if it["name"] == "keyed"], [{"per_worker": 7}])

    def test_what_is_refused(self):
        for headers, said in (({"priority": "high"}, "the priority is 'high', and it is a whole number"), ({"priority": 1001}, "from -1000 to 1000")):
            with self.assertRaisesRegex(TerminalError, said):
                self.make("one", **headers)
        for options in ({"concurrency": 0}, {"per_key": -1}, {"per_worker": 0}, {"rate": (0, 1)}, {"rate": (1, 0)}, {"rate": (1,)}):
            with self.assertRaisesRegex(ValueError, "the queue q has the "):
                Queue("q", **options)
        with self.assertRaisesRegex(ValueError, "Work/both has a limit and a queue"):
            Service("Work").handler(queue=WIDE, limit=2)(named("both"))
        second = Service("Second")
        second.handler(queue=Queue("wide", concurrency=5))(named("third"))
        with self.assertRaisesRegex(ValueError, "there are two queues with the name wide"):
            App(work, box, second)


def named(name):
    async def it(ctx: Context, _: object) -> None: ...

    it.__name__ = name
    return it


@support.on_each_database
class Workers(support.OnADatabase):
    def test_calls_and_clients(self):
        async def go():
            async with Runtime(app, self.url) as runtime:
                client = runtime.engine.client
                self.assertEqual(await client.call(calls), ["ben", [1]])
                self.assertEqual(await client.call(keyed, queue_key="cleo", priority=3), "cleo")
                rows = await runtime.rows("SELECT queue, queue_key, priority FROM invocations WHERE handler<>'calls' ORDER BY seq")
                self.assertEqual(sorted(map(tuple, rows)), sorted([("keyed", "ann", 5), ("keyed", "ben", 0), ("boxes", "k", -1), ("keyed", "cleo", 3)]))
                once = {(await client.send(keyed, queue_key="eve", idempotency_key="once")).id for _ in range(3)}
                self.assertEqual(await runtime.rows("SELECT id FROM invocations WHERE queue_key='eve'"), [(it,) for it in once])
                sent = [await client.send(fills, n, key="order") for n in range(5)]
                self.assertEqual([await it.result() for it in sent], [list(range(n + 1)) for n in range(5)])
            async with Client(App(), self.url) as client:
                with self.assertRaises(TerminalError):
                    await client.send("Work/keyed", priority=5000)

        asyncio.run(go())

    def test_another_app_knows_the_queue(self):
        async def go():
            async with Runtime(app, self.url) as runtime, Client(App(), self.url) as client:
                self.assertEqual(await client.call("Work/keyed", queue_key="dan"), "dan")
                self.assertEqual(await runtime.rows("SELECT queue, queue_key FROM invocations"), [("keyed", "dan")])

        if self.kind == "postgres":
            asyncio.run(go())

    def test_many_at_once(self):
        """All end, and never more run than may."""

        async def busy(ctx: Context, it: object) -> None:
            count["now"] += 1
            count["most"] = max(count["most"], count["now"])
            await ctx.run("waits", asyncio.sleep, 0.001)
            count["now"] -= 1

        count, service = {"now": 0, "most": 0}, Service("Busy")
        service.handler(queue=Queue("busy", concurrency=2, per_key=1))(busy)

        async def go():
            async with Runtime(App(service), self.url, idle=support.LONG) as runtime:
                ids = [await runtime.send("Busy/busy", headers=((queues.KEY, str(n % 4)),)) for n in range(24)]
                self.assertEqual([await runtime.result(id) for id in ids], [None] * 24)

        asyncio.run(go())
        self.assertLessEqual(count["most"], 2)


class Kit(unittest.TestCase):
    def test_deaths_change_nothing(self):
        self.assertGreater(asyncio.run(crash_everywhere(app, many)), 10)

    def test_a_rate_and_the_clock(self):
        async def go():
            async with Testing(app) as it:
                sent = [await it.send(rated) for _ in range(5)]
                await it.skip(1)
                done = await it._asked("SELECT id FROM invocations WHERE status='done'")
                self.assertEqual(len(done), 2)
                await it.skip(250)
                self.assertEqual([await one.result() for one in sent], [None] * 5)

        asyncio.run(go())


if __name__ == "__main__":
    unittest.main()
