"""A worker takes the lease of what it makes, in the transaction that makes it: then no claim is needed."""

import asyncio
import unittest
from unittest import mock

import support  # isort: skip
from palqytun.runtime import App, Context, Queue, Service, VirtualObject, claiming, gather, invocations
from palqytun.runtime.database import Conflict
from palqytun.runtime.invocations import New
from palqytun.runtime.outcome import Outcome, Taker
from support import Runtime

plain, thing = Service("Plain"), VirtualObject("Thing")
gates: dict[str, asyncio.Event] = {}


@plain.handler()
async def echoes(ctx: Context, it: object) -> object:
    return it


@plain.handler()
async def waits(ctx: Context, gate: str) -> None:
    await ctx.run("waits", gates[gate].wait)


@plain.handler()
async def calls(ctx: Context, many: int) -> list[object]:
    return await gather(*[ctx.call(echoes, it) for it in range(many)])


@plain.handler(limit=1)
async def limited(ctx: Context, it: object) -> object:
    return it


@plain.handler(queue=Queue("some", concurrency=1))
async def queued(ctx: Context, it: object) -> object:
    return it


@thing.handler()
async def exclusive(ctx: Context, it: object) -> object:
    return it


@thing.shared()
async def shared(ctx: Context, it: object) -> object:
    return it


app = App(plain, thing)


class Claims:
    """How many invocations each claim of a worker has taken; what it takes with a transaction of its own isn't among them."""

    def __init__(self):
        self.found, claim = [], claiming.Claimer.claim

        async def counted(own, *words):
            claims = await claim(own, *words)
            self.found += [it.invocation for it in claims.claims]
            return claims

        self.counting = mock.patch.object(claiming.Claimer, "claim", counted)


@support.on_each_database
class Taking(support.OnADatabase):
    def run_with(self, test, **options):
        claims = Claims()

        async def go():
            with claims.counting:
                async with Runtime(app, self.url, **options) as runtime:
                    await asyncio.wait_for(test(runtime, claims), support.LONG)

        asyncio.run(go())

    def test_what_nothing_keeps_waiting(self):
        async def test(runtime, claims):
            self.assertEqual(await runtime.call("Plain/echoes", 1), 1)
            self.assertEqual(await runtime.call("Plain/echoes", 2, idempotency_key="once"), 2)
            self.assertEqual(await runtime.call("Plain/echoes", 2, idempotency_key="once"), 2)
            self.assertEqual(await runtime.call("Thing/shared", 3, "k"), 3)
            self.assertEqual(await runtime.call("Plain/calls", 5), [0, 1, 2, 3, 4])
            self.assertEqual(claims.found, [])
            rows = await runtime.rows("SELECT epoch, code, worker IS NULL, begun IS NULL FROM invocations")
            self.assertEqual(set(rows), {(1, runtime.engine.version, 0 if self.kind == "sqlite" else False, 0 if self.kind == "sqlite" else False)})
            self.assertEqual(len(rows), 9)

        self.run_with(test, idle=60)

    def test_what_waits_for_its_turn(self):
        """A key, a queue, a limit or a time."""

        async def test(runtime, claims):
            ids = [await runtime.send(*it) for it in (("Plain/limited", 1), ("Plain/queued", 1), ("Thing/exclusive", 1, "k"))]
            ids.append(await runtime.send("Plain/echoes", 1, due=1.0))
            self.assertEqual([await runtime.result(it) for it in ids], [1] * 4)
            self.assertEqual(sorted(claims.found), sorted(ids))

        self.run_with(test)

    def test_no_more_than_the_limit(self):
        async def test(runtime, claims):
            gates["go"] = asyncio.Event()
            ids = [await runtime.send("Plain/waits", "go") for _ in range(2)]
            later = [await runtime.send("Plain/echoes", it) for it in range(3)]
            self.assertEqual(sorted(runtime.engine.live), sorted(ids))
            self.assertEqual([(await runtime.status(it))[0] for it in later], ["ready"] * 3)
            gates["go"].set()
            self.assertEqual([await runtime.result(it) for it in later], [0, 1, 2])
            self.assertEqual(sorted(claims.found), sorted(later))

        self.run_with(test, limit=2)

    def test_nobody_waits_for_it_any_more(self):
        """Whoever made it has gone before it was committed: it has its attempt all the same."""

        async def test(runtime, claims):
            kind, made = type(runtime.engine._committer.db), asyncio.Event()
            commit = kind.commit

            async def slowly(db):
                is_this = await db.rows("SELECT 1 FROM invocations WHERE id='inv_gone'")
                if is_this:
                    making.cancel()
                    await asyncio.sleep(0)
                await commit(db)
                if is_this:
                    made.set()

            with mock.patch.object(kind, "commit", slowly):
                making = asyncio.create_task(runtime.send("Plain/echoes", 7, id="inv_gone"))
                with self.assertRaises(asyncio.CancelledError):
                    await making
                await made.wait()
            self.assertEqual(await runtime.result("inv_gone"), 7)
            self.assertEqual((await runtime.rows("SELECT epoch FROM invocations"), claims.found), ([(1,)], []))

        self.run_with(test)

    def test_a_transaction_that_is_made_again(self):
        """What its first try took is nobody's."""

        async def test(runtime, claims):
            kind, tries = type(runtime.engine._committer.db), []
            commit = kind.commit

            async def conflicts(db):
                if await db.rows("SELECT 1 FROM invocations WHERE id='inv_again' AND status='running'"):
                    tries.append(1)
                    if len(tries) == 1:
                        raise Conflict("in the way")
                await commit(db)

            with mock.patch.object(kind, "commit", conflicts):
                self.assertEqual(await runtime.call("Plain/echoes", 1, id="inv_again"), 1)
            self.assertGreater(len(tries), 1)
            self.assertEqual(runtime.engine.counts["attempts"], 1)

        self.run_with(test)

    def test_a_worker_that_died_of_it(self):
        """It has the lease of an invocation, and no more: another worker goes on, and the attempt counts as lost."""

        async def test(runtime, claims):
            async def made(db):
                await invocations.create(db, app, Outcome(Taker("worker-away", runtime.engine.version, 1)), New("Plain", "echoes", argument=b"5", id="inv_left"))

            await runtime.engine.transact(made)
            runtime.engine.look()
            self.assertEqual(await runtime.result("inv_left"), 5)
            self.assertEqual(await runtime.rows("SELECT epoch, worker, how FROM attempts"), [(1, "worker-away", "lost")])

        self.run_with(test)


if __name__ == "__main__":
    unittest.main()
