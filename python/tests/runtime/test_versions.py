"""Versions of an app's code: who goes on with an invocation, what a new version does with what is open, and what is said of it before."""

import asyncio
import io
import contextlib
import sys
import time
import unittest
from unittest import mock

import support  # isort: skip
from support import Runtime

from palqytun.runtime import App, Context, Service, TerminalError, VirtualObject, gather, journal
from palqytun.runtime.adopting import Adopting
from palqytun.runtime.command import load
from palqytun.runtime.command import main as palqytun
from palqytun.runtime.database.plain import Plain
from palqytun.runtime.context import AttemptEnds
from palqytun.runtime.replay import PROVES, ReplayOutcome, replay_all, report, stored

OLD, NEW, PATCHED, AFTER, OTHER = "old", "new", "patched", "after", "other"


def made(code, waits=True):
    """An app whose code is of one of these versions. All but the old one send a mail. Without `waits` an order needs no signal."""
    shop, stock = Service("Shop"), VirtualObject("Stock")

    @stock.handler()
    async def take(ctx: Context, count: int) -> int:
        left = (await ctx.get("left", int) or 0) - count
        await ctx.sleep(0.01)
        ctx.set("left", left)
        return left

    @shop.handler()
    async def order(ctx: Context, count: int) -> list:
        did = [await ctx.call(take, count, key=f"pen {count}")]
        if code in (NEW, AFTER) or (code == PATCHED and ctx.patched("mail")):
            did.append(await ctx.run("mail", lambda: "mailed"))
        await gather(ctx.sleep(0.05), *([ctx.signal("go")] if waits else []))
        if code == PATCHED:
            did.append(["patched", ctx.patched("mail"), ctx.patched("thanks")])
        did.append(await ctx.call("Stock/take", 2 if code == OTHER else 1, key=f"ink {count}"))
        return did[:1] + [it for it in did[1:] if not isinstance(it, int)]

    if code in (NEW, PATCHED, AFTER):

        @shop.handler()
        async def added(ctx: Context, it: str) -> str:
            return it

    return App(shop, stock)


def checked(url, app, **options):
    with Plain(url) as db:
        return db.read(lambda to: replay_all(app, to, **options))


def replayed(url, app, **options):
    return list(report(checked(url, app, **options)))


def stopping():
    """An app whose order ends its attempt by itself, before its first call."""
    shop = Service("Shop")

    @shop.handler()
    async def order(ctx: Context, count: int) -> list:
        raise AttemptEnds()

    return App(shop)


@support.on_each_database
class Versions(support.OnADatabase):
    def run_to(self, go):
        asyncio.run(go())

    async def _begun(self, runtime, count=1):
        """Orders that sleep, with their mail or without it."""
        ids = [await runtime.send("Shop/order", 1) for _ in range(count)]
        for id in ids:
            await runtime.until(id, "suspended")
        sleep = bytes.fromhex("0012")  # which each begins once it has the result of its first call
        slept = "SELECT COUNT(*) FROM journal JOIN invocations ON id=invocation WHERE substr(frame, 1, 2)=? AND status='suspended'"
        while (await runtime.rows(f"{slept} AND id IN ({','.join('?' * count)})", sleep, *ids))[0][0] < count:
            await asyncio.sleep(0.01)
        return ids

    async def _go(self, runtime, *ids):
        """What they end with, once they have their signals."""
        for id in ids:
            await runtime.engine.notify(id, journal.named_signal("go", journal.void()))
        return [await runtime.result(id) for id in ids]

    async def _waits(self, runtime, id):
        while (error := (await runtime.status(id))[1]) is None:
            await asyncio.sleep(0.02)
        return error

    def test_an_invocation_keeps_the_version_that_began_it(self):
        async def go():
            async with Runtime(made(OLD), self.url, version=OLD) as runtime:
                [id] = await self._begun(runtime)
            async with Runtime(made(NEW), self.url, version=NEW) as runtime:
                error = await self._waits(runtime, id)
                self.assertEqual(error, "no worker has its version old, and new can't go on with it: command 2 is recorded as Sleep, and the code makes Run 'mail'")
                self.assertEqual(await runtime.call("Shop/added", "x"), "x")
                self.assertEqual((await self._go(runtime, *await self._begun(runtime)))[0][1:], ["mailed"])
                self.assertIn((await runtime.status(id))[0], ("suspended", "ready"))
            async with Runtime(made(OLD), self.url, version=OLD) as runtime:
                self.assertEqual([len(it) for it in await self._go(runtime, id)], [1])
                self.assertEqual(await runtime.rows("SELECT code, status FROM invocations WHERE id=?", id), [(OLD, "done")])

        self.run_to(go)

    def test_what_was_refused_is_read_once_and_forgotten_once_it_is_done(self):
        made_by = list[Adopting]()

        def noted(claimer):
            made_by.append(Adopting(claimer))
            return made_by[-1]

        async def go():
            async with Runtime(made(OLD), self.url, version=OLD) as runtime:
                [id] = await self._begun(runtime)
            with mock.patch("palqytun.runtime.engine.Adopting", noted), mock.patch("palqytun.runtime.adopting.stored", wraps=stored) as read:
                async with Runtime(made(NEW), self.url, version=NEW) as runtime:
                    await self._waits(runtime, id)
                    [adopting] = made_by
                    await asyncio.sleep(1)  # its sleep is over, and its journal has been read with its result
                    read.reset_mock()
                    await asyncio.sleep(1)
                    read.assert_not_awaited()
                    self.assertEqual(set(adopting.before | adopting.refused), {id})
                    await runtime.engine.transact(lambda db: db.change("UPDATE invocations SET status='done' WHERE id=?", (id,)))
                    until = time.monotonic() + support.LONG
                    while adopting.before or adopting.refused:
                        self.assertLess(time.monotonic(), until)
                        await asyncio.sleep(0.02)

        self.run_to(go)

    def test_what_the_replay_check_allows_goes_on(self):
        async def go():
            async with Runtime(made(OLD), self.url, version=OLD) as runtime:
                ids = await self._begun(runtime, 3)
            async with Runtime(made(PATCHED), self.url, version=PATCHED) as runtime:
                found = await self._go(runtime, *ids)
                self.assertEqual([it[1:] for it in found], [[["patched", False, True]]] * 3)
                codes = await runtime.rows("SELECT DISTINCT code FROM invocations WHERE handler='order'")
                self.assertEqual(codes, [(PATCHED,)])
                [new] = await self._go(runtime, *await self._begun(runtime))
                self.assertEqual(new[1:], ["mailed", ["patched", True, True]])

        self.run_to(go)

    def test_a_patch_may_be_taken_out(self):
        async def go():
            async with Runtime(made(PATCHED), self.url, version=PATCHED) as runtime:
                [id] = await self._begun(runtime)
            async with Runtime(made(AFTER), self.url, version=AFTER) as runtime:
                self.assertEqual((await self._go(runtime, id))[0][1:], ["mailed"])
                self.assertEqual((await runtime.status(id))[1], None)

        self.run_to(go)

    def test_the_version_is_a_hash_of_the_code(self):
        self.assertEqual(made(OLD).version, made(OLD).version)
        self.assertNotEqual(made(OLD).version, made(NEW).version)
        version = made(OLD).version
        with mock.patch("palqytun.runtime.services._source", lambda function: b"another file"):
            self.assertNotEqual(made(OLD).version, version)

    def test_a_handler_that_a_worker_lacks_is_not_claimed(self):
        async def go():
            new, only_stock = made(NEW), App(made(NEW).services["Stock"])
            async with Runtime(new, self.url, limit=0) as runtime:
                id = await runtime.send("Shop/added", "x")
            async with Runtime(made(OLD, waits=False), self.url) as runtime:
                self.assertEqual(len(await runtime.call("Shop/order", 1)), 1)
                self.assertEqual(await runtime.status(id), ("ready", None))
            async with Runtime(only_stock, self.url) as runtime:
                self.assertLess(await runtime.call("Stock/take", 1, key="pen"), 0)
                self.assertEqual(await runtime.status(id), ("ready", None))
            async with Runtime(new, self.url) as runtime:
                self.assertEqual(await runtime.result(id), "x")

        self.run_to(go)

    def test_replay_says_what_goes_on_and_where_not(self):
        async def go():
            async with Runtime(made(OLD), self.url, version=OLD) as runtime:
                self.ids = await self._begun(runtime, 3)
                await runtime.call("Stock/take", 5, key="ink 1")

        self.run_to(go)
        self.assertEqual(replayed(self.url, made(OLD)), ["Shop/order: 3 of 3 open invocations go on", "3 journals are replayed, 0 differ", PROVES])
        lines = ["Shop/order: 0 of 3 open invocations go on", "  command 2 is recorded as Sleep, and the code makes Run 'mail'", f"    {', '.join(self.ids)}"]
        self.assertEqual(replayed(self.url, made(NEW)), [*lines, "3 journals are replayed, 3 differ", PROVES])
        lines += ["Stock/take: 4 of 4 ended journals are those of this code", "7 journals are replayed, 3 differ", PROVES]
        self.assertEqual(replayed(self.url, made(NEW), ended=True), lines)
        self.assertEqual(replayed(self.url, App(made(OLD).services["Stock"]))[1], "  there is no handler Shop/order")

    def test_replay_names_the_field_that_differs(self):
        async def go():
            async with Runtime(made(OLD, waits=False), self.url, version=OLD) as runtime:
                self.assertEqual(len(await runtime.call("Shop/order", 1)), 1)

        self.run_to(go)
        lines = replayed(self.url, made(OTHER, waits=False), ended=True)
        self.assertEqual(lines[:2], ["Shop/order: 0 of 1 ended journals are those of this code", "  command 3, Call Stock/take 'ink 1', is recorded with parameter b'1', and the code gives b'2'"])
        [it] = [it for it in checked(self.url, made(OTHER, waits=False), ended=True) if it.difference is not None]
        self.assertEqual((it.detail.command, it.detail.field, it.detail.recorded, it.detail.asked), (3, "parameter", "b'1'", "b'2'"))

    def test_an_await_where_a_command_is_recorded(self):
        """The command that is recorded there is named, and not the one before, which the code makes too: by a replay, and by the attempt that is paused."""

        def waiting(awaits):
            shop = Service("Shop")

            @shop.handler()
            async def waits(ctx: Context, it: str) -> None:
                slept = ctx.sleep(3600)
                if awaits:
                    await slept
                await ctx.run("mail", lambda: "mailed")
                await ctx.signal("go")

            return App(shop)

        async def begun():
            async with Runtime(waiting(False), self.url, version=OLD) as runtime:
                id = await runtime.send("Shop/waits", "it")
                await runtime.until_rows([(1,)], "SELECT COUNT(*) FROM journal WHERE completes IS NOT NULL")
                return id

        async def goes_on(id):
            async with Runtime(waiting(True), self.url, version=OLD) as runtime:
                await runtime.engine.notify(id, journal.named_signal("go", journal.void()))
                return (await runtime.until(id, "paused"))[1]

        id = asyncio.run(begun())
        said = "command 2 is recorded as Run 'mail', and the code awaits what hasn't come"
        [it] = checked(self.url, waiting(True))
        self.assertEqual((it.outcome, it.command, it.difference), (ReplayOutcome.DIFFERS, 2, said))
        self.assertEqual(asyncio.run(goes_on(id)), f"570 JOURNAL_MISMATCH: UncompletedDoProgressDuringReplay: {said}")

    def test_a_replay_has_an_outcome(self):
        async def go():
            async with Runtime(made(OLD), self.url, version=OLD) as runtime:
                await self._begun(runtime)

        self.run_to(go)
        found = [(it.outcome, it.command) for code in (OLD, NEW) for it in checked(self.url, made(code))]
        self.assertEqual(found, [(ReplayOutcome.GOES_ON, 2), (ReplayOutcome.DIFFERS, 2)])
        [stopped] = checked(self.url, stopping())
        self.assertEqual((stopped.outcome, stopped.command), (ReplayOutcome.STOPS_EARLY, 0))
        self.assertEqual(stopped.difference, "the code stops after command 0, and recorded commands are left")

    def test_a_journal_of_a_version_that_isnt_supported(self):
        async def go():
            async with Runtime(made(OLD), self.url, version=OLD) as runtime:
                await self._begun(runtime)

        self.run_to(go)
        with Plain(self.url) as db:
            db.done(lambda to: to.change("UPDATE invocations SET version=4"))
        [found] = checked(self.url, made(OLD))
        self.assertEqual((found.outcome, found.command), (ReplayOutcome.UNSUPPORTED_VERSION, -1))
        self.assertEqual(found.difference, "the journal has protocol version 4, and this package supports 5 to 8: 415 UNSUPPORTED_MEDIA_TYPE")

    def test_the_command(self):
        async def go():
            async with Runtime(made(OLD), self.url, version=OLD) as runtime:
                await self._begun(runtime)

        self.run_to(go)
        for code, status in ((OLD, 0), (NEW, 1)):
            said = io.StringIO()
            with mock.patch.object(sys, "argv", ["palqytun", "replay", "app.py", "--db", self.url]), mock.patch("palqytun.runtime.command.load", lambda _: made(code)):
                with contextlib.redirect_stdout(said):
                    self.assertEqual(palqytun(), status)
            self.assertIn(f"1 journals are replayed, {status} differ\n", said.getvalue())


class Example(support.InAFolder, unittest.TestCase):
    """That of docs/DEPLOYING.md: python/examples/patched.py, and the code before its patch."""

    def test_an_order_that_was_open_goes_on_without_its_mail(self):
        text, url = (support.PYTHON / "examples" / "patched.py").read_text(), str(self.folder / "db")
        mail = '    if ctx.patched("mail"):\n        did.append(await ctx.run("mail", mail, order.customer))\n'
        self.assertIn(mail, text)
        codes = {"new": text, "old": text.replace(mail, ""), "wrong": text.replace('if ctx.patched("mail")', "if True")}
        apps = {name: self._loaded(name, code) for name, code in codes.items()}

        async def go():
            async with Runtime(apps["old"], url) as runtime:
                id = await runtime.send("Orders/place", {"customer": "ann", "days": 30})
                await runtime.until(id, "suspended")
            self.assertEqual([await asyncio.to_thread(self._differ, url, apps[it]) for it in ("new", "old", "wrong")], [0, 0, 1])
            async with Runtime(apps["new"], url) as runtime:
                await runtime.time_passes(id)
                self.assertEqual(await runtime.result(id), ["charged ann", "shipped to ann"])
                self.assertEqual(await runtime.call("Orders/place", {"customer": "ben", "days": 0}), ["charged ben", "mailed ben", "shipped to ben"])

        asyncio.run(go())

    def _loaded(self, name, code):
        (self.folder / f"{name}_orders.py").write_text(code)
        self.addCleanup(sys.path.remove, str(self.folder))
        self.addCleanup(sys.modules.pop, f"{name}_orders")
        return load(str(self.folder / f"{name}_orders.py"))

    def _differ(self, url, app):
        return sum(it.difference is not None for it in checked(url, app))


class Rolling(support.OnADatabase, unittest.TestCase):
    kind = "postgres"

    def test_old_and_new_side_by_side(self):
        """Orders come all the time, while each of three workers of the old version is replaced by one of the new. Nothing is lost or paused, and
        each order's result is that of one version alone."""

        async def go():
            old, ids, is_over = made(OLD, waits=False), [], asyncio.Event()

            async def orders(to):
                while not is_over.is_set():
                    for runtime in to:
                        with contextlib.suppress(TerminalError):  # a worker that stops takes none
                            ids.append(await runtime.send("Shop/order", len(ids)))
                    await asyncio.sleep(0.1)

            async def ended(code, count):
                sql = "SELECT COUNT(*) FROM invocations WHERE handler='order' AND status='done' AND code=?"
                while (await last.rows(sql, code))[0][0] < count:
                    await asyncio.sleep(0.02)

            async with Runtime(made(PATCHED, waits=False), self.url, version=PATCHED) as last:
                workers = [Runtime(old, self.url, version=OLD) for _ in range(3)]
                for it in workers:
                    await it.__aenter__()
                coming = asyncio.create_task(orders([*workers, last]))
                others = []
                await ended(OLD, 3)
                for number, it in enumerate(workers, 1):
                    await ended(PATCHED, 2 * number)
                    await it.__aexit__()
                    others.append(Runtime(made(PATCHED, waits=False), self.url, version=PATCHED))
                    await others[-1].__aenter__()
                is_over.set()
                await coming
                ids += [await last.send("Shop/order", 1) for _ in range(3)]
                found = await asyncio.gather(*[last.result(id) for id in ids])
                kinds = [it[1:] for it in found]
                allowed = [[], [["patched", False, False]], [["patched", False, True]], ["mailed", ["patched", True, True]]]
                self.assertEqual([it for it in kinds if it not in allowed], [])
                self.assertTrue([] in kinds and ["mailed", ["patched", True, True]] in kinds)
                [(taken,)] = await last.rows("SELECT COUNT(*) FROM invocations WHERE handler='take' AND status='done'")
                self.assertEqual(taken, 2 * len(ids))
                self.assertEqual(await last.rows("SELECT id, error FROM invocations WHERE status<>'done' OR error IS NOT NULL"), [])
                await asyncio.gather(*[it.__aexit__() for it in others])

        asyncio.run(go())

    def test_versions_that_part_side_by_side(self):
        """The new version has one more step, and no patch: each order ends by the version that began it."""

        async def go():
            async with Runtime(made(OLD, waits=False), self.url, version=OLD) as old, Runtime(made(NEW, waits=False), self.url, version=NEW) as new:
                ids = [await (old if n % 2 else new).send("Shop/order", n) for n in range(20)]
                await gather_all(new, ids)
                rows = await new.rows("SELECT code, COUNT(*) FROM invocations WHERE handler='order' AND status='done' GROUP BY code ORDER BY code")
                self.assertEqual(sum(count for _, count in rows), 20)
                found = {id: await new.result(id) for id in ids}
                codes = dict(await new.rows("SELECT id, code FROM invocations WHERE handler='order'"))
                self.assertEqual({id: len(it) for id, it in found.items()}, {id: 2 if codes[id] == NEW else 1 for id in ids})

        asyncio.run(go())


async def gather_all(runtime, ids):
    await asyncio.gather(*[runtime.result(id) for id in ids])


if __name__ == "__main__":
    unittest.main()
