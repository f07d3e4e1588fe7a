"""Attributes: what handlers say of their invocations, and the searches that find these by it."""

import asyncio
import re
import unittest

import support  # isort: skip
import needs

if lacks := needs.lacks_server():
    raise unittest.SkipTest(lacks)
from palqytun.runtime import App, Context, Service, TerminalError, operate, restarting
from palqytun.runtime.filters import Filter
from palqytun.runtime.names import LONGEST
from palqytun.runtime.replay import replay_all
from palqytun.runtime.serving import Settings
from palqytun.testing import crash_everywhere
from served import Served
from spoken import palqytun
from support import Runtime

shop = Service("Shop")


@shop.handler()
async def order(ctx: Context, customer: str) -> str:
    ctx.set_attribute("customer", customer)
    ctx.set_attribute("items", 2)
    ctx.set_attribute("stage", "begun")
    await ctx.run("pay", lambda: "paid")
    ctx.set_attribute("stage", "paid & packed")
    ctx.set_attribute("items", None)
    ctx.set_attribute("gift", True)
    await ctx.signal("sent")
    return customer


@shop.handler()
async def wrong(ctx: Context, name: str) -> None:
    ctx.set_attribute(name, "x")


WRONG = ([1], {"a": 1}, b"x", "v" * (LONGEST + 1), "a\0b")


@shop.handler()
async def wrong_value(ctx: Context, at: int) -> None:
    ctx.set_attribute("a", WRONG[at])


@shop.handler()
async def named(ctx: Context, name: str) -> None:
    await ctx.run(name, lambda: None)


@shop.handler()
async def slow(ctx: Context, it: str) -> str:
    ctx.set_attribute("of", it)
    return await ctx.run("slow", may_end.wait)


app, may_end = App(shop), asyncio.Event()


def as_found(rows):
    return {it["id"]: it["attributes"] for it in rows}


@support.on_each_database
class Attributes(support.OnADatabase):
    def served(self, test, of=app):
        async def go():
            async with Served(of, self.url, Settings()) as served:
                await test(served)

        asyncio.run(go())

    async def orders(self, served):
        """Two orders that wait for a signal."""
        ids = [(await served.ask("/Shop/order/send", it))[1]["invocation"] for it in ("ann", "ben % = 100")]
        for id in ids:
            await self.until(served, id, "stage", "paid & packed")
        return ids

    async def until(self, served, id, name, value):
        for _ in range(int(support.LONG / 0.02)):
            found = (await served.ask(f"/-/invocations/{id}", None, "GET"))[1]["attributes"]
            if found.get(name) == value:
                return found
            await asyncio.sleep(0.02)
        raise AssertionError(found)

    def test_they_are_found(self):
        async def test(served):
            ann, ben = await self.orders(served)
            _, found, _ = await served.ask("/-/invocations?attribute=customer%3Dann", None, "GET")
            self.assertEqual(as_found(found), {ann: {"customer": "ann", "stage": "paid & packed", "gift": "true"}})
            for query, ids in (
                ("attribute=gift%3Dtrue", {ann, ben}),
                ("attribute=gift%3Dtrue%26customer%3Dann", {ann}),
                ("attribute=customer%3Dben%20%2525%20%3D%20100", {ben}),
                ("attribute=stage%3Dpaid%20%2526%20packed", {ann, ben}),
                ("attribute=customer%3DANN", set()),
                ("attribute=items%3D2", set()),
                ("since=2020-01-01T00:00", {ann, ben}),
                ("until=2020-01-01T00:00", set()),
                ("since=2020-01-01T00:00%2B02:00&attribute=customer%3Dann&status=running", None),
            ):
                status, found, _ = await served.ask(f"/-/invocations?{query}", None, "GET")
                self.assertEqual(status, 200)
                if ids is not None:
                    self.assertEqual({it["id"] for it in found}, ids, query)
            _, page, _ = await served.ask("/-/page?attribute=customer%3Dann", None, "GET")
            self.assertIn(ann, page)
            self.assertNotIn(ben, page)
            link = re.search(r'href="/-/page\?(attribute=stage[^"]*)"', page)[1]
            _, page, _ = await served.ask(f"/-/page?{link}", None, "GET")  # a link of the page finds both
            self.assertTrue(ann in page and ben in page)
            _, page, _ = await served.ask(f"/-/page/{ann}", None, "GET")
            self.assertIn("customer=ann", page)
            said = await asyncio.to_thread(palqytun, "invocations", "list", "--attribute", "customer=ann&gift=true", "--since", "2020-01-01", "--db", self.url)
            self.assertEqual((said[0], said[1].split()[0], said[1].count("\n")), (0, ann, 1))
            said = await asyncio.to_thread(palqytun, "invocations", "inspect", ann, "--db", self.url)
            self.assertIn("# attributes: customer=ann gift=true stage=paid & packed\n", said[1])
            said = await asyncio.to_thread(palqytun, "invocations", "kill", "--attribute", "customer=ann", "--dry-run", "--db", self.url)
            self.assertEqual(said[1], f"{ann}\n")
            rows = await served.rows("SELECT name, value FROM palqytun_attributes WHERE invocation=? ORDER BY name", ann)
            self.assertEqual([tuple(it) for it in rows], [("customer", "ann"), ("gift", "true"), ("stage", "paid & packed")])

        self.served(test)

    def test_what_is_refused(self):
        async def test(served):
            for query, said in (
                ("attribute=ann", "attribute=ann names none: it is NAME=VALUE, or several such, with & between them"),
                ("attribute=a%3D1%26b", "names none"),
                ("since=yesterday", "since=yesterday is no time, as 2026-11-27T03:00"),
                ("until=25:00", "until=25:00 is no time"),
            ):
                status, found, _ = await served.ask(f"/-/invocations?{query}", None, "GET")
                self.assertEqual((status, found["code"]), (400, 400))
                self.assertIn(said, found["message"])
            for name, said in (("", "is a text without = and &"), ("a=b", "and not 'a=b'"), ("a&b", "and not 'a&b'"), ("n" * (LONGEST + 1), "has 1001 bytes in UTF-8")):
                status, found, _ = await served.ask("/Shop/wrong", name)
                self.assertEqual(status, 400)
                self.assertIn(said, found["message"])
            self.assertEqual(await served.rows("SELECT 1 FROM attributes"), [])
            _, sent, _ = await served.ask("/Shop/named/send", "palqytun.attribute x")
            for _ in range(int(support.LONG / 0.02)):
                [(error,)] = await served.rows("SELECT error FROM invocations WHERE id=?", sent["invocation"])
                if error:
                    break
                await asyncio.sleep(0.02)
            self.assertIn("the name of a run doesn't begin with palqytun.", error)

        self.served(test)

    def test_values_of_another_kind(self):
        async def test(served):
            for at in range(len(WRONG)):
                status, found, _ = await served.ask("/Shop/wrong_value", at)
                self.assertEqual((status, found["code"]), (400, 400), at)
            self.assertEqual(await served.rows("SELECT 1 FROM attributes"), [])

        self.served(test)

    def test_it_is_seen_while_a_run_executes(self):
        async def test(served):
            id = (await served.ask("/Shop/slow/send", "now"))[1]["invocation"]
            self.assertEqual(await self.until(served, id, "of", "now"), {"of": "now"})
            may_end.set()

        may_end.clear()
        self.served(test)

    def test_a_replay_sets_none_again(self):
        """They are commands: what others did to the rows meanwhile stays, and the journal has each once."""

        async def go():
            async with Served(app, self.url, Settings(), idle=0) as served:
                ann, _ = await self.orders(served)
                await served.engine.transact(lambda db: db.change("UPDATE attributes SET value='mended' WHERE invocation=? AND name='stage'", (ann,)))
            async with Served(app, self.url, Settings()) as served:
                await served.ask(f"/-/invocations/{ann}/signals/sent", 1)
                self.assertEqual((await served.ask(f"/-/invocations/{ann}/result", None, "GET"))[1], "ann")
                self.assertEqual((await self.until(served, ann, "stage", "mended"))["gift"], "true")
                _, lines, _ = await served.ask(f"/-/invocations/{ann}/journal", None, "GET")
                self.assertEqual([it.count("palqytun.attribute") for it in lines].count(1), 6)
                _, found, _ = await served.ask(f"/-/invocations/{ann}/timeline", None, "GET")
                self.assertFalse(any(it["is_open"] for it in found["steps"]))

        asyncio.run(go())

    def test_code_that_sets_another_is_found(self):
        other = Service("Shop")

        @other.handler()
        async def order(ctx: Context, customer: str) -> str:
            ctx.set_attribute("customer", customer.upper())
            return customer

        async def test(served):
            await self.orders(served)

        self.served(test)

        async def go():
            async with Runtime(App(), self.url) as runtime:
                return await runtime.engine.transact(lambda db: replay_all(App(other), db, None, False))

        found = asyncio.run(go())
        self.assertEqual(len(found), 2)
        for it in found:
            self.assertIn("palqytun.attribute", str(it.difference))

    def test_a_restart_from_a_step_has_those_before_it(self):
        async def test(served):
            ann, _ = await self.orders(served)
            await served.ask(f"/-/invocations/{ann}/kill")
            _, lines, _ = await served.ask(f"/-/invocations/{ann}/journal", None, "GET")
            step = next(at for at, it in enumerate(lines) if "paid & packed" in it)
            again = await served.engine.done(lambda db, out: restarting.restart(db, app, out, ann, "a test", step))
            stored = await served.engine.transact(lambda db: operate.invocation(db, again))
            self.assertEqual(stored["attributes"]["customer"], "ann")
            await self.until(served, again, "stage", "paid & packed")

        self.served(test)

    def test_a_purge_takes_them_along(self):
        async def test(served):
            ann, ben = await self.orders(served)
            await served.ask(f"/-/invocations/{ann}/kill")
            self.assertEqual(await served.engine.transact(lambda db: operate.purge(db, -1)), 1)
            self.assertEqual({row[0] for row in await served.rows("SELECT DISTINCT invocation FROM attributes")}, {ben})

        self.served(test)


class Kit(unittest.TestCase):
    def test_deaths_change_nothing(self):
        service = Service("Sets")

        @service.handler()
        async def sets(ctx: Context, it: int) -> int:
            for n in range(3):
                ctx.set_attribute("n", n)
                await ctx.run("step", lambda: n)
                ctx.set_attribute(f"done {n}", True)
            ctx.set_attribute("done 0", None)
            await ctx.sleep(5)
            if it:
                ctx.continue_as_new(it - 1)
            return it

        self.assertGreater(asyncio.run(crash_everywhere(App(service), sets, 1)), 10)

    def test_a_filter(self):
        asked = Filter(attribute="a=1&b=2", since="2026-11-27T03:00")
        where, values = asked.where(0.0)
        self.assertEqual(where.count("SELECT invocation FROM attributes"), 2)
        self.assertEqual(values, [1795748400.0, "a", "1", "b", "2"])
        self.assertEqual(Filter.of(asked.given), asked)
        with self.assertRaises(TerminalError):
            Filter(attribute="=1")


if __name__ == "__main__":
    unittest.main()
