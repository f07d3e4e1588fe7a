"""Values and errors that are encrypted: nothing of them is in the database, the log and the pages in clear; keys are rotated while invocations are open."""

import asyncio
import unittest

import support  # isort: skip
import needs

if lacks := needs.lacks_server() or needs.lacks_module("cryptography"):
    raise unittest.SkipTest(lacks)
from palqytun.runtime import App, Context, JsonCodec, ObjectContext, Retry, Sealed, Service, TerminalError, VirtualObject, heartbeat, sealing
from palqytun.runtime.codec import Unreadable
from palqytun.runtime.database.schema import TABLES
from palqytun.runtime.serving import Settings
from palqytun.testing import crash_everywhere
from served import Served
from spoken import palqytun
from support import Runtime

FIRST, SECOND = {"a": bytes(range(32))}, {"a": bytes(range(32)), "b": bytes(range(64))}
SECRET = "card-4242"


def made(codec):
    shop, box = Service("Shop"), VirtualObject("Box")

    @shop.handler(retry=Retry(attempts=1, pause=True))
    async def order(ctx: Context, card: str) -> list:
        def pays() -> str:
            heartbeat({"card": card})
            return f"paid by {card}"

        paid = await ctx.run("pay", pays)
        kept = await ctx.call(keeps, card, key="k")
        try:
            await ctx.call(refuses, card)
        except TerminalError as error:
            paid += f"; {error.message}"
        ctx.set_attribute("waits", True)
        word = await ctx.signal("go", str)
        return [paid, kept, word]

    @shop.handler()
    async def refuses(ctx: Context, card: str) -> None:
        raise TerminalError(f"{card} is refused", 402)

    @shop.handler(retry=Retry(attempts=1, pause=True))
    async def breaks(ctx: Context, card: str) -> None:
        raise ValueError(f"{card} is broken")

    @shop.handler(retry=Retry(attempts=1, pause=True))
    async def run_breaks(ctx: Context, card: str) -> None:
        def fails() -> None:
            raise OSError(f"{card} in a run")

        await ctx.run("fails", fails, retry=Retry(attempts=1))

    @box.handler()
    async def keeps(ctx: ObjectContext, card: str) -> list:
        ctx.set("cards", [*(await ctx.get("cards", list) or []), card])
        return await ctx.get("cards", list)

    @shop.handler()
    async def goes_on(ctx: Context, it: list) -> str:
        if it[1]:
            ctx.set_attribute("waits", True)
            await ctx.signal("next")
            ctx.continue_as_new([it[0], it[1] - 1])
        return it[0]

    return App(shop, box, codec=codec)


@support.on_each_database
class Sealing(support.OnADatabase):
    async def everything(self, served):
        """All that the database holds, as text."""
        found = []
        for table in TABLES:
            for row in await served.rows(f"SELECT * FROM {table}"):
                found += [bytes(it).decode("latin-1") if isinstance(it, (bytes, memoryview)) else str(it) for it in row]
        return "\n".join(found)

    async def until(self, served, id, status):
        for _ in range(int(support.LONG / 0.02)):
            found = (await served.ask(f"/-/invocations/{id}", None, "GET"))[1]
            if found["status"] == status and (status != "suspended" or "waits" in found["attributes"]):  # it has waited for its calls before
                return found
            await asyncio.sleep(0.02)
        raise AssertionError(found)

    def test_nothing_is_in_clear(self):
        app = made(Sealed(JsonCodec(), FIRST, "a"))

        async def go():
            async with Served(app, self.url, Settings(), idle=0) as served:
                id = (await served.ask("/Shop/order/send", SECRET))[1]["invocation"]
                found = await self.until(served, id, "suspended")
                self.assertRegex(found["progress"][0]["value"], r"^sealed:a:")
                broken = (await served.ask("/Shop/breaks/send", SECRET))[1]["invocation"]
                error = (await self.until(served, broken, "paused"))["error"]
                self.assertRegex(error, r"^500 ValueError: sealed:a:\S+\nsealed:a:\S+$")
                in_run = (await served.ask("/Shop/run_breaks/send", SECRET))[1]["invocation"]
                await self.until(served, in_run, "failed")
                _, page, _ = await served.ask(f"/-/page/{id}", None, "GET")
                _, state, _ = await served.ask("/-/state/Box/k", None, "GET")
                said = await asyncio.to_thread(palqytun, "invocations", "inspect", broken, "--db", self.url)
                for text in (await self.everything(served), page, str(state), said[1]):
                    self.assertNotIn("4242", text)
                self.assertEqual((await served.ask(f"/-/invocations/{in_run}/result", None, "GET"))[1]["message"].count(f"{SECRET} in a run"), 1)
                await served.ask(f"/-/invocations/{id}/signals/go", f"go {SECRET}")
                wanted = [f"paid by {SECRET}; {SECRET} is refused", [SECRET], f"go {SECRET}"]
                self.assertEqual((await served.ask(f"/-/invocations/{id}/result", None, "GET"))[1], wanted)
                self.assertEqual((await served.ask("/-/state/Box/k/cards", ["other"], "PUT"))[0], 200)
                self.assertEqual((await served.ask("/Box/k/keeps", SECRET))[1], ["other", SECRET])
                self.assertNotIn("4242", await self.everything(served))
                return error

        with self.assertLogs("palqytun") as logged:
            error = asyncio.run(go())
        self.assertNotIn("4242", "\n".join(logged.output))
        self.assertTrue(any("ValueError: sealed:a:" in it and "test_sealing.py:" in it for it in logged.output), logged.output)
        self.assertIn(f"500 ValueError: {SECRET} is broken\nTraceback", sealing.clear(app.codec, error))

    def test_keys_are_rotated(self):
        """An invocation goes on by its key, and what it calls begins by the newest one."""

        async def first():
            async with Served(made(Sealed(JsonCodec(), FIRST, "a")), self.url, Settings(), idle=0) as served:
                ids = [(await served.ask(f"/Shop/{path}/send", it))[1]["invocation"] for path, it in (("order", SECRET), ("goes_on", [SECRET, 2]))]
                for id in ids:
                    await self.until(served, id, "suspended")
                return ids

        async def second(ids):
            async with Served(made(Sealed(JsonCodec(), SECOND, "b")), self.url, Settings(), idle=0) as served:
                await served.ask(f"/-/invocations/{ids[0]}/signals/go", "gone")
                self.assertEqual((await served.ask(f"/-/invocations/{ids[0]}/result", None, "GET"))[1][2], "gone")
                for _ in range(2):
                    await served.ask(f"/-/invocations/{ids[1]}/signals/next", 1)
                self.assertEqual((await served.ask(f"/-/invocations/{ids[1]}/result", None, "GET"))[1], SECRET)
                rows = await served.rows("SELECT invocation, frame FROM journal WHERE at=0")
                by = {id: (b"sealed:a:" in bytes(frame), b"sealed:b:" in bytes(frame)) for id, frame in rows}
                self.assertEqual((by[ids[0]], by[ids[1]]), ((True, False), (True, False)))
                chain = [id for (id,) in await served.rows("SELECT id FROM invocations WHERE handler='goes_on' AND id<>?", ids[1])]
                self.assertEqual([by[id] for id in chain], [(False, True)] * 2)
                self.assertEqual((await served.ask("/Box/k/keeps", "x"))[1], [SECRET, "x"])  # a state by the key before

        async def without(ids):
            async with Served(made(Sealed(JsonCodec(), {"b": SECOND["b"]}, "b")), self.url, Settings()) as served:
                status, found, _ = await served.ask(f"/-/invocations/{ids[0]}/result", None, "GET")
                self.assertEqual((status, found["message"]), (500, "the result can't be read: it is encrypted by the key a, and there are b"))

        ids = asyncio.run(first())
        asyncio.run(second(ids))
        asyncio.run(without(ids))

    def test_a_worker_of_another_version_without_the_key_takes_over_what_it_can_read(self):
        """It says of the others why it doesn't."""

        async def first():
            ids = []
            for codec in (Sealed(JsonCodec(), FIRST, "a"), Sealed(JsonCodec(), SECOND, "b")):
                async with Runtime(made(codec), self.url, version="first") as runtime:
                    sent = await runtime.engine.client.send("Shop/order", SECRET)
                    while await runtime.rows("SELECT 1 FROM attributes WHERE invocation=?", sent.id) == []:
                        await asyncio.sleep(0.02)
                    await runtime.until(sent.id, "suspended")
                    ids.append(sent.id)
            return ids

        async def second(ids):
            async with Runtime(made(Sealed(JsonCodec(), {"b": SECOND["b"]}, "b")), self.url, version="second") as runtime:
                wanted = "no worker has its version first, and second can't go on with it: the argument: it is encrypted by the key a, and there are b"
                await runtime.until_rows([(wanted,)], "SELECT error FROM invocations WHERE id=?", ids[0])
                await runtime.until_rows([("second",)], "SELECT code FROM invocations WHERE id=?", ids[1])

        ids = asyncio.run(first())
        asyncio.run(second(ids))

    def test_a_worker_without_the_key_ends_nothing(self):
        async def begins():
            async with Served(made(Sealed(JsonCodec(), FIRST, "a")), self.url, Settings(), idle=0) as served:
                id = (await served.ask("/Shop/order/send", SECRET))[1]["invocation"]
                await self.until(served, id, "suspended")
                return id

        async def lacks(id):
            async with Served(made(Sealed(JsonCodec(), {"b": SECOND["b"]}, "b")), self.url, Settings(), idle=0) as served:
                await served.ask(f"/-/invocations/{id}/signals/go", "gone")
                self.assertIn("by the key a, and there are b", sealing.clear(Sealed(JsonCodec(), SECOND, "b"), (await self.until(served, id, "paused"))["error"]))

        async def has(id):
            async with Served(made(Sealed(JsonCodec(), SECOND, "b")), self.url, Settings(), idle=0) as served:
                await served.ask(f"/-/invocations/{id}/resume")
                self.assertEqual((await served.ask(f"/-/invocations/{id}/result", None, "GET"))[0], 200)

        id = asyncio.run(begins())
        asyncio.run(lacks(id))
        asyncio.run(has(id))

    def test_what_was_in_clear_goes_on(self):
        async def go(app, then):
            async with Served(app, self.url, Settings(), idle=0) as served:
                return await then(served)

        async def begun(served):
            id = (await served.ask("/Shop/order/send", SECRET))[1]["invocation"]
            await self.until(served, id, "suspended")
            return id

        id = asyncio.run(go(made(JsonCodec()), begun))

        async def ends(served):
            await served.ask(f"/-/invocations/{id}/signals/go", "gone")
            return (await served.ask(f"/-/invocations/{id}/result", None, "GET"))[1]

        self.assertEqual(asyncio.run(go(made(Sealed(JsonCodec(), FIRST, "a")), ends))[2], "gone")


class Codecs(unittest.TestCase):
    def test_values(self):
        codec = Sealed(JsonCodec(), SECOND, "b")
        for it in (1, "x", [1, {"a": None}], None):
            self.assertEqual(codec.decode(codec.encode(it), object), it)
        self.assertEqual(codec.encode("x"), codec.encode("x"))
        self.assertNotEqual(codec.encode("x"), codec.encode("y"))
        self.assertEqual(codec.decode(b'"plain"', str), "plain")
        old = Sealed(JsonCodec(), FIRST, "a").encode("x")
        self.assertEqual(codec.decode(codec.renewed(old), str), "x")
        self.assertTrue(codec.renewed(old).startswith(b"sealed:b:"))
        self.assertEqual(codec.like(old).encode("x"), old)

    def test_what_is_refused(self):
        codec = Sealed(JsonCodec(), FIRST, "a")
        value = codec.encode("secret")
        with self.assertRaisesRegex(ValueError, "isn't what the key a has written"):
            codec.decode(value[:-2] + b"AA", str)
        with self.assertRaisesRegex(Unreadable, "by the key b, and there are a"):
            codec.decode(value.replace(b":a:", b":b:"), str)
        for keys, newest, said in (({"a": b"x"}, "a", "has 1 bytes"), ({"a:": bytes(32)}, "a:", "the key 'a:'"), (FIRST, "b", "the newest key is 'b'")):
            with self.assertRaisesRegex(ValueError, said):
                Sealed(JsonCodec(), keys, newest)

    def test_deaths_change_nothing(self):
        service = Service("Sealed")

        @service.handler()
        async def works(ctx: Context, it: int) -> str:
            said = await ctx.run("one", lambda: SECRET)
            await ctx.sleep(1)
            if it:
                ctx.continue_as_new(it - 1)
            return said

        self.assertGreater(asyncio.run(crash_everywhere(App(service, codec=Sealed(JsonCodec(), SECOND, "b")), works, 1)), 5)


if __name__ == "__main__":
    unittest.main()
