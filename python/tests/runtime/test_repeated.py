"""Another argument under an idempotency key that is there: a conflict, by which nothing is stored."""

import asyncio
import json
import unittest
import urllib.error
import urllib.request

import support  # isort: skip
import needs
from palqytun.runtime import App, Client, Context, Engine, IdempotencyConflict, JsonCodec, Sealed, Service, TerminalError, operate, repeated, step
from palqytun.testing import Fake, Testing, crash_everywhere, faked

shop = Service("Shop")
done: list[object] = []


@shop.handler()
async def order(ctx: Context, it: object) -> str:
    done.append(it)
    return f"ordered {it}"


@shop.handler()
async def asks(ctx: Context, it: list) -> str:
    """Calls by one key, or sends."""
    argument, sends = it
    if sends:
        return await ctx.send(order, argument, idempotency_key="one")
    try:
        return await ctx.call(order, argument, idempotency_key="one")
    except TerminalError as error:
        return f"{error.code} {error.message}"


@shop.handler()
async def goes_on(ctx: Context, left: int) -> str:
    if left:
        ctx.continue_as_new(left - 1)
    return "at its end"


@step()
async def pay(amount: int) -> int:
    raise AssertionError("it is a fake here")


@shop.handler()
async def pays(ctx: Context, amount: int) -> int:
    return await ctx.run(pay, amount)


@shop.handler()
async def repeats(ctx: Context, _: None) -> list:
    """Pays once, asks for another payment by the same key in a call and in a send, and for the first one again."""
    found = []
    for amount in (5, 6, 5):
        try:
            found.append(await ctx.call(pays, amount, idempotency_key="one"))
        except TerminalError as error:
            found.append([error.code, error.message])
    sent = await ctx.send(pays, 7, idempotency_key="one")
    try:
        await ctx.attach(sent)
    except TerminalError as error:
        found.append([error.code, error.message])
    return found


KEYS = {"old": b"o" * 64, "new": b"n" * 64}


@support.on_each_database
class Repeated(support.OnADatabase):
    def setUp(self):
        super().setUp()
        done.clear()

    def within(self, test, codec=None):
        async def go():
            async with Engine(App(shop, codec=codec or JsonCodec()), self.url, idle=0, poll=0.1) as engine:
                return await test(engine)

        return asyncio.run(asyncio.wait_for(go(), support.LONG))

    def test_a_client(self):
        async def go(engine):
            first = await engine.client.send(order, {"a": 1, "b": 2}, idempotency_key="one")
            again = await engine.client.send(order, {"b": 2, "a": 1}, idempotency_key="one")
            self.assertEqual(again.id, first.id)
            async with Client(App(shop), self.url) as other:
                for client in (engine.client, other):
                    with self.assertRaises(IdempotencyConflict) as raised:
                        await client.send(order, {"a": 1}, idempotency_key="one")
                    said = f"the idempotency key 'one' is that of {first.id}, which was called with another argument"
                    self.assertEqual((raised.exception.code, raised.exception.message, raised.exception.invocation), (409, said, first.id))
            self.assertEqual(await first.result(), "ordered {'a': 1, 'b': 2}")
            await engine.client.call(order, {"a": 1}, idempotency_key="two")
            number = await engine.client.send(order, 1, idempotency_key="three")
            self.assertEqual((await engine.client.send(order, 1.0, idempotency_key="three")).id, number.id)
            with self.assertRaises(IdempotencyConflict):
                await engine.client.send(order, True, idempotency_key="three")
            await number.result()
            return await engine.transact(lambda db: db.rows("SELECT COUNT(*) FROM invocations"))

        self.assertEqual(self.within(go), [(3,)])
        self.assertEqual(done, [{"a": 1, "b": 2}, {"a": 1}, 1])

    def test_a_handler(self):
        async def go(engine):
            self.assertEqual(await engine.client.call(asks, [1, False]), "ordered 1")
            self.assertEqual(await engine.client.call(asks, [1, False]), "ordered 1")
            said = await engine.client.call(asks, [2, False])
            self.assertRegex(said, "^409 the idempotency key 'one' is that of inv_.*, which was called with another argument$")
            sent = await engine.client.call(asks, [2, True])
            return said, await engine.transact(lambda db: operate.invocation(db, sent))

        said, row = self.within(go)
        self.assertEqual((row["status"], row["failed"], row["error"]), ("failed", 409, said))
        self.assertEqual(done, [1])

    def test_what_goes_on_as_a_new_invocation(self):
        """Its argument is that of the call, and not that with which it goes on."""

        async def go(engine):
            sent = await engine.client.send(goes_on, 3, idempotency_key="one")
            self.assertEqual(await sent.result(), "at its end")
            again = await engine.client.send(goes_on, 3, idempotency_key="one")
            self.assertEqual(await again.result(), "at its end")
            with self.assertRaises(IdempotencyConflict):
                await engine.client.send(goes_on, 0, idempotency_key="one")

        self.within(go)

    @unittest.skipIf(needs.lacks_module("cryptography"), needs.lacks_module("cryptography"))
    def test_values_that_are_encrypted(self):
        """By another key it is the same value; by one that isn't there nobody can tell."""

        def sends(argument, codec):
            return self.within(lambda engine: engine.client.send(order, argument, idempotency_key="one"), codec).id

        first = sends("pen", Sealed(JsonCodec(), KEYS, "old"))
        self.assertEqual(sends("pen", Sealed(JsonCodec(), KEYS, "new")), first)
        with self.assertRaises(IdempotencyConflict):
            sends("ink", Sealed(JsonCodec(), KEYS, "new"))
        self.assertEqual(sends("ink", Sealed(JsonCodec(), {"new": KEYS["new"]}, "new")), first)

    @unittest.skipIf(needs.lacks_server(), needs.lacks_server())
    def test_by_http(self):
        from palqytun.runtime import serving

        async def go(engine):
            http = serving.Http(engine, serving.Settings(), "127.0.0.1", 0)
            address = await http.start()

            def asked(data):
                request = urllib.request.Request(f"{address}/Shop/order/send", data, {"idempotency-key": "one"})
                try:
                    with urllib.request.urlopen(request, timeout=support.LONG) as reply:
                        return reply.status, json.load(reply)
                except urllib.error.HTTPError as error:
                    with error:
                        return error.code, json.load(error)

            found = [await asyncio.to_thread(asked, it) for it in (b'{"a":1}', b'{ "a": 1 }', b"2")]
            await http.close()
            return found

        (status, first), again, (refused, said) = self.within(go)
        self.assertEqual((status, again), (202, (202, first)))
        message = f"the idempotency key 'one' is that of {first['invocation']}, which was called with another argument"
        self.assertEqual((refused, said), (409, {"code": 409, "message": message, "metadata": first}))


class Deaths(unittest.TestCase):
    def test_deaths_change_nothing(self):
        """The payment is made once, and each other one is a conflict, wherever a worker dies; what is made is looked at by its result and its effects."""

        async def undisturbed():
            async with Testing(App(shop)) as it:
                return await it.call(repeats)

        with faked(pay, Fake(lambda amount: amount)) as paid:
            first, refused, again, sent = asyncio.run(undisturbed())
            self.assertEqual((first, again, len(paid.calls)), (5, 5, 1))
            for code, message in (refused, sent):
                self.assertEqual(code, 409)
                self.assertRegex(message, "^the idempotency key 'one' is that of inv_.*, which was called with another argument$")
            self.assertGreater(asyncio.run(crash_everywhere(App(shop), repeats, fakes=[paid])), 10)


class Values(unittest.TestCase):
    """Which arguments are one value."""

    def test_one_value(self):
        for one, other in (
            (b"1", b"1.0"),
            (b"100", b"1e2"),
            (b"0", b"-0"),
            (b'"\\u00e9"', '"\u00e9"'.encode()),
            (b'{"a": [1, {"b": null}], "c": true}', b'{"c":true,"a":[1.0,{"b":null}]}'),
            (b"", b"null"),
            (b"[" * 500 + b"1" + b"]" * 500, b"[" * 500 + b"1.0" + b"]" * 500),
        ):
            with self.subTest(one=one, other=other):
                self.assertTrue(repeated.is_same(JsonCodec(), one, other))
                self.assertTrue(repeated.is_same(JsonCodec(), other, one))

    def test_two_values(self):
        for one, other in (
            (b"1", b"true"),
            (b"0", b"false"),
            (b"0.0", b"false"),
            (b"1", b'"1"'),
            (b"", b"false"),
            (b"[]", b"{}"),
            (b"[1]", b"[1,1]"),
            (b"[1,2]", b"[2,1]"),
            (b'{"a":{"b":[1]}}', b'{"a":{"b":[true]}}'),
            (b'{"a":null}', b"{}"),
            (b"9007199254740993", b"9007199254740992.0"),
            (b"no JSON", b'"no JSON"'),
        ):
            with self.subTest(one=one, other=other):
                self.assertFalse(repeated.is_same(JsonCodec(), one, other))
                self.assertFalse(repeated.is_same(JsonCodec(), other, one))


if __name__ == "__main__":
    unittest.main()
