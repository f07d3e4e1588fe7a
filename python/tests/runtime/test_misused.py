"""What a beginner gets wrong: handlers that can't be registered, calls without an `await`, and calls of what is no handler. Each error says what to do."""

import asyncio
import datetime
import re
import unittest

import support  # isort: skip
from palqytun.runtime import App, Client, Context, Engine, JsonCodec, NotDurable, Queue, Retry, Service, ServiceContext, TerminalError, VirtualObject
from palqytun.runtime import Workflow, gather, select, wait_any
from palqytun.runtime.database import Unsuitable
from palqytun.testing import Testing

beginner, stock = Service("Beginner"), VirtualObject("Stock")
paid: list[str] = []


def pay(key: str = "card") -> str:
    paid.append(key)
    return key


@stock.handler()
async def take(ctx: Context, count: int) -> int:
    return count


@beginner.handler()
async def forgets(ctx: ServiceContext, how: str) -> str:
    if how == "a run":
        ctx.run("pay", pay)
    elif how == "a sleep":
        kept = ctx.sleep(5)  # noqa: F841
    elif how == "many":
        for number in range(9):
            ctx.run(f"pay {number}", pay)
    elif how == "nothing":
        came, over = ctx.run("pay", pay), ctx.sleep(3600)
        await came
        await select(came, over)
        await gather(ctx.run("one", pay), ctx.run("two", pay))
        await ctx.timeout(ctx.run("three", pay), 5)
        await ctx.now()
    else:
        ctx.run("pay", pay)
        raise TerminalError("it is refused", 402)
    return how


@beginner.handler(retry=Retry(attempts=1))
async def returns_a_run(ctx: ServiceContext, _: None) -> str:
    return ctx.run("pay", pay)  # type: ignore[return-value]


@beginner.handler(retry=Retry(attempts=1))
async def has_no_name(ctx: ServiceContext, _: None) -> str:
    return await ctx.run(pay)  # type: ignore[call-overload,no-any-return]


@beginner.handler(retry=Retry(attempts=1))
async def calls_it_as_a_function(ctx: ServiceContext, _: None) -> int:
    return await take(ctx, 1)  # type: ignore[operator,no-any-return]


@beginner.handler(retry=Retry(attempts=1))
async def awaits_as_asyncio_does(ctx: ServiceContext, _: None) -> None:
    await asyncio.get_running_loop().create_future()


@beginner.handler()
async def calls(ctx: ServiceContext, target: object) -> str:
    return await ctx.call(target)  # type: ignore[call-overload,no-any-return]


NUMBER = "takes a number of seconds, and not"
DOES = {
    "sleeps a timedelta": (lambda ctx: ctx.sleep(datetime.timedelta(seconds=1)), f"ctx.sleep {NUMBER} datetime.timedelta(seconds=1), whose total_seconds() is one"),
    "sleeps nothing": (lambda ctx: ctx.sleep(None), f"ctx.sleep {NUMBER} None"),
    "sleeps nan": (lambda ctx: ctx.sleep(float("nan")), "ctx.sleep takes a number of seconds below 10^12, and not nan"),
    "sleeps for ever": (lambda ctx: ctx.sleep(1e30), "ctx.sleep takes a number of seconds below 10^12, and not 1e+30"),
    "sends at a text": (lambda ctx: ctx.send("Stock/take", 1, key="k", delay="5"), f"the delay of ctx.send {NUMBER} '5'"),
    "waits for a text": (lambda ctx: ctx.timeout(ctx.sleep(0), "5"), f"ctx.timeout {NUMBER} '5'"),
    "retries a number": (lambda ctx: ctx.run("pay", pay, retry=5), "the retry of a run is a Retry, as Retry(attempts=5), and not 5"),
    "limits by a text": (lambda ctx: ctx.run("pay", pay, timeout="5"), "a timeout is a number of seconds above 0, and not '5'"),
    "gathers a list": (lambda ctx: gather([ctx.sleep(0)]), ": give the items, as gather(*items)"),
    "selects nothing": (lambda ctx: select(), "select of nothing would never end"),
    "waits for any of nothing": (lambda ctx: wait_any(), "wait_any of nothing would never end"),
    "spawns a function": (lambda ctx: ctx.spawn(pay), "ctx.spawn takes a coroutine, as ctx.spawn(one(ctx)) of an `async def one`, and not <function pay"),
    "spawns a sleep": (lambda ctx: ctx.spawn(ctx.sleep(0)), "ctx.spawn takes a coroutine, as ctx.spawn(one(ctx)) of an `async def one`, and not "),
    "calls by a number": (lambda ctx: ctx.call("Stock/take", 1, key=5), "the key is a text, and not 5"),
}


@beginner.handler(retry=Retry(attempts=1))
async def does(ctx: ServiceContext, what: str) -> object:
    return await DOES[what][0](ctx)  # type: ignore[no-untyped-call]


app = App(beginner, stock)


class Registered(unittest.TestCase):
    def refused(self, kind, why, does):
        with self.assertRaises(kind) as refused:
            does()
        self.assertEqual(str(refused.exception), why)

    def test_parameters(self):
        async def both(ctx, argument, more): ...
        async def none(ctx): ...
        async def by_name(ctx: Context, *, argument: int): ...

        wants = "a handler takes its context and one argument, both by position"
        for function, takes in [(both, "(ctx, argument, more)"), (none, "(ctx)"), (by_name, "(ctx, *, argument)")]:
            self.refused(TypeError, f"Shop/{function.__name__} takes {takes}; {wants}", lambda f=function: Service("Shop").handler()(f))

    def test_without_brackets(self):
        for bare in (Service("Shop").handler, VirtualObject("Shop").shared, Workflow("Shop").main):
            self.refused(
                TypeError, "a handler of Shop is registered by a call: @shop.handler(), with brackets; its options have names", lambda it=bare: it(pay)
            )

    def test_options(self):
        async def order(ctx, argument): ...

        for options, why in [
            ({"retry": 5}, "Shop/order has the retry 5, and it is a Retry, as Retry(attempts=5)"),
            ({"queue": "mail"}, "Shop/order has the queue 'mail', and it is a Queue, as Queue('mail', concurrency=10)"),
            ({"timeout": "5"}, "Shop/order has the timeout '5', and it is a number"),
            ({"limit": True}, "Shop/order has the limit True, and it is a number"),
        ]:
            self.refused(TypeError, why, lambda it=options: Service("Shop").handler(**it)(order))
        made = Service("Shop").handler(retry=Retry(attempts=5), queue=Queue("mail", concurrency=1), timeout=1.5)(order)
        self.assertEqual((made.retry.attempts, made.queue.name, made.timeout), (5, "mail", 1.5))

    def test_a_workflow_has_one_main(self):
        async def first(ctx, argument): ...
        async def second(ctx, argument): ...

        visa = Workflow("Visa")
        visa.handler()(first)
        wants = "a workflow has one main, as @visa.main(), which is registered before the app is made; Visa"
        self.refused(ValueError, f"{wants} has none", lambda: App(visa))
        visa = Workflow("Visa")
        visa.main()(first)
        App(visa)
        visa.main()(second)
        self.refused(ValueError, f"{wants} has first and second", lambda: App(visa))

    def test_names(self):
        for name in ("", "a/b", "-", None):
            self.refused(ValueError, f"a service has a name without /, as Service('Shop'), and {name!r} is none", lambda it=name: Service(it))
        self.refused(TypeError, "an app has services, objects and workflows, as App(Service('Shop')), and not 'Shop'", lambda: App("Shop"))


class Made(support.InAFolder, unittest.TestCase):
    """Workers and clients within a program."""

    def test_databases(self):
        wants = "it is postgresql://.. or the path of a SQLite file"
        for url, why in [
            ("mysql://x", f"mysql:// is no database that is known: {wants}"),
            ("", f"'' is no database: {wants}"),
            (None, f"None is no database: {wants}"),
            (str(self.folder / "none/db"), f"there is no folder {self.folder / 'none'} for the database"),
        ]:
            for make in (Engine, lambda app, url: Client(app, url)):
                with self.subTest(url), self.assertRaises(Unsuitable) as refused:
                    make(app, url)
                self.assertEqual(str(refused.exception), why)

    def test_the_app_comes_first(self):
        for make in (Engine, Client):
            for wrong in (beginner, "trips.db"):
                with self.assertRaisesRegex(TypeError, r"^an App comes first, and then the database: App\(Service\('Shop'\)\), and not "):
                    make(wrong, "trips.db")

    def test_options_of_a_worker(self):
        for name, value, least in [("idle", -1, 0), ("lease", 0, 0.1), ("limit", "5", 0), ("threads", 0, 1), ("grace", float("inf"), 0), ("effects", True, 1)]:
            with self.assertRaises(ValueError) as refused:
                Engine(app, str(self.folder / "db"), **{name: value})
            self.assertEqual(str(refused.exception), f"{name} is a number from {least} on, and not {value!r}")
        self.assertEqual(list(self.folder.iterdir()), [])


class Called(unittest.IsolatedAsyncioTestCase):
    def setUp(self):
        paid.clear()

    async def failed(self, handler, argument=None):
        """The failure of a handler that isn't tried again."""
        async with Testing(app) as it:
            with self.assertRaises(TerminalError) as refused, self.assertLogs("palqytun"):
                await it.call(handler, argument)
        return refused.exception

    async def test_what_is_never_awaited_is_said(self):
        why = "without an await a run isn't executed, and a sleep doesn't wait"
        many = ", ".join(f"the run 'pay {it}'" for it in range(5))
        for how, names in [("a run", "the run 'pay'"), ("a sleep", "a sleep"), ("many", f"{many} and 4 more")]:
            with self.subTest(how), self.assertLogs("palqytun", "WARNING") as logged:
                async with Testing(app) as it:
                    self.assertEqual(await it.call(forgets, how), how)
            [line] = [it for it in logged.output if "hasn't awaited" in it]
            self.assertRegex(line, rf"^WARNING:palqytun:Beginner/forgets inv_\w+ has ended, and hasn't awaited {re.escape(names)}: {why}$")
            self.assertEqual(paid, [])

    async def test_what_is_awaited_or_fails_is_not(self):
        with self.assertNoLogs("palqytun", "WARNING"):
            async with Testing(app) as it:
                self.assertEqual(await it.call(forgets, "nothing"), "nothing")
                with self.assertRaises(TerminalError):
                    await it.call(forgets, "a failure")
        self.assertEqual(len(paid), 4)

    async def test_a_result_that_is_not_awaited(self):
        wants = "a value of type Run is not JSON: it is to be awaited, and `await` gives its result"
        self.assertIn(wants, (await self.failed(returns_a_run)).message)
        self.assertRaisesRegex(TypeError, "^a value of type object is not JSON$", JsonCodec().encode, object())

    async def test_a_run_without_a_name(self):
        wants = "ctx.run takes a name and then a function, as ctx.run('pay', pay), or a `step` alone; and its name isn't <function pay at "
        self.assertIn(wants, (await self.failed(has_no_name)).message)

    async def test_a_handler_that_is_called_as_a_function(self):
        wants = "Stock/take isn't called as a function: a handler calls it by `ctx.call(take, ..)`, and a test by palqytun.testing"
        self.assertIn(wants, (await self.failed(calls_it_as_a_function)).message)

    async def test_what_asyncio_awaits(self):
        wants = "gather, select and wait_any of palqytun.runtime combine these, ctx.sleep sleeps, and other work belongs in ctx.run"
        message = (await self.failed(awaits_as_asyncio_does)).message
        self.assertIn(NotDurable.__name__, message)
        self.assertIn(wants, message)

    async def test_arguments(self):
        for what, (_, wants) in DOES.items():
            with self.subTest(what):
                self.assertIn(wants, (await self.failed(does, what)).message)

    async def test_what_is_no_handler(self):
        for target in ("Stock", "/take", "Stock/", 7):
            failure = await self.failed(calls, target)
            wants = f"{target!r} is no handler: it is one that `@service.handler()` has made, or a text as 'Service/handler'"
            self.assertEqual((failure.code, failure.message), (400, wants))
        async with Testing(app) as it:
            with self.assertRaises(TerminalError) as refused:
                await it.call("Stock", 1)
        self.assertEqual(refused.exception.code, 400)
