"""Steps: names, retries and time limits of runs, transactions on the database itself, what each kind of context has, and time limits of waits."""

import asyncio
import threading
import unittest

import support  # isort: skip
from support import Runtime

from palqytun.runtime import (
    App,
    Cancelled,
    Context,
    Retry,
    Service,
    TerminalError,
    TimedOut,
    Transaction,
    VirtualObject,
    Workflow,
    gather,
    journal,
    select,
    step,
)
from palqytun.testing import Fake, Testing, crash_everywhere, faked

work, thing, flow = Service("Work"), VirtualObject("Thing"), Workflow("Flow")
seen, free = [], threading.Event()
ONCE = Retry(attempts=1, pause=True)


@step(retry=Retry(initial=0.01, attempts=3), name="paid")
async def pay(amount: int, *, to: str = "ann") -> str:
    seen.append((amount, to))
    if amount == 0:
        raise OSError("no bank")
    return f"{amount} to {to}"


@step()
def plain(amount: int) -> int:
    return amount + 1


@step(timeout=0.1, retry=Retry(initial=0.01, attempts=2))
async def slow() -> None:
    seen.append("slow")
    await asyncio.sleep(60)


@step(timeout=0.1, retry=Retry(attempts=1))
def slow_in_a_thread() -> None:
    free.wait(support.LONG)


@work.handler()
async def steps(ctx: Context, it):
    found = [await ctx.run(pay, 5), await ctx.run(pay, 6, to="ben"), await ctx.run(plain, amount=7), await ctx.run("named", pay.function, 8, to="cleo")]
    for one, arguments in ((pay, (0,)), (slow, ()), (slow_in_a_thread, ())):
        try:
            await ctx.run(one, *arguments)
        except TerminalError as error:
            found.append(error.message)
    try:
        await ctx.run("late", asyncio.sleep, 60, timeout=0.05, retry=Retry(attempts=1))
    except TerminalError as error:
        found.append(error.message)
    return found


async def enters(to: Transaction, name: str, count: int = 1) -> list:
    before = await to.rows("SELECT name FROM guests ORDER BY name")
    seen.append(name)
    changed = await to.execute("INSERT INTO guests(name, number) VALUES (?,?)", name, count)
    if name == "bad":
        raise TerminalError("not this one", 418)
    if name == "flaky" and seen.count("flaky") < 3:
        raise OSError("not yet")
    if name == "exits":
        raise SystemExit(1)
    return [changed, *[name for name, in before]]


@work.handler()
async def books(ctx: Context, it):
    found = [await ctx.transaction("first", enters, "ann"), await ctx.transaction("second", enters, "flaky", count=3)]
    try:
        await ctx.transaction("third", enters, "bad")
    except TerminalError as error:
        found.append(error.code)
    await ctx.sleep(0.05)
    return found


@step(retry=Retry(attempts=2, initial=0.01))
async def refuses(to: Transaction, name: str) -> None:
    await enters(to, name)
    raise OSError("never")


@step(retry=Retry(attempts=1), timeout=1)
async def lasts(to: Transaction) -> None:
    await enters(to, "late")
    await asyncio.sleep(100)


@work.handler()
async def moves(ctx: Context, it):
    """Steps as transactions, by their own retries and times."""
    found = []
    for transaction in (ctx.transaction(refuses, "cleo"), ctx.transaction(lasts)):
        try:
            await transaction
        except TerminalError as error:
            found.append(error.message)
    return found


@work.handler(retry=ONCE)
async def misuses(ctx: Context, what):
    if what == "plain":
        await ctx.transaction("plain", lambda to: None)
    if what == "statement":
        await ctx.run("none", lambda: None)
        await ctx.transaction("none", refused)
    if what == "kept":
        await ctx.transaction("kept", kept)
        await seen[-1].rows("SELECT 1")


async def refused(to: Transaction) -> None:
    seen.append("refused")
    await to.rows("SELECT no_such_column FROM invocations" if len(seen) < 3 else "SELECT 1")


async def kept(to: Transaction) -> None:
    seen.append(to)


@work.handler()
async def forever(ctx: Context, it):
    try:
        await ctx.sleep(3600)
    except Cancelled:
        await ctx.run("undo", lambda: seen.append(f"{it} undone"))
        raise


@work.handler()
async def times(ctx: Context, it):
    async def part():
        try:
            await ctx.call(forever, "inner")
        except Cancelled:
            seen.append("part")
            raise

    found = [await ctx.timeout(ctx.run("quick", lambda: 1), 3600)]
    for waits in (lambda: ctx.call(forever, "call"), lambda: gather(ctx.call(forever, "a"), ctx.call(forever, "b")), lambda: ctx.spawn(part())):
        try:
            await ctx.timeout(waits(), 0.05)
        except TimeoutError as error:
            found.append([error.code, str(error)])
    found.append((await select(ctx.timeout(ctx.signal("never"), 3600), ctx.sleep(0.01)))[0])
    await ctx.timeout(ctx.signal("never"), 0.01)


@step()
async def noted(what: str) -> str:
    return what


@work.handler()
async def begins(ctx: Context, caller: str):
    await ctx.run(noted, "begun")
    try:
        await ctx.sleep(1e6)
    except Cancelled:
        await ctx.run(noted, "undone")
        ctx.send_signal(caller, "undone")
        raise


@work.handler()
async def leaves(ctx: Context, it):
    """A wait that is over cancels what it waits for, which undoes what it did."""
    try:
        await ctx.timeout(ctx.call(begins, ctx.invocation_id), 60)
    except TimeoutError:
        await ctx.signal("undone")
        return await ctx.run(noted, "left")


@work.handler()
async def state(ctx: Context, what):
    return ctx.set("n", 1) if what == "set" else await ctx.get("n") if what == "get" else ctx.promise("p")


@thing.handler()
async def promises(ctx: Context, it):
    return ctx.promise("p")


@thing.shared()
async def clears(ctx: Context, it):
    ctx.clear_all()


@flow.handler()
async def sets(ctx: Context, it):
    ctx.set("n", 1)


@thing.handler(retry=ONCE)
async def mistypes(ctx: Context, it):
    ctx.sett("n", 1)


@thing.handler()
async def kinds(ctx: Context, it):
    return type(ctx).__name__


@flow.main()
async def main(ctx: Context, it):
    return type(ctx).__name__


app = App(work, thing, flow)


@support.on_each_database
class Steps(support.OnADatabase):
    def setUp(self):
        super().setUp()
        seen.clear()
        free.clear()
        self.addCleanup(free.set)

    def with_runtime(self, test, **options):
        async def go():
            async with Runtime(app, self.url, **options) as runtime:
                await asyncio.wait_for(test(runtime), support.LONG)

        asyncio.run(go())

    def test_functions_with_name_retries_and_time_limit(self):
        async def go(runtime):
            expected = ["5 to ann", "6 to ben", 8, "8 to cleo", "OSError: no bank"]
            late = [f"TimeoutError: it took longer than {it} s" for it in ("0.1", "0.1", "0.05")]
            id = await runtime.send("Work/steps")
            self.assertEqual(await runtime.result(id), [*expected, *late])
            self.assertEqual(seen, [(5, "ann"), (6, "ben"), (8, "cleo"), *[(0, "ann")] * 3, "slow", "slow"])
            names = [row[0] for row in await runtime.engine.transact(lambda db: names_of(db, id))]
            self.assertEqual(names, ["paid", "paid", "plain", "named", "paid", "slow", "slow_in_a_thread", "late"])

        self.with_runtime(go)
        self.assertEqual(asyncio.run(pay(5)), "5 to ann")
        self.assertEqual(plain(5), 6)
        with self.assertRaises(ValueError):
            step(timeout=0)

    def test_transactions(self):
        """Each is made once with its rows; one that fails leaves no row."""

        async def go(runtime):
            for it in ("DROP TABLE IF EXISTS guests", "CREATE TABLE guests(name TEXT, number BIGINT)"):
                await runtime.engine.transact(lambda db: db.change(it))
            self.assertEqual(await runtime.call("Work/books"), [[1], [1, "ann"], 418])
            self.assertEqual(seen, ["ann", "flaky", "flaky", "flaky", "bad"])
            self.assertEqual(await runtime.rows("SELECT name, number FROM guests ORDER BY name"), [("ann", 1), ("flaky", 3)])

        self.with_runtime(go)

    def test_transactions_by_steps(self):
        async def go(runtime):
            for it in ("DROP TABLE IF EXISTS guests", "CREATE TABLE guests(name TEXT, number BIGINT)"):
                await runtime.engine.transact(lambda db: db.change(it))
            found = await runtime.call("Work/moves")
            self.assertEqual(found, ["OSError: never", "TimeoutError: the transaction took longer than 1 s"])
            self.assertIn(seen, (["cleo", "cleo", "late"], ["cleo", "cleo"]))  # the last, if a busy host came so far within its second
            self.assertEqual(await runtime.rows("SELECT name FROM guests"), [])

        self.with_runtime(go)

    def test_transactions_that_can_not_be(self):
        async def go(runtime):
            paused = [await runtime.send("Work/misuses", it) for it in ("plain", "kept")]
            errors = [(await runtime.until(id, "paused"))[1] for id in paused]
            self.assertIn("takes an `async` function, whose first argument is the transaction", errors[0])
            self.assertIn("the transaction is over", errors[1])
            seen.clear()
            self.assertEqual(await runtime.call("Work/misuses", "statement"), None)
            self.assertEqual(seen, ["refused"] * 3)

        self.with_runtime(go)

    def test_a_wait_that_is_over_cancels_what_it_leaves(self):
        async def go(runtime):
            id = await runtime.send("Work/times")
            self.assertEqual((await runtime.result(id))[:2], (408, "it took longer than 0.01 s"))
            while len(set(seen)) < 5:
                await asyncio.sleep(0.02)
            self.assertEqual(sorted(set(seen)), ["a undone", "b undone", "call undone", "inner undone", "part"])
            await runtime.until_rows([], "SELECT id FROM invocations WHERE status<>'done'")

        self.with_runtime(go)
        self.assertTrue(issubclass(TimedOut, TerminalError) and issubclass(TimedOut, TimeoutError))

    def test_what_a_kind_of_context_lacks(self):
        async def go(runtime):
            no_state = (500, "Work is a Service, which has no key and so no state; a VirtualObject has one")
            self.assertEqual([(await runtime.call("Work/state", it))[:2] for it in ("set", "get")], [no_state, no_state])
            self.assertIn("Work is a Service, which has no promises", (await runtime.call("Work/state", "promise"))[1])
            self.assertIn("Thing is a VirtualObject, which has no promises", (await runtime.call("Thing/promises", key="k"))[1])
            only = (500, "this handler only reads the state: one that is registered by `handler`, or a workflow's `main`, changes it")
            self.assertEqual([(await runtime.call(it, key="k"))[:2] for it in ("Thing/clears", "Flow/sets")], [only, only])
            self.assertIn("ObjectContext has no sett", (await runtime.until(await runtime.send("Thing/mistypes", key="other"), "paused"))[1])
            self.assertEqual([await runtime.call("Thing/kinds", key="k"), await runtime.call("Flow/main", key="k")], ["ObjectContext", "WorkflowContext"])

        self.with_runtime(go)


class Kit(unittest.TestCase):
    def test_deaths_change_nothing(self):
        async def undisturbed():
            async with Testing(App(work)) as it:
                return await it.call(leaves)

        with faked(noted, Fake(lambda what: what)) as done:
            self.assertEqual(asyncio.run(undisturbed()), "left")
            self.assertEqual([it.arguments for it in done.calls], [("begun",), ("undone",), ("left",)])
            self.assertGreater(asyncio.run(crash_everywhere(App(work), leaves, fakes=[done])), 20)


async def names_of(db, id):
    frames = [bytes(row[0]) for row in await db.rows("SELECT frame FROM journal WHERE invocation=? ORDER BY at", (id,))]
    return [(it.name,) for it, _ in journal.commands_in(b"".join(frames)) if isinstance(it, journal.Run)]


if __name__ == "__main__":
    unittest.main()
