"""A run of all that handlers, clients and operators do often, with two workers on PostgreSQL, whose statements are recorded."""

import contextlib
import re
import struct
import sys
from collections import defaultdict
from unittest import mock

import support  # isort: skip
from support import TOP, Runtime

sys.path.insert(0, str(TOP / "python/bench"))
import places  # noqa: E402
from palqytun.runtime import App, Context, ObjectContext, Retry, Service, VirtualObject, Workflow, WorkflowContext, gather, operate  # noqa: E402
from palqytun.runtime.database import pipeline  # noqa: E402

VERBS = (b"SELECT", b"INSERT", b"UPDATE", b"DELETE", b"WITH")
large, cell, flow = Service("Large"), VirtualObject("Cell"), Workflow("Flow")


@large.handler()
async def echoes(ctx: Context, n: int) -> int:
    return n


@large.handler(retry=Retry(attempts=1, pause=False))
async def does(ctx: Context, n: int) -> int:
    """What handlers do: runs, calls, sleeps, calls of a key, a send, and a wait that times out."""
    await ctx.run("step", lambda: n)
    await gather(*[ctx.call(echoes, it) for it in range(n)])
    for it in range(n):
        await ctx.call(add, it, key="one")
    ctx.send(echoes, n)
    await ctx.sleep(0.01)
    with contextlib.suppress(TimeoutError):
        await ctx.timeout(ctx.signal("never"), 0.01)
    return n


@cell.handler()
async def add(ctx: ObjectContext, n: int) -> int:
    ctx.set("total", (await ctx.get("total", int) or 0) + n)
    if n == 1:
        ctx.clear("last")
    return n


@flow.main()
async def asks(ctx: WorkflowContext, _: None) -> object:
    return await ctx.promise("said").value()


@flow.shared()
async def says(ctx: WorkflowContext, it: int) -> None:
    await ctx.promise("said").resolve(it)


app = App(large, cell, flow)


async def run(test, url):
    """The run, on a database that is empty, or that `bench.filled` has filled."""
    async with Runtime(app, url, idle=0, keep=3600.0) as one, Runtime(app, url, idle=0) as two:
        for it in (one, two):
            test.assertEqual(await it.call("Large/does", 4), 4)
        for _ in range(2):
            test.assertEqual(await one.call("Large/echoes", 1, idempotency_key="once"), 1)
        asked = await one.send("Flow/asks", None, "k")
        await one.until(asked, "suspended")
        await two.call("Flow/says", 7, "k")
        test.assertEqual(await one.result(asked), 7)
        await two.engine.transact(operate.by_status)


async def statements(test, url):
    """The statements of the run, each once."""
    said, made = {}, pipeline.Pipeline.all_made

    async def all_made(own, those):
        for it in those:
            said.setdefault(it.sql, it)
        return await made(own, those)

    with mock.patch.object(pipeline.Pipeline, "all_made", all_made):
        await run(test, url)
    return said.values()


async def partitions(test, url):
    """Of each statement of the run that has touched more partitions of a table than it names places: these tables. Each is explained where it stands in its
    transaction, just before it is made."""
    found, made, begun = defaultdict(set), pipeline.Pipeline.all_made, set()

    async def all_made(own, those):
        sent, asked = [], {}
        for it in those:
            if it.sql.startswith(b"BEGIN"):
                begun.add(own)
            elif own in begun and it.sql.startswith(VERBS):
                sent.append(pipeline.statement("SAVEPOINT explained"))
                asked[len(sent)] = it
                sent += [it._replace(sql=places.EXPLAIN.encode() + it.sql), pipeline.statement("ROLLBACK TO explained")]
            elif it.sql in (b"COMMIT", b"ROLLBACK"):
                begun.discard(own)
            sent.append(it)
        results, own_results = await made(own, sent), []
        for at, result in enumerate(results):
            if at in asked:
                [(plan,)] = await own.rows(result)
                for table in places.several_of(plan, named(asked[at])):
                    found[asked[at].sql.decode()].add(table)
            elif not sent[at].sql.startswith((b"SAVEPOINT explained", b"ROLLBACK TO explained")):
                own_results.append(result)
        return own_results

    with mock.patch.object(pipeline.Pipeline, "all_made", all_made):
        await run(test, url)
    return dict(found)


def named(statement):
    """How many places a statement may name: that of one thing, or of as many as are in a list of names."""
    listed = [len(it.split(b",")) for it in re.findall(rb"\b(?:id|invocation) IN \(([$0-9,]+)\)", statement.sql)]
    lists = [len(set(texts(it))) for it, type in zip(statement.values, statement.types) if it is not None and type == 0]
    return max([1, *listed, *lists])


def texts(array):
    """The elements of a list of texts, as the server is sent it; none of another list."""
    dimensions, _, type = struct.unpack_from(">iii", array)
    if dimensions != 1 or type != 25:
        return []
    found, at = [], 20
    for _ in range(struct.unpack_from(">i", array, 12)[0]):
        [length] = struct.unpack_from(">i", array, at)
        found.append(array[at + 4 : at + 4 + max(length, 0)])
        at += 4 + max(length, 0)
    return found
