"""What is seen of a worker: numbers for Prometheus, traces over services, logs as JSON, and views for SQL."""

import asyncio
import functools
import io
import json
import logging
import re
import unittest

import support  # isort: skip
import needs

if lacks := needs.lacks_server():
    raise unittest.SkipTest(lacks)
from prometheus_client.parser import text_string_to_metric_families

from palqytun.runtime import App, Context, Queue, Retry, Service, TerminalError, logs
from palqytun.runtime.database.plain import Plain
from palqytun.runtime.serving import Settings
from palqytun.runtime.traces import Trace, checked
from served import Served
from spoken import palqytun

service = Service("Seen")
own_log = logging.getLogger("a.library")
GIVEN = "00-0af7651916cd43dd8448eb211c80319c-b7ad6b7169203331-01"


@service.handler()
async def works(ctx: Context, it):
    await ctx.sleep(0.01)
    return it


@service.handler()
async def refuses(ctx: Context, it):
    raise TerminalError("no", 404)


@service.handler(retry=Retry(initial=0.01, attempts=3, jitter=0))
async def breaks(ctx: Context, it):
    raise ValueError("a bug")


@service.handler(queue=Queue("letters", concurrency=5, rate=(100, 60)))
async def letter(ctx: Context, it):
    return it


def _asked(ctx):
    own_log.warning("asked")
    return ctx.traceparent


@service.handler()
async def waits(ctx: Context, it):
    return await ctx.signal("go")


other = Service("Other")


@other.handler()
async def later(ctx: Context, it):
    return it


@service.handler()
async def traced(ctx: Context, depth):
    asked = await ctx.run("ask", _asked, ctx)
    ctx.log.info("at depth %d", depth)
    return [asked, ctx.traceparent, await ctx.call(traced, depth - 1) if depth else None]


app = App(service)


def with_ingress(test=None, **options):
    if test is None:
        return functools.partial(with_ingress, **options)

    @functools.wraps(test)
    def run(self):
        async def go():
            async with Served(app, self.url, Settings(), **options) as served:
                await test(self, served)

        asyncio.run(go())

    return run


async def numbers(served):
    """The numbers of a worker, by their names and the values of their labels."""
    _, text, _ = await served.ask("/-/metrics", None, "GET")
    found = {}
    for family in text_string_to_metric_families(text):
        for it in family.samples:
            found[(it.name, *(value for name, value in sorted(it.labels.items()) if name != "le"))] = it.value
    return found


@support.on_each_database
class Numbers(support.OnADatabase):
    @with_ingress
    async def test_by_handler_and_outcome(self, served):
        await asyncio.gather(*[served.ask(f"/Seen/{it}", 1) for it in ("works", "works", "refuses", "breaks")])
        await served.until(lambda: not served.engine.live)
        found = await numbers(served)
        ended = {key[1:]: it for key, it in found.items() if key[0] == "palqytun_ended_total"}
        self.assertEqual(ended, {("works", "done", "Seen"): 2, ("refuses", "failed", "Seen"): 1, ("breaks", "failed", "Seen"): 1})
        failures = {key[1:]: it for key, it in found.items() if key[0] == "palqytun_failures_total"}
        self.assertEqual(failures, {("attempt failed", "breaks", "Seen"): 2, ("failed", "refuses", "Seen"): 1, ("failed", "breaks", "Seen"): 1})
        self.assertEqual(found["palqytun_duration_seconds_count", "works", "Seen"], 2)
        self.assertGreater(found["palqytun_duration_seconds_sum", "works", "Seen"], 0.01)
        self.assertEqual(found["palqytun_attempt_seconds_count", "breaks", "Seen"], 3)
        self.assertEqual(found["palqytun_handler_attempts_total", "breaks", "ready", "Seen"], 2)
        self.assertEqual(found["palqytun_claim_delay_seconds_count", "breaks", "Seen"], 3)
        self.assertEqual(found["palqytun_timer_lag_seconds_count",], 2)
        self.assertGreater(found["palqytun_commit_seconds_count",], 2)
        self.assertEqual([found["palqytun_invocations", it] for it in ("done", "failed", "ready")], [2, 2, 0])
        self.assertGreaterEqual(found["palqytun_connections",], 1)
        self.assertLess(found["palqytun_lease_age_seconds",], support.LONG)

    @with_ingress(limit=0)
    async def test_queues(self, served):
        for _ in range(3):
            await served.ask("/Seen/works/send", 1)
        await served.ask("/Seen/works/send?delay=1000", 1)
        found = await numbers(served)
        self.assertEqual(found["palqytun_queue_ready", "works", "Seen"], 3)
        self.assertGreater(found["palqytun_queue_oldest_seconds", "works", "Seen"], 0)


@support.on_each_database
class Queues(support.OnADatabase):
    """The command, the request, the page and the numbers say the same of each queue."""

    @with_ingress(limit=0)
    async def test_each_way(self, served):
        for key in ("a", "a", "b"):
            await served.ask(f"/Seen/letter/send?queue-key={key}", 1)
        await served.ask("/Seen/letter/send?delay=1000", 1)
        await served.engine.transact(lambda db: db.change("UPDATE invocations SET due=due-90 WHERE due<?", (db.now() + 1,)))
        _, [one], _ = await served.ask("/-/queues", None, "GET")
        self.assertTrue(90 <= one.pop("oldest") < 90 + support.LONG)
        limits = {"concurrency": 5, "rate": [100, 60]}
        self.assertEqual(one, {"name": "letters", "length": 3, "later": 1, "running": 0, "keys": 2, "limits": limits})
        found = await numbers(served)
        self.assertEqual([found[f"palqytun_queue_{it}", "letters"] for it in ("length", "running")], [3, 0])
        self.assertGreaterEqual(found["palqytun_queue_age_seconds", "letters"], 90)
        self.assertEqual(found["palqytun_queue_limit", "concurrency", "letters"], 5)
        self.assertAlmostEqual(found["palqytun_queue_limit", "rate", "letters"], 100 / 60)
        _, page, _ = await served.ask("/-/page/queues", None, "GET")
        row = re.findall(r"<t[dh][^>]*>([^<]*)", page.partition("<tbody>")[2].replace("<a ", "<td ").partition("</tr>")[0])
        self.assertEqual(["letters", "3", "2", "1", "0"], [row[at] for at in (1, 2, 4, 5, 6)])
        self.assertIn("concurrency 5, rate 100 in 60 s", row)
        for query in ("/-/invocations?queue=letters", "/-/invocations?queue=none"):
            _, rows, _ = await served.ask(query, None, "GET")
            self.assertEqual(len(rows), 4 if query.endswith("letters") else 0)

    @with_ingress(limit=0)
    async def test_the_command(self, served):
        for _ in range(2):
            await served.ask("/Seen/letter/send", 1)
        status, said, _ = await asyncio.to_thread(palqytun, "queues", "--db", self.url)
        self.assertEqual(status, 0)
        self.assertRegex(said, r"^letters +2 due, the first for [\d.]+ m?s; 0 later; 0 running  concurrency 5, rate 100 in 60 s\n$")
        _, said, _ = await asyncio.to_thread(palqytun, "queues", "--json", "--db", self.url)
        self.assertEqual(json.loads(said)["length"], 2)
        _, said, _ = await asyncio.to_thread(palqytun, "invocations", "list", "--queue", "letters", "--db", self.url)
        self.assertEqual(len(said.splitlines()), 2)

    def test_there_are_none(self):
        support.emptied(self.kind, self.folder)
        async def go():
            async with Served(App(Service("Plain")), self.url, Settings()) as served:
                self.assertEqual((await served.ask("/-/queues", None, "GET"))[1], [])
                self.assertIn("There are none.", (await served.ask("/-/page/queues", None, "GET"))[1])

        asyncio.run(go())
        self.assertEqual(palqytun("queues", "--db", self.url), (0, "", "there are no queues\n"))


@support.on_each_database
class Versions(support.OnADatabase):
    """The request, the page and the command say which open invocations stay with which code."""

    def test_each_way(self):
        async def go():
            async with Served(app, self.url, Settings(), version="old") as served:
                begun = [(await served.ask("/Seen/waits/send", it))[1]["invocation"] for it in (1, 2)]
                await served.ask("/Seen/works", 1)
                while await served.rows("SELECT COUNT(*) FROM invocations WHERE status='suspended'") != [(2,)]:
                    await asyncio.sleep(0.02)
            async with Served(App(other), self.url, Settings(), version="new") as served:
                await served.ask("/Other/later/send?delay=1000", 1)  # nobody has begun it
                _, found, _ = await served.ask("/-/versions", None, "GET")
                self.assertEqual([(it["version"], it["workers"], it["open"]) for it in found], [("new", 1, 0), ("old", 0, 2)])
                self.assertEqual((found[0]["oldest"], found[1]["oldest"] > 0), (0.0, True))
                _, rows, _ = await served.ask("/-/invocations?version=old&status=open", None, "GET")
                self.assertEqual(([it["id"] for it in rows], {it["version"] for it in rows}), (begun[::-1], {"old"}))
                self.assertEqual(len((await served.ask("/-/invocations?version=old", None, "GET"))[1]), 3)
                _, text, _ = await served.ask("/-/page/versions", None, "GET")
                self.assertIn('<td>old<td>0<td><a href="/-/page?version=old&amp;status=open">2</a>', text)
                _, said, _ = await asyncio.to_thread(palqytun, "versions", "--db", self.url)
                self.assertRegex(said, r"^new +1 workers  0 open\nold +0 workers  2 open, the oldest for [\d.]+ \w+\n$")
                _, said, _ = await asyncio.to_thread(palqytun, "versions", "--json", "--db", self.url)
                self.assertEqual([json.loads(it)["version"] for it in said.splitlines()], ["new", "old"])
                _, said, _ = await asyncio.to_thread(palqytun, "invocations", "kill", "--version", "old", "--status", "open", "--db", self.url)
                self.assertEqual(sorted(it.split()[0] for it in said.splitlines()), sorted(begun))
                _, found, _ = await served.ask("/-/versions", None, "GET")
                self.assertEqual([it["version"] for it in found], ["new"])

        asyncio.run(asyncio.wait_for(go(), support.LONG))

    def test_there_are_none(self):
        with Plain(self.url):
            pass
        self.assertEqual(palqytun("versions", "--db", self.url), (0, "", "there are no workers, and no open invocations\n"))


@support.on_each_database
class Traces(support.OnADatabase):
    @with_ingress
    async def test_a_trace_is_taken_in_and_handed_on(self, served):
        _, [asked, own, [child_asked, child, _]], _ = await served.ask("/Seen/traced", 1, traceparent=GIVEN)
        self.assertEqual((asked, child_asked), (own, child))  # a run hands on the same
        for it in (own, child):
            self.assertEqual(it.split("-")[1], GIVEN.split("-")[1])
        self.assertEqual(len({it.split("-")[2] for it in (GIVEN, own, child)}), 3)
        [(trace,)] = await served.rows("SELECT trace FROM invocations WHERE parent IS NOT NULL")
        self.assertEqual(trace, own)  # the child's parent is the caller's span

    @with_ingress
    async def test_one_that_is_none(self, served):
        for header in ("", "00-0-0-0", GIVEN.upper(), GIVEN.replace("0af7", "0" * 4)[:-1], "00-" + "0" * 32 + GIVEN[35:]):
            _, [_, own, _], _ = await served.ask("/Seen/traced", 0, traceparent=header)
            self.assertIsNone(checked(header))
            self.assertIsNotNone(checked(own))
            self.assertNotEqual(own.split("-")[1], GIVEN.split("-")[1])
        self.assertEqual(await served.rows("SELECT trace FROM invocations WHERE trace IS NOT NULL"), [])

    def test_an_attempt_has_the_trace_of_those_before(self):
        self.assertEqual(Trace.of("inv_1", GIVEN), Trace.of("inv_1", GIVEN))
        self.assertNotEqual(Trace.of("inv_1", None), Trace.of("inv_2", None))


@support.on_each_database
@unittest.skipIf(needs.lacks_module("pythonjsonlogger"), needs.lacks_module("pythonjsonlogger"))
class Logs(support.OnADatabase):
    def test_json(self):
        """What a handler, its runs and the runtime log has the attempt's fields; other records have none."""
        before, stream = logging.getLogger().handlers[:], io.StringIO()
        self.addCleanup(lambda: setattr(logging.getLogger(), "handlers", before))
        logs.set_up("json")
        logging.getLogger().handlers[0].setStream(stream)
        logging.getLogger("outside").info("said by nobody")

        async def go():
            async with Served(app, self.url, Settings()) as served:
                await served.ask("/Seen/traced", 0, traceparent=GIVEN)
                await served.ask("/Seen/breaks", 0)

        asyncio.run(go())
        said = [json.loads(it) for it in stream.getvalue().splitlines()]
        by = {it["logger"]: it for it in said}
        for name in ("a.library", "palqytun.handler"):
            it = by[name]
            self.assertEqual((it["handler"], it["attempt"], it["trace_id"]), ("Seen/traced", 1, GIVEN.split("-")[1]), it)
            self.assertRegex(it["invocation"], r"^inv_\w+$")
        failed = [it for it in said if it.get("event") == "attempt failed"]
        self.assertEqual([(it["attempt"], it["level"], it["delay"]) for it in failed], [(1, "WARNING", 0.01), (2, "WARNING", 0.02)])
        self.assertTrue(all(re.search(r"test_seeing\.py:\d+$", it["where"]) and it["trace_id"] for it in failed))
        self.assertNotIn("invocation", by["outside"])
        self.assertTrue(all({"time", "level", "logger", "message"} <= it.keys() for it in said))


@support.on_each_database
class Views(support.OnADatabase):
    @with_ingress
    async def test_views(self, served):
        await served.ask("/Seen/breaks", 1)
        await served.ask("/Seen/works", 1)
        rows = await served.rows("SELECT handler, status, code, error, attempts, seconds, parent FROM palqytun_invocations ORDER BY seq")
        self.assertEqual([tuple(it)[:5] for it in rows], [("breaks", "failed", 500, "500 ValueError: a bug", 3), ("works", "done", None, None, rows[1][4])])
        self.assertTrue(all(0 < it[5] < 1000 for it in rows))
        how = await served.rows("SELECT attempt, how, error FROM palqytun_attempts WHERE how='failed'")
        self.assertIn("500 ValueError: a bug", how[0][2])
        await served.ask("/-/state/Kept/k/n", 40, "PUT")
        self.assertEqual([tuple(it) for it in await served.rows("SELECT service, key, name, value, bytes FROM palqytun_state")], [("Kept", "k", "n", "40", 2)])
        [(queue, priority, version)] = await served.rows("SELECT queue, priority, version FROM palqytun_invocations WHERE handler='works'")
        self.assertEqual((queue, priority, version), (None, 0, app.version))
        [(who, what, year)] = await served.rows("SELECT who, what, CAST(at AS TEXT) FROM palqytun_audit")
        self.assertEqual((who, what, year[:2]), ("ingress", "set state", "20"))


if __name__ == "__main__":
    unittest.main()
