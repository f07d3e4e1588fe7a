"""Operators by HTTP and by the command: acts, filters, states of keys, and the audit."""

import asyncio
import contextlib
import json
import re
import time
import unittest

import support  # isort: skip
import needs

if lacks := needs.lacks_server():
    raise unittest.SkipTest(lacks)
import runtime_app
from palqytun.runtime import App, Schedule, command
from palqytun.runtime.database.plain import Plain
from palqytun.runtime.serving import Settings
from served import Served
from spoken import palqytun
from support import PYTHON


@support.on_each_database
class ByHttp(support.OnADatabase):
    def test_acts(self):
        async def go():
            async with Served(runtime_app.app, self.url, Settings()) as it:
                ids = [(await it.ask("/S/waits/send", n))[1]["invocation"] for n in range(4)]
                one = f"/-/invocations/{ids[0]}"
                self.assertEqual((await it.ask(f"{one}/pause"))[:2], (200, {"done": True, "said": "paused"}))
                self.assertEqual((await it.ask(f"{one}/resume"))[:2], (200, {"done": True, "said": "resumed"}))
                self.assertEqual((await it.ask(f"{one}/kill"))[:2], (200, {"done": True, "said": "killed"}))
                self.assertEqual((await it.ask(f"{one}/result", None, "GET"))[:2], (409, {"code": 409, "message": "killed"}))
                self.assertEqual((await it.ask(f"{one}/kill"))[0], 409)
                self.assertEqual((await it.ask(one, None, "GET"))[1]["status"], "failed")
                status, said, _ = await it.ask(f"{one}/restart")
                again = re.search(r"inv_\w+", said["said"])[0]
                self.assertEqual((await it.ask(f"/-/invocations/{again}", None, "GET"))[1]["origin"], ids[0])
                found = (await it.ask("/-/acts/cancel?service=S&dry_run=1"))[1]
                self.assertEqual((found["count"], sorted(found["invocations"])), (4, sorted([*ids[1:], again])))
                done = (await it.ask("/-/acts/cancel?service=S"))[1]
                self.assertEqual((done["count"], set(done["done"].values()) <= {"cancelled", "cancelled, before it began"}), (4, True))
                for id in found["invocations"]:
                    self.assertEqual((await it.ask(f"/-/invocations/{id}/result", None, "GET"))[0], 409)
                self.assertEqual(len((await it.ask("/-/invocations?status=failed&error=409", None, "GET"))[1]), 5)
                audit = (await it.ask(f"/-/audit?invocation={ids[0]}", None, "GET"))[1]
                self.assertEqual([(row["who"], row["what"]) for row in audit], [("ingress", what) for what in ("restart", "kill", "resume", "pause")])

        asyncio.run(go())

    def test_states(self):
        async def go():
            async with Served(runtime_app.app, self.url, Settings()) as it:
                self.assertEqual((await it.ask("/O/a%2Fb/add", 2))[1], [2, ["n"]])
                at = "/-/state/O/a%2Fb"
                self.assertEqual((await it.ask("/-/state", None, "GET"))[1], ["O"])
                self.assertEqual((await it.ask("/-/state/O?text=a", None, "GET"))[1], [{"key": "a/b", "names": 1, "bytes": 1}])
                self.assertEqual((await it.ask(at, None, "GET"))[1], {"n": 2})
                self.assertEqual((await it.ask(f"{at}/n", 40, "PUT"))[:2], (200, {"done": True, "names": 1}))
                self.assertEqual((await it.ask(f"{at}/n", None, "GET"))[:2], (200, 40))
                self.assertEqual((await it.ask(f"{at}/n", b"{", "PUT"))[0], 400)
                self.assertEqual((await it.ask("/O/a%2Fb/add", 2))[1], [42, ["n"]])
                self.assertEqual((await it.ask(at, None, "DELETE"))[1]["names"], 1)
                self.assertEqual((await it.ask(f"{at}/n", None, "GET"))[0], 404)
                self.assertEqual((await it.ask(at, 1, "PUT"))[0], 404)

        asyncio.run(go())


    def test_schedules(self):
        async def go():
            app = App(runtime_app.service, schedules=[Schedule("a/b", runtime_app.ticks, "tick", cron="0 3 1 1 *", overlap="skip")])
            async with Served(app, self.url, Settings()) as it:
                at = "/-/schedules/a%2Fb"
                self.assertEqual((await it.ask(f"{at}/pause"))[:2], (200, {"done": True, "said": "paused"}))
                [row] = (await it.ask("/-/schedules", None, "GET"))[1]
                self.assertEqual([row[name] for name in ("name", "rule", "overlap", "paused", "called")], ["a/b", "cron 0 3 1 1 *", "skip", True, None])
                self.assertEqual((await it.ask(f"{at}/resume"))[1]["said"], "resumed")
                id = (await it.ask(f"{at}/trigger"))[1]["said"].removeprefix("made ")
                self.assertEqual((await it.ask(f"/-/invocations/{id}/result?wait=600", None, "GET"))[0], 200)
                self.assertEqual((await it.ask(f"{at}/backfill?since=2025-01-01&until=2026-01-02"))[1]["said"], "2 calls are made")
                self.assertEqual((await it.ask(f"{at}/backfill"))[:2], (400, {"code": 400, "message": "a backfill needs `since`, its first time, as 2026-11-27T03:00"}))
                self.assertEqual([(await it.ask(it_))[0] for it_ in (f"{at}/stop", "/-/schedules/none/pause", "/-/schedules/a/b/pause")], [404] * 3)
                audit = (await it.ask("/-/audit", None, "GET"))[1]
                self.assertEqual([row["what"] for row in audit], [f"{what} schedule" for what in ("backfill", "trigger", "resume", "pause")])

        asyncio.run(go())


LINES = """invocations list --status failed --newer 3600
invocations inspect ID
invocations pause ID
invocations resume --status paused --service Shop --dry-run
invocations resume --status paused --service Shop
invocations kill ID
state Stock
state Stock pen left
state Stock pen left --set 100
invocations restart ID
invocations cancel --service Shop --older 0 --dry-run
audit""".splitlines()


@support.on_each_database
class ByCommand(support.OnADatabase):
    """The commands of an operator, given while a worker serves the shop."""

    def told(self, served, line):
        """What a command prints."""
        return asyncio.to_thread(palqytun, *line.replace("ID", self.id).split(), "--db", self.url)

    def test_while_a_worker_serves(self):

        async def go():
            shop = command.load(str(PYTHON / "examples" / "shop.py"))
            with contextlib.chdir(self.folder):
                async with Served(shop, self.url, Settings()) as served:
                    await served.ask("/Shop/order", {"customer": "nobody", "items": [{"name": "pen"}], "card": "4242"})
                    self.id = (await served.ask("/Shop/order/send", {"customer": "ann", "items": [{"name": "pen"}], "card": "4242", "slow": 3600}))[1]["invocation"]
                    row = {}
                    while row.get("status") != "suspended":
                        await asyncio.sleep(0.02)
                        row = (await served.ask(f"/-/invocations/{self.id}", None, "GET"))[1]
                    self.said = {}
                    for line in LINES:
                        with self.subTest(line):
                            status, self.said[line], why = await self.told(served, line)
                            self.assertEqual(status, 0, why)
                    self.result = (await served.ask(f"/-/invocations/{self.id}/result", None, "GET"))[:2]

        asyncio.run(go())
        said = self.said
        self.assertIn("404 nobody lives there", said["invocations list --status failed --newer 3600"])
        self.assertTrue(said["invocations kill ID"].endswith("killed\n"), said)
        self.assertEqual(self.result, (409, {"code": 409, "message": "killed"}))
        self.assertRegex(said["invocations restart ID"], r"is made again as inv_\w+")
        self.assertEqual(said["state Stock pen left"].strip(), "99")
        self.assertIn("100; was 99", said["audit"])

    def test_what_is_refused(self):
        with Plain(self.url):
            pass
        for words, why in [
            (("invocations", "cancel"), "name invocations by their ids or by a filter"),
            (("invocations", "cancel", "inv_1", "--service", "S"), "by their ids, or by a filter"),
            (("invocations", "kill", "inv_none"), "there is no invocation inv_none"),
            (("invocations", "restart", "--status", "failed", "--step", "3"), "a step is of one invocation"),
            (("state", "Stock", "pen", "left"), "the state of Stock/pen has no left"),
            (("state", "Stock", "pen", "--set", "1"), "a state is set by SERVICE KEY NAME --set VALUE"),
            (("state", "Stock", "pen", "left", "--set", "pen"), 'the state is no value, as 7 or "a text" in JSON: '),
            (("schedules", "pause"), "name the schedule, as palqytun schedules pause NAME"),
            (("schedules", "pause", "none"), "there is no schedule none"),
            (("schedules", "pause", "none", "--since", "2026-01-01"), "--since and --until are of a backfill"),
        ]:
            with self.subTest(words):
                status, said, error = palqytun(*words, "--db", self.url)
                self.assertEqual((status, said), (2, ""))
                self.assertIn(why, error)
        for words, why in [
            (("invocations", "cancel", "--all"), "cancel was done to 0 invocations"),
            (("invocations", "cancel", "--all", "--dry-run"), "cancel would be done to 0 invocations"),
            (("audit", "--json"), "nobody has done anything"),
            (("audit", "inv_none"), "nobody has done anything to inv_none"),
            (("state",), "there is no state of any service"),
            (("state", "Stock"), "there is no state of Stock"),
            (("state", "Stock", "--text", "pe"), "there is no state of Stock with 'pe' in its key"),
            (("state", "Stock", "pen"), "there is no state of Stock/pen"),
        ]:
            with self.subTest(words):
                self.assertEqual(palqytun(*words, "--db", self.url), (0, "", f"{why}\n"))


if __name__ == "__main__":
    unittest.main()
