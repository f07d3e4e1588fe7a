"""Whether a worker says truly that it can take calls: while it serves, while it stops, and while its database can't be used."""

import asyncio
import sqlite3
import unittest

import support  # isort: skip
import needs

if lacks := needs.lacks_server():
    raise unittest.SkipTest(lacks)
import runtime_app
from palqytun.runtime import App, Context, Service, readiness
from palqytun.runtime.database import Lost, connect
from palqytun.runtime.serving import Settings
from served import Served


class Cut:
    """Connects, unless the database is to be out of reach."""

    is_cut = False

    async def __call__(self, url):
        if self.is_cut:
            raise Lost("nobody listens there")
        return await connect(url, worker=True)


async def asked(served, path="/-/ready"):
    status, said, headers = await served.ask(path, None, "GET")
    return status, said


async def until(served, wanted):
    """Until it is ready, or isn't; the last reply."""
    for _ in range(int(support.LONG / 0.05)):
        found = await asked(served)
        if found[0] == wanted:
            return found[1]
        await asyncio.sleep(0.05)
    raise AssertionError(found)


@support.on_each_database
class Ready(support.OnADatabase):
    def test_it_serves_and_asks_for_no_token(self):
        async def go():
            async with Served(runtime_app.app, self.url, Settings(token="a secret")) as served:
                self.assertEqual(await until(served, 200), {"ready": True})
                self.assertEqual((await served.ask("/-/ready", 1))[0], 404)  # it is asked by GET

        asyncio.run(go())

    def test_one_that_stops(self):
        """It lives until its last run has ended, and isn't ready meanwhile."""
        service, begun, may_end = Service("Slow"), asyncio.Event(), asyncio.Event()

        async def effect():
            begun.set()
            await may_end.wait()
            return "done"

        @service.handler()
        async def works(ctx: Context, _: None) -> str:
            return await ctx.run("effect", effect)

        async def go():
            async with Served(App(service), self.url, grace=support.LONG) as served:
                _, said, _ = await served.ask("/Slow/works/send")
                await begun.wait()
                self.assertEqual(await until(served, 200), {"ready": True})
                served.engine.stop()
                status, why, headers = await served.ask("/-/ready", None, "GET")
                self.assertEqual((status, why), (503, {"code": 503, "message": "the worker stops, and takes no new calls"}))
                self.assertEqual(headers["retry-after"], "1")
                self.assertEqual((await asked(served, "/-/health"))[0], 200)
                may_end.set()
                await served.until(lambda: not served.engine.live)
            async with Served(App(service), self.url) as served:
                self.assertEqual((await asked(served, f"/-/invocations/{said['invocation']}/result"))[1], "done")

        asyncio.run(go())

    def test_a_database_that_is_lost(self):
        if self.kind == "sqlite":
            return self.locked()

        async def go():
            cut = Cut()
            async with Served(runtime_app.app, self.url, connect=cut) as served:
                await until(served, 200)
                cut.is_cut = True
                outside = await connect(self.url)
                await outside.begin()
                await outside.rows("SELECT pg_terminate_backend(pid) FROM pg_stat_activity WHERE datname=current_database() AND pid<>pg_backend_pid()")
                await outside.commit()
                outside.close()
                said = await until(served, 503)
                self.assertIn("the database can't be used now", said["message"])
                self.assertEqual((await asked(served, "/-/health"))[0], 200)  # the process needn't be started again
                cut.is_cut = False
                await until(served, 200)

        asyncio.run(go())
        return None

    def locked(self):
        """Another program has the file."""

        async def go():
            async with Served(runtime_app.app, self.url) as served:
                await until(served, 200)
                outside = sqlite3.connect(self.url, isolation_level=None)
                outside.execute("BEGIN IMMEDIATE")
                self.assertEqual(await readiness.unready(served.engine, 0.3), "the database hasn't replied within 0.3 seconds")
                self.assertEqual((await asked(served, "/-/health"))[0], 200)
                outside.rollback()
                outside.close()
                await until(served, 200)

        asyncio.run(go())

    def test_a_lease_that_is_old(self):
        class Worker:
            drains, lease, lease_age = False, 10.0, 25.0

            async def transact(self, operation):
                pass

        self.assertEqual(asyncio.run(readiness.unready(Worker())), "the worker's lease is 25 seconds old, so others take its invocations")


if __name__ == "__main__":
    unittest.main()
