"""The ingress as a part of another ASGI application, whose lifespan runs the worker."""

import asyncio
import contextlib
import logging
import pathlib
import signal
import subprocess
import sys
import threading
import time
import types
import unittest
from unittest import mock

import support  # isort: skip
import needs

if lacks := needs.lacks_server() or needs.lacks_module("httpx"):
    raise unittest.SkipTest(lacks)
import httpx
import runtime_app
from palqytun.runtime import process
from palqytun.runtime.database import Lost
from starlette.applications import Starlette
from starlette.responses import PlainTextResponse
from starlette.routing import Mount, Route


@support.on_each_database
class Mounted(support.OnADatabase):
    def asked(self, *requests, **options):
        """The answers of an application in which the ingress is mounted at /durable."""
        durable = runtime_app.app.asgi(self.url, poll=0.2, **options)
        own = Route("/own", lambda request: PlainTextResponse("its own"))
        site = Starlette(routes=[own, Mount("/durable", durable)], lifespan=durable.lifespan)

        async def go():
            async with site.router.lifespan_context(site), httpx.AsyncClient(app=site, base_url="http://localhost") as client:
                return [await client.request(*it[:2], **(it[2] if len(it) > 2 else {})) for it in requests]

        return asyncio.run(asyncio.wait_for(go(), support.LONG))

    def test_handlers_and_the_page(self):
        own, called, keyed, listed, none = self.asked(
            ("GET", "/own"),
            ("POST", "/durable/S/echo", {"json": [1, "é"]}),
            ("POST", "/durable/O/a%2Fb/add", {"json": 1}),
            ("GET", "/durable/-/page"),
            ("GET", "/S/echo"),
        )
        self.assertEqual((own.text, called.json(), keyed.json(), none.status_code), ("its own", [1, "é"], [1, ["n"]], 404))
        self.assertIn("/durable/-/page/state?service=O&amp;key=a%2Fb", listed.text)

    def test_who_may_ask(self):
        known = {"authorization": "Bearer secret"}
        asked, refused, entered, foreign = self.asked(
            ("POST", "/durable/S/echo", {"json": 1, "headers": known}),
            ("POST", "/durable/S/echo", {"json": 1}),
            ("POST", "/durable/-/page/token", {"data": {"token": "secret"}, "headers": {"origin": "http://localhost"}}),
            ("POST", "/durable/S/echo", {"json": 1, "headers": {**known, "origin": "http://evil.example"}}),
            token="secret",
        )
        self.assertEqual([it.status_code for it in (asked, refused, entered, foreign)], [200, 401, 303, 403])
        self.assertEqual(entered.headers["location"], "/durable/-/page")
        self.assertIn("Path=/durable/-/page", entered.headers["set-cookie"])
        [other] = self.asked(("POST", "/durable/S/echo", {"json": 1, "headers": {"host": "shop.example"}}))
        self.assertEqual(other.status_code, 403)

    def test_limits(self):
        large, slow = self.asked(("POST", "/durable/S/echo", {"content": b"1" * 11}), ("POST", "/durable/S/waits"), payload=10, wait=0.1)
        self.assertEqual((large.status_code, slow.status_code, slow.json()["status"]), (413, 202, "pending"))


class Served(support.OnADatabase, unittest.TestCase):
    def test_by_a_server_as_it_is(self):
        """The server asks for its lifespan, and so runs its worker."""
        durable = runtime_app.app.asgi(self.url, poll=0.2)

        async def go():
            asked, said = asyncio.Queue(), asyncio.Queue()
            serving = asyncio.create_task(durable({"type": "lifespan", "asgi": {"version": "3.0"}}, asked.get, said.put))
            await asked.put({"type": "lifespan.startup"})
            self.assertEqual((await said.get())["type"], "lifespan.startup.complete")
            async with httpx.AsyncClient(app=durable, base_url="http://localhost") as client:
                self.assertEqual((await client.post("/S/echo", json=7)).json(), 7)
                waits = asyncio.create_task(client.post("/S/waits"))
                while not durable.engine._results:
                    await asyncio.sleep(0.01)
                await asked.put({"type": "lifespan.shutdown"})
                self.assertEqual((await waits).status_code, 202)
            self.assertEqual((await said.get())["type"], "lifespan.shutdown.complete")
            await serving

        asyncio.run(asyncio.wait_for(go(), support.LONG))


PROGRAM = """
import socket, sys
sys.path[:0] = {path!r}
import runtime_app, uvicorn
from starlette.applications import Starlette
from starlette.routing import Mount
durable = runtime_app.app.asgi(sys.argv[1], poll=0.2, idle=600)
site = Starlette(routes=[Mount("/durable", durable)], lifespan=durable.lifespan)
listens = socket.create_server(("127.0.0.1", 0))
print(listens.getsockname()[1], flush=True)
uvicorn.Server(uvicorn.Config(site, log_level="error")).run([listens])
"""


class Stopped(support.OnADatabase, unittest.TestCase):
    def test_a_server_that_begins_to_stop(self):
        """A user's own uvicorn is told to stop while a request waits: it is answered at once, and the process ends."""
        path = [str(support.PYTHON / "src"), str(pathlib.Path(runtime_app.__file__).parent)]
        for number in (signal.SIGTERM, signal.SIGINT):
            words = [sys.executable, "-c", PROGRAM.format(path=path), self.url]
            server = self.enterContext(subprocess.Popen(words, stdout=subprocess.PIPE, stderr=subprocess.DEVNULL, text=True))
            self.addCleanup(server.kill)
            at = f"http://127.0.0.1:{server.stdout.readline().strip()}/durable"
            self.until(lambda: httpx.get(f"{at}/-/health").status_code == 200)
            answers = []
            waits = threading.Thread(target=lambda: answers.append(httpx.post(f"{at}/S/waits", timeout=support.LONG)))
            waits.start()
            self.until(lambda: '"running"' in httpx.get(f"{at}/-/invocations").text)
            server.send_signal(number)
            waits.join(support.LONG)
            self.assertEqual([it.status_code for it in answers], [202])
            self.assertEqual(server.wait(support.LONG), 0)

    def until(self, holds):
        until = time.monotonic() + support.LONG
        while time.monotonic() < until:
            with contextlib.suppress(httpx.HTTPError):
                if holds():
                    return
            time.sleep(0.05)
        self.fail("it doesn't come")


class Unproved(support.OnADatabase, unittest.TestCase):
    def test_a_library_without_a_proof_is_said_once_by_a_worker_that_starts(self):
        """And by no worker of a test or of a program that has its own log."""

        async def mounted():
            async with runtime_app.app.asgi(self.url, poll=0.2).lifespan():
                pass

        async def by_itself():
            async with support.Runtime(runtime_app.app, self.url) as runtime:
                self.assertEqual(await runtime.call("S/echo", 1), 1)

        for is_proved, main, lines in ((False, mounted, 1), (False, by_itself, 0), (True, mounted, 0)):
            library = types.SimpleNamespace(is_proved=is_proved, build="some build")
            with mock.patch.object(process, "library", return_value=library), self.assertLogs("palqytun", "WARNING") as logged:
                logging.getLogger("palqytun").warning("the first")
                asyncio.run(asyncio.wait_for(main(), support.LONG))
            self.assertEqual(sum("without a proof" in it for it in logged.output), lines, logged.output)


class Broken(support.InAFolder, unittest.TestCase):
    def test_a_database_that_is_in_use(self):
        """The application doesn't begin."""
        from palqytun.runtime.database.sqlite import InUse

        url = str(self.folder / "db")

        async def go():
            first, second = runtime_app.app.asgi(url), runtime_app.app.asgi(url)
            async with first.lifespan():
                with self.assertRaises((InUse, Lost)):
                    async with second.lifespan():
                        self.fail("it began")

        asyncio.run(asyncio.wait_for(go(), support.LONG))


if __name__ == "__main__":
    unittest.main()
