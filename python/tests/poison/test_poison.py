"""Poisoned handlers, effects, arguments, keys, headers, codecs and clients, each beside an invocation that is healthy.

After each of them the worker lives, says so, and the healthy one ends; the poisoned one ends in a retry, a pause or a result. At
last SIGTERM ends the worker within its grace."""

import contextlib
import http.client
import pathlib
import signal
import socket
import sys
import time
import unittest
from concurrent.futures import ThreadPoolExecutor

HERE = pathlib.Path(__file__).parent
sys.path[:0] = [str(HERE), str(HERE.parent), str(HERE.parent / "runtime")]
import support  # noqa: E402
import poison_app  # noqa: E402
from worker import LONG, Worker  # noqa: E402

LONG_KEY = "k" * 12_000
ARGUMENTS = {
    "nothing": b"",
    "no JSON": b"{",
    "no UTF-8": b'"\xff\xfe"',
    "NaN": b"NaN",
    "100,000 nested lists": b"[" * 100_000 + b"]" * 100_000,
    "a number of 5,000 digits": b"1" * 5000,
    "a lone surrogate": b'"\\ud800"',
    "another type": b'{"name": 1}',
    "another field": b'{"title": "x"}',
    "a value whose type raises KeyError": b'{"name": "bad"}',
    "a value whose type exits": b'{"name": "exit"}',
    "a value at which the codec exits": b'{"odd": "decode"}',
    "a value at which the codec is interrupted": b'{"odd": "interrupt"}',
}
PATHS = {
    "an empty key": "/O//add",
    "a key of 12,000 characters": f"/O/{LONG_KEY}/add",
    "a key with NUL": "/O/a%00b/add",
    "a key that is no UTF-8": "/O/%ff/add",
    "a handler with NUL": "/P/a%00b",
    "no handler": "/P/none",
    "no service": "/None/none",
    "a delay that is no number": "/P/healthy/send?delay=nan",
}
HEADERS = {
    "an idempotency key of 12,000 characters": LONG_KEY,
    "an empty idempotency key": "",
}
CLIENTS = {
    "says nothing": (b"", 0.2),
    "speaks nonsense": (b"\x16\x03\x01\x00garbage\r\n\r\n", 0.1),
    "leaves in a request's head": (b"POST /P/healthy HTTP/1.1\r\nhost: localhost\r\n", 0.0),
    "leaves in a body": (b"POST /P/healthy HTTP/1.1\r\nhost: localhost\r\ncontent-length: 1000\r\n\r\nabc", 0.0),
    "leaves while it waits": (b'POST /P/hangs HTTP/1.1\r\nhost: localhost\r\ncontent-length: 14\r\n\r\n"an async run"', 0.1),
    "says a length that is none": (b"POST /P/healthy HTTP/1.1\r\nhost: localhost\r\ncontent-length: -5\r\n\r\n", 0.1),
    "says two lengths": (b"POST /P/healthy HTTP/1.1\r\nhost: localhost\r\ncontent-length: 1\r\ncontent-length: 2\r\n\r\nab", 0.1),
    "says a chunk that is too long": (b"POST /P/healthy HTTP/1.1\r\nhost: localhost\r\ntransfer-encoding: chunked\r\n\r\nffffffffffff\r\n", 0.1),
    "sends a head of 1 MB": (b"GET / HTTP/1.1\r\nhost: localhost\r\nx: " + b"y" * 1_000_000, 0.1),
}


AT_ONCE = 4  # poisoned invocations beside each healthy one
WAITING = {"coroutines wait for each other", "waits for its own end", "catches BaseException again and again"}
RUNS = list(poison_app.RAISED)


def groups(kinds):
    """The kinds, some at a time."""
    found = list(kinds)
    return [found[at : at + AT_ONCE] for at in range(0, len(found), AT_ONCE)]


@support.on_each_database
class Poison(support.OnADatabase):
    """A worker for each test."""

    def setUp(self):
        super().setUp()
        self.worker = Worker(self.url, self.folder)
        self.addCleanup(self.worker.kill)

    def each(self, what, kinds, poisoned):
        """Some kinds at once, and then a healthy one."""
        for group in groups(kinds):
            with self.subTest(what=what, kinds=group), ThreadPoolExecutor(AT_ONCE) as pool:
                calls = [pool.submit(poisoned, kind) for kind in group]
                self.worker.is_well()
                for call in calls:
                    call.result()
                self.worker.is_well()

    def ended(self):
        self.worker.is_well()
        self.worker.ends()

    def ends(self, handler):
        return lambda kind: self.worker.until_ended(self.worker.send(handler, kind))

    def test_errors(self):
        self.each("a handler raises", RUNS, self.ends("raises"))
        self.each("a handler raises after a step", RUNS[:4], self.ends("raises_later"))
        self.each("a plain run raises", RUNS, self.ends("run_raises"))
        self.each("an async run raises", RUNS, self.ends("async_run_raises"))
        self.ended()

    def test_handlers_and_effects(self):
        def poisoned(kind):
            id = self.worker.send("does", kind)
            if kind not in WAITING:
                self.worker.until_ended(id)

        self.each("a handler", poison_app.HANDLERS, poisoned)
        self.each("an effect", poison_app.EFFECTS, self.ends("has_effect"))
        self.ended()

    def _argument(self, kind):
        reply = self.worker.ask("POST", "/P/takes", ARGUMENTS[kind])
        assert reply.status == 400, (kind, reply)
        reply = self.worker.ask("POST", "/P/takes_any", ARGUMENTS[kind])
        assert 200 <= reply.status < 500, (kind, reply)

    def _named(self, kind):
        if kind in PATHS:
            reply = self.worker.ask("POST", PATHS[kind], b"1")
        else:
            reply = self.worker.ask("POST", "/P/healthy", b'"odd"', idempotency_key=HEADERS[kind])
        assert 200 <= reply.status < 500, (kind, reply)

    def test_requests_and_clients(self):
        self.each("an argument", ARGUMENTS, self._argument)
        self.each("a name", [*PATHS, *HEADERS], self._named)
        self.each("a client", CLIENTS, lambda kind: self.worker.raw(*CLIENTS[kind]))
        crowd = [socket.create_connection(self.worker.at, timeout=LONG) for _ in range(200)]
        for it in crowd:
            it.sendall(b"POST /P/healthy HTTP/1.1\r\n")
        self.worker.is_well()
        for it in crowd:
            it.close()
        self.ended()

    def test_what_hangs(self):
        """Runs that never end, also many of one invocation, keep nobody else out, and SIGTERM ends the worker."""
        for kind in poison_app.HANGING:
            self.worker.send("hangs", kind)
            self.worker.is_well()
        for kind in ("a plain run", "an async run"):
            id = self.worker.send("hangs_widely", kind)
            while self.worker.status(id)["status"] == "ready":
                time.sleep(0.02)
            self.worker.is_well()
        self.worker.ends()

    def test_one_that_ends_its_worker(self):
        """It is paused after some deaths, and the last worker is well."""
        id = self.worker.send("dies", "")
        deaths = 0
        while self.died(id):
            deaths += 1
            self.worker.kill()
            self.worker = Worker(self.url, self.folder, is_checked=False)
            self.addCleanup(self.worker.kill)
        self.worker.is_well()
        assert self.worker.status(id)["status"] == "paused" and deaths == 5, deaths

    def died(self, id):
        """Whether the worker dies, and not before the invocation is paused."""
        until = time.monotonic() + LONG
        while self.worker.process.poll() is None:
            with contextlib.suppress(OSError, http.client.HTTPException):  # it dies meanwhile
                if self.worker.status(id)["status"] == "paused":
                    return False
            self.assertLess(time.monotonic(), until, "the worker neither dies nor pauses it")
            time.sleep(0.05)
        return True

    def test_the_second_signal_ends_at_once(self):
        """With its own status, and not with that of a shutdown, which waits for the run until the grace is over."""
        self.worker.send("hangs", "a plain run")
        self.worker.is_well()
        while self.worker.process.poll() is None:
            self.worker.process.terminate()
            time.sleep(0.2)
        self.assertEqual(self.worker.process.returncode, 128 + signal.SIGTERM)


if __name__ == "__main__":
    unittest.main()
