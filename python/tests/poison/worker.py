"""A worker of the poison app in a process of its own, and what is asked of it."""

from __future__ import annotations

import http.client
import itertools
import json
import os
import pathlib
import signal
import socket
import statistics
import subprocess
import sys
import time
import urllib.parse
from dataclasses import dataclass
from typing import Any

HERE = pathlib.Path(__file__).parent
SOURCES = HERE.parent.parent / "src"
GRACE = 2.0  # seconds
LONG = 300.0  # seconds after which a test that waits has failed, however busy its host is
_KEYS = itertools.count()  # of the healthy ones
_SLOWEST = 60.0  # seconds that the healthy one may take on a host that is busy, whatever it takes usually


@dataclass(frozen=True)
class Reply:
    status: int
    body: bytes

    @property
    def value(self) -> Any:
        return json.loads(self.body) if self.body else None


class Worker:
    def __init__(self, url: str, folder: pathlib.Path, is_checked: bool = True):
        command = [sys.executable, "-m", "palqytun", "run", str(HERE / "poison_app.py"), "--db", url, "--port", "0", "--grace", str(GRACE)]
        command += ["--lease", "3", "--idle", "0.2"]
        environment = {**os.environ, "PYTHONPATH": f"{SOURCES}:{HERE}", "PYTHONUNBUFFERED": "1"}
        self.log_file = folder / "log"
        self._log = self.log_file.open("ab")
        self.process = subprocess.Popen(command, env=environment, cwd=folder, stdout=subprocess.PIPE, stderr=self._log, text=True)
        assert self.process.stdout is not None
        address = urllib.parse.urlsplit(self.process.stdout.readline().strip())  # it is empty if the worker has died before
        assert address.port is not None or not is_checked, self.log
        self.at = str(address.hostname), address.port or 0
        self._usual = _SLOWEST
        if is_checked:
            self._usual = max(_SLOWEST, 10 * statistics.median([self.healthy() for _ in range(5)]))

    @property
    def log(self) -> str:
        return self.log_file.read_text(errors="replace")

    def ask(self, method: str, path: str, body: bytes = b"", wait: float = LONG, **headers: str) -> Reply:
        """A request; it is asked again while the worker has no database."""
        until = time.monotonic() + wait
        while True:
            connection = http.client.HTTPConnection(*self.at, timeout=wait)
            try:
                connection.request(method, path, body, {name.replace("_", "-"): it for name, it in headers.items()})
                answer = connection.getresponse()
                reply = Reply(answer.status, answer.read())
            finally:
                connection.close()
            if reply.status != 503 or time.monotonic() > until:
                return reply
            time.sleep(0.05)

    def call(self, handler: str, argument: object, **headers: str) -> Reply:
        return self.ask("POST", f"/P/{handler}", json.dumps(argument).encode(), **headers)

    def send(self, handler: str, argument: object) -> str:
        reply = self.ask("POST", f"/P/{handler}/send", json.dumps(argument).encode())
        assert reply.status == 202, reply
        return str(reply.value["invocation"])

    def status(self, id: str) -> dict[str, Any]:
        found: dict[str, Any] = self.ask("GET", f"/-/invocations/{id}").value
        return found

    def until_ended(self, id: str, seconds: float = LONG) -> str:
        """Until an invocation has ended or is paused: which of both."""
        until = time.monotonic() + seconds
        while (found := self.status(id))["status"] not in ("done", "failed", "paused"):
            if time.monotonic() > until:
                raise AssertionError(f"after {seconds} s: {found}\n{self.log[-3000:]}")
            time.sleep(0.02)
        return str(found["status"])

    def healthy(self) -> float:
        """Calls the healthy handler, which ends in its usual time: for how many seconds."""
        key, begun = f"key {next(_KEYS)}", time.monotonic()
        reply = self.call("healthy", key)
        took = time.monotonic() - begun
        assert (reply.status, reply.body) == (200, b"[1,2,1]"), (reply, self.log[-3000:])
        assert took < self._usual, f"the healthy one took {took:.2f} s, and not {self._usual:.2f} s at most\n{self.log[-3000:]}"
        return took

    def is_well(self) -> None:
        """It is alive, its health is said to be good, and the healthy one ends in its time."""
        assert self.process.poll() is None, (self.process.returncode, self.log[-3000:])
        health = self.ask("GET", "/-/health")
        assert health.status == 200, health
        self.healthy()

    def raw(self, data: bytes, seconds: float = 0.0) -> None:
        """Sends bytes, and goes away after some seconds."""
        with socket.create_connection(self.at, timeout=LONG) as it:
            try:
                it.sendall(data)
            except ConnectionError:
                return
            time.sleep(seconds)

    def ends(self) -> None:
        """SIGTERM ends it in an orderly way. A worker whose shutdown takes longer than its grace, by far, ends itself with another status."""
        self.process.send_signal(signal.SIGTERM)
        try:
            status = self.process.wait(LONG)
        except subprocess.TimeoutExpired:
            raise AssertionError(f"SIGTERM didn't end it in {LONG} s\n{self.log[-3000:]}") from None
        finally:
            self.kill()
        assert status == 0, (status, self.log[-3000:])

    def kill(self) -> None:
        self.process.kill()
        self.process.wait()
        assert self.process.stdout is not None
        self.process.stdout.close()
        self._log.close()
