"""Hosts of a test's own. Each is a network namespace with a link into two networks: by the inner one servers reach each other, by the outer one clients
reach them. The programs of a host have a namespace of processes too, so that all of them can be killed at once.

They are made within a network and mounts of the test's own (`enter`). So nothing changes on this host, and all of it ends with the test. Where that
isn't allowed (`refused`), a `Loopback` stands for a host: it can't be cut off.
"""

from __future__ import annotations

import contextlib
import os
import pathlib
import pwd
import random
import signal
import socket
import subprocess
import sys
from dataclasses import dataclass, field
from typing import IO, Any

import postgres

_INNER, _OUTER = "10.77.0", "10.77.1"
_OWN = "PALQYTUN_TEST_OWN_NETWORK"
_TRIED = (
    "mount -t tmpfs tried /mnt && touch /mnt/tried && unshare --net=/mnt/tried true"
    " && ip link add name tried type bridge && ip link add name near type veth peer name far netns /mnt/tried"
)
_NETWORKS = pathlib.Path("/mnt")  # where the networks of hosts have their names; only this program and what it begins sees them
_SECONDS = 600  # that a command may take, on a host that is busy with other things
_LONG = 600  # seconds that a program may take to end


def refused() -> str:
    """Why nobody may make namespaces here; empty if this process may."""
    words = ["unshare", "--net", "--mount", "--pid", "--fork", "--mount-proc", "sh", "-c", _TRIED]
    try:
        done = subprocess.run(words, stdin=subprocess.DEVNULL, capture_output=True, text=True, timeout=_SECONDS)
    except OSError as error:
        return f"{error}"
    return "" if done.returncode == 0 else (done.stderr.strip() or f"unshare ended with {done.returncode}")


def enter() -> None:
    """Begins this program again, in a network and mounts of its own, in which there are both networks of hosts."""
    if not is_own():
        os.execvpe("unshare", ["unshare", "--net", "--mount", *sys.orig_argv], {**os.environ, _OWN: "1"})
    _run("mount", "-t", "tmpfs", "networks", str(_NETWORKS))
    _ip("link", "set", "dev", "lo", "up")
    for name, network in (("inner", _INNER), ("outer", _OUTER)):
        _ip("link", "add", "name", name, "type", "bridge")
        _ip("address", "add", f"{network}.1/24", "dev", name)
        _ip("link", "set", "dev", name, "up")


def is_own() -> bool:
    """Whether this program has begun in a network of its own."""
    return os.environ.get(_OWN) == "1"


def free_port() -> int:
    """A port at which nobody listens, below those that outgoing connections have."""
    while True:
        port = random.randrange(20000, 30000)
        with contextlib.suppress(OSError), socket.create_server(("127.0.0.1", port)):
            return port


def _run(*words: str) -> None:
    subprocess.run(words, stdin=subprocess.DEVNULL, check=True, timeout=_SECONDS)


def _ip(*words: str) -> None:
    _run("ip", *words)


def _as_user() -> list[str]:
    """The words that begin a program as the user of the server. It is killed with whoever began it."""
    user = postgres.server_user()
    own = [] if user is None else [f"--reuid={user}", f"--regid={pwd.getpwnam(user).pw_gid}", "--clear-groups"]
    return ["setpriv", *own, "--pdeathsig", "KILL"]


def _environment() -> dict[str, str]:
    """Programs of Debian's Python don't get what is for that of the tests."""
    return {name: it for name, it in os.environ.items() if not name.startswith(("PYTHON", "PG"))} | {"LC_ALL": "C.UTF-8", "TZ": "UTC"}


@dataclass
class Loopback:
    """A host that is this one."""

    name: str
    number: int
    folder: pathlib.Path
    inner: str = field(default="127.0.0.1", init=False)
    outer: str = field(default="127.0.0.1", init=False)
    process: subprocess.Popen[bytes] | None = field(default=None, init=False)

    def start(self, words: list[str], log: IO[str]) -> None:
        """Begins the program of this host, as the user of the server."""
        how: dict[str, Any] = {"stdin": subprocess.DEVNULL, "stdout": log, "stderr": log, "env": _environment(), "cwd": self.folder}
        self.process = subprocess.Popen([*self._around(), *_as_user(), *words], start_new_session=True, **how)

    def _around(self) -> list[str]:
        return []

    def kill(self, process: int) -> None:
        """Kills a process of this host, by its number there."""
        os.kill(process, signal.SIGKILL)

    def stop(self) -> None:
        """Ends the program of this host, which ends what it has begun."""
        if self.process is not None:
            self.process.terminate()
            self.process.wait(_LONG)
            self.process = None


@dataclass
class Namespace(Loopback):
    """A host with a network of its own."""

    def __post_init__(self) -> None:
        self.inner, self.outer = f"{_INNER}.{self.number}", f"{_OUTER}.{self.number}"
        self._file = _NETWORKS / self.name
        self._file.touch()
        _run("unshare", f"--net={self._file}", "true")
        self._within("link", "set", "dev", "lo", "up")
        for network, address in (("inner", self.inner), ("outer", self.outer)):
            _ip("link", "add", "name", self._link(network), "type", "veth", "peer", "name", network, "netns", str(self._file))
            _ip("link", "set", "dev", self._link(network), "up")
            self._within("address", "add", f"{address}/24", "dev", network)
            self._within("link", "set", "dev", network, "up")
            self.join(network)

    def _link(self, network: str) -> str:
        return f"{self.name}-{network}"

    def _within(self, *words: str) -> None:
        _run("nsenter", f"--net={self._file}", "ip", *words)

    def join(self, network: str) -> None:
        """Joins a network again."""
        _ip("link", "set", "dev", self._link(network), "master", network)

    def cut(self, network: str) -> None:
        """From now on nothing goes to and fro by a network, and nobody is told."""
        _ip("link", "set", "dev", self._link(network), "nomaster")

    def _around(self) -> list[str]:
        return ["setpriv", "--pdeathsig", "KILL", "nsenter", f"--net={self._file}", "unshare", "--pid", "--fork", "--kill-child", "--mount-proc"]

    def kill(self, process: int) -> None:
        _run("nsenter", "--target", str(self._first()), "--pid", "--mount", "kill", "-KILL", str(process))

    def _first(self) -> int:
        """The first process of this host. All others are killed with it."""
        assert self.process is not None
        return postgres.children(self.process.pid)[0]

    def lose_power(self) -> None:
        """Everything of this host ends at once, and no network says so."""
        self.cut("inner")
        self.cut("outer")
        self.stop()

    def stop(self) -> None:
        """Kills each process of this host, and waits until all have ended."""
        if self.process is not None:
            for it in postgres.children(self.process.pid):
                os.kill(it, signal.SIGKILL)
            self.process.wait(_LONG)
            self.process = None
