"""A primary and its synchronous standby under Patroni, which has its decisions in etcd; each of the three is a host of its own.

Patroni fails over by itself. The tests only let something fail, in turn:

    process    the primary's server is killed
    power      everything of the primary's host ends at once
    cut        the primary is cut off from its standby and from etcd, and clients still reach it: none of its commits may count

Workers and whoever submits name both servers, and libpq takes the one that may write (`target_session_attrs=read-write`).
"""

from __future__ import annotations

import contextlib
import itertools
import json
import pathlib
import random
import threading
import time
import urllib.request
from collections.abc import Iterator
from dataclasses import dataclass, field
from typing import IO, Any

import hosts
import postgres
import scenarios
from checked import Found, Wrong, left
from failover import EACH, Failovers, Load, asked, entries, lasting, until
from palqytun.runtime.database import Lost
from palqytun.runtime.database.plain import Plain
from scenarios import Report, Workers, emptied, logged_without_errors

TTL = 20  # seconds for which a primary is one without etcd's word
PROGRAMS = ("patroni", "etcd", "ss")  # that have to be installed
_FAULTS = ("process", "power", "cut")
_LOOP, _RETRY = 5, 5  # seconds between two looks of Patroni, and for which it asks etcd again
_LONG = 1200.0  # seconds that one step of the servers may take, on a host that is busy with other things
_PAUSE = 0.2  # seconds between two looks at the servers
_OWNER = "palqytun"
_SCOPE = "palqytun"
_DYNAMIC: dict[str, Any] = {
    "ttl": TTL,
    "loop_wait": _LOOP,
    "retry_timeout": _RETRY,
    "primary_start_timeout": 0,  # a primary that has crashed isn't waited for
    "synchronous_mode": True,
    "postgresql": {"use_pg_rewind": True},
}
_IN_STEP = "SELECT COUNT(*) FROM pg_stat_replication WHERE state='streaming' AND sync_state='sync'"
_IS_PRIMARY = "SELECT CASE WHEN pg_is_in_recovery() THEN 0 ELSE 1 END"


@dataclass
class Etcd:
    """The server that knows who is primary."""

    host: hosts.Loopback
    port: int = field(default_factory=hosts.free_port)

    @property
    def address(self) -> str:
        return f"{self.host.inner}:{self.port}"

    def start(self, log: IO[str]) -> None:
        asked, peers = f"http://{self.address}", f"http://127.0.0.1:{hosts.free_port()}"
        data = str(self.host.folder / self.host.name)
        words = ["etcd", "--data-dir", data, "--listen-client-urls", asked, "--advertise-client-urls", asked, "--listen-peer-urls", peers]
        self.host.start([*words, "--initial-advertise-peer-urls", peers, "--initial-cluster", f"default={peers}"], log)


@dataclass
class Member:
    """A server of PostgreSQL and its Patroni."""

    host: hosts.Loopback
    port: int = field(default_factory=hosts.free_port)
    rest: int = field(default_factory=hosts.free_port)

    @property
    def place(self) -> postgres.Place:
        return postgres.Place(self.host.outer, str(self.port))

    @property
    def url(self) -> str:
        return postgres.url_of(self.place)

    @property
    def _data(self) -> pathlib.Path:
        return self.host.folder / self.host.name

    def configure(self, etcd: Etcd) -> None:
        """Writes what Patroni reads. YAML reads JSON."""
        rest, inner = f"{self.host.inner}:{self.rest}", f"{self.host.inner}:{self.port}"
        addresses = ",".join(dict.fromkeys((self.host.inner, self.host.outer, "127.0.0.1")))
        networks = ("local", "host"), ("", "0.0.0.0/0")
        server = {
            "listen": f"{addresses}:{self.port}",
            "connect_address": inner,
            "data_dir": str(self._data),
            "bin_dir": str(postgres.programs()),
            "pgpass": f"{self._data}.pgpass",
            "authentication": {name: {"username": _OWNER} for name in ("superuser", "replication", "rewind")},
            "pg_hba": [f"{kind} {what} all {network} trust" for kind, network in zip(*networks) for what in ("all", "replication")],
            "parameters": {"unix_socket_directories": str(self.host.folder)},
            "remove_data_directory_on_rewind_failure": True,
            "remove_data_directory_on_diverged_timelines": True,
        }
        made = ["no-sync", {"encoding": "UTF8"}, {"locale": "C"}, {"auth": "trust"}, {"username": _OWNER}]
        all_of_it = {
            "scope": _SCOPE,
            "name": self.host.name,
            "restapi": {"listen": rest, "connect_address": rest},
            "etcd3": {"hosts": etcd.address},
            "bootstrap": {"dcs": _DYNAMIC, "initdb": made},
            "postgresql": server,
        }
        self._settings.write_text(json.dumps(all_of_it, indent=1))

    @property
    def _settings(self) -> pathlib.Path:
        return self._data.with_suffix(".yml")

    def start(self, log: IO[str]) -> None:
        """Begins Patroni, which begins the server. A host that starts again has no file that names a process of before."""
        (self._data / "postmaster.pid").unlink(missing_ok=True)
        self.host.start(["patroni", str(self._settings)], log)

    def kill_server(self) -> None:
        """Kills the server's first process. Its others end by that."""
        self.host.kill(int((self._data / "postmaster.pid").read_text().splitlines()[0]))

    def is_primary(self) -> bool:
        """Whether clients reach this server, and it isn't a standby."""
        import psycopg

        try:
            return asked(self.url, _IS_PRIMARY) == 1
        except psycopg.OperationalError:
            return False

    def seen(self) -> dict[str, str]:
        """The roles of both servers, as this one's Patroni sees them; none if it doesn't say."""
        try:
            with urllib.request.urlopen(f"http://{self.host.inner}:{self.rest}/cluster", timeout=10) as said:
                return {it["name"]: it["role"] for it in json.load(said)["members"]}
        except (OSError, ValueError, KeyError):
            return {}


@dataclass
class Servers:
    """Two servers under Patroni, and etcd."""

    etcd: Etcd
    members: list[Member]
    log: IO[str]

    @property
    def url(self) -> str:
        return postgres.url_of(*(it.place for it in self.members))

    def start(self) -> None:
        """The first one is made, and the second one from it."""
        self.etcd.start(self.log)
        for it in self.members:
            it.configure(self.etcd)
            it.start(self.log)
            until(self.members[0].is_primary, "there is a primary", _LONG, _PAUSE)
        self.in_step()

    def stop(self) -> None:
        for host in (*(it.host for it in self.members), self.etcd.host):
            host.stop()

    def in_step(self) -> Member:
        """Waits until there is one primary and a synchronous standby, which Patroni may promote. Returns the primary."""
        until(lambda: self._in_step() is not None, "the standby is synchronous", _LONG, _PAUSE)
        found = self._in_step()
        return found if found is not None else self.in_step()

    def _in_step(self) -> Member | None:
        import psycopg

        for it in self.members:
            with contextlib.suppress(psycopg.OperationalError):
                if it.is_primary() and asked(it.url, _IN_STEP) == 1 and sorted(it.seen().values()) == ["leader", "sync_standby"]:
                    return it
        return None

    def other(self, than: Member) -> Member:
        return next(it for it in self.members if it is not than)


def _writes(connection: Any, url: str, written: list[int], is_over: threading.Event) -> None:
    """Commits rows on one server as often as it lets a client, by this connection and then by others, and notes those that it has acknowledged."""
    import psycopg

    for number in itertools.count():
        with contextlib.suppress(psycopg.Error):
            if connection.closed:
                connection = psycopg.connect(url, autocommit=True, connect_timeout=5)
            connection.execute("INSERT INTO split VALUES (%s)", (number,))
            written.append(number)
        if is_over.wait(_PAUSE):
            return connection.close()


def _connected(server: Member) -> Any:
    """A client's connection to one server, with a table for what it writes."""
    import psycopg

    try:
        connection = psycopg.connect(server.url, autocommit=True)
        connection.execute("CREATE TABLE IF NOT EXISTS split(n INT)")
    except psycopg.Error as error:
        raise Lost(f"{error}") from error
    return connection


def _cut(servers: Servers, primary: Member) -> None:
    """Cuts the primary off until the other one is promoted and this one isn't primary any more. No commit of this one may be acknowledged."""
    assert isinstance(primary.host, hosts.Namespace)
    connection, other = _connected(primary), servers.other(primary)
    written, is_over = list[int](), threading.Event()
    writer = threading.Thread(target=_writes, args=(connection, primary.url, written, is_over), daemon=True)
    primary.host.cut("inner")
    writer.start()
    until(lambda: other.is_primary() and not primary.is_primary(), "the other one alone is primary", _LONG, _PAUSE)
    is_over.set()
    writer.join(_LONG)
    if written:
        raise Wrong(f"a primary that was cut off has acknowledged {len(written)} commits")


def _let_fail(servers: Servers, kind: str) -> Member:
    """Lets the primary fail. Returns it."""
    primary = servers.in_step()
    if kind == "process":
        primary.kill_server()
    elif kind == "cut":
        _cut(servers, primary)
    else:
        assert isinstance(primary.host, hosts.Namespace)
        primary.host.lose_power()
    return primary


def _mended(servers: Servers, kind: str, failed: Member) -> None:
    """The server that failed is there again, and follows the other, which is primary by now."""
    if kind != "process":
        assert isinstance(failed.host, hosts.Namespace)
        failed.host.join("inner")
        failed.host.join("outer")
    if kind == "power":
        failed.start(servers.log)
    servers.in_step()


def _work_goes_on(servers: Servers, kind: str, failed: Member) -> None:
    """Waits until a worker has stored an entry after the failure. A killed server may be primary again, if its Patroni can't give that away."""
    if kind == "process":
        return lasting(lambda: _grows(servers.url), "work goes on", _LONG)
    other = servers.other(failed)
    until(other.is_primary, "the other one is primary", _LONG, _PAUSE)
    lasting(lambda: _grows(other.url), "work goes on", _LONG)


def _grows(url: str) -> None:
    """Waits until an entry is stored, or nothing is left to do."""
    with Plain(url) as db:
        before = entries(db)
        until(lambda: entries(db) > before or not left(db), "work goes on", _LONG)


@contextlib.contextmanager
def servers(log: IO[str]) -> Iterator[Servers]:
    """Two servers under Patroni and etcd, which are removed at the end."""
    kind = hosts.Namespace if hosts.is_own() else hosts.Loopback

    def made(folder: pathlib.Path, _user: str | None) -> Servers:
        one, two, witness = (kind(name, number, folder) for number, name in enumerate(("one", "two", "etcd"), 2))
        return Servers(Etcd(witness), [Member(one), Member(two)], log)

    with postgres.kept(made) as found:
        try:
            found.start()
            yield found
        finally:
            found.stop()


def kinds(count: int, seed: int) -> list[str]:
    """What is to fail, so often; the seed says which is the first. Without networks of its own a test can't cut one off."""
    those = _FAULTS if hosts.is_own() else _FAULTS[:1]
    return [those[(seed + number) % len(those)] for number in range(count)]


def undisturbed(those: Servers, folder: pathlib.Path, count: int) -> Found:
    """What a run for so many failovers leaves without one. On a host that is so busy that Patroni fails over by itself, it is made again."""
    return lasting(lambda: scenarios.undisturbed(those.url, folder, EACH * count, seconds=3600), "a run without failures", 3600)


def failovers(those: Servers, folder: pathlib.Path, *, count: int, seed: int = 1, reference: Found | None = None, seconds: float = 600) -> Failovers:
    """Lets the primary fail so often under load, each time in the next way. What was submitted stays, and each invocation ends."""
    folder.mkdir(parents=True, exist_ok=True)
    (folder / "effects").touch()
    lasting(lambda: emptied(those.url), "the tables are empty", _LONG)
    load, found = Load(those.url, folder, random.Random(seed), EACH), Failovers(Report(), [])
    running = Workers(those.url, 2, folder, idle=0.0)
    try:
        for kind in kinds(count, seed):
            found.report.open_at_faults += load.submit()
            begun = time.monotonic()
            primary = lasting(lambda: _let_fail(those, kind), "the primary fails", _LONG)
            _work_goes_on(those, kind, primary)
            found.seconds.append(time.monotonic() - begun)
            print(f"{kind}: work goes on after {found.seconds[-1]:.1f} s", flush=True)
            found.report.failovers += 1
            found.report.splits += kind == "cut"
            _mended(those, kind, primary)
            logged_without_errors(folder)
        found.report += load.end(seconds)
    finally:
        running.end()
    found.report += lasting(lambda: load.left(reference), "what is left is looked at", _LONG)
    return found
