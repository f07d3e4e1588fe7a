"""A primary whose host stops while workers work, and its standby, which takes its place.

Workers and whoever submits name both servers, and libpq takes the one that may write (`target_session_attrs=read-write`). With a synchronous
standby nothing that was committed is lost. With an asynchronous one the last commits are: what was submitted by them is submitted again, and all
else goes on from what the standby has.
"""

from __future__ import annotations

import contextlib
import pathlib
import random
import sys
import threading
import time
from collections.abc import Callable, Iterator
from dataclasses import dataclass
from typing import TypeVar

HERE = pathlib.Path(__file__).parent
sys.path[:0] = [str(HERE.parent.parent / "src"), str(HERE.parent), str(HERE)]

import postgres  # noqa: E402
from checked import Found, Wrong, check, left, rows, settle, submit, wait  # noqa: E402
from palqytun.runtime.database import Conflict, Lost  # noqa: E402
from palqytun.runtime.database.plain import Plain  # noqa: E402
from scenarios import Report, Workers, emptied, logged_without_errors, until_work  # noqa: E402

T = TypeVar("T")
SETTINGS = {"wal_log_hints": "on", "wal_keep_size": "256MB"}  # so that a server that was a primary can follow the next
EACH = 8  # workflows, one of each kind, are submitted before each fault
SPLIT = 5.0  # seconds for which two servers are primaries
_STEP = 600.0  # seconds that one step of the servers may take
_PATIENCE = 10  # seconds for a server to take a connection
_FOLLOWERS = "SELECT COUNT(*) FROM pg_stat_replication"
_FOLLOWS = f"{_FOLLOWERS} WHERE state='streaming'"
_IN_STEP = f"{_FOLLOWS} AND sync_state='sync'"


def until(is_so: Callable[[], bool], what: str, seconds: float = _STEP, pause: float = 0.02) -> None:
    """Waits until it is so, and looks again after each pause. `Wrong` if it isn't so in time."""
    last = time.monotonic() + seconds
    while not is_so():
        if time.monotonic() > last:
            raise Wrong(f"{what}: not within {seconds:.0f} s")
        time.sleep(pause)


def lasting(call: Callable[[], T], what: str, seconds: float = _STEP) -> T:
    """What a call returns. It is made again as long as it loses its server."""
    last = time.monotonic() + seconds
    while True:
        try:
            return call()
        except (Lost, Conflict) as error:
            if time.monotonic() > last:
                raise Wrong(f"{what}: not within {seconds:.0f} s: {error}") from error
        time.sleep(0.2)


def asked(url: str, sql: str) -> int:
    """The number that a statement returns, or 0. It is made outside of a transaction, and of the runtime's connections."""
    import psycopg  # where it is missing, these tests are skipped

    with psycopg.connect(url, autocommit=True, connect_timeout=_PATIENCE) as connection:
        done = connection.execute(sql)
        row = done.fetchone() if done.description else None
        return int(row[0]) if row else 0


def _set(server: postgres.Cluster, name: str, value: str) -> None:
    """Sets a setting of a server that runs."""
    asked(server.url, f"ALTER SYSTEM SET {name}='{value}'")
    asked(server.url, "SELECT pg_reload_conf()")


@dataclass
class Pair:
    """A primary and its standby."""

    primary: postgres.Cluster
    standby: postgres.Cluster
    is_synchronous: bool

    @property
    def url(self) -> str:
        """Both servers."""
        return postgres.url_of(self.primary.place, self.standby.place)

    def keep_in_step(self) -> None:
        """Waits until the standby follows. From then on commits wait for it, if it is synchronous."""
        until(lambda: asked(self.primary.url, _FOLLOWS) > 0, "the standby follows")
        if self.is_synchronous:
            _set(self.primary, "synchronous_standby_names", "*")
            until(lambda: asked(self.primary.url, _IN_STEP) > 0, "the standby is synchronous")

    def cut(self) -> None:
        """The standby is given nothing more, as if its link were slow."""
        _set(self.standby, "primary_conninfo", "")
        until(lambda: asked(self.primary.url, _FOLLOWERS) == 0, "the standby is cut off")

    def fail_over(self) -> None:
        """The primary's host stops, and the standby becomes primary. Until the other is back, nobody waits for a standby."""
        self.primary.kill()
        self.standby.promote()
        self.primary, self.standby = self.standby, self.primary

    def split(self) -> None:
        """The link between both breaks. The synchronous standby becomes primary while the other goes on, until its host is stopped: no commit of
        that one counts, since each waits for its standby."""
        self.cut()
        self.standby.promote()
        ended = threading.Event()
        commit = threading.Thread(target=_commits, args=(self.primary, ended), daemon=True)
        commit.start()
        if ended.wait(SPLIT):
            raise Wrong("a primary has made a commit without its synchronous standby")
        self.primary.kill()
        commit.join()
        self.primary, self.standby = self.standby, self.primary

    def come_back(self) -> None:
        """The server that was killed begins again, as the standby of the other."""
        asked(self.primary.url, "CHECKPOINT")  # until its first one, pg_rewind doesn't see that it was promoted
        self.standby.follow(self.primary)
        self.keep_in_step()


def _commits(server: postgres.Cluster, ended: threading.Event) -> None:
    """Makes a commit, and says when it was made. It is given up if the server ends."""
    import psycopg

    with contextlib.suppress(psycopg.OperationalError):
        asked(server.url, "CREATE TABLE split (n INT)")
        ended.set()


@contextlib.contextmanager
def pair(is_synchronous: bool) -> Iterator[Pair]:
    """Two servers, which are removed at the end."""
    with postgres.cluster(SETTINGS) as primary, postgres.standby(primary) as standby:
        found = Pair(primary, standby, is_synchronous)
        found.keep_in_step()
        yield found


def entries(db: Plain) -> int:
    return int(rows(db, "SELECT COUNT(*) FROM journal")[0][0])


def _failed_over(servers: Pair, is_split: bool) -> float:
    """Fails over. Returns the seconds from when the primary's host began to stop until a worker has stored the next entry of a journal."""
    if is_split:
        servers.split()
    killed = time.monotonic()
    if not is_split:
        servers.fail_over()
    with Plain(servers.primary.url) as db:
        before = entries(db)
        until(lambda: entries(db) > before or not left(db), "work goes on")
    return time.monotonic() - killed


@dataclass
class Load:
    """Workers over both servers, and the workflows that were submitted to them."""

    url: str
    folder: pathlib.Path
    chance: random.Random
    each: int
    submitted: int = 0

    def submit(self) -> int:
        """Submits the next workflows, and waits until some are at work. Returns how many haven't ended."""
        self.submitted += self.each
        return lasting(self._submitted, "workflows are submitted")

    def _submitted(self) -> int:
        begun = time.time()
        self.again()
        with Plain(self.url) as db:
            time.sleep(self.chance.uniform(0.15, 0.9))
            until_work(db, begun)
            return left(db)

    def again(self) -> int:
        """Submits again what isn't there. Returns how many that were."""
        with Plain(self.url) as db:
            there = {id for (id,) in rows(db, "SELECT id FROM invocations")}
            missing = [n for n in range(self.submitted) if f"inv_{n:06d}" not in there]
            for n in missing:
                submit(db, n, 1)
        return len(missing)

    def end(self, seconds: float) -> Report:
        """Waits until all have ended."""
        return Report(resumed=lasting(lambda: self._ended(seconds), "all end", seconds))

    def _ended(self, seconds: float) -> int:
        with Plain(self.url) as db:
            resumed = wait(db, seconds)
            settle(db)
            return resumed

    def left(self, reference: Found | None) -> Report:
        """Looks at everything that is left, once no worker runs."""
        with Plain(self.url) as db:
            log = logged_without_errors(self.folder)
            lost = rows(db, "SELECT COUNT(*) FROM attempts WHERE how='lost'")[0][0]
            report = Report(lost_attempts=lost, lost=log.count("the database is lost"), fenced=log.count("fenced:"))
            return report + Report.of(check(db, self.submitted, self.folder / "effects", reference))


@dataclass
class Failovers:
    """What failovers did, and the seconds of each until work went on."""

    report: Report
    seconds: list[float]

    def __str__(self) -> str:
        took = ", ".join(f"{it:.1f}" for it in self.seconds)
        return f"{self.report}; seconds until work went on: {took}"


def failovers(
    servers: Pair,
    folder: pathlib.Path,
    *,
    count: int,
    each: int = EACH,
    workers: int = 2,
    seed: int = 1,
    reference: Found | None = None,
    seconds: float = 600,
) -> Failovers:
    """The primary stops so often under load, and begins again as the standby. A synchronous standby is cut off and promoted before every other time;
    an asynchronous one is cut off before each, and promoted after it."""
    folder.mkdir(parents=True, exist_ok=True)
    (folder / "effects").touch()
    emptied(servers.primary.url)
    load, found = Load(servers.url, folder, random.Random(seed), each), Failovers(Report(), [])
    running = Workers(servers.url, workers, folder, idle=0.0)
    try:
        for number in range(count):
            is_split = servers.is_synchronous and number % 2 == 1
            load.submit()
            if not servers.is_synchronous:
                servers.cut()
                load.submit()
            found.report.open_at_faults += _open(servers)
            found.seconds.append(_failed_over(servers, is_split))
            found.report.failovers += 1
            found.report.splits += is_split
            found.report.missing += load.again() if not servers.is_synchronous else 0
            servers.come_back()
            logged_without_errors(folder)
        found.report += load.end(seconds)
    finally:
        running.end()
    found.report += load.left(reference)
    return found


def _open(servers: Pair) -> int:
    with Plain(servers.url) as db:
        return left(db)
