"""One cell of `table.py`: one.py URL WORKERS WORKLOAD SCALE prints it as JSON. The package is that of PYTHONPATH, for this process and for the workers.

Workers are processes. CPU is theirs, and that of PostgreSQL's processes, from when the workflows are stored until all have ended. On SQLite the time
is counted from the first attempt's begin. What is counted of the server is all of it: the look for the end, too, each twentieth of a second."""

from __future__ import annotations

import collections
import contextlib
import http.client
import json
import os
import pathlib
import statistics
import subprocess
import sys
import tempfile
import time
from collections.abc import Callable, Iterator
from typing import Any

HERE = pathlib.Path(__file__).parent
sys.path.insert(0, str(HERE))
import workloads  # noqa: E402
from palqytun.runtime import invocations  # noqa: E402
from palqytun.runtime.database import Database  # noqa: E402
from palqytun.runtime.database.plain import Plain  # noqa: E402
from palqytun.runtime.database.schema import TABLES  # noqa: E402
from palqytun.runtime.invocations import New  # noqa: E402
from palqytun.runtime.outcome import Outcome  # noqa: E402

# For each: the handler, how many workflows, their argument, and how many units one of them is.
WORKLOADS = {
    "empty": ("Bench/empty", 1000, 1, 1),
    "steps": ("Bench/steps", 100, 50, 50),
    "calls": ("Bench/calls", 200, 10, 10),
    "fans": ("Bench/fans", 2, 1000, 1000),
    "sleeps": ("Bench/sleeps", 1000, 10, 1),
    "sleepers": ("Bench/sleeps", 6000, 0, 1),
    "keys": ("Cell/add", 2000, 1, 1),
}
REQUESTS = 300
KEYS = 1000
MINUTE, AHEAD = 60.0, 30.0  # seconds in which sleepers wake, and before which they have to be asleep
LOOK = 0.05  # seconds


def used(process: int | str) -> float:
    """Seconds of the processor that a process has used."""
    fields = pathlib.Path(f"/proc/{process}/stat").read_text().rpartition(")")[2].split()
    return (int(fields[11]) + int(fields[12])) / os.sysconf("SC_CLK_TCK")


def servers() -> float:
    """The same of the processes of the PostgreSQL server, of which `table.py` names the first; those that have ended too."""
    first = os.environ.get("PALQYTUN_BENCH_SERVER")
    if first is None:
        return 0.0
    fields = pathlib.Path(f"/proc/{first}/stat").read_text().rpartition(")")[2].split()
    total = used(first) + (int(fields[13]) + int(fields[14])) / os.sysconf("SC_CLK_TCK")
    for it in pathlib.Path("/proc").iterdir():
        try:
            if it.name.isdigit() and (it / "stat").read_text().rpartition(")")[2].split()[1] == first:
                total += used(it.name)
        except OSError:  # it has ended
            pass
    return total


def machine() -> tuple[float, float]:
    """Seconds for which the processors were used by anybody, and for which they were idle."""
    user, nice, system, idle, waits, *_ = (int(it) / os.sysconf("SC_CLK_TCK") for it in pathlib.Path("/proc/stat").read_text().split("\n")[0].split()[1:])
    return user + nice + system, idle + waits


def flushes(db: Plain) -> int:
    """How often the server has flushed its log to the disk, and a file's none."""
    return int(db.rows("SELECT wal_sync FROM pg_stat_wal")[0][0]) if db.db.is_shared else 0


def started(url: str, port: int, counts: str) -> subprocess.Popen[str]:
    words = [sys.executable, str(HERE / "counted.py"), "run", str(HERE / "workloads.py"), "--db", url, "--port", str(port)]
    environment = {**os.environ, "PALQYTUN_BENCH_COUNTS": counts}
    return subprocess.Popen(words, stdout=subprocess.PIPE, stderr=subprocess.DEVNULL, text=True, env=environment)


def count(db: Plain, sql: str) -> int:
    return int(db.done(lambda to: to.rows(sql))[0][0])


@contextlib.contextmanager
def workers(url: str, many: int, port: int = -1) -> Iterator[tuple[list[subprocess.Popen[str]], Callable[[], collections.Counter[str]]]]:
    """So many workers, which end at the end; and then what they have counted."""
    with tempfile.TemporaryDirectory(prefix="palqytun-counts-") as folder:
        total: collections.Counter[str] = collections.Counter()
        them = [started(url, port, folder) for _ in range(many)]
        try:
            yield them, lambda: total
        finally:
            for it in them:
                it.terminate()
            for it in them:
                it.wait()
            for file in pathlib.Path(folder).iterdir():
                total.update(json.loads(file.read_text()))


def worked(url: str, how_many: int, name: str, scale: float) -> dict[str, float]:
    """What a workload has cost, for each of its units."""
    target, many, argument, units = WORKLOADS[name]
    service, handler = target.split("/")
    many = max(1, int(many * scale))

    async def submitted(to: Database) -> None:
        for n in range(many):
            key = f"key {n % KEYS}" if service == "Cell" else ""
            it = argument if name != "sleepers" else round(1000 * (AHEAD + MINUTE * n / many))
            await invocations.create(to, workloads.app, Outcome(), New(service, handler, key, json.dumps(it).encode(), id=f"inv_{n:06d}"))

    with Plain(url) as db:
        if db.db.is_shared:
            db.done(lambda to: to.change(f"TRUNCATE {', '.join(TABLES)} RESTART IDENTITY"))
        with workers(url, how_many) as (them, counts):
            while count(db, "SELECT COUNT(*) FROM workers") < how_many:
                time.sleep(LOOK)
            before = [used(it.pid) for it in them], servers(), flushes(db), machine()
            db.done(submitted)
            took = until_done(db, name)
            own, server, synced = sum(used(it.pid) - one for it, one in zip(them, before[0])), servers() - before[1], flushes(db) - before[2]
            all_used, idle = (now - then for now, then in zip(machine(), before[3]))
    done = many * units
    found = {"a second": done / took, "worker ms": 1000 * own / done, "server ms": 1000 * server / done if "://" in url else 0.0, "flushes": synced / done}
    rest = {"processors": (own + server) / (all_used + idle), "idle": idle / (all_used + idle)}
    return {**found, **rest, **{what: it / done for what, it in counts().items()}}


def until_done(db: Plain, name: str) -> float:
    """Waits until all have ended; returns how long that took."""
    begun = time.time()
    while count(db, "SELECT COUNT(*) FROM invocations WHERE status<>'done'"):
        time.sleep(LOOK)
    if db.db.is_shared:
        return time.time() - begun
    # Nobody tells the worker of a file, which looks once a second.
    return float(time.time() - db.done(lambda to: to.rows("SELECT MIN(begun) FROM invocations"))[0][0])


def asked(url: str) -> dict[str, float]:
    """Milliseconds from a request for an empty workflow to its result, one after the other on one connection."""
    with workers(url, 1, port=0) as ([it], _):
        assert it.stdout is not None
        address = it.stdout.readline().strip().removeprefix("http://")
        connection = http.client.HTTPConnection(address, timeout=60)
        took = []
        for n in range(REQUESTS):
            begun = time.perf_counter()
            connection.request("POST", "/Bench/empty", json.dumps(n))
            reply = connection.getresponse()
            assert (reply.status, reply.read()) == (200, str(n).encode())
            took.append(1000 * (time.perf_counter() - begun))
        connection.close()
    return {"p50 ms": statistics.median(took), "p99 ms": statistics.quantiles(took, n=100)[98]}


def main() -> dict[str, Any]:
    url, how_many, name, scale = sys.argv[1:5]
    return asked(url) if name == "http" else worked(url, int(how_many), name, float(scale))


if __name__ == "__main__":
    print(json.dumps(main()))
