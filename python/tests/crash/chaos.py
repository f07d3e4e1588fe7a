"""The crash tests for as long as one likes: chaos.py [MINUTES] [--db sqlite|postgres|postgresql://..] [--partitions N] [--seed N] [--kills N] [--failovers N]

Round after round, each with another seed, until the time is over or something is wrong: workers are killed while workflows are submitted;
on SQLite they also die at commits, meet torn writes, clocks that jump, and a full disk; on PostgreSQL three of them run, are stopped for
longer than their lease, and lose their connections. After each part all that is left is compared with a run without faults. Each round
prints a line of figures, and the last line is that of all. A round takes about a minute, and the one that has begun is ended.

With --kills there is one long round instead, of N kills and no other fault. With --sdk, the folder in which the SDK in TypeScript is built, each
second worker is one in TypeScript, and the handlers of both languages call each other. With --failovers there are two, on PostgreSQL servers of their
own: the primary's host stops so often, first with a synchronous standby, and then with an asynchronous one, which lacks the last commits.
"""

from __future__ import annotations

import argparse
import contextlib
import functools
import os
import pathlib
import random
import shutil
import signal
import sys
import tempfile
import time
from collections.abc import Callable, Iterator

HERE = pathlib.Path(__file__).parent
sys.path[:0] = [str(HERE), str(HERE.parent)]
import failover  # noqa: E402
import hosts  # noqa: E402
import postgres  # noqa: E402
import scenarios  # noqa: E402
import under_patroni  # noqa: E402
from checked import Found, Wrong  # noqa: E402
from scenarios import Report  # noqa: E402

FAULTS = 40  # of running workers in a round
EACH = 3  # workflows are submitted before each of them


def _storms(folder: pathlib.Path, seed: int, may_mount: bool) -> Report:
    """Faults of one worker at a time on SQLite, side by side."""
    chance = random.Random(seed)
    room = scenarios.Room(folder, chance.choice([6, 12, 36]))
    calls: list[Callable[[], Report]] = []
    for number in chance.sample(range(1, 91), 20):
        again, idle = chance.choice([0, chance.randint(1, 90)]), chance.choice([0.0, 0.5])
        calls.append(functools.partial(scenarios.death_at_commit, room, number, again=again, idle=idle))
    for number in range(6):
        calls.append(functools.partial(scenarios.torn_write, room, 1000 * seed + number))
    for number in range(3):
        calls.append(functools.partial(scenarios.clock_jumps, room, 1000 * seed + number))
    report = sum(scenarios.side_by_side(calls), Report())
    return report + scenarios.full_disk(room, seed, may_mount)


def _round(url: str, folder: pathlib.Path, seed: int, reference: Found, may_mount: bool) -> Report:
    idle = (0.0, 0.5, 1.0)[seed % 3]
    if url != "sqlite":
        how = {"workers": 3, "pauses": True, "disconnects": True}
        return scenarios.kills(url, folder, faults=FAULTS, each=EACH, idle=idle, seed=seed, reference=reference, **how)
    report = scenarios.kills(str(folder / "db"), folder, faults=FAULTS, each=EACH, idle=idle, seed=seed, reference=reference)
    return report + _storms(folder / "storms", seed, may_mount)


def rounds(url: str, folder: pathlib.Path, seed: int, seconds: float) -> Iterator[Report]:
    """Rounds until the time is over."""
    until, may_mount = time.monotonic() + seconds, url == "sqlite" and scenarios.may_mount()
    reference = scenarios.undisturbed(str(folder / "reference.db") if url == "sqlite" else url, folder / "reference", FAULTS * EACH)
    while time.monotonic() < until:
        begun, room = time.monotonic(), folder / f"seed-{seed}"
        report = _round(url, room, seed, reference, may_mount)
        print(f"seed {seed}, {time.monotonic() - begun:.0f} s: {report}", flush=True)
        shutil.rmtree(room)
        yield report
        seed += 1


def one_of_kills(url: str, folder: pathlib.Path, seed: int, count: int, sdk: pathlib.Path | None = None) -> Iterator[Report]:
    """One round, of kills alone; a workflow is submitted before each. With the SDK in TypeScript two of four workers are in Python."""
    is_shared, room = url != "sqlite", folder / "kills"
    crew = {} if sdk is None else {"crew": functools.partial(scenarios.Mixed, sdk)}
    first = {"seconds": 3600, **crew, "workers": 1 if sdk is None else 2}
    reference = scenarios.undisturbed(url if is_shared else str(folder / "reference.db"), folder / "reference", count, **first)
    room.mkdir()
    how = {"each": 1, "workers": 4 if sdk else 3 if is_shared else 1, "seed": seed, "reference": reference, "seconds": 3600, **crew}
    yield scenarios.kills(url if is_shared else str(room / "db"), room, faults=count, **how)


def of_failovers(folder: pathlib.Path, seed: int, count: int) -> Iterator[Report]:
    """A round with each kind of standby."""
    for is_synchronous in (True, False):
        begun, room = time.monotonic(), folder / f"synchronous-{is_synchronous}"
        with failover.pair(is_synchronous) as servers:
            submitted = failover.EACH * count * (1 if is_synchronous else 2)
            reference = scenarios.undisturbed(servers.url, room / "reference", submitted, seconds=3600)
            found = failover.failovers(servers, room, count=count, seed=seed, reference=reference, seconds=3600)
        kind = "a synchronous" if is_synchronous else "an asynchronous"
        print(f"{kind} standby, {time.monotonic() - begun:.0f} s: {found}", flush=True)
        yield found.report


def under_patronis(folder: pathlib.Path, seed: int, count: int) -> Iterator[Report]:
    """A round on servers under Patroni, whose log is kept if something is wrong."""
    begun = time.monotonic()
    with (folder / "servers.log").open("w") as log, under_patroni.servers(log) as servers:
        reference = under_patroni.undisturbed(servers, folder / "reference", count)
        found = under_patroni.failovers(servers, folder / "failovers", count=count, seed=seed, reference=reference, seconds=3600)
    failed = ", ".join(under_patroni.kinds(count, seed))
    print(f"under Patroni, where {failed} failed, {time.monotonic() - begun:.0f} s: {found}", flush=True)
    yield found.report


def played(folder: pathlib.Path, reports: Iterator[Report]) -> int:
    """Plays rounds, and says what they found."""
    total, count = Report(), 0
    try:
        for report in reports:
            total, count = total + report, count + 1
    except Wrong as error:
        print(f"WRONG: {error}\nwhat it left is in {folder}", file=sys.stderr)
        return 1
    shutil.rmtree(folder)
    print(f"{count} rounds, nothing wrong: {total}")
    return 0


def enter_networks() -> None:
    """Goes on in networks of this program's own. Where that isn't allowed, only processes are killed, and it says why."""
    if refused := "" if hosts.is_own() else hosts.refused():
        print(f"no host is cut off or loses its power, since there are no network namespaces here: {refused}", flush=True)
    else:
        hosts.enter()


def main() -> int:
    parser = argparse.ArgumentParser("tools/chaos", description="Crash tests of the durable runtime, round after round.")
    parser.add_argument("minutes", nargs="?", type=float, default=10.0)
    parser.add_argument("--db", default="sqlite", help="sqlite, postgres for a temporary cluster, or the URL of a PostgreSQL database, which is emptied")
    parser.add_argument("--seed", type=int, default=1, help="of the first round")
    parser.add_argument("--kills", type=int, default=0, help="instead of rounds one run with this many kills")
    parser.add_argument("--failovers", type=int, default=0, help="instead of rounds this many failovers of PostgreSQL with each kind of standby")
    parser.add_argument("--patroni", action="store_true", help="with --failovers: under Patroni and etcd, each server in a network of its own")
    parser.add_argument("--partitions", type=int, default=0, help="on PostgreSQL: of each table, if the database has no tables or is a temporary one")
    parser.add_argument("--sdk", type=pathlib.Path, help="with --kills on PostgreSQL: a folder in which the SDK in TypeScript is built, with its tests")
    options = parser.parse_args()
    if options.sdk and not (options.kills and options.db != "sqlite"):
        parser.error("--sdk goes with --kills, and with a database of PostgreSQL")
    if options.partitions and (options.db == "sqlite" or options.failovers or options.partitions < 0):
        parser.error("--partitions is a number above 0, and goes with PostgreSQL and without --failovers")
    if options.failovers and options.db != "postgres":
        parser.error("--failovers makes servers of its own: it goes with --db postgres")
    if options.patroni and not options.failovers:
        parser.error("--patroni goes with --failovers")
    if options.db not in ("sqlite", "postgres") and not options.db.startswith(("postgres://", "postgresql://")):
        parser.error(f"--db is sqlite, postgres or postgresql://.., and not {options.db}")
    os.environ[postgres.PARTITIONS] = f"{options.partitions}"
    signal.signal(signal.SIGTERM, lambda *_: sys.exit(1))  # so the workers end with it
    if options.patroni:
        enter_networks()
    folder = pathlib.Path(tempfile.mkdtemp(prefix="palqytun-chaos-"))
    try:
        if options.patroni:
            return played(folder, under_patronis(folder, options.seed, options.failovers))
        if options.failovers:
            return played(folder, of_failovers(folder, options.seed, options.failovers))
        locks = {"max_locks_per_transaction": f"{64 + 60 * options.partitions}"}  # so each connection may claim
        with postgres.cluster(locks) if options.db == "postgres" else contextlib.nullcontext() as made:
            url = options.db if made is None else made.url
            if options.kills:
                return played(folder, one_of_kills(url, folder, options.seed, options.kills, options.sdk))
            return played(folder, rounds(url, folder, options.seed, 60 * options.minutes))
    except postgres.NoServer as error:
        print(f"chaos: {error}", file=sys.stderr)
        return 2


if __name__ == "__main__":
    sys.exit(main())
