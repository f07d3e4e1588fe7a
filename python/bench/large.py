"""What a large PostgreSQL database costs a worker: large.py [--ended N..] [--partitions N] [--db URL]

For each N, a database has N invocations that have ended and a tenth of it that wait for a sleep, a call and a notification. Without --db it is
one of a temporary cluster, which doesn't flush, so that it is filled sooner. With --partitions there are as many columns for tables with partitions. Printed is the table of docs/SCALE.md: pages that are looked at, of tables and
indexes, and milliseconds, for a claim of ten invocations, for a worker's beat, and for what operators ask; how many a purge deletes in a second; and
bytes of the disk for an invocation. A row of the last table is an index, with its bytes for an invocation. The load of the machine is printed first."""

from __future__ import annotations

import argparse
import os
import pathlib
import statistics
import sys
import time
from collections.abc import Awaitable, Callable
from typing import Any, NamedTuple

sys.path[:0] = [str(pathlib.Path(__file__).parent.parent / it) for it in ("src", "tests", "bench")]
import places  # noqa: E402
from palqytun.runtime import App, Context, Service, journal, operate  # noqa: E402
from palqytun.runtime.claiming import Claimer  # noqa: E402
from palqytun.runtime.database import Database  # noqa: E402
from palqytun.runtime.database.plain import Plain  # noqa: E402
from palqytun.runtime.database.schema import TABLES  # noqa: E402
from palqytun.runtime.filters import Filter  # noqa: E402

large = Service("Large")


@large.handler()
async def echoes(ctx: Context, n: int) -> int:
    return n


app = App(large)
OPEN = 10  # invocations that a claim takes
AGAIN = 12  # claims by which a session has its plans

_ROWS = "seq, id, service, handler, key, exclusive, version, seed, status, due, epoch, worker, entries, created"
_ROW = "nextval('invocations_seq_seq'), '{}_' || i, 'Large', 'echoes', '', 0, 7, 1"
_ENDED = (
    f"INSERT INTO invocations({_ROWS}, begun, stopped, how, ended, result)"
    f" SELECT {_ROW.format('ended')}, 'done', i, 1, 'gone', 2, i, i, i, 'ended', i, 'x' FROM generate_series(1, ?) AS i"
)
_WAITING = (
    f"INSERT INTO invocations({_ROWS}, begun, stopped, how, suspension)"
    f" SELECT {_ROW.format('waits')}, 'suspended', i, 1, 'gone', 2, i, i, i, 'suspended', 'x' FROM generate_series(1, ?) AS i"
)
_READY = f"INSERT INTO invocations({_ROWS}) SELECT {_ROW.format('ready')}, 'ready', 0, 0, NULL, 1, 1 FROM generate_series(1, {OPEN}) AS i"
# Each has its journal; and each that waits has a timer, an invocation that it awaits, and a notification that was looked at in vain.
_BESIDE = (
    "INSERT INTO journal(invocation, at, frame, stored) SELECT id, at, 'x', 0 FROM invocations, generate_series(0, 1) AS at",
    "INSERT INTO timers(due, invocation, completes) SELECT 1e11, id, 1 FROM invocations WHERE status='suspended'",
    "INSERT INTO waiters(invocation, waiter, completes) SELECT 'other_' || id, id, 2 FROM invocations WHERE status='suspended'",
    "INSERT INTO inbox(invocation, frame, fresh) SELECT id, 'x', 0 FROM invocations WHERE status='suspended'",
    "INSERT INTO state(service, key, name, value) SELECT 'Cell', id, 'total', 'x' FROM invocations WHERE status='suspended'",
)
_PATIENT = "SET lock_timeout=0"  # a vacuum of the server's own may be at a table
_PAGES = (
    "SELECT SUM(pg_stat_get_xact_blocks_fetched(oid))::bigint FROM pg_class"
    " WHERE relnamespace=current_schema()::regnamespace AND relkind IN ('r', 'i')"
)
# Those of a table's partitions are together.
_SIZES = (
    "SELECT COALESCE(whole.relname, own.relname)::text, own.relkind::text, SUM(pg_relation_size(own.oid))::bigint FROM pg_class AS own"
    " LEFT JOIN pg_inherits ON inhrelid=own.oid LEFT JOIN pg_class AS whole ON whole.oid=inhparent"
    " WHERE own.relnamespace=current_schema()::regnamespace AND own.relkind IN ('r', 'i') GROUP BY 1, 2 HAVING SUM(pg_relation_size(own.oid))>? ORDER BY 3 DESC"
)


_QUICK = {"fsync": "off", "full_page_writes": "off", "max_wal_size": "4GB", "maintenance_work_mem": "256MB", "max_locks_per_transaction": "1000"}


def emptied(db: Plain) -> None:
    """The tables are empty, and so the planner knows them."""
    db.change(_PATIENT)
    db.change(f"TRUNCATE {', '.join(TABLES)} RESTART IDENTITY")
    for it in TABLES:
        db.change(f"VACUUM ANALYZE {it}")


def filled(db: Plain, ended: int, waiting: int) -> None:
    """So many invocations that have ended, and so many that wait, with what belongs to them."""
    db.change(_PATIENT)
    db.change(_ENDED, (ended,))
    db.change(_WAITING, (waiting,))
    for sql in _BESIDE:
        db.change(sql)
    for it in TABLES:
        db.change(f"VACUUM ANALYZE {it}")


def pages(db: Plain, operation: Callable[[Database], Awaitable[Any]]) -> tuple[int, Any]:
    """How many pages an operation looks at, of all tables and indexes, and what it returns. Nothing of it is kept."""

    async def counted(to: Database) -> tuple[int, Any]:
        [(before,)] = await to.rows(_PAGES)
        found = await operation(to)
        [(after,)] = await to.rows(_PAGES)
        return int(after) - int(before), found

    db.begin()
    try:
        return db.wait(counted(db.db))
    finally:
        db.rollback()


def claims(db: Plain) -> int:
    """How many pages a claim of ten ready invocations looks at."""
    return claim(db).first


class Claimed(NamedTuple):
    """What a claim of ten ready invocations takes: pages and milliseconds of a session's first ones, and of those when it has claimed often."""

    first: int
    milliseconds_of_first: float
    pages: int
    milliseconds: float


def claim(db: Plain) -> Claimed:
    worker = Claimer("one", app, 600)
    db.done(worker.enter)
    db.change(_READY)
    db.change(f"INSERT INTO journal(invocation, at, frame, stored) SELECT 'ready_' || i, 0, ?, 0 FROM generate_series(1, {OPEN}) AS i", (INPUT,))
    try:
        count, found = pages(db, lambda to: worker.claim(to, (), OPEN))
        assert len(found.claims) == OPEN, found
        took = milliseconds(db, lambda to: worker.claim(to, (), OPEN))
        for _ in range(AGAIN):
            again = pages(db, lambda to: worker.claim(to, (), OPEN))[0]
        return Claimed(count, took, again, milliseconds(db, lambda to: worker.claim(to, (), OPEN)))
    finally:
        for sql in ("DELETE FROM invocations WHERE status='ready'", "DELETE FROM journal WHERE invocation LIKE 'ready%'", "DELETE FROM workers"):
            db.change(sql)


INPUT = journal.input_command(b"1", ())


def asked(db: Plain) -> dict[str, Callable[[Database], Awaitable[Any]]]:
    """What a worker does all the time, and what operators ask for."""
    return {
        "a beat": lambda to: to.change("UPDATE workers SET lease=lease+1 WHERE id='one'"),
        "the first screen of a list": lambda to: operate.invocations(to, Filter()),
        "those of a service that wait": lambda to: operate.invocations(to, Filter(status="suspended", service="Large")),
        "how many have each status": operate.by_status,
        "a batch of a purge": lambda to: operate.purge(to, 1.0),
    }


def milliseconds(db: Plain, operation: Callable[[Database], Awaitable[Any]]) -> float:
    """The median of five."""
    took = []
    for _ in range(5):
        begun = time.perf_counter()
        pages(db, operation)
        took.append(1000 * (time.perf_counter() - begun))
    return statistics.median(took)


def purged(db: Plain) -> float:
    """How many invocations a purge deletes in a second, in ten batches that are committed."""
    begun = time.perf_counter()
    count = sum(db.done(lambda to: operate.purge(to, 1.0)) for _ in range(10))
    return count / (time.perf_counter() - begun)


def measured(db: Plain, ended: int) -> dict[str, str]:
    emptied(db)
    filled(db, ended, ended // 10)
    claimed = claim(db)
    found = {f"a claim of {OPEN}": f"{claimed.first:,} ({claimed.milliseconds_of_first:.0f} ms)"}
    found[f"the same, when the session has made {AGAIN}"] = f"{claimed.pages:,} ({claimed.milliseconds:.0f} ms)"
    db.change("INSERT INTO workers(id, lease) VALUES ('one', 1)")
    for name, operation in asked(db).items():
        found[name] = f"{pages(db, operation)[0]:,} ({milliseconds(db, operation):.0f} ms)"
    found["purged in a second"] = f"{purged(db):,.0f}"
    sizes = db.rows(_SIZES, (0,))
    found["bytes of an invocation: tables"] = f"{sum(size for _, kind, size in sizes if kind == 'r') / (1.1 * ended):,.0f}"
    found["bytes of an invocation: indexes"] = f"{sum(size for _, kind, size in sizes if kind == 'i') / (1.1 * ended):,.0f}"
    return found


def table(found: dict[str, dict[str, str]]) -> None:
    """Prints what was measured, a column for each database."""
    print(f"| pages looked at | {' | '.join(found)} |\n|{'---|' * (1 + len(found))}")
    for name in next(iter(found.values())):
        print(f"| {name} | {' | '.join(it[name] for it in found.values())} |")


def tables(url: str, counts: list[int], parts: int) -> None:
    with Plain(url) as db:
        found = {f"{count:,}": measured(db, count) for count in counts}
        if parts:
            emptied(db)
            with places.partitioned(url, parts) as own, Plain(own) as parted:
                found |= {f"{count:,} in {parts} partitions": measured(parted, count) for count in counts}
            table(found)
            return
        table(found)
        print("\n| index | bytes of an invocation |\n|---|---|")
        for name, kind, size in db.rows(_SIZES, (counts[-1],)):
            if kind == "i":
                print(f"| `{name}` | {size / (1.1 * counts[-1]):,.1f} |")
        emptied(db)


def main() -> None:
    parser = argparse.ArgumentParser("large.py", description="What a large database costs a worker.")
    parser.add_argument("--ended", nargs="+", type=int, default=[1000, 100_000], help="invocations that have ended; a tenth of them wait beside them")
    parser.add_argument("--partitions", type=int, default=0, help="as many columns for tables with so many partitions, beside those without; not with a list of indexes")
    parser.add_argument("--db", default="", help="a PostgreSQL database, which is emptied")
    options = parser.parse_args()
    print(f"The load is {os.getloadavg()[0]:.0f}.\n")
    if options.db:
        tables(options.db, options.ended, options.partitions)
        return
    import postgres

    with postgres.cluster(_QUICK) as cluster:
        tables(cluster.url, options.ended, options.partitions)


if __name__ == "__main__":
    main()
