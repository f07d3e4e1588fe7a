"""A PostgreSQL database for tests, without rows; with partitions if PALQYTUN_TEST_PARTITIONS is how many."""

import functools
import os

import postgres
from palqytun.runtime.database import Database, connect
from palqytun.runtime.database.plain import Plain
from palqytun.runtime.database.schema import TABLES

_FEW = 65536  # bytes of a table, of rows that are there or were deleted
_LONG = 300  # seconds that are waited for a vacuum of the server's own, which may be at a table


def parts() -> int:
    """How many partitions a database has; 0 if none."""
    return int(os.environ.get(postgres.PARTITIONS) or 0)


def patient(db: Plain) -> None:
    """A statement of this connection waits for locks."""
    db.change(f"SET lock_timeout='{_LONG}s'")


def emptied(url: str) -> None:
    """No table has a row."""
    with Plain(url, functools.partial(connect, migrates=True, parts=parts())) as db:
        patient(db)
        db.done(_without_rows)


async def _without_rows(db: Database) -> None:
    """To truncate a table, the server makes a new file of it and of each index, which takes it many times as long as to delete a few rows. So only a table
    that has grown is truncated. No other transaction is at any of them meanwhile; with partitions they would be too many to lock."""
    if not parts():
        await db.change(f"LOCK TABLE {', '.join(TABLES)} IN ACCESS EXCLUSIVE MODE")
        await db.change(f"DO $$ BEGIN {' '.join(map(_emptied_by_size, TABLES))} END $$")
        return
    for it in TABLES:
        db.put(f"DELETE FROM {it}")


def _emptied_by_size(table: str) -> str:
    return f"IF pg_relation_size('{table}') > {_FEW} THEN TRUNCATE {table}; ELSE DELETE FROM {table}; END IF;"
