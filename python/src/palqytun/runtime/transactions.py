"""Steps that commit the user's own rows in one transaction with the record of their result: they happen exactly once.

The result is a row of `transactions`, which is written with the user's rows. An attempt after a crash finds it there, and doesn't make the step
again; the result goes to the journal as that of each run.
"""

from __future__ import annotations

import asyncio
from collections.abc import Awaitable, Callable
from typing import Any

from .database import Conflict, Database, Lost, StatementFailed
from .lease import Fenced, Lease

LASTS = 30.0  # seconds that a step may take, if it doesn't say: it has a connection of the worker, and on SQLite all wait for it


class Transaction:
    """Statements in the transaction of a step, on the database of the runtime. Each `?` stands for a value: None, a bool, an int, a float, a str or
    bytes. On PostgreSQL the isolation level is read committed."""

    def __init__(self, db: Database):
        self._db: Database | None = db

    def _open(self) -> Database:
        if self._db is None:
            raise RuntimeError("the transaction is over: its statements belong to the step's own function")
        return self._db

    async def rows(self, sql: str, *values: object) -> list[tuple[Any, ...]]:
        """The rows of a query."""
        return [tuple(it) for it in await self._open().rows(sql, values)]

    async def execute(self, sql: str, *values: object) -> int:
        """How many rows a statement has changed."""
        return await self._open().change(sql, values)

    def end(self) -> None:
        self._db = None


class RolledBack(Exception):
    """The step raised an error, so nothing of it is stored."""

    def __init__(self, error: BaseException):
        super().__init__(str(type(error)))
        self.error = error


async def made(db: Database, lease: Lease, run: int, step: Callable[[Transaction], Awaitable[bytes]], seconds: float | None) -> bytes:
    """The result of a step, the run with this number in the invocation's journal: the one that is recorded, or that of the step, which is recorded now.
    Raises `Fenced` if the lease is another's."""
    sql = f"SELECT 1 FROM invocations WHERE id=? AND epoch=? AND status='running'{db.lock}"
    if not await db.rows(sql, (lease.invocation, lease.epoch)):
        raise lease.lost(lease.journal.entries)
    found = await db.rows("SELECT result FROM transactions WHERE invocation=? AND run=?", (lease.invocation, run))
    if found:
        return bytes(found[0][0])
    limit, transaction = LASTS if seconds is None else seconds, Transaction(db)
    try:
        async with asyncio.timeout(limit) as time:
            result = await step(transaction)
    except (Lost, Conflict, Fenced):
        raise
    except BaseException as error:  # also `SystemExit`, which would end the loop
        task = asyncio.current_task()
        if isinstance(error, asyncio.CancelledError) and task is not None and task.cancelling():
            raise
        raise RolledBack(TimeoutError(f"the transaction took longer than {limit:g} s") if time.expired() else error) from error
    finally:
        transaction.end()
    await db.change("INSERT INTO transactions(invocation, run, result) VALUES (?,?,?)", (lease.invocation, run, result))
    return result


__all__ = ["LASTS", "RolledBack", "StatementFailed", "Transaction", "made"]
