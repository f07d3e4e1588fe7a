"""A connection for a program without an event loop, as the command and the tests are: each call waits until it is done."""

from __future__ import annotations

import asyncio
import contextlib
import time
from collections.abc import Awaitable, Callable, Iterable, Sequence
from types import TracebackType
from typing import Any, TypeVar

from . import Conflict, Database, Lost, connect

T = TypeVar("T")
_PATIENCE = 30.0  # seconds that another's lock is waited for


class Plain:
    """A connection whose statements are made at once, and whose operations are transactions.

    >>> with Plain(":memory:") as db:
    ...     db.done(lambda to: to.rows("SELECT COUNT(*) FROM invocations"))
    [(0,)]
    """

    def __init__(self, url: str, opened: Callable[[str], Awaitable[Database]] = connect):
        self._loop = asyncio.new_event_loop()
        try:
            self.db = self.wait(opened(url))
        except BaseException:
            self._loop.close()
            raise

    def wait(self, asked: Awaitable[T]) -> T:
        """What a statement or an operation returns."""

        async def answer() -> T:
            return await asked

        return self._loop.run_until_complete(answer())

    def done(self, operation: Callable[[Database], Awaitable[T]]) -> T:
        """What an operation returns, in a transaction of its own, which is committed. If something is in the way it is made again, for some
        seconds; then `Conflict`."""
        until = time.monotonic() + _PATIENCE
        while True:
            try:
                return self._transaction(operation, False)
            except Conflict:
                if time.monotonic() > until:
                    raise
            time.sleep(0.05)

    def read(self, operation: Callable[[Database], Awaitable[T]]) -> T:
        """What an operation returns that only reads: it sees the database as it is when it begins, and keeps no worker out."""
        return self._transaction(operation, True)

    def _transaction(self, operation: Callable[[Database], Awaitable[T]], reads: bool) -> T:
        self.begin(reads)
        try:
            result = self.wait(operation(self.db))
            self.commit()
        except BaseException:
            with contextlib.suppress(Lost):
                self.rollback()
            raise
        return result

    def begin(self, reads: bool = False) -> None:
        self.wait(self.db.begin(reads))

    def commit(self) -> None:
        self.wait(self.db.commit())

    def rollback(self) -> None:
        self.wait(self.db.rollback())

    def rows(self, sql: str, values: Sequence[object] = ()) -> list[Any]:
        return self.wait(self.db.rows(sql, values))

    def change(self, sql: str, values: Sequence[object] = ()) -> int:
        return self.wait(self.db.change(sql, values))

    def many(self, sql: str, values: Iterable[Sequence[object]]) -> None:
        self.db.many(sql, values)

    def close(self) -> None:
        self.db.close()
        self._loop.close()

    def __enter__(self) -> Plain:
        return self

    def __exit__(self, kind: type[BaseException] | None, error: BaseException | None, trace: TracebackType | None) -> None:
        self.close()
