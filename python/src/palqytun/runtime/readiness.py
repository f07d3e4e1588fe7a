"""Whether a worker can take calls now. That it lives, so that its process need not be started again, is another question: then it replies at all."""

from __future__ import annotations

import asyncio
from collections.abc import Awaitable, Callable
from typing import Protocol, TypeVar

from .database import Database
from .desk import Unavailable

T = TypeVar("T")
PATIENCE = 2.0  # seconds within which the database has to reply


async def _look(db: Database) -> None:
    """The least that is asked of a database."""
    await db.rows("SELECT 1")


class Asked(Protocol):
    """What is asked of a worker."""

    lease: float

    @property
    def drains(self) -> bool: ...
    @property
    def lease_age(self) -> float: ...
    async def transact(self, operation: Callable[[Database], Awaitable[T]]) -> T:
        """Makes a transaction. Raises `Unavailable` if there is no database."""


async def unready(worker: Asked, patience: float = PATIENCE) -> str | None:
    """Why the worker takes no calls now; none if it does. It says so within `patience` seconds."""
    if worker.drains:
        return "the worker stops, and takes no new calls"
    try:
        async with asyncio.timeout(patience):
            await worker.transact(_look)
    except TimeoutError:
        return f"the database hasn't replied within {patience:g} seconds"
    except Unavailable as error:
        return error.message
    if worker.lease_age > worker.lease:
        return f"the worker's lease is {worker.lease_age:.0f} seconds old, so others take its invocations"
    return None
