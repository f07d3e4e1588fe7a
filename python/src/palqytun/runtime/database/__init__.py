"""The two databases: SQLite for one worker, PostgreSQL for several. Both take the same statements, with `?` for a value."""

from __future__ import annotations

import pathlib
from collections.abc import Callable, Iterable, Sequence
from dataclasses import dataclass
from typing import Any, Protocol

from .together import Each, Listed, Reading


class Conflict(Exception):
    """Something is in the way now: another's lock, a deadlock, a database that may only be read. Nothing was stored, and the transaction is made
    again until it is."""


class Full(Conflict):
    """The database's disk has no room for what is to be stored. Nothing of it was stored, and it is once there is room."""


class Lost(Exception):
    """The database can't be reached, or the connection has ended. Whether the last transaction was stored isn't known; what stands in the
    database is what counts, and a worker goes on from there once the database can be used again."""


class StatementFailed(Exception):
    """The database refuses a statement or a value, since something is wrong with the operation itself. Nothing of its transaction was stored, and the
    connection can be used. `code` is the SQLSTATE, or SQLite's name of the error."""

    def __init__(self, code: str, text: str):
        super().__init__(f"{code}: {text}")
        self.code = code


class Unsuitable(Exception):
    """The database is there, and can't be used as it is set up: what is wrong, and what is allowed."""


Asked = tuple[str | Reading, Sequence[object]]
"""A query with its values."""


@dataclass(frozen=True)
class Claiming:
    """What a worker claims: invocations of these services, of this version of their code or of none. `peers` are the others that claim the same, the next
    one first."""

    worker: str
    peers: Sequence[str]
    services: Sequence[str]
    code: str


class Beats(Protocol):
    """A thread that keeps a worker's lease."""

    def start(self) -> None: ...
    def stop(self) -> None:
        """Makes no more beats. It doesn't wait for the thread."""

    @property
    def last(self) -> float:
        """When the last beat was stored, by `time.monotonic()`."""


class Database(Protocol):
    """A connection, which belongs to an event loop. Each statement belongs to the transaction that `begin` began; any of them may raise
    `Conflict`, `Lost` or `StatementFailed`."""

    before: int  # the schema's version when this connection found it
    is_shared: bool  # several workers may use it at once
    is_remote: bool  # each statement's result waits for a server, so few statements are better than many
    skip: str  # after a SELECT that takes rows which no other worker is taking
    lock: str  # after a SELECT that keeps its rows until the commit
    clock: str  # the database's time in seconds

    def now(self) -> float:
        """The database's time, in seconds since the epoch, without asking it: as it was when it last told its time, and how long that is ago."""

    def told(self, time: float, asked: float) -> None:
        """The database has told its time, after it was asked for it at `asked`, by `time.monotonic()`. However late the reply is handled, `now`
        isn't set by that: the database's time was `time` at some moment between the two."""

    async def begin(self, reads: bool = False) -> None:
        """Begins a transaction. With `reads` it only reads, sees the database as it is now, and keeps nobody out."""

    async def commit(self) -> None: ...
    async def rollback(self) -> None: ...
    async def rows(self, sql: str, values: Sequence[object] = ()) -> list[Any]: ...
    async def change(self, sql: str, values: Sequence[object] = ()) -> int: ...
    async def several(self, asked: Sequence[Asked]) -> list[list[Any]]:
        """The rows of each of several queries. On a server they take one round trip together, and those of the same `Reading` are one statement."""

    def must(self, sql: str, values: Sequence[object], otherwise: Exception, count: int = 1) -> None:
        """A `put` that has to change, or find, exactly `count` rows. If it doesn't, `otherwise` is raised, by this or by one of the statements that follow, the
        commit too; then nothing of the transaction is stored."""

    def put(self, sql: str, values: Sequence[object] = ()) -> None:
        """A change whose count isn't asked for. It is made before each statement that follows; an error in it may be raised by one of these."""

    def many(self, sql: str, values: Iterable[Sequence[object]]) -> None:
        """A `put` for each of the rows of values."""

    def each(self, change: Each, values: Sequence[object], otherwise: Exception | None = None) -> None:
        """A change of one row, which a server makes together with others like it, by their ranks. They are made before the next `put` or statement
        with a result, and before the commit. With `otherwise` it is a `must`."""

    def hurry(self) -> None:
        """The rest of this transaction waits for another's lock only a moment, and then raises `Conflict`."""

    def notify(self, word: str) -> None:
        """Tells this word to the workers that listen, once the transaction is committed. What has ended is told together: `ended ONE TWO`."""

    def ready(self, is_own: bool) -> None:
        """Something can be claimed from the commit on. If it `is_own`, of a worker that claims by this connection, that one looks for it, and tells
        others if it leaves some (`pass_on`). Else all workers are notified."""

    def claims(self, what: Claiming | None) -> None:
        """The worker of this connection looks for this after each of its transactions; with None, it doesn't claim any more."""

    def pass_on(self, first: str = "") -> None:
        """The worker of this connection has left something that can be claimed: its next peer looks for it, once the transaction is committed. `first` is
        the worker that was the first to say so, if it isn't this one; it isn't told."""

    def notify_holder(self, invocation: str) -> None:
        """Tells `to INVOCATION`, or several at a time, to the worker that has its lease, once the transaction is committed; to all if none has, except if the
        worker of this connection claims it, and to nobody if it has ended. The lease is looked up just before the commit. A worker that takes it in between
        finds what came when it next looks by itself."""

    async def listen(self, worker: str, heard: Callable[[str], None]) -> Callable[[], None] | None:
        """Calls `heard` for each word that others tell to all or to this worker; returns what ends it. None: there are no others. If the
        connection is lost it is made again, and then `heard` gets `ready`, since words may have been missed."""

    async def another(self) -> Database | None:
        """One more connection to this database, for a transaction at the same time; None if it takes one at a time."""

    def beats(self, worker: str, lease: float, may_beat: Callable[[], bool]) -> Beats | None:
        """A thread that keeps this worker's lease as long as `may_beat`; None if no other worker could take over."""

    def close(self) -> None: ...


def checked_url(url: str) -> str:
    """The address of a database, if it is one; else `Unsuitable`."""
    if not isinstance(url, str) or not url:
        raise Unsuitable(f"{url!r} is no database: it is postgresql://.. or the path of a SQLite file")
    scheme, found, _ = url.partition("://")
    if found and scheme not in ("postgres", "postgresql"):
        raise Unsuitable(f"{scheme}:// is no database that is known: it is postgresql://.. or the path of a SQLite file")
    if not found:
        folder = pathlib.Path(url.removeprefix("sqlite:").partition("?")[0]).parent
        if not folder.is_dir():
            raise Unsuitable(f"there is no folder {folder} for the database")
    return url


async def connect(url: str, *, worker: bool = False, migrates: bool = False, parts: int = 0) -> Database:
    """`postgresql://..`, or the path of a SQLite file, which may be followed by `?synchronous=NORMAL`. `worker` says that this connection is
    that of a worker: a SQLite file has one at a time, and a PostgreSQL database has to let it write. With `migrates` a database of an older schema is
    moved to the newest, and without it it raises `NotMigrated`; the worker of a SQLite file, which is its only one, always moves it. With
    `parts` a PostgreSQL database gets so many partitions, with all that it holds; `Unsuitable` if it has another number of them, or a worker is alive."""
    if url.startswith(("postgres://", "postgresql://")):
        from .postgres import Postgres

        return await Postgres.connected(url, worker=worker, migrates=migrates, parts=parts)
    if parts:
        raise Unsuitable(f"only PostgreSQL has partitions, and {url} is a SQLite file")
    from .sqlite import SQLite

    path, _, option = url.removeprefix("sqlite:").partition("?synchronous=")
    return SQLite(path, synchronous=option or "FULL", worker=worker or migrates)


__all__ = ["Asked", "Beats", "Claiming", "Conflict", "Database", "Each", "Full", "Listed", "Lost", "Reading", "StatementFailed", "Unsuitable", "checked_url", "connect"]
