"""SQLite: one file, one worker."""

from __future__ import annotations

import asyncio
import collections
import concurrent.futures
import fcntl
import os
import sqlite3
import statistics
import time
from collections.abc import Callable, Iterable, Sequence
from types import TracebackType
from typing import Any, TextIO

from . import Asked, Beats, Claiming, Conflict, Each, Full, Lost, Reading, StatementFailed, Unsuitable
from .schema import VERSIONS, failed, missing

_READ = 1000  # rows that are read in one step
_IN_MEMORY = ":memory:"  # a database that no other connection can have
_QUICK = 0.001  # seconds; a commit that takes less isn't worth a thread
_OPENING = 10.0  # seconds that another program's lock is waited for when a file is opened
_BUSY = (sqlite3.SQLITE_BUSY, sqlite3.SQLITE_LOCKED)
_UNUSABLE = (
    sqlite3.SQLITE_CANTOPEN,
    sqlite3.SQLITE_CORRUPT,
    sqlite3.SQLITE_INTERRUPT,
    sqlite3.SQLITE_IOERR,
    sqlite3.SQLITE_NOLFS,
    sqlite3.SQLITE_NOTADB,
    sqlite3.SQLITE_PERM,
    sqlite3.SQLITE_PROTOCOL,
    sqlite3.SQLITE_READONLY,
)


def _hex(at: int, count: int) -> str:
    return f"hex(substr(result,{at},{count}))"


def _number(at: int) -> str:
    return "+".join(f"{16 ** (3 - it)}*(instr('0123456789ABCDEF',substr({_hex(at, 2)},{it + 1},1))-1)" for it in range(4))


_TYPES = {"serial": "INTEGER PRIMARY KEY AUTOINCREMENT", "blob": "BLOB", "float": "REAL", "plain": " WITHOUT ROWID", "failed": failed(_hex, _number)}
_TYPES |= {"since": "datetime(", "epoch": ", 'unixepoch')", "text": "CAST(value AS TEXT)", "now": "((julianday('now') - 2440587.5) * 86400.0)"}
_TYPES["remade"] = "DROP VIEW palqytun_invocations;\nCREATE VIEW"


class InUse(Exception):
    """Another worker uses the file."""

    def __init__(self, path: str):
        super().__init__(f"another worker uses {path}; several workers need PostgreSQL")


def _only_worker(path: str) -> TextIO:
    """The lock of a file's only worker, whatever name it has the file by. It is a file of its own beside it: SQLite keeps locks of the process on the
    database's, which closing it would end."""
    lock = open(f"{os.path.realpath(path)}.lock", "w")
    try:
        fcntl.flock(lock, fcntl.LOCK_EX | fcntl.LOCK_NB)
    except BlockingIOError:
        lock.close()
        raise InUse(path) from None
    return lock


class _Named:
    """Errors of SQLite as those of `Database`. It is entered for each statement, so it is no generator."""

    def __enter__(self) -> None:
        pass

    def __exit__(self, kind: type[BaseException] | None, error: BaseException | None, trace: TracebackType | None) -> None:
        if isinstance(error, sqlite3.Error):
            raise _named_by(error) from error
        if isinstance(error, (OverflowError, UnicodeEncodeError)):
            raise StatementFailed("value", str(error)) from error


def _named_by(error: sqlite3.Error) -> Exception:
    """The database is lost if its file can't be used; all else comes from the statement itself, or from another's lock."""
    code = getattr(error, "sqlite_errorcode", None)
    primary = None if code is None else code & 0xFF
    if primary in _BUSY:
        return Conflict(str(error))
    if primary == sqlite3.SQLITE_FULL:
        return Full(str(error))
    if primary in _UNUSABLE:
        return Lost(str(error))
    return StatementFailed(getattr(error, "sqlite_errorname", type(error).__name__), str(error))


_named = _Named()


class SQLite:
    is_shared, is_remote, skip, lock = False, False, "", ""
    clock = "((julianday('now') - 2440587.5) * 86400.0)"

    def __init__(self, path: str, *, synchronous: str = "FULL", worker: bool = False):
        if synchronous not in ("FULL", "NORMAL", "OFF"):
            raise ValueError(f"synchronous is FULL, NORMAL or OFF, and not {synchronous}")
        self._thread = concurrent.futures.ThreadPoolExecutor(1, thread_name_prefix="palqytun-database")
        self._lasted: collections.deque[float] = collections.deque([0.0], maxlen=5)  # how long the last commits took
        self._lock = _only_worker(path) if worker and path != _IN_MEMORY else None
        try:
            with _named:
                self._connection = sqlite3.connect(path, isolation_level=None, timeout=_OPENING, cached_statements=500, check_same_thread=False)
                self._set_up(synchronous, worker)
        except Conflict as error:
            self._unlock()
            raise Lost(f"another program has locked {path} for {_OPENING:g} seconds") from error
        except Lost as error:
            self._unlock()
            if getattr(error.__cause__, "sqlite_errorcode", None) == sqlite3.SQLITE_NOTADB:
                raise Unsuitable(f"{path} is a file, and no SQLite database") from error
            raise
        except BaseException:
            self._unlock()
            raise

    def _set_up(self, synchronous: str, migrates: bool) -> None:
        self._connection.execute("PRAGMA journal_mode=WAL")
        self._connection.execute(f"PRAGMA synchronous={synchronous}")
        self.before = self._version()
        if missing(self.before, migrates):
            self._migrate()
        # From here on whoever is locked out waits in the event loop, which goes on.
        self._connection.execute("PRAGMA busy_timeout=0")

    def _unlock(self) -> None:
        if self._lock is not None:
            self._lock.close()

    def _version(self) -> int:
        """The schema's version; 0 if there is none."""
        if not self._connection.execute("SELECT 1 FROM sqlite_master WHERE name='schema_versions'").fetchall():
            return 0
        return int(self._connection.execute("SELECT COALESCE(MAX(version), 0) FROM schema_versions").fetchone()[0])

    def _migrate(self) -> None:
        self._connection.execute("BEGIN IMMEDIATE")
        try:
            self._connection.execute(VERSIONS)
            for version, statements in missing(self._version()):
                for statement in statements.format(**_TYPES).split(";\n"):
                    self._connection.execute(statement)
                self._connection.execute("INSERT INTO schema_versions VALUES (?)", (version,))
            self._connection.execute("COMMIT")
        except BaseException:
            if self._connection.in_transaction:
                self._connection.execute("ROLLBACK")
            raise

    def now(self) -> float:
        return time.time()

    def told(self, time: float, asked: float) -> None:
        """The database's clock is that of this host."""

    async def begin(self, reads: bool = False) -> None:
        with _named:
            self._connection.execute("BEGIN" if reads else "BEGIN IMMEDIATE")

    async def commit(self) -> None:
        """In the event loop, if commits are quick here; else, as they wait for the disk, in a thread."""
        if statistics.median(self._lasted) < _QUICK:
            self._commit()
        else:
            await asyncio.shield(asyncio.get_running_loop().run_in_executor(self._thread, self._commit))

    def _commit(self) -> None:
        begun = time.perf_counter()
        with _named:
            self._connection.execute("COMMIT")
        self._lasted.append(time.perf_counter() - begun)

    async def rollback(self) -> None:
        with _named:
            if self._connection.in_transaction:
                self._connection.execute("ROLLBACK")

    async def rows(self, sql: str, values: Sequence[object] = ()) -> list[Any]:
        with _named:
            cursor = self._connection.execute(sql, tuple(values))
            found = cursor.fetchmany(_READ)
            while len(found) % _READ == 0 and (more := cursor.fetchmany(_READ)):
                found += more
                await asyncio.sleep(0)
            return found

    async def change(self, sql: str, values: Sequence[object] = ()) -> int:
        with _named:
            return self._connection.execute(sql, tuple(values)).rowcount

    async def several(self, asked: Sequence[Asked]) -> list[list[Any]]:
        return [await self.rows(it.one if isinstance(it, Reading) else it, values) for it, values in asked]

    def must(self, sql: str, values: Sequence[object], otherwise: Exception, count: int = 1) -> None:
        with _named:
            made = self._connection.execute(sql, tuple(values))
            found = made.rowcount if made.description is None else len(made.fetchall())
        if found != count:
            raise otherwise

    def put(self, sql: str, values: Sequence[object] = ()) -> None:
        with _named:
            self._connection.execute(sql, tuple(values))

    def many(self, sql: str, values: Iterable[Sequence[object]]) -> None:
        with _named:
            self._connection.executemany(sql, values)

    def each(self, change: Each, values: Sequence[object], otherwise: Exception | None = None) -> None:
        if otherwise is None:
            self.put(change.one, values)
        else:
            self.must(change.one, values, otherwise)

    def hurry(self) -> None:
        """Nothing waits for a lock here."""

    def notify(self, word: str) -> None:
        """There is no other worker to tell."""

    def ready(self, is_own: bool) -> None:
        """There is no other worker to tell."""

    def claims(self, what: Claiming | None) -> None:
        """There is no other worker."""

    def pass_on(self, first: str = "") -> None:
        """There is no other worker to tell."""

    def notify_holder(self, invocation: str) -> None:
        """There is no other worker to tell."""

    async def listen(self, worker: str, heard: Callable[[str], None]) -> Callable[[], None] | None:
        return None

    async def another(self) -> SQLite | None:
        return None

    def beats(self, worker: str, lease: float, may_beat: Callable[[], bool]) -> Beats | None:
        return None

    def close(self) -> None:
        self._thread.shutdown(wait=True)
        self._connection.close()
        self._unlock()
