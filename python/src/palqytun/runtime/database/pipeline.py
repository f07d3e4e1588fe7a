"""Statements over one connection of psycopg 3, many in one round trip: libpq's pipeline mode, with prepared statements and binary values.

They are sent by `psycopg.pq`, psycopg's own layer over libpq, and not by its cursors: where psycopg has no part in C, a cursor takes some 150
microseconds of the processor for a statement, and this some 20 (docs/internals/DECISIONS.md)."""

from __future__ import annotations

import asyncio
import contextlib
import functools
import itertools
import re
import struct
import threading
from collections import Counter
from collections.abc import Callable, Iterator, Sequence
from typing import Any, NamedTuple

import psycopg
from psycopg.adapt import Transformer
from psycopg.pq import ConnStatus, DiagnosticField, ExecStatus, Format
from psycopg.pq.abc import PGresult

from ..turns import Turn
from . import Conflict, Full, Lost, StatementFailed

_BLOB, _INT, _TEXT, _FLOAT, _BOOL, _UNKNOWN = 17, 20, 25, 701, 16, 0  # the server's numbers of types
_OFTEN, _PREPARED = 3, 500  # a statement is prepared the third time that it is made; and how many are, at most
_IN_THE_WAY = frozenset(("40001", "40P01", "55P03", "57014", "25006", "58030"))
_FULL = "53100"
_TOO_LARGE = "53200"  # of class 53, insufficient resources, this one is for want of memory: by the statement's own size, except for locks
_LOCKS = b"Lock"  # a function of the server's that takes locks has it in its name
_READ = 200  # rows that are read in one step
_DRAINING = 10.0  # seconds that statements which were given up may take to end
_LOOK = 1.0  # seconds between two looks at a socket of which nothing is heard
_NONE_FOUND = b"22012"  # a division by zero
_BROKEN = (ExecStatus.FATAL_ERROR, ExecStatus.PIPELINE_ABORTED)

Types = tuple[int, ...]


@contextlib.contextmanager
def named() -> Iterator[None]:
    """Errors of the connection as those of `Database`. Those of statements are results, and no exceptions."""
    try:
        yield
    except psycopg.ProgrammingError as error:
        raise StatementFailed(error.sqlstate or "driver", str(error).strip()) from error
    except psycopg.Error as error:
        raise named_by(error.sqlstate, str(error).strip() or type(error).__name__) from error


def named_by(state: str | None, text: str) -> Exception:
    """The error with this SQLSTATE: only classes 08 and 57P, and none at all, say that the connection has ended."""
    if not state or state.startswith(("08", "57P")):
        return Lost(text)
    if state == _FULL:
        return Full(text)
    if state in _IN_THE_WAY or (state.startswith("53") and state != _TOO_LARGE):
        return Conflict(text)
    return StatementFailed(state, text)


# ---- values


def _whole(number: int) -> bytes:
    return number.to_bytes(8, "big", signed=True)


_DUMPED: dict[type, tuple[int, Callable[[Any], bytes]]] = {
    bool: (_BOOL, lambda it: b"\x01" if it else b"\x00"),
    str: (_TEXT, str.encode),
    int: (_INT, _whole),
    float: (_FLOAT, struct.Struct(">d").pack),
    bytes: (_BLOB, bytes),
    memoryview: (_BLOB, bytes),
}


_ELEMENTS: dict[str, type] = {"bigint": int, "text": str, "bytea": bytes, "boolean": bool, "double precision": float}
_PLACES = re.compile(r"\?(?:::([a-z ]+)\[\])?")


@functools.lru_cache(1000)
def _elements(sql: str) -> tuple[type, ...]:
    """For each place of a statement the type of an array's elements there, as in `?::bigint[]`."""
    return tuple(_ELEMENTS[it[1]] if it[1] else str for it in _PLACES.finditer(sql))


def _list(values: list[Any], element: type) -> bytes:
    """An array. The server refuses one whose elements are of another type, also if it has no value."""
    type, dumped = _DUMPED[element]
    parts = [struct.pack(">iiiii", 1, 1, type, len(values), 1) if values else struct.pack(">iii", 0, 0, type)]
    for it in values:
        data = None if it is None else dumped(it)
        parts += (b"\xff\xff\xff\xff",) if data is None else (len(data).to_bytes(4, "big"), data)
    return b"".join(parts)


def _how(value: object) -> tuple[int, Callable[[Any], bytes]]:
    """The type that the server is told, and what makes the bytes."""
    found = _DUMPED.get(type(value))
    return found or next(_DUMPED[it] for it in type(value).__mro__ if it in _DUMPED)


@functools.lru_cache(1000)
def _numbered(sql: str) -> bytes:
    """A statement with `$1`, `$2`, .. instead of each `?`."""
    first, *rest = sql.split("?")
    return "".join([first, *(f"${number}{it}" for number, it in enumerate(rest, 1))]).encode()


class Statement(NamedTuple):
    """A statement with its values, as they are sent."""

    sql: bytes
    types: Types
    values: list[bytes | None]
    otherwise: Exception | None = None  # what a division by zero in it says


def statement(sql: str, values: Sequence[object] = ()) -> Statement:
    """`StatementFailed` if a value is none that can be stored."""
    types, data = list[int](), list[bytes | None]()
    try:
        for it, element in zip(values, _elements(sql), strict=True):
            if it is None:
                types.append(_UNKNOWN)
                data.append(None)
            elif isinstance(it, list):
                types.append(_UNKNOWN)  # the statement says which
                data.append(_list(it, element))
            else:
                type, dumped = _how(it)
                types.append(type)
                data.append(dumped(it))
    except (ValueError, OverflowError, StopIteration) as error:
        raise StatementFailed("value", f"{it!r:.200}: {error or 'a value of a type that is not stored'}") from error
    return Statement(_numbered(sql), tuple(types), data)


# ---- a connection


class Pipeline:
    def __init__(self, connection: psycopg.AsyncConnection[Any]):
        self._connection, self._pg = connection, connection.pgconn  # the connection closes when nothing refers to it any more
        self._reader = Transformer(connection)
        self._pg.enter_pipeline_mode()
        self.process = self._pg.backend_pid
        self._counts: Counter[tuple[bytes, Types]] = Counter()
        self._names: dict[tuple[bytes, Types], bytes] = {}
        self._numbers = itertools.count()  # of prepared statements
        self._is_used = False  # by somebody who waits for results
        self._is_left = self._is_synced = False  # statements were given up: their results weren't read; and whether all were sent

    async def made(self, statements: Sequence[Statement]) -> PGresult:
        """Makes statements in one round trip; returns the last one's result. An error in one of them is raised, and those after it aren't made."""
        return (await self.all_made(statements))[-1]

    async def all_made(self, statements: Sequence[Statement]) -> list[PGresult]:
        """Makes statements in one round trip; returns their results."""
        if self._is_used or self._pg.status != ConnStatus.OK:
            raise Lost("the connection has ended")
        self._is_used = True
        try:
            with named():
                if self._is_left:
                    await self._drained()
                self._is_left, self._is_synced = True, False
                new, expected, turn = dict[tuple[bytes, Types], bytes](), list[bytes | None](), Turn()
                for it in statements:
                    expected += self._sent(it, new)
                    await turn.end()
                self._pg.pipeline_sync()
                self._is_synced = True
                results = await self._results()
                self._is_left = False
        finally:
            self._is_used = False
        self._names |= {key: key_name for key, key_name in new.items() if self._is_prepared(key_name, expected, results)}
        for at, result in enumerate(results):
            if result.status in _BROKEN:
                raise self._failed(result, statements[min(expected[: at + 1].count(None), len(statements)) - 1])
        return [result for result, name in zip(results, expected) if name is None]

    def _sent(self, it: Statement, new: dict[tuple[bytes, Types], bytes]) -> Iterator[bytes | None]:
        """Sends a statement, which is prepared before if it is made often; the name that each result is of, if it is of a preparation."""
        key, formats = (it.sql, it.types), [Format.BINARY] * len(it.values)
        name = self._names.get(key) or new.get(key)
        if name is None and len(self._names) + len(new) < _PREPARED:
            self._counts[key] += 1
            if self._counts[key] >= _OFTEN:
                del self._counts[key]
                name = new[key] = b"p%d" % next(self._numbers)
                self._pg.send_prepare(name, it.sql, it.types)
                yield name
        if name is not None:
            self._pg.send_query_prepared(name, it.values, formats, Format.BINARY)
        else:
            self._pg.send_query_params(it.sql, it.values, it.types, formats, Format.BINARY)
        yield None

    @staticmethod
    def _is_prepared(name: bytes, expected: list[bytes | None], results: list[PGresult]) -> bool:
        at = expected.index(name)
        return at < len(results) and results[at].status == ExecStatus.COMMAND_OK

    async def _drained(self) -> None:
        """Ends statements that were given up, and reads what is left of their results. `Lost` if that takes long."""
        try:
            async with asyncio.timeout(_DRAINING):
                await _apart(self._pg.get_cancel().cancel)
                if not self._is_synced:
                    self._pg.pipeline_sync()
                    self._is_synced = True
                await self._results()
        except TimeoutError:
            raise Lost(f"a statement that was given up hasn't ended in {_DRAINING:g} seconds") from None

    async def _results(self) -> list[PGresult]:
        """What the server says of each statement up to the synchronisation. Meanwhile what the socket didn't take is sent."""
        found, ended, pg, turn = list[PGresult](), False, self._pg, Turn()
        while True:
            has_more = pg.flush()
            await turn.end()
            while not pg.is_busy():
                result = pg.get_result()
                if result is None:  # once after each statement
                    if ended:
                        raise Lost("the connection has ended")
                    ended = True
                    continue
                ended = False
                if result.status == ExecStatus.PIPELINE_SYNC:
                    return found
                found.append(result)
            await _moved(pg.socket, bool(has_more))
            pg.consume_input()

    def _failed(self, result: PGresult, of: Statement) -> Exception:
        state = result.error_field(DiagnosticField.SQLSTATE)
        if state == _NONE_FOUND and of.otherwise is not None:
            return of.otherwise
        text = (result.error_field(DiagnosticField.MESSAGE_PRIMARY) or result.error_message).decode("utf-8", "replace").strip()
        is_of_locks = state == _TOO_LARGE.encode() and _LOCKS in (result.error_field(DiagnosticField.SOURCE_FUNCTION) or b"")
        lacking = Conflict(f"{text}: the server has too few locks: set max_locks_per_transaction")
        found = lacking if is_of_locks else named_by(state.decode() if state else None, text)
        return found if self._pg.status == ConnStatus.OK or isinstance(found, Lost) else Lost(text)

    async def rows(self, result: PGresult) -> list[tuple[Any, ...]]:
        """The rows of a result. Others have their turn between many of them."""
        found, turn = list[tuple[Any, ...]](), Turn()
        for at in range(0, result.ntuples, _READ):
            self._reader.set_pgresult(result)
            found += self._reader.load_rows(at, min(at + _READ, result.ntuples), tuple)
            await turn.end()
        return found

    def close(self) -> None:
        self._pg.finish()


async def _apart(call: Callable[[], object]) -> None:
    """Calls what blocks, in a thread which the end of the program doesn't wait for. Its errors are dropped."""
    loop, done = asyncio.get_running_loop(), asyncio.Event()

    def called() -> None:
        with contextlib.suppress(psycopg.Error):
            call()
        with contextlib.suppress(RuntimeError):  # the loop has ended
            loop.call_soon_threadsafe(done.set)

    threading.Thread(target=called, name="palqytun-cancel", daemon=True).start()
    await done.wait()


async def _moved(number: int, writes: bool) -> None:
    """Waits until a socket can be read, or, if it `writes`, be written; or a moment. So if the loop doesn't watch the socket any more, as when
    somebody else has removed its reader, it is watched again."""
    loop = asyncio.get_running_loop()
    moved: asyncio.Future[None] = loop.create_future()

    def tell() -> None:
        if not moved.done():
            moved.set_result(None)

    loop.add_reader(number, tell)
    if writes:
        loop.add_writer(number, tell)
    look = loop.call_later(_LOOK, tell)
    try:
        await moved
    finally:
        look.cancel()
        loop.remove_reader(number)
        if writes:
            loop.remove_writer(number)
