"""PostgreSQL, by psycopg 3: workers on many hosts. No thread waits for the server; the event loop does.

What costs time is the round trip to the server. So statements whose results aren't asked for are queued, and go with the next that has one;
a transaction's begin goes with its first statement, and its commit with the last.

A session doesn't depend on the server's defaults: what matters is set when the connection is made, and what can't be set is checked.
"""

from __future__ import annotations

import asyncio
import contextlib
import functools
import logging
import threading
import time
from collections.abc import Callable, Iterable, Sequence
from dataclasses import dataclass, field
from typing import TYPE_CHECKING, Any, NamedTuple

from . import Asked, Claiming, Conflict, Each, Lost, Reading, StatementFailed, Unsuitable, partitions
from .schema import MIGRATIONS, SIGN, TABLES, VERSIONS, failed, missing

if TYPE_CHECKING:
    import psycopg
    from psycopg.pq.abc import PGresult

    from .pipeline import Pipeline, Statement
    from .servers import Server, Servers

log = logging.getLogger("palqytun")

_FAILED = failed(
    lambda at, count: f"upper(encode(substring(result from {at} for {count}),'hex'))", lambda at: f"get_byte(result,{at - 1})*256+get_byte(result,{at})"
)
_TYPES = {"serial": "BIGSERIAL PRIMARY KEY", "blob": "BYTEA", "float": "FLOAT8", "plain": "", "failed": _FAILED}
_TYPES |= {"since": "to_timestamp(", "epoch": ")", "text": "convert_from(value, 'UTF8')", "now": "extract(epoch from clock_timestamp())::float8"}
_TYPES["remade"] = "CREATE OR REPLACE VIEW"  # views of the user's own over it stay
_CHANNEL = "palqytun"  # of all workers
_OWN = 12  # each worker has a channel of its own too, named by the last characters of its name, this many, which are random
_NOTIFIED = f"SELECT pg_notify('{_CHANNEL}', word) FROM unnest(?::text[]) AS word"
_PASSED_ON = f"SELECT pg_notify('{_CHANNEL}_' || right(?, {_OWN}), 'ready ' || ?)"
_TO_HOLDERS = (
    "SELECT pg_notify(channel, 'to ' || string_agg(id, ' ')) FROM ("
    f"SELECT CASE status WHEN 'running' THEN '{_CHANNEL}_' || right(worker, {_OWN}) ELSE '{_CHANNEL}' END AS channel, id"
    " FROM invocations WHERE id=ANY(?::text[]) AND status<>'done' AND"
    " (status='running' OR NOT (service=ANY(?::text[]) AND COALESCE(code=?, true)))) AS touched GROUP BY channel"
)
_AT_ONCE = 100  # invocations that one notification names; it has less than 8,000 bytes
_TOGETHER = 200  # rows that one statement changes, at most
_MIGRATING = 7_401_953  # the advisory lock of whoever migrates
_LEVEL = "ISOLATION LEVEL READ COMMITTED"  # each statement reads all that was committed before it; by an older snapshot changes are lost
_BEGIN = f"BEGIN {_LEVEL}"
_BEGIN_READING = "BEGIN ISOLATION LEVEL REPEATABLE READ READ ONLY"
_PATIENCE = 10.0  # seconds that a connection may take to be made
_AGAIN = 0.5  # seconds until a connection that listens is made again
_OPTIONS: dict[str, Any] = {
    "keepalives": 1,
    "keepalives_idle": 5,
    "keepalives_interval": 2,
    "keepalives_count": 3,
    "tcp_user_timeout": 15000,
    "client_encoding": "UTF8",
}
# Instead of the server's defaults, but not of what the URL's options say. A server lacks what its version doesn't have.
_SETTINGS = {
    "statement_timeout": "0",  # a statement that is ended is made again: the next one would be no quicker
    "lock_timeout": "1s",  # then the operations of a group are made without the one that waits
    "idle_in_transaction_session_timeout": "60s",  # what stands still with rows that others wait for loses its session
    "transaction_timeout": "0",
    "idle_session_timeout": "0",  # the connection that listens is idle
    "synchronous_commit": "on",
    "enable_seqscan": "off",  # a plan that was made when a table was small is kept when it is large: each query has its index
    "jit": "off",  # statements are short, and a table without an index for one is small
}
_HURRY = "SET LOCAL lock_timeout='100ms'"
_ENOUGH = ("local", "remote_write", "remote_apply")  # of synchronous_commit: what is committed is on the disk with these too
_SCHEMA = "palqytun"  # of the tables, if nobody names another place for them
# Tables that are there are used where they are. Else the tables' own schema comes first, and then what the path has, so that tables of the user's are found.
_PLACED = (
    f"SELECT set_config('search_path', '{_SCHEMA}, ' || setting, false) FROM pg_settings"
    f" WHERE name='search_path' AND source IN ('default', 'configuration file') AND to_regclass('{SIGN}') IS NULL"
)
_PLACE = (
    f"SELECT left(current_setting('search_path'), {len(_SCHEMA) + 2})='{_SCHEMA}, ', has_schema_privilege(to_regnamespace('{_SCHEMA}'), 'USAGE'),"
    " has_database_privilege(current_database(), 'CREATE'), current_schema() IS NOT NULL, current_user::text"
)
_SET_UP = (
    f"SET SESSION CHARACTERISTICS AS TRANSACTION {_LEVEL}",
    f"SELECT set_config(name, value, false) FROM (VALUES {', '.join(map(str, _SETTINGS.items()))}) AS wanted(name, value)"
    f" JOIN pg_settings USING (name) WHERE source<>'client' AND NOT (name='synchronous_commit' AND setting IN {_ENOUGH})",
    _PLACED,
)
_UNSAFE = "palqytun.unsafe"  # a setting of a session: `on` allows what may lose commits
_CHECKED = (
    "SELECT current_setting('server_encoding'), current_setting('transaction_read_only'), current_setting('fsync'),"
    f" current_setting('synchronous_commit'), current_setting('{_UNSAFE}', true), current_setting('server_version_num')::int"
)
_OLDEST = 140000  # the server's version that is needed
_RIGHTS = ("SELECT", "INSERT", "UPDATE", "DELETE")
_MAY = "CASE what WHEN 'USAGE' THEN has_sequence_privilege(to_regclass(relname || '_seq_seq'), what) ELSE has_table_privilege(oid, what) END"
_NEEDED = ", ".join(f"({at}, {it!r})" for at, it in enumerate((*_RIGHTS, "USAGE")))
_LACKING = (
    f"SELECT relname::text, string_agg(what, ', ' ORDER BY number) FROM pg_class, (VALUES {_NEEDED}) AS needed(number, what)"
    f" WHERE oid=to_regclass(relname) AND relname=ANY(?::text[]) AND NOT {_MAY} GROUP BY relname ORDER BY relname"
)
_ENCODINGS = ("UTF8", "SQL_ASCII")


class NoDriver(ImportError):
    """The driver of PostgreSQL isn't installed."""

    def __init__(self) -> None:
        super().__init__("PostgreSQL needs the package psycopg, version 3: `pip install 'palqytun[postgres]'`, or of Debian python3-psycopg")


def _driver() -> Any:
    """The module that talks to the server, and psycopg with it."""
    try:
        from . import pipeline
    except ImportError as error:
        raise NoDriver() from error
    return pipeline


def _some(names: list[str]) -> list[list[str]]:
    """As many at a time as one notification names."""
    return [names[at : at + _AT_ONCE] for at in range(0, len(names), _AT_ONCE)]


@dataclass
class _Server:
    """What the connections of one `connect` share."""

    url: str
    processes: set[int] = field(default_factory=set)  # of the server, for these connections
    clock: float = 0.0  # the server's time at 0 of the monotonic clock
    claims: Claiming | None = None  # what the worker of these connections looks for

    @functools.cached_property
    def servers(self) -> Servers:
        """Those of the URL."""
        from .servers import Servers

        return Servers(self.url)

    async def reached(self) -> psycopg.AsyncConnection[Any]:
        """A new connection, as the server's defaults have it, to the first server that takes one."""
        driver, said = _driver(), dict[str, str]()
        try:
            with driver.named():
                servers = self.servers
            for it in servers.in_turn():
                try:
                    return await self._reached(it, _PATIENCE / len(servers))
                except Lost as error:
                    said[it.name] = str(error)
        except StatementFailed as error:  # the URL, the user or the database's name
            raise Unsuitable(str(error)) from error
        texts = [*said.values()] if len(said) == 1 else [f"{name}: {' '.join(text.split())}" for name, text in said.items()]
        raise Lost("; ".join(texts))

    async def _reached(self, server: Server, patience: float) -> psycopg.AsyncConnection[Any]:
        """A new connection to one server, which has so many seconds."""
        driver = _driver()
        try:
            with driver.named():
                async with asyncio.timeout(patience):  # `wait_for` drops a cancellation that comes with the connection
                    found: psycopg.AsyncConnection[Any] = await driver.psycopg.AsyncConnection.connect(server.conninfo, autocommit=True, **_OPTIONS)
                return found
        except asyncio.TimeoutError:
            raise Lost(f"the server hasn't replied for {patience:.1f} seconds") from None

    async def session(self) -> Pipeline:
        """A new connection, with the settings of a session."""
        driver = _driver()
        found: Pipeline = driver.Pipeline(await self.reached())
        try:
            await asyncio.wait_for(found.made([driver.statement(it) for it in _SET_UP]), _PATIENCE)
        except asyncio.TimeoutError:
            found.close()
            raise Lost(f"the server hasn't replied for {_PATIENCE} seconds") from None
        except BaseException:
            found.close()
            raise
        self.processes.add(found.process)
        return found


class _Row(NamedTuple):
    """A change of one row, which isn't in the queue yet."""

    change: Each
    values: Sequence[object]
    otherwise: Exception | None


class Postgres:
    is_shared, is_remote, skip, lock = True, True, " FOR UPDATE SKIP LOCKED", " FOR UPDATE"
    clock = "extract(epoch from clock_timestamp())::float8"

    def __init__(self, server: _Server, pipeline: Pipeline):
        """`connected` makes one."""
        self._server, self._pipeline = server, pipeline
        self._statement: Callable[..., Statement] = _driver().statement
        self._begin = self._statement(_BEGIN)
        self._words: set[str] = set()  # that this transaction sends
        self._passes_on: str | None = None  # this transaction tells the next peer that something is ready, as this worker said first
        self._touched: set[str] = set()  # the invocations whose holders it notifies
        self._queue: list[Statement] = []
        self._each: dict[Each | int, list[_Row]] = {}  # changes that aren't in the queue yet, by their shape or by their rank alone
        self.before = len(MIGRATIONS)
        self.copied: int | None = None  # rows that were copied into partitions, if this connection has made these

    @staticmethod
    async def connected(url: str, *, worker: bool = False, migrates: bool = False, parts: int = 0) -> Postgres:
        """A connection to a database of the newest version. A worker has to write there. `migrates`: an older one is moved. With `parts` it gets so many
        partitions, if it has none."""
        server = _Server(url)
        found = Postgres(server, await server.session())
        try:
            await found._check(worker)
            await found._migrate(migrates, parts)
            if worker:
                await found._check_rights()
            asked = time.monotonic()
            found.told((await found.rows(f"SELECT {found.clock}"))[0][0], asked)
        except StatementFailed as error:
            found.close()
            if error.code != "42501":
                raise
            raise Unsuitable(f"{error}: the user has to own the tables, and to have CREATE on their schema") from error
        except BaseException:
            found.close()
            raise
        return found

    async def another(self) -> Postgres | None:
        return Postgres(self._server, await self._server.session())

    async def _check(self, worker: bool) -> None:
        """Refuses a database that can't be used as it is set up."""
        [(encoding, read_only, fsync, synchronous, unsafe, version)] = await self.rows(_CHECKED)
        if version < _OLDEST:
            raise Unsuitable(f"the server is PostgreSQL {version // 10000}, and has to be {_OLDEST // 10000} or newer")
        if encoding not in _ENCODINGS:
            raise Unsuitable(f"the database's encoding is {encoding}, and has to be UTF8: CREATE DATABASE .. ENCODING 'UTF8' TEMPLATE template0")
        if worker and read_only == "on":
            raise Lost(
                "a worker has to write, and this session may only read: the server is a standby, or default_transaction_read_only is on;"
                " name the primary, or all servers and target_session_attrs=read-write"
            )
        loses = [f"{name}=off" for name, value in (("fsync", fsync), ("synchronous_commit", synchronous)) if value == "off"]
        if worker and loses and unsafe != "on":
            text = f"with {' and '.join(loses)} what was committed may be lost when the server's host stops"
            raise Unsuitable(f"{text}; to allow it, set {_UNSAFE}=on, as by postgresql://..?options=-c{_UNSAFE}%3Don")

    async def _check_rights(self) -> None:
        """Refuses a user who may not change the tables: each claim would fail."""
        if lacks := await self.rows(_LACKING, ([*TABLES, partitions.IDEMPOTENCY],)):
            table, rights = lacks[0]
            [(user,)] = await self.rows("SELECT current_user::text")
            text = f"the user {user} has no {rights} on {table}{f', and lacks rights on {len(lacks) - 1} more tables' if len(lacks) > 1 else ''}"
            raise Unsuitable(f"{text}: a worker's user owns the tables, or has {', '.join(_RIGHTS)} on all of them and USAGE on their sequences")

    async def _migrate(self, migrates: bool, parts: int) -> None:
        self.before = await self._version()
        lacks_parts = parts > 0 and await partitions.lacks(self, parts)
        if not missing(self.before, migrates) and not lacks_parts:
            return
        await self.begin()
        await self.rows("SELECT pg_advisory_xact_lock(?)", (_MIGRATING,))
        found = await self._version()
        if not found:
            await self._make_schema()
        self.put(VERSIONS)
        for version, statements in missing(found, migrates):
            for it in statements.format(**_TYPES).split(";\n"):
                self.put(it)
            self.put("INSERT INTO schema_versions VALUES (?)", (version,))
        try:
            if there := await partitions.count(self) or parts:
                self.copied = await partitions.divide(self, there)
            await self.commit()
        except StatementFailed as error:
            if not lacks_parts or error.code == "42501":
                raise
            raise Unsuitable(f"the database gets no partitions: {error}") from error  # as of a view of the user's on a table

    async def _make_schema(self) -> None:
        """Makes the schema of the tables, if nobody names another place and the user may; else they are made where the path leads."""
        [(is_own, may_use, may_make, has_place, user)] = await self.rows(_PLACE)
        if is_own and may_use is False:  # there may be tables, and these would be made a second time
            raise Unsuitable(f"the user {user} has no USAGE on the schema {_SCHEMA}, in which the tables are")
        if is_own and may_use is None and may_make:
            self.put(f"CREATE SCHEMA {_SCHEMA}")
        elif not has_place:
            raise Unsuitable("the search_path names no schema that is there and that the user may use, so there is no place for the tables")

    async def _version(self) -> int:
        """The schema's version; 0 if there are no tables."""
        [(is_there,)] = await self.rows(f"SELECT to_regclass('{SIGN}') IS NOT NULL")
        return int((await self.rows("SELECT COALESCE(MAX(version), 0) FROM schema_versions"))[0][0]) if is_there else 0

    # ---- the clock

    def now(self) -> float:
        return self._server.clock + time.monotonic()

    def told(self, time_of_server: float, asked: float) -> None:
        earliest, latest = time_of_server - time.monotonic(), time_of_server - asked
        self._server.clock = min(max(self._server.clock, earliest), latest)

    # ---- statements

    async def _send(self, it: Statement) -> PGresult:
        """Makes what is queued, and then this statement, in one round trip."""
        return await self._pipeline.made([*self._queued(), it])

    def _queued(self) -> list[Statement]:
        """What is to be made before the next statement with a result, which isn't queued any more."""
        self._gather()
        queue, self._queue = self._queue, []
        return queue

    def _gather(self) -> None:
        """Queues the changes of rows, those of a shape together."""
        if not self._each:
            return
        gathered, self._each = self._each, {}
        for rows in sorted(gathered.values(), key=lambda it: it[0].change.rank):
            most = 1 if rows[0].change.many is None else _TOGETHER
            for at in range(0, len(rows), most):
                self._queue.append(self._made(rows[at : at + most]))

    def _made(self, rows: list[_Row]) -> Statement:
        """The statement that makes a change of some rows."""
        change, values, otherwise = rows[0].change, rows[0].values, next((it.otherwise for it in rows if it.otherwise is not None), None)
        sql = change.one
        if change.many is not None and (len(rows) > 1 or not sql):
            sql, values = change.many, [list(it) for it in zip(*(row.values for row in rows))]
        return self._statement(sql, values) if otherwise is None else self._checked(sql, values, otherwise, len(rows))

    def _checked(self, sql: str, values: Sequence[object], otherwise: Exception, count: int) -> Statement:
        """The server itself refuses, so what is sent with this statement isn't made either, and isn't committed."""
        found = f"{sql} RETURNING 1" if sql.startswith(("UPDATE", "INSERT", "DELETE")) else sql
        checked = f"WITH found AS ({found}) SELECT 1/CASE WHEN COUNT(*)=? THEN 1 ELSE 0 END FROM found"
        return self._statement(checked, (*values, count))._replace(otherwise=otherwise)

    async def begin(self, reads: bool = False) -> None:
        self._words.clear()
        self._passes_on = None
        self._touched.clear()
        self._each.clear()
        self._queue = [self._statement(_BEGIN_READING) if reads else self._begin]

    async def commit(self) -> None:
        ended = sorted(it.removeprefix("ended ") for it in self._words if it.startswith("ended "))
        words = {it for it in self._words if not it.startswith("ended ")} | {f"ended {' '.join(it)}" for it in _some(ended)}
        claims = self._server.claims or Claiming("", (), (), "")
        if words:
            self.put(_NOTIFIED, (sorted(words),))
        for names in _some(sorted(self._touched)):
            self.put(_TO_HOLDERS, (names, list(claims.services), claims.code))
        if self._passes_on is not None and claims.peers and "ready" not in words:
            first = self._passes_on or claims.worker
            if claims.peers[0] != first:
                self.put(_PASSED_ON, (claims.peers[0], first))
        done = await self._send(self._statement("COMMIT"))
        if done.command_status != b"COMMIT":
            raise Conflict("the transaction was rolled back")

    async def rollback(self) -> None:
        self._each.clear()
        has_begun, self._queue = not self._queue or not self._queue[0].sql.startswith(b"BEGIN"), []
        if has_begun:
            await self._send(self._statement("ROLLBACK"))

    async def rows(self, sql: str, values: Sequence[object] = ()) -> list[Any]:
        return await self._pipeline.rows(await self._send(self._statement(sql, values)))

    async def change(self, sql: str, values: Sequence[object] = ()) -> int:
        return (await self._send(self._statement(sql, values))).command_tuples or 0

    async def several(self, asked: Sequence[Asked]) -> list[list[Any]]:
        if not asked:
            return []
        alike: dict[str | Reading, list[int]] = {}  # the numbers of those that are one statement
        for number, (it, _) in enumerate(asked):
            alike.setdefault(it if isinstance(it, Reading) else f"{number}", []).append(number)
        results = await self._pipeline.all_made([*self._queued(), *(self._asked(asked, it) for it in alike.values())])
        found: list[list[Any]] = [[] for _ in asked]
        for numbers, result in zip(alike.values(), results[-len(alike) :]):
            rows = await self._pipeline.rows(result)
            if len(numbers) == 1:
                found[numbers[0]] = rows
                continue
            for number, *row in rows:
                found[number].append(tuple(row))
        return found

    def _asked(self, asked: Sequence[Asked], numbers: list[int]) -> Statement:
        """One of several queries, or one statement for many that are alike."""
        it, values = asked[numbers[0]]
        if isinstance(it, str):
            return self._statement(it, values)
        if len(numbers) == 1:
            return self._statement(it.one, values)
        return self._statement(it.many, [numbers, *(list(column) for column in zip(*(asked[number][1] for number in numbers)))])

    def must(self, sql: str, values: Sequence[object], otherwise: Exception, count: int = 1) -> None:
        self._gather()
        self._queue.append(self._checked(sql, values, otherwise, count))

    def put(self, sql: str, values: Sequence[object] = ()) -> None:
        self._gather()
        self._queue.append(self._statement(sql, values))

    def many(self, sql: str, values: Iterable[Sequence[object]]) -> None:
        self._gather()
        self._queue += [self._statement(sql, row) for row in values]

    def each(self, change: Each, values: Sequence[object], otherwise: Exception | None = None) -> None:
        self._each.setdefault(change.rank if change.many is None else change, []).append(_Row(change, values, otherwise))

    def hurry(self) -> None:
        self.put(_HURRY)

    # ---- other workers

    def notify(self, word: str) -> None:
        self._words.add(word)

    def ready(self, is_own: bool) -> None:
        if not is_own or self._server.claims is None:
            self._words.add("ready")

    def claims(self, what: Claiming | None) -> None:
        self._server.claims = what

    def pass_on(self, first: str = "") -> None:
        self._passes_on = first

    def notify_holder(self, invocation: str) -> None:
        self._touched.add(invocation)

    async def listen(self, worker: str, heard: Callable[[str], None]) -> Callable[[], None] | None:
        try:
            connection = await self._listening(worker)
        except Conflict as error:  # as of a standby
            raise Lost(str(error)) from error
        task = asyncio.create_task(self._hear(connection, worker, heard))

        def end() -> None:
            task.cancel()

        return end

    async def _listening(self, worker: str) -> psycopg.AsyncConnection[Any]:
        connection = await self._server.reached()
        try:
            with _driver().named():
                await connection.execute(_SET_UP[1])
                for channel in (_CHANNEL, f"{_CHANNEL}_{worker[-_OWN:]}"):
                    await connection.execute(f'LISTEN "{channel}"')
        except BaseException:
            connection.pgconn.finish()
            raise
        return connection

    async def _hear(self, connection: psycopg.AsyncConnection[Any], worker: str, heard: Callable[[str], None]) -> None:
        """Until it is cancelled."""
        while True:
            try:
                with _driver().named():
                    async for it in connection.notifies():
                        if it.pid not in self._server.processes:  # this worker's own are known to it
                            heard(it.payload)
            except (Lost, StatementFailed) as error:
                log.warning("notifications have ended, and are asked for again: %s", error)
            finally:
                connection.pgconn.finish()
            connection = await self._listening_again(worker)
            heard("ready")

    async def _listening_again(self, worker: str) -> psycopg.AsyncConnection[Any]:
        while True:
            await asyncio.sleep(_AGAIN)
            with contextlib.suppress(Lost, Conflict, StatementFailed, Unsuitable):
                return await self._listening(worker)

    def beats(self, worker: str, lease: float, may_beat: Callable[[], bool]) -> ThreadOfBeats:
        return ThreadOfBeats(self._server.url, worker, lease, may_beat)

    def close(self) -> None:
        self._server.processes.discard(self._pipeline.process)
        self._pipeline.close()


class ThreadOfBeats:
    """Keeps a worker's lease from a thread with a connection of its own. So neither a busy event loop nor a slow transaction makes a dead worker."""

    _LIVES = f"UPDATE workers SET lease={Postgres.clock}+%(lease)s WHERE id=%(id)s"
    _LIVES_AGAIN = f"INSERT INTO workers(id, lease) VALUES (%(id)s, {Postgres.clock}+%(lease)s) ON CONFLICT(id) DO NOTHING"

    def __init__(self, url: str, worker: str, lease: float, may_beat: Callable[[], bool]):
        from .servers import Servers

        self._servers, self._values, self._lease, self._may_beat = Servers(url), {"id": worker, "lease": lease}, lease, may_beat
        self._is_over = threading.Event()
        self._thread = threading.Thread(target=self._run, name=f"palqytun-beats-{worker}", daemon=True)
        self._connection: psycopg.Connection[Any] | None = None
        self.last = time.monotonic()

    def start(self) -> None:
        self._thread.start()

    def stop(self) -> None:
        self._is_over.set()

    def _run(self) -> None:
        while not self._is_over.wait(self._lease / 3):
            if self._may_beat():
                self._beat()
        self._drop()

    def _beat(self) -> None:
        import psycopg

        try:
            if self._connection is None:
                self._connection = self._reached()
                for it in _SET_UP[1:]:
                    self._connection.execute(it)
                self._connection.execute(f"SET statement_timeout='{int(self._lease * 1000 / 3)}ms'")
            is_there = self._connection.execute(self._LIVES, self._values).rowcount
            if not is_there and not self._is_over.is_set():  # it was thought dead, and is removed
                self._connection.execute(self._LIVES_AGAIN, self._values)
            self.last = time.monotonic()
        except psycopg.Error as error:
            log.warning("a beat wasn't stored: %s", str(error).strip())
            self._drop()

    def _reached(self) -> psycopg.Connection[Any]:
        """A new connection to the first server that takes one; each has a part of the time between two beats, and two seconds at least."""
        import psycopg

        options: dict[str, Any] = {**_OPTIONS, "connect_timeout": max(2, round(self._lease / 3 / len(self._servers)))}
        error = psycopg.OperationalError("there is no server")
        for it in self._servers.in_turn():
            try:
                return psycopg.connect(it.conninfo, autocommit=True, **options)
            except psycopg.OperationalError as found:
                error = found
        raise error

    def _drop(self) -> None:
        if self._connection is not None:
            self._connection.close()
            self._connection = None
