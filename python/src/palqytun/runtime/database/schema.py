"""The tables, by version. A database is brought to the newest version by the migrations that it lacks, in order.

{serial}, {blob} and {float} are the database's types; {plain} ends a table of SQLite that is kept by its primary key; {failed} is the code of the
failure that the column `result` holds, or NULL. A migration that is published is never changed: a change is a new one. It adds
tables, or columns that may be left out, so that workers of the version before go on.
"""

from __future__ import annotations

from collections.abc import Callable


def failed(octets: Callable[[int, int], str], number: Callable[[int], str]) -> str:
    """The SQL of {failed}, for docs/WIRE.md's Output and Notification. `octets(place, count)` is the hexadecimal form of
    `count` bytes of `result` from a place on, counted from 1, and `number` the number that two bytes are."""
    output = f"WHEN {octets(1, 2)}='001D' AND {octets(11, 1)}='01' THEN {number(14)}"
    completion = f"WHEN {octets(1, 2)}='001E' AND {octets(11, 1)}='00' AND {octets(16, 1)}='02' THEN {number(19)}"
    return f"CASE {output} {completion} END"


_FIRST = """
CREATE TABLE invocations(
    seq {serial},
    id TEXT NOT NULL UNIQUE,
    service TEXT NOT NULL, handler TEXT NOT NULL, key TEXT NOT NULL,
    exclusive INTEGER NOT NULL,
    version INTEGER NOT NULL,
    idem TEXT,
    seed BIGINT NOT NULL,
    status TEXT NOT NULL,
    due {float} NOT NULL,
    epoch BIGINT NOT NULL DEFAULT 0,
    worker TEXT,
    entries BIGINT NOT NULL,
    retries INTEGER NOT NULL DEFAULT 0,
    failing_since {float},
    future {blob},
    error TEXT,
    result {blob},
    created {float} NOT NULL, ended {float});
CREATE INDEX invocations_ready ON invocations(due, seq) WHERE status='ready';
CREATE INDEX invocations_running ON invocations(worker) WHERE status='running';
CREATE INDEX invocations_ended ON invocations(ended) WHERE status='done';
CREATE UNIQUE INDEX invocations_idem ON invocations(service, handler, key, idem) WHERE idem IS NOT NULL;
CREATE TABLE journal(
    invocation TEXT NOT NULL, at BIGINT NOT NULL, completes BIGINT, frame {blob} NOT NULL, PRIMARY KEY(invocation, at)){plain};
CREATE UNIQUE INDEX journal_once ON journal(invocation, completes) WHERE completes IS NOT NULL;
CREATE TABLE inbox(seq {serial}, invocation TEXT NOT NULL, frame {blob} NOT NULL, fresh INTEGER NOT NULL DEFAULT 1);
CREATE INDEX inbox_of ON inbox(invocation);
CREATE INDEX inbox_fresh ON inbox(invocation) WHERE fresh=1;
CREATE TABLE timers(seq {serial}, due {float} NOT NULL, invocation TEXT NOT NULL, completes BIGINT NOT NULL);
CREATE INDEX timers_due ON timers(due);
CREATE INDEX timers_of ON timers(invocation);
CREATE TABLE waiters(
    invocation TEXT NOT NULL, waiter TEXT NOT NULL, completes BIGINT NOT NULL, PRIMARY KEY(invocation, waiter, completes)){plain};
CREATE TABLE state(
    service TEXT NOT NULL, key TEXT NOT NULL, name TEXT NOT NULL, value {blob} NOT NULL, PRIMARY KEY(service, key, name)){plain};
CREATE TABLE promises(
    service TEXT NOT NULL, key TEXT NOT NULL, name TEXT NOT NULL, result {blob}, PRIMARY KEY(service, key, name)){plain};
CREATE TABLE promise_waiters(service TEXT NOT NULL, key TEXT NOT NULL, name TEXT NOT NULL, waiter TEXT NOT NULL, completes BIGINT NOT NULL);
CREATE INDEX promise_waiters_of ON promise_waiters(service, key, name);
CREATE TABLE locks(service TEXT NOT NULL, key TEXT NOT NULL, holder TEXT NOT NULL, PRIMARY KEY(service, key)){plain};
CREATE TABLE workers(id TEXT PRIMARY KEY, lease {float} NOT NULL);
"""

# When things happened: each entry's time, and the attempts before the last one, which stands in `invocations`. Schedules and limits.
_SECOND = """
ALTER TABLE journal ADD COLUMN stored {float};
ALTER TABLE invocations ADD COLUMN begun {float};
ALTER TABLE invocations ADD COLUMN stopped {float};
ALTER TABLE invocations ADD COLUMN how TEXT;
CREATE TABLE attempts(
    invocation TEXT NOT NULL, epoch BIGINT NOT NULL,
    worker TEXT, begun {float}, stopped {float} NOT NULL, how TEXT, error TEXT, PRIMARY KEY(invocation, epoch)){plain};
CREATE TABLE schedules(
    name TEXT PRIMARY KEY, service TEXT NOT NULL, handler TEXT NOT NULL, rule TEXT NOT NULL, due {float} NOT NULL, last {float}){plain};
CREATE TABLE limits(path TEXT PRIMARY KEY){plain}
"""

# A suspension and a result are whole frames from here on.
_THIRD = "ALTER TABLE invocations RENAME COLUMN future TO suspension"

# Attempts that were lost, and a handler's own failures, since the last progress. Indexes by which no query looks at what has ended.
_FOURTH = """
ALTER TABLE invocations ADD COLUMN deaths INTEGER NOT NULL DEFAULT 0;
ALTER TABLE invocations ADD COLUMN failures INTEGER NOT NULL DEFAULT 0;
ALTER TABLE invocations ADD COLUMN failed_since {float};
CREATE INDEX invocations_queue ON invocations(service, key, due, seq) WHERE status='ready' AND exclusive=1;
CREATE INDEX invocations_unfinished ON invocations(status, seq) WHERE status<>'done';
CREATE INDEX waiters_by ON waiters(waiter);
CREATE INDEX promise_waiters_by ON promise_waiters(waiter);
DELETE FROM promise_waiters WHERE waiter NOT IN (SELECT id FROM invocations WHERE status<>'done')
"""

# How an invocation ended, and what operators and others did with it: `failed` is the code of the failure with which it ended, `cancelled` when it
# was first cancelled, `shielded` whether that waits, `parent` the invocation that called it, and `origin` that of which it is a restart. `trace` is
# its W3C traceparent. `audit` says who did what.
_FIFTH = """
ALTER TABLE invocations ADD COLUMN failed INTEGER;
ALTER TABLE invocations ADD COLUMN cancelled {float};
ALTER TABLE invocations ADD COLUMN shielded INTEGER NOT NULL DEFAULT 0;
ALTER TABLE invocations ADD COLUMN parent TEXT;
ALTER TABLE invocations ADD COLUMN origin TEXT;
ALTER TABLE invocations ADD COLUMN trace TEXT;
UPDATE invocations SET failed={failed}, error=NULL WHERE status='done';
UPDATE invocations SET error=CAST(failed AS TEXT) WHERE failed IS NOT NULL;
CREATE INDEX invocations_failed ON invocations(seq) WHERE failed IS NOT NULL;
CREATE TABLE audit(
    seq {serial}, at {float} NOT NULL, who TEXT NOT NULL, what TEXT NOT NULL,
    invocation TEXT, service TEXT, key TEXT, name TEXT, detail TEXT);
CREATE INDEX audit_of ON audit(invocation) WHERE invocation IS NOT NULL
"""

# The newest invocations of a service.
_SIXTH = "CREATE INDEX invocations_of_service ON invocations(service, seq)"

# Views for those who ask by SQL. {since} and {epoch} stand around a number of seconds, and make it a time.
_SEVENTH = """
CREATE VIEW palqytun_invocations AS SELECT id, service, handler, key,
    CASE WHEN failed IS NOT NULL THEN 'failed' ELSE status END AS status, failed AS code, error,
    {since}created{epoch} AS created, {since}ended{epoch} AS ended, COALESCE(ended, {now}) - created AS seconds, {since}due{epoch} AS due,
    epoch AS attempts, retries, entries, worker, {since}cancelled{epoch} AS cancelled, parent, origin, trace, idem AS idempotency_key, seq FROM invocations;
CREATE VIEW palqytun_attempts AS SELECT invocation, epoch AS attempt, worker, {since}begun{epoch} AS begun, {since}stopped{epoch} AS stopped,
    stopped - begun AS seconds, how, error FROM attempts;
CREATE VIEW palqytun_state AS SELECT service, key, name, {text} AS value, LENGTH(value) AS bytes FROM state;
CREATE VIEW palqytun_audit AS SELECT {since}at{epoch} AS at, who, what, invocation, service, key, name, detail, seq FROM audit
"""

# The version of the app's code by which an invocation was begun; that of each worker, and what it serves, as JSON. Whether a schedule is
# paused, and its last call. The results of steps that committed the user's own rows.
_EIGHTH = """
ALTER TABLE invocations ADD COLUMN code TEXT;
CREATE TABLE serving(worker TEXT PRIMARY KEY, version TEXT NOT NULL, serves TEXT NOT NULL){plain};
ALTER TABLE schedules ADD COLUMN paused INTEGER NOT NULL DEFAULT 0;
ALTER TABLE schedules ADD COLUMN called TEXT;
CREATE TABLE transactions(invocation TEXT NOT NULL, run BIGINT NOT NULL, result {blob} NOT NULL, PRIMARY KEY(invocation, run)){plain}
"""

# Times until which an invocation has to have ended, and to have begun. Of a schedule what it does while its last call is open, its call's key and
# argument, by which others than its app's workers can make the call, and a time whose call waits for the end of the one before. `continued` is the
# invocation that goes on in the place of this one, and `chain` the first of all that go on one after the other; that one has it too. An invocation's queue, its key there, and its priority; of a queue the key of which it
# took one last, and when invocations have begun, as far as its rate needs that.
_NINTH = """
ALTER TABLE invocations ADD COLUMN deadline {float};
ALTER TABLE invocations ADD COLUMN expires {float};
CREATE INDEX invocations_deadline ON invocations(deadline) WHERE deadline IS NOT NULL AND status<>'done';
CREATE INDEX invocations_expires ON invocations(expires) WHERE expires IS NOT NULL AND status='ready' AND epoch=0;
ALTER TABLE schedules ADD COLUMN overlap TEXT NOT NULL DEFAULT 'allow';
ALTER TABLE schedules ADD COLUMN key TEXT NOT NULL DEFAULT '';
ALTER TABLE schedules ADD COLUMN argument {blob};
ALTER TABLE schedules ADD COLUMN queued {float};
ALTER TABLE invocations ADD COLUMN chain TEXT;
ALTER TABLE invocations ADD COLUMN continued TEXT;
CREATE INDEX invocations_chain ON invocations(chain, seq) WHERE chain IS NOT NULL;
ALTER TABLE invocations ADD COLUMN queue TEXT;
ALTER TABLE invocations ADD COLUMN queue_key TEXT;
ALTER TABLE invocations ADD COLUMN priority INTEGER NOT NULL DEFAULT 0;
CREATE INDEX invocations_queued ON invocations(queue, queue_key, priority DESC, due, seq) WHERE status='ready' AND queue IS NOT NULL;
CREATE INDEX invocations_again ON invocations(queue, due, seq) WHERE status='ready' AND queue IS NOT NULL AND epoch>0;
CREATE INDEX invocations_free ON invocations(due, seq) WHERE status='ready' AND queue IS NULL;
CREATE INDEX invocations_working ON invocations(queue, queue_key) WHERE status='running' AND queue IS NOT NULL;
CREATE TABLE queues(name TEXT PRIMARY KEY, last TEXT){plain};
CREATE TABLE starts(queue TEXT NOT NULL, at {float} NOT NULL);
CREATE INDEX starts_of ON starts(queue, at)
"""

# What a queue lets through, as JSON, as the worker that began last says it. What handlers say of their invocations for a search, and the last that runs
# have told of their progress. The view of invocations says which one goes on in the place of another one, its queue and its code. {remade} makes
# a view anew that is there.
_TENTH = """
ALTER TABLE queues ADD COLUMN limits TEXT;
CREATE TABLE attributes(invocation TEXT NOT NULL, name TEXT NOT NULL, value TEXT NOT NULL, PRIMARY KEY(invocation, name)){plain};
CREATE INDEX attributes_by ON attributes(name, value, invocation);
CREATE TABLE progress(
    invocation TEXT NOT NULL, run BIGINT NOT NULL,
    name TEXT NOT NULL, at {float} NOT NULL, value {blob} NOT NULL, PRIMARY KEY(invocation, run)){plain};
{remade} palqytun_invocations AS SELECT id, service, handler, key,
    CASE WHEN failed IS NOT NULL THEN 'failed' ELSE status END AS status, failed AS code, error,
    {since}created{epoch} AS created, {since}ended{epoch} AS ended, COALESCE(ended, {now}) - created AS seconds, {since}due{epoch} AS due,
    epoch AS attempts, retries, entries, worker, {since}cancelled{epoch} AS cancelled, parent, origin, trace, idem AS idempotency_key, seq,
    continued, chain, queue, queue_key, priority, code AS version FROM invocations;
CREATE VIEW palqytun_attributes AS SELECT invocation, name, value FROM attributes
"""

# What waits for a worker that serves it.
_ELEVENTH = "CREATE INDEX invocations_unserved ON invocations(service, handler, seq) WHERE status='paused' AND how='unserved'"

MIGRATIONS = [_FIRST, _SECOND, _THIRD, _FOURTH, _FIFTH, _SIXTH, _SEVENTH, _EIGHTH, _NINTH, _TENTH, _ELEVENTH]
_OLDEST = 3  # what older databases hold can't be read any more

VERSIONS = "CREATE TABLE IF NOT EXISTS schema_versions(version INTEGER PRIMARY KEY)"

SIGN = "promise_waiters"
"""A table of each version, whose name is that of no other application's: where it is, the tables are."""

TABLES = (
    *("invocations", "journal", "inbox", "timers", "waiters", "state", "promises", "promise_waiters"),
    *("locks", "workers", "attempts", "schedules", "limits", "audit", "serving", "transactions", "queues", "starts", "attributes", "progress"),
)


class NewerSchema(Exception):
    """The database was written by a newer version of this package."""

    def __init__(self, found: int):
        super().__init__(f"the database has schema version {found}, and this package knows {len(MIGRATIONS)}; update the package")


class OlderSchema(Exception):
    """The database was written by an older version of this package, whose results are stored in another form."""

    def __init__(self, found: int):
        text = f"the database has schema version {found}, and this package reads {_OLDEST} and later: end its invocations by the package that wrote it"
        super().__init__(f"{text}, and begin a new database")


class NotMigrated(Exception):
    """The database has an older schema, which isn't moved unless that is asked for."""

    def __init__(self, found: int):
        super().__init__(f"the database has schema version {found}, and this package needs {len(MIGRATIONS)}: `palqytun migrate` moves it, with all that it holds")


def missing(found: int, migrates: bool = True) -> list[tuple[int, str]]:
    """The migrations that a database of this version lacks, each with its number; version 0 is an empty database. Without `migrates`, only an
    empty one may lack some."""
    if found > len(MIGRATIONS):
        raise NewerSchema(found)
    if 0 < found < _OLDEST:
        raise OlderSchema(found)
    if 0 < found < len(MIGRATIONS) and not migrates:
        raise NotMigrated(found)
    return list(enumerate(MIGRATIONS, 1))[found:]
