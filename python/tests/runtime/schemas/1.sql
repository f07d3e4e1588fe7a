-- A database of schema version 1, as the package of commit 93602d47 made it, without a row.
BEGIN TRANSACTION;
CREATE TABLE inbox(seq INTEGER PRIMARY KEY AUTOINCREMENT, invocation TEXT NOT NULL, frame BLOB NOT NULL, fresh INTEGER NOT NULL DEFAULT 1);
CREATE TABLE invocations(
    seq INTEGER PRIMARY KEY AUTOINCREMENT,
    id TEXT NOT NULL UNIQUE,
    service TEXT NOT NULL, handler TEXT NOT NULL, key TEXT NOT NULL,
    exclusive INTEGER NOT NULL,
    version INTEGER NOT NULL,
    idem TEXT,
    seed BIGINT NOT NULL,
    status TEXT NOT NULL,
    due REAL NOT NULL,
    epoch BIGINT NOT NULL DEFAULT 0,
    worker TEXT,
    entries BIGINT NOT NULL,
    retries INTEGER NOT NULL DEFAULT 0,
    failing_since REAL,
    future BLOB,
    error TEXT,
    result BLOB,
    created REAL NOT NULL, ended REAL);
CREATE TABLE journal(
    invocation TEXT NOT NULL, at BIGINT NOT NULL, completes BIGINT, frame BLOB NOT NULL, PRIMARY KEY(invocation, at)) WITHOUT ROWID;
CREATE TABLE locks(service TEXT NOT NULL, key TEXT NOT NULL, holder TEXT NOT NULL, PRIMARY KEY(service, key)) WITHOUT ROWID;
CREATE TABLE promise_waiters(service TEXT NOT NULL, key TEXT NOT NULL, name TEXT NOT NULL, waiter TEXT NOT NULL, completes BIGINT NOT NULL);
CREATE TABLE promises(
    service TEXT NOT NULL, key TEXT NOT NULL, name TEXT NOT NULL, result BLOB, PRIMARY KEY(service, key, name)) WITHOUT ROWID;
CREATE TABLE schema_versions(version INTEGER PRIMARY KEY);
INSERT INTO "schema_versions" VALUES(1);
CREATE TABLE state(
    service TEXT NOT NULL, key TEXT NOT NULL, name TEXT NOT NULL, value BLOB NOT NULL, PRIMARY KEY(service, key, name)) WITHOUT ROWID;
CREATE TABLE timers(seq INTEGER PRIMARY KEY AUTOINCREMENT, due REAL NOT NULL, invocation TEXT NOT NULL, completes BIGINT NOT NULL);
CREATE TABLE waiters(
    invocation TEXT NOT NULL, waiter TEXT NOT NULL, completes BIGINT NOT NULL, PRIMARY KEY(invocation, waiter, completes)) WITHOUT ROWID;
CREATE TABLE workers(id TEXT PRIMARY KEY, lease REAL NOT NULL);
CREATE INDEX invocations_ready ON invocations(due, seq) WHERE status='ready';
CREATE INDEX invocations_running ON invocations(worker) WHERE status='running';
CREATE INDEX invocations_ended ON invocations(ended) WHERE status='done';
CREATE UNIQUE INDEX invocations_idem ON invocations(service, handler, key, idem) WHERE idem IS NOT NULL;
CREATE UNIQUE INDEX journal_once ON journal(invocation, completes) WHERE completes IS NOT NULL;
CREATE INDEX inbox_of ON inbox(invocation);
CREATE INDEX inbox_fresh ON inbox(invocation) WHERE fresh=1;
CREATE INDEX timers_due ON timers(due);
CREATE INDEX timers_of ON timers(invocation);
CREATE INDEX promise_waiters_of ON promise_waiters(service, key, name);
DELETE FROM "sqlite_sequence";
COMMIT;
