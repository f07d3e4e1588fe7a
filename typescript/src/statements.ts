// tools/protocol --write writes this file, from docs/PROTOCOL.md.

/** The protocol's version, and the schema's. */
export const VERSION = 11;

/** The statements of the protocol, by their names. */
export const STATEMENTS = {
  'now': [
    { text: "SELECT extract(epoch from clock_timestamp())::float8", names: [] },
  ],
  'session': [
    { text: "SET SESSION CHARACTERISTICS AS TRANSACTION ISOLATION LEVEL READ COMMITTED", names: [] },
    { text: "SET synchronous_commit=on", names: [] },
    { text: "SET client_encoding='UTF8'", names: [] },
    { text: "SELECT set_config('search_path', 'palqytun, ' || setting, false) FROM pg_settings WHERE name='search_path' AND source IN ('default', 'configuration file') AND to_regclass('promise_waiters') IS NULL", names: [] },
  ],
  'enter': [
    { text: "INSERT INTO workers(id, lease) VALUES ($1::text, extract(epoch from clock_timestamp())::float8 + $2::float8)", names: ["worker", "lease"] },
    { text: "INSERT INTO serving(worker, version, serves) VALUES ($1::text, $2::text, $3::text)", names: ["worker", "code", "serves"] },
  ],
  'beat': [
    { text: "UPDATE workers SET lease=extract(epoch from clock_timestamp())::float8 + $1::float8 WHERE id=$2::text", names: ["lease", "worker"] },
  ],
  'leave': [
    { text: "DELETE FROM workers WHERE id=$1::text", names: ["worker"] },
    { text: "DELETE FROM serving WHERE worker=$1::text", names: ["worker"] },
  ],
  'enter-limit': [
    { text: "INSERT INTO limits(path) VALUES ($1::text) ON CONFLICT(path) DO NOTHING", names: ["path"] },
  ],
  'enter-queue': [
    { text: "INSERT INTO queues(name, limits) VALUES ($1::text, $2::text) ON CONFLICT(name) DO UPDATE SET limits=excluded.limits", names: ["queue", "limits"] },
  ],
  'open': [
    { text: "SELECT DISTINCT service, handler, queue FROM invocations WHERE status<>'done'", names: [] },
  ],
  'requeue': [
    { text: "UPDATE invocations SET queue=$1::text, queue_key=COALESCE(queue_key, key) WHERE status<>'done' AND service=$2::text AND handler=$3::text", names: ["queue", "service", "handler"] },
  ],
  'serves': [
    { text: "SELECT DISTINCT serves FROM serving JOIN workers ON workers.id=serving.worker WHERE lease>=extract(epoch from clock_timestamp())::float8", names: [] },
  ],
  'create': [
    { text: "INSERT INTO invocations(id, service, handler, key, exclusive, version, idem, seed, status, due, entries, created, parent, trace, deadline, expires, queue, queue_key, priority) VALUES ($1::text, $2::text, $3::text, $4::text, $5::integer, 7, $6::text, $7::bigint, 'ready', COALESCE($8::float8, extract(epoch from clock_timestamp())::float8), 1, $9::float8, $10::text, $11::text, $12::float8, $13::float8, $14::text, $15::text, $16::integer) ON CONFLICT DO NOTHING", names: ["id", "service", "handler", "key", "exclusive", "idem", "seed", "due", "now", "parent", "trace", "deadline", "expires", "queue", "queue_key", "priority"] },
  ],
  'input': [
    { text: "INSERT INTO journal(invocation, at, frame, stored) VALUES ($1::text, 0, $2::bytea, $3::float8)", names: ["id", "frame", "now"] },
  ],
  'named': [
    { text: "SELECT id FROM invocations WHERE service=$1::text AND handler=$2::text AND key=$3::text AND idem=$4::text", names: ["service", "handler", "key", "idem"] },
  ],
  'called': [
    { text: "SELECT frame FROM journal WHERE at=0 AND invocation=COALESCE((SELECT chain FROM invocations WHERE id=$1::text), $1::text)", names: ["id"] },
  ],
  'set-aside': [
    { text: "INSERT INTO invocations(id, service, handler, key, exclusive, version, idem, seed, status, how, error, due, entries, created, parent, trace, queue_key, priority) VALUES ($1::text, $2::text, $3::text, $4::text, 0, 7, $5::text, $6::bigint, 'paused', 'unserved', $7::text, COALESCE($8::float8, extract(epoch from clock_timestamp())::float8), 1, $9::float8, $10::text, $11::text, $12::text, $13::integer) ON CONFLICT DO NOTHING", names: ["id", "service", "handler", "key", "idem", "seed", "error", "due", "now", "parent", "trace", "queue_key", "priority"] },
  ],
  'unserved': [
    { text: "SELECT id, service, handler, key, idem, queue_key, due, trace, created FROM invocations WHERE status='paused' AND how='unserved' AND service=$1::text AND handler=ANY($2::text[]) ORDER BY +seq LIMIT $3::integer FOR UPDATE SKIP LOCKED", names: ["service", "handlers", "most"] },
  ],
  'serve': [
    { text: "UPDATE invocations SET status='ready', how=NULL, error=NULL, exclusive=$1::integer, due=$2::float8, deadline=$3::float8, expires=$4::float8, idem=$5::text, queue=$6::text, queue_key=$7::text WHERE id=$8::text", names: ["exclusive", "due", "deadline", "expires", "idem", "queue", "queue_key", "id"] },
  ],
  'refuse': [
    { text: "UPDATE invocations SET status='done', ended=$1::float8, stopped=$1::float8, how='refused', result=$2::bytea, failed=$3::integer, error=$4::text WHERE id=$5::text", names: ["now", "result", "failed", "error", "id"] },
  ],
  'next': [
    { text: "SELECT MIN(due) FROM (SELECT due FROM (SELECT due FROM timers WHERE due>$1::float8 ORDER BY due LIMIT 1) AS timer UNION ALL SELECT due FROM (SELECT due FROM invocations WHERE status='ready' AND due>$1::float8 ORDER BY due LIMIT 1) AS ready UNION ALL SELECT due FROM (SELECT deadline AS due FROM invocations WHERE deadline>$1::float8 AND status<>'done' ORDER BY deadline LIMIT 1) AS late UNION ALL SELECT due FROM (SELECT expires AS due FROM invocations WHERE expires>$1::float8 AND status='ready' AND epoch=0 ORDER BY expires LIMIT 1) AS unbegun) AS next", names: ["now"] },
  ],
  'timers': [
    { text: "DELETE FROM timers WHERE seq IN (SELECT seq FROM timers WHERE due<=$1::float8 ORDER BY due LIMIT 1000 FOR UPDATE SKIP LOCKED) RETURNING invocation, completes, due", names: ["now"] },
  ],
  'unended': [
    { text: "SELECT id, service, handler, key, exclusive, epoch, status, created FROM invocations WHERE deadline<=$1::float8 AND status<>'done' LIMIT $2::integer FOR UPDATE SKIP LOCKED", names: ["now", "most"] },
  ],
  'unbegun': [
    { text: "SELECT id, service, handler, key, exclusive, epoch, status, created FROM invocations WHERE expires<=$1::float8 AND status='ready' AND epoch=0 LIMIT $2::integer FOR UPDATE SKIP LOCKED", names: ["now", "most"] },
  ],
  'calls': [
    { text: "SELECT waiters.invocation FROM waiters JOIN invocations ON invocations.id=waiters.invocation WHERE waiter=$1::text AND parent=$1::text", names: ["id"] },
  ],
  'overdue': [
    { text: "UPDATE invocations SET status='done', ended=$1::float8, stopped=$1::float8, how='overdue', result=$2::bytea, failed=$3::integer, error=$4::text WHERE id=$5::text", names: ["now", "result", "failed", "error", "id"] },
  ],
  'ready': [
    { text: "SELECT id, epoch, exclusive, key, due FROM invocations AS it WHERE service=$1::text AND handler=ANY($2::text[]) AND (code IS NULL OR code=$3::text) AND status='ready' AND queue IS NULL AND due<=$4::float8 AND (exclusive=0 OR CASE (SELECT holder FROM locks WHERE locks.service=it.service AND locks.key=it.key) WHEN it.id THEN true ELSE NOT EXISTS (SELECT 1 FROM locks WHERE locks.service=it.service AND locks.key=it.key) AND it.seq=(SELECT seq FROM invocations AS first WHERE first.service=it.service AND first.key=it.key AND first.exclusive=1 AND first.status='ready' ORDER BY first.due, first.seq LIMIT 1) END) ORDER BY due, seq LIMIT $5::integer FOR UPDATE SKIP LOCKED", names: ["service", "handlers", "code", "now", "most"] },
  ],
  'suspended': [
    { text: "SELECT id, epoch, exclusive, key, suspension, shielded FROM invocations WHERE service=$1::text AND handler=ANY($2::text[]) AND (code IS NULL OR code=$3::text) AND status='suspended' AND queue IS NULL AND id IN (SELECT invocation FROM inbox WHERE fresh=1) LIMIT $4::integer FOR UPDATE SKIP LOCKED", names: ["service", "handlers", "code", "most"] },
  ],
  'inbox': [
    { text: "SELECT seq, frame FROM inbox WHERE invocation=$1::text ORDER BY seq LIMIT 1000", names: ["id"] },
  ],
  'seen': [
    { text: "UPDATE inbox SET fresh=0 WHERE invocation=$1::text AND seq=ANY($2::bigint[])", names: ["id", "seqs"] },
  ],
  'orphaned': [
    { text: "SELECT id, epoch, exclusive, key, due, deaths, handler, worker FROM invocations WHERE service=$1::text AND handler=ANY($2::text[]) AND (code IS NULL OR code=$3::text) AND status='running' AND worker NOT IN (SELECT id FROM workers WHERE lease>=extract(epoch from clock_timestamp())::float8) ORDER BY deaths BETWEEN 1 AND 3, due, seq LIMIT $4::integer FOR UPDATE SKIP LOCKED", names: ["service", "handlers", "code", "most"] },
  ],
  'deadly': [
    { text: "UPDATE invocations SET status='paused', stopped=$1::float8, how='lost', deaths=deaths+1, error=$2::text WHERE id=$3::text AND epoch=$4::bigint AND status='running'", names: ["now", "error", "id", "epoch"] },
  ],
  'lock': [
    { text: "INSERT INTO locks(service, key, holder) VALUES ($1::text, $2::text, $3::text) ON CONFLICT(service, key) DO NOTHING", names: ["service", "key", "id"] },
    { text: "SELECT holder FROM locks WHERE service=$1::text AND key=$2::text", names: ["service", "key"] },
  ],
  'lease': [
    { text: "INSERT INTO attempts(invocation, epoch, worker, begun, stopped, how, error) SELECT id, epoch, worker, begun, COALESCE(stopped, $1::float8), COALESCE(how, 'lost'), CASE WHEN how IN ('failed', 'paused') THEN error END FROM invocations WHERE id=$2::text AND epoch>0", names: ["now", "id"] },
    { text: "UPDATE invocations SET status='running', epoch=epoch+1, worker=$1::text, suspension=NULL, begun=$2::float8, stopped=NULL, how=NULL, deaths=deaths+CASE WHEN status='running' THEN 1 ELSE 0 END, code=COALESCE(code, $3::text) WHERE id=$4::text AND epoch=$5::bigint RETURNING key, seed, entries, retries, failing_since, idem, cancelled, shielded, exclusive, trace, failures, failed_since, created, due, handler", names: ["worker", "now", "code", "id", "epoch"] },
  ],
  'journal': [
    { text: "SELECT frame FROM journal WHERE invocation=$1::text ORDER BY at", names: ["id"] },
  ],
  'state': [
    { text: "SELECT name, value FROM state WHERE service=$1::text AND key=$2::text ORDER BY name", names: ["service", "key"] },
  ],
  'running': [
    { text: "SELECT path FROM limits WHERE path=$1::text FOR UPDATE", names: ["path"] },
    { text: "SELECT COUNT(*) FROM invocations WHERE status='running' AND service=$1::text AND handler=$2::text", names: ["service", "handler"] },
  ],
  'in-queue': [
    { text: "SELECT name FROM queues WHERE name=$1::text FOR UPDATE", names: ["queue"] },
    { text: "SELECT queue_key, COUNT(*), SUM(CASE WHEN worker=$1::text THEN 1 ELSE 0 END) FROM invocations WHERE status='running' AND queue=$2::text GROUP BY queue_key", names: ["worker", "queue"] },
  ],
  'starts': [
    { text: "DELETE FROM starts WHERE queue=$1::text AND at<=$2::float8", names: ["queue", "since"] },
    { text: "SELECT COUNT(*), MIN(at) FROM starts WHERE queue=$1::text", names: ["queue"] },
  ],
  'started': [
    { text: "INSERT INTO starts(queue, at) VALUES ($1::text, $2::float8)", names: ["queue", "now"] },
  ],
  'queue-suspended': [
    { text: "SELECT id, epoch, exclusive, key, service, queue_key, suspension, shielded FROM invocations WHERE queue=$1::text AND service || '/' || handler=ANY($2::text[]) AND (code IS NULL OR code=$3::text) AND status='suspended' AND queue_key<>ALL($4::text[]) AND id IN (SELECT invocation FROM inbox WHERE fresh=1) LIMIT $5::integer FOR UPDATE SKIP LOCKED", names: ["queue", "paths", "code", "full", "most"] },
  ],
  'queue-again': [
    { text: "SELECT id, epoch, exclusive, key, service, queue_key FROM invocations AS it WHERE queue=$1::text AND service || '/' || handler=ANY($2::text[]) AND (code IS NULL OR code=$3::text) AND status='ready' AND epoch>0 AND due<=$4::float8 AND (exclusive=0 OR CASE (SELECT holder FROM locks WHERE locks.service=it.service AND locks.key=it.key) WHEN it.id THEN true ELSE NOT EXISTS (SELECT 1 FROM locks WHERE locks.service=it.service AND locks.key=it.key) AND it.seq=(SELECT seq FROM invocations AS first WHERE first.service=it.service AND first.key=it.key AND first.exclusive=1 AND first.status='ready' ORDER BY first.due, first.seq LIMIT 1) END) AND queue_key<>ALL($5::text[]) ORDER BY due, seq LIMIT $6::integer FOR UPDATE SKIP LOCKED", names: ["queue", "paths", "code", "now", "full", "most"] },
  ],
  'queue-last': [
    { text: "SELECT last FROM queues WHERE name=$1::text", names: ["queue"] },
  ],
  'queue-keys': [
    { text: "WITH RECURSIVE keys(name, many) AS (SELECT (SELECT MIN(queue_key) FROM invocations WHERE status='ready' AND queue=$1::text AND queue_key>=$2::text), 1 UNION ALL SELECT (SELECT MIN(queue_key) FROM invocations WHERE status='ready' AND queue=$1::text AND queue_key>keys.name), many+1 FROM keys WHERE name IS NOT NULL AND many<$3::integer) SELECT name FROM keys WHERE name IS NOT NULL", names: ["queue", "first", "most"] },
  ],
  'queue-first': [
    { text: "SELECT id, epoch, exclusive, key, service, queue_key FROM invocations AS it WHERE queue=$1::text AND queue_key=$2::text AND service || '/' || handler=ANY($3::text[]) AND (code IS NULL OR code=$4::text) AND status='ready' AND epoch=0 AND due<=$5::float8 AND (exclusive=0 OR CASE (SELECT holder FROM locks WHERE locks.service=it.service AND locks.key=it.key) WHEN it.id THEN true ELSE NOT EXISTS (SELECT 1 FROM locks WHERE locks.service=it.service AND locks.key=it.key) AND it.seq=(SELECT seq FROM invocations AS first WHERE first.service=it.service AND first.key=it.key AND first.exclusive=1 AND first.status='ready' ORDER BY first.due, first.seq LIMIT 1) END) ORDER BY priority DESC, due, seq LIMIT $6::integer FOR UPDATE SKIP LOCKED", names: ["queue", "queue_key", "paths", "code", "now", "most"] },
  ],
  'queue-turn': [
    { text: "UPDATE queues SET last=$1::text WHERE name=$2::text", names: ["last", "queue"] },
  ],
  'fence': [
    { text: "SELECT 1 FROM invocations WHERE id=$1::text AND epoch=$2::bigint AND entries=$3::bigint AND status='running' FOR UPDATE", names: ["id", "epoch", "before"] },
  ],
  'append': [
    { text: "INSERT INTO journal(invocation, at, completes, frame, stored) VALUES ($1::text, $2::bigint, $3::bigint, $4::bytea, $5::float8)", names: ["id", "at", "completes", "frame", "now"] },
  ],
  'appends': [
    { text: "INSERT INTO journal(invocation, at, completes, frame, stored) SELECT $1::text, at, completes, frame, $2::float8 FROM unnest($3::bigint[]::bigint[], $4::bigint[]::bigint[], $5::bytea[]::bytea[]) AS entry(at, completes, frame)", names: ["id", "now", "places", "completions", "frames"] },
  ],
  'attribute': [
    { text: "INSERT INTO attributes(invocation, name, value) VALUES ($1::text, $2::text, $3::text) ON CONFLICT(invocation, name) DO UPDATE SET value=excluded.value", names: ["id", "name", "said"] },
  ],
  'no-attribute': [
    { text: "DELETE FROM attributes WHERE invocation=$1::text AND name=$2::text", names: ["id", "name"] },
  ],
  'timer': [
    { text: "INSERT INTO timers(due, invocation, completes) VALUES ($1::float8, $2::text, $3::bigint)", names: ["due", "id", "completes"] },
  ],
  'set': [
    { text: "INSERT INTO state(service, key, name, value) VALUES ($1::text, $2::text, $3::text, $4::bytea) ON CONFLICT(service, key, name) DO UPDATE SET value=excluded.value", names: ["service", "key", "name", "value"] },
  ],
  'clear': [
    { text: "DELETE FROM state WHERE service=$1::text AND key=$2::text AND name=$3::text", names: ["service", "key", "name"] },
  ],
  'clear-all': [
    { text: "DELETE FROM state WHERE service=$1::text AND key=$2::text", names: ["service", "key"] },
  ],
  'promise': [
    { text: "INSERT INTO promises(service, key, name) VALUES ($1::text, $2::text, $3::text) ON CONFLICT(service, key, name) DO UPDATE SET name=excluded.name", names: ["service", "key", "name"] },
    { text: "SELECT result FROM promises WHERE service=$1::text AND key=$2::text AND name=$3::text", names: ["service", "key", "name"] },
  ],
  'await-promise': [
    { text: "INSERT INTO promise_waiters(service, key, name, waiter, completes) VALUES ($1::text, $2::text, $3::text, $4::text, $5::bigint)", names: ["service", "key", "name", "id", "completes"] },
  ],
  'complete-promise': [
    { text: "UPDATE promises SET result=$1::bytea WHERE service=$2::text AND key=$3::text AND name=$4::text", names: ["result", "service", "key", "name"] },
    { text: "DELETE FROM promise_waiters WHERE service=$1::text AND key=$2::text AND name=$3::text RETURNING waiter, completes", names: ["service", "key", "name"] },
  ],
  'keep-progress': [
    { text: "INSERT INTO progress(invocation, run, name, at, value) SELECT $1::text, $2::bigint, $3::text, $4::float8, $5::bytea WHERE EXISTS (SELECT 1 FROM invocations WHERE id=$1::text AND epoch=$6::bigint AND status='running') ON CONFLICT(invocation, run) DO UPDATE SET at=excluded.at, value=excluded.value", names: ["id", "run", "name", "now", "value", "epoch"] },
  ],
  'last-progress': [
    { text: "SELECT value FROM progress WHERE invocation=$1::text AND run=$2::bigint", names: ["id", "run"] },
  ],
  'grow': [
    { text: "UPDATE invocations SET entries=$1::bigint WHERE id=$2::text AND epoch=$3::bigint AND entries=$4::bigint AND status='running'", names: ["entries", "id", "epoch", "before"] },
  ],
  'progress': [
    { text: "UPDATE invocations SET retries=0, failing_since=NULL, failures=0, failed_since=NULL, deaths=0 WHERE id=$1::text AND epoch=$2::bigint", names: ["id", "epoch"] },
  ],
  'steps': [
    { text: "WITH grown AS (UPDATE invocations SET entries=$1::bigint, retries=0, failing_since=NULL, failures=0, failed_since=NULL, deaths=0 WHERE id=$2::text AND epoch=$3::bigint AND entries=$4::bigint AND status='running' RETURNING id) INSERT INTO journal(invocation, at, completes, frame, stored) SELECT grown.id, entry.at, entry.completes, entry.frame, $5::float8 FROM grown, unnest($6::bigint[]::bigint[], $7::bigint[]::bigint[], $8::bytea[]::bytea[]) AS entry(at, completes, frame)", names: ["entries", "id", "epoch", "before", "now", "places", "completions", "frames"] },
  ],
  'deliver': [
    { text: "INSERT INTO inbox(invocation, frame) SELECT $1::text, $2::bytea WHERE EXISTS (SELECT 1 FROM invocations WHERE id=$1::text AND status<>'done')", names: ["invocation", "frame"] },
  ],
  'newest': [
    { text: "SELECT COALESCE((SELECT id FROM invocations WHERE id=$1::text AND continued IS NULL), (SELECT id FROM invocations WHERE chain=COALESCE((SELECT chain FROM invocations WHERE id=$1::text), $1::text) ORDER BY seq DESC LIMIT 1), $1::text)", names: ["invocation"] },
  ],
  'keep': [
    { text: "SELECT pg_advisory_xact_lock_shared(7401954, hashtext(COALESCE((SELECT chain FROM invocations WHERE id=$1::text), $1::text)) & 1023)", names: ["invocation"] },
  ],
  'send': [
    { text: "INSERT INTO inbox(invocation, frame) SELECT id, $1::bytea FROM invocations WHERE status<>'done' AND id=COALESCE((SELECT id FROM invocations WHERE id=$2::text AND continued IS NULL), (SELECT id FROM invocations WHERE chain=COALESCE((SELECT chain FROM invocations WHERE id=$2::text), $2::text) ORDER BY seq DESC LIMIT 1)) RETURNING invocation", names: ["frame", "invocation"] },
  ],
  'result': [
    { text: "SELECT result FROM invocations WHERE id=$1::text FOR UPDATE", names: ["invocation"] },
  ],
  'look': [
    { text: "SELECT status, result FROM invocations WHERE id=$1::text", names: ["invocation"] },
  ],
  'wait': [
    { text: "INSERT INTO waiters(invocation, waiter, completes) VALUES ($1::text, $2::text, $3::bigint)", names: ["invocation", "id", "completes"] },
  ],
  'reached': [
    { text: "SELECT DISTINCT invocation FROM inbox WHERE fresh=1 AND invocation=ANY($1::text[])", names: ["ids"] },
  ],
  'delivered': [
    { text: "DELETE FROM inbox WHERE invocation=$1::text AND seq=ANY($2::bigint[])", names: ["id", "seqs"] },
  ],
  'cancelled': [
    { text: "UPDATE invocations SET cancelled=$1::float8 WHERE id=$2::text AND epoch=$3::bigint", names: ["now", "id", "epoch"] },
  ],
  'suspend': [
    { text: "UPDATE invocations SET entries=$1::bigint, status=$2::text, due=$3::float8, suspension=$4::bytea, stopped=$3::float8, how='suspended', shielded=$5::integer, deaths=0 WHERE id=$6::text AND epoch=$7::bigint AND entries=$8::bigint AND status='running'", names: ["entries", "status", "now", "suspension", "shielded", "id", "epoch", "before"] },
  ],
  'end': [
    { text: "UPDATE invocations SET entries=$1::bigint, status='done', ended=$2::float8, stopped=$2::float8, how='ended', result=$3::bytea, failed=$4::integer, error=$5::text WHERE id=$6::text AND epoch=$7::bigint AND entries=$8::bigint AND status='running'", names: ["entries", "now", "result", "failed", "error", "id", "epoch", "before"] },
  ],
  'ended': [
    { text: "DELETE FROM waiters WHERE invocation=$1::text RETURNING waiter, completes", names: ["id"] },
  ],
  'gone': [
    { text: "DELETE FROM timers WHERE invocation=$1::text", names: ["id"] },
    { text: "DELETE FROM inbox WHERE invocation=$1::text", names: ["id"] },
    { text: "DELETE FROM waiters WHERE waiter=$1::text", names: ["id"] },
    { text: "DELETE FROM promise_waiters WHERE waiter=$1::text", names: ["id"] },
    { text: "DELETE FROM locks WHERE service=$1::text AND key=$2::text AND holder=$3::text", names: ["service", "key", "id"] },
  ],
  'take': [
    { text: "SELECT pg_advisory_xact_lock(7401954, hashtext(COALESCE((SELECT chain FROM invocations WHERE id=$1::text), $1::text)) & 1023)", names: ["id"] },
  ],
  'continued': [
    { text: "SELECT idem, COALESCE(chain, id), parent, trace, queue, queue_key, priority FROM invocations WHERE id=$1::text", names: ["id"] },
  ],
  'continue': [
    { text: "UPDATE invocations SET entries=$1::bigint, status='done', ended=$2::float8, stopped=$2::float8, how='continued', idem=NULL, chain=$3::text, continued=$4::text WHERE id=$5::text AND epoch=$6::bigint AND entries=$7::bigint AND status='running'", names: ["entries", "now", "chain", "next", "id", "epoch", "before"] },
    { text: "INSERT INTO attributes(invocation, name, value) SELECT $1::text, name, value FROM attributes WHERE invocation=$2::text", names: ["next", "id"] },
    { text: "UPDATE waiters SET invocation=$1::text WHERE invocation=$2::text", names: ["next", "id"] },
    { text: "UPDATE locks SET holder=$1::text WHERE service=$2::text AND key=$3::text AND holder=$4::text", names: ["next", "service", "key", "id"] },
  ],
  'chain': [
    { text: "UPDATE invocations SET chain=$1::text WHERE id=$2::text", names: ["chain", "id"] },
  ],
  'left': [
    { text: "SELECT seq, frame FROM inbox WHERE invocation=$1::text ORDER BY seq", names: ["id"] },
  ],
  'fail': [
    { text: "UPDATE invocations SET entries=$1::bigint, status=$2::text, due=$3::float8, error=$4::text, stopped=$5::float8, how=$6::text, deaths=0, retries=$7::integer, failing_since=$8::float8, failures=$9::integer, failed_since=$10::float8 WHERE id=$11::text AND epoch=$12::bigint AND entries=$13::bigint AND status='running'", names: ["entries", "status", "due", "error", "now", "how", "retries", "failing_since", "failures", "failed_since", "id", "epoch", "before"] },
  ],
  'pause': [
    { text: "UPDATE invocations SET status='paused', stopped=$1::float8, how='paused', error=$2::text WHERE id=$3::text AND epoch=$4::bigint AND status='running'", names: ["now", "error", "id", "epoch"] },
  ],
  'release': [
    { text: "UPDATE invocations SET status='ready', due=$1::float8, stopped=$1::float8, how='released' WHERE id=$2::text AND epoch=$3::bigint AND status='running'", names: ["now", "id", "epoch"] },
  ],
  'notify': [
    { text: "SELECT pg_notify($1::text, $2::text)", names: ["channel", "word"] },
  ],
  'tell': [
    { text: "SELECT pg_notify(channel, 'to ' || string_agg(id, ' ')) FROM (SELECT CASE status WHEN 'running' THEN 'palqytun_' || right(worker, 12) ELSE 'palqytun' END AS channel, id FROM invocations WHERE id=ANY($1::text[]) AND status<>'done') AS told GROUP BY channel", names: ["ids"] },
  ],
  'reach': [
    { text: "UPDATE invocations SET status='ready', due=$1::float8, deaths=CASE status WHEN 'paused' THEN 0 ELSE deaths END, retries=CASE status WHEN 'paused' THEN 0 ELSE retries END, failing_since=CASE status WHEN 'paused' THEN NULL ELSE failing_since END, failures=CASE status WHEN 'paused' THEN 0 ELSE failures END, failed_since=CASE status WHEN 'paused' THEN NULL ELSE failed_since END WHERE id=$2::text AND (status='paused' OR (status='ready' AND due>$1::float8))", names: ["now", "id"] },
  ],
  'unreached': [
    { text: "SELECT id FROM invocations WHERE id IN (SELECT invocation FROM inbox WHERE fresh=1 AND frame=$1::bytea) AND (status='paused' OR (status='ready' AND due>$2::float8)) FOR UPDATE SKIP LOCKED", names: ["frame", "now"] },
  ],
} as const;

export type StatementName = keyof typeof STATEMENTS;
