// The arguments of a step of the conformance suite, as the package takes them.
'use strict';

const palqytun = require('..');

const WORDS = {
  cancel: ['implicitCancellation', { calls: 'calls', none: 'nothing', sends: 'sends', both: 'callsAndSends', off: 'disabled' }],
  checks: ['nonDeterministicChecks', { on: 'enabled', off: 'payloadChecksDisabled' }],
  awaiting: ['awaitingOnPolicy', { norun: 'dontSendWhenExecutingRun', always: 'sendAlways', never: 'dontSend' }],
  mismatch: ['journalMismatchRetryBehavior', { follow: 'followRetryPolicy', pause: 'pause', fail: 'failTerminally' }],
  replay: ['journalReplay', { on: 'enabled', off: 'disabled' }],
  delivery: ['signalDelivery', { queued: 'queued', overwrite: 'overwrite' }],
};
const POLICIES = { infinite: 'infinite', none: 'none', fixed: 'fixedDelay', exp: 'exponential' };
const TREES = {
  first_completed: palqytun.firstCompleted,
  all_completed: palqytun.allCompleted,
  first_succeeded_or_all_failed: palqytun.firstSucceededOrAllFailed,
  all_succeeded_or_first_failed: palqytun.allSucceededOrFirstFailed,
  unknown: palqytun.unknown,
};

const bytes = (it) => Buffer.from(it ?? '', 'hex');
const time = (it) => (typeof it === 'string' ? BigInt(it) : it);
const may = (it) => (it === undefined ? undefined : time(it));
const camel = (it) => it[0].toLowerCase() + it.slice(1);

function options(of = {}) {
  const made = { fallbackRandomSeed: time(of.seed ?? 0) };
  for (const [word, [name, cases]] of Object.entries(WORDS)) if (of[word] !== undefined) made[name] = cases[of[word]];
  return made;
}

function future(it) {
  if (typeof it === 'number') return it;
  const [[kind, children]] = Object.entries(it);
  return TREES[kind](...children.map(future));
}

const value = (it) => it.failure ?? bytes(it.success);

const error = (it) => ({
  code: it.code,
  message: it.message,
  stacktrace: it.stacktrace,
  behavior: it.behaviour,
  nextRetryDelayMillis: may(it.delay),
});

function related(it) {
  if (it === undefined || it === 'last') return it;
  return { type: camel(it.type), name: it.name, index: it.index };
}

const target = (it) => ({
  service: it.service,
  handler: it.handler,
  key: it.key,
  idempotencyKey: it.idempotency_key,
  scope: it.scope,
  limitKey: it.limit_key,
  headers: it.headers,
});

function invocation({ invocation_id: invocationId, workflow, idempotency }) {
  if (workflow) return { workflow: workflow.name, key: workflow.key, scope: workflow.scope };
  if (!idempotency) return { invocationId };
  const { service, handler, scope } = idempotency;
  return { service, handler, idempotencyKey: idempotency.idempotency_key, serviceKey: idempotency.service_key, scope };
}

function policy(it) {
  if (it === undefined) return undefined;
  return {
    kind: POLICIES[it.kind],
    initialMillis: may(it.initial),
    factor: it.factor,
    intervalMillis: may(it.interval),
    maxAttempts: it.attempts,
    maxDurationMillis: may(it.duration),
    pauses: it.pause,
  };
}

module.exports = { bytes, error, future, invocation, options, policy, related, target, time, value };
