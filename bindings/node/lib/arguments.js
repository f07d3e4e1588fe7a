// Arguments as the addon takes them. What is of the wrong type is a TypeError, and what is out of bounds a RangeError; both name the argument.
'use strict';

const abi = require('./abi');

const { NUMBERS } = abi;
const LONE = /\p{Surrogate}/u;

function wanted(name, what, value) {
  const found = value === null ? 'null' : Array.isArray(value) ? 'an array' : typeof value;
  return new TypeError(`${name} must be ${what}, not ${found}`);
}

function text(name, value) {
  if (typeof value !== 'string') throw wanted(name, 'a string', value);
  if (LONE.test(value)) throw new RangeError(`${name} has half of a surrogate pair, which UTF-8 has not`);
  return value;
}

function optional(name, value) {
  return value === undefined || value === null ? undefined : text(name, value);
}

function bytes(name, value) {
  if (!(value instanceof Uint8Array)) throw wanted(name, 'a Uint8Array', value);
  return value;
}

function whole(name, value, most) {
  if (typeof value !== 'number') throw wanted(name, 'a number', value);
  if (!Number.isInteger(value) || value < 0 || value > most) throw new RangeError(`${name} must be a whole number from 0 to ${most}, not ${value}`);
  return value;
}

const code = (name, value) => whole(name, value, 65535);
const u32 = (name, value) => whole(name, value, 4294967295);

/** The version of an attempt's messages. */
function version(name, value) {
  if (typeof value !== 'number') throw wanted(name, 'a number', value);
  const { MINIMUM_VERSION: least, MAXIMUM_VERSION: most } = NUMBERS;
  if (!Number.isInteger(value) || value < least || value > most) throw new RangeError(`${name} must be a whole number from ${least} to ${most}, not ${value}`);
  return value;
}

/** A time or a seed: a whole number, or a bigint for what a number hasn't whole. */
function u64(name, value) {
  if (typeof value === 'number' && Number.isSafeInteger(value) && value >= 0) return BigInt(value);
  if (typeof value !== 'bigint' && typeof value !== 'number') throw wanted(name, 'a number or a bigint', value);
  if (typeof value === 'number') throw new RangeError(`${name} must be a whole number from 0 to 2^53 - 1, or a bigint, not ${value}`);
  if (value < 0n || value > 0xffffffffffffffffn) throw new RangeError(`${name} must be from 0 to 2^64 - 1, not ${value}`);
  return value;
}

function flag(name, value) {
  if (value === undefined) return false;
  if (typeof value !== 'boolean') throw wanted(name, 'a boolean', value);
  return value;
}

function object(name, value) {
  if (typeof value !== 'object' || value === null) throw wanted(name, 'an object', value);
  return value;
}

/** The number of a case, that of the first one if there is none. */
function one(name, value, group) {
  if (value === undefined) return Object.values(group)[0];
  if (typeof value !== 'string') throw wanted(name, 'a string', value);
  if (!Object.hasOwn(group, value)) throw new RangeError(`${name} must be one of ${Object.keys(group).join(', ')}, not ${value.slice(0, 100)}`);
  return group[value];
}

function pairs(name, value) {
  if (value === undefined) return [];
  if (!Array.isArray(value)) throw wanted(name, 'an array of pairs', value);
  return value.map((pair) => {
    if (!Array.isArray(pair) || pair.length !== 2) throw wanted(`each of ${name}`, 'a pair of strings', pair);
    return [text(`a key of ${name}`, pair[0]), text(`a value of ${name}`, pair[1])];
  });
}

/** Bytes, or a failure. */
function value(name, it) {
  if (it instanceof Uint8Array) return { is_failure: false, code: 0, bytes: it, metadata: [] };
  if (typeof it !== 'object' || it === null) throw wanted(name, 'a Uint8Array or a failure', it);
  const metadata = pairs(`${name}.metadata`, it.metadata);
  return { is_failure: true, code: code(`${name}.code`, it.code), bytes: text(`${name}.message`, it.message), metadata };
}

function target(it) {
  object('target', it);
  const made = { service: text('service', it.service), handler: text('handler', it.handler), headers: pairs('headers', it.headers) };
  made.key = optional('key', it.key);
  made.idempotency_key = optional('idempotencyKey', it.idempotencyKey);
  made.scope = optional('scope', it.scope);
  made.limit_key = optional('limitKey', it.limitKey);
  return made;
}

function invocation(it) {
  object('target', it);
  const none = { key: '', handler: '', service_key: undefined, scope: optional('target.scope', it.scope) };
  if (it.invocationId !== undefined) return { ...none, kind: NUMBERS.TARGET_INVOCATION_ID, name: text('target.invocationId', it.invocationId) };
  if (it.workflow !== undefined) {
    return { ...none, kind: NUMBERS.TARGET_WORKFLOW_ID, name: text('target.workflow', it.workflow), key: text('target.key', it.key) };
  }
  if (it.service === undefined) throw new TypeError('target must have an invocationId, a workflow or a service');
  const called = { name: text('target.service', it.service), handler: text('target.handler', it.handler) };
  const keys = { key: text('target.idempotencyKey', it.idempotencyKey), service_key: optional('target.serviceKey', it.serviceKey) };
  return { ...none, kind: NUMBERS.TARGET_IDEMPOTENCY_ID, ...called, ...keys };
}

function error(name, it) {
  object(name, it);
  const delay = it.nextRetryDelayMillis;
  return {
    code: code(`${name}.code`, it.code),
    behavior: one(`${name}.behavior`, it.behavior, abi.ErrorBehavior),
    message: text(`${name}.message`, it.message),
    stacktrace: optional(`${name}.stacktrace`, it.stacktrace) ?? '',
    has_delay: delay !== undefined,
    delay_millis: delay === undefined ? 0n : u64(`${name}.nextRetryDelayMillis`, delay),
  };
}

function command(it) {
  if (it === undefined) return { kind: NUMBERS.RELATED_TO_NONE, index: 0, type: 0, name: undefined };
  if (it === 'last') return { kind: NUMBERS.RELATED_TO_LAST, index: 0, type: 0, name: undefined };
  if (typeof it === 'string') throw new RangeError(`related must be 'last' or an object, not ${it.slice(0, 100)}`);
  object('related', it);
  if (it.type === undefined) throw wanted('related.type', 'a string', it.type);
  const made = { index: 0, type: one('related.type', it.type, abi.CommandType), name: optional('related.name', it.name) };
  if (it.index === undefined) return { ...made, kind: NUMBERS.RELATED_TO_NEXT };
  return { ...made, kind: NUMBERS.RELATED_TO_SPECIFIC, index: u32('related.index', it.index) };
}

const POLICIES = {
  infinite: NUMBERS.POLICY_INFINITE,
  none: NUMBERS.POLICY_NONE,
  fixedDelay: NUMBERS.POLICY_FIXED_DELAY,
  exponential: NUMBERS.POLICY_EXPONENTIAL,
};

/** A numerator and a denominator. */
function factor(name, it) {
  if (!Array.isArray(it) || it.length !== 2) throw wanted(name, 'a pair of numbers', it);
  return it.map((of, at) => u32(`the ${['numerator', 'denominator'][at]} of ${name}`, of));
}

function policy(it = { kind: 'infinite' }) {
  object('policy', it);
  const may = (name, read, none) => (it[name] === undefined ? none : read(`policy.${name}`, it[name]));
  const kind = one('policy.kind', it.kind, POLICIES);
  const grows = kind === NUMBERS.POLICY_EXPONENTIAL;
  if (grows && it.factor === undefined) throw wanted('policy.factor', 'a pair of numbers', it.factor);
  const [numerator, denominator] = may('factor', factor, [0, 0]);
  if (grows && denominator === 0) throw new RangeError('the denominator of policy.factor must be from 1 to 4294967295, not 0');
  return {
    kind,
    initial_millis: may('initialMillis', u64, 0n),
    numerator,
    denominator,
    has_interval: it.intervalMillis !== undefined,
    interval_millis: may('intervalMillis', u64, 0n),
    has_attempts: it.maxAttempts !== undefined,
    attempts: may('maxAttempts', u32, 0),
    has_duration: it.maxDurationMillis !== undefined,
    duration_millis: may('maxDurationMillis', u64, 0n),
    pauses: flag('policy.pauses', it.pauses),
  };
}

const OPTIONS = {
  implicitCancellation: ['cancellation', abi.ImplicitCancellation],
  nonDeterministicChecks: ['checks', abi.NonDeterministicChecks],
  awaitingOnPolicy: ['awaiting', abi.AwaitingOnPolicy],
  journalMismatchRetryBehavior: ['mismatch', abi.JournalMismatchRetryBehavior],
  journalReplay: ['replay', abi.JournalReplay],
  signalDelivery: ['delivery', abi.SignalDelivery],
};

function options(it = {}) {
  object('options', it);
  const names = [...Object.keys(OPTIONS), 'fallbackRandomSeed'];
  for (const name of Object.keys(it)) if (!names.includes(name)) throw new TypeError(`VM has no option ${name}; its options are ${names.join(', ')}`);
  const made = { seed: it.fallbackRandomSeed === undefined ? 0n : u64('fallbackRandomSeed', it.fallbackRandomSeed) };
  for (const [name, [field, group]] of Object.entries(OPTIONS)) made[field] = one(name, it[name], group);
  return made;
}

module.exports = { bytes, command, error, flag, invocation, object, optional, options, pairs, policy, target, text, u32, u64, value, version, wanted };
