// The addon, and the library that it loads.
'use strict';

const path = require('node:path');
const { LoadError, StatusError, caseOf, refusal } = require('./errors');
const { ErrorBehavior, NUMBERS } = require('./abi');

const FILE = path.join(__dirname, '..', 'build', 'palqytun.node');

let found;

/** The addon, once the library is loaded. Raises a LoadError that names the path that was looked for. */
function addon() {
  if (found) return found;
  let made;
  try {
    made = require(FILE);
  } catch (error) {
    throw new LoadError(FILE, `${FILE}: the addon can't be loaded: ${error.message}: node build.js, in the folder of this package, makes it`);
  }
  const said = made.load();
  if (said !== null) throw new LoadError(said.split(': ', 1)[0], said);
  found = made;
  return made;
}

/** The bytes that a call returned, or the error of its status. */
function written(bytes) {
  if (typeof bytes === 'number') throw new StatusError(bytes);
  return bytes;
}

/** Raises the error of a status that isn't done. */
function done(status) {
  if (status !== NUMBERS.DONE) throw new StatusError(status);
}

/** A part of the last reply; undefined if there is none. */
function part(it, session, at) {
  const bytes = it.part(session, at);
  return bytes === NUMBERS.NO_PART ? undefined : written(bytes);
}

function text(it, session, at) {
  const bytes = part(it, session, at);
  return bytes === undefined ? undefined : bytes.toString('utf8');
}

function pairs(it, session, first, rows) {
  return Array.from({ length: rows }, (_, row) => [text(it, session, first + 2 * row), text(it, session, first + 2 * row + 1)]);
}

/**
 * The reply to a call: `[status, kind, first, second, third, low, high, rows]`. An error is raised, which may be one that was handed in. Of one by which a VM
 * has failed `differs` says in what the call isn't as recorded.
 */
function made(it, session, status, isHandedIn = false, differs = () => undefined) {
  if (status === NUMBERS.DONE) return it.reply;
  if (status !== NUMBERS.REFUSED) throw new StatusError(status);
  const [, kind, isRelated, index, type, code] = it.reply;
  const [message, stacktrace, name] = [0, 1, 2].map((at) => text(it, session, at) ?? '');
  const retry = it.next_retry(session);
  const after = { behavior: caseOf(ErrorBehavior, retry.behavior), nextRetryDelayMillis: retry.has_delay === 1 ? retry.delay_millis : undefined };
  const related = isRelated ? { index, type, name } : undefined;
  const difference = kind === NUMBERS.ERROR ? differs(message, related) : undefined;
  throw refusal(kind, code, message, stacktrace, related, { difference, ...after }, isHandedIn);
}

module.exports = { addon, done, made, pairs, part, text, written };
