// What a call fails by.
'use strict';

const { MessageType, NUMBERS, STATUSES } = require('./abi');

/** The shared object, or the addon, can't be used. */
class LoadError extends Error {
  constructor(path, message) {
    super(message);
    this.name = 'LoadError';
    this.path = path;
  }
}

/** A call wasn't made, and this is why. */
class StatusError extends Error {
  constructor(number) {
    const [status, said] = STATUSES[number] ?? [`${number}`, 'the library returned a status that it has not'];
    super(`${status}: ${said}`);
    this.name = 'StatusError';
    this.status = status;
  }
}

/** The codes of the VM's own errors, and their names. */
const Code = Object.freeze(Object.fromEntries(Object.entries(NUMBERS).flatMap(([name, it]) => (name.startsWith('CODE_') ? [[name.slice(5), it]] : []))));
const NAMES = Object.fromEntries(Object.entries(Code).map(([name, it]) => [it, name]));
const CONTENT_TYPES = `the content type must be application/vnd.restate.invocation.vN with N from ${NUMBERS.MINIMUM_VERSION} to ${NUMBERS.MAXIMUM_VERSION}`;

/** What an error says: its code, with its name if the error is the VM's own, its text, what is allowed, and in what the call isn't as recorded or the
 * command that it relates to. */
function described({ code, text, related, difference, isOwn }, names) {
  const named = isOwn && code in NAMES && NAMES[code] !== text ? `${code} ${NAMES[code]}:` : `${code}`;
  const said = isOwn && code === NUMBERS.CODE_INTERNAL && text === '' ? STATUSES[NUMBERS.NO_MEMORY][1] : text;
  const allowed = isOwn && code === NUMBERS.CODE_UNSUPPORTED_MEDIA_TYPE ? ` (${CONTENT_TYPES})` : '';
  if (difference) return `${named} ${said}${allowed}: ${difference.inWords(names)}`;
  return `${named} ${said}${allowed}${related ? ` (command ${related.index}: ${related.type} "${related.name}")` : ''}`;
}

/** The VM refused a call. */
class VMError extends Error {
  #isOwn;

  constructor(code, text, stacktrace, related, { difference, behavior, nextRetryDelayMillis }, isOwn) {
    super(described({ code, text, related, difference, isOwn }));
    this.name = new.target.name;
    this.code = code;
    this.text = text;
    this.stacktrace = stacktrace;
    this.related = related;
    this.behavior = behavior;
    this.nextRetryDelayMillis = nextRetryDelayMillis;
    this.difference = difference;
    this.#isOwn = isOwn;
  }

  inWords(names) {
    const { code, text, related, difference } = this;
    return described({ code, text, related, difference, isOwn: this.#isOwn }, names);
  }
}

/** The invocation is suspended. */
class Suspended extends VMError {}

/** The handler has ended. */
class Closed extends VMError {}

/** The handler makes another call than the journal has recorded. */
class JournalMismatch extends VMError {}

const CLASSES = { [NUMBERS.CODE_CLOSED]: Closed, [NUMBERS.CODE_JOURNAL_MISMATCH]: JournalMismatch };

/** The case of a number. */
function caseOf(group, number) {
  return Object.keys(group).find((it) => group[it] === number) ?? `${number}`;
}

/** The class of an error. The code of one that was handed in may be any, and says nothing of the VM; no such one is of a suspension's kind. */
function classOf(kind, code, isHandedIn) {
  if (kind === NUMBERS.SUSPENDED) return Suspended;
  return isHandedIn ? VMError : (CLASSES[code] ?? VMError);
}

function refusal(kind, code, text, stacktrace, related, more, isHandedIn) {
  const known = related && { index: related.index, type: caseOf(MessageType, related.type), name: related.name };
  const made = classOf(kind, code, isHandedIn);
  return new made(code, text, stacktrace, known, more, !isHandedIn);
}

module.exports = { Closed, Code, JournalMismatch, LoadError, StatusError, Suspended, VMError, caseOf, refusal };
