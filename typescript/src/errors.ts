/** What handlers raise and catch, and errors as text. */

export type Pair = readonly [name: string, value: string];

/**
 * Ends the handler with a failure; nothing is tried again. A failed call, promise or signal raises it. `code` is a whole number from 0 to 65535, and
 * `metadata` has texts by their names.
 */
export class TerminalError extends Error {
  readonly code: number;
  readonly metadata: readonly Pair[];

  constructor(message: string, code = 500, metadata: Readonly<Record<string, string>> | readonly Pair[] = []) {
    super(wellFormed(typeof message === 'string' ? message : said(message)));
    this.name = new.target.name;
    if (!Number.isInteger(code) || code < 0 || code > 0xffff) throw new RangeError(`a failure's code must be a whole number from 0 to 65535, not ${shown(code)}`);
    this.code = code;
    const pairs = Array.isArray(metadata) ? (metadata as readonly Pair[]) : Object.entries(metadata);
    this.metadata = pairs.map(([name, value]) => [wellFormed(String(name)), wellFormed(String(value))] as const);
  }
}

/**
 * A name, a key or an id that no database can have: it has more than 1,000 bytes in UTF-8, a NUL, or half of a surrogate pair. Nothing was asked of the
 * database. Its code is 400.
 */
export class BadName extends TerminalError {
  constructor(why: string) {
    super(why, 400);
  }
}

/**
 * The database can't be used now. Whether the call was stored isn't known: ask again, with an idempotency key. Its code is 503.
 */
export class Unavailable extends TerminalError {
  constructor(why: string) {
    super(why, 503);
  }
}

/** The invocation was cancelled. What the handler does then, as undoing what it did, is its own. */
export class Cancelled extends TerminalError {
  constructor(message = 'cancelled') {
    super(message, 409);
  }
}

/** What was awaited didn't come in its time. */
export class TimedOut extends TerminalError {
  constructor(message = 'it took too long') {
    super(message, 408);
  }
}

/** The context is used outside the handler's own code, as within a run. The invocation is paused: no retry helps. */
export class OutsideHandler extends Error {
  override readonly name = 'OutsideHandler';
}

/** A handler awaits something else than what its context gave it. */
export class NotDurable extends Error {
  override readonly name = 'NotDurable';
}

/** The attempt is over, or the core has refused a call. Nothing that the handler does from here on counts. */
export class AttemptEnds extends Error {
  override readonly name = 'AttemptEnds';
}

/** The handler ends, and a new invocation goes on in the place of its own. */
export class ContinuedAsNew extends Error {
  override readonly name = 'ContinuedAsNew';

  constructor(readonly argument: Uint8Array) {
    super('ctx.continueAsNew ends the handler: whoever catches this has to throw it again');
  }
}

/** A value that JSON can't carry, or that isn't what is wanted. */
export class BadValue extends Error {
  override readonly name = 'BadValue';
}

/** The database can't be used as it is set up: the text says what to do. */
export class Unsuitable extends Error {
  override readonly name = 'Unsuitable';
}

const MOST_SAID = 4_000;
const MOST_TRACED = 20_000;
const LONE = /\p{Surrogate}/gu;

/** The text, with escapes instead of lone halves of surrogate pairs. */
export function wellFormed(text: string): string {
  return text.replace(LONE, (it) => `\\u${it.charCodeAt(0).toString(16)}`);
}

/** A text that the database can store: without NUL, and well formed. */
export function storable(text: string): string {
  return wellFormed(text).replaceAll('\0', '\\0');
}

function short(text: string, most: number): string {
  return text.length <= most ? text : `${text.slice(0, most / 2)} .. ${text.slice(-most / 2)}`;
}

/** An argument in the error that refuses it: a string in quotes, a number as it is, and of other values the type. */
export function shown(value: unknown): string {
  if (typeof value === 'string') return JSON.stringify(value.slice(0, 200));
  if (typeof value === 'number' || typeof value === 'bigint' || typeof value === 'boolean') return String(value);
  return value === null ? 'null' : Array.isArray(value) ? 'an array' : typeof value;
}

/** Refuses what is no address of a PostgreSQL database. */
export function checkUrl(url: unknown): void {
  if (typeof url !== 'string' || !/^postgres(ql)?:\/\//.test(url)) throw new TypeError(`url must be that of a PostgreSQL database, as postgresql://.., not ${shown(url)}`);
}

/** What something that was thrown says. It is text for each value, also for one whose own text can't be made. */
export function said(thrown: unknown): string {
  try {
    const text = thrown instanceof Error ? `${thrown.name}: ${thrown.message}` : `${typeof thrown} ${String(thrown)}`;
    return storable(short(text, MOST_SAID));
  } catch {
    return 'what was thrown has no text: its own code raises an error';
  }
}

/** The stack of something that was thrown; empty if it has none. */
export function traced(thrown: unknown): string {
  try {
    const stack = thrown instanceof Error ? thrown.stack : undefined;
    return typeof stack === 'string' ? storable(short(stack, MOST_TRACED)) : '';
  } catch {
    return '';
  }
}

const FRAME = /^\s+at .*?([^()\s]*?)([^/\\()\s]+):(\d+):\d+\)?$/gm;

/** The line of a user's code in a stack, as `shop.js:95`; undefined if no such line is there. */
export function placeOf(stack: string): string | undefined {
  for (const [, folder = '', file, line] of stack.matchAll(FRAME)) {
    const isOurs = folder.startsWith('node:') || folder === `${__dirname}/` || folder.includes('/node_modules/');
    if (!isOurs && folder !== '') return `${file}:${line}`;
  }
  return undefined;
}

/** Whether a thrown value is of a class. A proxy may throw when it is asked. */
export function isOf<T>(thrown: unknown, kind: abstract new (...given: never[]) => T): thrown is T {
  try {
    return thrown instanceof kind;
  } catch {
    return false;
  }
}
