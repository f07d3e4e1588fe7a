/** Values as bytes: arguments, results and state are JSON in UTF-8, and no bytes stand for null. What JSON can't carry is refused by name. */

import { BadName, BadValue, TerminalError, said } from './errors';

/** Reads a value as the type that is wanted, or throws. */
export type Parse<T> = (value: unknown) => T;

/** Bytes of a name or a key in UTF-8, at most. */
export const LONGEST_NAME = 1000;
/** Bytes of an argument from outside, at most, unless a setting says another number. */
export const PAYLOAD = 4 << 20;

const UTF8 = new TextDecoder('utf-8', { fatal: true });
const LONG_NUMBER = /\d{16}/;
const EMPTY: Uint8Array = Buffer.alloc(0);

function shown(name: string): string {
  return /^[A-Za-z_$][\w$]*$/.test(name) ? `.${name}` : `[${JSON.stringify(name).slice(0, 60)}]`;
}

function typeOf(value: object): string {
  const prototype: unknown = Object.getPrototypeOf(value);
  if (prototype === null || prototype === Object.prototype || Array.isArray(value)) return '';
  const name: unknown = (value as { constructor?: { name?: unknown } }).constructor?.name;
  return typeof name === 'string' ? name : 'object';
}

const NO_JSON = new Set(['Map', 'Set', 'WeakMap', 'WeakSet', 'RegExp', 'Promise', 'ArrayBuffer', 'SharedArrayBuffer', 'DataView', 'Error']);

function refusal(path: string, what: string): BadValue {
  return new BadValue(`${path === '' ? 'the value' : `the value at ${path}`} is ${what}, which JSON can't carry`);
}

/** Refuses what `JSON.stringify` would leave out or change without a word. A property that is undefined is left out, as in JavaScript. */
function checked(value: unknown, path: string, above: Set<object>): void {
  switch (typeof value) {
    case 'bigint':
      throw refusal(path, `the BigInt ${value}`);
    case 'function':
      throw refusal(path, 'a function');
    case 'symbol':
      throw refusal(path, 'a symbol');
    case 'undefined':
      throw refusal(path, 'undefined');
    case 'number':
      if (!Number.isFinite(value)) throw refusal(path, `${value}`);
      return;
    case 'string':
      if (/\p{Surrogate}/u.test(value)) throw refusal(path, 'a text with half of a surrogate pair');
      return;
    case 'object':
      if (value !== null) checkedObject(value, path, above);
  }
}

function checkedObject(value: object, path: string, above: Set<object>): void {
  if (above.has(value)) throw refusal(path, 'an object within itself');
  const own: unknown = (value as { toJSON?: unknown }).toJSON;
  const type = typeOf(value);
  if (typeof own === 'function') {
    if (value instanceof Date && Number.isNaN(value.getTime())) throw refusal(path, 'a date that is none');
    return;
  }
  if (typeof (value as { then?: unknown }).then === 'function') throw refusal(path, 'a promise (await it first)');
  if (NO_JSON.has(type) || ArrayBuffer.isView(value) || value instanceof Error) throw refusal(path, `of type ${type}`);
  above.add(value);
  if (Array.isArray(value)) {
    for (let at = 0; at < value.length; at++) checked(value[at], `${path}[${at}]`, above);
  } else {
    for (const [name, it] of Object.entries(value)) if (it !== undefined) checked(it, `${path}${shown(name)}`, above);
  }
  above.delete(value);
}

/** A value's bytes. Throws a `BadValue` that names what JSON can't carry, and where it stands. */
export function encoded(value: unknown): Uint8Array {
  if (value === undefined || value === null) return EMPTY;
  try {
    checked(value, '', new Set());
    const text = JSON.stringify(value);
    if (text === undefined) throw refusal('', 'nothing by its own toJSON');
    return Buffer.from(text, 'utf8');
  } catch (error) {
    if (error instanceof BadValue) throw error;
    const why = error instanceof RangeError ? 'it is nested too deep' : said(error);
    throw new BadValue(`the value can't be written as JSON: ${why}`);
  }
}

/** Refuses a whole number that JavaScript would round. */
function exact(text: string): void {
  const within = text.replace(/"(?:[^"\\]|\\.)*"/g, '""');
  for (const number of within.match(/-?\d+(?:\.\d+)?(?:[eE][-+]?\d+)?/g) ?? []) {
    if (/^-?\d+$/.test(number) && !Number.isSafeInteger(Number(number))) throw new BadValue(`the number ${number.slice(0, 40)} is greater than JavaScript's numbers are exact`);
  }
}

/** The value of these bytes. Throws a `BadValue` if they are no JSON, or `parse` refuses it. */
export function decoded<T>(data: Uint8Array, parse?: Parse<T>): T {
  try {
    const text = UTF8.decode(data);
    if (LONG_NUMBER.test(text)) exact(text);
    const value: unknown = text === '' ? null : JSON.parse(text);
    return parse === undefined ? (value as T) : parse(value);
  } catch (error) {
    if (error instanceof BadValue) throw error;
    throw new BadValue(said(error));
  }
}

/** Throws a `BadName` if this can't be part of a key of the database. */
export function checkName(what: string, name: unknown): asserts name is string {
  if (typeof name !== 'string') throw new BadName(`${what} is a text, and not ${name === null ? 'null' : typeof name}`);
  if (/\p{Surrogate}/u.test(name)) throw new BadName(`${what} has half of a surrogate pair, and so no UTF-8`);
  const length = Buffer.byteLength(name);
  if (length > LONGEST_NAME) throw new BadName(`${what} has ${length} bytes in UTF-8, and ${LONGEST_NAME} are allowed`);
  if (name.includes('\0')) throw new BadName(`${what} has the character NUL: a name has at most ${LONGEST_NAME} bytes in UTF-8, and no NUL`);
}

/** Throws a `BadName` if no invocation can have this id. */
export function checkId(id: unknown): asserts id is string {
  checkName("the invocation's id", id);
}

/** The text of an attribute's value; null takes it away. Throws a `TerminalError` with code 400 for a name or a value that is none. */
export function attributeOf(name: unknown, value: unknown): string | null {
  checkName('the name of an attribute', name);
  if (name === '' || /[=&]/.test(name)) throw new TerminalError(`the name of an attribute is a text without = and &, and not ${JSON.stringify(name).slice(0, 100)}`, 400);
  if (value === null) return null;
  if (!['string', 'number', 'boolean'].includes(typeof value)) throw new TerminalError(`the attribute ${name} is a text, a number, a boolean or null, and not of type ${typeof value}`, 400);
  const said = String(value);
  checkName(`the attribute ${name}`, said);
  return said;
}

/** Throws a `TerminalError` with code 413 if a value has too many bytes. */
export function checkPayload(what: string, size: number, most = PAYLOAD): void {
  if (size > most) throw new TerminalError(`${what} has ${size} bytes, and may have ${most}`, 413);
}
