/** Calls whose idempotency key is that of an invocation which is there: each is that invocation again, if its argument is the same. */

import { frames } from 'palqytun';
import { BadValue, TerminalError } from './errors';
import { Unreadable } from './sealing';
import type { Codec } from './sealing';
import type { Statements } from './tables';

/** Whether these are one value, however it is written. What is encrypted by a key that isn't there can't be told apart, and is the same. */
function isSame(codec: Codec, one: Uint8Array, other: Uint8Array): boolean {
  if (Buffer.compare(one, other) === 0) return true;
  try {
    return areEqual(codec.decode(one), codec.decode(other));
  } catch (error) {
    if (error instanceof Unreadable) return true;
    if (error instanceof BadValue) return false;
    throw error;
  }
}

function isObject(it: unknown): it is Record<string, unknown> {
  return typeof it === 'object' && it !== null;
}

/** Equality of values that JSON has, which may be nested deeper than calls go. */
function areEqual(first: unknown, second: unknown): boolean {
  const pairs: [unknown, unknown][] = [[first, second]];
  for (let pair = pairs.pop(); pair !== undefined; pair = pairs.pop()) {
    const [one, other] = pair;
    if (!isObject(one) || !isObject(other)) {
      if (one !== other) return false;
      continue;
    }
    const names = Object.keys(one);
    if (Array.isArray(one) !== Array.isArray(other) || names.length !== Object.keys(other).length) return false;
    for (const name of names) {
      if (!Object.hasOwn(other, name)) return false;
      pairs.push([one[name], other[name]]);
    }
  }
  return true;
}

/** Throws a `TerminalError` with code 409 if the invocation that has this idempotency key was called with another argument. */
export async function checkSame(to: Statements, codec: Codec, id: string, key: string, argument: Uint8Array): Promise<void> {
  const input = (await to.rows('called', { id }))[0]?.[0] as Uint8Array | undefined;
  if (input === undefined || isSame(codec, new frames.Message(input).part(0) ?? new Uint8Array(), argument)) return;
  throw new TerminalError(`the idempotency key '${key.slice(0, 200)}' is that of ${id}, which was called with another argument`, 409);
}
