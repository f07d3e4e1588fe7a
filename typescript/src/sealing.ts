/**
 * How values are bytes: JSON, or JSON that is encrypted. Arguments, results, states, progress, and the texts of failures and errors are encrypted as Python's
 * `Sealed(JsonCodec(), ..)` does it, so workers of both languages read each other's.
 */

import { BadValue } from './errors';
import { Siv } from './siv';
import { decoded, encoded } from './values';
import type { Parse } from './values';

/** A value's key isn't there. The attempt fails, and is tried again. */
export class Unreadable extends Error {
  override readonly name = 'Unreadable';
}

export interface Codec {
  encode(value: unknown): Uint8Array;
  /** Throws a `BadValue` for what can't be read or `parse` refuses, and an `Unreadable` for a key that isn't there. */
  decode<T>(data: Uint8Array, parse?: Parse<T>): T;
  /** A text as it is stored: of a failure, or of a stack. */
  text(clear: string): string;
  /** A stored text in clear, as far as there are the keys. */
  clear(stored: string): string;
  /** A value as new ones are written. */
  renewed(data: Uint8Array): Uint8Array;
  /** The codec of an invocation whose argument this is. */
  like(argument: Uint8Array): Codec;
}

/** Values as JSON in clear. */
export const JSON_CODEC: Codec = {
  encode: encoded, decode: decoded, text: (clear) => clear, clear: (stored) => stored, renewed: (data) => data, like: () => JSON_CODEC,
}; // prettier-ignore

/** What an error says: the name of its type stays in clear. */
export function sealedError(codec: Codec, said: string): string {
  const at = said.indexOf(': ');
  return at < 0 ? said : said.slice(0, at + 2) + codec.text(said.slice(at + 2));
}

const FORM = /sealed:([\w.-]{1,64}):([\w-]+)/g;
const WHOLE = /^sealed:([\w.-]{1,64}):([\w-]+)$/;
const NAME = /^[\w.-]{1,64}$/;
const LENGTHS = [32, 48, 64]; // bytes of a key
const LONGEST_FORM = 128; // characters before the secret

function formIn(data: Uint8Array): { id: string; secret: string } | undefined {
  const text = Buffer.from(data.buffer as ArrayBuffer, data.byteOffset, data.byteLength).toString('latin1');
  const found = text.slice(0, LONGEST_FORM).startsWith('sealed:') ? WHOLE.exec(text) : null;
  return found === null ? undefined : { id: found[1] ?? '', secret: found[2] ?? '' };
}

/**
 * Encrypts by AES-SIV, which keeps values secret and shows only that equal ones are equal: an attempt has to write the same bytes as the one before. `keys` are
 * those by which values are encrypted, by their ids: 32, 48 or 64 random bytes each. What is new is encrypted by the key `newest`; the others are for what is
 * there.
 *
 * To rotate keys, give all workers and clients the new one, and then name it as the newest. Take an old one away once nothing has it any more. A value that
 * isn't encrypted, since it was written before, is read as it is, and its invocation goes on so.
 */
export class Sealed implements Codec {
  readonly #ciphers: ReadonlyMap<string, Siv>;

  /** Throws a `RangeError` for a key or an id that is none. */
  constructor(private readonly keys: Readonly<Record<string, Uint8Array>>, readonly newest: string) {
    for (const [id, key] of Object.entries(keys)) {
      if (NAME.test(id) && key instanceof Uint8Array && LENGTHS.includes(key.length)) continue;
      throw new RangeError(`the key '${id.slice(0, 64)}' has ${key?.length} bytes: a key has 32, 48 or 64, and its id at most 64 letters, digits, -, _ and .`);
    }
    if (!Object.hasOwn(keys, newest)) throw new RangeError(`the newest key is '${String(newest).slice(0, 64)}', and there are ${Object.keys(keys).join(', ') || 'none'}`);
    this.#ciphers = new Map(Object.entries(keys).map(([id, key]) => [id, new Siv(key)]));
  }

  // ---- values

  encode(value: unknown): Uint8Array {
    return this.#sealed(encoded(value));
  }

  decode<T>(data: Uint8Array, parse?: Parse<T>): T {
    return decoded(this.#opened(data), parse);
  }

  #sealed(data: Uint8Array): Uint8Array {
    if (data.length === 0) return data; // null, which says nothing
    const secret = this.#ciphers.get(this.newest)?.encrypt(data, [Buffer.from(this.newest)]);
    return Buffer.from(`sealed:${this.newest}:${secret?.toString('base64url')}`);
  }

  #opened(data: Uint8Array): Uint8Array {
    const found = formIn(data);
    return found === undefined ? data : this.#open(found.id, found.secret);
  }

  #open(id: string, secret: string): Uint8Array {
    const cipher = this.#ciphers.get(id);
    if (cipher === undefined) throw new Unreadable(`it is encrypted by the key ${id}, and there are ${[...this.#ciphers.keys()].join(', ')}`);
    const text = cipher.decrypt(Buffer.from(secret, 'base64url'), [Buffer.from(id)]);
    if (text === undefined) throw new BadValue(`it isn't what the key ${id} has written`);
    return text;
  }

  renewed(data: Uint8Array): Uint8Array {
    try {
      return this.#sealed(this.#opened(data));
    } catch {
      return data; // its key isn't known, so it stays as it is
    }
  }

  like(argument: Uint8Array): Codec {
    const found = formIn(argument);
    if (found === undefined) return argument.length === 0 ? this : new Open(this);
    return found.id === this.newest || !this.#ciphers.has(found.id) ? this : new Sealed(this.keys, found.id);
  }

  // ---- texts

  text(clear: string): string {
    return Buffer.from(this.#sealed(Buffer.from(clear))).toString();
  }

  clear(stored: string): string {
    return stored.replace(FORM, (all, id: string, secret: string) => {
      try {
        return Buffer.from(this.#open(id, secret)).toString();
      } catch {
        return all;
      }
    });
  }
}

/** The codec of an invocation that began without encryption: it writes as it did, and reads both. */
class Open implements Codec {
  constructor(private readonly sealed: Sealed) {}

  encode(value: unknown): Uint8Array {
    return encoded(value);
  }

  decode<T>(data: Uint8Array, parse?: Parse<T>): T {
    return this.sealed.decode(data, parse);
  }

  text(clear: string): string {
    return clear;
  }

  clear(stored: string): string {
    return this.sealed.clear(stored);
  }

  renewed(data: Uint8Array): Uint8Array {
    return this.sealed.renewed(data);
  }

  like(argument: Uint8Array): Codec {
    return this.sealed.like(argument);
  }
}
