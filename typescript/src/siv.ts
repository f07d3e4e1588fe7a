/** AES-SIV (RFC 5297): encryption that gives the same bytes for the same text, and notices each change. Node's own ciphers have AES alone. */

import { createCipheriv, createDecipheriv, timingSafeEqual } from 'node:crypto';

const BLOCK = 16;
const ZERO = Buffer.alloc(BLOCK);

function xored(one: Uint8Array, other: Uint8Array): Buffer {
  return Buffer.from(one.map((byte, at) => byte ^ (other[at] ?? 0)));
}

/** Twice an element of the field: shifted by a bit, and reduced. */
function doubled(block: Uint8Array): Buffer {
  const found = Buffer.from(block.map((byte, at) => ((byte << 1) | ((block[at + 1] ?? 0) >> 7)) & 0xff));
  if ((block[0] ?? 0) >= 0x80) found[BLOCK - 1]! ^= 0x87;
  return found;
}

/** A block that isn't full, with a bit after its text and then zeros. */
function padded(text: Uint8Array): Buffer {
  return Buffer.concat([text, Buffer.from([0x80]), ZERO.subarray(0, BLOCK - 1 - text.length)]);
}

export class Siv {
  readonly #mac: Buffer;
  readonly #key: Buffer;

  /** A key of 32, 48 or 64 bytes: the first half authenticates, and the second encrypts. */
  constructor(key: Uint8Array) {
    const half = key.length / 2;
    [this.#mac, this.#key] = [Buffer.from(key.slice(0, half)), Buffer.from(key.slice(half))];
  }

  /** AES-CMAC: the last block of a chain over the text, whose end is mixed with a mask. */
  #cmac(text: Uint8Array): Buffer {
    const first = doubled(this.#chained(ZERO));
    const at = text.length === 0 ? 0 : (Math.ceil(text.length / BLOCK) - 1) * BLOCK;
    const rest = text.slice(at);
    const last = rest.length === BLOCK ? xored(rest, first) : xored(padded(rest), doubled(first));
    return this.#chained(Buffer.concat([text.slice(0, at), last]));
  }

  #chained(text: Uint8Array): Buffer {
    const cipher = createCipheriv(`aes-${this.#mac.length * 8}-cbc`, this.#mac, ZERO).setAutoPadding(false);
    return Buffer.concat([cipher.update(text), cipher.final()]).subarray(-BLOCK);
  }

  /** The synthetic IV of a text and what belongs to it. */
  #iv(text: Uint8Array, beside: readonly Uint8Array[]): Buffer {
    let sum = this.#cmac(ZERO);
    for (const it of beside) sum = xored(doubled(sum), this.#cmac(it));
    if (text.length < BLOCK) return this.#cmac(xored(doubled(sum), padded(text)));
    const at = text.length - BLOCK;
    return this.#cmac(Buffer.concat([text.slice(0, at), xored(text.slice(at), sum)]));
  }

  static #counter(iv: Uint8Array): Buffer {
    const found = Buffer.from(iv);
    found[8]! &= 0x7f;
    found[12]! &= 0x7f;
    return found;
  }

  encrypt(text: Uint8Array, beside: readonly Uint8Array[]): Buffer {
    const iv = this.#iv(text, beside);
    const cipher = createCipheriv(`aes-${this.#key.length * 8}-ctr`, this.#key, Siv.#counter(iv));
    return Buffer.concat([iv, cipher.update(text), cipher.final()]);
  }

  /** The text; undefined if this isn't what the key has written. */
  decrypt(secret: Uint8Array, beside: readonly Uint8Array[]): Buffer | undefined {
    if (secret.length < BLOCK) return undefined;
    const iv = secret.slice(0, BLOCK);
    const cipher = createDecipheriv(`aes-${this.#key.length * 8}-ctr`, this.#key, Siv.#counter(iv));
    const text = Buffer.concat([cipher.update(secret.slice(BLOCK)), cipher.final()]);
    return timingSafeEqual(this.#iv(text, beside), iv) ? text : undefined;
  }
}
