/**
 * BLAKE2b with short digests (RFC 7693), and what follows by it from an invocation's id: the ids of its calls, seeds and traces. Node has BLAKE2b
 * with digests of 64 bytes alone, and a shorter one isn't its beginning.
 */

const MASK = 0xffffffffffffffffn;
const INITIAL = [
  0x6a09e667f3bcc908n, 0xbb67ae8584caa73bn, 0x3c6ef372fe94f82bn, 0xa54ff53a5f1d36f1n,
  0x510e527fade682d1n, 0x9b05688c2b3e6c1fn, 0x1f83d9abfb41bd6bn, 0x5be0cd19137e2179n,
];
const SIGMA = [
  '0123456789abcdef', 'ea489fd61c02b753', 'b8c052fdae367194', '7931dcbe265a40f8', '905724afe1bc683d',
  '2c6a0b834d75fe19', 'c51fed4a0763928b', 'db7ec13950f4862a', '6fe9b308c2d714a5', 'a2847615fb9e3cd0',
].map((row) => Array.from(row, (digit) => parseInt(digit, 16)));
/** The places that each of a round's eight steps mixes. */
const MIXED = [
  [0, 4, 8, 12], [1, 5, 9, 13], [2, 6, 10, 14], [3, 7, 11, 15],
  [0, 5, 10, 15], [1, 6, 11, 12], [2, 7, 8, 13], [3, 4, 9, 14],
] as const;
const BLOCK = 128;

function turned(word: bigint, bits: bigint): bigint {
  return ((word >> bits) | (word << (64n - bits))) & MASK;
}

function compress(state: bigint[], block: DataView, count: number, isLast: boolean): void {
  const words = Array.from({ length: 16 }, (_, at) => block.getBigUint64(8 * at, true));
  const v = [...state, ...INITIAL];
  v[12]! ^= BigInt(count);
  if (isLast) v[14]! ^= MASK;
  for (let round = 0; round < 12; round++) {
    const order = SIGMA[round % 10]!;
    MIXED.forEach(([a, b, c, d], step) => {
      v[a] = (v[a]! + v[b]! + words[order[2 * step]!]!) & MASK;
      v[d] = turned(v[d]! ^ v[a]!, 32n);
      v[c] = (v[c]! + v[d]!) & MASK;
      v[b] = turned(v[b]! ^ v[c]!, 24n);
      v[a] = (v[a]! + v[b]! + words[order[2 * step + 1]!]!) & MASK;
      v[d] = turned(v[d]! ^ v[a]!, 16n);
      v[c] = (v[c]! + v[d]!) & MASK;
      v[b] = turned(v[b]! ^ v[c]!, 63n);
    });
  }
  for (let at = 0; at < 8; at++) state[at]! ^= v[at]! ^ v[at + 8]!;
}

/** The BLAKE2b of a text in UTF-8, of so many bytes. `person` has at most 16 characters of ASCII. */
export function blake2b(text: string, size: number, person = ''): Buffer {
  const parameters = new DataView(new ArrayBuffer(64));
  parameters.setUint32(0, 0x01010000 | size, true);
  Array.from(person).forEach((it, at) => parameters.setUint8(48 + at, it.charCodeAt(0)));
  const state = INITIAL.map((word, at) => word ^ parameters.getBigUint64(8 * at, true));
  const data = Buffer.from(text, 'utf8');
  const blocks = Math.max(1, Math.ceil(data.length / BLOCK));
  for (let at = 0; at < blocks; at++) {
    const block = new Uint8Array(BLOCK);
    block.set(data.subarray(at * BLOCK, (at + 1) * BLOCK));
    const isLast = at === blocks - 1;
    compress(state, new DataView(block.buffer), isLast ? data.length : (at + 1) * BLOCK, isLast);
  }
  const digest = new DataView(new ArrayBuffer(64));
  state.forEach((word, at) => digest.setBigUint64(8 * at, word, true));
  return Buffer.from(digest.buffer, 0, size);
}

/** The id of what a call makes. It follows from the call, so a call makes one invocation. */
export function idOfCall(caller: string, completion: number): string {
  return `inv_${blake2b(`${caller}/${completion}`, 12).toString('hex')}`;
}

/** The seed of the random numbers of an invocation that has this id by a call. */
export function seedOf(id: string): bigint {
  return blake2b(id, 7).reduce((seed, byte) => (seed << 8n) | BigInt(byte), 0n);
}

const TRACEPARENT = /^00-(?!0{32})[0-9a-f]{32}-(?!0{16})[0-9a-f]{16}-[0-9a-f]{2}$/;

/** The place of an invocation in a trace, by the W3C's header `traceparent`. */
export interface Trace {
  readonly traceId: string;
  readonly spanId: string;
  /** The header for what the invocation asks of others. */
  readonly header: string;
}

/** The header `traceparent`, if it is one; a wrong one is left out, as the W3C asks. */
export function checkedTrace(header: string | undefined): string | null {
  return header !== undefined && TRACEPARENT.test(header) ? header : null;
}

/** That of an invocation which was made with this header. Without one it begins a trace of its own. */
export function traceOf(invocation: string, header: string | null): Trace {
  const spanId = blake2b(invocation, 8, 'trace').toString('hex');
  const given = header !== null && TRACEPARENT.test(header) ? header.split('-') : undefined;
  const traceId = given?.[1] ?? blake2b(invocation, 16, 'trace').toString('hex');
  return { traceId, spanId, header: `00-${traceId}-${spanId}-${given?.[3] ?? '01'}` };
}
