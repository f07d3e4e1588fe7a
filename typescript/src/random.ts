/** Random numbers that are the same in each attempt: xoshiro128** by Blackman and Vigna, seeded by splitmix64. They are no secrets. */

const MASK = 0xffffffffffffffffn;

function turned(word: number, bits: number): number {
  return ((word << bits) | (word >>> (32 - bits))) >>> 0;
}

export class Random {
  #words: [number, number, number, number];

  /** `own` is asked before each number: it throws if the number isn't drawn in the handler's own code. */
  constructor(seed: bigint, private readonly own: () => void = () => undefined) {
    let state = seed & MASK;
    const word = (): bigint => {
      state = (state + 0x9e3779b97f4a7c15n) & MASK;
      let it = state;
      it = ((it ^ (it >> 30n)) * 0xbf58476d1ce4e5b9n) & MASK;
      it = ((it ^ (it >> 27n)) * 0x94d049bb133111ebn) & MASK;
      return it ^ (it >> 31n);
    };
    const [first, second] = [word(), word()];
    this.#words = [Number(first & 0xffffffffn), Number(first >> 32n), Number(second & 0xffffffffn), Number(second >> 32n)];
  }

  /** A whole number from 0 to 2^32 - 1. */
  uint32(): number {
    this.own();
    const [a, b, c, d] = this.#words;
    const drawn = Math.imul(turned(Math.imul(b, 5) >>> 0, 7), 9) >>> 0;
    const [third, fourth] = [c ^ a, d ^ b];
    this.#words = [(a ^ fourth) >>> 0, (b ^ third) >>> 0, (third ^ (b << 9)) >>> 0, turned(fourth >>> 0, 11)];
    return drawn;
  }

  /** A number from 0 to 1, without 1. */
  random(): number {
    return ((this.uint32() >>> 5) * 2 ** 26 + (this.uint32() >>> 6)) / 2 ** 53;
  }

  /** A UUID of version 4. */
  uuid(): string {
    const hex = Array.from({ length: 4 }, () => this.uint32().toString(16).padStart(8, '0')).join('');
    const variant = '89ab'[parseInt(hex[16]!, 16) & 3]!;
    return `${hex.slice(0, 8)}-${hex.slice(8, 12)}-4${hex.slice(13, 16)}-${variant}${hex.slice(17, 20)}-${hex.slice(20)}`;
  }
}
