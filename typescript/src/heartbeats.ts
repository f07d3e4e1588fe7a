/** Heartbeats: a long effect says that it goes on, and how far it has come. What it says is stored about once a second, and operators see it. */

const EACH = 1000; // milliseconds between two that are stored

/** Nobody waits for this run any more: it took too long, or its invocation was ended, or goes on elsewhere. What it returns isn't taken. */
export class GivenUp extends Error {
  override readonly name = 'GivenUp';
}

/** The beats of one execution of a run. */
export class Pulse {
  #last = performance.now();
  #value: Uint8Array | undefined;
  #isOver = false;
  #storing: Promise<void> = Promise.resolve();
  #timer: Timer | undefined;

  /** `limit`: milliseconds within which it has to beat, if there is one. `keep` stores what it says, and returns whether its invocation is still this worker's. */
  constructor(readonly limit: number | undefined, private readonly keep: (value: Uint8Array) => Promise<boolean>) {}

  /** The function begins: it has to beat from now on. */
  begin(): void {
    this.#last = performance.now();
  }

  /** The function goes on. Throws a `GivenUp` if nobody waits for it any more. */
  beat(value: Uint8Array): void {
    if (this.#isOver) throw new GivenUp("this run isn't waited for any more, so it can end");
    [this.#last, this.#value] = [performance.now(), value];
    if (this.#timer === undefined) this.#stores();
  }

  /** Stores what was said last: at once, and then nothing for a while. */
  #stores(): void {
    this.#timer = setTimeout(() => {
      this.#timer = undefined;
      if (this.#value !== undefined && !this.#isOver) this.#stores();
    }, EACH);
    this.#storing = this.#storing.then(() => this.#once());
  }

  async #once(): Promise<void> {
    const value = this.#value;
    this.#value = undefined;
    if (value !== undefined && !(await this.keep(value))) this.#isOver = true;
  }

  /** In how many milliseconds it has to beat. */
  get left(): number {
    return this.limit === undefined ? Infinity : this.#last + this.limit - performance.now();
  }

  /** The execution is over: what was said last is stored. Whoever beats from now on gets `GivenUp`. */
  async close(): Promise<void> {
    this.#isOver = true;
    clearTimeout(this.#timer);
    await this.#storing;
    await this.#once();
  }
}
