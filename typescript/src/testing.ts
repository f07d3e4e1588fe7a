/**
 * Tests of handlers: a worker in memory whose clock is the test's, effects that are fakes, and a death at each commit. A test needs no server, no file and
 * no waiting.
 *
 *     await Testing.run([shop, stock], async (it) => {
 *       const sent = await it.send(shop.order, 'pen');
 *       await it.skip(86_400_000);
 *       assert.equal(await sent.result(), 'sent');
 *     });
 *
 *     const pay = fake(new Error('no bank'), 'receipt');
 *     await crashEverywhere([shop, stock], shop.order, 'pen', { runs: { pay } });
 */

import { inspect } from 'node:util';
import { Client, read } from './client';
import type { Run } from './context';
import { failureIn, valueIn } from './frames';
import type { Log, LogOptions } from './log';
import { Memory } from './memory';
import type { Tables } from './memory';
import { JSON_CODEC } from './sealing';
import type { Codec } from './sealing';
import { ABOUT, servicesOf } from './services';
import type { About, AnyHandler, AnyService, Fixed, Handler } from './services';
import type { Statements, Store } from './tables';
import { PAYLOAD } from './values';
import type { Parse } from './values';
import { within } from './within';
import { Worker } from './worker';

const LOOKS = 2; // milliseconds until it is looked whether all waits for the clock
const SETTLES = 60_000; // milliseconds that what is due may take
const NEAR = 0.0005; // seconds; a due time is a float
const MOST = 500; // commits at which a worker dies

// ---- effects

/** A call of a fake. `key` is that of the run that made it (`run.key`); undefined outside of one. */
export interface Called<A> {
  readonly key: string | undefined;
  readonly given: A;
}

/** What was called, whatever it takes. */
export interface Calls<A = unknown> {
  readonly calls: readonly Called<A>[];
  /** The last call of each key: what other systems have seen, if they take each key once. */
  byKey(): ReadonlyMap<string | undefined, Called<A>>;
  /** Forgets the calls, and begins with the first result again. */
  forget(): void;
}

/** A function instead of an effect, which remembers its calls. */
export interface Fake<A extends unknown[] = unknown[], R = unknown> extends Calls<A> {
  (...given: A): R;
}

/**
 * A function that returns `results` one after the other, and the last one again and again: a value; an `Error`, which is thrown; or a function, which is
 * called.
 */
export function fake<A extends unknown[] = unknown[], R = unknown>(...results: readonly (R | Error | ((...given: A) => R))[]): Fake<A, R> {
  const calls: Called<A>[] = [];
  const does = (...given: A): R => {
    calls.push({ key: within.getStore()?.key, given });
    const result = results[Math.min(calls.length, results.length) - 1];
    if (result instanceof Error) throw result;
    return typeof result === 'function' ? (result as (...those: A) => R)(...given) : (result as R);
  };
  const byKey = (): Map<string | undefined, Called<A>> => new Map(calls.map((it) => [it.key, it]));
  return Object.assign(does, { calls, byKey, forget: () => void calls.splice(0) });
}

// ---- a worker in memory

export interface TestingOptions {
  /** While a result is awaited and nothing is to be done, the clock moves on by itself: true. */
  skips?: boolean;
  /** What other handlers give, by `Service/handler`: a value, an `Error`, or a function of the argument. So one handler is tested by itself. */
  answers?: Readonly<Record<string, unknown>>;
  /** What is executed instead of runs, by their names. */
  runs?: Readonly<Record<string, (run: Run) => unknown>>;
  /** How values are bytes, as that of a worker: JSON. */
  codec?: Codec;
  /** Milliseconds that what is due may take: 60,000. */
  settles?: number;
  log?: LogOptions | Log;
}

/** A worker of some services in memory, and its client. What is sent is executed at once; times are in milliseconds. */
export class Testing extends Client {
  readonly #memory: Memory;
  readonly #worker: Worker;
  readonly #running: Promise<void>;
  readonly #store: Store;
  readonly #skips: boolean;
  readonly #settles: number;

  private constructor(services: readonly AnyService[], options: TestingOptions) {
    const memory = new Memory();
    const store = memory.beside();
    const those = answered(servicesOf(services), options.answers ?? {}).map((it) => ({ [ABOUT]: it }));
    super(store, servicesOf(those), PAYLOAD, options.codec ?? JSON_CODEC);
    [this.#memory, this.#store, this.#skips, this.#settles] = [memory, store, options.skips ?? true, options.settles ?? SETTLES];
    const log = options.log ?? { level: 'warning' as const };
    const instead = new Map(Object.entries(options.runs ?? {}));
    const settings = { url: 'postgresql://in-memory', version: 'test', idle: 0, poll: 50, grace: 1000, stuck: 0, log };
    this.#worker = new Worker({ ...settings, services: those, codec: this.codec }, { place: memory, instead });
    this.#running = this.#worker.run();
  }

  /** A worker that is there until `close`. */
  static async begin(services: readonly AnyService[], options: TestingOptions = {}): Promise<Testing> {
    const found = new Testing(services, options);
    await Promise.race([found.#worker.isOpen, found.#running]);
    return found;
  }

  /** A worker for a test, which ends with it. */
  static async run<T>(services: readonly AnyService[], test: (it: Testing) => T | PromiseLike<T>, options: TestingOptions = {}): Promise<T> {
    const made = await Testing.begin(services, options);
    try {
      return await test(made);
    } finally {
      await made.close();
    }
  }

  override async close(): Promise<void> {
    this.#worker.stop();
    await this.#running;
    await super.close();
  }

  // ---- state

  /** The state of a key. */
  state(service: string, key: string): Promise<Record<string, unknown>> {
    return this.#asks(async (to) => Object.fromEntries((await to.rows('state', { service, key })).map(([name, value]) => [name, this.codec.decode(value as Uint8Array)])));
  }

  /** Gives the state of a key these values. */
  setState(service: string, key: string, values: Readonly<Record<string, unknown>>): Promise<void> {
    return this.#asks(async (to) => {
      for (const [name, value] of Object.entries(values)) await to.change('set', { service, key, name, value: this.codec.encode(value) });
    });
  }

  // ---- time

  /** The time by the test's clock, in milliseconds since the epoch. */
  get now(): number {
    return this.#memory.now() * 1000;
  }

  /** What is due is done; then the clock moves on by so many milliseconds, from timer to timer, and what is due then is done too. */
  async skip(milliseconds: number): Promise<void> {
    await this.#settle();
    const until = this.#memory.now() + milliseconds / 1000;
    for (;;) {
      const { due } = await this.#look();
      if (due === undefined || due > until + NEAR) break;
      await this.#to(due);
    }
    await this.#to(until);
  }

  /** The clock moves on to the next timer, delayed call or retry. Returns whether there is one. */
  async skipToNext(): Promise<boolean> {
    const { due } = await this.#look();
    if (due !== undefined) await this.#to(due);
    return due !== undefined;
  }

  /** Whether all that can be done is done: no attempt runs, and nothing is due. */
  async isSettled(): Promise<boolean> {
    return (await this.#look()).isSettled;
  }

  async #to(at: number): Promise<void> {
    this.#memory.skipped += Math.max(0, Math.ceil((at - this.#memory.now()) * 1000) + 1); // past it, whatever a float makes of both
    this.#memory.say('ready');
    await this.#settle();
  }

  async #settle(): Promise<void> {
    for (const until = performance.now() + this.#settles; !(await this.isSettled()); await pause()) {
      if (performance.now() > until) throw new Error(`what is due isn't done after ${this.#settles} ms`);
    }
  }

  /** Whether all that can be done is done; and when something is due next, in seconds since the epoch. */
  #look(): Promise<{ isSettled: boolean; due: number | undefined }> {
    return this.#asks(async ({ now }) => {
      const due = dueAfter(this.#memory.tables, now);
      return { isSettled: this.#worker.live === 0 && !canGoOn(this.#memory.tables, now), due };
    });
  }

  #asks<T>(operation: (to: Statements) => Promise<T>): Promise<T> {
    return this.#store.transact(operation);
  }

  // ---- results

  /** As a client's, and the clock moves on for it. Throws an `Error` if nothing is left that would end it. @internal */
  override async result<O>(id: string, wait: number, gives: Parse<O> | undefined): Promise<O> {
    for (const until = performance.now() + wait; ; await pause()) {
      const found = await this.look(id);
      if (found !== undefined) return read(this.codec, found, gives);
      if (performance.now() > until) throw new Error(`${id} hasn't ended after ${wait} ms, and goes on`);
      const { isSettled, due } = await this.#look();
      if (!isSettled) continue;
      if (due !== undefined && this.#skips) await this.#to(due);
      else if (wait === Infinity) throw new Error(`${id} waits for what doesn't come by itself: ${this.#why(id)}`);
    }
  }

  #why(id: string): string {
    const { status = 'gone', error = null } = this.#memory.tables.invocations.get(id) ?? {};
    return error === null ? status : `${status}, ${error.split('\n', 1)[0]}`;
  }

  // ---- deaths

  /** Makes an invocation, with a death at this commit of the worker's; 0 is none. Returns what it leaves, and whether the worker died. @internal */
  async left(handler: AnyHandler, argument: unknown, key: string, dies: number, isStored: boolean): Promise<{ left: Left; hasDied: boolean }> {
    const memory = this.#memory;
    [memory.dies, memory.isStored] = [dies === 0 ? 0 : memory.commits + dies, isStored];
    this.#named = { id: 'inv_test', seed: 1n };
    const sent = await this.send(`${handler.service}/${handler.name}`, argument, key === '' ? {} : { key });
    const until = performance.now() + this.#settles;
    let found = await this.look(sent.id);
    for (; found === undefined; found = await this.look(sent.id)) {
      if (performance.now() > until) throw new Error(`${sent.id} hasn't ended after ${this.#settles} ms: ${this.#why(sent.id)}`);
      if (await this.isSettled() && !(await this.skipToNext())) throw new Error(`${sent.id} waits for what doesn't come by itself: ${this.#why(sent.id)}`);
      await pause();
    }
    const hasDied = dies > 0 && memory.commits >= memory.dies;
    memory.dies = 0;
    return { left: leftBy(this.codec, memory.tables, found), hasDied };
  }

  #named: { id: string; seed: bigint } | undefined;

  /** @internal */
  protected override named(): { id: string; seed: bigint } {
    return this.#named ?? super.named();
  }
}

function pause(): Promise<void> {
  return new Promise((done) => setTimeout(done, LOOKS));
}

/** Whether something is to be done at this time, in seconds since the epoch. */
function canGoOn(tables: Tables, now: number): boolean {
  const reached = new Set(tables.inbox.where((it) => it.fresh).map((it) => it.invocation));
  const isToDo = tables.invocations.where((it) => {
    if (it.status === 'ready') return (it.due <= now && tables.mayHaveKey(it) && tables.mayBeginAt(it, now) <= now) || tables.isLate(it, now);
    return it.status === 'running' || (it.status === 'suspended' && reached.has(it.id)) || tables.isLate(it, now);
  });
  return isToDo.length > 0 || tables.timers.where((it) => it.due <= now).length > 0;
}

function dueAfter(tables: Tables, now: number): number | undefined {
  const rates = tables.invocations.where((it) => it.status === 'ready').map((it) => tables.mayBeginAt(it, now));
  const all = [...tables.times(), ...rates].filter((it) => it > now);
  return all.length === 0 ? undefined : Math.min(...all);
}

/** The services, in which some handlers only give these answers. */
function answered(services: ReadonlyMap<string, About>, answers: Readonly<Record<string, unknown>>): About[] {
  const left = new Map(Object.entries(answers));
  const made = [...services.values()].map((it): About => {
    const handlers = [...it.handlers.values()].map((one): AnyHandler => {
      const path = `${one.service}/${one.name}`;
      if (!left.has(path)) return one;
      const answer = left.get(path);
      left.delete(path);
      return { ...one, takes: undefined, run: (_: never, argument: never) => given(answer, argument) };
    });
    return { ...it, handlers: new Map(handlers.map((one) => [one.name, one])) };
  });
  if (left.size > 0) throw new RangeError(`there is no handler ${[...left.keys()].join(', ')} that could give an answer`);
  return made;
}

function given(answer: unknown, argument: unknown): unknown {
  if (answer instanceof Error) throw answer;
  return typeof answer === 'function' ? (answer as (it: unknown) => unknown)(argument) : answer;
}

// ---- deaths

export interface CrashOptions extends Pick<TestingOptions, 'answers' | 'codec' | 'runs' | 'settles'> {
  key?: string;
  /** Those whose calls have to be the same by their keys, beside `runs`. */
  fakes?: readonly Calls[];
  /** How many commits are tried at most: 500. */
  most?: number;
}

/** What an invocation leaves, as texts. */
interface Left {
  readonly result: string;
  readonly state: string;
  readonly attributes: string;
}

function shown(value: unknown): string {
  return inspect(value, { depth: 50, sorted: true, breakLength: Infinity });
}

function leftBy(codec: Codec, tables: Tables, result: Uint8Array): Left {
  const value = valueIn(result);
  const rows = tables.state.where().map((it) => [it.service, it.key, it.name, codec.decode(it.value)].map(shown).join(' '));
  const said = tables.attributes.where().map((it) => it.join(' '));
  return { result: shown(value === undefined ? failureIn(result) ?? null : codec.decode(value)), state: rows.sort().join('\n'), attributes: said.sort().join('\n') };
}

function isFake(it: unknown): it is Calls {
  return typeof it === 'function' && 'calls' in it && 'byKey' in it;
}

function effects(fakes: readonly Calls[]): string {
  const of = (it: Calls): string[] => [...it.byKey().values()].map(({ key, given: those }) => `${key ?? 'no key'} ${shown(those)}`).sort();
  return fakes.map((it) => of(it).join('\n')).join('\n\n');
}

/**
 * Runs an invocation without a failure, and then again and again with a death of its worker: at its first commit, its second, and so on, each once before
 * the commit is stored and once after it. Returns the number of deaths.
 *
 * It throws an `Error` that says what differs from the execution without a failure: the result, the state of the keys, the attributes, or an effect, by the
 * key of its run. An effect may be executed more than once with its key. A death is a lost database here: attempts are dropped where they stand, and a new
 * worker claims what is stored. Sleeps take no time. The effects have to be fakes, or harmless.
 */
export async function crashEverywhere<I, O>(services: readonly AnyService[], handler: Handler<I, O>, argument: Fixed<I>, options: CrashOptions = {}): Promise<number> {
  const { key = '', fakes = [], most = MOST, ...more } = options;
  const watched: Calls[] = [...fakes, ...Object.values<unknown>(more.runs ?? {}).filter(isFake)];
  const once = async (dies: number, isStored: boolean): Promise<{ left: Left & { effects: string }; hasDied: boolean }> => {
    for (const it of watched) it.forget();
    const silent = { write: () => undefined };
    const { left, hasDied } = await Testing.run(services, (it) => it.left(handler as unknown as AnyHandler, argument, key, dies, isStored), { ...more, log: silent });
    return { left: { ...left, effects: effects(watched) }, hasDied };
  };
  const expected = (await once(0, false)).left;
  for (let [number, deaths] = [1, 0]; ; number += 1) {
    for (const isStored of [false, true]) {
      if (number > most) return deaths;
      const { left, hasDied } = await once(number, isStored);
      if (!hasDied) return deaths;
      deaths += 1;
      for (const name of ['result', 'state', 'attributes', 'effects'] as const) {
        const where = `with a death ${isStored ? 'after' : 'at'} commit ${number}`;
        if (left[name] !== expected[name]) throw new Error(`${where} the ${name} differ:\n${left[name]}\nand without one:\n${expected[name]}`);
      }
    }
  }
}
