/** Calls handlers from outside of handlers, over a connection of its own. */

import { randomBytes } from 'node:crypto';
import { frames } from 'palqytun';
import { CHANNEL } from './database';
import { Lost } from './tables';
import type { Ends, Place, Statements, Store } from './tables';
import { deliver, newest, send } from './delivery';
import { BadValue, TerminalError, Unavailable, checkUrl, shown } from './errors';
import { CANCEL, VOID, awakeableOf, failure, failureIn, valueIn } from './frames';
import { checkedTrace } from './hash';
import { create } from './invocations';
import { Log } from './log';
import { Postgres } from './postgres';
import { withQueue } from './queues';
import type { Queued } from './queues';
import { JSON_CODEC } from './sealing';
import type { Codec } from './sealing';
import { namesOf, servicesOf } from './services';
import type { About, AnyService, Fixed, Handler } from './services';
import { PAYLOAD, checkId, checkName, checkPayload } from './values';
import type { Parse } from './values';

export interface ClientOptions {
  /** The database: `postgresql://..`. */
  url: string;
  /** Services that it calls also while no worker serves them. */
  services?: readonly AnyService[];
  /** Bytes of an argument, at most: 4 MiB. */
  payload?: number;
  /** That of the workers: JSON by default. */
  codec?: Codec;
}

export interface ClientCall extends Queued {
  key?: string;
  idempotencyKey?: string;
  headers?: Readonly<Record<string, string>>;
  /** Milliseconds after which it begins. */
  delay?: number;
}

const LOOK = 1000; // milliseconds between two looks for a result
const CONNECTIONS = 4;
const LONGEST_DELAY = 1e13; // milliseconds, about three centuries
const ANSWERED = 30_000; // milliseconds that a call waits for its transaction

/** An invocation, as its client knows it. */
export class Sent<O> {
  constructor(private readonly client: Client, readonly id: string) {}

  /** Its result, once it has ended, or its failure as a `TerminalError`. Throws an `Error` after so many milliseconds: it goes on. */
  result(wait = Infinity, gives?: Parse<O>): Promise<O> {
    return this.client.result(this.id, wait, gives);
  }

  /** Cancels it: what it awaits throws `Cancelled`. */
  cancel(): Promise<void> {
    return this.client.signal(this.id, CANCEL());
  }

  /** Sends it a signal. */
  signal(name: string, value: unknown = null): Promise<void> {
    return this.client.signal(this.id, frames.namedSignal(name, this.client.resultOf(value)));
  }
}

export class Client {
  readonly #heard = new Map<string, Set<() => void>>();
  #place: Place | undefined;
  #hearing: Ends | undefined;
  #isLost = false;
  #isClosed = false;
  #opening: Promise<void> | undefined;
  /** Milliseconds that a call waits for its transaction. @internal */
  answered = ANSWERED;

  /** @internal */
  protected constructor(private db: Store, readonly services: ReadonlyMap<string, About>, private readonly payload: number, readonly codec: Codec) {}

  /** Connects to a database, which has the tables of Palqytun. */
  static async connect({ url, services = [], payload = PAYLOAD, codec = JSON_CODEC }: ClientOptions): Promise<Client> {
    checkUrl(url);
    const place = new Postgres(url, new Log());
    const served = servicesOf(services);
    const found = new Client(await place.open(CONNECTIONS), served, payload, codec);
    await found.#uses(place, found.db);
    return found;
  }

  /** Uses a database that was opened. */
  async #uses(place: Place, db: Store): Promise<void> {
    [this.#place, this.db, this.#isLost] = [place, db, false];
    db.onLost = () => (this.#isLost = true);
    try {
      this.#hearing = await place.hears(CHANNEL, db, (word) => this.#hear(word));
    } catch (error) {
      this.#isLost = true;
      await db.close();
      throw error;
    }
    if (this.#isClosed) await this.close();
  }

  #hear(word: string): void {
    const [what, ...ids] = word.split(' ');
    if (what === 'ended') for (const id of ids) for (const it of this.#heard.get(id) ?? []) it();
  }

  /** Opens a database again that was lost. */
  async #opens(place: Place): Promise<void> {
    const [db, hearing] = [this.db, this.#hearing];
    this.#hearing = undefined;
    await Promise.all([hearing?.end(), db.close()]);
    await this.#uses(place, await place.open(CONNECTIONS));
  }

  /** The database, which is opened again if it was lost. */
  async #opened(): Promise<Store> {
    if (this.#isClosed) throw new Lost('the client is closed');
    if (this.#isLost && this.#place !== undefined) {
      this.#opening ??= this.#opens(this.#place).finally(() => (this.#opening = undefined));
      await this.#opening;
    }
    return this.db;
  }

  /** Commits an operation. Throws `Unavailable` if the database can't be used, or doesn't reply for too long. */
  async #transact<T>(operation: (to: Statements) => Promise<T>): Promise<T> {
    let timer: Timer | undefined;
    let given: Unavailable | undefined; // nobody waits for it any more, so it isn't tried again
    const late = new Promise<never>((_, reject) => {
      timer = setTimeout(() => reject((given = new Unavailable(`something has been in the way in the database for ${this.answered} ms`))), this.answered);
    });
    const made = async (to: Statements): Promise<T> => {
      if (given !== undefined) throw given;
      return operation(to);
    };
    try {
      return await Promise.race([this.#opened().then((db) => db.transact(made)), late]);
    } catch (error) {
      if (error instanceof Lost) throw new Unavailable(`the database can't be used now: ${error.message}`);
      throw error;
    } finally {
      clearTimeout(timer);
    }
  }

  async close(): Promise<void> {
    this.#isClosed = true;
    await Promise.all([this.#hearing?.end(), this.db.close()]);
  }

  /** Calls a handler, or `"Service/handler"`, and doesn't wait for it. */
  async send<I, O>(callee: Handler<I, O>, argument: Fixed<I>, options?: ClientCall): Promise<Sent<O>>;
  async send<O = unknown>(callee: string, argument?: unknown, options?: ClientCall): Promise<Sent<O>>;
  async send<I, O>(callee: Handler<I, O> | string, argument?: I, options: ClientCall = {}): Promise<Sent<O>> {
    const [service, handler] = namesOf(callee);
    const data = this.codec.encode(argument);
    checkPayload('the argument', data.length, this.payload);
    checkName("the service's name", service);
    checkName("the handler's name", handler);
    checkName('the key', options.key ?? '');
    checkName('the idempotency key', options.idempotencyKey ?? '');
    const { delay = 0 } = options;
    if (!(delay <= LONGEST_DELAY)) throw new TerminalError(`the delay is ${shown(delay)}, and ${LONGEST_DELAY} milliseconds are allowed`, 400); // NaN too
    const [headers, trace] = [withQueue(options.headers, options), checkedTrace(options.headers?.['traceparent'])];
    const { id } = await this.#transact((to) =>
      create(to, this, {
        ...this.named(), service, handler, key: options.key ?? '', argument: data, headers, idempotencyKey: options.idempotencyKey ?? null,
        due: options.delay === undefined ? null : to.now + options.delay / 1000, parent: null, trace,
      }),
    ); // prettier-ignore
    return new Sent<O>(this, id);
  }

  /** The id and the seed of an invocation to make. @internal */
  protected named(): { id: string; seed: bigint } {
    return { id: `inv_${randomBytes(12).toString('hex')}`, seed: randomBytes(8).readBigUInt64BE(0) >> 1n };
  }

  /** Calls a handler, and waits for its result. */
  async call<I, O>(callee: Handler<I, O>, argument: Fixed<I>, options?: ClientCall): Promise<O>;
  async call<O = unknown>(callee: string, argument?: unknown, options?: ClientCall): Promise<O>;
  async call<O>(callee: Handler<unknown, O> | string, argument?: unknown, options: ClientCall = {}): Promise<O> {
    return (await this.send(callee as Handler<unknown, O>, argument, options)).result();
  }

  /** An invocation by its id. */
  sent<O = unknown>(id: string): Sent<O> {
    return new Sent<O>(this, id);
  }

  /** Completes an awakeable with a value, or with a failure, which is a `TerminalError`. */
  async resolveAwakeable(id: string, value: unknown = null): Promise<void> {
    const found = awakeableOf(id);
    if (found === undefined) throw new TerminalError(`${id.slice(0, 200)} is no awakeable`, 400);
    await this.#transact((to) => deliver(to, found.invocation, frames.signal(found.signal, this.resultOf(value))));
  }

  /** A value, or a failure, as a frame. @internal */
  resultOf(value: unknown): Uint8Array {
    if (value instanceof TerminalError) return failure(value.code, this.codec.text(value.message), value.metadata);
    const data = this.codec.encode(value);
    return data.length === 0 ? VOID() : frames.valueFrame(data);
  }

  /** @internal */
  async signal(id: string, frame: Uint8Array): Promise<void> {
    checkId(id);
    await this.#transact((to) => send(to, id, frame));
  }

  /** @internal */
  async result<O>(id: string, wait: number, gives: Parse<O> | undefined): Promise<O> {
    checkId(id);
    const until = performance.now() + wait;
    for (;;) {
      const ended = this.#hears(id);
      const found = await this.look(id);
      if (found !== undefined) {
        ended.forget();
        return read(this.codec, found, gives);
      }
      const left = until - performance.now();
      if (left <= 0) {
        ended.forget();
        throw new Error(`${id} hasn't ended after ${wait} ms, and goes on`);
      }
      await ended.within(Math.min(LOOK, left));
      ended.forget();
    }
  }

  /** The result of one that has ended, as a frame. @internal */
  async look(id: string): Promise<Uint8Array | undefined> {
    checkId(id);
    return this.#transact((to) => looked(to, id));
  }

  /** Hears that an invocation has ended. */
  #hears(id: string): { within(milliseconds: number): Promise<void>; forget(): void } {
    let rings: () => void = () => undefined;
    const came = new Promise<void>((done) => (rings = done));
    const all = this.#heard.get(id) ?? new Set();
    this.#heard.set(id, all.add(rings));
    let timer: Timer | undefined;
    return {
      within: (milliseconds) => Promise.race([came, new Promise<void>((done) => (timer = setTimeout(done, milliseconds)))]),
      forget: () => {
        clearTimeout(timer);
        all.delete(rings);
        if (all.size === 0) this.#heard.delete(id);
      },
    };
  }
}

async function looked(to: Statements, id: string): Promise<Uint8Array | undefined> {
  const found = (await to.rows('look', { invocation: await newest(to, id) }))[0];
  if (found === undefined) throw new TerminalError(`there is no invocation ${id.slice(0, 200)}`, 404);
  return (found[1] as Uint8Array | null) ?? undefined;
}

/** The value of a result; a failure is thrown as a `TerminalError`. */
export function read<O>(codec: Codec, frame: Uint8Array, gives: Parse<O> | undefined): O {
  const failed = failureIn(frame);
  if (failed !== undefined) throw new TerminalError(codec.clear(failed.message), failed.code, failed.metadata);
  try {
    return codec.decode<O>(valueIn(frame) ?? new Uint8Array(), gives);
  } catch (error) {
    if (error instanceof BadValue) throw new TerminalError(`a result that can't be read: ${error.message}`);
    throw error;
  }
}
