/**
 * Queues: how many attempts of some handlers run at once, how many begin in a time, and in which order. Their limits hold over all workers, in whichever
 * language. A queue is fair between keys: a claim takes one invocation of each key in turn, so one with thousands keeps no other out.
 */

import { TerminalError, shown } from './errors';
import { checkName } from './values';

export interface QueueOptions {
  /** Attempts at once, over all workers. */
  concurrency?: number;
  /** Attempts at once on one worker. */
  perWorker?: number;
  /** Attempts at once of one key: the `queueKey` of a call, or else the key of its object. */
  perKey?: number;
  /** At most this number of invocations begin in so many milliseconds. */
  rate?: readonly [count: number, milliseconds: number];
}

const COUNTS = ['concurrency', 'perWorker', 'perKey'] as const;

/**
 * A queue of one handler or of several: `handler(does, { queue: new Queue('mail', { concurrency: 10, rate: [100, 60_000] }) })`. Its name is one of its own in
 * the database. What isn't given isn't limited. A suspended invocation has no attempt. A key's greatest `priority` comes first, and then what was due first.
 */
export class Queue {
  readonly concurrency: number | undefined;
  readonly perWorker: number | undefined;
  readonly perKey: number | undefined;
  readonly rate: readonly [count: number, milliseconds: number] | undefined;

  /** Throws a `RangeError` for a limit that is none. */
  constructor(readonly name: string, { concurrency, perWorker, perKey, rate }: QueueOptions = {}) {
    if (typeof name !== 'string' || name === '') throw new TypeError(`a queue's name must be a string that isn't empty, not ${shown(name)}`);
    checkName('the name of the queue', name);
    [this.concurrency, this.perWorker, this.perKey, this.rate] = [concurrency, perWorker, perKey, rate];
    for (const it of COUNTS) {
      const count = this[it];
      if (count !== undefined && !(Number.isInteger(count) && count >= 1)) throw new RangeError(`the ${it} of the queue ${name} must be a whole number from 1, not ${shown(count)}`);
    }
    if (rate !== undefined && !isRate(rate)) throw new RangeError(`the rate of the queue ${name} must be a pair, a count from 1 and milliseconds above 0, not ${JSON.stringify(rate)}`);
  }

  /** What is limited, as all workers read it; a rate's time is in seconds. @internal */
  get limits(): string {
    const { concurrency, perWorker: per_worker, perKey: per_key, rate } = this;
    return JSON.stringify({ concurrency, per_worker, per_key, rate: rate && [rate[0], rate[1] / 1000] });
  }

  /** How many more attempts may run beside those that are `running`, `own` of them on this worker, which has room for so many more. @internal */
  free(running: number, own: number, room: number): number {
    return Math.min(room, (this.concurrency ?? Infinity) - running, (this.perWorker ?? Infinity) - own);
  }
}

function isRate(rate: unknown): boolean {
  if (!Array.isArray(rate) || rate.length !== 2) return false;
  const [count, milliseconds] = rate as [number, number];
  return Number.isInteger(count) && count >= 1 && milliseconds > 0 && milliseconds < Infinity;
}

const PRIORITY = 'palqytun-priority';
const KEY = 'palqytun-queue-key';
const MOST = 1000;

/** What a call says of its queue. */
export interface Queued {
  /** A whole number from -1000 to 1000: the greatest of a key comes first. 0 by default. */
  priority?: number;
  /** Its key in the queue; by default that of its object. */
  queueKey?: string;
}

/** The headers of a call, with what its queue is to know. Throws a `TerminalError` with code 400 for what is none. */
export function withQueue(headers: Readonly<Record<string, string>> | undefined, { priority, queueKey }: Queued): [string, string][] {
  const found = new Map(Object.entries(headers ?? {}));
  if (priority !== undefined) found.set(PRIORITY, String(numberOf(String(priority))));
  if (queueKey !== undefined) {
    checkName('the queue key', queueKey);
    found.set(KEY, queueKey);
  }
  return [...found];
}

/** The priority and the queue key of an invocation, by its headers. Throws a `TerminalError` with code 400 for what is none. */
export function queuedBy(headers: Iterable<readonly [string, string]>, key: string): { queue_key: string; priority: number } {
  const found = new Map(headers);
  const queueKey = found.get(KEY) ?? key;
  checkName('the queue key', queueKey);
  return { queue_key: queueKey, priority: numberOf(found.get(PRIORITY) ?? '0') };
}

function numberOf(text: string): number {
  const isOne = /^[-+]?\d{1,4}$/.test(text) && Math.abs(Number(text)) <= MOST;
  if (!isOne) throw new TerminalError(`the priority is '${text.slice(0, 40)}', and it is a whole number from -${MOST} to ${MOST}`, 400);
  return Number(text);
}
