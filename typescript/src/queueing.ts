/** Claims of queues: which invocations of a queue may have an attempt now. */

import type { Queue } from './queues';
import type { About, AnyHandler } from './services';
import type { Statements } from './tables';

const KEYS = 100; // of which a claim looks at the first ones

/** A candidate: what a claim needs of a row. */
export type Queued = readonly [id: string, epoch: number, exclusive: number, key: string, service: string, queueKey: string, ...more: unknown[]];

/** The worker that claims, and its handlers as `Service/handler`. */
export interface Claiming {
  readonly worker: string;
  readonly code: string;
  readonly paths: readonly string[];
}

export function handlersOf(services: ReadonlyMap<string, About>): AnyHandler[] {
  return [...services.values()].flatMap((it) => [...it.handlers.values()]);
}

export function pathOf({ service, name }: AnyHandler): string {
  return `${service}/${name}`;
}

/** The queues of some services, in the order of their names. */
export function queuesOf(services: ReadonlyMap<string, About>): Queue[] {
  const found = new Map<string, Queue>();
  for (const { queue } of handlersOf(services)) if (queue !== undefined) found.set(queue.name, queue);
  return [...found.values()].sort((one, other) => (one.name < other.name ? -1 : 1));
}

/** A worker begins: its limits and queues have their rows, and each open invocation of its handlers is in the queue that its code says. */
export async function enter(to: Statements, services: ReadonlyMap<string, About>): Promise<void> {
  for (const it of handlersOf(services)) if (it.limit !== undefined) await to.change('enter-limit', { path: pathOf(it) });
  for (const it of queuesOf(services)) await to.change('enter-queue', { queue: it.name, limits: it.limits });
  for (const [service, handler, was] of (await to.rows('open', {})) as unknown as readonly (readonly [string, string, string | null])[]) {
    const known = services.get(service)?.handlers.get(handler);
    const queue = known?.queue?.name ?? null;
    if (known !== undefined && queue !== was) await to.change('requeue', { queue, service, handler });
  }
}

/** What a queue has room for: `free` attempts, of which `begins` may be first ones, and each key's. */
export class Room {
  private constructor(readonly queue: Queue, public free: number, public begins: number, private readonly running: Map<string, number>, readonly later: number | null) {}

  /** Its row is kept until the commit, so two workers don't count at one time. `most` is what the worker has room for. */
  static async of(to: Statements, queue: Queue, worker: string, most: number): Promise<Room> {
    const rows = (await to.rows('in-queue', { queue: queue.name, worker })) as unknown as readonly (readonly [string, number, number])[];
    const running = new Map(rows.map(([key, count]) => [key, Number(count)]));
    const [all, own] = [1, 2].map((at) => rows.reduce((sum, row) => sum + Number(row[at]), 0)) as [number, number];
    const free = queue.free(all, own, most);
    if (queue.rate === undefined) return new Room(queue, free, free, running, null);
    const [count, seconds] = [queue.rate[0], queue.rate[1] / 1000];
    const [begun, since] = (await to.rows('starts', { queue: queue.name, since: to.now - seconds }))[0] as [number, number | null];
    return new Room(queue, free, Math.max(0, count - Number(begun)), running, Number(begun) >= count ? (since ?? to.now) + seconds : null);
  }

  /** How many attempts of a key. */
  of(key: string): number {
    return Math.min(this.free, (this.queue.perKey ?? Infinity) - (this.running.get(key) ?? 0));
  }

  /** The keys that have no room: theirs hide no others. */
  get full(): string[] {
    const { perKey } = this.queue;
    return perKey === undefined ? [] : [...this.running].filter(([, many]) => many >= perKey).map(([key]) => key);
  }

  /** Takes an attempt, if there is room for it. */
  takes(key: string, isFirst: boolean): boolean {
    if (this.free <= 0 || this.of(key) <= 0 || (isFirst && this.begins <= 0)) return false;
    this.free -= 1;
    this.begins -= Number(isFirst);
    this.running.set(key, (this.running.get(key) ?? 0) + 1);
    return true;
  }
}

/** What can be claimed, and whether there may be more. */
export interface Claimable {
  readonly rows: readonly Queued[];
  readonly hasMore: boolean;
}

/** Ready invocations that have begun before, for which there is room. */
export async function again(to: Statements, it: Room, { code, paths }: Claiming): Promise<Claimable> {
  if (it.free <= 0) return { rows: [], hasMore: false };
  const most = it.free;
  const found = (await to.rows('queue-again', { queue: it.queue.name, paths, code, now: to.now, full: it.full, most })) as unknown as readonly Queued[];
  const rows = found.filter((row) => it.takes(row[5], false));
  return { rows, hasMore: found.length === most && rows.length > 0 };
}

/** Invocations that haven't begun, for which there is room: one of each key in turn. */
export async function first(to: Statements, it: Room, { code, paths }: Claiming): Promise<Claimable> {
  const most = Math.min(it.free, it.begins);
  const keys = most > 0 ? await keysOf(to, it.queue.name) : [];
  if (keys.length === 0) return { rows: [], hasMore: false };
  const each = Math.ceil(most / keys.length);
  const found: (readonly Queued[])[] = [];
  let hasMore = keys.length === KEYS;
  for (const key of keys) {
    const many = Math.max(0, Math.min(each, it.of(key)));
    const rows = many === 0 ? [] : await to.rows('queue-first', { queue: it.queue.name, queue_key: key, paths, code, now: to.now, most: many });
    hasMore ||= many > 0 && rows.length === many;
    found.push(rows as unknown as readonly Queued[]);
  }
  const turns = Array.from({ length: each }, (_, turn) => found.flatMap((rows) => rows.slice(turn, turn + 1))).flat();
  const rows = turns.filter((row) => it.takes(row[5], true));
  if (keys.length > 1) await to.change('queue-turn', { queue: it.queue.name, last: rows[rows.length - 1]?.[5] ?? keys[keys.length - 1] });
  return { rows, hasMore: hasMore && rows.length > 0 && it.free > 0 };
}

/** Keys that have something ready, in turn from the one after the last on. */
async function keysOf(to: Statements, queue: string): Promise<string[]> {
  const last = ((await to.rows('queue-last', { queue }))[0]?.[0] ?? null) as string | null;
  const from = async (first: string): Promise<string[]> => (await to.rows('queue-keys', { queue, first, most: KEYS })).map(([key]) => String(key));
  const after = last === null ? [] : (await from(last)).filter((it) => it !== last);
  const around = after.length < KEYS ? await from('') : [];
  return [...new Set([...after, ...around])].slice(0, KEYS);
}
