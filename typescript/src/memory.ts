/** A store in memory for tests: the protocol's statements over tables of its own, a clock that can be moved on, and a loss at a commit. */

import type { Note } from './notes';
import type { StatementName } from './statements';
import { Lost } from './tables';
import type { Committed, Ended, Ends, Place, Row, Statements, Store, Values } from './tables';

/** What the statements are given, by its names in PROTOCOL. Times are in seconds since the epoch. */
interface Given {
  readonly id: string;
  readonly invocation: string;
  readonly next: string;
  readonly service: string;
  readonly handler: string;
  readonly handlers: readonly string[];
  readonly key: string;
  readonly name: string;
  readonly value: Uint8Array;
  readonly said: string;
  readonly worker: string;
  readonly serves: string;
  readonly code: string;
  readonly most: number;
  readonly epoch: number;
  readonly before: number;
  readonly entries: number;
  readonly now: number;
  readonly due: number | null;
  readonly exclusive: number;
  readonly idem: string | null;
  readonly seed: bigint;
  readonly parent: string | null;
  readonly trace: string | null;
  readonly deadline: number | null;
  readonly expires: number | null;
  readonly queue: string | null;
  readonly queue_key: string | null;
  readonly priority: number;
  readonly limits: string;
  readonly paths: readonly string[];
  readonly full: readonly string[];
  readonly since: number;
  readonly first: string;
  readonly last: string;
  readonly chain: string;
  readonly frame: Uint8Array;
  readonly frames: readonly Uint8Array[];
  readonly at: number;
  readonly run: number;
  readonly completes: number;
  readonly seqs: readonly number[];
  readonly ids: readonly string[];
  readonly status: Status;
  readonly how: string;
  readonly suspension: Uint8Array;
  readonly shielded: number;
  readonly result: Uint8Array;
  readonly failed: number | null;
  readonly error: string | null;
  readonly retries: number;
  readonly failing_since: number | null;
  readonly failures: number;
  readonly failed_since: number | null;
}

type Status = 'ready' | 'running' | 'suspended' | 'paused' | 'done';

interface Invocation {
  readonly seq: number;
  readonly id: string;
  readonly service: string;
  readonly handler: string;
  readonly key: string;
  readonly exclusive: number;
  readonly idem: string | null;
  readonly seed: bigint;
  readonly parent: string | null;
  readonly trace: string | null;
  readonly created: number;
  readonly status: Status;
  readonly due: number;
  readonly epoch: number;
  readonly entries: number;
  readonly worker: string | null;
  readonly code: string | null;
  readonly suspension: Uint8Array | null;
  readonly shielded: number;
  readonly cancelled: number | null;
  readonly result: Uint8Array | null;
  readonly failed: number | null;
  readonly error: string | null;
  readonly retries: number;
  readonly failing_since: number | null;
  readonly failures: number;
  readonly failed_since: number | null;
  readonly deaths: number;
  readonly chain: string | null;
  readonly continued: string | null;
  readonly unserved: boolean;
  readonly queue: string | null;
  readonly queue_key: string | null;
  readonly priority: number;
  readonly deadline: number | null;
  readonly expires: number | null;
}

const ANEW = {
  status: 'ready', epoch: 0, entries: 1, worker: null, code: null, suspension: null, shielded: 0, cancelled: null, result: null, failed: null, error: null,
  retries: 0, failing_since: null, failures: 0, failed_since: null, deaths: 0, chain: null, continued: null, unserved: false,
  deadline: null, expires: null,
} as const; // prettier-ignore
const PROGRESS = { retries: 0, failing_since: null, failures: 0, failed_since: null, deaths: 0 } as const;

type Undo = (() => void)[];

/** Rows by their keys. Each change can be taken back. */
class Table<R> {
  readonly #rows = new Map<string | number, R>();

  constructor(private readonly undo: Undo) {}

  get(key: string | number): R | undefined {
    return this.#rows.get(key);
  }

  has(key: string | number): boolean {
    return this.#rows.has(key);
  }

  put(key: string | number, row: R): void {
    const former = this.#rows.get(key);
    this.undo.push(() => (former === undefined ? this.#rows.delete(key) : this.#rows.set(key, former)));
    this.#rows.set(key, row);
  }

  /** Takes the rows of which something holds, and returns them. */
  take(holds: (row: R, key: string | number) => boolean): R[] {
    const taken = [...this.#rows].filter(([key, row]) => holds(row, key));
    for (const [key, row] of taken) {
      this.undo.push(() => this.#rows.set(key, row));
      this.#rows.delete(key);
    }
    return taken.map(([, row]) => row);
  }

  where(holds: (row: R) => boolean = () => true): R[] {
    return [...this.#rows.values()].filter(holds);
  }
}

interface Arrived { readonly seq: number; readonly invocation: string; readonly frame: Uint8Array; readonly fresh: boolean }
interface Timer { readonly seq: number; readonly due: number; readonly invocation: string; readonly completes: number }
interface Waiter { readonly invocation: string; readonly waiter: string; readonly completes: number }
interface Promised { readonly service: string; readonly key: string; readonly name: string; readonly result: Uint8Array | null }
interface Kept { readonly service: string; readonly key: string; readonly name: string; readonly value: Uint8Array }

function placed(...parts: readonly string[]): string {
  return JSON.stringify(parts);
}

/** The tables, and the statements over them. */
export class Tables {
  readonly undo: Undo = [];
  readonly invocations = new Table<Invocation>(this.undo);
  readonly journal = new Table<readonly Uint8Array[]>(this.undo);
  readonly inbox = new Table<Arrived>(this.undo);
  readonly timers = new Table<Timer>(this.undo);
  readonly waiters = new Table<Waiter>(this.undo);
  readonly state = new Table<Kept>(this.undo);
  readonly promises = new Table<Promised>(this.undo);
  readonly promiseWaiters = new Table<Waiter>(this.undo);
  readonly locks = new Table<string>(this.undo);
  readonly workers = new Table<string>(this.undo);
  readonly progress = new Table<Uint8Array>(this.undo);
  readonly queues = new Table<{ readonly limits: string; readonly last: string | null }>(this.undo);
  readonly starts = new Table<{ readonly queue: string; readonly at: number }>(this.undo);
  readonly attributes = new Table<readonly [invocation: string, name: string, value: string]>(this.undo);
  #numbers = 0;

  /** A number that is greater than those before. */
  number(): number {
    return (this.#numbers += 1);
  }

  /** Changes a row, if it is there and this holds of it. */
  set(id: string, holds: (it: Invocation) => boolean, change: (it: Invocation) => Partial<Invocation>): number {
    const it = this.invocations.get(id);
    if (it === undefined || !holds(it)) return 0;
    this.invocations.put(id, { ...it, ...change(it) });
    return 1;
  }

  /** Those of one service that a worker may claim, by their status. */
  candidates(it: Given, status: Status): Invocation[] {
    return this.invocations.where((one) => one.status === status && one.service === it.service && it.handlers.includes(one.handler) && isOf(it, one));
  }

  /** Those of a queue. */
  queued(it: Given, status: Status): Invocation[] {
    return this.invocations.where((one) => one.status === status && one.queue === it.queue && it.paths.includes(`${one.service}/${one.handler}`) && isOf(it, one));
  }

  /** Those that can go on now, as far as their time and key say. */
  free(rows: Invocation[], now: number): Invocation[] {
    return byDue(rows.filter((one) => one.due <= now && this.mayHaveKey(one)));
  }

  /** When the rate of its queue lets one begin: now, if it lets it. */
  mayBeginAt(it: Invocation, now: number): number {
    const limits = this.queues.get(it.queue ?? '')?.limits;
    const rate = limits === undefined ? undefined : (JSON.parse(limits) as { rate?: [number, number] }).rate;
    if (rate === undefined || it.epoch > 0) return now;
    const begun = this.starts.where((one) => one.queue === it.queue && one.at > now - rate[1]).map((one) => one.at);
    return begun.length < rate[0] ? now : Math.min(...begun) + rate[1];
  }

  /** Whether one may have its key: it holds it, or nobody does and it is the first of those that wait. */
  mayHaveKey(it: Invocation): boolean {
    if (it.exclusive === 0) return true;
    const holder = this.locks.get(placed(it.service, it.key));
    if (holder !== undefined) return holder === it.id;
    const rivals = this.invocations.where((one) => one.exclusive === 1 && one.status === 'ready' && one.service === it.service && one.key === it.key);
    return rivals.every((one) => one.due > it.due || (one.due === it.due && one.seq >= it.seq));
  }

  /** Whether its time is over: to end, or to begin. */
  isLate({ status, epoch, deadline, expires }: Invocation, now: number): boolean {
    const hasNotEnded = deadline !== null && deadline <= now && status !== 'done';
    return hasNotEnded || (expires !== null && expires <= now && status === 'ready' && epoch === 0);
  }

  /** What came for one, in its order. */
  arrived(id: string): Row[] {
    return inOrder(this.inbox.where((one) => one.invocation === id)).map((one) => [one.seq, one.frame]);
  }

  /** For whom something has come. */
  reached(): Set<string> {
    return new Set(this.inbox.where((it) => it.fresh).map((it) => it.invocation));
  }

  /** When something is due, without the rates of queues. */
  times(): number[] {
    const open = this.invocations.where((it) => it.status !== 'done');
    const ready = open.filter((it) => it.status === 'ready');
    const limits = [...open.map((it) => it.deadline), ...ready.filter((it) => it.epoch === 0).map((it) => it.expires)];
    return [...this.timers.where().map((it) => it.due), ...ready.map((it) => it.due), ...limits.filter((it): it is number => it !== null)];
  }

  /** The newest of those that go on one after the other. */
  newest(id: string): string {
    const chain = this.invocations.get(id)?.chain ?? id;
    return inOrder(this.invocations.where((it) => it.chain === chain)).pop()?.id ?? id;
  }
}

function isOf(it: Given, one: Invocation): boolean {
  return one.code === null || one.code === it.code;
}

function inOrder<R extends { readonly seq: number }>(rows: R[]): R[] {
  return rows.sort((one, other) => one.seq - other.seq);
}

function byDue(rows: Invocation[]): Invocation[] {
  return rows.sort((one, other) => one.due - other.due || one.seq - other.seq);
}

interface Made {
  readonly rows: Row[];
  readonly count: number;
}

function rows(found: Row[]): Made {
  return { rows: found, count: found.length };
}

function changed(count: number): Made {
  return { rows: [], count };
}

type Does = (tables: Tables, it: Given) => Made;

const isHeld = (it: Given) => (one: Invocation): boolean => one.epoch === it.epoch && one.status === 'running';
const isFenced = (it: Given) => (one: Invocation): boolean => isHeld(it)(one) && one.entries === it.before;

/** Appends to a journal. */
function append(tables: Tables, it: Given): Made {
  tables.journal.put(it.id, [...(tables.journal.get(it.id) ?? []), ...it.frames]);
  return changed(it.frames.length);
}

/** Puts a notification into an inbox. */
function deliver(tables: Tables, it: Given): Made {
  const isOpen = (tables.invocations.get(it.invocation)?.status ?? 'done') !== 'done';
  const seq = tables.number();
  if (isOpen) tables.inbox.put(seq, { seq, invocation: it.invocation, frame: it.frame, fresh: true });
  return changed(Number(isOpen));
}

/** What the `ready`, `suspended` and `orphaned` statements give of a row. */
function candidate(it: Invocation, ...more: unknown[]): Row {
  return [it.id, it.epoch, it.exclusive, it.key, ...more];
}

function lease(tables: Tables, it: Given): Made {
  const holds = (one: Invocation): boolean => one.epoch === it.epoch;
  const count = tables.set(it.id, holds, (one) => ({
    status: 'running', epoch: one.epoch + 1, worker: it.worker, suspension: null, deaths: one.deaths + Number(one.status === 'running'), code: one.code ?? it.code,
  }));
  const one = tables.invocations.get(it.id);
  if (count === 0 || one === undefined) return rows([]);
  return rows([[
    one.key, one.seed, one.entries, one.retries, one.failing_since, one.idem, one.cancelled, one.shielded, one.exclusive, one.trace, one.failures,
    one.failed_since, one.created, one.due, one.handler,
  ]]); // prettier-ignore
}

function create(tables: Tables, it: Given): Made {
  const isTaken = tables.invocations.has(it.id) || (it.idem !== null && named(tables, it) !== undefined);
  if (isTaken) return changed(0);
  const { id, service, handler, key, exclusive, idem, seed, parent, trace, deadline, expires, queue, queue_key, priority } = it;
  const row = { ...ANEW, seq: tables.number(), id, service, handler, key, exclusive, idem, seed, parent, trace, created: it.now, due: it.due ?? it.now };
  tables.invocations.put(id, { ...row, deadline, expires, queue, queue_key, priority });
  return changed(1);
}

function named(tables: Tables, it: Given): Invocation | undefined {
  return tables.invocations.where((one) => one.service === it.service && one.handler === it.handler && one.key === it.key && one.idem === it.idem)[0];
}

/** A row for a send that is set aside. */
function setAside(tables: Tables, it: Given): Made {
  const isTaken = tables.invocations.has(it.id) || (it.idem !== null && named(tables, it) !== undefined);
  if (isTaken) return changed(0);
  const { id, service, handler, key, idem, seed, parent, trace, error, queue_key, priority } = it;
  const row = { ...ANEW, seq: tables.number(), id, service, handler, key, exclusive: 0, idem, seed, parent, trace, created: it.now, due: it.due ?? it.now, error };
  tables.invocations.put(id, { ...row, status: 'paused', unserved: true, queue: null, queue_key, priority });
  return changed(1);
}

function unserved(tables: Tables, it: Given): Made {
  const waiting = tables.invocations.where((one) => one.status === 'paused' && one.unserved && one.service === it.service && it.handlers.includes(one.handler));
  return rows(inOrder(waiting).slice(0, it.most).map((one) => [one.id, one.service, one.handler, one.key, one.idem, one.queue_key, one.due, one.trace, one.created]));
}

function inQueue(tables: Tables, it: Given): Made {
  const found = new Map<string | null, [number, number]>();
  for (const one of tables.invocations.where(({ status, queue }) => status === 'running' && queue === it.queue)) {
    const [all, own] = found.get(one.queue_key) ?? [0, 0];
    found.set(one.queue_key, [all + 1, own + Number(one.worker === it.worker)]);
  }
  return rows([...found].map(([key, counts]) => [key, ...counts]));
}

function starts(tables: Tables, it: Given): Made {
  tables.starts.take((one) => one.queue === it.queue && one.at <= it.since);
  const left = tables.starts.where((one) => one.queue === it.queue).map((one) => one.at);
  return rows([[left.length, left.length === 0 ? null : Math.min(...left)]]);
}

/** The keys of a queue that have something ready, in their order, from a first one on. */
function queueKeys(tables: Tables, it: Given): Made {
  const keys = tables.invocations.where((one) => one.status === 'ready' && one.queue === it.queue).map((one) => one.queue_key ?? '');
  return rows([...new Set(keys)].filter((key) => key >= it.first).sort().slice(0, it.most).map((key) => [key]));
}

/** What the statements of queues give of a row. */
function inTurn(it: Invocation, ...more: unknown[]): Row {
  return candidate(it, it.service, it.queue_key, ...more);
}

/** What the statements of limits of time give of rows. */
function late(found: Invocation[], most: number): Made {
  return rows(inOrder(found).slice(0, most).map((it) => [it.id, it.service, it.handler, it.key, it.exclusive, it.epoch, it.status, it.created]));
}

function gone(tables: Tables, it: Given): Made {
  tables.timers.take((one) => one.invocation === it.id);
  tables.inbox.take((one) => one.invocation === it.id);
  tables.waiters.take((one) => one.waiter === it.id);
  tables.promiseWaiters.take((one) => one.waiter === it.id);
  return changed(tables.locks.take((holder, key) => key === placed(it.service, it.key) && holder === it.id).length);
}

function continues(tables: Tables, it: Given): Made {
  const count = tables.set(it.id, isFenced(it), () => ({ entries: it.entries, status: 'done', idem: null, chain: it.chain, continued: it.next }));
  for (const [, name, value] of tables.attributes.where(([invocation]) => invocation === it.id)) tables.attributes.put(placed(it.next, name), [it.next, name, value]);
  for (const one of tables.waiters.take(({ invocation }) => invocation === it.id)) tables.waiters.put(tables.number(), { ...one, invocation: it.next });
  const lock = placed(it.service, it.key);
  if (tables.locks.get(lock) === it.id) tables.locks.put(lock, it.next);
  return changed(count);
}

const waitsForNoInbox = (it: Given) => ({ status, due }: Invocation): boolean => status === 'paused' || (status === 'ready' && due > it.now);

function reach(tables: Tables, it: Given): Made {
  return changed(tables.set(it.id, waitsForNoInbox(it), ({ status }) => ({ status: 'ready', due: it.now, ...(status === 'paused' ? PROGRESS : {}) })));
}

function promise(tables: Tables, it: Given): Made {
  const place = placed(it.service, it.key, it.name);
  if (!tables.promises.has(place)) tables.promises.put(place, { service: it.service, key: it.key, name: it.name, result: null });
  return rows([[tables.promises.get(place)?.result ?? null]]);
}

function completePromise(tables: Tables, it: Given): Made {
  const place = placed(it.service, it.key, it.name);
  tables.promises.put(place, { service: it.service, key: it.key, name: it.name, result: it.result });
  return rows(tables.promiseWaiters.take((one) => one.invocation === place).map((one) => [one.waiter, one.completes]));
}

const nothing: Does = () => changed(0);

/** Each statement of the protocol. Times of attempts, and attempts that are over, are left out: they are for people. */
const STATEMENTS: Readonly<Record<Exclude<StatementName, 'now'>, Does>> = {
  session: nothing,
  enter: (to, it) => (to.workers.put(it.worker, it.serves), changed(1)),
  beat: nothing,
  leave: (to, it) => changed(to.workers.take((_, worker) => worker === it.worker).length),
  serves: (to) => rows([...new Set(to.workers.where())].map((it) => [it])),
  create,
  input: (to, it) => append(to, { ...it, frames: [it.frame] }),
  named: (to, it) => rows([named(to, it)].flatMap((one) => (one === undefined ? [] : [[one.id]]))),
  called: (to, it) => rows([(to.journal.get(to.invocations.get(it.id)?.chain ?? it.id) ?? []).slice(0, 1)]),
  'set-aside': setAside,
  unserved,
  serve: (to, { id, exclusive, due, idem, deadline, expires, queue, queue_key }) =>
    changed(to.set(id, () => true, () => ({ status: 'ready', unserved: false, error: null, exclusive, due: due ?? 0, idem, deadline, expires, queue, queue_key }))),
  refuse: (to, { id, result, failed, error }) => changed(to.set(id, () => true, () => ({ status: 'done', unserved: false, result, failed, error }))),
  next: (to, it) => {
    const due = to.times().filter((at) => at > it.now);
    return rows([[due.length === 0 ? null : Math.min(...due)]]);
  },
  timers: (to, it) => {
    const due = to.timers.where((one) => one.due <= it.now).sort((one, other) => one.due - other.due).slice(0, 1000);
    const those = new Set(due.map((one) => one.seq));
    to.timers.take((one) => those.has(one.seq));
    return rows(due.map((one) => [one.invocation, one.completes, one.due]));
  },
  ready: (to, it) => rows(to.free(to.candidates(it, 'ready').filter((one) => one.queue === null), it.now).slice(0, it.most).map((one) => candidate(one, one.due))),
  suspended: (to, it) => {
    const reached = to.reached();
    return rows(to.candidates(it, 'suspended').filter((one) => one.queue === null && reached.has(one.id)).slice(0, it.most).map((one) => candidate(one, one.suspension, one.shielded)));
  },
  inbox: (to, it) => rows(to.arrived(it.id)),
  reached: (to, it) => rows([...to.reached()].filter((id) => it.ids.includes(id)).map((id) => [id])),
  seen: (to, it) => {
    for (const one of to.inbox.where(({ seq }) => it.seqs.includes(seq))) to.inbox.put(one.seq, { ...one, fresh: false });
    return changed(it.seqs.length);
  },
  orphaned: (to, it) => {
    const lost = to.candidates(it, 'running').filter((one) => !to.workers.has(one.worker ?? ''));
    const areAlone = (one: Invocation): boolean => one.deaths >= 1 && one.deaths <= 3;
    const inTurn = [...byDue(lost).filter((one) => !areAlone(one)), ...byDue(lost).filter(areAlone)];
    return rows(inTurn.slice(0, it.most).map((one) => candidate(one, one.due, one.deaths, one.handler, one.worker)));
  },
  deadly: (to, it) => changed(to.set(it.id, isHeld(it), (one) => ({ status: 'paused', deaths: one.deaths + 1, error: it.error }))),
  lock: (to, it) => {
    const place = placed(it.service, it.key);
    if (!to.locks.has(place)) to.locks.put(place, it.id);
    return rows([[to.locks.get(place)]]);
  },
  lease,
  journal: (to, it) => rows((to.journal.get(it.id) ?? []).map((one) => [one])),
  state: (to, it) => rows(to.state.where((one) => one.service === it.service && one.key === it.key).map((one) => [one.name, one.value])),
  fence: (to, it) => rows(to.invocations.where((one) => one.id === it.id && isFenced(it)(one)).map(() => [1])),
  append: (to, it) => append(to, { ...it, frames: [it.frame] }),
  appends: append,
  attribute: (to, it) => (to.attributes.put(placed(it.id, it.name), [it.id, it.name, it.said]), changed(1)),
  'no-attribute': (to, it) => changed(to.attributes.take(([id, name]) => id === it.id && name === it.name).length),
  timer: (to, it) => {
    const seq = to.number();
    to.timers.put(seq, { seq, due: it.due ?? 0, invocation: it.id, completes: it.completes });
    return changed(1);
  },
  set: ({ state }, { service, key, name, value }) => (state.put(placed(service, key, name), { service, key, name, value }), changed(1)),
  clear: (to, it) => changed(to.state.take((one) => one.service === it.service && one.key === it.key && one.name === it.name).length),
  'clear-all': (to, it) => changed(to.state.take((one) => one.service === it.service && one.key === it.key).length),
  promise,
  'await-promise': (to, it) => {
    to.promiseWaiters.put(to.number(), { invocation: placed(it.service, it.key, it.name), waiter: it.id, completes: it.completes });
    return changed(1);
  },
  'complete-promise': completePromise,
  grow: (to, it) => changed(to.set(it.id, isFenced(it), () => ({ entries: it.entries }))),
  progress: (to, it) => changed(to.set(it.id, (one) => one.epoch === it.epoch, () => PROGRESS)),
  steps: (to, it) => (to.set(it.id, isFenced(it), () => ({ entries: it.entries, ...PROGRESS })) === 0 ? changed(0) : append(to, it)),
  deliver,
  send: (to, it) => {
    const invocation = to.newest(it.invocation);
    return rows(deliver(to, { ...it, invocation }).count === 0 ? [] : [[invocation]]);
  },
  keep: nothing,
  newest: (to, it) => rows([[to.newest(it.invocation)]]),
  result: (to, it) => rows(to.invocations.where((one) => one.id === it.invocation).map((one) => [one.result])),
  look: (to, it) => rows(to.invocations.where((one) => one.id === it.invocation).map((one) => [one.status, one.result])),
  wait: (to, it) => (to.waiters.put(to.number(), { invocation: it.invocation, waiter: it.id, completes: it.completes }), changed(1)),
  delivered: (to, it) => changed(to.inbox.take((one) => it.seqs.includes(one.seq)).length),
  cancelled: (to, it) => changed(to.set(it.id, (one) => one.epoch === it.epoch, () => ({ cancelled: it.now }))),
  suspend: (to, it) => changed(to.set(it.id, isFenced(it), () => ({ entries: it.entries, status: it.status, due: it.now, suspension: it.suspension, shielded: it.shielded, deaths: 0 }))),
  end: (to, it) => changed(to.set(it.id, isFenced(it), () => ({ entries: it.entries, status: 'done', result: it.result, failed: it.failed, error: it.error }))),
  ended: (to, it) => rows(to.waiters.take((one) => one.invocation === it.id).map((one) => [one.waiter, one.completes])),
  gone,
  continued: (to, it) => rows(to.invocations.where((one) => one.id === it.id).map((one) => [
    one.idem, one.chain ?? one.id, one.parent, one.trace, one.queue, one.queue_key, one.priority,
  ])),
  take: nothing,
  continue: continues,
  left: (to, it) => rows(to.arrived(it.id)),
  chain: (to, it) => changed(to.set(it.id, () => true, () => ({ chain: it.chain }))),
  fail: (to, { id, entries, status, due, error, retries, failing_since, failures, failed_since, ...it }) =>
    changed(to.set(id, isFenced({ id, entries, status, due, error, retries, failing_since, failures, failed_since, ...it }), () => ({
      entries, status, due: due ?? 0, error, deaths: 0, retries, failing_since, failures, failed_since,
    }))), // prettier-ignore
  pause: (to, it) => changed(to.set(it.id, isHeld(it), () => ({ status: 'paused', error: it.error }))),
  release: (to, it) => changed(to.set(it.id, isHeld(it), () => ({ status: 'ready', due: it.now }))),
  'enter-limit': nothing,
  'enter-queue': ({ queues }, { queue, limits }) => (queues.put(queue ?? '', { limits, last: queues.get(queue ?? '')?.last ?? null }), changed(1)),
  open: (to) => rows(to.invocations.where((one) => one.status !== 'done').map((one) => [one.service, one.handler, one.queue])),
  requeue: (to, it) => {
    const those = to.invocations.where((one) => one.status !== 'done' && one.service === it.service && one.handler === it.handler);
    for (const one of those) to.set(one.id, () => true, () => ({ queue: it.queue, queue_key: one.queue_key ?? one.key }));
    return changed(those.length);
  },
  running: (to, it) => rows([[to.invocations.where((one) => one.status === 'running' && one.service === it.service && one.handler === it.handler).length]]),
  'in-queue': inQueue,
  starts,
  started: (to, it) => (to.starts.put(to.number(), { queue: it.queue ?? '', at: it.now }), changed(1)),
  'queue-suspended': (to, it) => {
    const reached = to.reached();
    return rows(to.queued(it, 'suspended').filter((one) => reached.has(one.id) && !it.full.includes(one.queue_key ?? '')).slice(0, it.most).map((one) => inTurn(one, one.suspension, one.shielded)));
  },
  'queue-again': (to, it) => {
    const again = to.queued(it, 'ready').filter((one) => one.epoch > 0 && !it.full.includes(one.queue_key ?? ''));
    return rows(to.free(again, it.now).slice(0, it.most).map((one) => inTurn(one)));
  },
  'queue-last': (to, it) => rows([[to.queues.get(it.queue ?? '')?.last ?? null]]),
  'queue-keys': queueKeys,
  'queue-first': (to, it) => {
    const found = to.free(to.queued(it, 'ready').filter((one) => one.epoch === 0 && one.queue_key === it.queue_key), it.now);
    return rows(found.sort((one, other) => other.priority - one.priority || one.due - other.due || one.seq - other.seq).slice(0, it.most).map((one) => inTurn(one)));
  },
  'queue-turn': ({ queues }, { queue, last }) => (queues.put(queue ?? '', { limits: queues.get(queue ?? '')?.limits ?? '{}', last }), changed(1)),
  unended: (to, it) => late(to.invocations.where((one) => to.isLate({ ...one, expires: null }, it.now)), it.most),
  unbegun: (to, it) => late(to.invocations.where((one) => to.isLate({ ...one, deadline: null }, it.now)), it.most),
  calls: (to, it) => rows(to.waiters.where((one) => one.waiter === it.id && to.invocations.get(one.invocation)?.parent === it.id).map((one) => [one.invocation])),
  overdue: (to, { id, result, failed, error }) => changed(to.set(id, () => true, () => ({ status: 'done', result, failed, error }))),
  'keep-progress': (to, it) => {
    const isHere = to.invocations.where((one) => one.id === it.id && isHeld(it)(one)).length > 0;
    if (isHere) to.progress.put(placed(it.id, `${it.run}`), it.value);
    return changed(Number(isHere));
  },
  'last-progress': (to, it) => rows([to.progress.get(placed(it.id, `${it.run}`))].filter((one) => one !== undefined).map((one) => [one])),
  notify: nothing,
  tell: nothing,
  reach,
  unreached: (to, it) => {
    const those = new Set(to.inbox.where((one) => one.fresh && Buffer.compare(one.frame, it.frame) === 0).map((one) => one.invocation));
    return rows(to.invocations.where((one) => those.has(one.id) && waitsForNoInbox(it)(one)).map((one) => [one.id]));
  },
};

/** A transaction: the words of its commit, and its statements. */
class InMemory implements Statements, Committed {
  readonly touched = new Set<string>();
  readonly endings = new Map<string, Ended>();
  readonly stopped = new Set<string>();
  readonly notes: Note[] = [];
  isReady = false;
  due: number | undefined;

  constructor(private readonly tables: Tables, readonly now: number) {}

  #made(name: StatementName, values: Values): Made {
    return name === 'now' ? rows([[this.now]]) : STATEMENTS[name](this.tables, values as unknown as Given);
  }

  async rows(name: StatementName, values: Values): Promise<readonly Row[]> {
    return this.#made(name, values).rows;
  }

  async change(name: StatementName, values: Values): Promise<number> {
    return this.#made(name, values).count;
  }

  say(): void {
    this.isReady = true;
  }

  touch(invocation: string): void {
    this.touched.add(invocation);
  }

  isDue(at: number): void {
    this.due = Math.min(this.due ?? at, at);
  }

  ended(invocation: string, it: Ended): void {
    this.endings.set(invocation, it);
  }

  stops(invocation: string): void {
    this.stopped.add(invocation);
  }

  note(it: Note): void {
    this.notes.push(it);
  }

  /** What others hear of it. */
  get words(): string[] {
    const some = (what: string, ids: readonly string[]): string[] => (ids.length === 0 ? [] : [`${what} ${ids.join(' ')}`]);
    return [...(this.isReady ? ['ready'] : []), ...some('ended', [...this.endings.keys()]), ...some('stopped', [...this.stopped]), ...some('to', [...this.touched])];
  }
}

/** One who works with it: a worker's session, or a client. */
class Session implements Store {
  readonly connections = 1;
  committed: Store['committed'] = () => undefined;
  told: Store['told'] = () => undefined;
  onLost: Store['onLost'] = () => undefined;

  /** `isMortal`: it may be lost at a commit. */
  constructor(private readonly memory: Memory, readonly isMortal: boolean) {}

  /** Why nothing more of it is stored. */
  lost: Lost | undefined;

  now(): number {
    return this.memory.now();
  }

  async asksTime(): Promise<number> {
    return this.memory.now();
  }

  transact<T>(operation: (to: Statements) => Promise<T>): Promise<T> {
    return this.memory.transact(this, operation);
  }

  isLost(lost: Lost): void {
    this.lost = lost;
    this.onLost(lost);
  }

  async close(): Promise<void> {
    // the next session goes on with what is there
  }
}

/** The store, for a worker and its clients within one process. It stays when a session with it ends. */
export class Memory implements Place {
  readonly again = 1;
  readonly tables = new Tables();
  /** Milliseconds by which its clock is ahead. */
  skipped = 0;
  commits = 0;
  /** The number of the commit at which it is lost, and whether that one is stored. */
  dies = 0;
  isStored = false;
  readonly #hears = new Map<Store, Set<(word: string) => void>>();
  #last: Promise<unknown> = Promise.resolve();

  /** Its time, in seconds since the epoch. */
  now(): number {
    return (Date.now() + this.skipped) / 1000;
  }

  async open(): Promise<Store> {
    return new Session(this, true);
  }

  /** For who isn't lost with the worker. */
  beside(): Store {
    return new Session(this, false);
  }

  async hears(_: string, store: Store, heard: (word: string) => void): Promise<Ends> {
    const all = this.#hears.get(store) ?? new Set();
    this.#hears.set(store, all.add(heard));
    return { end: async () => void this.#hears.delete(store) };
  }

  beats(): Ends {
    return { end: async () => undefined };
  }

  /** All hear a word. */
  say(word: string): void {
    for (const all of this.#hears.values()) for (const heard of all) heard(word);
  }

  /** Commits an operation, one after the other. */
  transact<T>(by: Session, operation: (to: Statements) => Promise<T>): Promise<T> {
    const made = this.#last.then(() => this.#once(by, operation));
    this.#last = made.catch(() => undefined);
    return made;
  }

  async #once<T>(by: Session, operation: (to: Statements) => Promise<T>): Promise<T> {
    if (by.lost !== undefined) throw by.lost;
    const begun = performance.now();
    const to = new InMemory(this.tables, this.now());
    try {
      const result = await operation(to);
      this.#commit(by);
      by.committed(performance.now() - begun);
      by.told(to);
      for (const [store, all] of this.#hears) if (store !== by) for (const word of to.words) for (const heard of all) heard(word);
      return result;
    } catch (error) {
      for (const back of this.tables.undo.splice(0).reverse()) back();
      throw error;
    }
  }

  /** What has changed something counts, of those that may be lost. */
  #commit(by: Session): void {
    const { undo } = this.tables;
    this.commits += Number(by.isMortal && undo.length > 0);
    const dies = by.isMortal && undo.length > 0 && this.commits === this.dies;
    if (!dies || this.isStored) undo.length = 0;
    if (!dies) return;
    by.isLost(new Lost('the test lets the worker die here'));
    throw by.lost;
  }
}
