/** The transactions of a worker beside its attempts: it enters, timers fire, and invocations that can go on are claimed. */

import { Journal, StatusError, frames } from 'palqytun';
import { endLate } from './deadlines';
import { deliver } from './delivery';
import { storable } from './errors';
import { CANCEL, VOID, failure, patchesIn, startFrame } from './frames';
import { traceOf } from './hash';
import type { Event } from './notes';
import { Room, again, first, handlersOf, pathOf, queuesOf } from './queueing';
import type { Queued } from './queueing';
import type { Queue } from './queues';
import type { Codec } from './sealing';
import { ATTEMPTS } from './services';
import type { About, AnyHandler } from './services';
import { arrivals, endUnbegun, moves, wakes } from './storing';
import type { Claim } from './storing';
import type { Statements } from './tables';
import { serves } from './unserved';

const SUSPECT = 2; // attempts in a row that were lost with their workers: then it is claimed alone
const MOST_LOST = 5; // and then it isn't claimed any more
const ALONE = 1; // seconds for which one that may end its worker is alone with it
const TIMERS = 1000; // that one transaction fires, by the statement
const HANDED_OUT = 1 << 18; // bytes of a key's values that an attempt is handed

/** Whose claims these are. */
export interface Claimer {
  readonly worker: string;
  readonly code: string;
  readonly services: ReadonlyMap<string, About>;
  readonly codec: Codec;
  /** When the last suspect was claimed, by the database's time. */
  suspected: number;
  /** How many looks there were. */
  looks: number;
}

/** What a look has found. */
export interface Look {
  readonly claims: Claim[];
  /** It took all that it might, so there may be more. */
  hasMore: boolean;
  /** So it is for suspended ones for which something came. */
  hasMoreCome: boolean;
  /** When something is due, in seconds since the epoch. */
  nextDue: number | null;
  /** How late timers have fired, and ready invocations were claimed, in seconds. */
  readonly lags: number[];
  readonly delays: [claim: Claim, seconds: number][];
  /** There may be more of what only a whole look looks for. */
  isPartial: boolean;
  /** Those that have an attempt here, and for which something came: a word may have been missed. */
  readonly reached: string[];
}

type Row = readonly unknown[];

async function fires(to: Statements, found: Look): Promise<void> {
  const rows = await to.rows('timers', { now: to.now });
  for (const [invocation, completes, due] of rows) {
    found.lags.push(to.now - (due as number));
    await deliver(to, String(invocation), frames.completion(completes as number, VOID()));
  }
  if (rows.length === TIMERS) found.nextDue = to.now;
}

/** Cancellations reach those that wait for no inbox, and that came to wait while these were sent. */
async function reaches(to: Statements): Promise<void> {
  for (const [id] of await to.rows('unreached', { frame: CANCEL(), now: to.now })) await to.change('reach', { id, now: to.now });
}

/** What a look looks for beside what is ready: all, timers that are due, and suspended ones for which something came. */
export interface Asked {
  readonly isWhole: boolean;
  readonly isDue: boolean;
  readonly hasCome: boolean;
}

/** A look, as it goes on. */
class Looking {
  readonly found: Look = { claims: [], hasMore: false, hasMoreCome: false, nextDue: null, lags: [], delays: [], isPartial: false, reached: [] };

  constructor(readonly to: Statements, readonly claimer: Claimer, private readonly asked: Asked, private readonly live: ReadonlySet<string>, private readonly room: number) {}

  /** How many may be claimed yet. */
  get left(): number {
    return this.room - this.found.claims.length;
  }

  /** Whether something may have come for suspended ones. */
  get hasCome(): boolean {
    return this.asked.hasCome || this.found.lags.length > 0;
  }

  async claims(service: string, row: Row, isReady: boolean): Promise<void> {
    const about = this.claimer.services.get(service);
    if (about !== undefined) await claims(this.to, this.claimer, about, row, this.found, this.live, isReady);
  }

  /** Those of one service, of handlers without a queue, of which so many may begin. `lost` are those that have lost their worker: they come by their age. */
  async ofHandlers(service: string, handlers: readonly string[], most: number, lost: readonly Row[] = []): Promise<void> {
    const { to, found } = this;
    const own = { service, handlers, code: this.claimer.code };
    const before = found.claims.length;
    const left = (): number => Math.min(this.left, most - (found.claims.length - before));
    if (handlers.length + lost.length === 0 || left() <= 0) return;
    const room = left();
    const suspended = this.hasCome ? await to.rows('suspended', { ...own, most: room }) : [];
    await this.woken(suspended, room, 4, (row) => this.claims(service, row, false));
    const ready = left() > 0 ? await to.rows('ready', { ...own, now: to.now, most: left() }) : [];
    let [taken, ago] = [0, 0];
    for (const { row, isReady } of byAge(ready, lost)) {
      ago = found.claims.length;
      if (left() <= 0) found.isPartial ||= !isReady;
      else if (isReady) await this.claims(service, row, true);
      else await this.orphan(service, row);
      if (!isReady) taken += found.claims.length - ago;
    }
    found.isPartial ||= lost.length === room && taken > 0; // if none may go on yet, they are looked at by and by
  }

  /** Those of a handler that has a limit. Its row is kept until the commit, so two workers don't count at one time. */
  async limited({ service, name: handler, limit = 0 }: AnyHandler): Promise<void> {
    if (this.left <= 0) return;
    const [running] = (await this.to.rows('running', { path: `${service}/${handler}`, service, handler }))[0] as [number];
    await this.ofHandlers(service, [handler], limit - Number(running));
  }

  /** Those of handlers that have a limit or a queue. */
  async limits(handlers: readonly AnyHandler[]): Promise<void> {
    const limited = handlers.filter((one) => one.limit !== undefined);
    for (const one of limited.sort((first, second) => (pathOf(first) < pathOf(second) ? -1 : 1))) await this.limited(one);
    for (const queue of queuesOf(this.claimer.services)) await this.queued(queue);
  }

  async queued(queue: Queue): Promise<void> {
    if (this.left <= 0) return;
    const { to, found, claimer } = this;
    const it = await Room.of(to, queue, claimer.worker, this.left);
    const own = { worker: claimer.worker, code: claimer.code, paths: handlersOf(claimer.services).map(pathOf) };
    const room = it.free;
    const suspended = this.hasCome && room > 0 ? await to.rows('queue-suspended', { queue: queue.name, ...own, full: it.full, most: room }) : [];
    await this.woken(suspended as unknown as readonly Queued[], room, 6, async (row) => {
      if (it.takes(row[5], false)) await this.claims(row[4], row, false);
    });
    for (const which of [again, first]) {
      const { rows, hasMore } = await which(to, it, own);
      for (const row of rows) await this.claims(row[4], row, true);
      found.hasMore ||= hasMore;
    }
    if (it.later !== null) found.nextDue = Math.min(it.later, found.nextDue ?? Infinity);
  }

  /** Claims those of some suspended ones that their inboxes wake. If these are as many as were asked for, there may be more; but if all of these stay as they
   * are, a look at once would find the same. `at` is the place of a row's suspension. */
  async woken<R extends Row>(rows: readonly R[], most: number, at: number, claims: (row: R) => Promise<void>): Promise<void> {
    const before = this.found.claims.length;
    let seen = 0;
    for (const row of rows) {
      if (await this.isWoken(row[0], row[at], row[at + 1])) await claims(row);
      else seen += 1;
    }
    const hasMoved = this.found.claims.length > before || seen > 0;
    this.found.hasMoreCome ||= rows.length === most && hasMoved;
  }

  /** Whether its inbox wakes a suspended one. One that it doesn't wake isn't looked at again for that. */
  async isWoken(id: unknown, suspension: unknown, shielded: unknown): Promise<boolean> {
    const inbox = await this.to.rows('inbox', { id });
    if (wakes(suspension as Uint8Array, inbox.map((one) => one[1] as Uint8Array), shielded === 1)) return true;
    if (inbox.length > 0) await this.to.change('seen', { id, seqs: inbox.map(([seq]) => seq) });
    return false;
  }

  /** Those whose worker isn't alive, in the order in which they were due. They are counted as running already, so no limit keeps them out. */
  async orphaned({ name: service, handlers }: About): Promise<readonly Row[]> {
    return this.left <= 0 ? [] : this.to.rows('orphaned', { service, handlers: [...handlers.keys()], code: this.claimer.code, most: this.left });
  }

  /** One whose worker isn't alive. */
  async orphan(service: string, row: Row): Promise<void> {
    if (!this.live.has(String(row[0])) && (await mayGoOn(this.to, this.claimer, service, row))) await this.claims(service, row, false);
  }

  /** Those that have an attempt here, and for which something came. Each word goes to the worker that had the lease as it was sent. */
  async reached(): Promise<void> {
    const rows = this.live.size === 0 ? [] : await this.to.rows('reached', { ids: [...this.live] });
    this.found.reached.push(...rows.map(([id]) => String(id)));
  }
}

/** Ready ones, and those that have lost their worker, in the order in which they were due. Both are in it. */
function byAge(ready: readonly Row[], lost: readonly Row[]): { row: Row; isReady: boolean }[] {
  const both = [...lost.map((row) => ({ row, isReady: false })), ...ready.map((row) => ({ row, isReady: true }))];
  return both.sort((one, other) => (one.row[4] as number) - (other.row[4] as number));
}

/** The services, from one of them on. */
function fromTurn(services: readonly About[], turn: number): readonly About[] {
  const at = services.length === 0 ? 0 : turn % services.length;
  return [...services.slice(at), ...services.slice(0, at)];
}

/** Fires the timers that are due, and claims at most `room` invocations that can go on; `live` are those that have an attempt here. Each service comes first
 * in its turn, and what has a limit or a queue in every second look: so none keeps the others out. */
export async function look(to: Statements, claimer: Claimer, asked: Asked, live: ReadonlySet<string>, room: number): Promise<Look> {
  const it = new Looking(to, claimer, asked, live, room);
  const { found } = it;
  const handlers = handlersOf(claimer.services);
  if (asked.isWhole) found.isPartial = await serves(to, claimer.services);
  if (asked.isWhole) await reaches(to);
  if (asked.isWhole) await it.reached();
  if (asked.isDue) await fires(to, found);
  if (asked.isDue) await endLate(to);
  const turn = claimer.looks++;
  if (turn % 2 === 1) await it.limits(handlers);
  for (const about of fromTurn([...claimer.services.values()], Math.trunc(turn / 2))) {
    const own = [...about.handlers.values()].filter((one) => one.limit === undefined && one.queue === undefined);
    const lost = asked.isWhole ? await it.orphaned(about) : [];
    await it.ofHandlers(about.name, own.map((one) => one.name), Infinity, lost);
  }
  if (turn % 2 === 0) await it.limits(handlers);
  const next = asked.isDue ? (((await to.rows('next', { now: to.now }))[0]?.[0] ?? null) as number | null) : null;
  if (next !== null) found.nextDue = Math.min(next, found.nextDue ?? Infinity);
  found.hasMore ||= found.hasMoreCome || it.left <= 0;
  found.hasMoreCome ||= it.left <= 0 && it.hasCome; // those after the last one weren't looked at
  return found;
}

/** Whether one that was lost with its worker is claimed again. One that ends workers is alone with one, and at last it is paused. */
async function mayGoOn(to: Statements, claimer: Claimer, service: string, row: Row): Promise<boolean> {
  const [id, epoch, , , , deaths, handler, worker] = row as [string, number, number, string, number, number, string, string];
  const note = (event: Event, error: string): void => to.note({ event, invocation: id, service, handler, attempt: epoch, error });
  const lost = deaths + 1;
  if (lost >= MOST_LOST) {
    const error = `${lost} attempts in a row were lost with their workers before they stored anything: see how these ended, and then resume it`;
    await to.change('deadly', { id, epoch, now: to.now, error });
    note('paused', error);
    return false;
  }
  if (lost >= SUSPECT) {
    if (to.now < claimer.suspected + ALONE) return false;
    claimer.suspected = to.now;
  }
  note('attempt lost', `its worker ${worker} isn't alive`);
  return true;
}

async function claims(to: Statements, claimer: Claimer, about: About, row: Row, found: Look, live: ReadonlySet<string>, isReady: boolean): Promise<void> {
  const [id, epoch, exclusive, key] = row as [string, number, number, string];
  if (live.has(id)) return; // its attempt here has lost its lease, and doesn't know it yet
  if (exclusive === 1) {
    const holder = (await to.rows('lock', { service: about.name, key, id }))[0]?.[0];
    if (holder !== id) return;
  }
  const lease = (await to.rows('lease', { id, epoch, worker: claimer.worker, code: claimer.code, now: to.now }))[0];
  if (lease === undefined) return;
  const claim = await loaded(to, claimer, about, id, epoch + 1, lease);
  if (claim === undefined) return;
  if (epoch === 0 && Number(lease[2]) === 1 && claim.cancelWaits) { // one that is restarted from a step has those of before, which its handler may undo
    await endUnbegun(to, claim, failure(409, 'cancelled'));
    claim.journal.close();
    return;
  }
  found.claims.push(claim);
  const { queue } = about.handlers.get(claim.handler) ?? {};
  if (epoch === 0 && queue?.rate !== undefined) await to.change('started', { queue: queue.name, now: to.now });
  if (isReady) found.delays.push([claim, to.now - (lease[13] as number)]);
}

/** The small values of a key's state, and whether these are all. */
async function stateOf(to: Statements, service: string, key: string): Promise<{ state: [string, Uint8Array][]; partial: boolean }> {
  const rows = (await to.rows('state', { service, key })) as readonly (readonly [string, Uint8Array])[];
  let total = 0;
  const taken = [...rows].sort((one, other) => one[1].length - other[1].length).filter(([, value]) => (total += value.length) <= HANDED_OUT);
  return { state: taken.sort(([one], [other]) => (one < other ? -1 : 1)).map(([name, value]) => [name, value]), partial: taken.length < rows.length };
}

async function loaded(to: Statements, claimer: Claimer, about: About, id: string, epoch: number, lease: Row): Promise<Claim | undefined> {
  const [key, seed, entries, retries, failingSince, idem, cancelled, shielded, exclusive, trace, failures, failedSince, created, , handler] = lease as [
    string, number | bigint, number, number, number | null, string | null, number | null, number, number, string | null, number, number | null, number,
    number, string,
  ]; // prettier-ignore
  const journal = new Journal();
  const known = about.handlers.get(handler);
  try {
    const stored = (await to.rows('journal', { id })).map(([frame]) => frame as Uint8Array);
    for (const frame of stored) journal.entry(frame);
    journal.keep();
    if (stored.length !== entries) throw new Error(`the journal has ${stored.length} of ${entries} entries`);
    const came = arrivals({ journal, wasCancelled: cancelled !== null }, await to.rows('inbox', { id }), false);
    await moves(to, { id, epoch, journal }, came, entries);
    journal.keep(); // if the commit fails, the claim is thrown away
    const all = [...stored, ...came.rows.map((it) => it.frame)];
    const { state, partial } = exclusive === 1 && key !== '' ? await stateOf(to, about.name, key) : { state: [], partial: key !== '' };
    const failing = retries > 0 && failingSince !== null ? Math.max(0, Math.trunc((to.now - failingSince) * 1000)) : 0;
    const start = startFrame({ id, key, seed: BigInt(seed), known: all.length, state, partial, retries, failing, idempotencyKey: idem || null });
    return {
      id, epoch, service: about.name, handler, key, exclusive: exclusive === 1, services: claimer.services, codec: claimer.codec, trace: traceOf(id, trace).header,
      begun: to.now, created, retry: known?.retry ?? ATTEMPTS,
      isLimited: known?.limit !== undefined || known?.queue !== undefined, journal, fed: Buffer.concat([start, ...all]), patches: patchesIn(all),
      counters: { retries, failingSince, failures, failedSince },
      wasCancelled: cancelled !== null, cancelWaits: came.cancel === 'waits', isShielded: shielded === 1, byRun: false,
    }; // prettier-ignore
  } catch (error) {
    journal.close();
    if (!(error instanceof StatusError)) throw error;
    const text = storable(`the stored journal is broken: ${error.message}`);
    await to.change('pause', { id, epoch, now: to.now, error: text });
    to.note({ event: 'paused', invocation: id, service: about.name, handler, attempt: epoch, error: text });
    return undefined;
  }
}
