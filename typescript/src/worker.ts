/** The worker: it takes leases, makes attempts, and commits what they write. It goes on when its database is lost and comes back. */

import { randomBytes } from 'node:crypto';
import { Attempt, LONGEST_TIMER, Stopped } from './attempt';
import type { Host } from './attempt';
import { look } from './claiming';
import type { Claimer, Look } from './claiming';
import { StatementFailed } from './database';
import { checkUrl, said, shown, storable } from './errors';
import { Log } from './log';
import type { LogOptions } from './log';
import { Meter } from './metrics';
import { tell } from './notes';
import { Postgres } from './postgres';
import { enter, handlersOf } from './queueing';
import { JSON_CODEC } from './sealing';
import type { Codec } from './sealing';
import { servesText, servicesOf, versionOf } from './services';
import type { About, AnyService } from './services';
import { Fenced, isSteps, pull, release, store } from './storing';
import type { Claim, Outcome } from './storing';
import { Lost } from './tables';
import type { Committed, Ends, Place, Statements, Store } from './tables';

/** Times are in milliseconds. */
export interface WorkerOptions {
  /** The database: `postgresql://..`. */
  url: string;
  services: readonly AnyService[];
  /** What the worker's name begins with. */
  name?: string;
  /** The version of this code: invocations stay with the version that began them. Without it, a hash of the handlers' sources. */
  version?: string;
  /** Attempts at once: 500. */
  limit?: number;
  /** After which an attempt that waits is suspended: 1,000. */
  idle?: number;
  /** After which a worker without a beat is thought dead: 10,000. */
  lease?: number;
  /** After which the database is looked at again if nothing is known to be due: 1,000. */
  poll?: number;
  /** In which runs that are executed may end after `stop`: 10,000. */
  grace?: number;
  /** After which the process ends if its loop does nothing: 60,000; 0 is never. */
  stuck?: number;
  /** Runs at once: 1,000. */
  effects?: number;
  /** Connections for transactions: 8. */
  connections?: number;
  /** How values are bytes: JSON; or a `Sealed`, by which they are encrypted. */
  codec?: Codec;
  log?: LogOptions | Log;
}

export const GRACE = 10_000; // milliseconds
const LONGEST = 5_000; // milliseconds between connections
const AT_ONCE = 20; // claims of one transaction, so that other workers get some too
const MOMENT = 5; // milliseconds, in which several words are one look
const LAST = 5_000; // milliseconds that each part of a shutdown may take, beside the grace
const NUMBERS = ['limit', 'idle', 'lease', 'poll', 'grace', 'stuck', 'effects', 'connections'] as const;
const COUNTS = new Set<string>(['limit', 'effects', 'connections']);
const MAY_BE_NOTHING = new Set<string>(['idle', 'grace', 'stuck']);

function checked(options: WorkerOptions): void {
  checkUrl(options.url);
  for (const name of NUMBERS) {
    const given = options[name];
    const least = MAY_BE_NOTHING.has(name) ? 0 : 1;
    const most = COUNTS.has(name) ? Infinity : LONGEST_TIMER;
    if (given !== undefined && !(typeof given === 'number' && given >= least && given < Infinity)) throw new RangeError(`${name} must be a number from ${least}, not ${shown(given)}`);
    if (given !== undefined && given > most) throw new RangeError(`${name} must be at most ${most} milliseconds, which is all that a timer takes, not ${shown(given)}`);
  }
}

function after(milliseconds: number): Promise<void> {
  return new Promise((done) => setTimeout(done, milliseconds));
}

/** So many at once; others wait for their turn. */
class Room {
  #free: number;
  readonly #waiting: (() => void)[] = [];

  constructor(private readonly size: number) {
    this.#free = size;
  }

  /** How many are within it. */
  get busy(): number {
    return this.size - this.#free;
  }

  async within<T>(does: () => Promise<T>): Promise<T> {
    if (this.#free > 0) this.#free -= 1;
    else await new Promise<void>((turn) => this.#waiting.push(turn));
    try {
      return await does();
    } finally {
      const next = this.#waiting.shift();
      if (next === undefined) this.#free += 1;
      else next();
    }
  }
}

/** What a test gives a worker: its store, and what is executed instead of runs, by their names. */
export interface Inside {
  readonly place?: Place;
  readonly instead?: Host['instead'];
}

/** What a session has beside its connections, until it is over. */
interface Session {
  isOver: boolean;
  lost?: Lost;
  hears?: Ends;
  beats?: Ends;
}

/** A worker of some services. */
export class Worker implements Host {
  readonly meter = new Meter();
  readonly log: Log;
  readonly version: string;
  readonly codec: Codec;
  readonly instead: Host['instead'];
  readonly #options: Required<Omit<WorkerOptions, 'codec' | 'log' | 'services' | 'version'>>;
  readonly #services: ReadonlyMap<string, About>;
  readonly #hasLimits: boolean;
  readonly #live = new Map<string, Attempt>();
  readonly #effects: Room;
  readonly #pulse = new Int32Array(new SharedArrayBuffer(4));
  readonly #place: Place;
  #db: Store | undefined;
  #former = '';
  #lookAt = 0;
  #wakeUp: () => void = () => undefined;
  #giveUp: () => void = () => undefined;
  #hasMore = false;
  #hasCome = false; // for an invocation that has no attempt here
  #dueAt = 0; // when something is due first, in seconds since the epoch
  #wholeAt = 0; // when a look looks for all, by the monotonic clock
  #isStopping = false;
  #opened: () => void = () => undefined;
  #lastBeat = performance.now();
  #hears: (ended: readonly string[]) => void = () => undefined;
  /** Ends when the database can be used for the first time. */
  readonly isOpen: Promise<void>;

  /** @internal */
  constructor(options: WorkerOptions, inside: Inside);
  constructor(options: WorkerOptions);
  constructor(options: WorkerOptions, inside: Inside = {}) {
    checked(options);
    this.#services = servicesOf(options.services);
    this.#hasLimits = handlersOf(this.#services).some((it) => it.limit !== undefined || it.queue !== undefined);
    this.version = options.version ?? versionOf(this.#services);
    this.codec = options.codec ?? JSON_CODEC;
    this.log = options.log instanceof Log ? options.log : new Log(options.log);
    const defaults = { name: 'node', limit: 500, idle: 1000, lease: 10_000, poll: 1000, grace: GRACE, stuck: 60_000, effects: 1000, connections: 8 };
    this.#options = { ...defaults, ...Object.fromEntries(Object.entries(options).filter(([, it]) => it !== undefined)), url: options.url };
    const { lease, stuck } = this.#options;
    this.instead = inside.instead ?? new Map<string, never>();
    this.#place = inside.place ?? new Postgres(options.url, this.log, { lease, stuck, pulse: this.#pulse });
    this.#effects = new Room(this.#options.effects);
    this.isOpen = new Promise((opened) => {
      this.#opened = opened;
    });
  }

  /** How many attempts there are. @internal */
  get live(): number {
    return this.#live.size;
  }

  /** How many runs are executed. @internal */
  get executing(): number {
    return this.#effects.busy;
  }

  // ---- what attempts need

  get drains(): boolean {
    return this.#isStopping;
  }

  get patience(): number {
    return this.#live.size < this.#options.limit / 2 && !this.drains ? this.#options.idle : 0;
  }

  now(): number {
    return this.#db?.now() ?? Date.now() / 1000;
  }

  async store(claim: Claim, output: Uint8Array): Promise<Outcome> {
    const found = await this.#transact((to) => store(to, claim, output), isSteps(output));
    claim.journal.keep();
    return found;
  }

  async pull(claim: Claim): Promise<Outcome> {
    const found = await this.#transact((to) => pull(to, claim));
    claim.journal.keep();
    claim.cancelWaits = found.cancel === 'waits';
    claim.wasCancelled ||= found.cancel === 'taken';
    return found;
  }

  async release(claim: Claim): Promise<Outcome> {
    return this.#transact((to) => release(to, claim));
  }

  beside<T>(operation: (to: Statements) => Promise<T>): Promise<T> {
    return this.#transact(operation);
  }

  effect<T>(does: () => Promise<T>): Promise<T> {
    return this.#effects.within(does);
  }

  async #transact<T>(operation: (to: Statements) => Promise<T>, isSingle = false): Promise<T> {
    if (this.#db === undefined) throw new Stopped('the database is lost');
    return this.#db.transact(operation, isSingle);
  }

  // ---- words

  #touched(invocation: string): void {
    const attempt = this.#live.get(invocation);
    if (attempt !== undefined) attempt.poke();
    else {
      this.#hasCome = true;
      this.#wake(MOMENT);
    }
  }

  /** Something can be claimed. If a limit or a queue has room by it, that may be a suspended one for which something came before. */
  #isReady(): void {
    this.#hasCome ||= this.#hasLimits;
    this.#wake(MOMENT);
  }

  /** Something is due at this time, in seconds since the epoch. */
  #wakeAt(due: number): void {
    this.#dueAt = Math.min(this.#dueAt, due);
    this.#wake(Math.max(0, (due - this.now()) * 1000));
  }

  /** The database is looked at after so many milliseconds, if not before. */
  #wake(milliseconds: number): void {
    const at = performance.now() + milliseconds;
    if (at >= this.#lookAt) return;
    this.#lookAt = at;
    this.#wakeUp();
  }

  #heard(word: string): void {
    const [what, ...some] = word.split(' ');
    if (what === 'ready') this.#isReady();
    else if (what === 'to') some.forEach((it) => this.#touched(it));
    else if (what === 'stopped') some.forEach((it) => this.#live.get(it)?.stop());
    else if (what === 'ended') this.#hears(some);
  }

  // ---- sessions

  /** Until `stop`. A lost database is connected to again; one that can't be used as it is set up is `Unsuitable`. */
  async run(): Promise<void> {
    const counts = setInterval(() => Atomics.add(this.#pulse, 0, 1), 50).unref();
    const shortest = this.#place.again;
    let delay = shortest;
    try {
      while (!this.drains) {
        const begun = performance.now();
        try {
          await this.#session();
        } catch (error) {
          if (!(error instanceof Lost)) throw error;
          this.log.warning(`the database is lost: ${error.message}`);
          delay = performance.now() - begun > LONGEST ? shortest : Math.min(LONGEST, delay * 2);
          await this.#pause(delay * (0.5 + Math.random()));
        }
      }
    } finally {
      clearInterval(counts);
    }
  }

  /** `run` ends once the runs that are executed have ended, or the grace is over. What isn't finished is claimed by the next worker. */
  stop(): void {
    this.#isStopping = true;
    this.#wakeUp();
    setTimeout(() => this.#giveUp(), LAST).unref();
    for (const it of this.#live.values()) it.ring();
  }

  async #pause(milliseconds: number): Promise<void> {
    this.#lookAt = performance.now() + milliseconds;
    await this.#until();
  }

  /** As long as the database can be used. Each session is a worker of its own, so what an earlier one left is claimed like any other's. */
  async #session(): Promise<void> {
    const db = await this.#place.open(this.#options.connections);
    const session: Session = { isOver: false };
    const claimer: Claimer = { worker: `${this.#options.name}-${randomBytes(6).toString('hex')}`, code: this.version, services: this.#services, codec: this.codec, suspected: 0, looks: 0 };
    db.onLost = (error) => {
      session.lost = error;
      this.#wakeUp();
    };
    db.told = (it) => this.#told(it);
    db.committed = (milliseconds) => this.meter.committed(milliseconds / 1000);
    try {
      await this.#unlessStopped(this.#opens(db, claimer, session));
      while (!this.drains && session.lost === undefined) await this.#unlessStopped(this.#look(db, claimer));
      if (session.lost === undefined) await this.#drain();
      if (session.lost !== undefined) throw session.lost;
    } finally {
      session.isOver = true;
      await this.#leave(db, claimer, session);
    }
  }

  /** For this, and after `stop` for a moment only: the database may not reply. */
  async #unlessStopped(awaited: Promise<void>): Promise<void> {
    await Promise.race([awaited, new Promise<void>((done) => (this.#giveUp = done))]);
  }

  async #opens(db: Store, claimer: Claimer, session: Session): Promise<void> {
    await this.#enter(db, claimer);
    if (session.isOver) return;
    this.#db = db;
    this.#lastBeat = performance.now();
    session.beats = this.#place.beats(claimer.worker, () => (this.#lastBeat = performance.now()));
    session.hears = await this.#place.hears(claimer.worker, db, (word) => this.#heard(word));
    if (session.isOver) return session.hears.end();
    this.meter.count('sessions');
    this.#opened();
  }

  async #enter(db: Store, claimer: Claimer): Promise<void> {
    const lease = this.#options.lease / 1000;
    await db.transact(async (to) => {
      if (this.#former !== '') await to.change('leave', { worker: this.#former });
      await to.change('enter', { worker: claimer.worker, lease, code: claimer.code, serves: servesText(this.#services) });
      await enter(to, this.#services);
      to.say('ready');
    });
    this.#former = claimer.worker;
  }

  /** The session ends: what the grace wasn't enough for is given back, if the database is there. */
  async #leave(db: Store, claimer: Claimer, { lost, hears, beats }: Session): Promise<void> {
    const left = [...this.#live.values()];
    for (const it of left) it.stop();
    const until = performance.now() + LAST;
    while (this.#live.size > 0 && performance.now() < until) await after(5);
    this.#live.clear();
    if (lost === undefined) {
      if (left.length > 0) this.log.warning(`${left.length} attempts are given back before they ended, as ${left[0]?.claim.id ?? ''}`);
      await within('to leave', this.log, db.transact(async (to) => {
        for (const it of left) await release(to, it.claim);
        await to.change('leave', { worker: claimer.worker });
        to.say('ready');
      }));
      this.#former = '';
    }
    this.#db = undefined;
    await beats?.end();
    await hears?.end();
    await db.close();
  }

  /** Runs that are executed may end within the grace, and their results are stored. What waits is suspended. */
  async #drain(): Promise<void> {
    for (const it of this.#live.values()) it.ring();
    const until = performance.now() + this.#options.grace;
    while (this.#live.size > 0 && performance.now() < until && this.#db !== undefined) await after(5);
  }

  // ---- looks

  async #look(db: Store, claimer: Claimer): Promise<void> {
    this.#lookAt = performance.now() + this.#options.poll;
    const room = Math.min(Math.max(0, this.#options.limit - this.#live.size), AT_ONCE);
    const [live, isWhole] = [new Set(this.#live.keys()), performance.now() >= this.#wholeAt];
    const asked = { isWhole, isDue: isWhole || db.now() >= this.#dueAt, hasCome: isWhole || this.#hasCome };
    if (isWhole) this.#wholeAt = performance.now() + this.#options.poll;
    if (asked.isDue) this.#dueAt = Infinity;
    this.#hasCome = false;
    let found: Look;
    try {
      found = await db.transact(async (to) => look(isWhole ? at(to, await db.asksTime(to)) : to, claimer, asked, live, room));
    } catch (error) {
      this.#wholeAt = 0;
      if (error instanceof Lost) return;
      if (!(error instanceof StatementFailed)) throw error;
      this.log.warning(`a claim wasn't made, and is made again: ${error.message}`);
      return this.#pause(1000);
    }
    if (this.#db !== db) { // it came too late
      for (const it of found.claims) it.journal.close();
      return;
    }
    this.#looked(found);
    if (found.nextDue !== null && room > 0) this.#wakeAt(found.nextDue);
    else if (found.nextDue !== null) this.#dueAt = Math.min(this.#dueAt, found.nextDue); // it looks once there is some room
    await this.#until();
  }

  #looked(found: Look): void {
    for (const it of found.lags) this.meter.fired(it);
    for (const [claim, seconds] of found.delays) this.meter.claimed(claim.service, claim.handler, seconds);
    for (const it of found.claims) this.#begin(it);
    for (const id of found.reached) this.#live.get(id)?.poke();
    this.#hasMore = found.hasMore;
    this.#hasCome ||= found.hasMoreCome;
    if (found.isPartial) this.#wholeAt = 0;
    if ((found.hasMore || found.isPartial) && this.#live.size < this.#options.limit) this.#wake(0);
  }

  /** Until the time of the next look, which words bring forward; or until the worker stops, or its database is lost. */
  async #until(): Promise<void> {
    for (let until = this.#lookAt; !this.drains && performance.now() < until; until = this.#lookAt) {
      let timer: Timer | undefined;
      await new Promise<void>((done) => {
        this.#wakeUp = done;
        timer = setTimeout(done, until - performance.now());
      });
      clearTimeout(timer);
      this.#wakeUp = () => undefined;
      if (this.#lookAt === until) return;
    }
  }

  #told(it: Committed): void {
    for (const note of it.notes) {
      tell(this.log, note);
      this.meter.failed(note.service, note.handler, note.event);
    }
    for (const one of it.endings.values()) this.meter.ended(one);
    for (const id of it.stopped) this.#live.get(id)?.stop();
    for (const id of it.touched) this.#touched(id);
    if (it.isReady) this.#isReady();
    if (it.due !== undefined) this.#wakeAt(it.due);
    if (it.endings.size > 0) this.#hears([...it.endings.keys()]);
  }

  // ---- attempts

  #begin(claim: Claim): void {
    this.meter.count('attempts');
    let attempt: Attempt;
    try {
      attempt = new Attempt(this, claim);
    } catch (error) {
      claim.journal.close();
      void this.#gives(claim, error);
      return;
    }
    this.#live.set(claim.id, attempt);
    void this.#attempt(attempt);
  }

  async #attempt(attempt: Attempt): Promise<void> {
    const { claim } = attempt;
    const begun = performance.now();
    try {
      await attempt.run();
    } catch (error) {
      if (error instanceof Fenced) {
        this.meter.count('fenced');
        this.log.warning(`fenced: ${error.message}`);
      } else if (!(error instanceof Stopped) && !(error instanceof Lost)) {
        this.log.error(`an attempt of ${claim.id} stopped; the invocation is paused: ${said(error)}`, attempt.fields);
        await this.#gives(claim, error);
      }
    }
    this.meter.attempt(claim.service, claim.handler, attempt.status, (performance.now() - begun) / 1000);
    if (this.#live.get(claim.id) === attempt) this.#live.delete(claim.id);
    if (attempt.wasPoked) this.#touched(claim.id);
    if (this.#hasMore && this.#options.limit - this.#live.size >= Math.max(1, this.#options.limit / 10)) this.#wake(0);
  }

  /** Pauses an invocation with which this worker can't go on. */
  async #gives(claim: Claim, error: unknown): Promise<void> {
    try {
      const text = storable(`the runtime failed: ${said(error)}`);
      await this.#transact(async (to) => {
        await to.change('pause', { id: claim.id, epoch: claim.epoch, now: to.now, error: text });
        if (claim.isLimited) to.say('ready');
      });
    } catch (second) {
      this.log.warning(`${claim.id} wasn't paused: ${said(second)}`);
    }
  }

  /** The numbers as Prometheus reads them. */
  metrics(): string {
    const leaseAge = this.#db === undefined ? 0 : (performance.now() - this.#lastBeat) / 1000;
    return this.meter.text({ live: this.#live.size, connections: this.#db?.connections ?? 0, leaseAge });
  }
}

/** The statements of a transaction, at a time. */
function at(to: Statements, now: number): Statements {
  return {
    now, rows: (...it) => to.rows(...it), change: (...it) => to.change(...it), say: (it) => to.say(it), touch: (it) => to.touch(it), isDue: (it) => to.isDue(it),
    ended: (...it) => to.ended(...it), stops: (it) => to.stops(it), note: (it) => to.note(it),
  }; // prettier-ignore
}

/** A part of a shutdown, which has its limit. */
async function within(what: string, log: Log, awaited: Promise<unknown>): Promise<void> {
  let timer: Timer | undefined;
  const late = new Promise<never>((_, reject) => {
    timer = setTimeout(() => reject(new Error(`it took longer than ${LAST} ms`)), LAST);
  });
  try {
    await Promise.race([awaited, late]);
  } catch (error) {
    log.warning(`${what} failed: ${said(error)}`);
  } finally {
    clearTimeout(timer); // it would keep the process
  }
}
