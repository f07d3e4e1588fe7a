/** One attempt of an invocation: its handler, the VM, and the store between them. */

import { VM, VMError, contentType, unknown } from 'palqytun';
import type { Failure, Future, Handle, Input } from 'palqytun';
import { Context, contextOf, failureOf } from './context';
import type { Action, Run } from './context';
import { Cancelled, NotDurable, OutsideHandler, TerminalError, isOf, placeOf, said, storable, traced } from './errors';
import { isStep, split } from './frames';
import type { Frame } from './frames';
import { traceOf } from './hash';
import { Pulse } from './heartbeats';
import type { Log } from './log';
import { Unreadable, sealedError } from './sealing';
import type { Codec } from './sealing';
import type { AnyHandler } from './services';
import { VM_VERSION } from './storing';
import type { Claim, Outcome, Status } from './storing';
import { Lost } from './tables';
import type { Statements } from './tables';
import { within } from './within';

/** What an attempt needs of its worker. */
export interface Host {
  readonly log: Log;
  readonly codec: Codec;
  /** No run begins any more, and what waits is suspended. */
  readonly drains: boolean;
  /** For how many milliseconds an attempt may wait now, before it is suspended. */
  readonly patience: number;
  /** The database's time, in seconds since the epoch. */
  now(): number;
  store(claim: Claim, output: Uint8Array): Promise<Outcome>;
  pull(claim: Claim): Promise<Outcome>;
  release(claim: Claim): Promise<Outcome>;
  /** A transaction beside those of the attempt. */
  beside<T>(operation: (to: Statements) => Promise<T>): Promise<T>;
  /** Executes an effect once there is room for it. */
  effect<T>(does: () => Promise<T>): Promise<T>;
  /** What is executed instead of runs, by their names: a test's fakes. */
  readonly instead: ReadonlyMap<string, (run: Run) => unknown>;
}

/** The attempt was told to stop: nothing more of it is stored. */
export class Stopped extends Error {
  override readonly name = 'Stopped';
}

/** An attempt ended and its core said nothing of it. This is a bug of the SDK. */
class WithoutEnd extends Error {
  override readonly name = 'WithoutEnd';
}

/** The attempt took longer than it may. */
class AttemptTimedOut extends Error {
  override readonly name = 'TimeoutError';
}

/** The worker stops, and the attempt has more to do: the next worker goes on with it. */
class Released extends Error {
  override readonly name = 'Released';
}

type Executed =
  | { readonly kind: 'value'; readonly value: Uint8Array }
  | { readonly kind: 'failure'; readonly error: TerminalError }
  | { readonly kind: 'failed'; readonly error: unknown; readonly took: number };

/** How a handler has ended: undefined as long as it hasn't. */
type Ending = { readonly value: unknown } | { readonly thrown: unknown } | undefined;

export const LONGEST_TIMER = 2 ** 31 - 1; // milliseconds, after which a timer would fire at once
const FORGOTTEN = 5; // runs and sleeps that a warning names, at most
const FOREIGN = "something that its context didn't give: other work belongs in ctx.run";

export class Attempt {
  status: Status | 'lost' = 'lost';
  readonly #vm: VM;
  readonly #executing = new Set<Handle>();
  readonly #executed: [Handle, Executed][] = [];
  #hasDropped = false; // a run for which the core has asked didn't begin
  #waiting: Frame[] = []; // of the output, that isn't stored yet
  #isPoked = false;
  #isStopped = false;
  #hasEnded = false;
  #ending: Ending;
  #ring: () => void = () => undefined;
  readonly #aborts = new Set<AbortController>();
  readonly #begun = performance.now();
  #codec: Codec; // that of the invocation, once its argument is known
  readonly #most: number | undefined; // milliseconds that it may take

  constructor(private readonly host: Host, readonly claim: Claim) {
    this.#vm = new VM(contentType(VM_VERSION), { awaitingOnPolicy: 'dontSend', journalMismatchRetryBehavior: 'pause' });
    this.#codec = host.codec;
    this.#most = claim.services.get(claim.service)?.handlers.get(claim.handler)?.attemptTimeout;
  }

  /** Something came for the invocation. */
  poke(): void {
    this.#isPoked = true;
    this.#ring();
  }

  /** Looks at the host again, which drains. */
  ring(): void {
    this.#ring();
  }

  /** Ends the attempt: what it writes isn't stored any more. */
  stop(): void {
    this.#isStopped = true;
    this.#ring();
  }

  get wasPoked(): boolean {
    return this.#isPoked;
  }

  /** What each record of the log has of it. */
  get fields(): Readonly<Record<string, unknown>> {
    const { id, service, handler, epoch, trace } = this.claim;
    const { traceId, spanId } = traceOf(id, trace);
    return { invocation: id, handler: `${service}/${handler}`, attempt: epoch, trace_id: traceId, span_id: spanId };
  }

  /** To the attempt's end, which is stored. */
  run(): Promise<void> {
    return within.run({ fields: this.fields, run: undefined }, () => this.#run());
  }

  async #run(): Promise<void> {
    try {
      this.#vm.notifyInput(this.claim.fed);
      await this.#guarded();
      await this.#rest();
      if (!this.#hasEnded) throw new WithoutEnd(this.claim.id);
    } catch (error) {
      if (!(error instanceof Released)) throw error;
      await this.#rest();
      this.status = (await this.host.release(this.claim)).status;
    } finally {
      for (const it of this.#aborts) it.abort();
      this.#vm.close();
      this.claim.journal.close();
    }
  }

  /** Drives the handler. What it throws ends the attempt, and the VM says so. */
  async #guarded(): Promise<void> {
    try {
      await this.#drive(this.#vm.sysInput());
    } catch (error) {
      if (error instanceof VMError) return; // the core has failed, or is suspended, and has said so
      throw error;
    }
  }

  async #drive(input: Input): Promise<void> {
    const about = this.claim.services.get(this.claim.service);
    const handler = about?.handlers.get(this.claim.handler);
    if (about === undefined || handler === undefined) throw new Error(`a claim of ${this.claim.service}/${this.claim.handler}, which isn't served here`);
    const kind = contextOf(about.workflow, about.keyed, this.claim.exclusive);
    const trace = traceOf(this.claim.id, this.claim.trace);
    this.#codec = this.host.codec.like(input.input);
    const context = new kind({
      vm: this.#vm, codec: this.#codec, input, service: about.name, trace: { ...trace, header: this.claim.trace }, patches: this.claim.patches,
      log: this.host.log, now: () => Math.trunc(this.host.now() * 1000), rings: () => this.#ring(),
    }); // prettier-ignore
    let argument: never;
    try {
      argument = this.#codec.decode(input.input, handler.takes);
    } catch (error) {
      if (isOf(error, Unreadable)) return this.#fails(error);
      return context.write(this.#refused(`the argument of ${about.name}/${handler.name}`, error));
    }
    try {
      await this.#steps(context, handler, () => handler.run(context as never, argument));
    } finally {
      context.end();
    }
  }

  /** Until the handler is done: its code runs until it waits, and then what it awaits is awaited. */
  async #steps(context: Context, handler: AnyHandler, begins: () => unknown): Promise<void> {
    const begun = (): void => {
      const ended = (made: Ending): void => {
        this.#ending = made;
        this.#ring();
      };
      new Promise((resolve) => resolve(begins())).then((value) => ended({ value }), (thrown: unknown) => ended({ thrown }));
    };
    await context.enter(begun);
    for (;;) {
      this.claim.isShielded = context.isShielded;
      if (this.#isOver(context)) return;
      if (this.#ending !== undefined) return this.#ends(context, handler, this.#ending);
      const waiters = context.waiters;
      if (waiters.length === 0) return this.#fails(new NotDurable(`the handler awaits ${FOREIGN}`));
      const trees = [...new Set(waiters.map((it) => it.durable))].map((it) => it.tree());
      const came = await this.#await(trees.length === 1 ? trees[0]! : unknown(...trees), context);
      if (came === 'over') return;
      if (came === 'cancelled') {
        await context.enter(() => context.reject(() => new Cancelled()));
        continue;
      }
      for (const { durable } of waiters) for (const leaf of [...durable.leaves()]) this.#takes(leaf.handle, context, (value) => (leaf.came = value));
      await context.enter(() => context.settle());
    }
  }

  #takes(handle: Handle, context: Context, came: (value: NonNullable<ReturnType<VM['takeNotification']>>) => void): void {
    const value = this.#vm.takeNotification(handle);
    if (value === undefined) return;
    context.actions.delete(handle);
    context.asked.delete(handle);
    came(value.kind === 'failure' ? { ...value, message: this.#codec.clear(value.message) } : value);
  }

  /** Whether the attempt ends here: the core has refused a call, or the context was used where it isn't to be. */
  #isOver(context: Context): boolean {
    if (context.misused !== undefined && !context.isOver) this.#vm.notifyError({ code: 500, message: said(context.misused), behavior: 'pause' });
    return context.isOver || context.misused !== undefined;
  }

  #fails(error: unknown): void {
    this.#vm.notifyError(this.#failed(error));
  }

  /** What the store has of an error. */
  #failed(error: unknown): { code: number; message: string; stacktrace: string } {
    const stack = traced(error);
    this.claim.where = placeOf(stack);
    return { code: 500, message: sealedError(this.#codec, said(error)), stacktrace: this.#codec.text(stack) };
  }

  /** The failure of a call whose argument the handler doesn't take. */
  #refused(what: string, error: unknown): Failure {
    return { code: 400, message: this.#codec.text(`${what}: ${said(error).replace(/^BadValue: /, '')}`), metadata: [] };
  }

  /** The handler has ended: its result is written, or its failure, or the attempt has failed. */
  #ends(context: Context, handler: AnyHandler, ending: NonNullable<Ending>): void {
    const { continues } = context;
    const isCaught = continues !== undefined && !('thrown' in ending && ending.thrown === continues);
    if (isCaught) return this.#fails(new Error('the handler caught what ctx.continueAsNew throws: it has to be thrown again'));
    if (continues !== undefined) return this.#goesOn(context, handler, continues.argument);
    if ('value' in ending) {
      this.#saysForgotten(`${handler.service}/${handler.name}`, context.forgotten);
      let value: Uint8Array;
      try {
        value = this.#codec.encode(ending.value);
      } catch (error) {
        return this.#fails(error);
      }
      return context.write(value);
    }
    if (!isOf(ending.thrown, TerminalError)) return this.#fails(ending.thrown);
    context.write(failureOf(this.#codec, ending.thrown));
  }

  /** Warns of what the handler has made and never awaited. */
  #saysForgotten(path: string, forgotten: readonly string[]): void {
    if (forgotten.length === 0) return;
    const more = forgotten.length > FORGOTTEN ? ` and ${forgotten.length - FORGOTTEN} more` : '';
    const names = [...new Set(forgotten.slice(0, FORGOTTEN))].join(', ');
    this.host.log.warning(`${path} ${this.claim.id} has ended, and hasn't awaited ${names}${more}: without an await a run isn't executed, and a sleep doesn't wait`);
  }

  /** The invocation goes on as a new one, if its handler takes the argument. */
  #goesOn(context: Context, handler: AnyHandler, argument: Uint8Array): void {
    try {
      this.#codec.decode(argument, handler.takes);
    } catch (error) {
      return context.write(this.#refused(`the argument of ctx.continueAsNew in ${handler.service}/${handler.name}`, error));
    }
    context.write(argument, true);
    this.claim.continues = { headers: Object.entries(context.headers), asked: context.signals };
  }

  // ---- awaits

  /** Until the tree is awake. Meanwhile runs are executed, and what was written is stored. */
  async #await(tree: Handle | Future, context: Context): Promise<'awake' | 'cancelled' | 'over'> {
    for (;;) {
      if (this.#isOver(context)) return 'over';
      if (this.#ending !== undefined) {
        this.#fails(new NotDurable(`the handler went on by ${FOREIGN}`));
        return 'over';
      }
      if (this.claim.cancelWaits && !this.claim.isShielded && this.#vm.state() === 'processing') await this.#pull();
      const it = this.#vm.doAwait(tree);
      if (it.kind === 'anyCompleted') return 'awake';
      if (it.kind === 'cancelSignalReceived') return 'cancelled';
      if (it.kind === 'executeRun') this.#begin(it.handle, context, true);
      if (this.#hasDropped && this.#executing.size === 0) throw new Released();
      if (this.#isLate()) {
        this.#fails(new AttemptTimedOut(`the attempt took longer than its attemptTimeout of ${this.#most} ms`));
        return 'over';
      }
      await this.#progress(context);
    }
  }

  /** Begins to execute a run for which the core has asked, and the others that the handler awaits: each is asked for alone, since to ask for the next one of
   * a whole tree takes a look at all of it. The core doesn't ask for a run again, so the attempt has to end if the run may not begin. */
  #begin(handle: Handle, context: Context, others: boolean): void {
    if (this.host.drains) {
      this.#hasDropped = true;
      return;
    }
    const action = context.actions.get(handle);
    if (action === undefined) throw new Error(`the core asks for the run ${handle}, which isn't there`);
    context.asked.delete(handle);
    this.#executing.add(handle);
    this.#actions.set(handle, action);
    void this.#execute(action).then((executed) => {
      this.#executed.push([handle, executed]);
      this.#ring();
    });
    if (!others) return;
    for (const { durable } of context.waiters) {
      for (const leaf of durable.leaves()) {
        if (context.asked.has(leaf.handle) && this.#vm.doAwait(leaf.handle).kind === 'executeRun') this.#begin(leaf.handle, context, false);
      }
    }
  }

  readonly #actions = new Map<Handle, Action>();

  /** Executes an effect; never throws. */
  async #execute(action: Action): Promise<Executed> {
    const begun = performance.now();
    const abort = new AbortController();
    this.#aborts.add(abort);
    try {
      const place = { fields: this.fields, run: action.name, key: action.key };
      const does = this.host.instead.get(action.name) ?? action.does;
      const value = await this.host.effect(() => this.#beating(action, abort, (given) => within.run(place, async () => does(given))));
      try {
        return { kind: 'value', value: this.#codec.encode(value) };
      } catch (error) { // the effect has happened, and no other try of it would have another result
        return { kind: 'failure', error: new TerminalError(`the result of the run ${JSON.stringify(action.name)} can't be stored: ${said(error)}`) };
      }
    } catch (error) {
      if (isOf(error, TerminalError)) return { kind: 'failure', error };
      return { kind: 'failed', error, took: Math.trunc(performance.now() - begun) };
    } finally {
      this.#aborts.delete(abort);
    }
  }

  /** Executes an effect within its time, and as long as it beats. */
  async #beating(action: Action, abort: AbortController, does: (run: Run) => Promise<unknown>): Promise<unknown> {
    const { key, index, heartbeat } = action;
    const place = { id: this.claim.id, run: index };
    const before = heartbeat === undefined ? [] : await this.host.beside((to) => to.rows('last-progress', place));
    const pulse = new Pulse(heartbeat, (value) => this.#keeps(action, value));
    const lastProgress = before.length === 0 ? undefined : this.#codec.decode(before[0]?.[0] as Uint8Array);
    try {
      return await timed(() => does({ key, signal: abort.signal, heartbeat: (progress) => pulse.beat(this.#codec.encode(progress)), lastProgress }), action, abort, pulse);
    } finally {
      await pulse.close();
    }
  }

  /** Stores what a run says; returns whether its invocation is still this worker's. */
  async #keeps({ name, index: run }: Action, value: Uint8Array): Promise<boolean> {
    const { id, epoch } = this.claim;
    try {
      return (await this.host.beside((to) => to.change('keep-progress', { id, epoch, run, name: storable(name), value, now: to.now }))) > 0;
    } catch (error) {
      if (error instanceof Lost || error instanceof Stopped) return false; // the database is lost, and others go on
      this.host.log.warning(`the progress of the run ${JSON.stringify(name)} of ${id} isn't stored: ${said(error)}`);
      return true;
    }
  }

  /** Stores what was written, or waits until something comes; what comes is fed. If nothing comes the input is closed. */
  async #progress(context: Context): Promise<void> {
    this.#take();
    // A run's command is stored with its result, unless something else is to be stored before.
    if (this.#waiting.length > 0 && !(this.#executing.size > 0 && this.#waiting.every(isStep))) {
      if (await this.#store()) return;
    }
    if (this.#isPoked) return this.#pull();
    const patience = this.host.patience;
    if (this.#executing.size === 0 && patience <= 0) return this.#vm.notifyInputClosed();
    await this.#wait(this.#executing.size > 0 ? this.#left : Math.min(patience, this.#left ?? Infinity), context);
  }

  /** How many milliseconds the attempt may still take; undefined if there is no limit. */
  get #left(): number | undefined {
    return this.#most === undefined ? undefined : Math.max(0, this.#begun + this.#most - performance.now());
  }

  /** Whether it has taken its time, and executes runs. One that only waits is suspended after its patience, so it takes nothing. */
  #isLate(): boolean {
    return this.#left === 0 && this.#executing.size > 0 && this.#executed.length === 0;
  }

  /** Until a run has a result, which is stored, or something comes, or patience is over. */
  async #wait(patience: number | undefined, context: Context): Promise<void> {
    const isForeign = this.#ending !== undefined || context.misused !== undefined; // it came while something was stored
    if (!this.#isPoked && this.#executed.length === 0 && !this.#isStopped && !isForeign) await this.#heard(patience);
    if (this.#isStopped) throw new Stopped('the attempt was told to stop');
    const done = this.#executed.splice(0);
    if (this.#ending !== undefined || context.misused !== undefined) return;
    if (done.length === 0 && !this.#isPoked && this.#executing.size === 0) return this.#vm.notifyInputClosed();
    this.#propose(done);
    if (done.length > 0) await this.#rest();
  }

  /** Waits until it is rung, or for so many milliseconds. */
  async #heard(patience: number | undefined): Promise<void> {
    let timer: Timer | undefined;
    await new Promise<void>((heard) => {
      this.#ring = heard;
      if (patience !== undefined) timer = setTimeout(heard, Math.min(patience, LONGEST_TIMER));
    });
    this.#ring = () => undefined;
    clearTimeout(timer);
  }

  /** Proposes the results of runs. One that another try is to be made of comes last, since it fails the attempt. */
  #propose(done: readonly [Handle, Executed][]): void {
    let failed: (() => void) | undefined;
    for (const [handle, it] of done) {
      this.#executing.delete(handle);
      const action = this.#actions.get(handle);
      const policy = action?.policy;
      if (it.kind === 'value') this.#vm.proposeRunCompletion(handle, it.value, policy);
      else if (it.kind === 'failure') this.#vm.proposeRunCompletion(handle, failureOf(this.#codec, it.error), policy);
      else failed ??= () => this.#proposeFailed(handle, it.error, it.took, action);
    }
    failed?.();
  }

  #proposeFailed(handle: Handle, error: unknown, took: number, action: Action | undefined): void {
    const pauses = isOf(error, OutsideHandler); // no retry helps
    this.claim.byRun = !pauses;
    if (action !== undefined) this.claim.failedRun = action;
    const why = { ...this.#failed(error), behavior: pauses ? 'pause' as const : 'retry' as const };
    this.#vm.proposeRetryableFailure(handle, took, why, pauses ? { kind: 'infinite' } : action?.policy);
  }

  // ---- the store

  /** Takes what the core has written. */
  #take(): void {
    const output = this.#vm.takeOutput();
    if (output.length > 0) this.#waiting.push(...split(output));
  }

  /** Stores all that was written, up to now. */
  async #rest(): Promise<void> {
    this.#take();
    if (this.#waiting.length > 0) await this.#store();
  }

  async #store(): Promise<boolean> {
    if (this.#isStopped) throw new Stopped('the attempt was told to stop');
    const output = Buffer.concat(this.#waiting.splice(0).map((it) => it.bytes));
    return this.#fed(await this.host.store(this.claim, output));
  }

  async #pull(): Promise<void> {
    if (this.#isStopped) throw new Stopped('the attempt was told to stop');
    this.#isPoked = false;
    const it = await this.host.pull(this.claim);
    this.#isPoked ||= it.hasMore;
    this.#fed(it);
  }

  /** Feeds what a transaction has brought; returns whether it brought something. */
  #fed(it: Outcome): boolean {
    this.status = it.status;
    this.#hasEnded = it.status !== 'running';
    if (it.feed.length === 0 || this.#hasEnded) return false;
    this.#vm.notifyInput(Buffer.concat(it.feed));
    return true;
  }
}

/** Executes an effect within its time, and as long as it beats. */
async function timed(run: () => Promise<unknown>, { timeout }: Action, abort: AbortController, pulse: Pulse): Promise<unknown> {
  pulse.begin();
  const until = timeout === undefined ? Infinity : performance.now() + timeout;
  let timer: Timer | undefined;
  const over = new Promise<never>((_, reject) => {
    const look = (): void => {
      const left = Math.min(pulse.left, until - performance.now());
      if (left > 0) {
        if (left < Infinity) timer = setTimeout(look, Math.min(left, LONGEST_TIMER));
        return;
      }
      abort.abort();
      reject(new Error(pulse.left <= 0 ? `it hasn't beaten for ${pulse.limit} ms` : `it took longer than ${timeout} ms`));
    };
    look();
  });
  try {
    return await Promise.race([run(), over]);
  } finally {
    clearTimeout(timer);
  }
}
