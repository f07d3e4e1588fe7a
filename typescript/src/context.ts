/** A handler's context: each call is one of the VM's, made at once. What it gives is awaited when the handler likes. */

import { JournalMismatch, StatusError, VMError } from 'palqytun';
import type { Failure, Handle, Input, Pair, RetryPolicy, Target, Value, VM } from 'palqytun';
import { Call, Durable, Leaf, idOf, select } from './durable';
import type { Scope, Waiter } from './durable';
import { AttemptEnds, BadValue, ContinuedAsNew, OutsideHandler, TerminalError, TimedOut, said, shown } from './errors';
import type { Trace } from './hash';
import type { Fields, Level, Log } from './log';
import { Random } from './random';
import { withQueue } from './queues';
import type { Queued } from './queues';
import type { Codec } from './sealing';
import { JITTER, checkRetry, namesOf } from './services';
import type { Fixed, Handler, Retry } from './services';
import { attributeOf, checkName } from './values';
import type { Parse } from './values';
import { within } from './within';

/** What an effect is given: a key for systems outside, alike each time that it is executed, and a signal that its time is over. */
export interface Run {
  readonly key: string;
  readonly signal: AbortSignal;
  /** Says that it goes on, and how far it has come, as a value that JSON can carry. It is stored about once a second. Throws a `GivenUp` if nobody waits
   * for the run any more. */
  readonly heartbeat: (progress?: unknown) => void;
  /** In a run that has a `heartbeat`: what an execution before this one said last, from which this one may go on; undefined at the first. What was said in
   * the last second before a crash may be missing. */
  readonly lastProgress: unknown;
}

export interface RunOptions<T> {
  /** When it is tried again: for ever, by default. */
  retry?: Retry;
  /** Milliseconds that it may take; then it has failed, and is tried again. */
  timeout?: number;
  /** Milliseconds within which it has to call `run.heartbeat` again; else it has failed, and is tried again. */
  heartbeat?: number;
  /** Reads the stored result, or throws. */
  gives?: Parse<T>;
}

export interface CallOptions extends Queued {
  key?: string;
  idempotencyKey?: string;
  headers?: Readonly<Record<string, string>>;
}

export interface SendOptions extends CallOptions {
  /** Milliseconds after which it begins. */
  delay?: number;
}

/** What a run executes, and how it is retried. */
export interface Action {
  readonly name: string;
  readonly does: (run: Run) => unknown;
  readonly policy: RetryPolicy;
  readonly jitter: number;
  readonly key: string;
  /** The index of its command. */
  readonly index: number;
  readonly timeout: number | undefined;
  readonly heartbeat: number | undefined;
}

/** A logger that is silent while the journal is replayed. */
export interface ReplayLog {
  debug(message: string, fields?: Fields): void;
  info(message: string, fields?: Fields): void;
  warning(message: string, fields?: Fields): void;
  error(message: string, fields?: Fields): void;
}

/** A result of others that is named by its type, or `Service/handler`. */
export type Callee<I, O> = Handler<I, O> | string;

/** What a context is made of. */
export interface Begun {
  readonly vm: VM;
  readonly codec: Codec;
  readonly input: Input;
  readonly service: string;
  readonly trace: Trace;
  /** The patches that the journal has, by the indices of their commands. */
  readonly patches: Map<number, string>;
  readonly log: Log;
  /** Milliseconds since the epoch, by the database's clock. */
  readonly now: () => number;
  /** The context was used outside the handler's own code. */
  readonly rings: () => void;
}

/** What a run's name begins with that is none of a handler's: the command itself is a record. */
export const OWN = 'palqytun.';
const PATCHED = `${OWN}patched `;
const ATTRIBUTE = `${OWN}attribute `;
const CONTINUED = `${OWN}continued`;

function given(codec: Codec, value: unknown): Uint8Array | Failure {
  return value instanceof TerminalError ? failureOf(codec, value) : codec.encode(value);
}

export function failureOf(codec: Codec, error: TerminalError): Failure {
  return { code: error.code, message: codec.text(error.message), metadata: [...error.metadata] };
}

/** A retry as the VM takes it. */
export function policyOf(retry: Retry | undefined): RetryPolicy {
  if (retry === undefined) return { kind: 'infinite' };
  const bounds = { intervalMillis: Math.round(retry.longest ?? 10_000), pauses: retry.pause ?? false };
  const attempts = retry.attempts === undefined ? {} : { maxAttempts: retry.attempts };
  const duration = retry.duration === undefined ? {} : { maxDurationMillis: Math.round(retry.duration) };
  const factor: [number, number] = [Math.round((retry.factor ?? 2) * 1000), 1000];
  return { kind: 'exponential', initialMillis: Math.round(retry.initial ?? 50), factor, ...bounds, ...attempts, ...duration };
}

function reader<T>(codec: Codec, parse: Parse<T> | undefined): (came: Value) => T {
  return (came) => (came.kind === 'success' ? codec.decode(came.value, parse) : (null as unknown as T));
}

/** As `reader`, for what others gave: a value that can't be read is a failure at its await, by which the handler can undo what it did. */
function results<T>(codec: Codec, parse: Parse<T> | undefined): (came: Value) => T {
  const read = reader(codec, parse);
  return (came) => {
    try {
      return read(came);
    } catch (error) {
      if (error instanceof BadValue) throw new TerminalError(`a result that can't be read: ${error.message}`);
      throw error;
    }
  };
}

const nothing = (): null => null;

/** The calls that each handler has. `ServiceContext`, `ObjectContext` and the others have those of their kind beside these. */
export class Context implements Scope {
  readonly #begun: Begun;
  readonly #random: Random;
  readonly #waiters = new Set<Waiter>();
  readonly #unused = new Map<Durable<unknown>, string>(); // runs and sleeps that nobody has awaited
  readonly #isPatched = new Map<string, boolean>();
  readonly #log: ReplayLog;
  #shields = 0;
  #isOwn = false;
  #isOver = false;

  /** What runs execute, by their handles. @internal */
  readonly actions = new Map<Handle, Action>();
  /** The handles of runs whose execution hasn't begun. @internal */
  readonly asked = new Set<Handle>();
  /** The context was used outside the handler's own code. @internal */
  misused: OutsideHandler | undefined;
  /** What `continueAsNew` has thrown. @internal */
  continues: ContinuedAsNew | undefined;
  /** How many signals of each name the handler has asked for. @internal */
  readonly signals = new Map<string, number>();
  readonly invocationId: string;
  /** That of the invocation. @internal */
  readonly codec: Codec;

  constructor(begun: Begun) {
    this.#begun = begun;
    this.codec = begun.codec;
    this.invocationId = begun.input.invocationId;
    this.#random = new Random(begun.input.randomSeed, () => this.#own('ctx.random'));
    const put = (level: Level) => (message: string, fields: Fields = {}): void => {
      this.#own('ctx.log');
      if (!this.#isOver && begun.vm.state() === 'processing') begun.log.put(level, 'palqytun.handler', message, fields);
    };
    this.#log = { debug: put('debug'), info: put('info'), warning: put('warning'), error: put('error') };
  }

  // ---- what the attempt does with it

  /** The handler's own code runs until it waits. @internal */
  async enter(goesOn: () => void): Promise<void> {
    this.#isOwn = true;
    goesOn();
    await new Promise<void>((done) => setImmediate(done)); // all that follows at once has followed then
    this.#isOwn = false;
  }

  /** Who waits, in the order in which they began to. @internal */
  get waiters(): readonly Waiter[] {
    return [...this.#waiters];
  }

  /** Hands the outcomes on that have come. @internal */
  settle(): void {
    for (const it of this.#waiters) {
      if (it.durable.outcome() !== undefined) {
        this.#waiters.delete(it);
        it.settle();
      }
    }
  }

  /** Each that waits gets an error. @internal */
  reject(make: () => Error): void {
    const all = [...this.#waiters];
    this.#waiters.clear();
    for (const it of all) it.reject(make());
  }

  /** Whether the core has refused a call, or the attempt is over. @internal */
  get isOver(): boolean {
    return this.#isOver;
  }

  /** The attempt is over: what waits is left. @internal */
  end(): void {
    this.#isOver = true;
    this.#waiters.clear();
  }

  get isShielded(): boolean {
    return this.#shields > 0;
  }

  uses(durable: Durable<unknown>): void {
    this.#unused.delete(durable);
  }

  /** What the handler has made and never awaited. @internal */
  get forgotten(): string[] {
    return [...this.#unused.values()];
  }

  /** What `await` asks of a durable that is this context's. */
  waits(waiter: Waiter): void {
    this.#unused.delete(waiter.durable);
    if (this.#isOver) return; // it is never settled
    this.#own('what the context gives');
    if (waiter.durable.outcome() !== undefined) waiter.settle();
    else this.#waiters.add(waiter);
  }

  #own(what: string): void {
    const run = within.getStore()?.run;
    if (this.#isOver || (this.#isOwn && run === undefined)) return;
    const where = run === undefined ? "outside the handler's own code, as after an await of something that the context didn't give" : `within the run ${JSON.stringify(run)}`;
    const error = new OutsideHandler(`${what} is used ${where}: make the call in the handler, and give a run what it needs as arguments`);
    if (run === undefined) this.misused ??= error; // that of a run fails the run
    this.#begun.rings();
    throw error;
  }

  /** Makes a call of the VM's that returns handles. One that is refused ends the attempt, and what it gives is never settled. */
  #asks<T>(call: (vm: VM) => T): T | undefined {
    this.#own('the context');
    if (this.#isOver) return undefined;
    try {
      this.#passPatches();
      return call(this.#begun.vm);
    } catch (error) {
      this.#refused(error);
      return undefined;
    }
  }

  /** Makes a call of the VM's that returns nothing. One that is refused ends the attempt. */
  #tells(call: (vm: VM) => void): void {
    this.#asks((vm) => {
      call(vm);
      return true;
    });
    if (this.#isOver) throw new AttemptEnds('the attempt is over');
  }

  #refused(error: unknown): void {
    if (!(error instanceof VMError)) {
      if (!(error instanceof StatusError) && !(error instanceof TypeError) && !(error instanceof RangeError)) throw error;
      this.#begun.vm.notifyError({ code: 500, message: `a call that has no meaning: ${said(error)}` });
    }
    this.refusal = error;
    this.end();
  }

  /** Why the core has refused a call. @internal */
  refusal: unknown;

  /** Whether another command is recorded instead of the handler's. @internal */
  get isMismatch(): boolean {
    return this.refusal instanceof JournalMismatch;
  }

  /** Ends the invocation, since a handler of this kind has no such call. @internal */
  hasNo(why: string): never {
    this.#own('the context');
    if (!this.#isOver) this.#begun.vm.notifyError({ code: 500, message: why, behavior: 'fail' });
    this.end();
    throw new AttemptEnds(why);
  }

  protected get serviceName(): string {
    return this.#begun.service;
  }

  protected leaf<T>(call: (vm: VM) => Handle, read: (came: Value) => T): Durable<T> {
    return new Leaf(this, this.#asks(call) ?? 0, read);
  }

  protected reads<T>(parse: Parse<T> | undefined): (came: Value) => T {
    return reader(this.codec, parse);
  }

  protected results<T>(parse: Parse<T> | undefined): (came: Value) => T {
    return results(this.codec, parse);
  }

  protected tells(call: (vm: VM) => void): void {
    this.#tells(call);
  }

  // ---- who calls

  /** The key that the handler is called with; empty in a service. */
  get key(): string {
    return this.#begun.input.key;
  }

  /** The headers that the handler is called with. */
  get headers(): Readonly<Record<string, string>> {
    return Object.fromEntries(this.#begun.input.headers);
  }

  /** The W3C's header `traceparent` for what the handler or a run asks of other systems. */
  get traceparent(): string {
    return this.#begun.trace.header;
  }

  /** A logger that is silent while the journal is replayed. */
  get log(): ReplayLog {
    return this.#log;
  }

  // ---- time, chance, effects

  /** Ends after this number of milliseconds, across crashes. */
  sleep(milliseconds: number): Durable<null> {
    if (typeof milliseconds !== 'number' || !(milliseconds < 1e15)) throw new TypeError(`ctx.sleep takes a number of milliseconds below 10^15, not ${shown(milliseconds)}`);
    const made = this.leaf((vm) => vm.sysSleep(Math.max(0, Math.ceil(Date.now() + milliseconds))), nothing);
    this.#unused.set(made, 'a sleep');
    return made;
  }

  /**
   * Executes an effect once it is awaited, and keeps its result. It is executed at least once: a crash before the result is stored executes it again, so
   * give what is outside an idempotency key, as `run.key`. A `TerminalError` is its result; another error is tried again by `retry`, without which it is
   * tried for ever. So is one that takes longer than `timeout`, or calls `run.heartbeat` not once in `heartbeat`. A result that JSON can't carry is a `TerminalError`, so that the effect isn't executed
   * again.
   */
  run<T>(name: string, does: (run: Run) => T | PromiseLike<T>, options: RunOptions<T> = {}): Durable<T> {
    if (typeof name === 'function') throw new TypeError("ctx.run takes a name and then a function, as ctx.run('pay', () => pay(order))");
    if (typeof does !== 'function') throw new TypeError(`ctx.run(${shown(name)}, ..) takes a function, not ${typeof does}`);
    if (typeof name !== 'string' || name.startsWith(OWN)) throw new TypeError(`a run's name must be a string that doesn't begin with ${OWN}, not ${shown(name)}`);
    if (options.retry !== undefined) checkRetry(`the retry of the run ${name}`, options.retry);
    for (const it of ['timeout', 'heartbeat'] as const) {
      const time = options[it];
      if (time !== undefined && !(time > 0)) throw new RangeError(`the ${it} of the run ${name} must be a number of milliseconds above 0, not ${shown(time)}`);
    }
    const handle = this.#asks((vm) => vm.sysRun(name).handle);
    if (handle !== undefined) {
      const index = this.#begun.vm.lastCommandIndex();
      const { retry, timeout, heartbeat } = options;
      const key = `${this.invocationId}-${index}`;
      this.actions.set(handle, { name, does, policy: policyOf(retry), jitter: retry?.jitter ?? JITTER, key, index, timeout, heartbeat });
      this.asked.add(handle);
    }
    const made = new Leaf(this, handle ?? 0, this.results(options.gives));
    this.#unused.set(made, `the run ${shown(name)}`);
    return made;
  }

  /** The time in milliseconds since the epoch, as it was when this was first awaited. */
  now(): Durable<number> {
    return this.run('now', () => this.#begun.now());
  }

  /** Random numbers, the same in each attempt. */
  get random(): Random {
    return this.#random;
  }

  /** A random UUID, the same in each attempt. */
  uuid(): string {
    return this.#random.uuid();
  }

  /** The result, if it comes in that time, in milliseconds; else it throws `TimedOut`. Then the calls that were awaited are cancelled. */
  async timeout<T>(awaited: Durable<T>, milliseconds: number): Promise<T> {
    const [which, came] = await select([awaited, this.sleep(milliseconds)]);
    if (which === 0) return came as T;
    for (const it of [...awaited.leaves()]) if (it instanceof Call) this.cancel(await it.invocationId);
    throw new TimedOut(`it took longer than ${milliseconds} ms`);
  }

  /** Within it the invocation isn't cancelled: a cancellation that comes meanwhile is thrown by the first await after it. */
  async shield<T>(does: () => T | PromiseLike<T>): Promise<T> {
    this.#shields += 1;
    try {
      return await does();
    } finally {
      this.#shields -= 1;
    }
  }

  /**
   * Whether a change of the handler's code applies. It does if the handler gets here for the first time, and this is recorded. It doesn't if an attempt by
   * the code before the change has been here. It is the same at each place and in each attempt of an invocation.
   */
  patched(name: string): boolean {
    this.#own('ctx.patched');
    if (!this.#isPatched.has(name) && !this.#isOver) {
      const { vm, patches } = this.#begun;
      this.#passPatches(name);
      const next = vm.lastCommandIndex() + 1;
      const applies = patches.get(next) === name || vm.state() === 'processing';
      this.#isPatched.set(name, applies);
      if (applies) {
        patches.delete(next);
        this.#asks((it) => it.sysRun(PATCHED + name));
      }
    }
    return this.#isPatched.get(name) ?? false;
  }

  /** Goes past the patches that are recorded next, up to that of a name. The code doesn't ask for them any more. */
  #passPatches(until?: string): void {
    const { vm, patches } = this.#begun;
    if (patches.size === 0) return;
    for (;;) {
      const name = patches.get(vm.lastCommandIndex() + 1);
      if (name === undefined || name === until) return;
      vm.sysRun(PATCHED + name);
    }
  }

  /** The handler has ended with this result; or it goes on as a new invocation, which has this argument. @internal */
  write(result: Uint8Array | Failure, hasNext = false): void {
    this.#passPatches();
    if (hasNext) this.#begun.vm.sysRun(CONTINUED);
    this.#begun.vm.sysWriteOutput(result);
    this.#begun.vm.sysEnd();
  }

  /**
   * Says something of this invocation by which people find it: on the page, and by `palqytun invocations list --attribute customer=ann`. It stays until it is
   * set again; null takes it away. A name and a value have at most 1,000 bytes, and a name no = and no &. What is secret doesn't belong here.
   */
  setAttribute(name: string, value: string | number | boolean | null): void {
    const said = attributeOf(name, value);
    this.#tells((vm) => vm.sysRun(ATTRIBUTE + JSON.stringify(said === null ? [name] : [name, said])));
  }

  /**
   * Ends this invocation, and begins a new one of the same handler with this argument in its place: with the same key, headers, idempotency key and caller, and
   * an empty journal. It throws what ends the handler. Those who wait for this invocation get the result of the last one, and its key stays held meanwhile.
   * Signals that came and weren't asked for go over; what comes for this one's sleeps, calls and awakeables doesn't.
   */
  continueAsNew(argument: unknown = null): never {
    this.#own('ctx.continueAsNew');
    this.continues = new ContinuedAsNew(this.codec.encode(argument));
    throw this.continues;
  }

  // ---- other handlers

  #target(callee: Callee<never, unknown>, options: CallOptions): Target {
    const [service, handler] = namesOf(callee);
    checkName("the service's name", service);
    checkName("the handler's name", handler);
    if (options.key !== undefined) checkName('the key', options.key);
    if (options.idempotencyKey !== undefined) checkName('the idempotency key', options.idempotencyKey);
    const headers: Pair[] = withQueue(options.headers, options);
    const key = options.key === undefined ? {} : { key: options.key };
    return { service, handler, headers, ...key, ...(options.idempotencyKey === undefined ? {} : { idempotencyKey: options.idempotencyKey }) };
  }

  /** Calls a handler, or `"Service/handler"`. Awaited, it gives the handler's result. `gives` reads it, or throws. */
  call<I, O>(callee: Handler<I, O>, argument: Fixed<I>, options?: CallOptions & { gives?: Parse<O> }): Call<O>;
  call<O = unknown>(callee: string, argument?: unknown, options?: CallOptions & { gives?: Parse<O> }): Call<O>;
  call<I, O>(callee: Callee<I, O>, argument?: I, options: CallOptions & { gives?: Parse<O> } = {}): Call<O> {
    const [target, input] = [this.#target(callee as Callee<never, unknown>, options), this.codec.encode(argument)];
    const made = this.#asks((vm) => vm.sysCall(target, input));
    return new Call(this, made?.invocationId ?? 0, made?.result ?? 0, this.results(options.gives));
  }

  /** Calls a handler, at once or after a delay, and doesn't wait for it. Awaited, it gives the invocation's id. */
  send<I, O>(callee: Handler<I, O>, argument: Fixed<I>, options?: SendOptions): Durable<string>;
  send(callee: string, argument?: unknown, options?: SendOptions): Durable<string>;
  send<I, O>(callee: Callee<I, O>, argument?: I, options: SendOptions = {}): Durable<string> {
    const [target, input] = [this.#target(callee as Callee<never, unknown>, options), this.codec.encode(argument)];
    const { delay } = options;
    if (delay !== undefined && !(delay >= 0 && delay < 1e15)) throw new RangeError(`delay must be a number of milliseconds from 0 to below 10^15, not ${shown(delay)}`);
    return this.leaf((vm) => vm.sysSend(target, input, delay ? { atMillis: Math.ceil(Date.now() + delay) } : {}), idOf);
  }

  /** The result of another invocation, once it has ended. */
  attach<T = unknown>(invocationId: string, gives?: Parse<T>): Durable<T> {
    return this.leaf((vm) => vm.sysAttachInvocation({ invocationId }), this.results(gives));
  }

  /** Cancels another invocation: what it awaits throws `Cancelled`. */
  cancel(invocationId: string): void {
    this.#tells((vm) => vm.sysCancelInvocation(invocationId));
  }

  // ---- what others complete

  /** An id to hand out, and what comes once others complete it. */
  awakeable<T = unknown>(gives?: Parse<T>): { readonly id: string; readonly promise: Durable<T> } {
    const made = this.#asks((vm) => vm.sysAwakeable());
    return { id: made?.id ?? '', promise: new Leaf(this, made?.handle ?? 0, this.results(gives)) };
  }

  resolveAwakeable(id: string, value: unknown = null): void {
    const data = given(this.codec, value);
    this.#tells((vm) => vm.sysCompleteAwakeable(id, data));
  }

  rejectAwakeable(id: string, message: string, code = 500): void {
    this.resolveAwakeable(id, new TerminalError(message, code));
  }

  /** The next signal of this name. */
  signal<T = unknown>(name: string, gives?: Parse<T>): Durable<T> {
    this.signals.set(name, (this.signals.get(name) ?? 0) + 1);
    return this.leaf((vm) => vm.createSignalHandle(name), this.results(gives));
  }

  sendSignal(invocationId: string, name: string, value: unknown = null): void {
    const data = given(this.codec, value);
    this.#tells((vm) => vm.sysCompleteSignal(invocationId, name, data));
  }
}

/** That of a service's handlers: they have no key. */
export class ServiceContext extends Context {}

/** That of an object's shared handlers: they read the state of their key. */
export class SharedObjectContext extends Context {
  /** The value of the state under a name, or null. */
  get<T = unknown>(name: string, gives?: Parse<T>): Durable<T | null> {
    return this.leaf((vm) => vm.sysStateGet(name), (came) => (came.kind === 'void' ? null : this.reads(gives)(came)));
  }

  /** The names of the state. */
  keys(): Durable<string[]> {
    return this.leaf((vm) => vm.sysStateGetKeys(), (came) => (came.kind === 'stateKeys' ? came.keys : []));
  }
}

/** That of an object's handlers, of which one runs at a time: they change the state of their key. */
export class ObjectContext extends SharedObjectContext {
  set(name: string, value: unknown): void {
    checkName('the name of a state', name);
    const data = this.codec.encode(value);
    this.tells((vm) => vm.sysStateSet(name, data));
  }

  clear(name: string): void {
    this.tells((vm) => vm.sysStateClear(name));
  }

  clearAll(): void {
    this.tells((vm) => vm.sysStateClearAll());
  }
}

/** A promise of the workflow. */
export interface WorkflowPromise<T> {
  /** Its value, once it is completed. */
  value(): Durable<T>;
  /** Its value, or null while it isn't completed. */
  peek(): Durable<T | null>;
  /** Completes it. Awaited, it throws a `TerminalError` with code 409 if it was completed before. */
  resolve(value?: unknown): Durable<null>;
  reject(message: string, code?: number): Durable<null>;
}

type Leafs = <T>(call: (vm: VM) => Handle, read: (came: Value) => T) => Durable<T>;

function promised<T>(codec: Codec, leaf: Leafs, name: string, gives: Parse<T> | undefined): WorkflowPromise<T> {
  checkName('the name of a promise', name);
  const resolve = (value: unknown = null): Durable<null> => {
    const data = given(codec, value);
    return leaf((vm) => vm.sysCompletePromise(name, data), nothing);
  };
  return {
    value: () => leaf((vm) => vm.sysGetPromise(name), results(codec, gives)),
    peek: () => leaf((vm) => vm.sysPeekPromise(name), (came) => (came.kind === 'void' ? null : results(codec, gives)(came))),
    resolve,
    reject: (message, code = 500) => resolve(new TerminalError(message, code)),
  };
}

/** That of the handlers beside a workflow's `main`: they read its state, and complete its promises. */
export class SharedWorkflowContext extends SharedObjectContext {
  /** A promise of this workflow's key. */
  promise<T = unknown>(name: string, gives?: Parse<T>): WorkflowPromise<T> {
    return promised(this.codec, (call, read) => this.leaf(call, read), name, gives);
  }
}

/** That of a workflow's `main`. */
export class WorkflowContext extends ObjectContext {
  /** A promise of this workflow's key. */
  promise<T = unknown>(name: string, gives?: Parse<T>): WorkflowPromise<T> {
    return promised(this.codec, (call, read) => this.leaf(call, read), name, gives);
  }
}

/** What a kind of context lacks, and why: a handler that isn't typed gets this. */
function lacks(kind: typeof Context, names: readonly string[], why: (service: string) => string): void {
  for (const name of names) {
    Object.defineProperty(kind.prototype, name, {
      configurable: true,
      value(this: Context) {
        this.hasNo(`ctx.${name}: ${why((this as unknown as { serviceName: string }).serviceName)}`);
      },
    });
  }
}

lacks(ServiceContext, ['get', 'keys', 'set', 'clear', 'clearAll'], (it) => `${it} is a service, which has no key and so no state; an object has one`);
lacks(ServiceContext, ['promise'], (it) => `${it} is a service, which has no promises; a workflow has them, and an awakeable belongs to its handler`);
lacks(SharedObjectContext, ['set', 'clear', 'clearAll'], () => 'this handler only reads the state');
lacks(SharedObjectContext, ['promise'], (it) => `${it} is an object, which has no promises; a workflow has them, and an awakeable is one's own`);
lacks(ObjectContext, ['promise'], (it) => `${it} is an object, which has no promises; a workflow has them, and an awakeable is one's own`);

/** The context that a handler has. */
export function contextOf(workflow: boolean, keyed: boolean, exclusive: boolean): typeof Context {
  if (workflow) return exclusive ? WorkflowContext : SharedWorkflowContext;
  if (keyed) return exclusive ? ObjectContext : SharedObjectContext;
  return ServiceContext;
}
