/** Services and their handlers: what a worker serves, and what handlers and clients call. */

import { createHash } from 'node:crypto';
import type { ObjectContext, ServiceContext, SharedObjectContext, SharedWorkflowContext, WorkflowContext } from './context';
import { TerminalError, shown } from './errors';
import { Queue } from './queues';
import type { Parse } from './values';

/**
 * When a failed run, or a failed attempt of a handler, is tried again. Times are in milliseconds. The first delay is `initial` (50); each next one is
 * larger by `factor` (2), up to `longest` (10,000). Each is shorter by chance, by at most this part of it (`jitter`, 0.2), so that what failed together isn't
 * tried again all at once. It is tried `attempts` times at most, and for `duration` at most; without them there is no bound. Then `pause` pauses the
 * invocation, and without it the error is the result.
 */
export interface Retry {
  initial?: number;
  factor?: number;
  longest?: number;
  jitter?: number;
  attempts?: number;
  duration?: number;
  pause?: boolean;
}

/** A handler's attempts, if it says nothing else. */
export const ATTEMPTS: Retry = { attempts: 50, pause: true };

export interface HandlerOptions<I> {
  /** When its attempts are tried again: 50 times, and then a pause, by default. */
  retry?: Retry;
  /** Reads the argument, or throws: then the invocation ends with code 400. */
  takes?: Parse<I>;
  /** How many of its attempts may run at once, over all workers. */
  limit?: number;
  /** Limits of more kinds, also for several handlers. */
  queue?: Queue;
  /** Milliseconds within which an invocation has to end after it was due to begin; else it ends with code 408, and its calls are cancelled. */
  timeout?: number;
  /** Milliseconds within which its first attempt has to begin; else it ends with code 408. */
  queueTimeout?: number;
  /** Milliseconds that an attempt may take. One that takes longer has failed, and is tried again. To wait takes nothing of it. */
  attemptTimeout?: number;
}

export const ABOUT: unique symbol = Symbol('palqytun.service');

type Run<C, I, O> = (ctx: C, argument: I) => O | PromiseLike<O>;

/** What `shared`, `main` or `handler` make of a function. */
export interface Made<C, I, O> extends HandlerOptions<I> {
  readonly kind: 'handler' | 'shared' | 'main';
  readonly run: Run<C, I, O>;
}

/** A handler, as its callers know it: `ctx.call(stock.take, 2, { key: 'pen' })`. */
export interface Handler<I, O> {
  readonly service: string;
  readonly name: string;
  readonly keyed: boolean;
  readonly exclusive: boolean;
  readonly retry: Retry;
  readonly takes: Parse<I> | undefined;
  readonly limit: number | undefined;
  readonly queue: Queue | undefined;
  /** Milliseconds. */
  readonly timeout: number | undefined;
  readonly queueTimeout: number | undefined;
  readonly attemptTimeout: number | undefined;
  readonly run: Run<never, I, O>;
}

/** A type that is given by another argument, and isn't inferred here. */
export type Fixed<T> = [T][T extends unknown ? 0 : never];

/** A handler of whatever types. */
export type AnyHandler = Handler<never, unknown>;

// eslint-disable-next-line @typescript-eslint/no-explicit-any -- a handler takes what it likes
type Given<C> = Run<C, never, unknown> | Made<C, any, unknown>;
type HandlerOf<G> = G extends Made<never, infer I, infer O> ? Handler<I, Awaited<O>>
  : G extends (ctx: never, argument: infer I) => infer O ? Handler<I, Awaited<O>> : never;

/** The handlers of a service, each as a property. */
export type Service<G> = { readonly [N in keyof G]: HandlerOf<G[N]> } & { readonly [ABOUT]: About };

export interface About {
  readonly name: string;
  readonly keyed: boolean;
  readonly workflow: boolean;
  readonly handlers: ReadonlyMap<string, AnyHandler>;
}

/** A service of whatever handlers. */
export interface AnyService {
  readonly [ABOUT]: About;
}

const TIMES = ['initial', 'longest', 'duration'] as const;

/** Refuses a policy that has no meaning. */
export function checkRetry(what: string, retry: Retry): void {
  if (retry === null || typeof retry !== 'object') throw new TypeError(`${what} must be an object, as { attempts: 5 }, not ${shown(retry)}`);
  for (const name of TIMES) {
    const time = retry[name];
    if (time !== undefined && !(time >= 0 && time < Infinity)) throw new RangeError(`${what}: ${name} must be a number of milliseconds from 0, not ${shown(time)}`);
  }
  const { attempts, factor, jitter } = retry;
  if (jitter !== undefined && !(jitter >= 0 && jitter <= 1)) throw new RangeError(`${what}: jitter must be from 0 to 1, a part of the delay, not ${shown(jitter)}`);
  if (attempts !== undefined && !(Number.isInteger(attempts) && attempts >= 1)) throw new RangeError(`${what}: attempts must be a whole number from 1, not ${shown(attempts)}`);
  if (factor !== undefined && !(factor >= 0 && factor <= 1e6)) throw new RangeError(`${what}: factor must be a number from 0 to 1,000,000, not ${shown(factor)}`);
}

/** The delay in milliseconds after this number of failures. */
export function delayOf(retry: Retry, failures: number): number {
  return Math.min(retry.longest ?? 10_000, (retry.initial ?? 50) * (retry.factor ?? 2) ** (failures - 1));
}

/** The part of a delay by which it is shorter at most, if a policy says nothing else. */
export const JITTER = 0.2;

/** A delay, which is shorter by chance: so what failed together isn't tried again all at once. */
export function jittered(delay: number, jitter = JITTER): number {
  return delay * (1 - jitter * Math.random());
}

/** Whether it isn't tried again after this number of failures within so many milliseconds. */
export function isOver(retry: Retry, failures: number, failing: number): boolean {
  return (retry.attempts !== undefined && failures >= retry.attempts) || (retry.duration !== undefined && failing >= retry.duration);
}

const LIMITS = ['timeout', 'queueTimeout', 'attemptTimeout'] as const;

/** The limits of a handler. Throws a `RangeError` for one that has no meaning. */
function limitsOf(path: string, it: Omit<HandlerOptions<never>, 'takes' | 'retry'>): Pick<AnyHandler, 'limit' | 'queue' | (typeof LIMITS)[number]> {
  const { limit, queue, timeout, queueTimeout, attemptTimeout } = it;
  if (limit !== undefined && !(Number.isInteger(limit) && limit >= 1)) throw new RangeError(`the limit of ${path} must be a whole number from 1, not ${shown(limit)}`);
  if (queue !== undefined && !(queue instanceof Queue)) throw new TypeError(`the queue of ${path} must be a Queue, not ${shown(queue)}`);
  if (limit !== undefined && queue !== undefined) throw new RangeError(`${path} has a limit and a queue: give the queue the concurrency ${limit}`);
  for (const name of LIMITS) {
    const time = it[name];
    if (time !== undefined && !(typeof time === 'number' && time > 0 && time < Infinity)) throw new RangeError(`the ${name} of ${path} must be a number of milliseconds above 0, not ${shown(time)}`);
  }
  return { limit, queue, timeout, queueTimeout, attemptTimeout };
}

function made<C, I, O>(kind: Made<C, I, O>['kind'], run: Run<C, I, O>, options: HandlerOptions<I>): Made<C, I, O> {
  if (typeof run !== 'function') throw new TypeError(`a handler must be a function, not ${typeof run}`);
  return { kind, run, ...options };
}

/** A handler with options: `handler(async (ctx: ServiceContext, n: number) => .., { retry: { attempts: 3 } })`. */
export function handler<C, I, O>(run: Run<C, I, O>, options: HandlerOptions<I> = {}): Made<C, I, O> {
  return made('handler', run, options);
}

/** A handler of an object that reads the state and doesn't wait for others of its key. */
export function shared<I, O>(run: Run<SharedObjectContext, I, O>, options: HandlerOptions<I> = {}): Made<SharedObjectContext, I, O> {
  return made('shared', run, options);
}

/** The handler of a workflow that runs once a key. */
export function main<I, O>(run: Run<WorkflowContext, I, O>, options: HandlerOptions<I> = {}): Made<WorkflowContext, I, O> {
  return made('main', run, options);
}

function served<G>(name: string, keyed: boolean, workflow: boolean, given: Record<string, Given<never>>): Service<G> {
  if (typeof name !== 'string' || name === '' || name.includes('/') || name === '-') throw new TypeError(`a service's name must be a string without /, as 'Shop', not ${shown(name)}`);
  if (given === null || typeof given !== 'object') throw new TypeError(`the handlers of ${name} must be an object with a function for each name, not ${shown(given)}`);
  const handlers = new Map<string, AnyHandler>();
  for (const [own, it] of Object.entries(given)) {
    const how = typeof it === 'function' ? made('handler', it as Run<never, never, unknown>, {}) : it;
    if (how === null || typeof how !== 'object' || typeof how.run !== 'function') throw new TypeError(`${name}/${own} must be a function, or what handler, shared or main makes of one, not ${shown(it)}`);
    if (how.kind === 'main' && !workflow) throw new TypeError(`${name}/${own} is a main: only a workflow may have one`);
    if (how.kind === 'shared' && (!keyed || workflow)) throw new TypeError(`${name}/${own} is shared: only a handler of an object may be shared`);
    const retry = how.retry ?? ATTEMPTS;
    checkRetry(`the retry of ${name}/${own}`, retry);
    const exclusive = workflow ? how.kind === 'main' : keyed && how.kind !== 'shared';
    const more = { ...limitsOf(`${name}/${own}`, how), takes: how.takes as Parse<never> | undefined, run: how.run as Run<never, never, unknown> };
    handlers.set(own, { service: name, name: own, keyed, exclusive, retry, ...more });
  }
  const about: About = { name, keyed, workflow, handlers };
  return Object.freeze({ ...Object.fromEntries(handlers), [ABOUT]: about }) as unknown as Service<G>;
}

/** Handlers without a key, which run side by side. */
export function service<G extends Record<string, Given<ServiceContext>>>(name: string, handlers: G): Service<G> {
  return served<G>(name, false, false, handlers);
}

/** Handlers with a key and its state. One of a key runs at a time, except for those that are `shared`, which only read. */
export function object<G extends Record<string, Given<ObjectContext>>>(name: string, handlers: G): Service<G> {
  return served<G>(name, true, false, handlers);
}

/** A `main` that runs once a key, and handlers beside it, which look at its state and complete its promises. */
export function workflow<G extends Record<string, Given<SharedWorkflowContext> | Given<WorkflowContext>>>(name: string, handlers: G): Service<G> {
  const found = served<G>(name, true, true, handlers as Record<string, Given<never>>);
  const mains = [...found[ABOUT].handlers.values()].filter((it) => it.exclusive);
  if (mains.length !== 1) throw new TypeError(`the workflow ${name} must have one handler that is main, not ${mains.length}: main(async (ctx, argument) => ..)`);
  return found;
}

/** What stands before the first slash, and what stands behind it. */
function parts(path: string): [service: string, handler: string] {
  const at = path.indexOf('/');
  return at < 0 ? ['', ''] : [path.slice(0, at), path.slice(at + 1)];
}

/** The service and the name of what is called. Throws a `TerminalError` with code 400 for what is no handler, and no `'Service/handler'`. */
export function namesOf(callee: { readonly service: string; readonly name: string } | string): [string, string] {
  const [service, name] = typeof callee === 'string' ? parts(callee) : [callee?.service, callee?.name];
  if (!service || !name) throw new TerminalError(`${shown(callee)} is no handler: it is one of a service, as shop.order, or a text as 'Service/handler'`, 400);
  return [service, name];
}

/** The services that a worker serves, by their names. */
export function servicesOf(services: readonly AnyService[]): Map<string, About> {
  const found = new Map<string, About>();
  const queues = new Map<string, Queue>();
  if (!Array.isArray(services)) throw new TypeError(`services must be an array of what service, object or workflow makes, not ${shown(services)}`);
  for (const it of services as readonly AnyService[]) {
    const about = it?.[ABOUT];
    if (about === undefined) throw new TypeError(`services must be an array of what service, object or workflow makes, and ${shown(it)} is none`);
    if (found.has(about.name)) throw new Error(`there are two services with the name ${about.name}`);
    found.set(about.name, about);
    for (const { queue } of about.handlers.values()) {
      if (queue === undefined) continue;
      const other = queues.get(queue.name) ?? queue;
      if (other.limits !== queue.limits) throw new Error(`there are two queues with the name ${queue.name}: ${other.limits} and ${queue.limits}`);
      queues.set(queue.name, queue);
    }
  }
  return found;
}

/** The seconds within which an invocation has to end, and to begin; null is no limit. */
export function timesOf({ timeout, queueTimeout }: AnyHandler): [number | null, number | null] {
  return [timeout === undefined ? null : timeout / 1000, queueTimeout === undefined ? null : queueTimeout / 1000];
}

/** The version of this code, as long as nothing else names it: a hash of its handlers' sources. What they call isn't in it. */
export function versionOf(services: ReadonlyMap<string, About>): string {
  const hash = createHash('sha256');
  const handlers = [...services.values()].flatMap((it) => [...it.handlers.values()]);
  for (const it of handlers.sort((one, other) => (`${one.service}/${one.name}` < `${other.service}/${other.name}` ? -1 : 1))) {
    hash.update(`${it.service}/${it.name}\0${it.exclusive}\0${Function.prototype.toString.call(it.run)}\0`);
  }
  return hash.digest('hex').slice(0, 12);
}

/** What a worker announces. */
export function servesText(services: ReadonlyMap<string, About>): string {
  const about = [...services.values()].map((it) => {
    const those = [...it.handlers.values()];
    const handlers = Object.fromEntries(those.map((one) => [one.name, one.exclusive]));
    const times = those.filter((one) => timesOf(one).some((time) => time !== null)).map((one) => [one.name, timesOf(one)]);
    const queues = those.filter((one) => one.queue !== undefined).map((one) => [one.name, one.queue?.name]);
    const some = [['times', times], ['queues', queues]] as const;
    const more = Object.fromEntries(some.filter(([, all]) => all.length > 0).map(([name, all]) => [name, Object.fromEntries(all)]));
    return [it.name, { keyed: it.keyed, workflow: it.workflow, handlers, ...more }];
  });
  return JSON.stringify(Object.fromEntries(about));
}
