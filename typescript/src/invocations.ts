/** How invocations are made: of handlers that this program has, or that a worker serves which is alive. */

import { TerminalError } from './errors';
import { inputCommand } from './frames';
import { queuedBy } from './queues';
import { checkSame } from './repeated';
import type { Codec } from './sealing';
import { timesOf } from './services';
import type { About } from './services';
import type { Statements } from './tables';
import { checkName } from './values';

/** A handler as far as its callers know it. Times are in seconds. */
export interface Target {
  readonly keyed: boolean;
  readonly exclusive: boolean;
  /** It is a workflow's `main`, which runs once a key. */
  readonly isMain: boolean;
  readonly times: readonly (number | null)[];
  readonly queue: string | null;
}

interface Serves {
  keyed: boolean;
  workflow: boolean;
  handlers: Record<string, boolean>;
  times?: Record<string, (number | null)[]>;
  queues?: Record<string, string>;
}

/** An invocation to make. `due` is in seconds since the epoch by the database's clock; null is now. */
export interface New {
  readonly id: string;
  readonly seed: bigint;
  readonly service: string;
  readonly handler: string;
  readonly key: string;
  readonly argument: Uint8Array;
  readonly headers: readonly (readonly [string, string])[];
  readonly idempotencyKey: string | null;
  readonly due: number | null;
  readonly parent: string | null;
  readonly trace: string | null;
  /** What another invocation had, in whose place this one goes on. */
  readonly queued?: { readonly queue: string | null; readonly queue_key: string | null; readonly priority: number };
}

/** Who makes invocations: a program, by its services and its codec. */
export interface Maker {
  readonly services: ReadonlyMap<string, About>;
  readonly codec: Codec;
}

/** A handler of this program; undefined if it hasn't such a one. */
export function ownTarget(own: ReadonlyMap<string, About>, service: string, handler: string): Target | undefined {
  const it = own.get(service);
  const known = it?.handlers.get(handler);
  if (it === undefined || known === undefined) return undefined;
  return { keyed: it.keyed, exclusive: known.exclusive, isMain: it.workflow && known.exclusive, times: timesOf(known), queue: known.queue?.name ?? null };
}

async function targetOf(to: Statements, own: ReadonlyMap<string, About>, service: string, handler: string): Promise<Target> {
  const known = ownTarget(own, service, handler);
  if (known !== undefined) return known;
  for (const [text] of await to.rows('serves', {})) {
    const said = (JSON.parse(String(text)) as Record<string, Serves>)[service];
    const exclusive = said?.handlers[handler];
    if (said === undefined || exclusive === undefined) continue;
    const more = { times: said.times?.[handler] ?? [null, null], queue: said.queues?.[handler] ?? null };
    return { keyed: said.keyed, exclusive, isMain: said.workflow && exclusive, ...more };
  }
  throw new TerminalError(`there is no handler ${service}/${handler}, of this app or of a worker that is alive`, 404);
}

/** Until when an invocation that is due then has to have ended, and to have begun, in seconds since the epoch. */
export function until(target: Target, begins: number): { deadline: number | null; expires: number | null } {
  const [deadline, expires] = [0, 1].map((at) => (target.times[at] == null ? null : begins + (target.times[at] as number)));
  return { deadline: deadline ?? null, expires: expires ?? null };
}

/** Throws a `TerminalError` with code 400 if a key is missing, or can't be stored. */
export function check(it: Pick<New, 'service' | 'handler' | 'key' | 'idempotencyKey'>, target: Target): void {
  if ((it.key !== '') !== target.keyed) throw new TerminalError(`${it.service}/${it.handler} is called ${target.keyed ? 'with' : 'without'} a key`, 400);
  checkName('the key', it.key);
  checkName('the idempotency key', it.idempotencyKey ?? '');
}

/** Makes an invocation, and returns its id; or that of the one that has this idempotency key already. Throws a `TerminalError` if it can't be made: 404 if
 * nobody serves it, 400 if it isn't called so, and 409 if the one that is there was called with another argument. */
export async function create(to: Statements, own: Maker, it: New): Promise<{ id: string; isNew: boolean }> {
  const target = await targetOf(to, own.services, it.service, it.handler);
  check(it, target);
  const asked = queuedBy(it.headers, it.key);
  const queued = it.queued ?? { queue: target.queue, queue_key: target.queue === null ? null : asked.queue_key, priority: asked.priority };
  const idem = target.isMain ? '' : it.idempotencyKey || null;
  const place = { service: it.service, handler: it.handler, key: it.key, idem };
  const row = { ...place, id: it.id, exclusive: Number(target.exclusive), seed: it.seed, due: it.due, now: to.now, parent: it.parent, trace: it.trace };
  if ((await to.change('create', { ...row, ...until(target, it.due ?? to.now), ...queued })) === 0) {
    const found = idem === null ? [] : await to.rows('named', place);
    const id = found.length > 0 ? String(found[0]?.[0]) : it.id;
    if (idem) await checkSame(to, own.codec, id, idem, it.argument);
    return { id, isNew: false };
  }
  await to.change('input', { id: it.id, frame: inputCommand(it.argument, it.headers), now: to.now });
  if (it.due !== null) to.isDue(it.due);
  to.say('ready');
  return { id: it.id, isNew: true };
}
