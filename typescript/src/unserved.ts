/**
 * Sends that can't be made as they were asked for. The sender goes on, so nobody would hear of it; therefore each is an invocation that people see. If no
 * worker that is alive serves the handler, it is paused, and goes on by itself once a worker serves it. What a handler never takes has failed.
 */

import { leaves } from './delivery';
import { TerminalError, storable } from './errors';
import { failure, inputCommand } from './frames';
import { traceOf } from './hash';
import { check, ownTarget, until } from './invocations';
import type { New, Target } from './invocations';
import { queuedBy } from './queues';
import type { About } from './services';
import type { Statements } from './tables';

const SERVED = 100; // that one transaction looks at

/** What is stored of one that waits. Its queue is known once somebody serves it, who also has to say what of it is wrong. */
function waiting(it: New): { queue_key: string; priority: number } {
  try {
    return queuedBy(it.headers, it.key);
  } catch (error) {
    if (!(error instanceof TerminalError)) throw error;
    return { queue_key: it.key, priority: 0 };
  }
}

/** Stores a send by why it was refused: it waits for a worker if nobody serves it (404), and else it has failed. If there is one with its idempotency key, it
 * is that one. */
export async function setAside(to: Statements, it: New, error: TerminalError): Promise<void> {
  const waits = error.code === 404;
  const text = storable(`${error.code} ${error.message}`);
  const row = { id: it.id, service: it.service, handler: it.handler, key: it.key, seed: it.seed, due: it.due, now: to.now, parent: it.parent, trace: it.trace };
  const queued = waits ? waiting(it) : { queue_key: null, priority: 0 };
  if ((await to.change('set-aside', { ...row, idem: waits ? it.idempotencyKey || null : null, error: text, ...queued })) === 0) return;
  await to.change('input', { id: it.id, frame: inputCommand(it.argument, it.headers), now: to.now });
  if (!waits) return refuse(to, { ...it, created: to.now }, error);
  const { traceId } = traceOf(it.id, it.trace);
  to.note({ event: 'unserved', invocation: it.id, service: it.service, handler: it.handler, attempt: 0, error: text, traceId });
}

/** One that is set aside. Times are in seconds since the epoch. */
interface Aside {
  readonly id: string;
  readonly service: string;
  readonly handler: string;
  readonly trace: string | null;
  readonly created: number;
}

async function refuse(to: Statements, { id, service, handler, trace, created }: Aside, error: TerminalError): Promise<void> {
  const [result, text] = [failure(error.code, error.message), storable(`${error.code} ${error.message}`)];
  await to.change('refuse', { id, now: to.now, result, failed: error.code, error: text });
  await leaves(to, { id, service, key: '' }, result); // it has no key's lock
  to.note({ event: 'failed', invocation: id, service, handler, attempt: 0, error: text, traceId: traceOf(id, trace).traceId });
  to.ended(id, { service, handler, outcome: 'failed', seconds: to.now - created });
}

type Row = readonly [
  id: string, service: string, handler: string, key: string, idem: string | null, queueKey: string, due: number, trace: string | null, created: number,
]; // prettier-ignore

/** Some of what waits for a worker with these services goes on, as if it were made now; what their handlers don't take has failed. Returns whether there may
 * be more. */
export async function serves(to: Statements, services: ReadonlyMap<string, About>): Promise<boolean> {
  let hasMore = false;
  for (const { name: service, handlers } of services.values()) {
    const rows = (await to.rows('unserved', { service, handlers: [...handlers.keys()], most: SERVED })) as unknown as readonly Row[];
    for (const row of rows) await takesUp(to, services, row);
    if (rows.length > 0) to.say('ready');
    hasMore ||= rows.length === SERVED;
  }
  return hasMore;
}

async function takesUp(to: Statements, services: ReadonlyMap<string, About>, row: Row): Promise<void> {
  const [id, service, handler, key, idempotencyKey, queueKey, due, trace, created] = row;
  const target = ownTarget(services, service, handler);
  if (target === undefined) return;
  try {
    check({ service, handler, key, idempotencyKey }, target);
    if (target.isMain) await checkFirst(to, service, handler, key);
  } catch (error) {
    if (!(error instanceof TerminalError)) throw error;
    return refuse(to, { id, service, handler, trace, created }, error);
  }
  await goesOn(to, target, id, { idempotencyKey, queueKey, due: Math.max(due, to.now) });
}

/** Throws a `TerminalError` if a workflow has run for this key. */
async function checkFirst(to: Statements, service: string, handler: string, key: string): Promise<void> {
  const other = (await to.rows('named', { service, handler, key, idem: '' }))[0]?.[0];
  if (other !== undefined) throw new TerminalError(`${service}/${handler} runs once a key, and ${String(other)} is that of this key`, 409);
}

/** Its row is as a new one's. */
async function goesOn(to: Statements, target: Target, id: string, it: { idempotencyKey: string | null; queueKey: string; due: number }): Promise<void> {
  const { exclusive, queue, isMain } = target;
  const queued = { queue, queue_key: queue === null ? null : it.queueKey };
  await to.change('serve', { id, exclusive: Number(exclusive), due: it.due, ...until(target, it.due), idem: isMain ? '' : it.idempotencyKey, ...queued });
  to.isDue(it.due);
}
