/**
 * What a stored row asks for is done, in the transaction that stores it; so it is done once. What each row asks for is said by the core, or is an attribute,
 * which is the runtime's own. No frame is read here.
 */

import { frames } from 'palqytun';
import type { Effect, Row } from 'palqytun';
import { deliver, newest, send } from './delivery';
import { TerminalError } from './errors';
import { VOID, attributeIn, failure, invocationId, isThere, keys } from './frames';
import type { Attribute } from './frames';
import { idOfCall, seedOf } from './hash';
import { create } from './invocations';
import type { New } from './invocations';
import type { Codec } from './sealing';
import type { About } from './services';
import type { Statements } from './tables';
import { setAside } from './unserved';

/** Whose commands these are. */
export interface Own {
  readonly id: string;
  readonly service: string;
  readonly key: string;
  /** The header `traceparent` of its calls. */
  readonly trace: string;
  readonly services: ReadonlyMap<string, About>;
  /** That of new invocations. */
  readonly codec: Codec;
}

export type Asked = Effect | Attribute;
type Of<Kind extends Asked['kind']> = Extract<Asked, { kind: Kind }>;

const UTF8 = new TextDecoder('utf-8', { fatal: true, ignoreBOM: true });

/** What stored rows ask for, in their order. */
export function askedBy(rows: readonly Row[]): Asked[] {
  return rows.map((row) => row.effect ?? attributeIn(row)).filter((it): it is Asked => it !== undefined);
}

/** Does what is asked for; returns the notifications that it brings at once. */
export async function perform(to: Statements, own: Own, it: Asked): Promise<Uint8Array[]> {
  switch (it.kind) {
    case 'begin':
      return begins(to, own, it);
    case 'wait':
      return waits(to, own, it);
    case 'send':
      return sends(to, it);
    case 'change':
      return changes(to, own, it);
    case 'read':
      return reads(to, own, it);
    case 'promise':
      return it.result === undefined ? looksAtPromise(to, own, it) : completesPromise(to, own, it, it.result);
    case 'attach':
      return attachesTo(to, own, it);
    case 'attribute':
      return attributes(to, own, it);
    case 'output':
      return []; // an end gives the result to those that wait
  }
}

/** A time of a command, which is by this process's clock, by the database's. */
function dueOf(to: Statements, millis: bigint): number {
  return to.now + (Number(millis) - Date.now()) / 1000;
}

/** An attribute of the invocation is set, or taken away. */
async function attributes(to: Statements, own: Own, { name, value }: Attribute): Promise<Uint8Array[]> {
  if (value === undefined) await to.change('no-attribute', { id: own.id, name });
  else await to.change('attribute', { id: own.id, name, said: value });
  return [];
}

async function waits(to: Statements, own: Own, it: Of<'wait'>): Promise<Uint8Array[]> {
  const due = dueOf(to, it.timeMillis);
  await to.change('timer', { due, id: own.id, completes: it.completes });
  to.isDue(due);
  return [];
}

async function begins(to: Statements, own: Own, it: Of<'begin'>): Promise<Uint8Array[]> {
  const given = idOfCall(own.id, it.idCompletes);
  const named = (id: string): Uint8Array => frames.completion(it.idCompletes, invocationId(id));
  const asked: New = {
    id: given, seed: seedOf(given), service: it.service, handler: it.handler, key: it.key, argument: own.codec.renewed(it.parameter), headers: it.headers,
    idempotencyKey: it.idempotencyKey ?? null, due: it.timeMillis === 0n ? null : dueOf(to, it.timeMillis), parent: own.id, trace: own.trace,
  }; // prettier-ignore
  try {
    const { id, isNew } = await create(to, own, asked);
    if (it.completes === undefined) return [named(id)];
    if (!isNew) return [named(id), ...(await attaches(to, own, id, it.completes))];
    await to.change('wait', { invocation: id, id: own.id, completes: it.completes });
    return [named(id)];
  } catch (error) {
    if (!(error instanceof TerminalError)) throw error;
    if (it.completes !== undefined) return [named(given), frames.completion(it.completes, failure(error.code, error.message))];
    await setAside(to, asked, error);
    return [named(given)];
  }
}

async function attachesTo(to: Statements, own: Own, it: Of<'attach'>): Promise<Uint8Array[]> {
  const target = await targetOf(to, own, it.target);
  return it.peeks ? looks(to, target, it.completes) : attaches(to, own, target, it.completes);
}

/** The id by which an invocation is named, or that of the one with this idempotency key, or of a workflow's; the empty text if there is none. */
async function targetOf(to: Statements, own: Own, it: Of<'attach'>['target']): Promise<string> {
  if ('invocationId' in it) return isThere(it.invocationId) ? it.invocationId : '';
  const main = (service: string): string => [...(own.services.get(service)?.handlers.values() ?? [])].find((one) => one.exclusive)?.name ?? '';
  const place =
    'workflow' in it
      ? { service: it.workflow, handler: main(it.workflow), key: it.key, idem: '' }
      : { service: it.service, handler: it.handler, key: it.serviceKey ?? '', idem: it.idempotencyKey };
  return String((await to.rows('named', place))[0]?.[0] ?? '');
}

async function attaches(to: Statements, own: Own, target: string, completes: number): Promise<Uint8Array[]> {
  for (;;) {
    const id = await newest(to, target);
    const found = await to.rows('result', { invocation: id });
    if (found.length === 0) return [frames.completion(completes, failure(404, 'there is no such invocation'))];
    const result = found[0]?.[0] as Uint8Array | null;
    if (result !== null) return [frames.completion(completes, result)];
    if ((await newest(to, target)) !== id) continue; // it went on as another one before its row was kept
    await to.change('wait', { invocation: id, id: own.id, completes });
    return [];
  }
}

async function looks(to: Statements, target: string, completes: number): Promise<Uint8Array[]> {
  const found = await to.rows('result', { invocation: await newest(to, target) });
  if (found.length === 0) return [frames.completion(completes, failure(404, 'there is no such invocation'))];
  return [frames.completion(completes, (found[0]?.[0] as Uint8Array | null) ?? VOID())];
}

async function reads(to: Statements, own: Own, it: Of<'read'>): Promise<Uint8Array[]> {
  const rows = await to.rows('state', { service: own.service, key: own.key });
  if (it.name === undefined) {
    const names = rows.map(([one]) => Buffer.from(String(one), 'utf8')).sort(Buffer.compare);
    return [frames.completion(it.completes, keys(names.map((one) => one.toString('utf8'))))];
  }
  const found = rows.find(([one]) => one === it.name);
  return [frames.completion(it.completes, found === undefined ? VOID() : frames.valueFrame(found[1] as Uint8Array))];
}

/** The result of a promise, which is made if it isn't there, and kept until the commit. */
async function promised(to: Statements, place: Readonly<Record<string, string>>): Promise<Uint8Array | null> {
  return ((await to.rows('promise', place))[0]?.[0] ?? null) as Uint8Array | null;
}

async function looksAtPromise(to: Statements, own: Own, it: Of<'promise'>): Promise<Uint8Array[]> {
  const place = { service: own.service, key: own.key, name: it.name };
  const found = await promised(to, place);
  if (found !== null || it.peeks) return [frames.completion(it.completes, found ?? VOID())];
  await to.change('await-promise', { ...place, id: own.id, completes: it.completes });
  return [];
}

async function completesPromise(to: Statements, own: Own, it: Of<'promise'>, result: Uint8Array): Promise<Uint8Array[]> {
  const place = { service: own.service, key: own.key, name: it.name };
  if ((await promised(to, place)) !== null) return [frames.completion(it.completes, failure(409, 'the promise was completed before'))];
  for (const [waiter, completes] of await to.rows('complete-promise', { ...place, result })) {
    await deliver(to, String(waiter), frames.completion(completes as number, result));
  }
  return [frames.completion(it.completes, VOID())];
}

/** A signal, or the result of an awakeable, which is for its invocation alone. */
async function sends(to: Statements, it: Of<'send'>): Promise<Uint8Array[]> {
  const target = textOf(it.target);
  if (target === undefined || !isThere(target)) return []; // it names nobody
  if (it.isAwakeable) await deliver(to, target, it.notification);
  else await send(to, target, it.notification);
  return [];
}

function textOf(data: Uint8Array): string | undefined {
  try {
    return UTF8.decode(data);
  } catch {
    return undefined;
  }
}

async function changes(to: Statements, own: Own, it: Of<'change'>): Promise<Uint8Array[]> {
  const place = { service: own.service, key: own.key };
  if (it.name === undefined) await to.change('clear-all', place);
  else if (it.value === undefined) {
    if (isThere(it.name)) await to.change('clear', { ...place, name: it.name });
  } else await to.change('set', { ...place, name: it.name, value: it.value });
  return [];
}
