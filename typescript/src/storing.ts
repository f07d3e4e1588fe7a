/** The transactions of an attempt: what it wrote is stored with its effects, what came for it is put into its journal, and it stops. */

import { Code, frames } from 'palqytun';
import type { Journal, Row } from 'palqytun';
import { deliver, leaves } from './delivery';
import { askedBy, perform } from './effects';
import type { Asked, Own } from './effects';
import { storable } from './errors';
import { Kind, failureIn, isCancel, isStep, signalName, split, valueIn } from './frames';
import type { Frame } from './frames';
import { idOfCall, seedOf, traceOf } from './hash';
import { create } from './invocations';
import type { Event } from './notes';
import { delayOf, isOver, jittered } from './services';
import type { Retry } from './services';
import type { Ended, Statements } from './tables';

/** The version of the VM's protocol, of all invocations. */
export const VM_VERSION = 7;
const MOST = 1000; // notifications that one transaction takes of an inbox

/** The lease is another's by now: what this attempt still does is lost. */
export class Fenced extends Error {
  override readonly name = 'Fenced';

  constructor(claim: Claim, entries: number) {
    super(`${claim.id} is not this worker's at epoch ${claim.epoch} with ${entries} entries`);
  }
}

/** How often attempts have failed since the last progress, and since when; `failures` are those of the handler itself, and not of a run. */
export interface Counters {
  retries: number;
  failingSince: number | null;
  failures: number;
  failedSince: number | null;
}

/** A lease, and what an attempt needs. Times are in seconds since the epoch. */
export interface Claim extends Own {
  readonly epoch: number;
  readonly handler: string;
  readonly exclusive: boolean;
  /** Its handler has a limit or a queue. */
  readonly isLimited: boolean;
  readonly begun: number;
  readonly created: number;
  readonly retry: Retry;
  readonly journal: Journal;
  /** What the attempt is fed first: its Start and the journal. */
  readonly fed: Uint8Array;
  readonly patches: Map<number, string>;
  readonly counters: Counters;
  /** Its journal has a cancellation. */
  wasCancelled: boolean;
  /** Its inbox has one, which the attempt takes when the handler may be cancelled. */
  cancelWaits: boolean;
  isShielded: boolean;
  /** The attempt has failed by a run, which has its own policy. */
  byRun: boolean;
  /** The run that has failed, and by how much the delay of its next try is shorter at most. */
  /** The line of the user's code by which the attempt has failed. */
  where?: string | undefined;
  failedRun?: { readonly name: string; readonly jitter: number };
  /** A new invocation goes on in its place: the headers of both, and how many signals of each name its handler has asked for. */
  continues?: { readonly headers: readonly (readonly [string, string])[]; readonly asked: ReadonlyMap<string, number> };
}

export type Status = 'running' | 'suspended' | 'ready' | 'paused' | 'done';

/** What a transaction has made of an attempt. */
export interface Outcome {
  status: Status;
  /** What the attempt is fed, after the commit. */
  feed: Uint8Array[];
  /** More has come than was taken. */
  hasMore: boolean;
  /** What became of a cancellation that came. */
  cancel: 'taken' | 'waits' | undefined;
}

function outcome(status: Status): Outcome {
  return { status, feed: [], hasMore: false, cancel: undefined };
}

const RUNNING = 'running';
const CLEAN: Counters = { retries: 0, failingSince: null, failures: 0, failedSince: null };

function isNotification(frame: Uint8Array): boolean {
  return frame[0] === 0 && frame[1] === Kind.notification;
}

/** Entries as lists of their places, of the ids that they complete, and of their frames. */
function listed(rows: readonly Row[], first: number): { places: number[]; completions: (number | null)[]; frames: Buffer[] } {
  return {
    places: rows.map((_, at) => first + at),
    completions: rows.map((row) => row.completes ?? null),
    frames: rows.map(({ frame }) => Buffer.from(frame.buffer as ArrayBuffer, frame.byteOffset, frame.byteLength)),
  };
}

/** What the log says of an attempt. */
function note(to: Statements, claim: Claim, event: Event, error: string, more: { where?: string | undefined; delay?: number } = {}): void {
  const { id: invocation, service, handler, epoch: attempt, failedRun } = claim;
  to.note({ event, invocation, service, handler, attempt, error, run: failedRun?.name, traceId: traceOf(invocation, claim.trace).traceId, ...more });
}

async function append(to: Statements, claim: Pick<Claim, 'id'>, rows: readonly Row[], first: number): Promise<void> {
  if (rows.length > 0) await to.change('appends', { id: claim.id, now: to.now, ...listed(rows, first) });
}

/** Keeps the invocation's row, if it is still this claim's with so many entries. */
async function fence(to: Statements, claim: Claim, before: number): Promise<void> {
  if ((await to.rows('fence', { id: claim.id, epoch: claim.epoch, before })).length === 0) throw new Fenced(claim, before);
}

/** Stores what an attempt wrote. If it has ended, its invocation's status follows. What is `isSteps` alone is one statement, which is a transaction. */
export async function store(to: Statements, claim: Claim, output: Uint8Array): Promise<Outcome> {
  claim.journal.undo(); // an earlier try of this transaction failed
  const written = split(output);
  if (claim.continues !== undefined && written.some(isEnd)) await to.rows('take', { id: claim.id }); // before the fence, as those who send keep it before
  const before = claim.journal.entries;
  const stored = claim.journal.store(VM_VERSION, output);
  const asked = askedBy(stored.rows);
  if (asked.length > 0 || written.some(isEnd)) await fence(to, claim, before);
  const arrived: Uint8Array[] = [];
  for (const it of asked) arrived.push(...(await perform(to, claim, it)));
  const rows = [...stored.rows, ...arrived.map((it) => claim.journal.arrive(it))];
  if (stored.rows.length > 0) Object.assign(claim.counters, CLEAN);
  if (!written.some(isEnd)) return goesOn(to, claim, rows, before, [...(stored.feed.length > 0 ? [stored.feed] : []), ...arrived]);
  await append(to, claim, rows, before);
  if (stored.rows.length > 0) await to.change('progress', { id: claim.id, epoch: claim.epoch });
  return stops(to, claim, { before, written, asked, rows });
}

/** Whether an output has only steps, which ask nothing of the runtime but to be stored. */
export function isSteps(output: Uint8Array): boolean {
  return split(output).every(isStep);
}

function isEnd({ kind }: Frame): boolean {
  return kind === Kind.suspension || kind === Kind.error || kind === Kind.end;
}

/** The attempt goes on, with some more entries. */
async function goesOn(to: Statements, claim: Claim, rows: readonly Row[], before: number, feed: Uint8Array[]): Promise<Outcome> {
  const grown = { id: claim.id, epoch: claim.epoch, before, entries: claim.journal.entries, now: to.now };
  if (rows.length > 0 && (await to.change('steps', { ...grown, ...listed(rows, before) })) === 0) throw new Fenced(claim, before);
  return { ...outcome(RUNNING), feed };
}

interface Growth {
  readonly before: number;
  readonly written: readonly Frame[];
  readonly asked: readonly Asked[];
  readonly rows: readonly Row[];
}

/** The last statement of a store by which the attempt stops. */
async function stops(to: Statements, claim: Claim, it: Growth): Promise<Outcome> {
  if (claim.isLimited) to.say('ready'); // there is room for another one
  const last = it.written.find(isEnd) as Frame;
  if (last.kind === Kind.suspension) return suspend(to, claim, it, last.bytes);
  if (last.kind === Kind.error) return fail(to, claim, it, last.bytes);
  const output = it.asked.find((one) => one.kind === 'output');
  const result = output?.kind === 'output' ? output.result : await storedOutput(to, claim);
  return claim.continues === undefined ? end(to, claim, it.before, result) : goesOnAs(to, claim, it.before, result, claim.continues);
}

type Stops = 'grow' | 'suspend' | 'end' | 'fail';

async function writes(to: Statements, claim: Claim, before: number, name: Stops, values: Readonly<Record<string, unknown>>): Promise<void> {
  const fenced = { id: claim.id, epoch: claim.epoch, before, entries: claim.journal.entries, now: to.now };
  if ((await to.change(name, { ...fenced, ...values })) === 0) throw new Fenced(claim, before);
}

/** The invocation waits; or it doesn't, if what wakes it came just now. */
async function suspend(to: Statements, claim: Claim, it: Growth, suspension: Uint8Array): Promise<Outcome> {
  const inbox = await to.rows('inbox', { id: claim.id });
  const stored = it.rows.map((row) => row.frame).filter(isNotification);
  const isAwake = wakes(suspension, stored, false) || wakes(suspension, inbox.map(frameOf), claim.isShielded) || inbox.length === MOST;
  if (!isAwake && inbox.length > 0) await to.change('seen', { id: claim.id, seqs: inbox.map(([seq]) => seq) });
  const found = outcome(isAwake ? 'ready' : 'suspended');
  await writes(to, claim, it.before, 'suspend', { status: found.status, suspension, shielded: Number(claim.isShielded) });
  if (isAwake) to.say('ready');
  return found;
}

function frameOf(row: readonly unknown[]): Uint8Array {
  return row[1] as Uint8Array;
}

/** Whether a suspension is awake by some notifications; a cancellation doesn't wake one that is shielded. */
export function wakes(suspension: Uint8Array, notifications: readonly Uint8Array[], isShielded: boolean): boolean {
  const those = isShielded ? notifications.filter((it) => !isCancel(it)) : notifications;
  return frames.isAwake(suspension, Buffer.concat(those));
}

/** The attempt failed: it is tried again, or the invocation is paused, or the error is its result. */
async function fail(to: Statements, claim: Claim, it: Growth, error: Uint8Array): Promise<Outcome> {
  const said = new frames.Message(error);
  const behavior = (['retry', 'pause', 'fail'] as const)[said.kind];
  const counters = counted(claim);
  const seconds = to.now - (counters.failedSince ?? to.now);
  const over = !claim.byRun && isOver(claim.retry, counters.failures, seconds * 1000);
  if (behavior === 'fail' || (over && claim.retry.pause !== true && behavior !== 'pause')) {
    return end(to, claim, it.before, failed(said));
  }
  const found = outcome(over || behavior === 'pause' ? 'paused' : 'ready');
  const wait = delayOf(claim.retry, claim.byRun ? counters.retries : counters.failures);
  const delay = jittered(said.second > 0 ? Number(said.number) : wait, claim.failedRun?.jitter ?? claim.retry.jitter) / 1000;
  const [text, how] = [storable(`${named(said.id)} ${said.text(0)}\n${said.text(1)}`.trimEnd()), found.status === 'paused' ? 'paused' : 'failed'];
  await writes(to, claim, it.before, 'fail', {
    status: found.status, due: to.now + delay, error: text, how,
    retries: counters.retries, failing_since: counters.failingSince, failures: counters.failures, failed_since: counters.failedSince,
  }); // prettier-ignore
  const [why, { where }] = [text.replace(/^500 /, ''), claim];
  note(to, claim, how === 'paused' ? 'paused' : 'attempt failed', why, how === 'paused' ? { where } : { where, delay });
  to.isDue(to.now + delay);
  to.say('ready');
  return found;
}

/** The code of an error, with its name if the error is the VM's own: a handler's own has the code 500. */
function named(code: number): string {
  const name = Object.entries(Code).find(([, it]) => it === code)?.[0];
  return name === undefined || code === Code.INTERNAL ? `${code}` : `${code} ${name}:`;
}

function failed(said: InstanceType<typeof frames.Message>): Uint8Array {
  const text = Buffer.from(said.text(0), 'utf8').toString('hex');
  return frames.frameOf(`Notification id=completion(0) result=failure(code=${said.id} message=${text === '' ? '""' : `0x${text}`} metadata=[])`);
}

/** The counters with the failure of this attempt. */
function counted(claim: Claim): Counters {
  const { retries, failingSince, failures, failedSince } = claim.counters;
  const own = claim.byRun ? { failures, failedSince } : { failures: failures + 1, failedSince: failedSince ?? claim.begun };
  return { retries: retries + 1, failingSince: failingSince ?? claim.begun, ...own };
}

/** The Output that an earlier attempt stored. */
async function storedOutput(to: Statements, claim: Claim): Promise<Uint8Array> {
  const rows = await to.rows('journal', { id: claim.id });
  const found = rows.map(([frame]) => frame as Uint8Array).find((frame) => frame[0] === 0 && frame[1] === Kind.output);
  if (found === undefined) throw new Error(`${claim.id} has ended without a result`);
  return found;
}

/** The invocation ends: it gives its result to those that wait, and its key to the next. */
async function end(to: Statements, claim: Claim, before: number, result: Uint8Array): Promise<Outcome> {
  const failure = failureIn(result);
  const error = failure === undefined ? null : storable(`${failure.code} ${failure.message}`);
  await writes(to, claim, before, 'end', { result, failed: failure?.code ?? null, error });
  await leaves(to, claim, result);
  if (claim.exclusive) to.say('ready');
  if (error !== null) note(to, claim, 'failed', error);
  hasEnded(to, claim, error === null ? 'done' : 'failed');
  return outcome('done');
}

function hasEnded(to: Statements, { id, service, handler, created }: Claim, how: Ended['outcome']): void {
  to.ended(id, { service, handler, outcome: how, seconds: to.now - created });
}

/** The invocation ends, and another one goes on in its place: who waits for this one waits for that one, and the key stays held. */
async function goesOnAs(to: Statements, claim: Claim, before: number, result: Uint8Array, { headers, asked }: NonNullable<Claim['continues']>): Promise<Outcome> {
  const [id, next] = [claim.id, idOfCall(claim.id, -1)];
  const [idem, chain, parent, trace, queue, queueKey, priority] = (await to.rows('continued', { id }))[0] as [
    string | null, string, string | null, string | null, string | null, string | null, number,
  ]; // prettier-ignore
  const left = [...(await unasked(to, id, asked)), ...(await to.rows('left', { id })).map(frameOf).filter((it) => isCancel(it) || signalName(it) !== undefined)];
  const fenced = { id, epoch: claim.epoch, before, entries: claim.journal.entries, now: to.now };
  const { service, handler, key } = claim;
  await to.change('continue', { ...fenced, chain, next, service, key }); // the row is kept since the store's fence
  await create(to, claim, {
    id: next, seed: seedOf(next), service, handler, key, argument: claim.codec.renewed(valueIn(result) ?? new Uint8Array()), headers, idempotencyKey: idem, due: null, parent, trace,
    queued: { queue, queue_key: queueKey, priority },
  }); // prettier-ignore
  await to.change('chain', { id: next, chain });
  await to.change('gone', { id, service, key });
  for (const it of left) await deliver(to, next, it);
  to.say('ready');
  hasEnded(to, claim, 'continued');
  return outcome('done');
}

/** Signals by name that came to the journal, and for which the handler hasn't asked. */
async function unasked(to: Statements, id: string, asked: ReadonlyMap<string, number>): Promise<Uint8Array[]> {
  const counts = new Map(asked);
  return (await to.rows('journal', { id })).map(([frame]) => frame as Uint8Array).filter((frame) => {
    const name = signalName(frame);
    const count = name === undefined ? 0 : counts.get(name) ?? 0;
    if (name !== undefined && count > 0) counts.set(name, count - 1);
    return name !== undefined && count <= 0;
  });
}

/** What hasn't begun, and is cancelled, ends so. */
export async function endUnbegun(to: Statements, claim: Claim, result: Uint8Array): Promise<void> {
  await end(to, claim, claim.journal.entries, result);
}

/** Moves what came for a running invocation to its journal. */
export async function pull(to: Statements, claim: Claim): Promise<Outcome> {
  claim.journal.undo();
  const before = claim.journal.entries;
  await fence(to, claim, before);
  const found = outcome(RUNNING);
  const inbox = await to.rows('inbox', { id: claim.id });
  const came = arrivals(claim, inbox, !claim.isShielded);
  found.hasMore = inbox.length === MOST;
  await moves(to, claim, came, before);
  if (came.cancel === 'taken') await to.change('cancelled', { id: claim.id, epoch: claim.epoch, now: to.now });
  found.cancel = came.cancel;
  found.feed = came.rows.map((row) => row.frame);
  return found;
}

/** What becomes of an inbox: entries, and the numbers of what is taken out of it. */
export interface Arrivals {
  readonly rows: Row[];
  readonly taken: unknown[];
  readonly left: unknown[];
  readonly cancel: 'taken' | 'waits' | undefined;
}

/** The entries that what came is. A cancellation is taken if the attempt may take it, and a second one is dropped. */
export function arrivals(claim: Pick<Claim, 'journal' | 'wasCancelled'>, inbox: readonly (readonly unknown[])[], takesCancel: boolean): Arrivals {
  const found = { rows: [] as Row[], taken: [] as unknown[], left: [] as unknown[], cancel: undefined as Arrivals['cancel'] };
  for (const row of inbox) {
    const frame = frameOf(row);
    if (isCancel(frame) && (claim.wasCancelled || found.cancel !== undefined)) {
      found.taken.push(row[0]);
      continue;
    }
    if (isCancel(frame)) found.cancel = takesCancel ? 'taken' : 'waits';
    if (isCancel(frame) && !takesCancel) {
      found.left.push(row[0]);
      continue;
    }
    found.rows.push(claim.journal.arrive(frame));
    found.taken.push(row[0]);
  }
  return found;
}

/** Stores arrivals. */
export async function moves(to: Statements, claim: Pick<Claim, 'id' | 'epoch' | 'journal'>, came: Arrivals, before: number): Promise<void> {
  if (came.rows.length > 0) {
    await append(to, claim, came.rows, before);
    await writes(to, claim as Claim, before, 'grow', {});
  }
  if (came.taken.length > 0) await to.change('delivered', { id: claim.id, seqs: came.taken });
  if (came.left.length > 0) await to.change('seen', { id: claim.id, seqs: came.left });
}

/** The attempt stops because its worker does: another worker goes on at once. What it wrote last isn't stored. */
export async function release(to: Statements, claim: Claim): Promise<Outcome> {
  await to.change('release', { id: claim.id, epoch: claim.epoch, now: to.now });
  to.say('ready');
  return outcome('ready');
}
