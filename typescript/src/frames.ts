/** Frames, as far as a runtime looks at them: a stream is cut into them, and a few are made. What they say is the core's (`palqytun.frames`). */

import { frames } from 'palqytun';

/** The types of messages at which a runtime looks (docs/WIRE.md). */
export const Kind = {
  suspension: 2, error: 3, end: 4, proposal: 5, awaitingOn: 7, input: 10, eagerState: 11, eagerKeys: 13, run: 26, output: 29, notification: 30,
} as const; // prettier-ignore

const HEAD = 10;
const NAMED_SIGNAL = 2; // the kind of such a notification
/** Commands that ask nothing of the runtime but to be stored. */
const STEPS = new Set<number>([Kind.proposal, Kind.awaitingOn, Kind.eagerState, Kind.eagerKeys, Kind.run]);

export interface Frame {
  readonly kind: number;
  readonly bytes: Buffer;
}

/** The frames of an attempt's output, which is whole frames. */
export function split(output: Uint8Array): Frame[] {
  const stream = Buffer.from(output.buffer as ArrayBuffer, output.byteOffset, output.byteLength);
  const found: Frame[] = [];
  for (let at = 0; at < stream.length; ) {
    const end = at + HEAD + Number(stream.readBigUInt64BE(at + 2));
    found.push({ kind: stream.readUInt16BE(at), bytes: stream.subarray(at, end) });
    at = end;
  }
  return found;
}

const SETS = Buffer.from('palqytun.attribute ');
const NAMED = 18; // the place of a run's name in its frame

/** Whether a command is a run that sets an attribute. */
function isAttribute({ kind, bytes }: Frame): boolean {
  return kind === Kind.run && bytes.subarray(NAMED, NAMED + SETS.length).equals(SETS);
}

/** What the invocation is found by is set, or taken away if there is no value. It is a run that is never executed, whose name has both as JSON. */
export interface Attribute {
  readonly kind: 'attribute';
  readonly name: string;
  readonly value: string | undefined;
}

/** The attribute that a stored row sets, if it sets one. */
export function attributeIn({ frame }: { readonly frame: Uint8Array }): Attribute | undefined {
  const [it] = split(frame);
  if (it === undefined || !isAttribute(it)) return undefined;
  const run = new frames.Message(frame).text(0);
  const [name, value] = JSON.parse(run.slice(SETS.length)) as [string, string?];
  return { kind: 'attribute', name, value };
}

export function isStep(frame: Frame): boolean {
  return STEPS.has(frame.kind) && !isAttribute(frame);
}

function hex(text: string | Uint8Array): string {
  const data = typeof text === 'string' ? Buffer.from(text, 'utf8') : Buffer.from(text);
  return data.length === 0 ? '""' : `0x${data.toString('hex')}`;
}

type Pairs = readonly (readonly [string, string])[];

function pairs(given: Pairs): string {
  return `[${given.map(([name, value]) => `(${hex(name)} ${hex(value)})`).join(', ')}]`;
}

function result(shown: string): Uint8Array {
  return frames.frameOf(`Notification id=completion(0) result=${shown}`);
}

/** A result without a value. */
export const VOID: () => Uint8Array = once(() => result('void'));
/** The notification that cancels an invocation: the built-in signal 1. */
export const CANCEL: () => Uint8Array = once(() => frames.signal(1, VOID()));

function once<T>(make: () => T): () => T {
  let made: T | undefined;
  return () => (made ??= make());
}

export function failure(code: number, message: string, metadata: Pairs = []): Uint8Array {
  return result(`failure(code=${code} message=${hex(message)} metadata=${pairs(metadata)})`);
}

export function keys(names: readonly string[]): Uint8Array {
  return result(`state_keys([${names.map(hex).join(', ')}])`);
}

export function invocationId(id: string): Uint8Array {
  return result(`invocation_id(${hex(id)})`);
}

/** A journal's first entry: what the handler is called with. */
export function inputCommand(data: Uint8Array, headers: Pairs): Uint8Array {
  return frames.inputFrame(frames.frameOf(`Input headers=${pairs(headers)}`), data);
}

export function isCancel(frame: Uint8Array): boolean {
  return Buffer.from(frame).equals(CANCEL());
}

/** The name of the signal that a notification is; undefined if it is something else, or a signal by its number. */
export function signalName(frame: Uint8Array): string | undefined {
  if (frame[0] !== 0 || frame[1] !== Kind.notification) return undefined;
  const it = new frames.Message(frame);
  return it.kind === NAMED_SIGNAL ? it.text(0) : undefined;
}

/** The code and the text of a failure; undefined if the result is none. */
export function failureIn(frame: Uint8Array): { code: number; message: string; metadata: Pairs } | undefined {
  const it = new frames.Message(frame);
  return it.result === 'failure' ? { code: it.second, message: it.text(8), metadata: it.pairs(9) } : undefined;
}

/** The value of a result; undefined if it has none. */
export function valueIn(frame: Uint8Array): Uint8Array | undefined {
  const it = new frames.Message(frame);
  return it.result === 'value' ? it.part(8) ?? Buffer.alloc(0) : undefined;
}

/** What an attempt's Start says beside the journal. */
export interface Start {
  readonly id: string;
  readonly key: string;
  readonly seed: bigint;
  readonly known: number;
  readonly state: readonly (readonly [name: string, value: Uint8Array])[];
  readonly partial: boolean;
  readonly retries: number;
  /** Milliseconds for which the attempts have been failing. */
  readonly failing: number;
  readonly idempotencyKey: string | null;
}

export function startFrame(it: Start): Uint8Array {
  const state = it.state.map(([name, value]) => `(${hex(name)} ${hex(value)})`).join(', ');
  const named = it.idempotencyKey ? ` idempotency_key=${hex(it.idempotencyKey)}` : '';
  const counted = `retry_count=${it.retries} duration=${it.failing} random_seed=${it.seed}${named}`;
  return frames.frameOf(`Start id=${hex(it.id)} debug_id=${hex(it.id)} key=${hex(it.key)} known_entries=${it.known} state=[${state}] partial=${it.partial} ${counted}`);
}

const PATCHED = 'palqytun.patched ';

/** The patches in a stored journal: their names by the indices of their commands, of which the Input has 0. */
export function patchesIn(entries: readonly Uint8Array[]): Map<number, string> {
  const found = new Map<number, string>();
  let command = -1;
  for (const it of entries) {
    const frame = Buffer.from(it.buffer as ArrayBuffer, it.byteOffset, it.byteLength);
    const kind = frame.readUInt16BE(0);
    if (kind < Kind.input || kind > Kind.output) continue;
    command += 1;
    if (kind !== Kind.run) continue;
    const name = new frames.Message(frame).text(0);
    if (name.startsWith(PATCHED)) found.set(command, name.slice(PATCHED.length));
  }
  return found;
}

/** Whether something that is stored may have this name: an invocation by its id, or a value of the state. No text of PostgreSQL has a NUL. */
export function isThere(name: string): boolean {
  return !name.includes('\0');
}

/** Whose signal completes an awakeable, and its number; undefined if this names none. No other text names the same. */
export function awakeableOf(id: string): { invocation: string; signal: number } | undefined {
  if (!id.startsWith('sign_1')) return undefined;
  const text = id.slice('sign_1'.length);
  const data = Buffer.from(text, 'base64url');
  if (data.length < 4 || data.toString('base64url') !== text) return undefined;
  const named = data.subarray(0, -4);
  const invocation = named.toString('utf8');
  if (Buffer.compare(Buffer.from(invocation, 'utf8'), named) !== 0 || !isThere(invocation)) return undefined; // it is no text, or no invocation's id
  return { invocation, signal: data.subarray(-4).readUInt32BE(0) };
}
