/** What a stored row asks of a runtime, as values. The core says it, by the same table as its engine of many invocations. */
import type { InvocationTarget, Pair } from './index';

/** An invocation is to begin, or one that began with the same idempotency key is attached to. */
export interface Begin {
  kind: 'begin';
  service: string;
  handler: string;
  key: string;
  idempotencyKey: string | undefined;
  headers: Pair[];
  parameter: Uint8Array;
  /** When, since the Unix epoch; 0 is at once. */
  timeMillis: bigint;
  /** The completion id that its id completes. */
  idCompletes: number;
  /** The one that its result completes; undefined if nobody waits for it. */
  completes: number | undefined;
}

/** A completion id is completed with nothing at a time, since the Unix epoch. */
export interface Wait {
  kind: 'wait';
  completes: number;
  timeMillis: bigint;
}

/** A notification, as a frame, comes to the invocation whose id is `target`: a signal that is sent, or the result of one of its awakeables. The id in
 * an awakeable's needn't be UTF-8. */
export interface Send {
  kind: 'send';
  target: Uint8Array;
  notification: Uint8Array;
  isAwakeable: boolean;
}

/** The invocation's result, as a frame that has it: the row's own. */
export interface Output {
  kind: 'output';
  result: Uint8Array;
}

/** The state of the invocation's key changes: without a value the name is cleared, without a name all of them are. */
export interface Change {
  kind: 'change';
  name: string | undefined;
  value: Uint8Array | undefined;
}

/** The state of the invocation's key is read: the value of a name, or all names without one. */
export interface Read {
  kind: 'read';
  completes: number;
  name: string | undefined;
}

/** A promise of the invocation's key is awaited, or it is looked whether it is completed (`peeks`), or it is completed with the result that a frame
 * has: the row's own. */
export interface PromiseEffect {
  kind: 'promise';
  completes: number;
  name: string;
  peeks: boolean;
  result: Uint8Array | undefined;
}

/** The result of another invocation is awaited, or it is looked whether it has one (`peeks`). */
export interface Attach {
  kind: 'attach';
  completes: number;
  target: InvocationTarget;
  peeks: boolean;
}

/** A runtime performs the effect of a row in the transaction that stores the row. */
export type Effect = Begin | Wait | Send | Output | Change | Read | PromiseEffect | Attach;
