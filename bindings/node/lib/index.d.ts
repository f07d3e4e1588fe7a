/** The invocation VM of Palqytun. docs/SDK.md has the loop of an SDK, call by call. */
import type {
  AwaitingOnPolicy,
  CommandType,
  ErrorBehavior,
  ImplicitCancellation,
  JournalMismatchRetryBehavior,
  JournalReplay,
  MessageType,
  NonDeterministicChecks,
  SignalDelivery,
  State,
  Status,
} from './abi';
import type { Effect } from './effects';

export type { Effect };
export type {
  AwaitingOnPolicy,
  CommandType,
  ErrorBehavior,
  ImplicitCancellation,
  JournalMismatchRetryBehavior,
  JournalReplay,
  MessageType,
  NonDeterministicChecks,
  SignalDelivery,
  State,
  Status,
};
export { SUPPORTED_VERSIONS } from './abi';

/** The number under which a result comes. */
export type Handle = number;

/** The handle of the cancel signal, which a handler may await if `implicitCancellation` is `disabled`. */
export const CANCEL_HANDLE: Handle;

/** Whole milliseconds since the Unix epoch, or of a delay: a bigint for what a number hasn't whole. */
export type Millis = number | bigint;

/** A header, or a pair of metadata. */
export type Pair = readonly [key: string, value: string];

/** What a VM is asked to do in another way. What isn't there has its default, the first case of its type. */
export interface Options {
  implicitCancellation?: ImplicitCancellation;
  nonDeterministicChecks?: NonDeterministicChecks;
  awaitingOnPolicy?: AwaitingOnPolicy;
  journalMismatchRetryBehavior?: JournalMismatchRetryBehavior;
  journalReplay?: JournalReplay;
  signalDelivery?: SignalDelivery;
  /** The handler's random seed, if the version hands none out. */
  fallbackRandomSeed?: number | bigint;
}

/** A command may have a name. */
export interface Named {
  name?: string;
}

/** Replay doesn't compare a payload that is unstable. */
export interface Payload {
  unstable?: boolean;
}

/** The handler that is called, and how. */
export interface Target {
  service: string;
  handler: string;
  key?: string;
  idempotencyKey?: string;
  scope?: string;
  limitKey?: string;
  headers?: readonly Pair[];
}

/** A terminal failure. Its code is below 65536. */
export interface Failure {
  code: number;
  message: string;
  metadata?: readonly Pair[];
}

/** A value that a handler gives. */
export type Given = Uint8Array | Failure;

/** An invocation that is attached to: by its id, as a workflow, or by its idempotency key. */
export type InvocationTarget =
  | { invocationId: string }
  | { workflow: string; key: string; scope?: string }
  | { service: string; handler: string; idempotencyKey: string; serviceKey?: string; scope?: string };

/** An error of the handler's own. */
export interface HandlerError {
  code: number;
  message: string;
  stacktrace?: string;
  /** What is done after it; `retry` by default. */
  behavior?: ErrorBehavior;
  nextRetryDelayMillis?: Millis;
}

/** The command that a handler's error relates to: the last, the next, or that of an index. */
export type RelatedCommand = 'last' | { type: CommandType; name?: string; index?: number };

/** The bounds of retries. At one the invocation pauses, or the error is the run's result. */
export interface Bounds {
  intervalMillis?: Millis;
  maxAttempts?: number;
  maxDurationMillis?: Millis;
  pauses?: boolean;
}

/** When a run that failed is tried again: `infinite` by default. A factor is a numerator, and a denominator that isn't 0. */
export type RetryPolicy =
  | { kind: 'infinite' | 'none' }
  | ({ kind: 'fixedDelay' } & Bounds)
  | ({ kind: 'exponential'; initialMillis: Millis; factor: readonly [number, number] } & Bounds);

/** The result of a handle. */
export type Value =
  | { kind: 'void' }
  | { kind: 'success'; value: Uint8Array }
  | { kind: 'failure'; code: number; message: string; metadata: Pair[] }
  | { kind: 'stateKeys'; keys: string[] }
  | { kind: 'invocationId'; id: string };

/** What the handler was called with. */
export interface Input {
  input: Uint8Array;
  invocationId: string;
  key: string;
  scope: string | undefined;
  limitKey: string | undefined;
  idempotencyKey: string | undefined;
  headers: Pair[];
  randomSeed: bigint;
}

/** What an await returned: the future is awake, or what to do next. */
export type Awaited =
  | { kind: 'anyCompleted' }
  | { kind: 'waitingExternalProgress'; waitingInput: boolean; waitingRunProposal: boolean }
  | { kind: 'executeRun'; handle: Handle }
  | { kind: 'ephemeralNotificationReady'; id: number }
  | { kind: 'cancelSignalReceived' };

/** A tree over handles. */
export class Future {
  private constructor();
}

/** Awaited until some child has a result. */
export function firstCompleted(...children: (Handle | Future)[]): Future;
/** Awaited until all children have a result. */
export function allCompleted(...children: (Handle | Future)[]): Future;
/** Awaited until some child succeeds, or all have failed. */
export function firstSucceededOrAllFailed(...children: (Handle | Future)[]): Future;
/** Awaited until all children succeed, or some child has failed. */
export function allSucceededOrFirstFailed(...children: (Handle | Future)[]): Future;
/** Some way of the caller's own: asked again at each result of a child. */
export function unknown(...children: (Handle | Future)[]): Future;

/**
 * One VM, for one attempt of an invocation. It belongs to its thread. It is closed by `close`, or once it is garbage.
 *
 * An argument of the wrong type is a TypeError, and one out of its bounds a RangeError; both name it. A call that the VM refuses raises a `VMError`, and
 * one that can't be made a `StatusError`.
 */
export class VM {
  /** A VM for the version that the content type names; null stands for an absent header. */
  constructor(contentType: string | null, options?: Options);
  /** The version of its messages. */
  readonly version: number;
  /** Frees its memory. It may be called again; each other call is then a `StatusError`. */
  close(): void;

  getResponseHead(): { statusCode: number; headers: Pair[] };
  /** The next bytes of the attempt, cut anywhere. What they spell may fail the VM, which the next call raises. */
  notifyInput(data: Uint8Array): void;
  notifyInputClosed(): void;
  /** The handler failed by an error of its own, which fails the VM. Each later call raises it as a `VMError` of no other class, with any code. */
  notifyError(error: HandlerError, related?: RelatedCommand): void;
  /** Takes all bytes that wait to be sent: whole frames. */
  takeOutput(): Uint8Array;
  isReadyToExecute(): boolean;
  state(): State;
  /** The index of the last command; -1 before any. */
  lastCommandIndex(): number;

  doAwait(future: Handle | Future): Awaited;
  isCompleted(handle: Handle): boolean;
  /** Takes the result of a handle; undefined if it has none. */
  takeNotification(handle: Handle): Value | undefined;
  takeEphemeralNotification(id: number): Value | undefined;

  /** What the handler was called with; its first call. */
  sysInput(): Input;
  sysSleep(wakeUpMillis: Millis, how?: Named): Handle;
  sysStateGet(key: string, how?: Named): Handle;
  sysStateGetKeys(how?: Named): Handle;
  /** The id of a read that leaves nothing in the journal. It needs version 8, and is refused in replay. */
  ephemeralStateGet(key: string): number;
  sysStateSet(key: string, value: Uint8Array, how?: Named & Payload): void;
  sysStateClear(key: string, how?: Named): void;
  sysStateClearAll(how?: Named): void;
  sysCall(target: Target, input: Uint8Array, how?: Named & Payload): { invocationId: Handle; result: Handle };
  sysCallWithDeadline(
    target: Target,
    input: Uint8Array,
    deadlineMillis: Millis,
    how?: Named & Payload,
  ): { invocationId: Handle; result: Handle; deadline: Handle };
  /** Returns the handle of the invocation's id. It is sent at once, or at a time. */
  sysSend(target: Target, input: Uint8Array, how?: Named & Payload & { atMillis?: Millis }): Handle;
  sysCancelInvocation(invocationId: string): void;
  sysAttachInvocation(target: InvocationTarget): Handle;
  sysGetInvocationOutput(target: InvocationTarget): Handle;
  sysAwakeable(): { handle: Handle; id: string };
  sysCompleteAwakeable(id: string, value: Given, how?: Payload): void;
  createSignalHandle(name: string): Handle;
  sysCompleteSignal(invocationId: string, name: string, value: Given): void;
  sysGetPromise(key: string): Handle;
  sysPeekPromise(key: string): Handle;
  sysCompletePromise(key: string, value: Given, how?: Payload): Handle;
  sysRun(name: string): { handle: Handle; replayed: boolean };
  proposeRunCompletion(handle: Handle, value: Given, policy?: RetryPolicy): void;
  /** A try of a run failed after this many milliseconds, and may be made again. */
  proposeRetryableFailure(handle: Handle, tookMillis: Millis, error: HandlerError, policy?: RetryPolicy): void;
  sysWriteOutput(value: Given, how?: Payload): void;
  sysEnd(): void;
}

/** An entry to be appended: the type of its message, the completion id that it completes, and its bytes. `effect` is what a row that was stored asks of
 * the runtime, which performs it in the same transaction. */
export interface Row {
  message: MessageType;
  completes: number | undefined;
  frame: Uint8Array;
  effect: Effect | undefined;
}

/** A stored journal, as its only writer knows it, without its entries. What may not be appended is a `StatusError`; what came since the last `keep` is
 * then taken back. */
export class Journal {
  /** A journal of these entries, each one whole frame, the first one an Input; they are kept. */
  constructor(entries?: Iterable<Uint8Array>);
  close(): void;
  readonly entries: number;
  entry(frame: Uint8Array): Row;
  arrive(notification: Uint8Array): Row;
  /** The rows of what an attempt of this version wrote since the last store, and what it is fed after the commit. A command whose message can't be read is
   * a `StatusError` too, with `NOT_A_FRAME`. */
  store(version: number, output: Uint8Array): { rows: Row[]; feed: Uint8Array };
  keep(): void;
  undo(): void;
}

/** Frames beside a journal. */
export namespace frames {
  /** What a frame says. `palqytun.h` has the meaning of each number and each place (`palqytun_frame_row`, `palqytun_frame_part`). */
  class Message {
    constructor(frame: Uint8Array);
    readonly type: MessageType;
    readonly result: 'none' | 'void' | 'value' | 'failure' | 'keys' | 'invocationId';
    readonly kind: number;
    readonly id: number;
    readonly second: number;
    readonly number: bigint;
    readonly rows: number;
    part(at: number): Uint8Array | undefined;
    text(at: number): string;
    pairs(first: number): Pair[];
  }
  function lineOf(frame: Uint8Array): string;
  function frameOf(line: string): Uint8Array;
  function completion(id: number, frame: Uint8Array): Uint8Array;
  function signal(index: number, frame: Uint8Array): Uint8Array;
  function namedSignal(name: string, frame: Uint8Array): Uint8Array;
  function valueFrame(value: Uint8Array): Uint8Array;
  function inputFrame(frame: Uint8Array, value: Uint8Array): Uint8Array;
  function isAwake(suspension: Uint8Array, notifications: Uint8Array): boolean;
}

/** The codes of the VM's own errors. The code of one that was handed in may be any. */
export const Code: {
  readonly BAD_REQUEST: 400;
  readonly UNSUPPORTED_MEDIA_TYPE: 415;
  readonly INTERNAL: 500;
  readonly JOURNAL_MISMATCH: 570;
  readonly PROTOCOL_VIOLATION: 571;
  readonly UNSUPPORTED_FEATURE: 573;
  readonly CLOSED: 598;
  readonly SUSPENDED: 599;
};

/** What an SDK calls its commands, as `{ call: 'ctx.serviceCall' }`. One that isn't there has its own name. */
export type Names = Partial<Record<CommandType, string>>;

/** In what a call isn't as the recorded command of this index, the Input being 0. */
export class Difference {
  private constructor();
  readonly index: number;
  /** The first field that differs, by its name on the line of a frame (docs/FRAMES.md), and `type` if the two are of different types. */
  readonly field: string;
  /** Its value in the journal, as such a line has it, up to 120 characters; the type, if the types differ. Undefined: it is at its default, or there is no such
   * command. */
  readonly recorded: string | undefined;
  /** The same by the call. */
  readonly asked: string | undefined;
  /** What is recorded; undefined if no command is. */
  readonly recordedType: CommandType | undefined;
  /** What the call makes; undefined if it makes none, which is an await. */
  readonly askedType: CommandType | undefined;
  /** The same as a text, by an SDK's own names of commands. */
  inWords(names?: Names): string;
  toString(): string;
}

/** The VM refused a call. It has failed, or is suspended or closed, and raises the same from each later call. An error that was handed in, by
 * `notifyError` or `proposeRetryableFailure`, is of this class alone, with any code; the classes below are the VM's own errors. */
export class VMError extends Error {
  readonly code: number;
  readonly text: string;
  readonly stacktrace: string;
  /** The command that it relates to. */
  readonly related: { index: number; type: MessageType; name: string } | undefined;
  /** What is done after it. */
  readonly behavior: ErrorBehavior;
  /** The delay of the next try. */
  readonly nextRetryDelayMillis: Millis | undefined;
  /** In what the call isn't as the journal has it, if the error is about that and the journal was fed to this VM. */
  readonly difference: Difference | undefined;
  /** The message by an SDK's own names of commands. */
  inWords(names?: Names): string;
}
/** The invocation is suspended: what is awaited can't come in this attempt. */
export class Suspended extends VMError {}
/** The handler has ended, so no call comes after. */
export class Closed extends VMError {}
/** The handler makes another call than the journal has recorded. */
export class JournalMismatch extends VMError {}
/** A call wasn't made, and this is why. */
export class StatusError extends Error {
  readonly status: Status;
}
/** The shared object, or the addon, can't be used. The text names the path, and says what to do. */
export class LoadError extends Error {
  readonly path: string;
}

/** The content type of a version, one of SUPPORTED_VERSIONS. Another one is a RangeError. */
export function contentType(version: number): string;
/** The library's version, the commit and the sum of the kit's logic that it was built of, and `proved` or `unproved`. */
export function build(): string;
/** The library's version. */
export function libraryVersion(): string;
/** Whether the library was built of sources that were proved. */
export function isProved(): boolean;
