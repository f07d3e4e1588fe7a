/** What a worker and a client need of a database: transactions of the protocol's statements by their names, and the words that go with them. */

import type { Note } from './notes';
import type { StatementName } from './statements';

export type Row = readonly unknown[];
export type Values = Readonly<Record<string, unknown>>;

/** What is measured of an invocation that has ended, so many seconds after it was made. */
export interface Ended {
  readonly service: string;
  readonly handler: string;
  readonly outcome: 'done' | 'failed' | 'continued';
  readonly seconds: number;
}

/** The statements of one transaction, by their names, and the words that go with its commit. */
export interface Statements {
  /** The database's time, in seconds since the epoch. */
  readonly now: number;
  /** The rows that the last statement of this name gives. */
  rows(name: StatementName, values: Values): Promise<readonly Row[]>;
  /** How many rows the last statement of this name has changed. */
  change(name: StatementName, values: Values): Promise<number>;
  /** Sends a word to all workers. */
  say(word: 'ready'): void;
  /** Something came for an invocation. */
  touch(invocation: string): void;
  /** Something is due at this time, in seconds since the epoch. */
  isDue(at: number): void;
  /** An invocation has ended. */
  ended(invocation: string, it: Ended): void;
  /** An attempt is to stop, since its invocation was ended from outside. */
  stops(invocation: string): void;
  /** What the log says of an invocation, once this is committed. */
  note(it: Note): void;
}

/** A transaction that is committed: whom it touched, what is ready or due by it, what has ended, and what the log says of it. */
export interface Committed {
  readonly touched: ReadonlySet<string>;
  readonly isReady: boolean;
  readonly due: number | undefined;
  readonly endings: ReadonlyMap<string, Ended>;
  readonly stopped: ReadonlySet<string>;
  readonly notes: readonly Note[];
}

/** A database that is open. */
export interface Store {
  readonly connections: number;
  /** The database's time, in seconds since the epoch. */
  now(): number;
  /** Asks for the database's time. */
  asksTime(to: Statements): Promise<number>;
  /** Commits an operation. One that something is in the way of is made again, so it has to begin anew each time. One of a single statement is a
   * transaction by itself. */
  transact<T>(operation: (to: Statements) => Promise<T>, isSingle?: boolean): Promise<T>;
  /** Hears of each commit: how many milliseconds it took. */
  committed: (milliseconds: number) => void;
  /** Hears of what a transaction did once it is committed. */
  told: (transaction: Committed) => void;
  /** Hears once that the database is lost. */
  onLost: (lost: Lost) => void;
  close(): Promise<void>;
}

/** The database can't be reached any more. */
export class Lost extends Error {
  override readonly name = 'Lost';
}

/** Something that goes on beside, until it is ended. */
export interface Ends {
  end(): Promise<void>;
}

/** How a worker and a client get to their database. */
export interface Place {
  /** Milliseconds until a lost database is opened again for the first time. */
  readonly again: number;
  open(connections: number): Promise<Store>;
  /** Hears the words of others; `own` is a worker's name, or that of the channel of all. */
  hears(own: string, store: Store, heard: (word: string) => void): Promise<Ends>;
  /** Keeps a worker's lease. `kept` hears that it was. */
  beats(worker: string, kept: () => void): Ends;
}
