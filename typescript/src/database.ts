/**
 * PostgreSQL, by node-pg: transactions over a few connections. An operation that something is in the way of is made again, and words to other workers go
 * with the commit of what they are about.
 */

import { Client, types } from 'pg';
import type { Config, Query, Result } from 'pg';
import { parse } from 'pg-connection-string';
import { Unsuitable, said } from './errors';
import type { Log } from './log';
import type { Note } from './notes';
import { part } from './parting';
import { STATEMENTS, VERSION } from './statements';
import type { StatementName } from './statements';
import { Lost } from './tables';
import type { Committed, Ended, Row, Statements, Store, Values } from './tables';

/** The channel of all workers. Each has one of its own too, named by the last characters of its name. */
export const CHANNEL = 'palqytun';
const OWN = 12;
const AT_ONCE = 100; // invocations that one word names
const INT8 = 20;
const SETTINGS = {
  lock_timeout: '1s',
  statement_timeout: '0',
  idle_in_transaction_session_timeout: '60s',
  enable_seqscan: 'off', // a plan that was made when a table was small is kept when it is large
  jit: 'off',
};
/** A deadlock, a conflict of snapshots, a lock that was waited for long enough, a statement that was cancelled, a server that only reads, and its disk. */
const IN_THE_WAY = new Set(['40P01', '40001', '55P03', '57014', '25006', '58030']);
const SCARCE = /^53/; // what the server lacks, as room on its disk
const FULL = '53100';
const TOO_LARGE = '53200'; // of these, one for want of memory: by the statement's own size, except for locks
/** Classes of errors that end a connection, or the server. */
const LOST = /^(08|57P|53300)/;
const LONGEST_WAIT = 1000; // milliseconds between two tries of an operation
const PATIENCE = 10_000; // milliseconds that a connection may take to be made
const QUIET = 5000; // milliseconds after which a connection that is silent is asked whether its server is there
const LAST = 2000; // milliseconds in which transactions may end once their database is closed
const READ_ONLY = 'a worker has to write, and this session may only read: the server is a standby, or default_transaction_read_only is on';
const TRIED = new Set([20, 200, 2000]);
const SAID = 10_000; // milliseconds between two warnings of a full disk

/** A statement that can't be made. */
export class StatementFailed extends Error {
  override readonly name = 'StatementFailed';

  constructor(message: string, readonly code: string, private readonly routine = '') {
    super(message);
  }

  /** Whether something is in the way now, so that the same can be done later. */
  get isInTheWay(): boolean {
    if (this.code === TOO_LARGE) return this.routine.includes('Lock'); // the server's function that takes locks has it in its name
    return IN_THE_WAY.has(this.code) || SCARCE.test(this.code);
  }
}

/** A channel's name for the words to one worker. */
export function channelOf(worker: string): string {
  return `${CHANNEL}_${worker.slice(-OWN)}`;
}

function read(oid: number, format?: string): (text: string) => unknown {
  if (oid !== INT8) return types.getTypeParser(oid, format);
  return (text) => (Number.isSafeInteger(Number(text)) ? Number(text) : BigInt(text));
}

/** What node-pg takes of a URL. A port may be a parameter of the URL, as in libpq's. */
export function configOf(url: string): Config {
  const found = parse(url);
  const port = /[?&]port=(\d+)/.exec(url)?.[1];
  if (port !== undefined) found['port'] = port;
  return { ...found, types: { getTypeParser: read }, connectionTimeoutMillis: PATIENCE, keepAlive: true, keepAliveInitialDelayMillis: QUIET };
}

function failed(error: unknown): Error {
  const { code, routine } = (error ?? {}) as { code?: unknown; routine?: unknown };
  const text = said(error).replace(/^error: /, '');
  if (typeof code !== 'string' || !/^[0-9A-Z]{5}$/.test(code) || LOST.test(code)) return new Lost(text);
  return new StatementFailed(text, code, String(routine));
}

function after(milliseconds: number): Promise<void> {
  return new Promise((done) => setTimeout(done, milliseconds));
}

/** One connection, whose statements are prepared once. */
class Connection {
  readonly client: Client;
  isBroken = false;

  constructor(config: Config) {
    this.client = new Client(config);
    this.client.on('error', () => {
      this.isBroken = true;
    });
  }

  /** Connects, with the settings of a session. */
  async begin(): Promise<void> {
    const late = setTimeout(() => this.cut(`the server hasn't replied for ${PATIENCE} ms`), PATIENCE);
    try {
      await this.client.connect();
      await this.made('session', {});
      for (const [name, value] of Object.entries(SETTINGS)) await this.query(`SET ${name}='${value}'`);
    } catch (error) {
      this.close();
      throw error instanceof Lost || error instanceof StatementFailed ? error : failed(error);
    } finally {
      clearTimeout(late);
    }
  }

  async query(query: Query | string): Promise<Result> {
    try {
      return await this.client.query(query);
    } catch (error) {
      throw failed(error);
    }
  }

  /** Makes the statements of a name; returns the result of the last. */
  async made(name: StatementName, values: Values): Promise<Result> {
    let result: Result | undefined;
    let at = 0;
    for (const { text, names } of STATEMENTS[name]) {
      const given = (names as readonly string[]).map((it) => {
        if (!(it in values)) throw new Error(`the statement ${name} lacks the value ${it}`);
        return values[it] ?? null;
      });
      result = await this.query({ text, values: given, name: `palqytun_${name}_${at++}`, rowMode: 'array' });
    }
    return result as Result;
  }

  close(): void {
    this.isBroken = true;
    void part(this.client);
  }

  /** Ends it at once, and what waits for it with this error. */
  cut(why: string): void {
    this.client.connection.stream.destroy(new Error(why));
  }
}

/** A transaction over a connection. */
export class Transaction implements Statements, Committed {
  readonly #words = new Set<string>();
  readonly #touched = new Set<string>();
  readonly endings = new Map<string, Ended>();
  readonly stopped = new Set<string>();
  readonly notes: Note[] = [];

  /** When something is due first that this transaction has made. */
  due: number | undefined;

  constructor(private readonly connection: Connection, readonly now: number) {}

  async rows(name: StatementName, values: Values): Promise<readonly Row[]> {
    return (await this.connection.made(name, values)).rows;
  }

  async change(name: StatementName, values: Values): Promise<number> {
    return (await this.connection.made(name, values)).rowCount ?? 0;
  }

  say(word: 'ready'): void {
    this.#words.add(word);
  }

  touch(invocation: string): void {
    this.#touched.add(invocation);
  }

  isDue(at: number): void {
    this.due = Math.min(this.due ?? at, at);
  }

  ended(invocation: string, it: Ended): void {
    this.endings.set(invocation, it);
  }

  stops(invocation: string): void {
    this.stopped.add(invocation);
  }

  note(it: Note): void {
    this.notes.push(it);
  }

  get touched(): ReadonlySet<string> {
    return this.#touched;
  }

  get isReady(): boolean {
    return this.#words.has('ready');
  }

  /** Sends what was said. */
  async tell(): Promise<void> {
    const some = (names: Iterable<string>): string[][] => {
      const all = [...names].sort();
      return Array.from({ length: Math.ceil(all.length / AT_ONCE) }, (_, at) => all.slice(at * AT_ONCE, (at + 1) * AT_ONCE));
    };
    const said = (what: string, ids: Iterable<string>): string[] => some(ids).map((those) => `${what} ${those.join(' ')}`);
    const words = [...this.#words, ...said('stopped', this.stopped), ...said('ended', this.endings.keys())];
    for (const word of words) await this.rows('notify', { channel: CHANNEL, word });
    for (const ids of some(this.#touched)) await this.rows('tell', { ids });
  }
}

/** Transactions over a database. */
export class Database implements Store {
  readonly #idle: Connection[] = [];
  readonly #waiting: ((connection?: Connection) => void)[] = []; // without one, it looks again
  readonly #all = new Set<Connection>();
  readonly #making = new Set<Connection>();
  #clock = 0; // the server's time, in seconds, at 0 of the monotonic clock
  #lost: Lost | undefined;
  #fullSaid = -SAID;
  committed: Store['committed'] = () => undefined;
  told: Store['told'] = () => undefined;
  onLost: Store['onLost'] = () => undefined;

  private constructor(readonly config: Config, private readonly most: number, private readonly log: Log) {}

  /** A database of this protocol's version. What is wrong with it is `Unsuitable`, in one line; one that can't be reached, or that a worker can't write to
   * now, is `Lost`. */
  static async open(url: string, most: number, log: Log, isWorker = false): Promise<Database> {
    const found = new Database(configOf(url), most, log);
    const late = setTimeout(() => found.#all.forEach((it) => it.cut(`the server hasn't replied for ${PATIENCE} ms`)), 2 * PATIENCE);
    try {
      await found.#checked(isWorker);
      await found.transact((to) => found.#ask(to));
    } catch (error) {
      await found.close();
      throw error;
    } finally {
      clearTimeout(late);
    }
    return found;
  }

  async #checked(isWorker: boolean): Promise<void> {
    const connection = await this.#taken();
    try {
      const ask = async (text: string): Promise<Row> => (await connection.query({ text, rowMode: 'array' })).rows[0] ?? [];
      const [encoding, fsync, isThere] = await ask("SELECT current_setting('server_encoding'), current_setting('fsync'), to_regclass('promise_waiters') IS NOT NULL");
      const [unsafe, readOnly] = await ask("SELECT current_setting('palqytun.unsafe', true), current_setting('transaction_read_only')");
      if (isWorker && readOnly === 'on') throw new Lost(READ_ONLY);
      if (encoding !== 'UTF8') throw new Unsuitable(`the database's encoding is ${String(encoding)}, and has to be UTF8`);
      if (fsync === 'off' && unsafe !== 'on') throw new Unsuitable("with fsync=off what was committed may be lost when the server's host stops; to allow it, set palqytun.unsafe=on");
      if (isThere !== true) throw new Unsuitable('the database has no tables of Palqytun: palqytun migrate makes them');
      const [version] = await ask('SELECT COALESCE(MAX(version), 0)::int FROM schema_versions');
      if (version !== VERSION) {
        const what = (version as number) < VERSION ? 'palqytun migrate moves it' : 'this package is older: install one of the same version as the other workers';
        throw new Unsuitable(`the database has version ${String(version)}, and this package works with version ${VERSION}: ${what}`);
      }
    } finally {
      this.#give(connection);
    }
  }

  // ---- the clock

  /** The database's time, in seconds since the epoch. */
  now(): number {
    return this.#clock + performance.now() / 1000;
  }

  async #ask(to: Statements): Promise<void> {
    const asked = performance.now() / 1000;
    const time = (await to.rows('now', {}))[0]?.[0] as number;
    const [earliest, latest] = [time - performance.now() / 1000, time - asked];
    this.#clock = Math.min(Math.max(this.#clock, earliest), latest);
  }

  async asksTime(to: Statements): Promise<number> {
    await this.#ask(to);
    return this.now();
  }

  // ---- connections

  get connections(): number {
    return this.#all.size;
  }

  /** The server's processes of these connections, whose words are known here. */
  get processes(): ReadonlySet<number | null> {
    return new Set([...this.#all].map((it) => it.client.processID));
  }

  async #taken(): Promise<Connection> {
    for (;;) {
      if (this.#lost !== undefined) throw this.#lost;
      const idle = this.#idle.pop();
      if (idle !== undefined) {
        if (!idle.isBroken) return idle;
        this.#drop(idle); // it ended while nobody used it
        continue;
      }
      if (this.#all.size + this.#making.size < this.most) return this.#made();
      const came = await new Promise<Connection | undefined>((resolve) => this.#waiting.push(resolve));
      if (came !== undefined) return came;
    }
  }

  async #made(): Promise<Connection> {
    const made = new Connection(this.config);
    this.#making.add(made);
    try {
      await made.begin();
      this.#all.add(made);
      if (this.#lost === undefined) return made;
      this.#give(made);
      throw this.#lost;
    } catch (error) {
      this.#waiting.shift()?.(); // there is room for one that it makes
      throw error;
    } finally {
      this.#making.delete(made);
    }
  }

  #give(connection: Connection): void {
    if (connection.isBroken || this.#lost !== undefined) return this.#drop(connection);
    const next = this.#waiting.shift();
    if (next === undefined) this.#idle.push(connection);
    else next(connection);
  }

  #drop(connection: Connection): void {
    this.#all.delete(connection);
    connection.close();
    this.#waiting.shift()?.(); // there is room for one that it makes
  }

  #isLost(lost: Lost): void {
    if (this.#lost !== undefined) return;
    this.#lost = lost;
    for (const it of this.#waiting.splice(0)) it();
    this.onLost(lost);
  }

  /** What is in use has a moment in which it may come back. Then all connections have ended. */
  async close(): Promise<void> {
    const all = [...this.#all];
    this.#lost ??= new Lost('the database is closed');
    for (const it of this.#waiting.splice(0)) it();
    for (const it of this.#making) it.cut('the database is closed');
    for (const it of this.#idle.splice(0)) this.#give(it);
    const until = performance.now() + LAST;
    while (this.#all.size > 0 && performance.now() < until) await after(5);
    await Promise.all(all.map((it) => part(it.client)));
  }

  // ---- transactions

  async transact<T>(operation: (to: Statements) => Promise<T>, isSingle = false): Promise<T> {
    for (let tries = 1; ; tries++) {
      try {
        return await this.#once(operation, isSingle);
      } catch (error) {
        if (!(error instanceof StatementFailed) || !error.isInTheWay) throw error;
        if (error.code === FULL) this.#isFull(error);
        else if (TRIED.has(tries)) this.log.warning(`something is in the way of an operation, which was tried ${tries} times: ${error.message}`);
      }
      await after(Math.random() * Math.min(LONGEST_WAIT, 20 * tries));
    }
  }

  #isFull(error: StatementFailed): void {
    if (performance.now() < this.#fullSaid + SAID) return;
    this.#fullSaid = performance.now();
    this.log.warning(`the database's disk is full; what is to be stored waits until there is room: ${error.message}`);
  }

  async #once<T>(operation: (to: Statements) => Promise<T>, isSingle: boolean): Promise<T> {
    const begun = performance.now();
    const connection = await this.#reached();
    const to = new Transaction(connection, this.now());
    try {
      if (!isSingle) await connection.query('BEGIN ISOLATION LEVEL READ COMMITTED');
      const result = await operation(to);
      await to.tell();
      if (!isSingle) await connection.query('COMMIT');
      this.committed(performance.now() - begun);
      this.told(to);
      return result;
    } catch (error) {
      throw await this.#undone(connection, error, isSingle);
    } finally {
      this.#give(connection);
    }
  }

  async #reached(): Promise<Connection> {
    try {
      return await this.#taken();
    } catch (error) {
      if (error instanceof Lost) this.#isLost(error);
      throw error;
    }
  }

  /** Takes a transaction back; returns the error to throw. */
  async #undone(connection: Connection, error: unknown, isSingle: boolean): Promise<unknown> {
    let why = error;
    if (isSingle && !(why instanceof Lost)) return why;
    if (!(why instanceof Lost)) {
      try {
        await connection.query('ROLLBACK');
        return why;
      } catch (second) {
        if (second instanceof Lost) why = second;
      }
    }
    connection.isBroken = true;
    if (why instanceof Lost) this.#isLost(why);
    return why;
  }
}
