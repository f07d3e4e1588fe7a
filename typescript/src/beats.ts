/**
 * Keeps a worker's lease, in a thread with a connection of its own. So neither a handler that computes nor a slow transaction makes a dead worker. If the
 * worker's own loop does nothing for too long the process ends: its handler never gives the loop back, and others have to go on.
 */

import { parentPort, workerData } from 'node:worker_threads';
import { Client } from 'pg';
import { configOf } from './database';
import { part } from './parting';
import { STATEMENTS } from './statements';

/** What the thread is given. Times are in milliseconds. */
export interface BeatsData {
  readonly url: string;
  readonly worker: string;
  readonly lease: number;
  /** How long the loop may do nothing; 0 is for ever. */
  readonly stuck: number;
  /** A number that the loop counts up. */
  readonly pulse: Int32Array;
}

/** What the thread says. */
export type BeatsWord = { readonly beat: true } | { readonly failed: string } | { readonly stuck: number };

const AGAIN = `INSERT INTO workers(id, lease) VALUES ($1::text, extract(epoch from clock_timestamp())::float8 + $2::float8) ON CONFLICT(id) DO NOTHING`;

function begin(data: BeatsData, say: (word: BeatsWord) => void): () => void {
  const seconds = data.lease / 1000;
  const patience = Math.max(2000, data.lease / 3);
  const { text, names } = STATEMENTS.beat[0];
  const values: Record<string, unknown> = { worker: data.worker, lease: seconds };
  let client: Client | undefined;
  let isOver = false;
  let isBusy = false;

  /** Statements of a connection, which ends if the server doesn't reply. */
  async function answered(by: Client, does: () => Promise<void>): Promise<void> {
    const late = setTimeout(() => by.connection.stream.destroy(new Error(`the server hasn't replied for ${patience} ms`)), patience);
    try {
      await does();
    } finally {
      clearTimeout(late);
    }
  }

  async function connected(): Promise<Client> {
    const made = new Client({ ...configOf(data.url), connectionTimeoutMillis: patience });
    made.on('error', () => {
      if (client === made) client = undefined;
    });
    try {
      await made.connect();
      await answered(made, async () => {
        for (const it of STATEMENTS.session) await made.query(it.text);
        await made.query(`SET statement_timeout=${Math.ceil(data.lease / 3)}`);
      });
      return made;
    } catch (error) {
      void part(made);
      throw error;
    }
  }

  async function stored(): Promise<void> {
    const by = (client ??= await connected());
    await answered(by, async () => {
      const done = await by.query({ text, values: names.map((it) => values[it]) });
      if (done.rowCount === 0 && !isOver) await by.query({ text: AGAIN, values: [data.worker, seconds] }); // it was thought dead
    });
    if (isOver) void part(by);
  }

  async function beat(): Promise<void> {
    if (isBusy || isOver) return;
    isBusy = true;
    try {
      await stored();
      say({ beat: true });
    } catch (error) {
      const broken = client;
      client = undefined;
      if (broken !== undefined) void part(broken);
      if (!isOver) say({ failed: error instanceof Error ? error.message : 'no text' });
    } finally {
      isBusy = false;
    }
  }

  let [last, since] = [Atomics.load(data.pulse, 0), performance.now()];
  function watch(): void {
    const now = Atomics.load(data.pulse, 0);
    if (now !== last) [last, since] = [now, performance.now()];
    else if (data.stuck > 0 && performance.now() - since > data.stuck) {
      process.stderr.write(`the worker's loop has done nothing for ${data.stuck} ms, so the process ends; what it had is tried again by others\n`);
      process.kill(process.pid, 'SIGKILL');
    }
  }

  const beats = setInterval(() => void beat(), data.lease / 3);
  void beat();
  const watches = setInterval(watch, 100);
  return () => {
    isOver = true;
    clearInterval(beats);
    clearInterval(watches);
    if (client !== undefined) void part(client);
  };
}

if (parentPort !== null && workerData !== null) {
  const port = parentPort;
  const end = begin(workerData as BeatsData, (word) => port.postMessage(word));
  port.on('message', () => {
    end();
    port.close();
  });
}
