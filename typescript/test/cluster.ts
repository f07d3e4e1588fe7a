// What the tests of the worker stand on: the database of PALQYTUN_TEST_POSTGRES, which has its tables, and workers and clients on it.

import { after } from 'node:test';
import { Client, Worker } from '@palqytun/sdk';
import type { AnyService, WorkerOptions } from '@palqytun/sdk';
import { Client as Connection } from 'pg';
import { configOf } from '../database';
import { STATEMENTS } from '../statements';

export const URL = process.env['PALQYTUN_TEST_POSTGRES'] ?? '';
export const LONG = 300_000; // milliseconds after which a test that waits has failed, however busy its host is

const LEFT = 60_000; // milliseconds in which the process of a file ends by itself, once its tests have ended

/** What keeps this process open. */
export function kept(): string[] {
  return (process as unknown as { getActiveResourcesInfo(): string[] }).getActiveResourcesInfo();
}

/** A process that something keeps open fails, and says what that is. */
after(() => {
  const late = (): never => {
    process.stderr.write(`the tests have ended, and their process is kept open by ${kept().join(', ')}\n`);
    return process.exit(1);
  };
  setTimeout(late, LEFT).unref();
});

export interface Stage {
  readonly worker: Worker;
  readonly client: Client;
  /** The lines of the worker's log. */
  readonly lines: Record<string, unknown>[];
  end(): Promise<void>;
}

/** A worker of some services, and a client. However busy its host is, the worker isn't thought dead. */
export async function stage(services: readonly AnyService[], options: Partial<WorkerOptions> = {}): Promise<Stage> {
  const lines: Record<string, unknown>[] = [];
  const log = { format: 'json' as const, write: (line: string) => void lines.push(JSON.parse(line) as Record<string, unknown>) };
  const worker = new Worker({ url: URL, services, idle: 200, poll: 500, lease: LONG, log, ...options });
  const running = worker.run();
  const ends = async (): Promise<void> => {
    worker.stop();
    await running;
  };
  try {
    await Promise.race([worker.isOpen, running]);
    const client = await Client.connect({ url: URL, services, ...(options.codec === undefined ? {} : { codec: options.codec }) });
    return { worker, client, lines, end: () => client.close().finally(ends) };
  } catch (error) {
    await ends();
    throw error;
  }
}

/** Waits until something is so. */
export async function until(holds: () => boolean | Promise<boolean>): Promise<void> {
  const last = performance.now() + LONG;
  while (!(await holds())) {
    if (performance.now() > last) throw new Error('it took too long');
    await new Promise<void>((done) => setTimeout(done, 20));
  }
}

/** The URL of an empty database of the same server. */
export async function empty(name: string): Promise<string> {
  const connection = new Connection(configOf(URL));
  await connection.connect();
  await connection.query(`DROP DATABASE IF EXISTS ${name}`);
  await connection.query(`CREATE DATABASE ${name}`);
  await connection.end();
  return URL.replace('/postgres?', `/${name}?`);
}

/** The rows of a statement. */
export async function asked(text: string, ...values: unknown[]): Promise<unknown[][]> {
  const connection = new Connection(configOf(URL));
  await connection.connect();
  try {
    for (const it of STATEMENTS.session) await connection.query(it.text);
    return (await connection.query({ text, values, rowMode: 'array' })).rows;
  } finally {
    await connection.end();
  }
}
