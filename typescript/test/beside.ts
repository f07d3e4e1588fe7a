// A worker in Python beside a test, on the same database: test/beside.py.

import { spawn } from 'node:child_process';
import { URL } from './cluster';

const LAST = 100_000; // milliseconds in which it ends, with all that it executes

/** Runs a test beside it. Its services are `NAME` and `NAMEShelf`, and can be called once they are there. */
export async function beside<T>(name: string, does: () => Promise<T>, more: Readonly<Record<string, string>> = {}): Promise<T> {
  const python = process.env['PALQYTUN_PYTHON'] ?? 'python3';
  const app = `${__dirname}/../../test/beside.py`;
  const words = ['-m', 'palqytun', 'run', app, '--db', URL, '--port', '-1', '--idle', '0.2', '--lease', '300', '--log-level', 'warning'];
  const child = spawn(python, words, { env: { ...process.env, ...more, BESIDE_NAME: name }, stdio: ['ignore', 'ignore', 'inherit'] });
  const ended = new Promise<number | null>((done) => child.on('close', done));
  const kill = (): void => void child.kill('SIGKILL');
  process.on('exit', kill); // it has the output of this process, so whoever reads that would wait for it
  let status: number | null = null;
  try {
    return await does();
  } finally {
    child.kill('SIGTERM');
    const late = setTimeout(kill, LAST);
    status = await ended;
    clearTimeout(late);
    process.off('exit', kill);
    if (status !== 0) throw new Error(`the worker in Python ended with status ${status}`);
  }
}
