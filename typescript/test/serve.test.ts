// `serve` as a program: its numbers, errors that belong to nobody, SIGTERM once and twice, and databases that it can't use.

import assert from 'node:assert/strict';
import { spawn } from 'node:child_process';
import type { ChildProcess } from 'node:child_process';
import { test } from 'node:test';
import { Client } from '@palqytun/sdk';
import type { Sent } from '@palqytun/sdk';
import { LONG, URL, empty, until } from './cluster';

interface Program {
  readonly child: ChildProcess;
  /** The lines of its log. */
  readonly lines: Record<string, unknown>[];
  says(text: string): Promise<string>;
  /** Its status, once it has ended. */
  readonly ended: Promise<number | null>;
}

/** The program over a database. It ends with the test, whatever comes of that. */
async function program(url: string, does: (it: Program) => Promise<void>, more: Readonly<Record<string, string>> = {}): Promise<void> {
  const child = spawn(process.execPath, [`${__dirname}/serve_app.js`], { env: { ...process.env, ...more, SERVE_URL: url }, stdio: ['ignore', 'ignore', 'pipe'] });
  const lines: Record<string, unknown>[] = [];
  let rest = '';
  child.stderr.on('data', (data) => {
    const parts = (rest + data.toString()).split('\n');
    rest = parts.pop() ?? '';
    for (const it of parts) lines.push(JSON.parse(it) as Record<string, unknown>);
  });
  const ended = new Promise<number | null>((done) => child.on('close', done));
  const kill = (): void => void child.kill('SIGKILL');
  process.on('exit', kill);
  const message = (text: string): string | undefined => lines.map((it) => String(it['message'])).find((it) => it.includes(text));
  const says = async (text: string): Promise<string> => {
    await until(() => message(text) !== undefined);
    return message(text) ?? '';
  };
  try {
    await does({ child, lines, says, ended });
  } finally {
    kill();
    await ended;
    process.off('exit', kill);
  }
}

test('it serves numbers, goes on after errors that belong to nobody, and ends with SIGTERM', { timeout: LONG }, async () => {
  const client = await Client.connect({ url: URL });
  await program(URL, async ({ child, says, ended }) => {
    const numbers = (await says('the numbers are at ')).split(' ').pop() ?? '';
    assert.match(await (await fetch(numbers)).text(), /^# HELP palqytun_live_attempts .*\n# TYPE palqytun_live_attempts gauge\n/);
    assert.equal((await fetch(numbers.replace('/metrics', '/other'))).status, 404);
    await says('the worker serves Served; SIGTERM stops it');
    await until(async () => (await client.call<string>('Served/loose').catch(() => '')) === 'done'); // it serves a moment later
    await says('a promise was rejected that nobody awaits, and the worker goes on: Error: nobody awaits it');
    await says('an error was thrown that nobody catches, and the worker goes on: Error: nobody catches it');
    assert.equal(await client.call<number>('Served/healthy', 5), 5);
    assert.match(await (await fetch(numbers)).text(), /palqytun_ended_total\{service="Served",handler="healthy",outcome="done"\} 1/);
    child.kill('SIGTERM');
    assert.equal(await ended, 0);
  });
  await client.close();
});

test('a second SIGTERM ends it while a run is executed', { timeout: LONG }, async () => {
  const client = await Client.connect({ url: URL });
  await program(URL, async ({ child, says, ended }) => {
    await says('the numbers are at ');
    await until(() => client.send('Served/hangs').then(() => true, () => false));
    await says('it hangs');
    child.kill('SIGTERM');
    await says('the worker stops, and runs that are executed may end within 3600000 ms');
    child.kill('SIGTERM');
    assert.equal(await ended, 130);
  });
  await client.close();
});

test('a run that is executed after the grace, and would keep the process, doesn\'t', { timeout: LONG }, async () => {
  const client = await Client.connect({ url: URL });
  await program(URL, async ({ child, says, ended }) => {
    await says('the numbers are at ');
    const sent: Sent<unknown>[] = [];
    await until(() => client.send('Served/stays').then((it) => sent.push(it) > 0, () => false));
    await says('it stays');
    child.kill('SIGTERM');
    await says('runs that are still executed are left: 1');
    assert.equal(await ended, 0);
    for (const it of sent) await it.cancel();
  }, { SERVE_GRACE: '100' }); // prettier-ignore
  await client.close();
});

test('a database that it can\'t use is one line and status 1, and one that is away is tried again', { timeout: LONG }, async () => {
  await program(await empty('served_without_tables'), async ({ lines, ended }) => {
    assert.equal(await ended, 1);
    assert.deepEqual(lines.filter((it) => it['level'] === 'error').map((it) => it['message']), ['the database has no tables of Palqytun: palqytun migrate makes them']);
  });
  await program('postgresql://127.0.0.1:1/postgres', async ({ child, says, ended }) => {
    await says('the database is lost: ');
    child.kill('SIGTERM');
    assert.equal(await ended, 0);
  });
});
