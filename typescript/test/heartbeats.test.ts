// Heartbeats: runs that say how far they have come, those that don't beat in time, and those that go on where one before was.

import assert from 'node:assert/strict';
import { test } from 'node:test';
import { GivenUp, service } from '@palqytun/sdk';
import type { Run, ServiceContext } from '@palqytun/sdk';
import { crashEverywhere } from '@palqytun/sdk/testing';
import { LONG, asked, stage, until } from './cluster';

const FAST = { initial: 10, longest: 10 };
const seen: unknown[] = [];
let isFree = false;

async function pause(milliseconds: number): Promise<void> {
  await new Promise<void>((done) => setTimeout(done, milliseconds));
}

async function tells({ heartbeat }: Run): Promise<string> {
  for (let row = 1; row <= 40; row++) heartbeat({ rows: row });
  while (!isFree) await pause(10);
  return 'told';
}

/** The first two executions don't beat; the first one is told so at its next beat. */
async function stalls({ heartbeat, signal }: Run): Promise<string> {
  seen.push('begun');
  if (seen.length > 2) return 'again';
  heartbeat(1);
  while (!signal.aborted) await pause(5);
  await pause(50);
  try {
    heartbeat(2);
  } catch (error) {
    if (error instanceof GivenUp) seen.push(error.message);
  }
  return 'too late';
}

/** It fails at each third row, and goes on after what it said last. */
function imports({ heartbeat, lastProgress }: Run): unknown {
  seen.push(lastProgress);
  for (let row = ((lastProgress as number | undefined) ?? 0) + 1; row < 9; row++) {
    heartbeat(row);
    if (row % 3 === 0 && seen.length < 3) throw new Error('broken');
  }
  return lastProgress;
}

const long = service('LongRun', {
  tells: async (ctx: ServiceContext, _: null): Promise<string> => ctx.run('tells', tells),
  stalls: async (ctx: ServiceContext, _: null): Promise<string> => ctx.run('stalls', stalls, { heartbeat: 300, retry: FAST }),
  imports: async (ctx: ServiceContext, _: null): Promise<unknown> => ctx.run('imports', imports, { heartbeat: LONG, retry: FAST }),
  counts: async (ctx: ServiceContext, n: number): Promise<number> => {
    for (let at = 0; at < n; at++) await ctx.run('counts', ({ heartbeat, lastProgress }) => heartbeat([at, lastProgress ?? null]), { heartbeat: LONG });
    return n;
  },
});

test('what a run says is seen while it is executed', { timeout: LONG }, async () => {
  const on = await stage([long]);
  try {
    const sent = await on.client.send(long.tells, null);
    const said = (): Promise<unknown[][]> => asked("SELECT run::int, name, convert_from(value, 'UTF8') FROM progress WHERE invocation=$1", sent.id);
    await until(async () => (await said())[0]?.[2] === '{"rows":40}');
    assert.deepEqual(await said(), [[1, 'tells', '{"rows":40}']]);
    isFree = true;
    assert.equal(await sent.result(LONG), 'told');
  } finally {
    await on.end();
  }
});

test('one that is silent is tried again, and is told when it beats', { timeout: LONG }, async () => {
  const on = await stage([long]);
  try {
    const sent = await on.client.send(long.stalls, null);
    assert.equal(await sent.result(LONG), 'again');
    await until(() => seen.includes("this run isn't waited for any more, so it can end"));
    const [[why] = []] = await asked("SELECT error FROM attempts WHERE invocation=$1 AND how='failed' ORDER BY epoch LIMIT 1", sent.id);
    assert.match(String(why), /^500 Error: it hasn't beaten for 300 ms/);
  } finally {
    await on.end();
  }
});

test('one that failed goes on where it was, and deaths change nothing', { timeout: LONG }, async () => {
  const on = await stage([long]);
  try {
    seen.splice(0);
    assert.equal(await on.client.call(long.imports, null), 6);
    assert.deepEqual(seen, [undefined, 3, 6]);
  } finally {
    await on.end();
  }
  assert(await crashEverywhere([long], long.counts, 2) > 5);
});
