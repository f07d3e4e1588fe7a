// The worker: databases that it refuses, its end within its grace, cancellations, patches, and its numbers and log.

import assert from 'node:assert/strict';
import { test } from 'node:test';
import { Cancelled, Unsuitable, Worker, handler, service } from '@palqytun/sdk';
import type { ServiceContext } from '@palqytun/sdk';
import { Client as Connection } from 'pg';
import { LONG, URL, asked, empty, kept, stage, until } from './cluster';
import { configOf } from '../database';

let executed = 0;
let begun = 0;
const started: string[] = []; // runs of `branches`, and those that end
const free = new Set<string>();

const work = service('Grace', {
  slow: async (ctx: ServiceContext, milliseconds: number): Promise<string> => {
    const first = await ctx.run('slow', async () => {
      begun += 1;
      await new Promise<void>((done) => setTimeout(done, milliseconds));
      executed += 1;
      return 'slow';
    });
    return `${first}, ${await ctx.run('after', () => 'after')}`;
  },
  branches: async (ctx: ServiceContext, _: null): Promise<string[]> => {
    const held = (what: string) => async (): Promise<string> => {
      started.push(what);
      await until(() => free.has(what));
      return what;
    };
    const two = async (): Promise<string> => `${await ctx.run('first', held('first'))}, ${await ctx.run('third', held('third'))}`;
    return Promise.all([two(), ctx.run('second', held('second'))]);
  },
  undoes: async (ctx: ServiceContext, _: null): Promise<unknown> => {
    const steps: string[] = [];
    try {
      await ctx.shield(async () => steps.push(await ctx.run('shielded', async () => new Promise<string>((done) => setTimeout(() => done('kept'), 300)))));
      await ctx.sleep(3_600_000);
    } catch (error) {
      if (error instanceof Cancelled) steps.push(await ctx.run('undo', () => 'undone'));
    }
    return steps;
  },
  patient: handler(async (ctx: ServiceContext, _: null): Promise<string> => ctx.run('patient', () => new Promise<string>((done) => setTimeout(() => done('patient'), 300))), {
    attemptTimeout: 30 * 86_400_000,
  }),
  patched: async (ctx: ServiceContext, _: null): Promise<unknown> => {
    const applies = ctx.patched('mail');
    ctx.log.info('it goes on', { at: 1 });
    await ctx.sleep(1);
    return [applies, ctx.patched('mail')];
  },
});

test('databases that a worker refuses, each in one line', { timeout: LONG }, async () => {
  const url = await empty('without_tables');
  const refused = (): Promise<void> => new Worker({ url, services: [work] }).run();
  await assert.rejects(refused, (error: unknown) => error instanceof Unsuitable && error.message === 'the database has no tables of Palqytun: palqytun migrate makes them');
  const connection = new Connection(configOf(url));
  await connection.connect();
  await connection.query('CREATE TABLE schema_versions(version integer); CREATE TABLE promise_waiters(waiter text)');
  for (const [version, wanted] of [[1, /has version 1, and this package works with version \d+: palqytun migrate moves it/], [999, /this package is older/]] as const) {
    await connection.query(`INSERT INTO schema_versions VALUES (${version})`);
    await assert.rejects(refused, (error: unknown) => error instanceof Unsuitable && wanted.test(error.message));
  }
  await connection.end();
  assert.throws(() => new Worker({ url: 'sqlite', services: [] }), /url must be that of a PostgreSQL database/);
  assert.throws(() => new Worker({ url: URL, services: [], limit: 0 }), /limit must be a number from 1, not 0/);
  assert.throws(() => new Worker({ url: URL, services: [work, work] }), /two services with the name Grace/);
});

test('runs end within the grace and are executed once, and another worker goes on', { timeout: LONG }, async () => {
  const on = await stage([work]);
  const sent = await on.client.send(work.slow, 500);
  await until(() => begun === 1);
  await on.end();
  assert.equal(executed, 1);
  const again = await stage([work]);
  try {
    assert.equal(await again.client.sent<string>(sent.id).result(LONG), 'slow, after');
    assert.equal(executed, 1);
  } finally {
    await again.end();
  }
});

test('a worker and a client that have ended leave nothing that would keep their process', { timeout: LONG }, async () => {
  const before = kept();
  const timers = (all: readonly string[]): number => all.filter((it) => it === 'Timeout').length;
  const on = await stage([work]);
  assert.equal(await on.client.call(work.patient, null), 'patient');
  await on.end();
  assert.equal(timers(kept()), timers(before));
  await until(() => kept().length <= before.length);
});

test('a run that may not begin, beside one that is executed', { timeout: LONG }, async () => {
  const on = await stage([work], { grace: LONG });
  const sent = await on.client.send(work.branches, null);
  await until(() => started.length === 2);
  const ended = on.end();
  free.add('first');
  await until(async () => (await asked('SELECT 1 FROM journal WHERE invocation=$1 AND completes IS NOT NULL', sent.id)).length === 1);
  free.add('second').add('third');
  await ended;
  const again = await stage([work]);
  try {
    assert.deepEqual(await again.client.sent<string[]>(sent.id).result(LONG), ['first, third', 'second']);
    assert.deepEqual(started.sort(), ['first', 'second', 'third']);
  } finally {
    await again.end();
  }
});

test('a limit of time that is longer than a timer takes', { timeout: LONG }, async () => {
  const warnings: string[] = [];
  const heard = (it: Error): void => void warnings.push(it.name);
  process.on('warning', heard as () => void);
  const on = await stage([work]);
  try {
    assert.equal(await on.client.call(work.patient, null), 'patient');
  } finally {
    await on.end();
    process.off('warning', heard as () => void);
  }
  assert.deepEqual(warnings, []); // each timer that is too long is one, and fires at once
  assert.throws(() => new Worker({ url: URL, services: [], poll: 2 ** 31 }), /poll must be at most 2147483647 milliseconds, which is all that a timer takes, not 2147483648/);
});

test('cancellations wait for a shield, and patches and logs are recorded once', { timeout: LONG }, async () => {
  const on = await stage([work], { idle: 0 });
  try {
    const sent = await on.client.send(work.undoes, null);
    await until(() => on.worker.metrics().includes('palqytun_live_attempts 1\n'));
    await sent.cancel();
    assert.deepEqual(await sent.result(LONG), ['kept', 'undone']);
    assert.deepEqual(await on.client.call(work.patched, null), [true, true]);
    const told = on.lines.filter((it) => it['message'] === 'it goes on');
    assert.equal(told.length, 1);
    assert.deepEqual([told[0]?.['logger'], told[0]?.['handler'], told[0]?.['at']], ['palqytun.handler', 'Grace/patched', 1]);
    assert.match(on.worker.metrics(), /palqytun_ended_total\{service="Grace",handler="undoes",outcome="done"\} 1/);
    assert.match(on.worker.metrics(), /^palqytun_operations_total [1-9]\d*$/m);
    assert.match(on.worker.metrics(), /palqytun_attempt_seconds_count\{service="Grace",handler="patched"\} \d/);
  } finally {
    await on.end();
  }
});
