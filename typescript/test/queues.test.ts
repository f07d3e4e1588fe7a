// Limits and queues: attempts at once over all workers in both languages, turns of keys, priorities, rates, and limits of time.

import assert from 'node:assert/strict';
import { appendFileSync, readFileSync } from 'node:fs';
import { test } from 'node:test';
import { Cancelled, Queue, all, handler, object, service } from '@palqytun/sdk';
import type { CallOptions, ObjectContext, ServiceContext } from '@palqytun/sdk';
import { Testing, crashEverywhere, fake } from '@palqytun/sdk/testing';
import { beside } from './beside';
import { LONG, asked, stage, until } from './cluster';
import type { Stage } from './cluster';

const SHARED = new Queue('shared', { concurrency: 2 });
const HOUR = 3_600_000;
const FILE = `${process.env['TMPDIR'] ?? '/tmp'}/palqytun-queues-${process.pid}`;

const order: string[] = [];
let gates: (() => void)[] = [];
let tried = 0;

/** An effect that ends once the test opens its gate. */
const gate = (): Promise<void> => new Promise((opened) => gates.push(opened));
const open = (): void => gates.splice(0).forEach((it) => it());

const work = service('Work', {
  busy: handler(async (ctx: ServiceContext, file: string): Promise<null> => {
    await ctx.run('busy', async () => {
      appendFileSync(file, 'begin typescript\n');
      await new Promise<void>((done) => setTimeout(done, 20));
      appendFileSync(file, 'end typescript\n');
    });
    return null;
  }, { queue: SHARED }),
  turns: handler(async (ctx: ServiceContext, it: string): Promise<null> => {
    await ctx.run('turn', async () => {
      order.push(it);
      if (it === 'gate') await gate();
    });
    return null;
  }, { queue: new Queue('turns', { concurrency: 1 }) }),
  rated: handler(async (ctx: ServiceContext, n: number): Promise<number> => ctx.run('n', () => n), { queue: new Queue('rated', { rate: [2, HOUR] }) }),
  limited: handler(async (ctx: ServiceContext, _: null): Promise<null> => ctx.run('gate', () => gate().then(() => null)), { limit: 2 }),
  keyed: handler(async (ctx: ServiceContext, _: null): Promise<null> => ctx.run('gate', () => gate().then(() => null)), { queue: new Queue('keyed', { perKey: 1, perWorker: 3 }) }),
  free: async (ctx: ServiceContext, n: number): Promise<number> => ctx.run('n', () => n),
  calls: async (ctx: ServiceContext, [path, argument, options]: [string, unknown, CallOptions]): Promise<unknown> => ctx.call(path, argument, options),
  hangs: handler(async (ctx: ServiceContext, _: null): Promise<string> => {
    await ctx.run('quick', () => 'quick');
    return ctx.run('hangs', async ({ signal }) => {
      tried += 1;
      while (tried <= 2 && !signal.aborted) await new Promise<void>((done) => setTimeout(done, 10));
      return `after ${tried}`;
    });
  }, { attemptTimeout: 400, retry: { initial: 10 } }),
  overdue: handler(async (ctx: ServiceContext, _: null): Promise<null> => ctx.call('Work/sleeps', null), { timeout: 100 * HOUR }),
  sleeps: async (ctx: ServiceContext, _: null): Promise<null> => {
    try {
      await ctx.sleep(1000 * HOUR);
    } catch (error) {
      if (error instanceof Cancelled) await ctx.run('undone', () => order.push('cancelled'));
      throw error;
    }
    return null;
  },
});

async function running(name: string): Promise<number> {
  return Number((await asked("SELECT COUNT(*)::int FROM invocations WHERE status='running' AND handler=$1", name))[0]?.[0]);
}

/** The most of what a file says that it has begun and not ended. */
function most(lines: readonly string[]): number {
  let [now, found] = [0, 0];
  for (const it of lines) found = Math.max(found, (now += it.startsWith('begin') ? 1 : -1));
  return found;
}

test('one queue of handlers in both languages, and calls of each by the other', { timeout: LONG }, async () => {
  const on = await stage([work], { idle: LONG });
  try {
    await beside('PyQueues', () => sharedQueue(on));
  } finally {
    await on.end();
  }
});

async function sharedQueue(on: Stage): Promise<void> {
  await until(() => on.client.send('PyQueues/echo').then(() => true, () => false));
  appendFileSync(FILE, '');
  const sent = [];
  for (let n = 0; n < 10; n++) sent.push(await on.client.send('Work/busy', FILE), await on.client.send('PyQueues/busy', FILE));
  await Promise.all(sent.map((it) => it.result(LONG)));
  const lines = readFileSync(FILE, 'utf8').trim().split('\n');
  assert.deepEqual(['python', 'typescript'].map((it) => lines.filter((line) => line === `end ${it}`).length), [10, 10]);
  assert(most(lines) <= 2, lines.join(', '));
  assert.equal(await on.client.call('Work/calls', ['PyQueues/busy', FILE, { queueKey: 'ann', priority: 7 }]), null);
  assert.equal(await on.client.call('PyQueues/calls', ['Work/busy', FILE, { queue_key: 'ben', priority: -7 }]), null);
  const rows = await asked("SELECT service, queue, queue_key, priority::int FROM invocations WHERE handler='busy' AND priority<>0 ORDER BY seq");
  assert.deepEqual(rows, [['PyQueues', 'shared', 'ann', 7], ['Work', 'shared', 'ben', -7]]);
  assert.deepEqual(JSON.parse(String((await asked("SELECT limits FROM queues WHERE name='shared'"))[0]?.[0])), { concurrency: 2 });
}

test('keys have their turns, and the greatest priority of a key comes first', { timeout: LONG }, async () => {
  const on = await stage([work], { idle: LONG });
  try {
    await on.client.send(work.turns, 'gate', { queueKey: 'gate' });
    await until(() => gates.length === 1);
    const keys = ['a', 'a', 'a', 'b', 'b', 'c'];
    const sent = await Promise.all(keys.map((key, at) => on.client.send(work.turns, `${key}${at}`, { queueKey: key, priority: key === 'b' ? at : 0 })));
    open();
    for (const it of sent) await it.result(LONG);
    assert.deepEqual(order.splice(0).map((it) => it.slice(0, 1)), ['g', 'a', 'b', 'c', 'a', 'b', 'a']);
    const [[first] = []] = await asked("SELECT begun < (SELECT begun FROM invocations WHERE queue='turns' AND priority=3) FROM invocations WHERE queue='turns' AND priority=4");
    assert.equal(first, true);
    await assert.rejects(on.client.send(work.turns, 'x', { priority: 1001 }), { code: 400 });
  } finally {
    await on.end();
  }
});

test('a rate holds over what has begun, and limits over all workers', { timeout: LONG }, async () => {
  const [on, other] = [await stage([work], { idle: LONG }), await stage([work], { idle: LONG, name: 'other' })];
  try {
    const sent = await Promise.all([0, 1, 2, 3, 4].map((n) => on.client.send(work.rated, n)));
    const ended = async (): Promise<number> => Number((await asked("SELECT COUNT(*)::int FROM invocations WHERE queue='rated' AND status='done'"))[0]?.[0]);
    for (const wanted of [2, 4]) {
      await until(async () => (await ended()) === wanted);
      for (const worker of [on, other]) assert.equal(await worker.client.call(work.free, 1), 1);
      assert.equal(await ended(), wanted);
      await asked("UPDATE starts SET at=0 WHERE queue='rated'");
    }
    for (const it of sent) await it.result(LONG);
    for (const [path, count, most] of [['limited', 5, 2], ['keyed', 4, 4]] as const) {
      const made = [];
      for (let n = 0; n < count; n++) made.push(await on.client.send(`Work/${path}`, null, { queueKey: `${n}` }));
      await until(async () => (await running(path)) === most);
      for (const worker of [on, other]) assert.equal(await worker.client.call(work.free, 2), 2);
      assert.equal(await running(path), most);
      const opens = setInterval(open, 20).unref(); // also if this fails, its process can end
      for (const it of made) await it.result(LONG);
      clearInterval(opens);
    }
  } finally {
    await on.end();
    await other.end();
  }
});

test('limits of time: an attempt, an invocation with its calls, and the wait until it begins', { timeout: LONG }, async () => {
  const on = await stage([work], { idle: 0 });
  try {
    const sent = await on.client.send(work.hangs, null);
    assert.match(await sent.result(LONG), /^after [3-9]$/);
    const why = await asked("SELECT error FROM attempts WHERE invocation=$1 AND how='failed' ORDER BY epoch", sent.id);
    assert(String(why[0]?.[0]).startsWith('500 TimeoutError: the attempt took longer than its attemptTimeout of 400 ms'), String(why[0]?.[0]));
    const overdue = await on.client.send(work.overdue, null);
    await until(async () => (await asked("SELECT 1 FROM invocations WHERE parent=$1 AND status='suspended'", overdue.id)).length === 1);
    await asked('UPDATE invocations SET deadline=1 WHERE id=$1', overdue.id);
    await assert.rejects(overdue.result(LONG), { code: 408, message: "timed out: it didn't end within its timeout" }); // by any worker of the database, which logs it
    await until(() => order.includes('cancelled'));
    assert.deepEqual(await asked('SELECT status, how, failed::int FROM invocations WHERE id=$1', overdue.id), [['done', 'overdue', 408]]);
  } finally {
    await on.end();
  }
});

// ---- in memory

const pay = fake('paid');
const few = new Queue('few', { rate: [2, 100_000] });
const box = object('Box', {
  fills: handler(async (ctx: ObjectContext, it: number): Promise<number[]> => {
    const found = [...((await ctx.get<number[]>('all')) ?? []), it];
    ctx.set('all', found);
    return found;
  }, { queue: new Queue('boxes', { perKey: 1 }) }),
  holds: async (ctx: ObjectContext, _: null): Promise<string> => ctx.sleep(10_000).then(() => 'held'),
  turn: handler(async (_: ObjectContext, __: null): Promise<string> => 'turn', { queueTimeout: 5000, timeout: HOUR }),
});
const shop = service('Shop', {
  rated: handler(async (ctx: ServiceContext, n: number): Promise<unknown> => ctx.run('pay', () => pay(n)), { queue: few }),
  many: async (ctx: ServiceContext, _: null): Promise<unknown> => {
    const called = [0, 1, 2].map((n) => ctx.call('Box/fills', n, { key: 'k', priority: n }));
    return [await all([0, 1, 2].map((n) => ctx.call('Shop/rated', n, { queueKey: `${n % 2}` }))), (await all(called)).length];
  },
});

test('a rate and the clock of a test, and deaths change nothing', { timeout: LONG }, async () => {
  await Testing.run([shop, box], async (it) => {
    const sent = await Promise.all([0, 1, 2, 3, 4].map((n) => it.send(shop.rated, n)));
    await it.skip(1000);
    assert.equal(pay.calls.length, 2);
    await it.skip(250_000);
    assert.equal(pay.calls.length, 5);
    for (const one of sent) assert.equal(await one.result(), 'paid');
    const [holds, turn] = [await it.send(box.holds, null, { key: 'k' }), await it.send(box.turn, null, { key: 'k' })];
    await assert.rejects(turn.result(), { code: 408, message: "timed out: it didn't begin within its queue_timeout" });
    assert.equal(await holds.result(), 'held');
    assert.equal(await it.call(box.turn, null, { key: 'k' }), 'turn');
  });
  assert(await crashEverywhere([shop, box], shop.many, null, { fakes: [pay] }) > 10);
});

test('limits that have no meaning are refused', async () => {
  for (const options of [{ concurrency: 0 }, { perKey: -1 }, { perWorker: 0.5 }, { rate: [0, 1] as const }, { rate: [1, 0] as const }]) {
    assert.throws(() => new Queue('q', options), /^RangeError: the \w+ of the queue q must be /);
  }
  const does = async (): Promise<null> => null;
  assert.throws(() => service('S', { both: handler(does, { limit: 1, queue: few }) }), /S\/both has a limit and a queue: give the queue the concurrency 1/);
  assert.throws(() => service('S', { none: handler(does, { limit: 0 }) }), /the limit of S\/none must be a whole number from 1, not 0/);
  assert.throws(() => service('S', { late: handler(does, { timeout: 0 }) }), /the timeout of S\/late must be a number of milliseconds above 0, not 0/);
  const second = service('Second', { third: handler(does, { queue: new Queue('few') }) });
  await assert.rejects(async () => Testing.begin([shop, second]), /there are two queues with the name few: \{"rate":\[2,100\]\} and \{\}/);
});
