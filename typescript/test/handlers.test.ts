// Contexts and combinators over a worker and its database: each call, alike with attempts that wait and with ones that are suspended at each await.

import assert from 'node:assert/strict';
import { test } from 'node:test';
import { TerminalError, TimedOut, all, allSettled, any, handler, main, object, race, select, service, shared, workflow } from '@palqytun/sdk';
import type { ObjectContext, ServiceContext, SharedObjectContext, SharedWorkflowContext, WorkflowContext } from '@palqytun/sdk';
import { LONG, asked, stage } from './cluster';

const tries = new Map<string, number>();
const bodies = new Map<string, number>();

function count(of: Map<string, number>, name: string): number {
  of.set(name, (of.get(name) ?? 0) + 1);
  return of.get(name) as number;
}

const cell = object('Cell', {
  add: async (ctx: ObjectContext, n: number): Promise<number> => {
    const sum = ((await ctx.get<number>('sum')) ?? 0) + n;
    ctx.set('sum', sum);
    ctx.set('last', { n, of: ctx.key });
    return sum;
  },
  look: shared(async (ctx: SharedObjectContext, _: null): Promise<unknown[]> => [await ctx.keys(), await ctx.get('sum'), await ctx.get('none')]),
  forget: async (ctx: ObjectContext, all: boolean): Promise<string[]> => {
    if (all) ctx.clearAll();
    else ctx.clear('last');
    return ctx.keys();
  },
});

const counts = object('Counting', {
  to: async (ctx: ObjectContext, [at, end]: [number, number]): Promise<unknown> => {
    ctx.setAttribute('stage', at);
    if (at === 0) ctx.setAttribute('customer', 'ann');
    await ctx.sleep(10);
    if (at < end) ctx.continueAsNew([at + 1, end]);
    return [at, await ctx.signal<string>('last')];
  },
});

const gate = workflow('Door', {
  waits: main(async (ctx: WorkflowContext, n: number): Promise<unknown[]> => [n, await ctx.promise<string>('word').value(), await ctx.promise('word').peek()]),
  opens: async (ctx: SharedWorkflowContext, word: string): Promise<string> => {
    try {
      await ctx.promise('word').resolve(word);
      return 'opened';
    } catch (error) {
      return error instanceof TerminalError ? `${error.code}` : 'another error';
    }
  },
});

const work = service('Work', {
  runs: async (ctx: ServiceContext, id: string): Promise<unknown> => {
    const first = await ctx.run('first', (run) => [count(bodies, id), run.key.endsWith('-1')]);
    const uuid = ctx.uuid();
    await ctx.sleep(20);
    const wide = await all(Array.from({ length: 30 }, (_, at) => ctx.run(`run ${at}`, async () => at)));
    return [first, wide.length, uuid === (await ctx.run('id', () => uuid))];
  },
  retries: async (ctx: ServiceContext, id: string): Promise<unknown> => {
    const made = await ctx.run('flaky', () => {
      if (count(tries, id) < 3) throw new Error('not yet');
      return tries.get(id);
    }, { retry: { initial: 1, attempts: 5 } });
    const failed = await ctx.run('fails', () => { throw new Error('never'); }, { retry: { initial: 1, attempts: 2 } }).catch((error: unknown) => (error as Error).message);
    const late = await ctx.run('late', () => new Promise(() => undefined), { timeout: 20, retry: { initial: 1, attempts: 2 } }).catch((error: unknown) => (error as Error).message);
    return [made, failed, late];
  },
  combines: async (ctx: ServiceContext, _: null): Promise<unknown> => {
    const fails = (): never => { throw new TerminalError('no', 418, { why: 'tea' }); };
    const soon = ctx.run('soon', () => 'soon');
    return [
      await race([ctx.sleep(3_600_000), soon]),
      await any([ctx.run('fails', fails), ctx.run('works', () => 'works')]),
      await select([ctx.sleep(3_600_000), ctx.run('second', () => 2)]),
      (await allSettled([ctx.run('one', () => 1), ctx.run('fails', fails)])).map((it) => it.status),
      await all([ctx.run('one', () => 1), ctx.run('fails', fails)]).catch((error: unknown) => (error instanceof TerminalError ? [error.code, error.metadata] : error)),
      await all([]),
      await Promise.all([ctx.run('a', () => 'a'), ctx.sleep(5), ctx.run('b', () => 'b')]),
      await Promise.race([ctx.sleep(3_600_000), ctx.run('c', () => 'c')]),
    ];
  },
  times: async (ctx: ServiceContext, _: null): Promise<unknown> => {
    const began = await ctx.now();
    await ctx.sleep(60);
    const lasted = (await ctx.now()) - began;
    const timed = await ctx.timeout(ctx.run('quick', () => 'quick'), 3_600_000);
    const late = await ctx.timeout(ctx.signal('never'), 10).catch((error: unknown) => error instanceof TimedOut && error.code);
    return [lasted >= 60, timed, late];
  },
  completes: async (ctx: ServiceContext, _: null): Promise<unknown> => {
    const { id, promise } = ctx.awakeable<number>();
    const other = ctx.awakeable();
    const id2 = await ctx.send(work2.answers, [id, other.id, ctx.invocationId]);
    const failed = await other.promise.catch((error: unknown) => (error as TerminalError).message);
    return [await promise, failed, await ctx.signal('go'), await ctx.attach(id2)];
  },
  calls: async (ctx: ServiceContext, key: string): Promise<unknown> => {
    const call = ctx.call(cell.add, 2, { key });
    const id = await call.invocationId;
    const sums = [await call, await ctx.attach(id), await ctx.call<number>('Cell/add', 3, { key, idempotencyKey: 'once' }), await ctx.call(cell.add, 3, { key, idempotencyKey: 'once' })];
    const later = await ctx.send(cell.add, 10, { key, delay: 30 });
    const failures = await allSettled([ctx.call('Work/none', 1), ctx.call('Cell/add', 1), ctx.call('Work/times', null, { key }), ctx.attach('inv_none')]);
    return [sums, await ctx.attach(later), failures.map((it) => (it.status === 'rejected' ? (it.reason as TerminalError).code : it.value))];
  },
  takes: handler(async (_: ServiceContext, n: number): Promise<number> => n, { takes: (value) => {
    if (typeof value !== 'number') throw new TypeError('a number is wanted');
    return value;
  } }),
  fails: async (_: ServiceContext, n: number): Promise<null> => { throw new TerminalError(`${n} fails`, 418, { n: `${n}` }); },
});

const work2 = service('Answers', {
  answers: async (ctx: ServiceContext, [id, other, caller]: [string, string, string]): Promise<string> => {
    ctx.resolveAwakeable(id, 7);
    ctx.rejectAwakeable(other, 'refused', 403);
    ctx.sendSignal(caller, 'go', { with: ['a', 1] });
    return 'done';
  },
});

for (const idle of [1000, 0]) {
  test(`handlers whose attempts wait for ${idle} ms`, { timeout: LONG }, async () => {
    const on = await stage([cell, counts, gate, work, work2], { idle });
    const key = `key ${idle}`;
    try {
      assert.deepEqual(await on.client.call(work.runs, key), [[1, true], 30, true]);
      assert.equal(bodies.get(key), 1); // a run whose result is stored isn't executed again
      assert.deepEqual(await on.client.call(work.retries, key), [3, 'Error: never', 'Error: it took longer than 20 ms']);
      assert.deepEqual(await on.client.call(work.combines, null), ['soon', 'works', [1, 2], ['fulfilled', 'rejected'], [418, [['why', 'tea']]], [], ['a', null, 'b'], 'c']);
      assert.deepEqual(await on.client.call(work.times, null), [true, 'quick', 408]);
      assert.deepEqual(await on.client.call(work.completes, null), [7, 'refused', { with: ['a', 1] }, 'done']);
      assert.deepEqual(await on.client.call(work.calls, key), [[2, 2, 5, 5], 15, [404, 400, 400, 404]]);
      assert.deepEqual(await on.client.call(cell.look, null, { key }), [['last', 'sum'], 15, null]);
      assert.deepEqual(await on.client.call(cell.forget, false, { key }), ['sum']);
      assert.deepEqual(await on.client.call(cell.forget, true, { key }), []);
      const counting = await on.client.send(counts.to, [0, 3], { key });
      await counting.signal('last', 'word');
      assert.deepEqual(await counting.result(LONG), [3, 'word']);
      const said = await asked("SELECT a.name, a.value FROM attributes a JOIN invocations i ON i.id=a.invocation WHERE i.service='Counting' AND i.key=$1 AND i.result IS NOT NULL ORDER BY 1", key);
      assert.deepEqual(said, [['customer', 'ann'], ['stage', '3']]);
      const waits = await on.client.send(gate.waits, 4, { key });
      assert.equal(await on.client.call(gate.opens, 'sesame', { key }), 'opened');
      assert.equal(await on.client.call(gate.opens, 'other', { key }), '409');
      assert.deepEqual(await waits.result(LONG), [4, 'sesame', 'sesame']);
      assert.equal((await on.client.send(gate.waits, 5, { key })).id, waits.id); // a workflow runs once a key
      await assert.rejects(on.client.call(work.fails, 3), { name: 'TerminalError', code: 418, message: '3 fails' });
      await assert.rejects(on.client.call('Work/takes', 'x'), { code: 400, message: /^the argument of Work\/takes: TypeError: a number is wanted/ });
      await assert.rejects(on.client.call('Work/none', 1), { code: 404 });
    } finally {
      await on.end();
    }
  });
}

test('calls of one key are in their order', { timeout: LONG }, async () => {
  const on = await stage([cell], { idle: 0 });
  try {
    const sent = [];
    for (let n = 1; n <= 12; n++) sent.push(await on.client.send(cell.add, 1, { key: 'ordered' }));
    const sums = [];
    for (const it of sent) sums.push(await it.result(LONG));
    assert.deepEqual(sums, Array.from({ length: 12 }, (_, at) => at + 1));
  } finally {
    await on.end();
  }
});
