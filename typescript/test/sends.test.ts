// Sends that are refused, and calls that are made again: one that nobody serves waits for a worker, in either language; what a handler never takes has
// failed; and an idempotency key has one argument.

import assert from 'node:assert/strict';
import { test } from 'node:test';
import { object, service, workflow, main } from '@palqytun/sdk';
import type { ObjectContext, SendOptions, ServiceContext, WorkflowContext } from '@palqytun/sdk';
import { beside } from './beside';
import { LONG, asked, stage, until } from './cluster';
import type { Stage } from './cluster';

const sender = service('Sender', {
  sends: async (ctx: ServiceContext, [path, argument, options]: [string, unknown, SendOptions]): Promise<string> => ctx.send(path, argument, options),
  again: async (ctx: ServiceContext, [key, argument]: [string, number]): Promise<string> => {
    const failed = (error: unknown): string => (error instanceof Error ? error.message : 'another');
    return ctx.call<string>('Sender/takes', argument, { idempotencyKey: key }).catch(failed);
  },
  takes: async (_: ServiceContext, argument: unknown): Promise<string> => JSON.stringify(argument),
  attaches: async (ctx: ServiceContext, id: string): Promise<string> => ctx.attach<string>(id).catch((error: unknown) => (error instanceof Error ? error.message : 'another')),
});
const late = object('Late', {
  letter: async (ctx: ObjectContext, to: string): Promise<string[]> => {
    const seen = [...((await ctx.get<string[]>('seen')) ?? []), to];
    ctx.set('seen', seen);
    return seen;
  },
});
const once = workflow('Once', { main: main(async (ctx: WorkflowContext, name: string): Promise<string> => ctx.run('name', () => name)) });
const fromPython = object('FromPython', { put: async (ctx: ObjectContext, it: string): Promise<string> => `${ctx.key} has ${it}` });

const NOBODY = '404 there is no handler Late/letter, of this app or of a worker that is alive';

async function onStage<T>(services: Parameters<typeof stage>[0], does: (on: Stage) => Promise<T>): Promise<T> {
  const on = await stage(services);
  try {
    return await does(on);
  } finally {
    await on.end();
  }
}

const sent = (on: Stage, path: string, argument: unknown, options: SendOptions = {}): Promise<string> => on.client.call(sender.sends, [path, argument, options]);

test('a send that no worker serves waits for one and is seen, and calls of a key keep their order', { timeout: LONG }, async () => {
  const [first, second, third, without] = await onStage([sender], async (on) => {
    const ids: string[] = [];
    for (const name of ['ann', 'bob', 'cleo']) ids.push(await sent(on, 'Late/letter', name, { key: 'k', headers: { 'palqytun-priority': '5' } }));
    await assert.rejects(on.client.call('Late/letter', 'dan', { key: 'k' }), { code: 404 });
    const line = on.lines.find((it) => it['invocation'] === ids[0] && it['event'] === 'unserved');
    assert.deepEqual([line?.['level'], line?.['message']], ['warning', `Late/letter ${ids[0]} waits for a worker that serves it: ${NOBODY}`]);
    const row = await asked('SELECT status, how, error, entries::int, epoch::int, exclusive::int, priority::int FROM invocations WHERE id=$1', ids[0]);
    assert.deepEqual(row, [['paused', 'unserved', NOBODY, 1, 0, 0, 5]]);
    assert.match(on.worker.metrics(), /palqytun_failures_total\{service="Late",handler="letter",event="unserved"\} 3/);
    return [...ids, await sent(on, 'Late/letter', 'cleo')];
  });
  await onStage([late, sender], async (on) => {
    const all = [first, second, third].map((id) => on.client.sent<string[]>(id ?? '').result(LONG));
    assert.deepEqual(await Promise.all(all), [['ann'], ['ann', 'bob'], ['ann', 'bob', 'cleo']]);
    assert.equal(await on.client.call(sender.attaches, without ?? ''), 'Late/letter is called with a key');
    await assert.rejects(on.client.sent(without ?? '').result(LONG), { code: 400, message: 'Late/letter is called with a key' });
  });
  assert.deepEqual(await asked('SELECT status, how, failed::int, exclusive::int FROM invocations WHERE id=$1', without), [['done', 'refused', 400, 0]]);
  assert.deepEqual(await asked('SELECT status, how, error, exclusive::int FROM invocations WHERE id=$1', first), [['done', 'ended', null, 1]]);
  assert.deepEqual(await asked("SELECT COUNT(*)::int FROM locks WHERE service='Late'"), [[0]]);
});

test('one that is to begin later, idempotency keys, and a workflow that runs once a key', { timeout: LONG }, async () => {
  const [later, one, again, visa, other] = await onStage([sender], async (on) => [
    await sent(on, 'Late/letter', 'ann', { key: 'later', delay: 3_600_000 }),
    await sent(on, 'Late/letter', 'ann', { key: 'once', idempotencyKey: 'one' }),
    await sent(on, 'Late/letter', 'ann', { key: 'once', idempotencyKey: 'one' }),
    await sent(on, 'Once/main', 'first', { key: 'ann' }),
    await sent(on, 'Once/main', 'second', { key: 'ann' }),
  ]);
  await onStage([late, once], async (on) => {
    assert.deepEqual(await on.client.sent(one ?? '').result(LONG), ['ann']);
    assert.equal(await on.client.sent(visa ?? '').result(LONG), 'first');
    const message = `Once/main runs once a key, and ${visa} is that of this key`;
    await assert.rejects(on.client.sent(other ?? '').result(LONG), { code: 409, message });
    await until(async () => (await asked('SELECT status FROM invocations WHERE id=$1', later))[0]?.[0] === 'ready');
    assert.deepEqual(await asked('SELECT due-created>3500, epoch::int FROM invocations WHERE id=$1', later), [[true, 0]]);
    assert.deepEqual(await asked('SELECT COUNT(*)::int FROM invocations WHERE id=$1', again), [[0]]); // it is the first one
  });
});

test('what the handler never takes is seen as failed', { timeout: LONG }, async () => {
  await onStage([sender, late], async (on) => {
    const id = await sent(on, 'Late/letter', 'ann');
    assert.deepEqual(await asked('SELECT status, how, error FROM invocations WHERE id=$1', id), [['done', 'refused', '400 Late/letter is called with a key']]);
    await until(() => on.lines.some((it) => it['message'] === `Late/letter ${id} failed: 400 Late/letter is called with a key`));
    await assert.rejects(on.client.sent(id).result(LONG), { code: 400 });
  });
});

test('what TypeScript sends while nobody serves it is done by Python, and what Python sends by TypeScript', { timeout: LONG }, async () => {
  const id = await onStage([sender], async (on) => {
    const made = await sent(on, 'PySendsShelf/put', 'a book', { key: 'top' });
    assert.deepEqual(await asked('SELECT status, how FROM invocations WHERE id=$1', made), [['paused', 'unserved']]);
    return made;
  });
  await onStage([sender], (on) => beside('PySends', async () => {
    assert.deepEqual(await on.client.sent(id).result(LONG), ['a book']);
    const ids = await Promise.all(['one', 'two'].map((it) => on.client.call<string>('PySends/sends', ['FromPython/put', it, { key: it }])));
    for (const one of ids) assert.deepEqual(await asked('SELECT status, how FROM invocations WHERE id=$1', one), [['paused', 'unserved']]);
    await onStage([fromPython], async (there) => {
      for (const [at, one] of ids.entries()) assert.equal(await there.client.sent(one).result(LONG), `${['one', 'two'][at]} has ${['one', 'two'][at]}`);
    });
  }));
});

test('an idempotency key has one argument', { timeout: LONG }, async () => {
  await onStage([sender], async (on) => {
    const options = { idempotencyKey: 'one argument' };
    const made = await on.client.send('Sender/takes', { a: 1, b: [2, { c: null }] }, options);
    assert.equal((await on.client.send('Sender/takes', { b: [2, { c: null }], a: 1 }, options)).id, made.id);
    const said = `the idempotency key 'one argument' is that of ${made.id}, which was called with another argument`;
    for (const other of [{ a: 1 }, { a: true, b: [2, { c: null }] }, { a: 1, b: { 0: 2, 1: { c: null } } }, { a: 1, b: [2, { d: null }] }]) {
      await assert.rejects(on.client.send('Sender/takes', other, options), { code: 409, message: said });
    }
    assert.equal(await on.client.call(sender.again, ['a handler', 1]), '1');
    assert.match(await on.client.call(sender.again, ['a handler', 2]), /^the idempotency key 'a handler' is that of inv_\w+, which was called with another argument$/);
  });
});
