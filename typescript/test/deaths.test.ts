// Deaths of workers at each commit of a store in memory, once before the commit is stored and once after it: what is left is as without one.

import assert from 'node:assert/strict';
import { test } from 'node:test';
import { Worker, object, service } from '@palqytun/sdk';
import type { AnyService, ObjectContext, ServiceContext, WorkerOptions } from '@palqytun/sdk';
import { LONG, until } from './cluster';
import { create } from '../invocations';
import { Memory } from '../memory';
import { JSON_CODEC } from '../sealing';
import { servicesOf } from '../services';

/** A worker on a store of the test's, which the declarations of the package leave out. */
const InMemory = Worker as unknown as new (options: WorkerOptions, inside: { place: Memory }) => Worker & { readonly live: number };
const SENT = 3;
const effects: string[] = [];

const shop = service('Shop', {
  order: async (ctx: ServiceContext, _: null): Promise<null> => {
    for (let number = 0; number < SENT; number++) {
      await ctx.run('step', ({ key }) => effects.push(key));
      await ctx.send('Mail/letter', number, { key: 'ann' });
    }
    return null;
  },
});
const mail = object('Mail', {
  letter: async (ctx: ObjectContext, number: number): Promise<null> => {
    ctx.set('seen', [...((await ctx.get<number[]>('seen')) ?? []), number]);
    await ctx.run('letter', ({ key }) => effects.push(key));
    return null;
  },
});

/** A memory in which an invocation is made. */
async function begun(services: readonly AnyService[], path: string, argument: unknown): Promise<Memory> {
  const memory = new Memory();
  const [name = '', handler = ''] = path.split('/');
  const made = {
    id: 'inv_first', seed: 1n, service: name, handler, key: '', argument: Buffer.from(JSON.stringify(argument)), headers: [], idempotencyKey: null, due: null,
    parent: null, trace: null,
  }; // prettier-ignore
  await memory.beside().transact((to) => create(to, { services: servicesOf(services), codec: JSON_CODEC }, made));
  return memory;
}

/** A worker until something is so. It dies at this commit of its own, and goes on. Returns whether it died. */
async function life(memory: Memory, services: readonly AnyService[], dies: number, isStored: boolean, isDone: () => boolean): Promise<boolean> {
  [memory.dies, memory.isStored] = [memory.commits + dies, isStored];
  const settings = { url: 'postgresql://in-memory', version: 'test', idle: 0, poll: 20, grace: 1000, stuck: 0, log: { level: 'error' as const } };
  const worker = new InMemory({ ...settings, services }, { place: memory });
  const running = worker.run();
  await until(() => isDone() && worker.live === 0);
  const hasDied = memory.commits >= memory.dies;
  memory.dies = 0;
  worker.stop();
  await running;
  return hasDied;
}

test('a send that nobody serves, at any moment: it is made once, and done once', { timeout: LONG }, async () => {
  let deaths = 0;
  for (let commit = 1, hasDied = true; hasDied; commit++) {
    hasDied = false;
    for (const isStored of [false, true]) {
      effects.splice(0);
      const memory = await begun([shop], 'Shop/order', null);
      const of = (status: string): number => memory.tables.invocations.where((it) => it.service === 'Mail' && it.status === status).length;
      const first = await life(memory, [shop], commit, isStored, () => memory.tables.invocations.get('inv_first')?.status === 'done');
      assert.deepEqual([of('paused'), memory.tables.invocations.where().length], [SENT, SENT + 1]);
      const second = await life(memory, [shop, mail], commit, isStored, () => of('done') === SENT);
      const [seen] = memory.tables.state.where();
      assert.equal(Buffer.from(seen?.value ?? []).toString('utf8'), '[0,1,2]');
      assert.deepEqual([memory.tables.locks, memory.tables.inbox, memory.tables.waiters].map((it) => it.where().length), [0, 0, 0]);
      assert.equal(new Set(effects).size, 2 * SENT);
      deaths += Number(first) + Number(second);
      hasDied ||= first || second;
    }
  }
  assert(deaths > 20, `${deaths} deaths`);
});
