// Much that comes at once, and words that are missed: a worker goes on with all of it, and doesn't wait for its poll in between.

import assert from 'node:assert/strict';
import { test } from 'node:test';
import { frames } from 'palqytun';
import { Queue, Worker, all, handler, main, race, service, workflow } from '@palqytun/sdk';
import type { AnyService, ServiceContext, SharedWorkflowContext, WorkerOptions, WorkflowContext } from '@palqytun/sdk';
import { LONG, asked, stage, until } from './cluster';
import { look } from '../claiming';
import { create } from '../invocations';
import { Memory } from '../memory';
import { JSON_CODEC } from '../sealing';
import { servicesOf } from '../services';

/** A worker on a store of the test's, which the declarations of the package leave out. */
const InMemory = Worker as unknown as new (options: WorkerOptions, inside: { place: Memory }) => Worker & { readonly live: number };
const MANY = 100;
const FAR = 3_600_000; // milliseconds

const runs: (() => void)[] = [];
const waits = service('Waits', {
  sleeps: async (ctx: ServiceContext, _: null): Promise<null> => ctx.sleep(FAR),
  works: async (ctx: ServiceContext, _: null): Promise<unknown> => ctx.run('works', () => new Promise<void>((done) => runs.push(done))),
  hears: async (ctx: ServiceContext, _: null): Promise<unknown> => race([ctx.run('long', () => new Promise<void>((done) => runs.push(done))), ctx.signal<string>('go')]),
});
const LANE = new Queue('lane', { concurrency: 3, perKey: 1 });
const lane = service('Lane', {
  sleeps: handler(async (ctx: ServiceContext, _: null): Promise<null> => ctx.sleep(FAR), { queue: LANE }),
  works: handler(async (ctx: ServiceContext, _: null): Promise<unknown> => ctx.run('works', () => new Promise<void>((done) => runs.push(done))), { queue: LANE }),
});
const flow = workflow('Flow', {
  main: main(async (ctx: WorkflowContext, _: null): Promise<null> => ctx.promise<null>('never').value()),
  awaits: async (ctx: SharedWorkflowContext, _: null): Promise<null> => ctx.promise<null>('go').value(),
  goes: async (ctx: SharedWorkflowContext, _: null): Promise<null> => ctx.promise<null>('go').resolve(),
});

/** Makes invocations of a handler. */
type Send = (path: string, many: number, key?: string, queueKey?: string) => Promise<void>;

/** A worker in memory that doesn't look by itself, until the end of a test. */
async function inMemory(services: readonly AnyService[], limit: number, does: (memory: Memory, send: Send) => Promise<void>, memory = new Memory()): Promise<void> {
  const settings = { url: 'postgresql://in-memory', version: 'test', idle: 0, poll: FAR, grace: 1000, stuck: 0, limit, log: { level: 'error' as const } };
  const worker = new InMemory({ ...settings, services }, { place: memory });
  const running = worker.run();
  const maker = { services: servicesOf(services), codec: JSON_CODEC };
  let number = 0;
  const send: Send = async (path, many, key = '', queueKey) => {
    const [name = '', handler = ''] = path.split('/');
    const headers: [string, string][] = queueKey === undefined ? [] : [['palqytun-queue-key', queueKey]];
    const rest = { seed: 1n, service: name, handler, key, argument: Buffer.alloc(0), headers, idempotencyKey: null, due: null, parent: null, trace: null };
    await memory.beside().transact(async (to) => {
      for (let at = 0; at < many; at++) await create(to, maker, { id: `inv_${(number += 1)}`, ...rest });
    });
  };
  try {
    await does(memory, send);
  } finally {
    worker.stop();
    for (const done of runs.splice(0)) done();
    await running;
  }
}

test('a key of a queue that is full hides no other, and what came for it goes on once it has room', { timeout: LONG }, async () => {
  await inMemory([lane], 500, async (memory, send) => {
    await send('Lane/sleeps', 5, '', 'a');
    await send('Lane/sleeps', 1, '', 'b');
    await until(() => count(memory, 'suspended') === 6);
    await send('Lane/works', 1, '', 'a');
    await until(() => runs.length === 1);
    memory.skipped += 2 * FAR;
    memory.say('ready');
    await until(() => count(memory, 'done') === 1); // that of the other key
    for (const done of runs.splice(0)) done();
    await until(() => count(memory, 'done') === 7);
  });
});

const count = (memory: Memory, status: string): number => memory.tables.invocations.where((it) => it.status === status).length;

test('sleeps that end at one moment', { timeout: LONG }, async () => {
  await inMemory([waits], 500, async (memory, send) => {
    await send('Waits/sleeps', MANY);
    await until(() => count(memory, 'suspended') === MANY);
    memory.skipped += 2 * FAR;
    memory.say('ready');
    await until(() => count(memory, 'done') === MANY);
  });
});

test('one promise for which many wait', { timeout: LONG }, async () => {
  await inMemory([flow], 500, async (memory, send) => {
    await send('Flow/awaits', MANY, 'one');
    await until(() => count(memory, 'suspended') === MANY);
    await send('Flow/goes', 1, 'one');
    await until(() => count(memory, 'done') === MANY + 1);
  });
});

test('what is ready while the worker has no room, and looks', { timeout: LONG }, async () => {
  await inMemory([waits], 10, async (memory, send) => {
    await send('Waits/works', 50);
    await until(() => runs.length === 10);
    memory.say('ready'); // it looks, and has no room
    await new Promise<void>((done) => setTimeout(done, 50));
    await until(() => {
      for (const done of runs.splice(0)) done();
      return count(memory, 'done') === 50;
    });
  });
});

/** An invocation that is due so many milliseconds after 1970, and that a worker which isn't alive had, if it is `lost`. */
async function made(memory: Memory, id: string, of: AnyService, handler: string, due: number, isLost: boolean): Promise<void> {
  const services = servicesOf([of]);
  const [service = ''] = services.keys();
  const rest = { seed: 1n, service, handler, key: '', headers: [], idempotencyKey: null, parent: null, trace: null };
  await memory.beside().transact(async (to) => {
    await create(to, { services, codec: JSON_CODEC }, { id, argument: Buffer.from(JSON.stringify(id)), due: due / 1000, ...rest });
    if (isLost) await to.change('lease', { id, epoch: 0, worker: 'lost', code: 'test', now: to.now });
  });
}

test('those of a worker that is lost', { timeout: LONG }, async () => {
  const memory = new Memory();
  for (let at = 0; at < MANY; at++) await made(memory, `inv_lost${at}`, waits, 'sleeps', at, true);
  await inMemory([waits], 500, async () => {
    await until(() => count(memory, 'suspended') === MANY);
  }, memory); // prettier-ignore
});

test('what a worker had that is lost goes on by its age, among what is ready', { timeout: LONG }, async () => {
  const seen: string[] = [];
  const ages = service('Ages', { goes: async (ctx: ServiceContext, id: string): Promise<unknown> => ctx.run('goes', () => void seen.push(id)) });
  const memory = new Memory();
  for (const at of [2, 5, 8]) await made(memory, `inv_${at}`, ages, 'goes', at, true); // stored before the others, and due between them
  for (const at of [1, 3, 4, 6, 7, 9]) await made(memory, `inv_${at}`, ages, 'goes', at, false);
  await inMemory([ages], 2, async () => {
    await until(() => count(memory, 'done') === 9);
    const pairs = [0, 2, 4, 6, 8].map((at) => seen.slice(at, at + 2).sort()); // two run side by side
    assert.deepEqual(pairs.flat(), [1, 2, 3, 4, 5, 6, 7, 8, 9].map((at) => `inv_${at}`));
  }, memory); // prettier-ignore
});

test('those that are claimed alone hide no others, and are said to be lost once they go on', { timeout: LONG }, async () => {
  const memory = new Memory();
  const store = memory.beside();
  const ids = (what: string, many: number): string[] => Array.from({ length: many }, (_, at) => `inv_${what}${at}`);
  const [alone, lost, ready] = [ids('alone', 25), ids('lost', 3), ids('ready', 3)];
  for (const id of alone) {
    await made(memory, id, waits, 'sleeps', 1, true);
    await store.transact((to) => to.change('lease', { id, epoch: 1, worker: 'another', code: 'test', now: to.now }));
  }
  for (const id of lost) await made(memory, id, waits, 'sleeps', 2, true);
  for (const id of ready) await made(memory, id, waits, 'sleeps', 3, false);
  await store.transact((to) => to.change('enter', { worker: 'own', lease: 60, code: 'test', serves: '' }));
  const said: string[] = [];
  store.told = (it) => it.notes.forEach((one) => said.push(one.invocation));
  const claimer = { worker: 'own', code: 'test', services: servicesOf([waits]), codec: JSON_CODEC, suspected: 0, looks: 0 };
  const looked = async (): Promise<string[]> => {
    const found = await store.transact((to) => look(to, claimer, { isWhole: true, isDue: true, hasCome: true }, new Set(), 5));
    return found.claims.map((it) => it.id);
  };
  assert.deepEqual(await looked(), [alone[0], ...lost, ready[0]]);
  assert.deepEqual([await looked(), said], [ready.slice(1), [alone[0], ...lost]]);
});

test('no service, limit or queue is kept out for good by what waits in another', { timeout: LONG }, async () => {
  const seen: string[] = [];
  const goes = async (ctx: ServiceContext, id: string): Promise<unknown> => ctx.run('goes', () => void seen.push(id));
  const [many, other] = [service('Many', { goes }), service('Other', { goes, limited: handler(goes, { limit: 3 }), queued: handler(goes, { queue: new Queue('turned') }) })];
  const memory = new Memory();
  for (const name of ['goes', 'limited', 'queued']) await made(memory, `inv_${name}`, other, name, 1, false);
  for (let at = 0; at < MANY; at++) await made(memory, `inv_many${at}`, many, 'goes', 2, false);
  await inMemory([many, other], 1, async () => {
    await until(() => count(memory, 'done') === MANY + 3);
    for (const name of ['goes', 'limited', 'queued']) assert(seen.indexOf(`inv_${name}`) < 10, `${name} is number ${seen.indexOf(`inv_${name}`)}`);
  }, memory); // prettier-ignore
});

test('more timers than one transaction fires', { timeout: LONG }, async () => {
  const many = 2_300;
  const naps = service('Naps', { naps: async (ctx: ServiceContext, _: null): Promise<number> => (await all(Array.from({ length: many }, () => ctx.sleep(FAR)))).length });
  await inMemory([naps], 500, async (memory, send) => {
    await send('Naps/naps', 1);
    await until(() => count(memory, 'suspended') === 1);
    assert.equal(memory.tables.timers.where().length, many);
    memory.skipped += 2 * FAR;
    memory.say('ready');
    await until(() => count(memory, 'done') === 1);
    assert.equal(memory.tables.timers.where().length, 0);
  });
});

test('what comes for an attempt by a word that is missed', { timeout: LONG }, async () => {
  const on = await stage([waits], { idle: FAR });
  try {
    const sent = await on.client.send(waits.hears, null);
    await until(() => runs.length === 1);
    // as of a sender whose word went to the worker that had the lease before
    await asked('INSERT INTO inbox(invocation, frame) VALUES ($1, $2)', sent.id, Buffer.from(frames.namedSignal('go', frames.valueFrame(Buffer.from('"went"')))));
    assert.equal(await sent.result(LONG / 2), 'went');
  } finally {
    for (const done of runs.splice(0)) done();
    await on.end();
  }
});
