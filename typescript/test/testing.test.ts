// The test kit: handlers in plain unit tests, without a server. Time is skipped, effects are fakes, others only give answers, and a worker dies at each commit.

import assert from 'node:assert/strict';
import { test } from 'node:test';
import { Cancelled, TerminalError, handler, main, object, select, service, shared, workflow } from '@palqytun/sdk';
import type { ObjectContext, ServiceContext, SharedObjectContext, SharedWorkflowContext, WorkflowContext } from '@palqytun/sdk';
import { Testing, crashEverywhere, fake } from '@palqytun/sdk/testing';
import { LONG } from './cluster';

const DAY = 86_400_000; // milliseconds
const bank = { pay: (item: string, key: string): string => `${item} is paid by ${key}` };
const fails = { times: 0 };

const stock = object('Stock', {
  take: async (ctx: ObjectContext, count: number): Promise<number> => {
    const left = ((await ctx.get<number>('left')) ?? 100) - count;
    ctx.set('left', left);
    return left;
  },
  look: shared(async (ctx: SharedObjectContext, _: null): Promise<number | null> => ctx.get<number>('left')),
  slow: async (ctx: ObjectContext, _: null): Promise<string[]> => {
    await ctx.sleep(DAY);
    return ctx.keys();
  },
});

const shop = service('Shop', {
  order: async (ctx: ServiceContext, item: string): Promise<string> => {
    const left = await ctx.call(stock.take, 1, { key: item });
    const paid = await ctx.run('pay', (run) => bank.pay(item, run.key));
    await ctx.sleep(30 * DAY);
    await ctx.send(stock.take, 2, { key: item, delay: DAY });
    return `${paid}, ${left} are left`;
  },
  waits: async (ctx: ServiceContext, _: null): Promise<unknown> => {
    const { id, promise } = ctx.awakeable<number>();
    await ctx.run('tell', () => id);
    return promise;
  },
  fails: handler(async (ctx: ServiceContext, _: null): Promise<string> => {
    await ctx.sleep(1000);
    fails.times -= 1;
    if (fails.times >= 0) throw new Error('not yet');
    throw new TerminalError('never', 418);
  }, { retry: { initial: 1, attempts: 3 } }),
  undoes: async (ctx: ServiceContext, _: null): Promise<string> => {
    try {
      await ctx.sleep(DAY);
      return 'slept';
    } catch (error) {
      if (!(error instanceof Cancelled)) throw error;
      return ctx.run('undo', () => 'undone');
    }
  },
  forgets: async (ctx: ServiceContext, _: null): Promise<string> => {
    const by = Math.random(); // a handler that breaks the rules: each attempt has another number
    await ctx.run('first', () => 1);
    return ctx.run('second', () => bank.pay(`${by}`, ''));
  },
});

const counts = object('Counts', {
  /** It goes on as a new invocation, until it has counted to an end. */
  to: async (ctx: ObjectContext, [at, end]: [number, number]): Promise<unknown> => {
    ctx.setAttribute('stage', at);
    if (at === 0) ctx.setAttribute('customer', 'ann');
    ctx.set('seen', [...((await ctx.get<number[]>('seen')) ?? []), at]);
    await ctx.sleep(DAY);
    if (at < end) ctx.continueAsNew([at + 1, end]);
    ctx.setAttribute('stage', null);
    return [at, await ctx.signal<string>('last')];
  },
  one: async (ctx: ObjectContext, more: boolean | null): Promise<boolean> => {
    ctx.setAttribute('customer', 'ann');
    ctx.setAttribute('stage', more ?? true);
    await ctx.sleep(DAY);
    if (more === null) ctx.continueAsNew(false);
    return more;
  },
  catches: async (ctx: ObjectContext, _: null): Promise<string> => {
    try {
      return ctx.continueAsNew(1);
    } catch {
      return 'caught';
    }
  },
});

const gate = workflow('Gate', {
  main: main(async (ctx: WorkflowContext, _: null): Promise<string> => ctx.promise<string>('opened').value()),
  open: async (ctx: SharedWorkflowContext, word: string): Promise<null> => ctx.promise('opened').resolve(word),
});

const silent = { write: (): void => undefined };

test('a month takes no time', { timeout: LONG }, async () => {
  const pay = fake('receipt');
  await Testing.run([shop, stock], async (it) => {
    const began = it.now;
    const sent = await it.send(shop.order, 'pen');
    await it.skip(29 * DAY);
    assert.deepEqual([await it.state('Stock', 'pen'), pay.calls.length], [{ left: 99 }, 1]);
    await it.skip(DAY);
    assert.equal(await sent.result(), 'receipt, 99 are left');
    assert.deepEqual(await it.state('Stock', 'pen'), { left: 99 });
    await it.skip(DAY);
    assert.deepEqual(await it.state('Stock', 'pen'), { left: 97 });
    assert(it.now - began >= 31 * DAY && it.now - began < 32 * DAY);
  }, { runs: { pay } });
});

test('the clock moves on by itself for a result, if the test likes', { timeout: LONG }, async () => {
  await Testing.run([shop, stock], async (it) => assert.match(await it.call(shop.order, 'pen'), /^pen is paid by inv_\w+-2, 99 are left$/));
  await Testing.run([shop, stock], async (it) => {
    const sent = await it.send(shop.order, 'pen');
    await assert.rejects(sent.result(), { message: `${sent.id} waits for what doesn't come by itself: suspended` });
    assert.equal(await it.skipToNext(), true);
    assert.match(await sent.result(), /99 are left$/);
    assert.equal(await it.skipToNext(), true); // the call that was sent for later
    assert.equal(await it.skipToNext(), false);
  }, { skips: false });
});

test('one handler by itself, and its state', { timeout: LONG }, async () => {
  const asked = fake((count: unknown) => 98 + (count as number));
  await Testing.run([shop, stock], async (it) => {
    assert.match(await it.call(shop.order, 'pen'), /, 99 are left$/);
    assert.deepEqual(asked.calls[0], { key: undefined, given: [1] });
  }, { answers: { 'Stock/take': asked } });
  await Testing.run([shop, stock], async (it) => {
    await assert.rejects(it.call(shop.order, 'pen'), { name: 'TerminalError', code: 410, message: 'sold out' });
  }, { answers: { 'Stock/take': new TerminalError('sold out', 410) } });
  await Testing.run([stock], async (it) => {
    await it.setState('Stock', 'ink', { left: 5, note: { of: ['a', null] } });
    assert.equal(await it.call(stock.take, 2, { key: 'ink' }), 3);
    assert.equal(await it.call(stock.look, null, { key: 'ink' }), 3);
    assert.deepEqual(await it.state('Stock', 'ink'), { left: 3, note: { of: ['a', null] } });
  });
  await assert.rejects(Testing.begin([stock], { answers: { 'Stock/none': 1 } }), { message: /there is no handler Stock\/none/ });
});

test('one that has its key to itself lets others wait while time is skipped', { timeout: LONG }, async () => {
  await Testing.run([stock], async (it) => {
    const first = await it.send(stock.slow, null, { key: 'ink' });
    const second = await it.send(stock.take, 1, { key: 'ink' });
    assert.equal(await second.result(), 99);
    assert.deepEqual(await first.result(), []);
  });
});

test('what others complete, and what fails', { timeout: LONG }, async () => {
  const tell = fake('told');
  const told = fake(() => undefined);
  await Testing.run([shop, gate], async (it) => {
    const sent = await it.send(shop.waits, null);
    await assert.rejects(sent.result(), /waits for what doesn't come by itself: suspended/);
    assert.equal(tell.calls.length, 1);
    const opened = await it.send(gate.main, null, { key: 'a' });
    await it.call(gate.open, 'sesame', { key: 'a' });
    assert.equal(await opened.result(), 'sesame');
    const cancelled = await it.send(shop.undoes, null);
    await it.skip(1000);
    await cancelled.cancel();
    assert.equal(await cancelled.result(), 'undone');
    fails.times = 2;
    await assert.rejects(it.call(shop.fails, null), { code: 418, message: 'never' });
    await assert.rejects(it.call('Shop/none'), { code: 404 });
  }, { runs: { tell, told }, log: silent });
});

test('one that goes on as a new invocation has an empty journal, and who waits gets the last result', { timeout: LONG }, async () => {
  await Testing.run([counts], async (it) => {
    const sent = await it.send(counts.to, [0, 3], { key: 'a' });
    const other = await it.send(counts.to, [7, 7], { key: 'a' }); // the key stays held
    await sent.signal('last', 'word');
    assert.deepEqual(await sent.result(), [3, 'word']);
    await other.signal('last', 'other');
    assert.deepEqual(await other.result(), [7, 'other']);
    assert.deepEqual(await it.state('Counts', 'a'), { seen: [0, 1, 2, 3, 7] });
    await assert.rejects(it.call(counts.catches, null, { key: 'b' }), /paused, 500 Error: the handler caught what ctx.continueAsNew throws: it has to be thrown again/);
  }, { log: silent });
});

test('what a handler has made and never awaited is said, and it was not executed', { timeout: LONG }, async () => {
  const [said, paid]: [string[], string[]] = [[], []];
  const hasty = service('Hasty', {
    run: async (ctx: ServiceContext, _: null): Promise<void> => void ctx.run('pay', () => paid.push('pay')),
    sleep: async (ctx: ServiceContext, _: null): Promise<void> => void ctx.sleep(DAY),
    many: async (ctx: ServiceContext, _: null): Promise<void> => { for (let at = 0; at < 9; at++) ctx.run(`pay ${at}`, () => paid.push('pay')); },
    nothing: async (ctx: ServiceContext, _: null): Promise<string> => {
      const run = ctx.run('pay', () => 'paid');
      await select([run, ctx.sleep(DAY)]);
      await Promise.all([ctx.run('one', () => 1), ctx.timeout(ctx.run('two', () => 2), 1000)]);
      return run;
    },
    fails: async (ctx: ServiceContext, _: null): Promise<void> => {
      ctx.run('pay', () => paid.push('pay'));
      throw new TerminalError('it is refused', 402);
    },
    names: async (ctx: ServiceContext, callee: string): Promise<unknown> => ctx.call(callee),
    swaps: handler(async (ctx: ServiceContext, _: null): Promise<unknown> => ctx.run((() => 1) as never, 'pay' as never), { retry: { attempts: 1 } }),
  });
  await Testing.run([hasty], async (it) => {
    for (const callee of [hasty.run, hasty.sleep, hasty.many]) await it.call(callee, null);
    const why = "without an await a run isn't executed, and a sleep doesn't wait";
    const many = Array.from({ length: 5 }, (_, at) => `the run "pay ${at}"`).join(', ');
    const names = ['the run "pay"', 'a sleep', `${many} and 4 more`];
    const lines = said.map((line) => line.replace(/^.*WARNING palqytun /, '').replace(/inv_\w+/, 'ID'));
    assert.deepEqual(lines, ['run', 'sleep', 'many'].map((name, at) => `Hasty/${name} ID has ended, and hasn't awaited ${names[at] as string}: ${why}`));
    assert.equal(await it.call(hasty.nothing, null), 'paid');
    await assert.rejects(it.call(hasty.fails, null), { code: 402 });
    assert.deepEqual([said.length, paid], [3, []]);
    for (const callee of ['Stock', 'Stock/', '/b']) {
      const message = `${JSON.stringify(callee)} is no handler: it is one of a service, as shop.order, or a text as 'Service/handler'`;
      await assert.rejects(it.call(hasty.names, callee), { code: 400, message });
      await assert.rejects(it.call(callee), { code: 400, message });
    }
    await assert.rejects(it.call(hasty.swaps, null), { message: "TypeError: ctx.run takes a name and then a function, as ctx.run('pay', () => pay(order))" });
  }, { log: { level: 'warning', write: (line) => said.push(line) } });
});

test('a fake gives its results one after the other, and knows the key of its run', () => {
  const pay = fake<[string], string>(new Error('no bank'), 'receipt', (name) => `for ${name}`);
  assert.throws(() => pay('ann'), { message: 'no bank' });
  assert.deepEqual([pay('ann'), pay('bob'), pay('eve')], ['receipt', 'for bob', 'for eve']);
  assert.deepEqual(pay.calls.map((it) => it.given), [['ann'], ['ann'], ['bob'], ['eve']]);
  assert.deepEqual(pay.byKey().get(undefined), { key: undefined, given: ['eve'] });
});

test('a worker dies at each commit, and what is left is the same', { timeout: 2 * LONG }, async () => {
  const pay = fake<[string, string], string>('receipt');
  const before = bank.pay;
  bank.pay = pay;
  try {
    const deaths = await crashEverywhere([shop, stock], shop.order, 'pen', { fakes: [pay], settles: LONG });
    assert(deaths >= 10, `${deaths} deaths`);
    assert.deepEqual([...pay.byKey()], [['inv_test-2', { key: 'inv_test-2', given: ['pen', 'inv_test-2'] }]]);
    await assert.rejects(crashEverywhere([shop], shop.forgets, null, { fakes: [pay], settles: LONG }), /^Error: with a death (at|after) commit \d+ the effects differ:/);
  } finally {
    bank.pay = before;
  }
});

test('a worker dies at commits of objects, and of one that goes on as a new invocation', { timeout: 2 * LONG }, async () => {
  assert(await crashEverywhere([stock], stock.take, 3, { key: 'ink', settles: LONG }) > 2);
  assert(await crashEverywhere([counts], counts.one, null, { key: 'a', settles: LONG }) > 10);
  assert.equal(await crashEverywhere([shop, stock], shop.order, 'pen', { runs: { pay: fake('paid') }, settles: LONG, most: 2 }), 4);
});
