// Handlers, effects and results that do what none should, each beside one that is healthy. Each ends in a retry, a pause or a result; the worker goes on,
// and at last it ends within its grace.

import assert from 'node:assert/strict';
import { test } from 'node:test';
import { Cancelled, Context, TerminalError, all, handler, service } from '@palqytun/sdk';
import type { Retry, ServiceContext } from '@palqytun/sdk';
import { LONG, stage, until } from './cluster';

const FEW: Retry = { initial: 1, attempts: 2 };
const silent = { toString: (): string => { throw new Error('no text'); } };
const trap = new Proxy({}, { getPrototypeOf: () => { throw new Error('trap'); }, get: () => { throw new Error('trap'); } });
const never = new Promise(() => undefined);
const cyclic: unknown[] = [];
cyclic.push(cyclic);

class Silent extends Error {
  override toString(): string {
    throw new Error('no text');
  }
  override get message(): string {
    throw new Error('no text');
  }
}

/** What a handler throws, and the failure by which it ends. */
const THROWN: Record<string, [unknown, RegExp]> = {
  'a number': [5, /^number 5$/],
  nothing: [undefined, /^undefined undefined$/],
  'an object without a text': [silent, /has no text/],
  'an error without a text': [new Silent(), /has no text/],
  'a proxy': [trap, /has no text/],
  'an error with NUL': [new Error('a\0b'), /^Error: a\\0b$/],
  'an error with half of a pair': [new Error('\ud800'), /^Error: \\ud800$/],
  'a long error': [new Error('x'.repeat(2_000_000)), /^Error: x+ \.\. x+$/],
};

type Does = (ctx: ServiceContext) => unknown;

/** What a handler does, and the failure by which it ends. */
const DOES: Record<string, [Does, RegExp]> = {
  'awaits a promise that never ends': [() => never, /^NotDurable: the handler awaits something that its context didn't give/],
  'awaits a timer': [() => new Promise<void>((done) => setTimeout(done, 5)), /^NotDurable/],
  'goes on by a timer': [(ctx) => Promise.race([ctx.sleep(3_600_000), new Promise<void>((done) => setTimeout(done, 5))]), /^NotDurable: the handler went on by/],
  'returns a BigInt': [() => 1n, /^BadValue: the value is the BigInt 1/],
  'returns a circle': [() => cyclic, /an object within itself/],
  'returns undefined within': [() => [undefined], /the value at \[0\] is undefined/],
  'returns a promise within': [() => ({ it: Promise.resolve(1) }), /the value at \.it is a promise/],
  'recurses': [() => { const deeper = (): number => deeper() + 1; return deeper(); }, /^RangeError/],
  'sleeps for ever': [(ctx) => ctx.sleep(Infinity), /takes a number of milliseconds below 10\^15, not Infinity/],
  'runs no function': [(ctx) => ctx.run('x', 5 as never), /takes a function, not number/],
  'a run that is ours': [(ctx) => ctx.run('palqytun.x', () => 1), /doesn't begin with palqytun\./],
  'combines what is not durable': [(ctx) => all([ctx.sleep(0), 5 as never]), /^TypeError: all takes what the context gives/],
  'calls without a name': [(ctx) => ctx.call('none', 1), /^"none" is no handler: it is one of a service/],
  'a key that is no text': [(ctx) => ctx.call('Poison/healthy', 1, { key: 5 as never }), /the key is a text, and not number/],
  'state in a service': [(ctx) => (ctx as unknown as { get(name: string): unknown }).get('x'), /Poison is a service, which has no key and so no state/],
  'a promise in a service': [(ctx) => (ctx as unknown as { promise(name: string): unknown }).promise('x'), /has no promises/],
};

/** What an effect does, and the failure of its run. */
const EFFECTS: Record<string, [Does, RegExp]> = {
  'a BigInt': [() => 1n, /the result of the run "effect" can't be stored: BadValue: the value is the BigInt 1/],
  'a circle': [() => cyclic, /can't be stored/],
  'an object without a text': [() => { throw silent; }, /has no text/],
  'a rejection': [() => Promise.reject(new Error('mine')), /^Error: mine$/],
  'a terminal error': [() => { throw new TerminalError('mine', 418); }, /^mine$/],
};

const kept: { context?: Context } = {};
let tries = 0;

const poison = service('Poison', {
  healthy: async (ctx: ServiceContext, n: number): Promise<number> => ctx.run('n', () => n),
  throws: handler(async (_: ServiceContext, name: string): Promise<null> => { throw (THROWN[name] as [unknown, RegExp])[0]; }, { retry: FEW }),
  does: handler(async (ctx: ServiceContext, name: string): Promise<unknown> => (DOES[name] as [Does, RegExp])[0](ctx), { retry: FEW }),
  runs: handler(async (ctx: ServiceContext, name: string): Promise<unknown> => ctx.run('effect', () => (EFFECTS[name] as [Does, RegExp])[0](ctx), { retry: FEW }), { retry: FEW }),
  uses: async (ctx: ServiceContext, _: null): Promise<unknown> => ctx.run('uses', () => ctx.uuid()),
  leaks: async (ctx: ServiceContext, _: null): Promise<null> => {
    setTimeout(() => {
      try {
        void ctx.run('later', () => 1);
      } catch {
        // the attempt knows it too
      }
    }, 30);
    return ctx.sleep(3_600_000);
  },
  blocks: async (ctx: ServiceContext, _: null): Promise<string> => {
    const until = performance.now() + 2500;
    while (performance.now() < until);
    return ctx.run('after', () => 'done');
  },
  hangs: async (ctx: ServiceContext, _: null): Promise<unknown> => ctx.run('hangs', () => never),
  catches: async (ctx: ServiceContext, _: null): Promise<string> => {
    for (;;) {
      try {
        await ctx.sleep(3_600_000);
      } catch (error) {
        if (error instanceof Cancelled) return 'cancelled';
      }
    }
  },
  mismatches: async (ctx: ServiceContext, _: null): Promise<null> => {
    tries += 1;
    try {
      await (tries === 1 ? ctx.run('first', () => 1) : ctx.sleep(1));
      await ctx.sleep(tries === 1 ? 3_600_000 : 1);
    } catch {
      return null;
    }
    return null;
  },
  keeps: async (ctx: ServiceContext, _: null): Promise<null> => {
    kept.context = ctx;
    return null;
  },
});

test('poisoned handlers and effects end, and the worker goes on', { timeout: LONG }, async () => {
  const on = await stage([poison], { idle: 60_000, grace: 3000 });
  const status = async (id: string): Promise<string> => String((on.lines.find((it) => it['invocation'] === id && it['event'] === 'paused') ?? {})['error'] ?? '');
  try {
    const each = async (name: 'throws' | 'does' | 'runs', cases: Record<string, [unknown, RegExp]>): Promise<void> => {
      const all = Object.entries(cases).map(async ([what, [, wanted]]) => {
        const failure = await on.client.call(poison[name], what).then(() => 'no failure', (error: unknown) => (error instanceof TerminalError ? error.message : `no failure: ${String(error)}`));
        assert.match(failure, wanted, `${what}: ${failure}`);
      });
      const healthy = on.client.call(poison.healthy, 1);
      await Promise.all(all);
      assert.equal(await healthy, 1);
    };
    await each('throws', THROWN);
    await each('does', DOES);
    await each('runs', EFFECTS);

    const uses = await on.client.send(poison.uses, null);
    await until(async () => (await status(uses.id)).includes('is used within the run "uses"'));
    const leaks = await on.client.send(poison.leaks, null);
    await until(() => on.lines.some((it) => String(it['error']).includes("is used outside the handler's own code")));
    assert.equal(await on.client.call(poison.blocks, null), 'done');
    const catches = await on.client.send(poison.catches, null);
    await new Promise<void>((done) => setTimeout(done, 50));
    await catches.cancel();
    assert.match(String(await catches.result(LONG).catch((error: unknown) => (error as Error).message)), /^cancelled$/); // it may not have begun
    await on.client.call(poison.keeps, null);
    assert.equal(await on.client.call(poison.healthy, 2), 2);
    await leaks.cancel();
    await on.client.send(poison.hangs, null);
    await until(() => on.worker.metrics().includes('palqytun_live_attempts 1\n'));
  } finally {
    const begun = performance.now();
    await on.end();
    assert(performance.now() - begun < 60_000);
  }
});
