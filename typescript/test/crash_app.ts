// The handlers of python/tests/crash/crash_app.py that TypeScript serves beside Python's. They do the same as those, so what they leave is checked by the
// same rules. Python calls them, and they call Python's.

import { appendFileSync } from 'node:fs';
import { Cancelled, TerminalError, all, any, main, object, select, serve, service, workflow } from '@palqytun/sdk';
import type { ObjectContext, ServiceContext, SharedWorkflowContext, WorkflowContext } from '@palqytun/sdk';

const EFFECTS = process.env['CRASH_EFFECTS'] ?? '/dev/null';
const WIDE = 40;
const PUSHED = 5;

/** What effects reach: a file, to which each execution adds a line with its idempotency key. */
async function effect(key: string): Promise<string> {
  await new Promise<void>((done) => setTimeout(done, Math.random() * 100));
  appendFileSync(EFFECTS, `${key}\n`);
  return key;
}

const load = service('Load', {
  /** Async functions side by side, each of some steps. */
  tasks: async (ctx: ServiceContext, _: number): Promise<number> => {
    const one = async (i: number): Promise<number> => {
      const key = ctx.uuid();
      const first = await ctx.call<number>('Load/leaf', i);
      await ctx.run(`task ${i}`, () => effect(key));
      return first;
    };
    return (await Promise.all([0, 1, 2, 3].map(one))).reduce((sum, it) => sum + it, 0);
  },

  fails: async (_: ServiceContext, n: number): Promise<null> => {
    throw new TerminalError(`${n} fails`, 418);
  },

  /** An awakeable and a signal, which an invocation of Python's completes. */
  awaits: async (ctx: ServiceContext, _: number): Promise<unknown[]> => {
    const { id, promise } = ctx.awakeable<string>();
    const signal = ctx.signal<string>('go');
    ctx.send('Load/completes', [id, ctx.invocationId]);
    const first = await promise;
    const [which, value] = await select([signal, ctx.sleep(36_000_000)]);
    return [(await ctx.run('big', () => first)).length, which, value];
  },

  /** It is cancelled by Python's, while it waits for calls of Python's. */
  patient: async (ctx: ServiceContext, caller: string): Promise<null> => {
    ctx.sendSignal(caller, 'begun');
    try {
      await any([ctx.call('Load/sleeps', 1), ctx.call('Load/sleeps', 2)]);
    } catch (error) {
      const key = ctx.uuid();
      if (error instanceof Cancelled) await ctx.run('undo', () => effect(key));
      throw error;
    }
    return null;
  },

  /** Many runs at once; calls of a handler with a limit; and a row of sends to one key. */
  fans: async (ctx: ServiceContext, n: number): Promise<unknown[]> => {
    const keys = Array.from({ length: WIDE }, () => ctx.uuid());
    const done = await all(keys.map((key) => ctx.run('one', () => effect(key))));
    const few = await all([0, 1, 2].map((i) => ctx.call('Load/limited', i)));
    for (let i = 0; i < PUSHED; i++) await ctx.send('Line/push', [n, i], { key: `${n % 2}` });
    return [done.every((it, at) => it === keys[at]), few];
  },
});

const counter = object('Counter', {
  add: async (ctx: ObjectContext, n: number): Promise<null> => {
    ctx.set('count', ((await ctx.get<number>('count')) ?? 0) + n);
    return null;
  },
});

const line = object('Line', {
  push: async (ctx: ObjectContext, it: unknown): Promise<null> => {
    ctx.set('line', [...((await ctx.get<unknown[]>('line')) ?? []), it]);
    return null;
  },
});

/** A workflow that waits for a promise. */
const gate = workflow('Gate', {
  main: main(async (ctx: WorkflowContext, _: number): Promise<string> => {
    ctx.set('step', 'waits');
    const word = await ctx.promise<string>('opened').value();
    ctx.set('step', 'opened');
    return word;
  }),
  open: async (ctx: SharedWorkflowContext, word: string): Promise<null> => ctx.promise('opened').resolve(word),
  look: async (ctx: SharedWorkflowContext, _: null): Promise<string | null> => ctx.get<string>('step'),
});

void serve({
  url: process.env['CRASH_URL'] ?? '',
  services: [load, counter, line, gate],
  idle: Number(process.env['CRASH_IDLE'] ?? 0),
  lease: Number(process.env['CRASH_LEASE'] ?? 3000),
  name: 'typescript',
});
