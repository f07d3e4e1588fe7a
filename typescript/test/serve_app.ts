// A program that serves, for serve.test.ts: its handlers leave errors to nobody, and execute runs that take as long as they are told.

import { serve, service } from '@palqytun/sdk';
import type { ServiceContext } from '@palqytun/sdk';

const served = service('Served', {
  healthy: async (ctx: ServiceContext, n: number): Promise<number> => ctx.run('n', () => n),
  loose: async (ctx: ServiceContext, _: null): Promise<string> => {
    await ctx.run('loose', () => {
      void Promise.reject(new Error('nobody awaits it'));
      setTimeout(() => { throw new Error('nobody catches it'); }, 0);
    });
    return 'done';
  },
  hangs: async (ctx: ServiceContext, _: null): Promise<unknown> => {
    ctx.log.info('it hangs');
    return ctx.run('hangs', () => new Promise(() => undefined));
  },
  stays: async (ctx: ServiceContext, _: null): Promise<unknown> => {
    ctx.log.info('it stays');
    return ctx.run('stays', () => new Promise(() => setInterval(() => undefined, 1000)));
  },
});

void serve({ url: process.env['SERVE_URL'] ?? '', services: [served], idle: 0, lease: 300_000, grace: Number(process.env['SERVE_GRACE'] ?? 3_600_000), metricsPort: 0, log: { format: 'json' } });
