// What is sent to an invocation while it goes on as a new one, by transactions that are committed in each order. Commits of one process are held here, so
// that the orders are sure. And what is for one invocation alone, or came while its attempt stopped.

import assert from 'node:assert/strict';
import { test } from 'node:test';
import { Cancelled, service } from '@palqytun/sdk';
import type { ServiceContext } from '@palqytun/sdk';
import { frames } from 'palqytun';
import { Transaction } from '../database';
import { CANCEL, VOID } from '../frames';
import { LONG, asked, stage, until } from './cluster';
import type { Stage } from './cluster';

/** Something that happens once. */
class Gate {
  isOpen = false;
  readonly #opened: Promise<void>;
  open: () => void = () => undefined;

  constructor() {
    this.#opened = new Promise((done) => {
      this.open = () => {
        this.isOpen = true;
        done();
      };
    });
  }

  passed(): Promise<void> {
    return this.#opened;
  }
}

/** How an invocation goes on and who sends to it wait for each other. */
class Order {
  readonly runs = new Gate(); // its run has begun
  readonly ends = new Gate(); // its run ends
  readonly hasRead = new Gate(); // it has read its inbox
  readonly goesOn = new Gate(); // it does the rest
  readonly hasSent = new Gate(); // the sender has sent
  readonly commits = new Gate(); // the sender commits
  first = '';
  holdsTheSender = false;
}

let order = new Order();

const { change, tell } = Transaction.prototype;
Transaction.prototype.change = async function (this: Transaction, name, values) {
  if (name === 'continue' && values['id'] === order.first) {
    order.hasRead.open();
    await order.goesOn.passed();
  }
  return change.call(this, name, values);
};
Transaction.prototype.tell = async function (this: Transaction) {
  if (order.holdsTheSender && this.touched.has(order.first)) {
    order.hasSent.open();
    await order.commits.passed();
  }
  return tell.call(this);
};

const loops = service('Chains', {
  waits: async (ctx: ServiceContext, it: string): Promise<string> => {
    if (it === 'first') {
      await ctx.shield(() => ctx.run('gate', async () => {
        order.runs.open();
        await order.ends.passed();
      })); // prettier-ignore
      ctx.continueAsNew('second');
    }
    try {
      await ctx.signal('go');
      return 'went';
    } catch (error) {
      if (error instanceof Cancelled) return 'cancelled';
      throw error;
    }
  },
  many: async (ctx: ServiceContext, n: number): Promise<number> => {
    if (n < 0) {
      await ctx.run('gate', async () => {
        order.runs.open();
        await order.ends.passed();
      });
      ctx.continueAsNew(-n);
    }
    for (let at = 0; at < n; at++) await ctx.signal('one');
    return n;
  },
  signs: async (ctx: ServiceContext, isLast: boolean | null): Promise<string> => {
    const { id, promise } = ctx.awakeable<string>();
    ctx.setAttribute('awakeable', id);
    if (isLast === null) ctx.continueAsNew(true);
    return promise;
  },
  signals: async (ctx: ServiceContext, id: string): Promise<void> => ctx.sendSignal(id, 'go'),
  cancels: async (ctx: ServiceContext, id: string): Promise<void> => ctx.cancel(id),
});

type Sends = (on: Stage, id: string) => Promise<unknown>;

const SENT: Readonly<Record<string, Sends>> = {
  'a signal of a client': (on, id) => on.client.sent(id).signal('go'),
  'a signal of a handler': (on, id) => on.client.call(loops.signals, id),
  'a cancellation by a client': (on, id) => on.client.sent(id).cancel(),
  'a cancellation by a handler': (on, id) => on.client.call(loops.cancels, id),
};

/** The next one has a notification, or has ended by it. */
const HAS_COME = `SELECT status='done' OR EXISTS (SELECT 1 FROM inbox WHERE invocation=id) OR EXISTS (SELECT 1 FROM journal WHERE invocation=id AND at>0)
  FROM invocations WHERE id=(SELECT continued FROM invocations WHERE id=$1)`;

async function hasGoneOn(id: string): Promise<boolean> {
  return (await asked('SELECT 1 FROM invocations WHERE id=$1 AND continued IS NOT NULL', id)).length > 0;
}

async function someWait(): Promise<boolean> {
  return (await asked('SELECT 1 FROM pg_locks WHERE NOT granted LIMIT 1')).length > 0;
}

/** Each way to send, in an order of commits. */
async function each(does: (on: Stage, sent: () => Promise<unknown>) => Promise<unknown>): Promise<void> {
  const on = await stage([loops]);
  try {
    for (const [name, sends] of Object.entries(SENT)) {
      order = new Order();
      const { id } = await on.client.send(loops.waits, 'first');
      order.first = id;
      await order.runs.passed();
      await does(on, () => sends(on, id));
      assert.deepEqual(await asked(HAS_COME, id), [[true]], name);
      const result = await on.client.sent(id).result(LONG).catch((error: Error) => error.message);
      assert.equal(result, name.includes('signal') ? 'went' : 'cancelled', name);
    }
  } finally {
    await on.end();
  }
}

test('what is sent before it goes on, or after it, comes to the next one', { timeout: LONG }, async () => {
  await each(async (_, sent) => {
    order.goesOn.open();
    await sent();
    order.ends.open();
    await until(() => hasGoneOn(order.first));
  });
  await each(async (_, sent) => {
    order.goesOn.open();
    order.ends.open();
    await until(() => hasGoneOn(order.first));
    await sent();
  });
});

test('who sends after it has read its inbox waits for its commit', { timeout: LONG }, async () => {
  await each(async (_, sent) => {
    order.ends.open();
    await order.hasRead.passed();
    let isSent = false;
    const sending = sent().then(() => (isSent = true));
    await until(async () => isSent || (await someWait()));
    order.goesOn.open();
    await sending;
    await until(() => hasGoneOn(order.first));
  });
});

test('it waits for the commit of who has sent before', { timeout: LONG }, async () => {
  await each(async (_, sent) => {
    order.goesOn.open();
    order.holdsTheSender = true;
    const sending = sent();
    await order.hasSent.passed();
    order.ends.open();
    await until(async () => (await hasGoneOn(order.first)) || (await someWait()));
    order.commits.open();
    await sending;
    await until(() => hasGoneOn(order.first));
  });
});

test('an awakeable of the one that went on completes none of the next one', { timeout: LONG }, async () => {
  const on = await stage([loops]);
  try {
    const { id } = await on.client.send(loops.signs, null);
    await until(async () => (await asked("SELECT 1 FROM invocations WHERE chain=$1 AND id<>$1 AND status='suspended'", id)).length > 0);
    const ids = 'SELECT id FROM invocations WHERE chain=$1';
    const [first, second] = (await asked(`SELECT value FROM attributes WHERE invocation IN (${ids}) ORDER BY invocation=$1 DESC`, id)).map(([it]) => String(it));
    await on.client.resolveAwakeable(first as string, 'first');
    assert.deepEqual(await asked(`SELECT 1 FROM inbox WHERE invocation IN (${ids})`, id), []);
    await on.client.resolveAwakeable(second as string, 'second');
    assert.equal(await on.client.sent(id).result(LONG), 'second');
  } finally {
    await on.end();
  }
});

test('a cancellation reaches what came to wait for no inbox while it was sent', { timeout: LONG }, async () => {
  const on = await stage([loops]);
  try {
    const [late, paused] = await Promise.all(['second', 'second'].map((it) => on.client.send(loops.waits, it, { delay: 3_600_000 })));
    await asked("UPDATE invocations SET status='paused' WHERE id=$1", paused?.id);
    for (const it of [late, paused]) {
      await asked('INSERT INTO inbox(invocation, frame) VALUES ($1, $2)', it?.id, CANCEL());
      await assert.rejects(on.client.sent(it?.id ?? '').result(LONG), { code: 409, message: 'cancelled' });
    }
  } finally {
    await on.end();
  }
});

test('more goes over than a claim takes at once', { timeout: LONG }, async () => {
  const on = await stage([loops]);
  try {
    order = new Order();
    const MANY = 1500;
    const { id } = await on.client.send(loops.many, -MANY);
    await order.runs.passed();
    const frame = frames.namedSignal('one', VOID());
    await asked('INSERT INTO inbox(invocation, frame) SELECT $1::text, $2::bytea FROM generate_series(1, $3::int)', id, frame, MANY);
    order.ends.open();
    assert.equal(await on.client.sent(id).result(LONG), MANY);
  } finally {
    await on.end();
  }
});
