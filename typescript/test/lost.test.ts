// Lost databases: connections that end under a worker or a client or get no reply, and an invocation whose worker is lost at each attempt.

import assert from 'node:assert/strict';
import { readFileSync } from 'node:fs';
import { test } from 'node:test';
import { Client, Log, Unavailable, Worker, service } from '@palqytun/sdk';
import type { ServiceContext } from '@palqytun/sdk';
import { Client as Connection } from 'pg';
import { LONG, URL, asked, stage, until } from './cluster';
import type { Stage } from './cluster';
import { Database, configOf } from '../database';
import { Hearing } from '../hearing';
import { Beats, Postgres } from '../postgres';
import { Proxy } from './proxy';
import { STATEMENTS } from '../statements';
import { Lost } from '../tables';

const SILENT = new Log({ write: () => undefined });
const MOST_LOST = 5; // attempts of an invocation in a row

/** The URL for connections that the server knows by this name. */
function named(name: string): string {
  return `${URL}${URL.includes('?') ? '&' : '?'}application_name=${name}`;
}

/** Ends all connections of this name. */
async function cut(name: string): Promise<void> {
  await asked('SELECT pg_terminate_backend(pid) FROM pg_stat_activity WHERE application_name=$1', name);
}

const executed: string[] = [];
let goesOn: () => void = () => undefined;
const gates = new Map<string, () => void>();

const work = service('Lost', {
  steps: async (ctx: ServiceContext, name: string): Promise<string> => {
    await ctx.run('first', () => executed.push('first'));
    await ctx.run('waits', () => new Promise<void>((done) => {
      executed.push('waits');
      goesOn = done;
    }));
    await ctx.run('last', () => executed.push('last'));
    return name;
  },
  deadly: async (ctx: ServiceContext, name: string): Promise<null> => {
    await ctx.run('cuts', async ({ signal }) => { // its worker is lost before it has a result
      while (!signal.aborted) {
        await cut(name); // once more, if the session goes on: one whose connection ends between two transactions makes another
        await new Promise<void>((done) => setTimeout(done, 100));
      }
    });
    return null;
  },
  healthy: async (ctx: ServiceContext, n: number): Promise<number> => ctx.run('n', () => n),
  gated: async (ctx: ServiceContext, name: string): Promise<string> => ctx.run('gated', () => new Promise<string>((done) => {
    executed.push(name);
    gates.set(name, () => done(name));
  })),
});

test('a worker whose connections end goes on by new ones, and what was stored isn\'t executed again', { timeout: LONG }, async () => {
  const on = await stage([work], { url: named('lost_steps') });
  try {
    const sent = await on.client.send(work.steps, 'done');
    await until(() => executed.includes('waits'));
    await until(async () => {
      await cut('lost_steps');
      return on.lines.some((it) => String(it['message']).startsWith('the database is lost: '));
    });
    await until(() => executed.filter((it) => it === 'waits').length === 2); // it had no result, so it is executed again
    goesOn();
    assert.equal(await sent.result(LONG), 'done');
    assert.deepEqual(executed, ['first', 'waits', 'waits', 'last']);
    assert.equal(await on.client.call(work.healthy, 3), 3);
    assert.match(on.worker.metrics(), /^palqytun_sessions_total [2-9]$/m);
  } finally {
    await on.end();
  }
});

test('an invocation whose workers are lost is paused after some attempts, and others go on', { timeout: LONG }, async () => {
  const on = await stage([work], { url: named('lost_deadly') });
  try {
    const deadly = await on.client.send(work.deadly, 'lost_deadly');
    await until(() => on.lines.some((it) => it['event'] === 'paused' && it['invocation'] === deadly.id));
    const wanted = `${MOST_LOST} attempts in a row were lost with their workers before they stored anything: see how these ended, and then resume it`;
    assert.deepEqual(await asked('SELECT status, how, deaths, error FROM invocations WHERE id=$1', deadly.id), [['paused', 'lost', MOST_LOST, wanted]]);
    assert.deepEqual(await asked("SELECT COUNT(*)::int FROM attempts WHERE invocation=$1 AND how='lost'", deadly.id), [[MOST_LOST - 1]]);
    assert.equal(await on.client.call(work.healthy, 4), 4);
    await deadly.cancel(); // it goes on for that, and is cancelled before its run is executed
    await assert.rejects(deadly.result(LONG), { code: 409 });
  } finally {
    await on.end();
  }
});

function after(milliseconds: number): Promise<void> {
  return new Promise((done) => setTimeout(done, milliseconds));
}

/** A test that has a proxy before the server. */
function byProxy(name: string, does: (proxy: Proxy) => Promise<void>): void {
  test(name, { timeout: LONG }, async () => {
    const proxy = await Proxy.begun();
    try {
      await does(proxy);
    } finally {
      proxy.end();
    }
  });
}

function hearing(proxy: Proxy, heard: (word: string) => void = () => undefined): Promise<Hearing> {
  return Hearing.begun(proxy.url, 'worker-0123456789ab', () => new Set(), heard, SILENT);
}

byProxy('who hears words and ends while a lost connection is made again leaves none', async (proxy) => {
  const hears = await hearing(proxy);
  proxy.hold();
  proxy.cut();
  await until(() => proxy.made === 2);
  await hears.end();
  proxy.goOn();
  await until(() => proxy.open === 0);
  assert.equal(proxy.made, 2);
});

byProxy('who can\'t begin to hear words doesn\'t go on, and leaves no connection', async (proxy) => {
  proxy.endsAt = 'LISTEN "palqytun_';
  await assert.rejects(hearing(proxy), Lost);
  proxy.endsAt = undefined;
  await after(1200);
  assert.deepEqual([proxy.made, proxy.open], [1, 0]);
});

byProxy('a connection on which words are heard is made again one at a time, while the server takes none', async (proxy) => {
  const words: string[] = [];
  const hears = await hearing(proxy, (word) => words.push(word));
  proxy.refuses = true;
  proxy.cut();
  const begun = performance.now();
  await after(3200);
  const most = 1 + (performance.now() - begun) / 500;
  assert(proxy.made > 3 && proxy.made <= 1 + most, `${proxy.made} connections`);
  proxy.refuses = false;
  const before = words.length;
  await until(() => words.slice(before).includes('ready')); // words of other tests are heard too
  await after(600);
  assert.equal(proxy.open, 1);
  await hears.end();
  await until(() => proxy.open === 0);
});

byProxy('a lease that ends while its connection is made leaves none', async (proxy) => {
  const place = new Postgres(proxy.url, SILENT, { lease: LONG, stuck: 0, pulse: new Int32Array(new SharedArrayBuffer(4)) });
  let kept = 0;
  proxy.hold();
  const beats = place.beats('nobody-0123456789ab', () => (kept += 1));
  await until(() => proxy.open === 1);
  await beats.end();
  await after(200);
  proxy.goOn();
  await until(() => proxy.open === 0);
  await after(600);
  assert.deepEqual([proxy.made, kept], [1, 0]);
});

test('a thread of beats that ends by itself is begun again', { timeout: LONG }, async () => {
  const lines: string[] = [];
  const log = new Log({ write: (line) => lines.push(line) });
  const pulses = [new Int32Array(0), new Int32Array(new SharedArrayBuffer(4))]; // a thread can't read the first
  let kept = 0;
  const beats = new Beats({
    url: URL,
    worker: 'nobody-0123456789ac',
    lease: LONG,
    stuck: 0,
    get pulse() {
      const next = pulses.shift();
      assert(next !== undefined, 'a third thread was begun');
      return next;
    },
  }, () => (kept += 1), log);
  await until(() => kept === 1);
  await beats.end();
  assert.match(lines[0] ?? '', /the thread of beats has ended, and another one begins: .*atomic access index/);
});

byProxy('a worker whose database doesn\'t reply ends after stop, and leaves no connection', async (proxy) => {
  const on = await stage([work], { url: proxy.url, grace: 100, poll: 50 });
  await on.client.close();
  proxy.hold();
  await after(300); // a look waits for its reply
  await on.end();
  proxy.goOn();
  await until(() => proxy.open === 0);
  assert(on.lines.some((it) => it['message'] === 'to leave failed: Error: it took longer than 5000 ms'));
});

test('a worker that comes to a standby tries again, and claims nothing', { timeout: LONG }, async () => {
  const lines: string[] = [];
  const url = `${URL}${URL.includes('?') ? '&' : '?'}options=-cdefault_transaction_read_only%3Don`;
  const worker = new Worker({ url, services: [work], log: { write: (line) => void lines.push(line) } });
  const running = worker.run();
  const wanted = 'the database is lost: a worker has to write, and this session may only read: the server is a standby, or default_transaction_read_only is on';
  await until(() => lines.filter((it) => it.includes(wanted)).length === 2);
  worker.stop();
  await running;
});

byProxy('a client whose connections end says so, and connects again', async (proxy) => {
  const on = await stage([work]);
  const client = await Client.connect({ url: proxy.url });
  try {
    assert.equal(await client.call('Lost/healthy', 1), 1);
    proxy.refuses = true;
    proxy.cut();
    await until(() => proxy.open === 0);
    const refused = (error: unknown): boolean => error instanceof Unavailable && error.code === 503 && /^the database can't be used now: /.test(error.message);
    await assert.rejects(client.call('Lost/healthy', 2), refused);
    await assert.rejects(client.call('Lost/healthy', 3), refused);
    proxy.refuses = false;
    assert.deepEqual(await Promise.all([4, 5, 6].map((it) => client.call('Lost/healthy', it))), [4, 5, 6]);
    assert(proxy.open <= 5, `${proxy.open} connections`);
    await client.close();
    await until(() => proxy.open === 0);
    await assert.rejects(client.call('Lost/healthy', 7), /^Unavailable: the database can't be used now: the client is closed$/);
  } finally {
    await client.close();
    await on.end();
  }
});

byProxy('a client that can\'t hear words, or that is closed while its database doesn\'t reply, leaves no connection', async (proxy) => {
  proxy.endsAt = 'LISTEN';
  await assert.rejects(Client.connect({ url: proxy.url }), Lost);
  await until(() => proxy.open === 0);
  proxy.endsAt = undefined;
  const client = await Client.connect({ url: proxy.url });
  proxy.hold();
  const call = assert.rejects(client.call('Lost/healthy', 1), Unavailable);
  await after(100);
  await client.close();
  await call;
  proxy.goOn();
  await until(() => proxy.open === 0);
});

byProxy('a silent connection is asked after five seconds whether its server is there', async (proxy) => {
  const hears = await hearing(proxy);
  const port = proxy.ports[0]?.toString(16).toUpperCase().padStart(4, '0');
  const [line = ''] = readFileSync('/proc/net/tcp', 'utf8').split('\n').filter((it) => it.trim().split(/\s+/)[1] === `0100007F:${port}`);
  const [timer = '', jiffies = ''] = (line.trim().split(/\s+/)[5] ?? '').split(':');
  await hears.end();
  assert.equal(timer, '02'); // that of a silent connection
  assert(parseInt(jiffies, 16) <= 500, `${parseInt(jiffies, 16)} hundredths of a second`);
});

test('a client that waits in vain for another\'s lock says so, and what it gave up isn\'t made later', { timeout: LONG }, async () => {
  const [on, client] = [await stage([work]), await Client.connect({ url: URL })];
  const blocker = new Connection(configOf(URL));
  try {
    await blocker.connect();
    for (const it of STATEMENTS.session) await blocker.query(it.text);
    await blocker.query('BEGIN');
    const row = "INSERT INTO invocations(id, service, handler, key, exclusive, version, idem, seed, status, due, entries, created) VALUES ('inv_held', 'Lost', 'healthy', '', 0, 7, 'once', 1, 'ready', 1e12, 1, 1)";
    await blocker.query(row); // who makes one with the same idempotency key waits for its end
    (client as unknown as { answered: number }).answered = 200;
    await assert.rejects(client.send('Lost/healthy', 1, { idempotencyKey: 'once' }), (error: unknown) => error instanceof Unavailable && error.message === 'something has been in the way in the database for 200 ms');
    await after(1500); // its lock is waited for a second
    await blocker.query('ROLLBACK');
    await after(1500);
    assert.deepEqual(await asked("SELECT id FROM invocations WHERE idem='once' AND service='Lost'"), []);
  } finally {
    await blocker.end();
    await client.close();
    await on.end();
  }
});

/** What a server sends that ends a connection as an administrator told it. */
function fatal(): Buffer {
  const fields = Buffer.from('SFATAL\0C57P01\0Mterminating connection due to administrator command\0\0', 'latin1');
  const head = Buffer.alloc(5);
  head.writeUInt32BE(fields.length + 4, 1);
  return Buffer.concat([Buffer.from('E', 'latin1'), head.subarray(1), fields]);
}

byProxy('who waits for a connection gets one, also if those of others end with their commits', async (proxy) => {
  const db = await Database.open(proxy.url, 1, SILENT);
  try {
    proxy.replies = (data) => (data.toString('latin1').includes('COMMIT') ? Buffer.concat([data, fatal()]) : data);
    const one = db.transact(async (to) => (await to.rows('now', {})).length);
    const other = db.transact(async (to) => (await to.rows('now', {})).length);
    assert.deepEqual([await one, await other], [1, 1]);
  } finally {
    await db.close();
  }
});

byProxy('connections that end while nobody uses them lose nothing', async (proxy) => {
  const db = await Database.open(proxy.url, 2, SILENT);
  const counts = async (): Promise<number> => db.transact(async (to) => (await to.rows('now', {})).length);
  const lost: Lost[] = [];
  db.onLost = (it) => lost.push(it);
  try {
    assert.deepEqual(await Promise.all([counts(), counts()]), [1, 1]);
    proxy.cut();
    await until(() => proxy.open === 0);
    await after(50); // until node-pg has heard of it
    assert.deepEqual(await Promise.all([counts(), counts()]), [1, 1]);
    assert.deepEqual([proxy.made, lost], [4, []]);
  } finally {
    await db.close();
  }
});

const CODES = [['53100', 'full'], ['58030', 'io'], ['57014', 'cancelled'], ['25006', 'standby'], ['53400', 'scarce']] as const;

/** Stores of an invocation fail by a code until something is so. */
async function refused(on: Stage, code: string, goesOn: () => Promise<void>): Promise<void> {
  const { id } = await on.client.send(work.gated, code);
  await until(() => gates.has(code));
  await asked('INSERT INTO refused_stores VALUES ($1, $2)', id, code);
  gates.get(code)?.();
  await goesOn();
  assert.deepEqual(await asked('SELECT status FROM invocations WHERE id=$1', id), [['running']]);
  await asked('DELETE FROM refused_stores WHERE invocation=$1', id);
  assert.equal(await on.client.sent(id).result(LONG), code);
}

test('what is in the way of a store, as a full disk, is waited for, and nothing is executed again', { timeout: LONG }, async () => {
  await asked('CREATE TABLE refused_stores(invocation text, code text)');
  const body = "BEGIN IF found IS NOT NULL THEN RAISE EXCEPTION 'no room' USING ERRCODE=found; END IF; RETURN NEW; END";
  const finds = 'DECLARE found text := (SELECT code FROM refused_stores WHERE invocation=NEW.invocation);';
  await asked(`CREATE FUNCTION refuses_stores() RETURNS trigger LANGUAGE plpgsql AS $$ ${finds} ${body} $$`);
  await asked('CREATE TRIGGER refuses_stores BEFORE INSERT ON journal FOR EACH ROW EXECUTE FUNCTION refuses_stores()');
  const on = await stage([work]);
  try {
    for (const [code, name] of CODES) {
      await refused(on, code, async () => {
        if (name === 'full') await until(() => on.lines.some((it) => String(it['message']).startsWith("the database's disk is full; what is to be stored waits until there is room: ")));
        else await after(300);
      });
      assert.equal(executed.filter((it) => it === code).length, 1);
    }
  } finally {
    await asked('DROP TRIGGER refuses_stores ON journal');
    await on.end();
  }
});
