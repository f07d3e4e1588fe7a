// Values and errors that are encrypted: nothing of them is in the database and the log in clear, Python reads them, and keys are rotated while invocations are open.

import assert from 'node:assert/strict';
import { test } from 'node:test';
import { Client, Sealed, TerminalError, Unreadable, handler, object, service } from '@palqytun/sdk';
import type { ObjectContext, ServiceContext } from '@palqytun/sdk';
import { crashEverywhere } from '@palqytun/sdk/testing';
import { Siv } from '../siv';
import { beside } from './beside';
import { LONG, URL, asked, stage, until } from './cluster';

const bytes = (count: number): Uint8Array => Uint8Array.from({ length: count }, (_, at) => at);
const FIRST = { a: bytes(32) };
const BOTH = { a: bytes(32), b: bytes(64) }; // those of beside.py
const SECRET = 'card-4242';

const safe = service('Safe', {
  order: handler(async (ctx: ServiceContext, card: string): Promise<unknown> => {
    const paid = await ctx.run('pay', ({ heartbeat }) => {
      heartbeat({ card });
      return `paid by ${card}`;
    });
    const kept = await ctx.call('SafeBox/keeps', card, { key: 'k' });
    const refused = await ctx.call('Safe/refuses', card).catch((error: unknown) => (error instanceof TerminalError ? error.message : ''));
    return [paid, kept, refused, await ctx.signal<string>('go')];
  }),
  refuses: async (_: ServiceContext, card: string): Promise<null> => {
    throw new TerminalError(`${card} is refused`, 402);
  },
  breaks: handler(async (_: ServiceContext, card: string): Promise<null> => {
    throw new Error(`${card} is broken`);
  }, { retry: { attempts: 1, pause: true } }),
  echo: async (_: ServiceContext, it: unknown): Promise<unknown> => it,
  asks: async (ctx: ServiceContext, [path, it]: [string, unknown]): Promise<unknown> => ctx.call(path, it).catch((error: unknown) => (error instanceof TerminalError ? error.message : '')),
  fails: async (ctx: ServiceContext, card: string): Promise<null> => ctx.run('fails', () => {
    throw new TerminalError(`${card} in a run`, 402);
  }),
});
const box = object('SafeBox', {
  keeps: async (ctx: ObjectContext, card: string): Promise<unknown> => {
    ctx.set('cards', [...((await ctx.get<string[]>('cards')) ?? []), card]);
    return ctx.get('cards');
  },
});

/** How many rows hold the secret in clear: as text, or as bytes in hexadecimal. */
async function inClear(): Promise<number> {
  const tables = ['invocations', 'journal', 'inbox', 'state', 'promises', 'attempts', 'progress', 'attributes'];
  const counts = tables.map((it) => asked(`SELECT COUNT(*)::int FROM ${it} AS it WHERE it::text LIKE '%${SECRET}%' OR it::text LIKE '%${Buffer.from(SECRET).toString('hex')}%'`));
  return (await Promise.all(counts)).reduce((sum, rows) => sum + Number(rows[0]?.[0]), 0);
}

test('AES-SIV is that of RFC 5297', () => {
  const hex = (text: string): Buffer => Buffer.from(text.replace(/\s/g, ''), 'hex');
  const first = new Siv(hex('fffefdfcfbfaf9f8f7f6f5f4f3f2f1f0 f0f1f2f3f4f5f6f7f8f9fafbfcfdfeff'));
  const beside = hex('101112131415161718191a1b1c1d1e1f2021222324252627');
  const secret = hex('85632d07c6e8f37f950acd320a2ecc93 40c02b9690c4dc04daef7f6afe5c');
  assert.deepEqual(first.encrypt(hex('112233445566778899aabbccddee'), [beside]), secret);
  assert.deepEqual(first.decrypt(secret, [beside]), hex('112233445566778899aabbccddee'));
  for (let at = 0; at < secret.length; at++) {
    const changed = Buffer.from(secret.map((byte, place) => (place === at ? byte ^ 1 : byte)));
    assert.equal(first.decrypt(changed, [beside]), undefined);
  }
  const second = new Siv(hex('7f7e7d7c7b7a79787776757473727170404142434445464748494a4b4c4d4e4f'));
  const those = ['00112233445566778899aabbccddeeffdeaddadadeaddadaffeeddccbbaa99887766554433221100', '102030405060708090a0', '09f911029d74e35bd84156c5635688c0'].map(hex);
  const text = Buffer.from('this is some plaintext to encrypt using SIV-AES');
  const wanted = hex('7bdb6e3b432667eb06f4d14bff2fbd0f cb900f2fddbe404326601965c889bf17 dba77ceb094fa663b7a3f748ba8af829 ea64ad544a272e9c485b62a3fd5c0d');
  assert.deepEqual(second.encrypt(text, those), wanted);
});

test('nothing is in clear, Python reads it, and keys are rotated', { timeout: LONG }, async () => {
  const on = await stage([safe, box], { idle: 0, codec: new Sealed(FIRST, 'a') });
  let open = '';
  try {
    open = (await on.client.send(safe.order, SECRET)).id;
    const broken = await on.client.send(safe.breaks, SECRET);
    await until(() => on.lines.some((it) => it['event'] === 'paused' && it['invocation'] === broken.id));
    const line = on.lines.find((it) => it['event'] === 'paused');
    assert.match(String(line?.['error']), /^Error: sealed:a:\S+\nsealed:a:\S+$/);
    assert.match(String(line?.['where']), /^sealing\.test\.js:\d+$/);
    await assert.rejects(on.client.call(safe.fails, SECRET), { code: 402, message: `${SECRET} in a run` });
    await until(async () => (await asked("SELECT 1 FROM invocations WHERE id=$1 AND status='suspended' AND entries>8", open)).length === 1);
    await beside('PySealed', async () => {
      await until(() => on.client.send('PySealed/echo', 1).then(() => true, () => false));
      assert.equal(await on.client.call(safe.asks, ['PySealed/echo', SECRET]), SECRET);
      assert.equal(await on.client.call(safe.asks, ['PySealed/refuses', SECRET]), `${SECRET} is refused`);
      assert.equal(await on.client.call('PySealed/calls', ['Safe/echo', SECRET, {}]), SECRET);
    }, { BESIDE_SEALED: 'a' });
    assert.equal(await inClear(), 0);
    assert(!JSON.stringify(on.lines).includes(SECRET), JSON.stringify(on.lines));
  } finally {
    await on.end();
  }
  await rotated(open);
});

/** It goes on by its key, and what begins anew has the newest one. */
async function rotated(id: string): Promise<void> {
  const on = await stage([safe, box], { idle: 0, codec: new Sealed(BOTH, 'b') });
  try {
    await on.client.sent(id).signal('go', `go ${SECRET}`);
    assert.deepEqual(await on.client.sent(id).result(LONG), [`paid by ${SECRET}`, [SECRET], `${SECRET} is refused`, `go ${SECRET}`]);
    assert.deepEqual(await on.client.call('SafeBox/keeps', 'x', { key: 'k' }), [SECRET, 'x']);
    const made = await on.client.send(safe.asks, ['Safe/echo', SECRET]);
    assert.equal(await made.result(LONG), SECRET);
    const by = async (key: string, parent: string): Promise<unknown> => {
      const named = Buffer.from(`sealed:${key}:`).toString('hex');
      return (await asked(`SELECT COUNT(*)::int FROM journal JOIN invocations ON id=invocation WHERE at=0 AND (id=$1 OR parent=$1) AND encode(frame, 'hex') LIKE '%${named}%'`, parent))[0]?.[0];
    };
    assert.deepEqual([await by('a', id), await by('b', id), await by('a', made.id), await by('b', made.id)], [3, 0, 0, 2]);
    assert.equal(await inClear(), 0);
  } finally {
    await on.end();
  }
  const without = await Client.connect({ url: URL, codec: new Sealed({ b: BOTH.b }, 'b') });
  await assert.rejects(async () => without.sent(id).result(LONG), (error: unknown) => error instanceof Unreadable && error.message === 'it is encrypted by the key a, and there are b');
  await without.close();
}

test('deaths change nothing, and keys that are none are refused', { timeout: LONG }, async () => {
  const codec = new Sealed(BOTH, 'b');
  assert(await crashEverywhere([safe, box], box.keeps, SECRET, { codec, key: 'k' }) > 2);
  const clear = codec.clear(`x ${codec.text('one')} ${codec.text('two')} sealed:c:abcd`);
  assert.equal(clear, 'x one two sealed:c:abcd');
  assert.deepEqual([codec.decode(codec.encode([1, 'é'])), codec.decode(Buffer.from('[2]')), codec.encode(null).length], [[1, 'é'], [2], 0]);
  const secret = Buffer.from(codec.encode('text')).toString();
  assert.throws(() => codec.decode(Buffer.from(`${secret.slice(0, -2)}AA`)), /it isn't what the key b has written/);
  assert.throws(() => new Sealed({ a: bytes(31) }, 'a'), /^RangeError: the key 'a' has 31 bytes: a key has 32, 48 or 64/);
  assert.throws(() => new Sealed(FIRST, 'b'), /^RangeError: the newest key is 'b', and there are a$/);
});
