// Values, hashes and random numbers: what is compared comes from outside, as from Python's hashlib and json.

import assert from 'node:assert/strict';
import { test } from 'node:test';
import { blake2b, idOfCall, seedOf, traceOf } from '../hash';
import { Random } from '../random';
import { Client } from '../client';
import { BadValue, TerminalError, said } from '../errors';
import { awakeableOf } from '../frames';
import { Queue } from '../queues';
import { handler, main, object, service, shared, workflow } from '../services';
import { checkName, checkPayload, decoded, encoded } from '../values';
import { Worker } from '../worker';

const text = (data: Uint8Array): string => Buffer.concat([data]).toString();
const bytes = (json: string): Uint8Array => Buffer.from(json, 'utf8');

test('BLAKE2b is that of hashlib', () => {
  assert.equal(blake2b('abc', 12).toString('hex'), '48b4f1f9042a2d5033b382b5');
  assert.equal(blake2b('abc', 8, 'trace').toString('hex'), 'ad4322dde4ae9a6a');
  assert.equal(blake2b('x'.repeat(300), 16).toString('hex'), 'c2f093e41879e412280bfcc0ed6533e4');
  assert.equal(blake2b('x'.repeat(128), 7).toString('hex'), '8d89dcc02e678d');
});

test('ids, seeds and traces are those of Python', () => {
  assert.equal(idOfCall('inv_1', 2), ID_OF_CALL);
  assert.equal(seedOf('inv_1'), SEED_OF);
  assert.equal(traceOf('inv_1', '00-0af7651916cd43dd8448eb211c80319c-b7ad6b7169203331-00').header, '00-0af7651916cd43dd8448eb211c80319c-82c0842922d6ea50-00');
});

// Of palqytun.runtime: `effects.child_of("inv_1", 2)`, `invocations.seed_of("inv_1")`; the trace is that of its docstring.
const ID_OF_CALL = 'inv_64b2e30b1cac51a8eba340ff';
const SEED_OF = 55151051881685878n;

test('an awakeable has one id', () => {
  const named = Buffer.concat([Buffer.from('inv_1x'), Buffer.from([0, 0, 0, 17])]).toString('base64url');
  assert.deepEqual(awakeableOf(`sign_1${named}`), { invocation: 'inv_1x', signal: 17 });
  const wrong = ['', 'sign_1', 'sign_1AAAA', named, `sign_2${named}`, `sign_1${named}=`, `sign_1${named.slice(0, 5)}!${named.slice(5)}`, `sign_1${named}\n`];
  for (const it of [...wrong, `sign_1${Buffer.from([255, 0, 0, 0, 17]).toString('base64url')}`]) assert.equal(awakeableOf(it), undefined, it);
});

test('random numbers follow from the seed', () => {
  const [one, again, other] = [new Random(7n), new Random(7n), new Random(8n)];
  const drawn = Array.from({ length: 100 }, () => one.random());
  assert.deepEqual(Array.from({ length: 100 }, () => again.random()), drawn);
  assert.notEqual(other.random(), drawn[0]);
  assert(drawn.every((it) => it >= 0 && it < 1));
  assert(Math.abs(drawn.reduce((sum, it) => sum + it, 0) / 100 - 0.5) < 0.15);
  const uuids = Array.from({ length: 1000 }, () => one.uuid());
  assert(uuids.every((it) => /^[0-9a-f]{8}-[0-9a-f]{4}-4[0-9a-f]{3}-[89ab][0-9a-f]{3}-[0-9a-f]{12}$/.test(it)));
  assert.equal(new Set(uuids).size, 1000);
});

test('values are JSON, and no bytes stand for null', () => {
  assert.equal(encoded(null).length, 0);
  assert.equal(encoded(undefined).length, 0);
  assert.equal(text(encoded({ a: [1, 'é', true, null], left: undefined })), '{"a":[1,"é",true,null]}');
  assert.equal(text(encoded(new Date(0))), '"1970-01-01T00:00:00.000Z"');
  assert.deepEqual(decoded(bytes('{"a":[1,"é"]}')), { a: [1, 'é'] });
  assert.equal(decoded(bytes('')), null);
});

test('what has no meaning is refused with what is allowed', () => {
  const does = (): number => 1;
  for (const [made, message] of [
    [() => service('', {}), "a service's name must be a string without /, as 'Shop', not \"\""],
    [() => object('a/b', {}), "a service's name must be a string without /, as 'Shop', not \"a/b\""],
    [() => service('S', undefined as never), 'the handlers of S must be an object with a function for each name, not undefined'],
    [() => service('S', { a: handler(does, { retry: 5 as never }) }), 'the retry of S/a must be an object, as { attempts: 5 }, not 5'],
    [() => service('S', { a: handler(does, { timeout: '5' as never }) }), 'the timeout of S/a must be a number of milliseconds above 0, not "5"'],
    [() => new Queue('q', { rate: 5 as never }), 'the rate of the queue q must be a pair, a count from 1 and milliseconds above 0, not 5'],
    [() => new Worker({ url: 'postgresql://x/y' } as never), 'services must be an array of what service, object or workflow makes, not undefined'],
    [() => new Worker({ url: 'postgresql://x/y', services: [does as never] }), 'services must be an array of what service, object or workflow makes, and function is none'],
    [() => new Worker({ url: 'trips.db', services: [] }), 'url must be that of a PostgreSQL database, as postgresql://.., not "trips.db"'],
    [() => service('S', { a: 5 as never }), 'S/a must be a function, or what handler, shared or main makes of one, not 5'],
    [() => service('S', { a: shared(does) as never }), 'S/a is shared: only a handler of an object may be shared'],
    [() => object('O', { a: main(does) as never }), 'O/a is a main: only a workflow may have one'],
    [() => workflow('W', { a: does }), 'the workflow W must have one handler that is main, not 0: main(async (ctx, argument) => ..)'],
    [() => service('S', { a: handler(does, { queue: {} as never }) }), 'the queue of S/a must be a Queue, not object'],
    [() => service('S', { a: handler(does, { limit: '7' as never }) }), 'the limit of S/a must be a whole number from 1, not "7"'],
    [() => service('S', { a: handler(does, { retry: { attempts: 0 } }) }), 'the retry of S/a: attempts must be a whole number from 1, not 0'],
    [() => new Queue('q', { rate: [0, 1] }), 'the rate of the queue q must be a pair, a count from 1 and milliseconds above 0, not [0,1]'],
  ] as const) assert.throws(made, { message }); // prettier-ignore
});

test('a client is refused what is no address, before it connects', async () => {
  for (const url of ['', 'trips.db']) await assert.rejects(Client.connect({ url }), { message: `url must be that of a PostgreSQL database, as postgresql://.., not "${url}"` });
});

test('what JSON has not is refused by name', () => {
  const cyclic: unknown[] = [];
  cyclic.push(cyclic);
  let deep: unknown = 1;
  for (let at = 0; at < 100_000; at++) deep = [deep];
  const cases: [unknown, RegExp][] = [
    [1n, /^the value is the BigInt 1, which JSON can't carry$/],
    [{ price: [1, NaN] }, /^the value at \.price\[1\] is NaN/],
    [[Infinity], /^the value at \[0\] is Infinity/],
    [[undefined], /^the value at \[0\] is undefined/],
    [() => 1, /is a function/],
    [{ 'a b': Symbol('s') }, /^the value at \["a b"\] is a symbol/],
    [cyclic, /^the value at \[0\] is an object within itself/],
    [new Map(), /of type Map/],
    [new Set(), /of type Set/],
    [/x/, /of type RegExp/],
    [new Uint8Array(2), /of type Uint8Array/],
    [new Error('x'), /of type Error/],
    [Promise.resolve(1), /a promise \(await it first\)/],
    [new Date(NaN), /a date that is none/],
    ['\ud800', /half of a surrogate pair/],
    [deep, /nested too deep/],
    [{ toJSON: () => undefined }, /nothing by its own toJSON/],
    [{ get x(): number { throw new Error('mine'); } }, /can't be written as JSON: Error: mine/],
    [new Proxy({}, { ownKeys: () => { throw new Error('trap'); } }), /Error: trap/],
  ];
  for (const [value, wanted] of cases) assert.throws(() => encoded(value), { name: 'BadValue', message: wanted });
});

test('a number that JavaScript would round is refused', () => {
  assert.throws(() => decoded(bytes('[12345678901234567890]')), /the number 12345678901234567890 is greater/);
  assert.equal(decoded(bytes('"12345678901234567890"')), '12345678901234567890');
  assert.equal(decoded(bytes('9007199254740991')), 9007199254740991);
  assert.equal(decoded(bytes('0.12345678901234567890')), 0.12345678901234568);
  assert.throws(() => decoded(bytes('{')), BadValue);
  assert.throws(() => decoded(new Uint8Array([0x22, 0xff, 0x22])), BadValue);
  assert.throws(() => decoded(bytes('1'), () => { throw new Error('no text'); }), /no text/);
});

test('names and sizes have their limits', () => {
  checkName('the key', 'k'.repeat(1000));
  assert.throws(() => checkName('the key', 'é'.repeat(501)), { code: 400, message: 'the key has 1002 bytes in UTF-8, and 1000 are allowed' });
  assert.throws(() => checkName('the key', 'a\0'), { code: 400, message: /NUL/ });
  assert.throws(() => checkName('the key', '\ud800'), { code: 400, message: /surrogate/ });
  assert.throws(() => checkName('the key', 5), { code: 400, message: 'the key is a text, and not number' });
  assert.throws(() => checkPayload('the argument', 5, 4), { code: 413, message: 'the argument has 5 bytes, and may have 4' });
});

test('whatever is thrown has a text', () => {
  assert.equal(said(new RangeError('far')), 'RangeError: far');
  assert.equal(said(5), 'number 5');
  assert.equal(said(undefined), 'undefined undefined');
  const silent = { toString: () => { throw new Error('no'); } };
  assert.match(said(silent), /has no text/);
  const proxy = new Proxy({}, { getPrototypeOf: () => { throw new Error('trap'); } });
  assert.match(said(proxy), /has no text/);
  assert.equal(said(new Error('a\0b')), 'Error: a\\0b');
  assert(said(new Error('x'.repeat(5_000_000))).length < 5_000);
  assert.throws(() => new TerminalError('x', 70_000), /^RangeError: a failure's code must be a whole number from 0 to 65535, not 70000$/);
  assert.equal(new TerminalError('\ud800').message, '\\ud800');
});
