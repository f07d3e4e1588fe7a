// What each stored command asks for is done once, in the transaction that stores it. The commands are frames that are written out here, and the rows are those
// of a store in memory; what the database has no text for is tried on one.

import assert from 'node:assert/strict';
import { test } from 'node:test';
import { Journal, StatusError, frames } from 'palqytun';
import { BadName, object, main, service, workflow } from '@palqytun/sdk';
import type { Client, ObjectContext, ServiceContext, WorkflowContext } from '@palqytun/sdk';
import { Testing } from '@palqytun/sdk/testing';
import { LONG, stage, until } from './cluster';
import { inputCommand } from '../frames';
import { create } from '../invocations';
import { Memory } from '../memory';
import { JSON_CODEC } from '../sealing';
import { ATTEMPTS, servicesOf } from '../services';
import { store } from '../storing';
import type { Claim, Outcome } from '../storing';

const works = async (_: ServiceContext, argument: unknown): Promise<unknown> => argument;
const services = [
  service('S', { works }),
  object('O', { alone: async (_: ObjectContext, argument: unknown): Promise<unknown> => argument }),
  workflow('W', { main: main(async (_: WorkflowContext, argument: unknown): Promise<unknown> => argument) }),
] as const;
const CALLED = 'service_name="S" handler_name="works" parameter="7" invocation_id_notification_idx=1';
const LATER = 4_000_000_000_000; // milliseconds since the epoch
const NOTHING = Buffer.alloc(0);

/** Invocations in memory, whose attempts store what a test writes. */
class Stage {
  readonly memory = new Memory();
  readonly #db = this.memory.beside();
  readonly #maker = { services: servicesOf(services), codec: JSON_CODEC };

  /** Makes an invocation, and returns its claim. */
  async begun(id: string, path = 'O/alone', key = 'k', idempotencyKey: string | null = null): Promise<Claim> {
    const [name = '', handler = ''] = path.split('/');
    const made = { id, seed: 1n, service: name, handler, key, argument: NOTHING, headers: [], idempotencyKey, due: null, parent: null, trace: null };
    await this.#db.transact(async (to) => {
      await create(to, this.#maker, made);
      await to.change('lease', { id, epoch: 0, worker: 'one', code: 'test', now: to.now });
    });
    return {
      ...this.#maker, id, service: name, handler, key, epoch: 1, exclusive: key !== '', isLimited: false, trace: '', begun: 0, created: 0, retry: ATTEMPTS,
      journal: new Journal([inputCommand(NOTHING, [])]), fed: NOTHING, patches: new Map(), counters: { retries: 0, failingSince: null, failures: 0, failedSince: null },
      wasCancelled: false, cancelWaits: false, isShielded: false, byRun: false,
    }; // prettier-ignore
  }

  /** Stores what an attempt wrote; returns what came of it. */
  async store(claim: Claim, ...written: (string | Uint8Array)[]): Promise<Outcome> {
    const output = Buffer.concat(written.map((it) => (typeof it === 'string' ? frames.frameOf(it) : it)));
    const found = await this.#db.transact((to) => store(to, claim, output));
    claim.journal.keep();
    return found;
  }

  /** The lines of what an attempt is fed once this is stored. */
  async fed(claim: Claim, ...written: (string | Uint8Array)[]): Promise<string[]> {
    return (await this.store(claim, ...written)).feed.map(frames.lineOf);
  }

  /** The lines of an inbox. */
  inbox(id: string): string[] {
    return this.memory.tables.arrived(id).map(([, frame]) => frames.lineOf(frame as Uint8Array));
  }

  get waiters(): unknown[] {
    return this.memory.tables.waiters.where();
  }
}

const completed = (id: number, result: string): string => `Notification id=completion(${id}) result=${result}`;
const failed = (id: number, code: number, message: string): string => completed(id, `failure(code=${code} message="${message}")`);

function awakeable(invocation: string | Uint8Array, signal: number): string {
  const number = Buffer.alloc(4);
  number.writeUInt32BE(signal, 0);
  return `sign_1${Buffer.concat([typeof invocation === 'string' ? Buffer.from(invocation) : invocation, number]).toString('base64url')}`;
}

test('a call makes one invocation, whose id comes at once, and whose result is waited for', async () => {
  const on = new Stage();
  const one = await on.begun('inv_one');
  const [id] = await on.fed(one, `Call ${CALLED} result_completion_id=2`);
  const made = on.memory.tables.invocations.where((it) => it.service === 'S');
  assert.deepEqual(made.map((it) => [it.handler, it.parent, it.status]), [['works', 'inv_one', 'ready']]);
  assert.equal(id, completed(1, `invocation_id("${made[0]?.id}")`));
  assert.deepEqual(on.waiters, [{ invocation: made[0]?.id, waiter: 'inv_one', completes: 2 }]);
  assert.deepEqual(on.memory.tables.journal.get(made[0]?.id ?? '')?.map(frames.lineOf), ['Input value="7"']);
  const wrong = await on.fed(one, 'Call service_name="None" handler_name="x" invocation_id_notification_idx=3 result_completion_id=4');
  assert.match(wrong[0] ?? '', /^Notification id=completion\(3\) result=invocation_id\("inv_/);
  assert.equal(wrong[1], failed(4, 404, 'there is no handler None/x, of this app or of a worker that is alive'));
});

test('one that is sent begins at its time, by its key, headers and idempotency key', async () => {
  const on = new Stage();
  const one = await on.begun('inv_one', 'S/works', '');
  const sent = 'OneWayCall service_name="O" handler_name="alone" key="k" idempotency_key="i" headers=[("a" "b")] parameter="7"';
  const now = on.memory.now();
  await on.store(one, `${sent} invoke_time=${LATER} invocation_id_notification_idx=1`);
  const [made] = on.memory.tables.invocations.where((it) => it.service === 'O');
  assert.deepEqual([made?.key, made?.idem, on.waiters], ['k', 'i', []]);
  assert(Math.abs((made?.due ?? 0) - now - (LATER / 1000 - Date.now() / 1000)) < 60);
  assert.deepEqual(on.memory.tables.journal.get(made?.id ?? '')?.map(frames.lineOf), ['Input headers=[("a" "b")] value="7"']);
});

test('a sleep is a timer', async () => {
  const on = new Stage();
  await on.store(await on.begun('inv_one'), `Sleep wake_up_time=${LATER} result_completion_id=1`);
  const [timer] = on.memory.tables.timers.where();
  assert.deepEqual([timer?.invocation, timer?.completes], ['inv_one', 1]);
  assert(Math.abs((timer?.due ?? 0) - LATER / 1000) < 60);
});

test('signals come to their target, and nothing to one that is not there', async () => {
  const on = new Stage();
  const [one] = [await on.begun('inv_one', 'S/works', ''), await on.begun('inv_other', 'S/works', '')];
  await on.store(one, 'SendSignal target_invocation_id="inv_other" signal=name("go") result=value("1")', 'SendSignal target_invocation_id="inv_none" signal=name("go") result=void');
  await on.store(one, 'SendSignal target_invocation_id="inv_other" signal=index(1) result=void');
  assert.deepEqual(on.inbox('inv_other'), ['Notification id=name("go") result=value("1")', 'Notification id=signal(1) result=void']);
  assert.equal(on.memory.tables.inbox.where().length, 2);
});

test('an awakeable is completed by its id alone, and for its invocation alone', async () => {
  const on = new Stage();
  const [one] = [await on.begun('inv_one', 'S/works', ''), await on.begun('inv_other', 'S/works', '')];
  const id = awakeable('inv_other', 17);
  const wrong = ['', 'sign_1', id.slice(6), id.replace('sign_1', 'sign_2'), `${id}=`, `${id.slice(0, 9)}!${id.slice(9)}`, `${id}\\x0a`, awakeable(Buffer.from([255]), 17)];
  for (const it of wrong) await on.store(one, `CompleteAwakeable awakeable_id="${it}" result=value("4")`);
  assert.deepEqual(on.memory.tables.inbox.where(), []);
  await on.store(one, `CompleteAwakeable awakeable_id="${id}" result=value("4")`);
  assert.deepEqual(on.inbox('inv_other'), ['Notification id=signal(17) result=value("4")']);
});

test('the state of a key is changed and read', async () => {
  const on = new Stage();
  const one = await on.begun('inv_one');
  const names = (): string[] => on.memory.tables.state.where().map((it) => `${it.service}/${it.key}/${it.name}=${Buffer.from(it.value).toString()}`);
  await on.store(one, 'SetState key="a" value="1"', 'SetState key="é" value="2"', 'SetState key="z"', 'ClearState key="none"');
  assert.deepEqual(names(), ['O/k/a=1', 'O/k/é=2', 'O/k/z=']);
  const read = ['GetLazyState key="a" result_completion_id=1', 'GetLazyState key="none" result_completion_id=2', 'GetLazyStateKeys result_completion_id=3'];
  assert.deepEqual(await on.fed(one, ...read), [completed(1, 'value("1")'), completed(2, 'void'), completed(3, 'state_keys(["a", "z", "\\xc3\\xa9"])')]);
  await on.store(one, 'ClearState key="a"');
  assert.deepEqual(names(), ['O/k/é=2', 'O/k/z=']);
  await on.store(one, 'ClearAllState');
  assert.deepEqual(names(), []);
});

test('a promise is awaited, looked at, and completed once', async () => {
  const on = new Stage();
  const [one, other] = [await on.begun('inv_one', 'W/main', 'k'), await on.begun('inv_other', 'W/main', 'other')];
  const get = frames.frameOf('GetPromise key="p" result_completion_id=2');
  const peek = Buffer.from(get);
  peek[1] = 24; // the same body
  assert.deepEqual(await on.fed(one, 'GetPromise key="p" result_completion_id=1'), []);
  assert.deepEqual(await on.fed(one, peek), [completed(2, 'void')]);
  assert.deepEqual(await on.fed(one, 'CompletePromise key="p" completion=value("v") result_completion_id=3'), [completed(3, 'void')]);
  assert.deepEqual(on.inbox('inv_one'), [completed(1, 'value("v")')]);
  assert.deepEqual(await on.fed(one, 'CompletePromise key="p" completion=value("w") result_completion_id=4'), [failed(4, 409, 'the promise was completed before')]);
  assert.deepEqual(await on.fed(one, 'GetPromise key="p" result_completion_id=5'), [completed(5, 'value("v")')]);
  assert.deepEqual(await on.fed(other, 'CompletePromise key="p" completion=failure(code=418 message="no tea") result_completion_id=1'), [completed(1, 'void')]);
  assert.deepEqual(await on.fed(other, get), [failed(2, 418, 'no tea')]);
});

test('another invocation is attached to by its id, by its idempotency key, and as a workflow', async () => {
  const on = new Stage();
  const one = await on.begun('inv_one', 'S/works', '');
  const [named, flow] = [await on.begun('inv_named', 'O/alone', 'k', 'i'), await on.begun('inv_flow', 'W/main', 'ann')];
  const targets = ['InvocationId("inv_named")', 'IdempotencyId(service_name="O" service_key="k" handler_name="alone" idempotency_key="i")', 'WorkflowId(name="W" key="ann")'];
  const looks = (first: number): string[] => targets.map((it, at) => `GetInvocationOutput target=${it} result_completion_id=${first + at}`);
  assert.deepEqual(await on.fed(one, ...looks(1)), [1, 2, 3].map((id) => completed(id, 'void')));
  assert.deepEqual(await on.fed(one, ...targets.map((it, at) => `AttachInvocation target=${it} result_completion_id=${4 + at}`)), []);
  assert.deepEqual(on.waiters, ['inv_named', 'inv_named', 'inv_flow'].map((invocation, at) => ({ invocation, waiter: 'inv_one', completes: 4 + at })));
  for (const [it, value] of [[named, '1'], [flow, '2']] as const) await on.store(it, `Output result=value("${value}")`, 'End');
  assert.deepEqual(on.inbox('inv_one'), [completed(4, 'value("1")'), completed(5, 'value("1")'), completed(6, 'value("2")')]);
  assert.deepEqual(await on.fed(one, ...looks(7)), [completed(7, 'value("1")'), completed(8, 'value("1")'), completed(9, 'value("2")')]);
  const none = ['InvocationId("inv_none")', 'IdempotencyId(service_name="O" service_key="k" handler_name="alone" idempotency_key="j")', 'WorkflowId(name="W" key="bob")'];
  const missed = await on.fed(one, ...none.map((it, at) => `AttachInvocation target=${it} result_completion_id=${10 + at}`));
  assert.deepEqual(missed, [10, 11, 12].map((id) => failed(id, 404, 'there is no such invocation')));
});

test('an attribute is set and taken away, and other runs ask for nothing', async () => {
  const on = new Stage();
  const one = await on.begun('inv_one');
  const sets = (json: string, id: number): string => `Run name="palqytun.attribute ${json.replace(/"/g, '\\x22')}" result_completion_id=${id}`;
  await on.store(one, sets('["customer", "ann"]', 1), sets('["stage", "paid"]', 2), 'Run name="palqytun.patched mail" result_completion_id=3', sets('["stage"]', 4));
  assert.deepEqual(on.memory.tables.attributes.where(), [['inv_one', 'customer', 'ann']]);
});

test('an output is the result once the attempt ends', async () => {
  const on = new Stage();
  const one = await on.begun('inv_one');
  await on.store(one, 'Output result=value("1")');
  assert.equal(on.memory.tables.invocations.get('inv_one')?.status, 'running');
  assert.equal((await on.store(one, 'End')).status, 'done'); // an attempt after the one that stored the Output
  assert.equal(frames.lineOf(on.memory.tables.invocations.get('inv_one')?.result ?? NOTHING), 'Output result=value("1")');
  const other = await on.begun('inv_other', 'S/works', '');
  await on.store(other, 'Output result=failure(code=418 message="no tea")', 'End');
  const row = on.memory.tables.invocations.get('inv_other');
  assert.deepEqual([row?.status, row?.failed, row?.error], ['done', 418, '418 no tea']);
});

test('an output that has a command which can not be read is refused by name, and leaves nothing', async () => {
  const on = new Stage();
  const one = await on.begun('inv_one');
  const cut = Buffer.from('0012000000000000000178', 'hex');
  const noText = Buffer.from(frames.frameOf('ClearState key="k"'));
  noText[noText.length - 1] = 0xff; // a name is UTF-8
  for (const wrong of [cut, noText]) {
    const written = ['SetState key="a" value="1"', `Call ${CALLED} result_completion_id=2`, wrong];
    await assert.rejects(on.store(one, ...written), (error: unknown) => error instanceof StatusError && error.status === 'NOT_A_FRAME');
    assert.deepEqual([on.memory.tables.state.where(), on.memory.tables.invocations.where().length, one.journal.entries], [[], 1, 1]);
  }
  await on.store(one, 'SetState key="a" value="1"'); // it goes on
  assert.equal(on.memory.tables.state.where().length, 1);
});

const NUL = 'inv_\0';
const given = service('GivenNul', {
  names: async (ctx: ServiceContext, _: null): Promise<string> => {
    ctx.resolveAwakeable(awakeable(NUL, 17), 1);
    ctx.cancel(NUL);
    ctx.sendSignal(NUL, 'go');
    return ctx.attach(NUL).then(() => 'no failure', (error: unknown) => (error as Error).message);
  },
  sends: async (ctx: ServiceContext, _: null): Promise<string> => ctx.send('No\0/one', 1),
});
const thing = object('NulState', { clears: async (ctx: ObjectContext, _: null): Promise<unknown> => (ctx.clear('a\0'), ctx.get('a\0')) });

test('a name with NUL names nothing, which no text of the database has', { timeout: LONG }, async () => {
  const on = await stage([given, thing]);
  const result = async (sent: { id: string; result(wait: number): Promise<unknown> }): Promise<unknown> => {
    const paused = (): unknown => on.lines.find((it) => it['event'] === 'paused' && it['invocation'] === sent.id)?.['error'];
    let ended: unknown;
    const waits = sent.result(LONG).then((value) => (ended = { value }), (error: unknown) => (ended = { message: (error as Error).message }));
    await until(() => ended !== undefined || paused() !== undefined);
    return paused() === undefined ? (await waits, ended) : { paused: paused() };
  };
  try {
    assert.deepEqual(await result(await on.client.send(given.names, null)), { value: 'there is no such invocation' });
    assert.deepEqual(await result(await on.client.send(given.sends, null)), { message: "the service's name has the character NUL: a name has at most 1000 bytes in UTF-8, and no NUL" });
    assert.deepEqual(await result(await on.client.send(thing.clears, null, { key: 'k' })), { value: null });
    await assert.rejects(on.client.resolveAwakeable(awakeable(NUL, 17)), { code: 400 });
  } finally {
    await on.end();
  }
});

const NAMES: [name: string, why: string][] = [
  ['a\0b', 'has the character NUL: a name has at most 1000 bytes in UTF-8, and no NUL'],
  ['n'.repeat(1001), 'has 1001 bytes in UTF-8, and 1000 are allowed'],
  ['\ud800', 'has half of a surrogate pair, and so no UTF-8'],
];

/** Refuses names before anything is asked of a database that a client has, or of none. */
async function refusesNames(client: Client): Promise<void> {
  const trace = '00-0af7651916cd43dd8448eb211c80319c-b7ad6b7169203331-01\0'; // what is no trace is left out
  await (await client.send(given.names, null, { headers: { traceparent: trace } })).result(LONG);
  for (const [name, why] of NAMES) {
    const sent = client.sent(name);
    const calls: [what: string, call: () => Promise<unknown>][] = [
      ["the invocation's id", () => sent.result(LONG)],
      ["the invocation's id", () => sent.cancel()],
      ["the invocation's id", () => sent.signal('go')],
      ["the service's name", () => client.send(`${name}/one`, 1)],
      ["the handler's name", () => client.send(`GivenNul/${name}`, 1)],
      ['the key', () => client.send(thing.clears, null, { key: name })],
      ['the idempotency key', () => client.send(given.names, null, { idempotencyKey: name })],
      ['the queue key', () => client.send(given.names, null, { queueKey: name })],
    ];
    for (const [what, call] of calls) {
      const error: unknown = await call().then(() => undefined, (it: unknown) => it);
      assert(error instanceof BadName, what);
      assert.deepEqual([error.code, error.message], [400, `${what} ${why}`]);
    }
  }
  for (const delay of [NaN, Infinity, 1e14]) {
    await assert.rejects(client.send(given.names, null, { delay }), { code: 400, message: `the delay is ${delay}, and 10000000000000 milliseconds are allowed` });
  }
  await assert.rejects(client.send('GivenNul/names/more'), { code: 404 });
}

test('names that no database has are refused by a client, on both databases and before they are asked', { timeout: LONG }, async () => {
  await Testing.run([given, thing], refusesNames);
  const on = await stage([given, thing]);
  try {
    await refusesNames(on.client);
  } finally {
    await on.end();
  }
  await assert.rejects(on.client.sent('a\0b').cancel(), BadName); // its connections are closed
});
