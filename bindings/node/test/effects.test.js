// What each command asks of a runtime. The values are those of the lines that the frames show.
'use strict';

const assert = require('node:assert');
const { test } = require('node:test');
const { Journal, StatusError, frames } = require('..');

const { frameOf } = frames;
const bytes = (text) => Buffer.from(text);
const came = (id, result) => frameOf(`Notification id=${id} result=${result}`);

/** The id of an awakeable: its invocation's id and its signal's number. */
function awakeable(invocation, signal) {
  const number = Buffer.alloc(4);
  number.writeUInt32BE(signal);
  return `sign_1${Buffer.concat([Buffer.from(invocation), number]).toString('base64url')}`;
}

const CALL = 'service_name="S" handler_name="h" parameter="x" invocation_id_notification_idx=2';
const SENT = `service_name="S" handler_name="h" key="k" idempotency_key="i" headers=[("a" "b"), ("c" "")] parameter="" invoke_time=${2n ** 64n - 1n}`;
const FAILURE = 'failure(code=409 message="no" metadata=[("k" "v")])';
const DONE = `CompletePromise key="k" completion=${FAILURE} result_completion_id=1`;
const NAMED = 'target=IdempotencyId(service_name="S" handler_name="h" idempotency_key="i"';
const AWAITS = 'GetPromise key="k" result_completion_id=1';
const LOOKS = Buffer.from(frameOf(AWAITS));
LOOKS.writeUInt16BE(24); // the same body

const CALLED = { kind: 'begin', service: 'S', handler: 'h', key: '', idempotencyKey: undefined, headers: [], parameter: bytes('x'), timeMillis: 0n, idCompletes: 2 };
const KEYED = { ...CALLED, key: 'k', idempotencyKey: 'i', headers: [['a', 'b'], ['c', '']], parameter: bytes(''), timeMillis: 2n ** 64n - 1n };
const sent = (target, notification, isAwakeable) => ({ kind: 'send', target: Buffer.from(target), notification, isAwakeable });
const change = (name, value) => ({ kind: 'change', name, value });
const promise = (peeks, result) => ({ kind: 'promise', completes: 1, name: 'k', peeks, result });
const attach = (target, peeks) => ({ kind: 'attach', completes: 1, target, peeks });

const ASKED = [
  [`Call ${CALL} result_completion_id=3`, { ...CALLED, completes: 3 }],
  [`Call ${CALL}`, { ...CALLED, completes: 0 }],
  [`OneWayCall ${SENT} invocation_id_notification_idx=2`, { ...KEYED, completes: undefined }],
  ['Sleep wake_up_time=1000 result_completion_id=1', { kind: 'wait', completes: 1, timeMillis: 1000n }],
  [`Sleep wake_up_time=${2n ** 64n - 1n} result_completion_id=${2 ** 32 - 1}`, { kind: 'wait', completes: 2 ** 32 - 1, timeMillis: 2n ** 64n - 1n }],
  ['SendSignal target_invocation_id="t" signal=index(0) result=void', sent('t', came('signal(0)', 'void'), false)],
  ['SendSignal target_invocation_id="t" signal=name("go") result=value("v")', sent('t', came('name("go")', 'value("v")'), false)],
  [`SendSignal target_invocation_id="" signal=index(7) result=${FAILURE}`, sent('', came('signal(7)', FAILURE), false)],
  [`CompleteAwakeable awakeable_id="${awakeable('inv_1', 17)}" result=value("v")`, sent('inv_1', came('signal(17)', 'value("v")'), true)],
  [`CompleteAwakeable awakeable_id="${awakeable('', 2 ** 32 - 1)}" result=${FAILURE}`, sent('', came(`signal(${2 ** 32 - 1})`, FAILURE), true)],
  [`CompleteAwakeable awakeable_id="${awakeable([255], 1)}" result=value("")`, sent([255], came('signal(1)', 'value("")'), true)],
  ['CompleteAwakeable awakeable_id="sign_1" result=value("v")', undefined],
  [`CompleteAwakeable awakeable_id="${awakeable('inv_1', 17)}=" result=value("v")`, undefined],
  ['Output result=value("v")', { kind: 'output', result: frameOf('Output result=value("v")') }],
  [`Output result=${FAILURE}`, { kind: 'output', result: frameOf(`Output result=${FAILURE}`) }],
  ['SetState key="k" value="v"', change('k', bytes('v'))],
  ['SetState key="k"', change('k', bytes(''))],
  ['ClearState key="k"', change('k', undefined)],
  ['ClearAllState', change(undefined, undefined)],
  ['GetLazyState key="k" result_completion_id=1', { kind: 'read', completes: 1, name: 'k' }],
  ['GetLazyStateKeys result_completion_id=1', { kind: 'read', completes: 1, name: undefined }],
  [AWAITS, promise(false, undefined)],
  [LOOKS, promise(true, undefined)],
  [DONE, promise(false, frameOf(DONE))],
  ['AttachInvocation target=InvocationId("i") result_completion_id=1', attach({ invocationId: 'i' }, false)],
  ['AttachInvocation target=WorkflowId(name="n" key="k") result_completion_id=1', attach({ workflow: 'n', key: 'k' }, false)],
  [`GetInvocationOutput ${NAMED} service_key="k") result_completion_id=1`, attach({ service: 'S', handler: 'h', serviceKey: 'k', idempotencyKey: 'i' }, true)],
  [`GetInvocationOutput ${NAMED}) result_completion_id=1`, attach({ service: 'S', handler: 'h', serviceKey: '', idempotencyKey: 'i' }, true)],
  ['Input value="x"', undefined],
  ['GetEagerState key="k" result=void', undefined],
  ['GetEagerStateKeys', undefined],
  ['Run name="r" result_completion_id=1', undefined],
];

for (const [asked, wanted] of ASKED) {
  test(`what is asked for by ${typeof asked === 'string' ? asked : 'a look at a promise'}`, () => {
    const { rows } = new Journal().store(7, typeof asked === 'string' ? frameOf(asked) : asked);
    assert.deepStrictEqual(rows.map((it) => it.effect), [wanted]);
  });
}

test('each row of a store has its own effect, and it stays what it was', () => {
  const journal = new Journal([frameOf('Input')]);
  const lines = ['Sleep wake_up_time=5 result_completion_id=1', 'Run name="r" result_completion_id=2', 'ProposeRunCompletion id=2 result=value("v")', 'ClearState key="k"'];
  const { rows } = journal.store(7, Buffer.concat(lines.map(frameOf)));
  journal.store(7, frameOf('ClearAllState'));
  assert.deepStrictEqual(rows.map((it) => it.effect), [{ kind: 'wait', completes: 1, timeMillis: 5n }, undefined, undefined, change('k', undefined)]);
});

test('nothing of an output is stored that has a command which can not be read', () => {
  const journal = new Journal([frameOf('Input')]);
  journal.arrive(came('signal(17)', 'void'));
  journal.keep();
  const cut = Buffer.from('00120000000000000001' + '78', 'hex');
  const noText = Buffer.from(frameOf('ClearState key="k"'));
  noText[noText.indexOf('k')] = 0xff; // a name is UTF-8
  for (const wrong of [cut, noText]) {
    const output = Buffer.concat([frameOf('ClearAllState'), wrong, frameOf('ClearAllState')]);
    assert.throws(() => journal.store(7, output), (error) => error instanceof StatusError && error.status === 'NOT_A_FRAME');
    assert.strictEqual(journal.entries, 2);
  }
});
