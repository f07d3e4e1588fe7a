// What a caller may do wrong is an error, and the VM goes on.
'use strict';

const assert = require('node:assert');
const { test } = require('node:test');
const { inspect } = require('node:util');
const { Worker } = require('node:worker_threads');
const palqytun = require('..');
const { CANCEL_HANDLE, Closed, Code, Journal, JournalMismatch, StatusError, Suspended, VM, VMError, allCompleted, contentType, firstCompleted, frames } = palqytun;
const { begun, fed } = require('./common');

const status = (name) => (error) => error instanceof StatusError && error.status === name;

test('what was closed', () => {
  const vm = begun();
  assert.strictEqual(inspect(vm), 'VM(V7 abc Processing, last command 0)');
  vm.close();
  vm.close();
  assert.strictEqual(`${vm}`, 'VM(NO_SESSION: the VM was closed)');
  assert.throws(() => vm.sysSleep(1), { status: 'NO_SESSION', message: 'NO_SESSION: the VM was closed' });
  assert.throws(() => vm.notifyInput(Buffer.of(1)), status('NO_SESSION'));
  assert.throws(() => vm.takeOutput(), status('NO_SESSION'));
  const journal = new Journal();
  journal.close();
  journal.close();
  assert.throws(() => journal.keep(), status('NO_JOURNAL'));
});

test('objects of another kind', () => {
  const journal = new Journal();
  assert.throws(() => VM.prototype.sysEnd.call(journal), TypeError);
  assert.throws(() => VM.prototype.sysEnd.call({}), TypeError);
  assert.throws(() => Journal.prototype.keep.call(begun()), TypeError);
  assert.throws(() => VM('application/vnd.restate.invocation.v7'), TypeError);
  assert.strictEqual(structuredClone(begun()).sysEnd, undefined);
  assert.throws(() => begun().doAwait(allCompleted(17, {})), { message: 'each child must be a handle or a Future, not object' });
});

test('arguments of the wrong type are named', () => {
  const vm = begun();
  for (const [call, message] of [
    [() => vm.sysSleep('x'), 'wakeUpMillis must be a number or a bigint, not string'],
    [() => vm.sysStateSet('key', 'value'), 'value must be a Uint8Array, not string'],
    [() => vm.sysStateSet(7, Buffer.of(1)), 'key must be a string, not number'],
    [() => vm.sysCall({ service: 'S' }, Buffer.of(1)), 'handler must be a string, not undefined'],
    [() => vm.sysCall({ service: 'S', handler: 'h', headers: [['a']] }, Buffer.of(1)), 'each of headers must be a pair of strings, not an array'],
    [() => vm.sysWriteOutput({ code: 7 }), 'value.message must be a string, not undefined'],
    [() => vm.sysAttachInvocation({}), 'target must have an invocationId, a workflow or a service'],
    [() => vm.notifyInput(null), 'data must be a Uint8Array, not null'],
    [() => new VM('x', { wait: 'never' }), /VM has no option wait; its options are implicitCancellation, /],
    [() => vm.sysSleep(1, null), 'how must be an object, not null'],
    [() => vm.sysSend({ service: 'S', handler: 'h' }, Buffer.of(1), 7), 'how must be an object, not number'],
    [() => vm.notifyError({ code: 500, message: '' }, { index: 3 }), 'related.type must be a string, not undefined'],
    [() => vm.proposeRunCompletion(17, Buffer.of(1), { kind: 'exponential', factor: 3 }), 'policy.factor must be a pair of numbers, not number'],
    [() => vm.proposeRunCompletion(17, Buffer.of(1), { kind: 'exponential', factor: [3] }), 'policy.factor must be a pair of numbers, not an array'],
    [() => vm.proposeRunCompletion(17, Buffer.of(1), { kind: 'exponential' }), 'policy.factor must be a pair of numbers, not undefined'],
    [() => new Journal().store('7', Buffer.of(1)), 'version must be a number, not string'],
    [() => contentType('7'), 'version must be a number, not string'],
  ]) assert.throws(call, { name: 'TypeError', message });
  for (const [call, message] of [
    [() => vm.sysSleep(-1), /wakeUpMillis must be a whole number/],
    [() => vm.sysSleep(1.5), /wakeUpMillis must be a whole number/],
    [() => vm.sysSleep(2n ** 64n), /wakeUpMillis must be from 0 to 2\^64 - 1/],
    [() => vm.takeNotification(2 ** 32), /handle must be a whole number from 0 to 4294967295/],
    [() => vm.sysWriteOutput({ code: 65536, message: '' }), /value.code must be a whole number from 0 to 65535/],
    [() => vm.createSignalHandle('\ud800'), /name has half of a surrogate pair/],
    [() => new VM('x', { journalReplay: 'never' }), /journalReplay must be one of enabled, disabled, not never/],
    [() => vm.notifyError({ code: 500, message: '' }, 'first'), "related must be 'last' or an object, not first"],
    [() => vm.proposeRunCompletion(17, Buffer.of(1), { kind: 'exponential', factor: [3, 0] }), 'the denominator of policy.factor must be from 1 to 4294967295, not 0'],
    [() => vm.proposeRunCompletion(17, Buffer.of(1), { kind: 'exponential', factor: [-3, 2] }), /the numerator of policy.factor must be a whole number from 0 to 4294967295, not -3/],
    [() => new Journal().store(4, Buffer.of(1)), 'version must be a whole number from 5 to 8, not 4'],
    [() => new Journal().store(9, Buffer.of(1)), 'version must be a whole number from 5 to 8, not 9'],
    [() => contentType(4), 'version must be a whole number from 5 to 8, not 4'],
    [() => contentType(9), 'version must be a whole number from 5 to 8, not 9'],
  ]) assert.throws(call, { name: 'RangeError', message });
  assert.strictEqual(vm.lastCommandIndex(), 0);
});

test('a handle of another VM stands for nothing', () => {
  const [one, other] = [begun(), begun()];
  const handle = [1, 2, 3, 4, 5].map(() => one.createSignalHandle('go'))[4];
  assert.strictEqual(other.isCompleted(handle), false);
  assert.strictEqual(other.takeNotification(handle), undefined);
  assert.deepStrictEqual(other.doAwait(handle), { kind: 'waitingExternalProgress', waitingInput: true, waitingRunProposal: false });
});

test('a tree without children is awaited', () => {
  assert.strictEqual(begun().doAwait(allCompleted()).kind, 'anyCompleted');
});

test('what errors say', () => {
  const says = 'the content type must be application/vnd.restate.invocation.vN with N from 5 to 8';
  assert.throws(() => new VM('text/plain'), { name: 'VMError', code: 415, message: `415 UNSUPPORTED_MEDIA_TYPE: BadContentType (${says})` });
  const [ended, suspended, own] = [begun(), begun(), begun()];
  ended.sysEnd();
  assert.throws(() => ended.sysSleep(1), { message: '598 CLOSED: ClosedError (command 1: sleepCommand "")' });
  suspended.notifyInputClosed();
  assert.throws(() => suspended.doAwait(suspended.sysSleep(1)), { message: '599 SUSPENDED' });
  own.notifyError({ code: Code.JOURNAL_MISMATCH, message: 'no tea' });
  assert.throws(() => own.sysEnd(), { message: '570 no tea' });
});

test('errors have all their fields', () => {
  const vm = fed('Start id="a" debug_id="a" known_entries=2', 'Input value=""', 'Sleep wake_up_time=1000 result_completion_id=1 name="nap"');
  vm.sysInput();
  const call = () => vm.sysCall({ service: 'Greeter', handler: 'greet' }, Buffer.from('Ada'), { name: 'call' });
  assert.throws(call, (it) => it instanceof JournalMismatch && it.code === 570 && it.related.index === 1 && it.related.name === 'call');
  const own = begun();
  own.notifyError({ code: 418, message: 'no tea', stacktrace: 'at 1' }, 'last');
  assert.throws(() => own.sysEnd(), (it) => it instanceof VMError && it.code === 418 && it.text === 'no tea' && it.stacktrace === 'at 1');
});

test('a suspension and an end', () => {
  const vm = begun();
  const slept = vm.sysSleep(2n ** 63n);
  vm.notifyInputClosed();
  assert.throws(() => vm.doAwait(firstCompleted(slept)), Suspended);
  assert.throws(() => vm.isReadyToExecute(), Closed);
  const other = begun();
  other.sysWriteOutput(Buffer.from('done'));
  other.sysEnd();
  assert.throws(() => other.sysSleep(1), Closed);
});

test("a handler's error is no suspension", () => {
  const vm = begun();
  vm.notifyError({ code: 599, message: 'SUSPENDED' });
  assert.throws(() => vm.doAwait(CANCEL_HANDLE), (it) => it.constructor === VMError && it.code === 599 && it.text === 'SUSPENDED');
});

/** An error with this code that is none of the VM's own. */
const plain = (code) => (error) => error.constructor === VMError && error.code === code;

test('an error that is handed in is plain', () => {
  for (const [code, message] of [[570, 'CommandTypeMismatchError'], [598, 'ClosedError'], [599, 'SUSPENDED'], [500, '']]) {
    const [vm, ended, ran] = [begun(), begun(), begun()];
    vm.notifyError({ code, message });
    vm.notifyError({ code: 418, message: 'no tea' }); // it keeps its first error
    ended.sysEnd();
    ended.notifyError({ code, message });
    const run = ran.sysRun('charge');
    ran.doAwait(run.handle);
    assert.throws(() => ran.proposeRetryableFailure(run.handle, 1, { code, message }), plain(code));
    for (const it of [vm, ended, ran]) {
      assert.throws(() => it.sysSleep(1), plain(code));
      assert.throws(() => it.sysEnd(), plain(code));
    }
  }
});

test('an error after a failure is not handed in', () => {
  const vm = fed('Start id="a" debug_id="a" known_entries=2', 'Input value=""', 'Sleep wake_up_time=1000 result_completion_id=1');
  vm.sysInput();
  assert.throws(() => vm.sysRun('charge'), JournalMismatch);
  vm.notifyError({ code: 570, message: 'CommandTypeMismatchError' });
  assert.throws(() => vm.sysRun('charge'), JournalMismatch);
});

test('a failure that is the result of a run is not handed in', () => {
  const vm = begun();
  const run = vm.sysRun('charge');
  vm.doAwait(run.handle);
  vm.proposeRetryableFailure(run.handle, 1, { code: 598, message: '' }, { kind: 'none' });
  vm.sysEnd();
  assert.throws(() => vm.sysSleep(1), Closed);
});

test('an own error of a call that hands one in is own', () => {
  for (const code of [418, Code.INTERNAL, Code.UNSUPPORTED_FEATURE]) {
    const given = { code, message: 'mine', behavior: 'pause' };
    const [old, vm] = [new VM(contentType(6)), begun()];
    old.notifyError(given); // the version has no such behavior
    assert.throws(() => old.sysEnd(), { message: '573 UNSUPPORTED_FEATURE: UnsupportedFeatureForNegotiatedVersion' });
    const refused = { message: '500 INTERNAL: no pending run' };
    assert.throws(() => vm.proposeRetryableFailure(99, 1, given), refused);
    assert.throws(() => vm.sysEnd(), refused);
  }
});

test('a journal, and what its rows ask for', () => {
  const journal = new Journal([frames.frameOf('Input value="Till"'), frames.frameOf('Sleep wake_up_time=1000 result_completion_id=1')]);
  const slept = frames.frameOf('Notification id=completion(1) result=void');
  assert.strictEqual(journal.arrive(slept).completes, 1);
  journal.keep();
  assert.throws(() => journal.arrive(slept), status('SECOND_COMPLETION'));
  const run = frames.frameOf('Run name="a" result_completion_id=2');
  const { rows, feed } = journal.store(7, Buffer.concat([run, frames.frameOf('ProposeRunCompletion id=2 result=value("x")')]));
  assert.deepStrictEqual(rows.map((it) => it.completes), [undefined, 2]);
  assert.ok(feed.length > 0);
  const effect = new frames.Message(rows[0].frame);
  assert.deepStrictEqual([effect.type, effect.id, effect.text(0)], ['runCommand', 2, 'a']);
  journal.undo();
  assert.strictEqual(journal.entries, 3);
  assert.throws(() => journal.store(4, Buffer.of()), RangeError);
});

test('frames', () => {
  const completed = frames.completion(3, frames.frameOf('Output result=value("Till")'));
  assert.strictEqual(frames.lineOf(completed), 'Notification id=completion(3) result=value("Till")');
  const suspension = frames.frameOf('Suspension future=(kind=FirstCompleted completions=[3])');
  assert.deepStrictEqual([frames.isAwake(suspension, Buffer.of()), frames.isAwake(suspension, completed)], [false, true]);
  assert.match(frames.lineOf(frames.namedSignal('go', frames.valueFrame(Buffer.alloc(100_000, 'x')))), /name\("go"\)/);
  assert.throws(() => frames.lineOf(Buffer.from('x')), { status: 'NOT_A_FRAME', message: "NOT_A_FRAME: it isn't one whole frame" });
  assert.throws(() => frames.frameOf('Sleep soundly'), status('BAD_LINE'));
});

test('worker threads have VMs of their own', async () => {
  const code = `
    const { begun } = require(${JSON.stringify(require.resolve('./common'))});
    for (let at = 0; at < 200; at++) begun().sysSleep(1000);
    require('node:worker_threads').parentPort.postMessage(begun().sysSleep(1000));
  `;
  const said = (worker) => new Promise((resolve, reject) => worker.once('message', resolve).once('error', reject));
  const workers = Array.from({ length: 4 }, () => new Worker(code, { eval: true }));
  assert.deepStrictEqual(await Promise.all(workers.map(said)), [17, 17, 17, 17]);
  await Promise.all(workers.map((it) => it.terminate()));
});

test('both kinds of modules have the same names', async () => {
  const commonjs = require('..');
  const module = await import('../lib/index.mjs');
  assert.deepStrictEqual(Object.keys(module).sort(), Object.keys(commonjs).sort());
});
