// A mismatch says in what the call isn't as the journal has it.
'use strict';

const assert = require('node:assert');
const { test } = require('node:test');
const { JournalMismatch, VM, contentType, frames } = require('..');
const { begun } = require('./common');

const ada = (first, second) =>
  `Call service_name="Greeter" handler_name="greet" parameter="Ada" invocation_id_notification_idx=${first} result_completion_id=${second}`;
const SLEEP = 'Sleep wake_up_time=1000 result_completion_id=1';

/** A VM of version 7 that has its input, with these lines of frames behind it in the journal. */
function over(lines, options) {
  const vm = new VM(contentType(7), options);
  for (const line of [`Start id="abc" debug_id="abc" known_entries=${1 + lines.length}`, 'Input', ...lines]) {
    const frame = frames.frameOf(line);
    vm.notifyInput(frame);
    frame.fill(255); // the caller's buffer is its own again
  }
  vm.sysInput();
  return vm;
}

/** What a call is refused by. */
function refusal(call) {
  try {
    call();
  } catch (error) {
    return error;
  }
  throw new Error('the call was made');
}

const greet = (vm, parameter, how) => refusal(() => vm.sysCall({ service: 'Greeter', handler: 'greet' }, Buffer.from(parameter), how));
const values = ({ difference: { field, recorded, asked } }) => [field, recorded, asked];

test('a call with another argument', () => {
  const vm = over([ada(1, 2)]);
  const error = greet(vm, 'Bob');
  assert.ok(error instanceof JournalMismatch);
  assert.deepStrictEqual({ ...error.difference }, { index: 1, field: 'parameter', recorded: '"Ada"', asked: '"Bob"', recordedType: 'call', askedType: 'call' });
  const text = '570 JOURNAL_MISMATCH: CommandMismatchError: command 1, Call, is recorded with parameter "Ada", and the call gives "Bob"';
  assert.strictEqual(error.message, text);
  assert.ok(error.stack.includes(text));
  assert.strictEqual(error.inWords({ call: 'ctx.serviceCall' }), text.replace(', Call,', ', ctx.serviceCall,'));
  assert.strictEqual(refusal(() => vm.sysSleep(1)).message, text);
});

test('what replay does not compare', () => {
  for (const [options, unstable] of [[{}, true], [{ nonDeterministicChecks: 'payloadChecksDisabled' }, false]]) {
    assert.deepStrictEqual(values(greet(over([`${ada(1, 2)} name="n"`], options), 'Bob', { name: 'm', unstable })), ['name', '"n"', '"m"']);
  }
});

test('ids follow those before', () => {
  for (const [parameter, wanted] of [['Bob', ['parameter', '"Ada"', '"Bob"']], ['Ada', ['result_completion_id', '7', '3']]]) {
    const vm = over([SLEEP, ada(2, 7)]);
    vm.sysSleep(1000);
    assert.deepStrictEqual(values(greet(vm, parameter)), wanted);
  }
});

test('another command, and an await', () => {
  const { difference } = refusal(() => over([SLEEP]).sysRun('charge'));
  assert.deepStrictEqual([difference.field, difference.recorded, difference.asked], ['type', 'Sleep', 'Run']);
  assert.strictEqual(`${difference}`, 'command 1 is recorded as Sleep, and the call makes Run');
  const vm = over([SLEEP]);
  const waits = refusal(() => vm.doAwait(vm.createSignalHandle('go'))).difference;
  assert.strictEqual(`${waits}`, "command 1 is recorded as Sleep, and the code awaits what hasn't come");
  assert.strictEqual(waits.askedType, undefined);
});

test('what is done after an error', () => {
  const vm = begun();
  vm.notifyError({ code: 418, message: 'no tea', behavior: 'pause', nextRetryDelayMillis: 500 });
  const error = refusal(() => vm.sysRun('charge'));
  assert.deepStrictEqual([error.behavior, Number(error.nextRetryDelayMillis)], ['pause', 500]);
  const other = refusal(() => over([SLEEP], { journalMismatchRetryBehavior: 'failTerminally' }).sysRun('charge'));
  assert.deepStrictEqual([other.behavior, other.nextRetryDelayMillis], ['fail', undefined]);
});

test('without a difference', () => {
  const vm = over([SLEEP]);
  vm.notifyError({ code: 570, message: 'CommandTypeMismatchError' });
  assert.strictEqual(refusal(() => vm.sysRun('charge')).difference, undefined);
  const ended = begun();
  ended.sysEnd();
  assert.strictEqual(refusal(() => ended.sysRun('charge')).difference, undefined);
});

test('a long value is shortened', () => {
  const output = Buffer.concat([Buffer.from([34, 255]), Buffer.alloc(1 << 20)]);
  const { recorded, asked } = refusal(() => over(['Output result=value("a")']).sysWriteOutput(output)).difference;
  assert.deepStrictEqual([recorded, asked.length], ['value("a")', 122]);
  assert.ok(asked.startsWith('value("\\x22\\xff\\x00') && asked.endsWith('..'));
});
