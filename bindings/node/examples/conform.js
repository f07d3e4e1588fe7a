// Plays the conformance suite (docs/CONFORMANCE.md): it reads rows on standard input, a row a line, and prints 'ok ROW', or what differs and then
// 'not ok ROW'. Its status is 0 if all rows fit.
'use strict';

const { createInterface } = require('node:readline');
const { isDeepStrictEqual } = require('node:util');
const palqytun = require('..');
const given = require('./arguments');

const { VM, VMError } = palqytun;
const none = () => null;
const hex = (bytes) => Buffer.from(bytes).toString('hex');
const exact = (it) => (it <= Number.MAX_SAFE_INTEGER ? Number(it) : `${it}`);
const capital = (it) => it[0].toUpperCase() + it.slice(1);

function awaited(it) {
  switch (it.kind) {
    case 'anyCompleted':
      return 'any';
    case 'cancelSignalReceived':
      return 'cancelled';
    case 'executeRun':
      return { run: it.handle };
    case 'ephemeralNotificationReady':
      return { ephemeral: it.id };
    default:
      return { wait: { input: it.waitingInput, run: it.waitingRunProposal } };
  }
}

function taken(it) {
  switch (it?.kind) {
    case undefined:
      return 'none';
    case 'void':
      return 'void';
    case 'success':
      return { success: hex(it.value) };
    case 'stateKeys':
      return { keys: it.keys };
    case 'invocationId':
      return { invocation: it.id };
    default:
      return { failure: { code: it.code, message: it.message, metadata: it.metadata } };
  }
}

function input(it) {
  return {
    invocation_id: it.invocationId,
    random_seed: exact(it.randomSeed),
    key: it.key,
    scope: it.scope ?? null,
    limit_key: it.limitKey ?? null,
    idempotency_key: it.idempotencyKey ?? null,
    headers: it.headers,
    value: hex(it.input),
  };
}

function propose(vm, step) {
  const policy = given.policy(step.policy);
  const { retryable } = step.result;
  if (!retryable) return vm.proposeRunCompletion(step.handle, given.value(step.result), policy);
  return vm.proposeRetryableFailure(step.handle, given.time(retryable.duration ?? 0), given.error(retryable), policy);
}

const CALLS = {
  get_response_head(vm) {
    const { statusCode, headers } = vm.getResponseHead();
    return { status_code: statusCode, version: vm.version, headers };
  },
  notify_input: (vm, it) => none(vm.notifyInput(given.bytes(it.data))),
  notify_input_closed: (vm) => none(vm.notifyInputClosed()),
  notify_error: (vm, it) => none(vm.notifyError(given.error(it), given.related(it.related))),
  take_output: (vm) => hex(vm.takeOutput()),
  is_ready_to_execute: (vm) => vm.isReadyToExecute(),
  is_completed: (vm, it) => vm.isCompleted(it.handle),
  state: (vm) => capital(vm.state()),
  last_command_index: (vm) => vm.lastCommandIndex(),
  do_await: (vm, it) => awaited(vm.doAwait(given.future(it.future))),
  take_notification: (vm, it) => taken(vm.takeNotification(it.handle)),
  take_ephemeral_notification: (vm, it) => taken(vm.takeEphemeralNotification(it.id)),
  sys_input: (vm) => input(vm.sysInput()),
  sys_sleep: (vm, it) => vm.sysSleep(given.time(it.wake_up_time), it),
  sys_state_get: (vm, it) => vm.sysStateGet(it.key, it),
  sys_state_get_keys: (vm, it) => vm.sysStateGetKeys(it),
  ephemeral_state_get: (vm, it) => vm.ephemeralStateGet(it.key),
  sys_state_set: (vm, it) => none(vm.sysStateSet(it.key, given.bytes(it.value), it)),
  sys_state_clear: (vm, it) => none(vm.sysStateClear(it.key, it)),
  sys_state_clear_all: (vm, it) => none(vm.sysStateClearAll(it)),
  sys_call: (vm, it) => Object.values(vm.sysCall(given.target(it), given.bytes(it.value), it)),
  sys_call_with_deadline: (vm, it) =>
    Object.values(vm.sysCallWithDeadline(given.target(it), given.bytes(it.value), given.time(it.wake_up_time), it)),
  sys_send: (vm, it) => vm.sysSend(given.target(it), given.bytes(it.value), { ...it, atMillis: it.at === undefined ? undefined : given.time(it.at) }),
  sys_cancel_invocation: (vm, it) => none(vm.sysCancelInvocation(it.invocation_id)),
  sys_attach_invocation: (vm, it) => vm.sysAttachInvocation(given.invocation(it.target)),
  sys_get_invocation_output: (vm, it) => vm.sysGetInvocationOutput(given.invocation(it.target)),
  sys_awakeable: (vm) => vm.sysAwakeable(),
  sys_complete_awakeable: (vm, it) => none(vm.sysCompleteAwakeable(it.id, given.value(it.value), it)),
  create_signal_handle: (vm, it) => vm.createSignalHandle(it.name),
  sys_complete_signal: (vm, it) => none(vm.sysCompleteSignal(it.invocation_id, it.name, given.value(it.value))),
  sys_get_promise: (vm, it) => vm.sysGetPromise(it.key),
  sys_peek_promise: (vm, it) => vm.sysPeekPromise(it.key),
  sys_complete_promise: (vm, it) => vm.sysCompletePromise(it.key, given.value(it.value), it),
  sys_run: (vm, it) => vm.sysRun(it.name),
  propose_run_completion: (vm, it) => none(propose(vm, it)),
  sys_write_output: (vm, it) => none(vm.sysWriteOutput(given.value(it.value), it)),
  sys_end: (vm) => none(vm.sysEnd()),
};

/** The types of whole frames; null if there is anything else. */
function frames(output) {
  const types = [];
  let left = Buffer.from(output, 'hex');
  while (left.length > 0) {
    const length = left.length < 10 ? Infinity : 10 + Number(left.readBigUInt64BE(2));
    if (left.length < length) return null;
    types.push(left.readUInt16BE(0));
    left = left.subarray(length);
  }
  return types;
}

function performed(vm, step) {
  try {
    return { returns: CALLS[step.call](vm, step) };
  } catch (error) {
    if (!(error instanceof VMError)) throw error;
    const difference = step.error?.difference === undefined ? {} : { difference: error.difference?.toString() };
    return { error: { code: error.code, message: error.text, ...difference } };
  }
}

function fits(step, found) {
  if (step.frames) return 'returns' in found && isDeepStrictEqual(frames(found.returns), step.frames);
  const wanted = 'error' in step ? { error: step.error } : { returns: step.returns };
  return isDeepStrictEqual(found, wanted);
}

/** Plays a row; whether it fits. */
function play(row) {
  let vm;
  let isWell = true;
  for (const [at, step] of row.steps.entries()) {
    let found;
    if (step.call === 'new') {
      vm?.close();
      vm = undefined;
      found = performed(null, { call: 'new', error: step.error, make: () => (vm = new VM(step.content_type ?? null, given.options(step.options))).version });
    } else if (vm === undefined) {
      break;
    } else {
      found = performed(vm, step);
    }
    if (!fits(step, found)) {
      console.log(`${row.row} (${row.under}), step ${at}, ${step.call}: ${JSON.stringify(found)}`);
      isWell = false;
    }
  }
  vm?.close();
  console.log(`${isWell ? 'ok' : 'not ok'} ${row.row}`);
  return isWell;
}

CALLS.new = (_, step) => step.make();

const lines = createInterface({ input: process.stdin });
lines.on('line', (line) => {
  if (!play(JSON.parse(line))) process.exitCode = 1;
});
