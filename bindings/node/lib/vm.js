// The invocation VM: a method for each of its calls.
'use strict';

const { NUMBERS, State } = require('./abi');
const { addon, done, made, pairs, part, text, written } = require('./addon');
const lent = require('./arguments');
const { Replayed } = require('./differing');
const { StatusError, caseOf } = require('./errors');
const { Future } = require('./future');

const NAMED = { name: '', unstable: false };

/** The name and the flag of a call. */
function named(it = NAMED) {
  lent.object('how', it);
  return [it.name === undefined ? '' : lent.text('name', it.name), lent.flag('unstable', it.unstable)];
}

class VM {
  #addon;
  #session;
  #version;
  /** It has failed by an error that was handed in, which each later call raises. */
  #failedByHandedIn = false;
  /** An error has failed it, which may say in what a call isn't as recorded. */
  #isRefused = false;
  #difference;
  #replayed;

  constructor(contentType, options) {
    const asked = lent.optional('contentType', contentType);
    const given = lent.options(options);
    this.#addon = addon();
    const session = this.#addon.open();
    if (typeof session === 'number') throw new StatusError(session);
    this.#session = session;
    try {
      this.#version = made(this.#addon, session, this.#addon.make(session, asked, given))[2];
    } catch (error) {
      this.close();
      throw error;
    }
    this.#replayed = new Replayed(VM, this.#version, options);
  }

  get version() {
    return this.#version;
  }

  close() {
    const status = this.#addon.close(this.#session);
    if (status !== NUMBERS.NO_SESSION) done(status);
  }

  /** Makes a typed call, and gives its reply. */
  #call(name, ...given) {
    return this.#made(this.#addon[name](this.#session, ...given), name, given);
  }

  /** The reply of a call of this name with these arguments. */
  #made(status, name, given) {
    if (status === NUMBERS.DONE) return this.#addon.reply;
    return made(this.#addon, this.#session, status, this.#failedByHandedIn, (text, related) => this.#differs(text, related, name, given));
  }

  /** In what the call isn't as recorded that has failed the VM: it is this one, if none had failed it, and the error has this text and related command. */
  #differs(text, related, name, given) {
    if (this.#isRefused) return this.#difference;
    this.#isRefused = true;
    const last = () => {
      const isThere = this.#addon.last_command_index(this.#session) === NUMBERS.DONE && this.#addon.reply[1] === NUMBERS.INDEX;
      return isThere ? this.#addon.reply[5] : -1;
    };
    this.#difference = this.#replayed.difference(text, related, last, given, (vm) => vm.#addon[name](vm.#session, ...given));
    return this.#difference;
  }

  /** Makes a call that hands in this error. If the VM fails by it, each later call is refused by it; a VM that had failed keeps its first error. */
  #handIn(error, name, ...given) {
    const hadFailed = this.#hasFailed();
    const status = this.#addon[name](this.#session, ...given);
    if (!hadFailed) this.#failedByHandedIn = this.#hasFailedBy(error, status);
    this.#isRefused ||= this.#failedByHandedIn;
    this.#made(status, name, given);
  }

  /**
   * Whether the VM has failed by this error, after a call of this status that handed it in. It may also have failed by one of its own, which says
   * something else: the version has no such behavior, nobody waits for the run, or no memory was found.
   */
  #hasFailedBy({ code, message }, status) {
    if (!this.#hasFailed(status === NUMBERS.REFUSED ? status : undefined)) return false;
    return this.#addon.reply[5] === code && (this.#text(0) ?? '') === message;
  }

  /** Whether the VM has failed: only then an error that it returns is of this kind. The status is that of the last reply, if it is of a refusal. */
  #hasFailed(status = this.#addon.is_ready(this.#session)) {
    return status === NUMBERS.REFUSED && this.#addon.reply[1] === NUMBERS.ERROR;
  }

  #text(at) {
    return text(this.#addon, this.#session, at);
  }

  // ---- The attempt

  getResponseHead() {
    const [, , , , , statusCode, , rows] = this.#call('head');
    return { statusCode, headers: pairs(this.#addon, this.#session, 0, rows) };
  }

  notifyInput(data) {
    done(this.#addon.feed(this.#session, lent.bytes('data', data)));
    this.#replayed.feed(data);
  }

  notifyInputClosed() {
    this.#call('close_input');
  }

  notifyError(error, related) {
    const [given, command] = [lent.error('error', error), lent.command(related)];
    this.#handIn(given, 'report_error', given, command);
  }

  takeOutput() {
    const output = written(this.#addon.take_output(this.#session));
    if (output.length > 0) this.#replayed.ends();
    return output;
  }

  /** The VM in a line for a log; or its status, once it was closed. */
  toString() {
    try {
      return `VM(${written(this.#addon.describe(this.#session)).toString()})`;
    } catch (error) {
      if (error instanceof StatusError) return `VM(${error.message})`;
      throw error;
    }
  }

  [Symbol.for('nodejs.util.inspect.custom')]() {
    return this.toString();
  }

  isReadyToExecute() {
    return this.#call('is_ready')[2] === 1;
  }

  state() {
    return caseOf(State, this.#call('state')[2]);
  }

  lastCommandIndex() {
    const [, kind, , , , low, high] = this.#call('last_command_index');
    return kind === NUMBERS.INDEX ? low + high * 2 ** 32 : -1;
  }

  // ---- Awaits

  doAwait(future) {
    const [, kind, first, second] = future instanceof Future ? this.#call('await_tree', future.nodes) : this.#call('await', lent.u32('future', future));
    if (kind !== NUMBERS.AWAKE && kind !== NUMBERS.CANCELLED) this.#replayed.ends();
    switch (kind) {
      case NUMBERS.WAITING:
        return { kind: 'waitingExternalProgress', waitingInput: first === 1, waitingRunProposal: second === 1 };
      case NUMBERS.EXECUTE_RUN:
        return { kind: 'executeRun', handle: first };
      case NUMBERS.EPHEMERAL:
        return { kind: 'ephemeralNotificationReady', id: first };
      case NUMBERS.CANCELLED:
        return { kind: 'cancelSignalReceived' };
      default:
        return { kind: 'anyCompleted' };
    }
  }

  isCompleted(handle) {
    return this.#call('is_completed', lent.u32('handle', handle))[2] === 1;
  }

  takeNotification(handle) {
    return this.#taken(this.#call('take', lent.u32('handle', handle)));
  }

  takeEphemeralNotification(id) {
    return this.#taken(this.#call('take_ephemeral', lent.u32('id', id)));
  }

  #taken([, kind, , , , code, , rows]) {
    switch (kind) {
      case NUMBERS.VOID:
        return { kind: 'void' };
      case NUMBERS.VALUE:
        return { kind: 'success', value: part(this.#addon, this.#session, 0) };
      case NUMBERS.FAILURE:
        return { kind: 'failure', code, message: this.#text(0), metadata: pairs(this.#addon, this.#session, 1, rows) };
      case NUMBERS.KEYS:
        return { kind: 'stateKeys', keys: Array.from({ length: rows }, (_, at) => this.#text(at)) };
      case NUMBERS.INVOCATION_ID:
        return { kind: 'invocationId', id: this.#text(0) };
      default:
        return undefined;
    }
  }

  // ---- The handler's calls

  sysInput() {
    const [, , , , , low, high, rows] = this.#call('input');
    this.#replayed.begins();
    return {
      input: part(this.#addon, this.#session, 0),
      invocationId: this.#text(1),
      key: this.#text(2),
      scope: this.#text(3),
      limitKey: this.#text(4),
      idempotencyKey: this.#text(5),
      headers: pairs(this.#addon, this.#session, 6, rows),
      randomSeed: (BigInt(high) << 32n) | BigInt(low),
    };
  }

  sysSleep(wakeUpMillis, how) {
    const [name] = named(how);
    return this.#call('sleep', name, lent.u64('wakeUpMillis', wakeUpMillis))[2];
  }

  sysStateGet(key, how) {
    return this.#call('state_get', lent.text('key', key), named(how)[0])[2];
  }

  sysStateGetKeys(how) {
    return this.#call('state_get_keys', named(how)[0])[2];
  }

  ephemeralStateGet(key) {
    return this.#call('ephemeral_state_get', lent.text('key', key))[2];
  }

  sysStateSet(key, value, how) {
    this.#call('state_set', lent.text('key', key), lent.bytes('value', value), ...named(how));
  }

  sysStateClear(key, how) {
    this.#call('state_clear', lent.text('key', key), named(how)[0]);
  }

  sysStateClearAll(how) {
    this.#call('state_clear_all', named(how)[0]);
  }

  sysCall(target, input, how) {
    const [, , invocationId, result] = this.#call('call', lent.target(target), lent.bytes('input', input), ...named(how));
    return { invocationId, result };
  }

  sysCallWithDeadline(target, input, deadlineMillis, how) {
    const given = [lent.target(target), lent.bytes('input', input), lent.u64('deadlineMillis', deadlineMillis)];
    const [, , invocationId, result, deadline] = this.#call('call_with_deadline', ...given, ...named(how));
    return { invocationId, result, deadline };
  }

  sysSend(target, input, how = NAMED) {
    lent.object('how', how);
    const at = how.atMillis === undefined ? 0n : lent.u64('atMillis', how.atMillis);
    return this.#call('send', lent.target(target), lent.bytes('input', input), at, ...named(how))[2];
  }

  sysCancelInvocation(invocationId) {
    this.#call('cancel_invocation', lent.text('invocationId', invocationId));
  }

  sysAttachInvocation(target) {
    return this.#call('attach', lent.invocation(target))[2];
  }

  sysGetInvocationOutput(target) {
    return this.#call('get_output', lent.invocation(target))[2];
  }

  sysAwakeable() {
    const handle = this.#call('awakeable')[2];
    return { handle, id: this.#text(0) };
  }

  sysCompleteAwakeable(id, value, how) {
    this.#call('complete_awakeable', lent.text('id', id), lent.value('value', value), named(how)[1]);
  }

  createSignalHandle(name) {
    return this.#call('signal', lent.text('name', name))[2];
  }

  sysCompleteSignal(invocationId, name, value) {
    const given = [lent.text('invocationId', invocationId), lent.text('name', name), lent.value('value', value)];
    this.#call('complete_signal', ...given);
  }

  sysGetPromise(key) {
    return this.#call('get_promise', lent.text('key', key))[2];
  }

  sysPeekPromise(key) {
    return this.#call('peek_promise', lent.text('key', key))[2];
  }

  sysCompletePromise(key, value, how) {
    return this.#call('complete_promise', lent.text('key', key), lent.value('value', value), named(how)[1])[2];
  }

  sysRun(name) {
    const [, , handle, replayed] = this.#call('run', lent.text('name', name));
    return { handle, replayed: replayed === 1 };
  }

  proposeRunCompletion(handle, value, policy) {
    this.#call('propose', lent.u32('handle', handle), lent.value('value', value), lent.policy(policy));
  }

  proposeRetryableFailure(handle, tookMillis, error, policy) {
    const [run, took, given, under] = [lent.u32('handle', handle), lent.u64('tookMillis', tookMillis), lent.error('error', error), lent.policy(policy)];
    this.#handIn(given, 'propose_retryable', run, took, given, under);
  }

  sysWriteOutput(value, how) {
    this.#call('write_output', lent.value('value', value), named(how)[1]);
  }

  sysEnd() {
    this.#call('end');
  }
}

if (Symbol.dispose) VM.prototype[Symbol.dispose] = VM.prototype.close;

module.exports = { VM };
