// In what a call that was refused isn't as the journal has it.
'use strict';

const { CommandType, NUMBERS } = require('./abi');
const { addon, written } = require('./addon');
const { caseOf } = require('./errors');
const frames = require('./frames');

class Difference {
  constructor(index, [field, recorded, asked], [recordedType, askedType]) {
    Object.assign(this, { index, field, recorded, asked, recordedType, askedType });
    Object.freeze(this);
  }

  inWords(names = {}) {
    const { index, field, recorded, asked } = this;
    const [own, made] = [this.recordedType, this.askedType].map((it) => it && (names[it] ?? it[0].toUpperCase() + it.slice(1)));
    if (own === undefined) return `no command is recorded at ${index}, and the call makes ${made}`;
    if (made === undefined) return `command ${index} is recorded as ${own}, and the code awaits what hasn't come`;
    if (field === 'type') return `command ${index} is recorded as ${own}, and the call makes ${made}`;
    return `command ${index}, ${own}, is recorded with ${field} ${recorded ?? 'nothing'}, and the call gives ${asked ?? 'nothing'}`;
  }

  toString() {
    return this.inWords();
  }
}

const MISMATCHES = new Set(['UnavailableEntryError', 'CommandTypeMismatchError', 'CommandMismatchError']);

/** The index of the recorded command, and the type of the call's message, 0 of an await; undefined if the error is about no such. */
function place(text, related, last) {
  if (text === 'UncompletedDoProgressDuringReplay') return [last() + 1, 0];
  return related && MISMATCHES.has(text) ? [related.index, related.type] : undefined;
}

/** What a call writes on a new VM, whose journal has an input alone, and whose state is empty. A read of the state is made in one of its two forms. */
function again(VM, version, isLazy, call) {
  const vm = new VM(`application/vnd.restate.invocation.v${version}`, { awaitingOnPolicy: 'dontSend' });
  try {
    vm.notifyInput(frames.frameOf(`Start id="-" debug_id="-" known_entries=1 partial=${isLazy}`));
    vm.notifyInput(frames.frameOf('Input'));
    vm.sysInput();
    call(vm);
    return vm.takeOutput();
  } finally {
    vm.close();
  }
}

/** What a VM was fed before its handler began, to say in what a call isn't as recorded. It is kept until the journal is replayed. */
class Replayed {
  #VM;
  #version;
  #fed;
  #isBegun = false;
  #ignoresPayloads;

  constructor(VM, version, { journalReplay, nonDeterministicChecks } = {}) {
    this.#VM = VM;
    this.#version = version;
    this.#fed = journalReplay === 'disabled' ? undefined : [];
    this.#ignoresPayloads = nonDeterministicChecks === 'payloadChecksDisabled';
  }

  /** Keeps bytes, which stay the caller's. */
  feed(data) {
    if (!this.#isBegun) this.#fed?.push(Uint8Array.prototype.slice.call(data));
  }

  /** The handler begins: all recorded commands were fed. */
  begins() {
    this.#isBegun = true;
  }

  /** What comes from now on isn't replayed. */
  ends() {
    this.#fed = undefined;
  }

  /** In what a call with these arguments isn't as recorded, if the error with this text and related command is about that. `last` gives the index of the
   * last command. */
  difference(text, related, last, given, call) {
    const at = place(text, related, last);
    if (this.#fed === undefined || at === undefined) return undefined;
    const fed = Buffer.concat(this.#fed);
    const compared = addon().mismatch(fed, ...at);
    if (compared.status !== NUMBERS.DONE) return undefined;
    const recorded = compared.is_recorded === 1 ? caseOf(CommandType, compared.recorded) : undefined;
    const asks = compared.is_asked === 1 ? caseOf(CommandType, compared.asked) : undefined;
    const asked = recorded === asks ? again(this.#VM, this.#version, compared.is_lazy === 1, call) : new Uint8Array();
    const ignores = this.#ignoresPayloads || given.at(-1) === true;
    const parts = [0, 1, 2].map((part) => {
      const bytes = addon().mismatch_part(fed, ...at, asked, ignores, part);
      return bytes === NUMBERS.NO_PART ? undefined : written(bytes).toString('latin1');
    });
    return parts[0] === undefined ? undefined : new Difference(at[0], parts, [recorded, asks]);
  }
}

module.exports = { Difference, Replayed };
