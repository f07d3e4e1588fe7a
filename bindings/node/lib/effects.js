// What a stored row asks of a runtime, as values. The core says it, by the same table as its engine of many invocations.
'use strict';

const { MessageType, NUMBERS } = require('./abi');
const { done, written } = require('./addon');

const HEADERS = 8; // the place of the first one's name
const SILENT = [MessageType.runCommand, MessageType.notification]; // rows of these types ask for nothing

/** A row of a journal's last store that asks for something: the type of its message, its frame, what the core says of it, and its parts. */
class Asking {
  #addon;
  #journal;
  #at;

  constructor(addon, journal, at, type, frame) {
    [this.#addon, this.#journal, this.#at, this.type, this.frame] = [addon, journal, at, type, frame];
    this.said = addon.journal_effect(journal, at);
    done(this.said.status);
  }

  ifAny(place) {
    const bytes = this.#addon.journal_effect_part(this.#journal, this.#at, place);
    return bytes === NUMBERS.NO_PART ? undefined : written(bytes);
  }

  part(place) {
    return this.ifAny(place) ?? Buffer.alloc(0);
  }

  text(place) {
    return this.part(place).toString('utf8');
  }

  textIfAny(place) {
    return this.ifAny(place)?.toString('utf8');
  }
}

function begin(it) {
  const { said } = it;
  return {
    kind: 'begin',
    service: it.text(1),
    handler: it.text(2),
    key: it.text(3),
    idempotencyKey: it.textIfAny(4),
    headers: Array.from({ length: said.headers }, (_, row) => [it.text(HEADERS + 2 * row), it.text(HEADERS + 2 * row + 1)]),
    parameter: it.part(0),
    timeMillis: BigInt(said.time),
    idCompletes: said.id_completes,
    completes: said.is_awaited ? said.completes : undefined,
  };
}

const wait = ({ said }) => ({ kind: 'wait', completes: said.completes, timeMillis: BigInt(said.time) });
const output = ({ frame }) => ({ kind: 'output', result: frame });

function send(it) {
  return { kind: 'send', target: it.part(0), notification: it.part(1), isAwakeable: it.type === MessageType.completeAwakeableCommand };
}

const read = (named) => (it) => ({ kind: 'read', completes: it.said.completes, name: named ? it.text(0) : undefined });
const change = (name, value) => ({ kind: 'change', name, value });
const promise = (peeks, has) => (it) => {
  return { kind: 'promise', completes: it.said.completes, name: it.text(0), peeks, result: has ? it.frame : undefined };
};

/** By what a command names another invocation. */
function target(it) {
  if (it.said.target === NUMBERS.TARGET_INVOCATION_ID) return { invocationId: it.text(0) };
  if (it.said.target === NUMBERS.TARGET_WORKFLOW_ID) return { workflow: it.text(1), key: it.text(3) };
  return { service: it.text(1), handler: it.text(2), serviceKey: it.text(3), idempotencyKey: it.text(4) };
}

const attach = (peeks) => (it) => ({ kind: 'attach', completes: it.said.completes, target: target(it), peeks });

/** By the types of the messages (docs/WIRE.md). */
const COMMANDS = {
  12: read(true),
  14: read(false),
  15: (it) => change(it.text(0), it.part(1)),
  16: (it) => change(it.text(0), undefined),
  17: () => change(undefined, undefined),
  23: promise(false, false),
  24: promise(true, false),
  25: promise(false, true),
  27: attach(false),
  28: attach(true),
};

const KINDS = {
  [NUMBERS.EFFECT_NOTHING]: () => undefined,
  [NUMBERS.EFFECT_BEGIN]: begin,
  [NUMBERS.EFFECT_WAIT]: wait,
  [NUMBERS.EFFECT_SEND]: send,
  [NUMBERS.EFFECT_RESULT]: output,
  [NUMBERS.EFFECT_COMMAND]: (it) => COMMANDS[it.type](it),
};

/** What a row of a journal's last store asks for; undefined if it asks for nothing. */
function effectOf(addon, journal, at, type, frame) {
  if (SILENT.includes(type)) return undefined;
  const it = new Asking(addon, journal, at, type, frame);
  return KINDS[it.said.kind](it);
}

module.exports = { effectOf };
