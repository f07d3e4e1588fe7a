// Frames beside a journal: each as its line and back, its result as a notification, and whether a suspension is awake; and what a frame says.
'use strict';

const { MessageType, NUMBERS } = require('./abi');
const { addon, done, written } = require('./addon');
const lent = require('./arguments');
const { caseOf } = require('./errors');

function notification(kind, id, name, frame) {
  return written(addon().notification(kind, id, name, lent.bytes('frame', frame)));
}

const RESULTS = {
  none: NUMBERS.NO_RESULT_THERE,
  void: NUMBERS.RESULT_VOID,
  value: NUMBERS.RESULT_VALUE,
  failure: NUMBERS.RESULT_FAILURE,
  keys: NUMBERS.RESULT_KEYS,
  invocationId: NUMBERS.RESULT_INVOCATION_ID,
};

class Message {
  #frame;

  constructor(frame) {
    this.#frame = lent.bytes('frame', frame);
    const row = addon().frame_read(this.#frame);
    done(row.status);
    this.type = caseOf(MessageType, row.type);
    this.result = caseOf(RESULTS, row.result);
    [this.kind, this.id, this.second, this.rows] = [row.kind, row.id, row.second, row.rows];
    this.number = BigInt(row.number);
  }

  part(at) {
    const bytes = addon().frame_part(this.#frame, lent.u32('at', at));
    return bytes === NUMBERS.NO_PART ? undefined : written(bytes);
  }

  text(at) {
    return this.part(at)?.toString('utf8') ?? '';
  }

  pairs(first) {
    return Array.from({ length: this.rows }, (_, row) => [this.text(first + 2 * row), this.text(first + 2 * row + 1)]);
  }
}

module.exports = {
  Message,
  lineOf: (frame) => written(addon().frame_line(lent.bytes('frame', frame))).toString('utf8'),
  frameOf: (line) => written(addon().line_frame(lent.text('line', line))),
  completion: (id, frame) => notification(NUMBERS.COMPLETION, lent.u32('id', id), '', frame),
  signal: (index, frame) => notification(NUMBERS.SIGNAL, lent.u32('index', index), '', frame),
  namedSignal: (name, frame) => notification(NUMBERS.NAMED_SIGNAL, 0, lent.text('name', name), frame),
  valueFrame: (value) => written(addon().value_frame(lent.bytes('value', value))),
  inputFrame: (frame, value) => written(addon().input_frame(lent.bytes('frame', frame), lent.bytes('value', value))),
  isAwake(suspension, notifications) {
    const judged = addon().is_awake(lent.bytes('suspension', suspension), lent.bytes('notifications', notifications));
    done(judged.status);
    return judged.is_awake === 1;
  },
};
