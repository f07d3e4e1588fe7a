'use strict';

const { NUMBERS, SUPPORTED_VERSIONS } = require('./abi');
const { addon } = require('./addon');
const lent = require('./arguments');
const { Difference } = require('./differing');
const { Closed, Code, JournalMismatch, LoadError, StatusError, Suspended, VMError } = require('./errors');
const frames = require('./frames');
const { Future, allCompleted, allSucceededOrFirstFailed, firstCompleted, firstSucceededOrAllFailed, unknown } = require('./future');
const { Journal } = require('./journal');
const { VM } = require('./vm');

module.exports = {
  CANCEL_HANDLE: NUMBERS.CANCEL_HANDLE,
  Closed,
  Code,
  Difference,
  Future,
  Journal,
  JournalMismatch,
  LoadError,
  StatusError,
  SUPPORTED_VERSIONS,
  Suspended,
  VM,
  VMError,
  allCompleted,
  allSucceededOrFirstFailed,
  build: () => addon().build(),
  contentType: (version) => `application/vnd.restate.invocation.v${lent.version('version', version)}`,
  firstCompleted,
  firstSucceededOrAllFailed,
  frames,
  isProved: () => addon().is_proved(),
  libraryVersion: () => addon().version(),
  unknown,
};
