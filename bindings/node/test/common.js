'use strict';

const { VM, frames } = require('..');

/** A VM of version 7 that was fed these lines. */
function fed(...lines) {
  const vm = new VM('application/vnd.restate.invocation.v7');
  for (const line of lines) vm.notifyInput(frames.frameOf(line));
  return vm;
}

/** A VM of version 7 that has its input. */
function begun() {
  const vm = fed('Start id="abc" debug_id="abc" known_entries=1', 'Input value="Till"');
  vm.sysInput();
  return vm;
}

module.exports = { begun, fed };
