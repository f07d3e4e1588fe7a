// Prints what a call takes, in nanoseconds of the processor: the best of some rounds, of 1,000 calls each. With `allocations` it is how many bytes a call takes of
// V8's heap and of buffers; nothing is to be collected meanwhile.
// usage: bench.js ROUNDS, or node --expose-gc --max-semi-space-size=256 bench.js ROUNDS allocations
'use strict';

const { VM, frames } = require('..');

const CALLS = 1000;
const START = ['Start id="abc" debug_id="abc" known_entries=1', 'Input value="Till"'].map((it) => frames.frameOf(it));
const [value, input, target] = [Buffer.from('value'), Buffer.from('Ada'), { service: 'Greeter', handler: 'greet' }];
const CASES = {
  sleep: (vm) => vm.sysSleep(1000),
  state: (vm) => vm.sysStateSet('key', value),
  call: (vm) => vm.sysCall(target, input),
  await: (vm) => vm.doAwait(17),
};

function time() {
  const { user, system } = process.cpuUsage();
  return (user + system) * 1000;
}

function allocated() {
  const { heapUsed, external } = process.memoryUsage();
  return heapUsed + external;
}

const read = process.argv[3] ? allocated : time;

function round(call) {
  const vm = new VM('application/vnd.restate.invocation.v7');
  for (const frame of START) vm.notifyInput(frame);
  vm.sysInput();
  vm.sysSleep(1000);
  if (process.argv[3]) globalThis.gc();
  const begun = read();
  for (let at = 0; at < CALLS; at++) call(vm);
  const took = read() - begun;
  vm.close();
  return took / CALLS;
}

for (const [name, call] of Object.entries(CASES)) {
  const took = Array.from({ length: Number(process.argv[2]) }, () => round(call));
  console.log(name, Math.min(...took).toFixed(1));
}
