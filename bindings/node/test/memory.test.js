// A hundred thousand VMs and journals are opened and closed, and memory doesn't grow.
'use strict';

const assert = require('node:assert');
const { test } = require('node:test');
const { Journal } = require('..');
const { begun } = require('./common');

const MOST = 64 * 2 ** 20; // bytes, of which JavaScript's own heap has most: VMs that stay would take more than 200 MB

function openAndClose(many) {
  for (let at = 0; at < many; at++) {
    begun().close();
    new Journal().close();
  }
}

test('memory does not grow', async () => {
  const turn = () => new Promise((resolve) => setImmediate(resolve));
  openAndClose(10_000);
  await turn();
  const before = process.memoryUsage().rss;
  for (let at = 0; at < 100; at++) {
    openAndClose(1_000);
    await turn();
  }
  const grown = process.memoryUsage().rss - before;
  assert.ok(grown < MOST, `${grown} bytes more`);
});
