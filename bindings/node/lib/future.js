// What can be awaited beside a handle: trees of handles.
'use strict';

const { NUMBERS } = require('./abi');
const { u32, wanted } = require('./arguments');

/** A tree over handles. The functions below make it. */
class Future {
  /** Each node after those of its children: a kind and how many there are, or 0 and a handle. */
  constructor(nodes) {
    this.nodes = nodes;
    Object.freeze(this);
  }
}

function nodesOf(name, it) {
  if (it instanceof Future) return it.nodes;
  if (typeof it !== 'number') throw wanted(name, 'a handle or a Future', it);
  return [NUMBERS.SINGLE, u32(name, it)];
}

function over(kind, children) {
  const nodes = children.flatMap((it) => Array.from(nodesOf('each child', it)));
  return new Future(Uint32Array.from([...nodes, kind, children.length]));
}

module.exports = {
  Future,
  firstCompleted: (...children) => over(NUMBERS.FIRST_COMPLETED, children),
  allCompleted: (...children) => over(NUMBERS.ALL_COMPLETED, children),
  firstSucceededOrAllFailed: (...children) => over(NUMBERS.FIRST_SUCCEEDED_OR_ALL_FAILED, children),
  allSucceededOrFirstFailed: (...children) => over(NUMBERS.ALL_SUCCEEDED_OR_FIRST_FAILED, children),
  unknown: (...children) => over(NUMBERS.UNKNOWN, children),
};
