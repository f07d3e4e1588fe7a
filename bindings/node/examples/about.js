// Prints which library there is, or why there is none.
'use strict';

const { build } = require('..');

try {
  console.log(build());
} catch (error) {
  console.error(error.message);
  process.exit(1);
}
