// Compiles the addon by the compiler of C, without a network: node build.js. It wants the headers of Node-API, which stand beside Node, or which
// Debian's package libnode-dev has; NODE_INCLUDE may name another folder.
'use strict';

const { execFileSync } = require('node:child_process');
const { existsSync, mkdirSync } = require('node:fs');
const path = require('node:path');

const folders = [process.env.NODE_INCLUDE, path.resolve(process.execPath, '../../include/node'), '/usr/include/node'];
const include = folders.find((it) => it && existsSync(path.join(it, 'node_api.h')));
if (!include) {
  const looked = folders.filter(Boolean).join(', ');
  console.error(`palqytun: no node_api.h in ${looked}: install Debian's libnode-dev, or name the folder by NODE_INCLUDE`);
  process.exit(1);
}
const made = path.join(__dirname, 'build', 'palqytun.node');
mkdirSync(path.dirname(made), { recursive: true });
const sources = ['addon.c', 'glue.c', 'calls.c', 'palqytun_abi.c'].map((it) => path.join(__dirname, 'src', it));
const flags = ['-std=c11', '-O2', '-Wall', '-Wextra', '-fPIC', '-shared', '-pthread', `-I${include}`];
try {
  execFileSync(process.env.CC || 'cc', [...flags, '-o', made, ...sources, '-ldl'], { stdio: 'inherit' });
} catch (error) {
  console.error(`palqytun: the addon can't be compiled: ${error.message}`);
  process.exit(1);
}
