// Runs the session of tests/port/bare.c as a module for wasm64, and the module that ./library links beside the archive.
//
//   node [--experimental-wasm-memory64] tests/port/wasm.js                       ends with 0 if this node knows wasm64
//   node [--experimental-wasm-memory64] tests/port/wasm.js SESSION MODULE NAME...  SESSION is the session, linked; MODULE is
//       thurafeqa.wasm, which must export calls of these names and no other
//
// The exit status is the number of the check in tests/port/bare.c that fails, 200 if it is one of those below, 0 if none does.
'use strict';
const fs = require('fs');
const [session, library, ...names] = process.argv.slice(2);

// a module with nothing but a memory of 64-bit addresses
const smallest = new Uint8Array([0, 0x61, 0x73, 0x6d, 1, 0, 0, 0, 5, 3, 1, 4, 1]);
if (session === undefined) process.exit(WebAssembly.validate(smallest) ? 0 : 1);

function load(file) {
    const module = new WebAssembly.Module(fs.readFileSync(file));
    is('imports', WebAssembly.Module.imports(module).length, 0);
    return new WebAssembly.Instance(module).exports;
}

function is(what, seen, wanted) {
    if (seen === wanted) return;
    console.log(`${what}: ${seen} and not ${wanted}`);
    process.exit(200);
}

const failed = load(session).session();
if (failed !== 0) process.exit(failed);

// a host whose SDO is wired to its own SDI, in the free memory of the module, and a script that is saved and played
const t = load(library);
is('exports', Object.keys(t).sort().join(' '), [...names, '__heap_base', 'memory'].sort().join(' '));
const m = t.__heap_base.value, text = m + 256n, file = m + 512n;
const bytes = () => new Uint8Array(t.memory.buffer);
is('free memory', t.memory.buffer.byteLength - Number(m) >= 131072, true);
t.thurafeqa_power_up(m);
is('CON1', t.thurafeqa_write(m, 1, 0x20), 0);
is('STAT', t.thurafeqa_write(m, 0, 0x8000), 0);
is('BUF', t.thurafeqa_write(m, 3, 0xa5), 0);
let edges = 0;
while (t.thurafeqa_tick(m, t.thurafeqa_levels(m) & 4, 0) === 1) edges++;
is('edges', edges, 16);
is('the word', t.thurafeqa_read(m, 3), 0xa5);
is('no word', t.thurafeqa_read(m, 3), 6 << 16);
const script = new TextEncoder().encode('W 1 0020\nW 0 8000\nW 3 00A5\nT 1\n');
bytes().set(script, Number(text));
is('saved', t.thurafeqa_save(text, BigInt(script.length), file, 4096n), 26);
is('played', t.thurafeqa_play(m, file, 26n), 4);
is('cut', t.thurafeqa_play(m, file, 25n), 17 << 16);
