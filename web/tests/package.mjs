// The package as an app has it that installs it: by its name, by `import` and by `require`, without and with files; and
// importing it does nothing. The folder above has node_modules/dnorm, of which the argument is a text.
import assert from 'node:assert/strict';
import { readFileSync, writeFileSync } from 'node:fs';
import { createRequire } from 'node:module';
import { gunzipSync } from 'node:zlib';

const require = createRequire(import.meta.url);
const [, , path] = process.argv;
const dnorm = await import('dnorm');
const roads = await (await dnorm.load()).read(path);
const wanted = Buffer.concat([...roads.canon()]).toString();
const packed = readFileSync(require.resolve('dnorm/dnorm.wasm.gz'));
assert.equal((await (await dnorm.load(packed)).check(path)).kind, 'sp');
assert.equal(require('dnorm/package.json').name, 'dnorm');
// Versions of Node that require no module say so.
if (process.features.require_module) assert.equal(require('dnorm').load, dnorm.load);

// The cause of a refusal, of a text of which no bytes are there, too.
const { causeOf } = await import('dnorm/hints.mjs');
const hints = JSON.parse(readFileSync(require.resolve('dnorm/hints.json')));
const bad = Buffer.from('c\np sp 3 1\na 1 4 2\n');
const refused = await (await dnorm.load()).check(bad).catch((error) => error);
const cause = await causeOf(hints, () => [bad.subarray(0, 9), bad.subarray(9)], refused);
assert.deepEqual(cause, {
  line: 'a 1 4 2', mark: [4, 5], problem: 'p sp 3 1', hints: ['a SRC=1 DST=4 LENGTH=2', 'NODES 3: nodes count from 1'],
});
assert.deepEqual((await causeOf(hints, () => [], { number: 18, place: 'end' })).hints, ['The file is empty']);

// What a browser has: no paths, and the bytes of the module, packed or not.
const browser = await import('./node_modules/dnorm/dnorm.mjs?browser');
for (const module of [packed, gunzipSync(packed), new WebAssembly.Module(gunzipSync(packed))]) {
  const it = await (await browser.made(module)).read(readFileSync(path));
  assert.equal(Buffer.concat([...it.canon()]).toString(), wanted);
}

// The same by http.
const answer = (status) => async () => new Response(status === 200 ? packed : '<!doctype html>', { status });
const text = readFileSync(require.resolve('dnorm/dnorm.wasm.gz').replace('dnorm.wasm.gz', 'dnorm.mjs'), 'utf8');
const remote = text.replaceAll('import.meta.url', "'https://a.example/dnorm.mjs'");
const served = await import(`data:text/javascript,${encodeURIComponent(remote)}`);
globalThis.fetch = answer(404);
await assert.rejects(served.load(), /answered 404/);
globalThis.fetch = answer(200);
const there = await served.load();
assert.equal((await there.check(readFileSync(path))).kind, 'sp');
await assert.rejects(there.read('p sp 1 0\n'), /no files here/);

// A bundle that is no module knows no URL: the module is beside the page, or in Node beside the file.
globalThis.location = { href: 'https://a.example/page.html' };
const unnamed = (it) => it.replaceAll('import.meta.url', 'undefined');
const script = await import(`data:text/javascript,${encodeURIComponent(unnamed(text))}`);
assert.equal((await (await script.load()).check(readFileSync(path))).kind, 'sp');
const file = require.resolve('dnorm/dnorm.wasm.gz').replace('dnorm.wasm.gz', 'bundle.mjs');
const name = `const __filename = ${JSON.stringify(file)};\n`;
writeFileSync(file, name + unnamed(readFileSync(file.replace('bundle', 'node'), 'utf8')));
assert.equal((await (await (await import(file)).load()).check(path)).kind, 'sp');
process.stdout.write('done\n');
