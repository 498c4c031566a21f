// What a text may come from, readers in turns, instances that are freed or of two modules, and suite/calls.json.
import assert from 'node:assert/strict';
import { createReadStream, readFileSync } from 'node:fs';
import { Refused, load, made, verdict } from '../../web/dnorm.mjs';

const PATH = new URL('../../examples/roads.gr', import.meta.url).pathname;
const text = readFileSync(PATH);
const library = await load();
const canon = (it, form) => Buffer.concat([...it.canon(form)]).toString();
const roads = await library.read(PATH);
const wanted = canon(roads);
const blob = new Blob([text]);

async function* generated() {
  for (const byte of text) yield Uint8Array.of(byte);
}

for (const source of [
  text, new Uint8Array(text), text.buffer.slice(text.byteOffset, text.byteOffset + text.length), blob, blob.stream(),
  new Response(blob), createReadStream(PATH), generated(), [text.subarray(0, 9), text.subarray(9)],
  new DataView(text.buffer, text.byteOffset, text.length), [new ArrayBuffer(0), text],
]) {
  const it = await library.read(source);
  assert.equal(canon(it), wanted);
  it.free();
}

// The facts of a reader, after each piece.
const seen = [];
await library.read([Buffer.from('c\n'), Buffer.from('p sp 2 1\na'), Buffer.from(' 1 2 5\n')], {
  progress: (length, it) => seen.push([length, it.facts().kind, it.facts().lines]),
});
assert.deepEqual(seen, [[2, 'none', 0n], [10, 'sp', 1n], [7, 'sp', 1n]]);

// A text is refused at its first fault, and its source is not read to its end.
let taken = 0;
async function* faulty() {
  for (const line of ['p sp 2 9\n', 'a 1 2 x\n', 'a 1 2 3\n', 'a 1 2 3\n']) {
    taken += 1;
    yield Buffer.from(line);
  }
}
await assert.rejects(library.read(faulty()), (error) => {
  assert(error instanceof Refused && error instanceof Error);
  assert.deepEqual([error.number, error.refusal, error.place], [9, 'NotANumber', 2n]);
  assert.equal(error.line('f'), 'f:2: 9 NotANumber');
  assert.equal(error.message, 'line 2: 9 NotANumber: A number field is no whole number in decimal digits.');
  return true;
});
assert.equal(taken, 2);
await assert.rejects(library.read('missing'), { code: 'ENOENT' });
// Strings have lost which bytes they were.
await assert.rejects(library.read(createReadStream(PATH, 'utf8')), TypeError);
await assert.rejects(library.read([text, undefined]), TypeError);
await assert.rejects(library.check([Buffer.from('c\n')]), { number: 18, place: 'end' });
// What is no text is told in words.
for (const it of [null, undefined, 5, 5n, true, Symbol('it'), () => text]) {
  await assert.rejects(library.read(it), /TypeError: .* is no source of a text$/);
}
for (const it of [{}, { body: null }]) await assert.rejects(library.read(it), /TypeError: a source of a text is bytes/);
await assert.rejects(library.read(new Response('p sp 1 0\n', { status: 404 })), /TypeError: the server answered 404/);
assert.throws(() => new library.constructor(), TypeError);
assert.throws(() => roads.compare(null), TypeError);

// Readers in turns, and rows in turns with other calls.
const costs = Buffer.from('p min 3 2\nn 1 5\nn 3 -5\na 1 2 1 9 4\na 2 3 0 9 -1\n');
const [one, other] = await Promise.all([library.read(generated()), library.read(costs)]);
assert.equal(canon(one), wanted);
assert.deepEqual([...other.items()], [[1n, 5n], [3n, -5n]]);
const arcs = other.arcs(2);
assert.deepEqual(arcs.next().value, [1n, 2n, 1n, 9n, 4n]);
assert.deepEqual([...roads.arcs()].length, Number(roads.arcCount()));
assert.deepEqual([...arcs], [[2n, 3n, 0n, 9n, -1n]]);
assert.deepEqual(other.facts(), { kind: 'min', nodes: 3n, lines: 2n, pairs: 2n, items: 2n });
assert.equal(other.arcCount(1), 3n);
assert.deepEqual([...roads.arcs(1, 1n)], [...roads.arcs()].slice(1));
for (const pairs of [-1n, 2n ** 63n, 2n ** 64n, 1, null]) assert.throws(() => roads.arcs(1, pairs), RangeError);

// Columns have the numbers of the rows, and no more are made than there are.
for (const [it, names] of [[roads, ['tail', 'head', 'length']], [other, ['tail', 'head', 'low', 'capacity', 'cost']]]) {
  for (const form of [1, 2]) {
    const columns = it.columns(form);
    assert.deepEqual(Object.keys(columns), names);
    assert.deepEqual([...it.arcs(form)], [...columns.tail.keys()].map((i) => names.map((name) => columns[name][i])));
  }
}

// The calls of suite/calls.json.
const SPREADS = Boolean(library.calls.dnorm_spread);
const WHAT = ['same', 'kind', 'nodes', 'supply', 'source', 'sink', 'pair', 'length', 'item', 'point'];
const inLines = (...them) => them.map((it) => `${[...it].join(' ')}\n`).join('');
const padded = (them, width) => inLines(...[...them].map((it) => [...it, ...Array(width - it.length).fill(0)]));
const turned = ({ ...columns }) => [...columns.tail.keys()].map((i) => Object.values(columns).map((it) => it[i]));
const is = (found) => found ?? assert.fail(new Refused(40));
const answers = {
  facts: ({ kind, nodes, lines, pairs, items }) => inLines([kind, nodes, lines, pairs, items]),
  compare: (it) => inLines(it ? [WHAT.indexOf(it.what), it.at, it.to, it.index, it.amount, it.left ?? 'none',
    it.right ?? 'none'] : [0, 0, 0, 0, 0, 'none', 'none']),
  star: ({ first, reverse }) => inLines(first, ...Object.values(reverse())),
};
const calls = {
  facts: (it) => answers.facts(is(it.facts().kind === 'none' ? null : it.facts())),
  arc_count: (it, form) => inLines([is(it.arcCount(form))]),
  next: (it, form) => {
    const found = padded(it.arcs(form), 5);
    assert.equal(padded(turned(it.columns(form)), 5), found);
    return found;
  },
  items: (it) => padded(it.items(), 3),
  canon,
  compare: (it, form, right) => answers.compare(it.compare(right)),
  fits: (it, form, right) => inLines([it.misfit(right)?.number ?? 0, it.misfit(right)?.node ?? 0]),
  lines: (it) => padded(turned(it.lines), 6),
  spread: (it, form, right, flow) => inLines(it.spread(form, flow, right.lines ?? [])),
  star: (it, form) => answers.star(it.star(form)),
};
const table = JSON.parse(readFileSync(new URL('../../suite/calls.json', import.meta.url)));
for (const it of table.cases) {
  const form = Number(it.form ?? 1);
  const held = async (bytes) => {
    const made = await library.read([Buffer.from(bytes ?? 'p sp 1 0\n')], { lines: true });
    if (bytes === null) made.free();
    return made;
  };
  const flow = (it.flow ?? '').split(' ').filter(Boolean).map(BigInt);
  const call = async () => {
    try {
      const left = await held(it.text);
      const right = it.other === undefined ? left : await held(it.other);
      return { answer: calls[it.call](left, form, right, flow) };
    } catch (error) {
      if (error instanceof Refused) return { code: `${error.number}` };
      throw error;
    }
  };
  const { answer, code } = it;
  if (it.call === 'spread' && !SPREADS) await assert.rejects(call, /TypeError: the module has no dnorm_spread/);
  else if (form !== 1 && form !== 2) await assert.rejects(call, RangeError, it.name);
  else assert.deepEqual(await call(), answer === undefined ? { code } : { answer }, it.name);
}

// Flows of several sorts on many lines, which come in several copies; and what is none.
const rooms = Array.from({ length: 70000 }, (_, i) => BigInt(i % 3));
const paths = ['p max 2 70000\nn 1 s\nn 2 t\n', ...rooms.map((it) => `a 1 2 ${it}\n`)].join('');
const wide = await library.read([Buffer.from(paths.slice(0, 99)), Buffer.from(paths.slice(99))], { lines: true });
assert.deepEqual(wide.lines.capacity, BigInt64Array.from(rooms));
assert.deepEqual(wide.lines.line.at(-1), 70003n);
assert.equal(roads.lines, null);
if (SPREADS) {
  const most = wide.columns().capacity;
  for (const it of [most, [...most], Array.from(most, Number)]) {
    assert.deepEqual(wide.spread(1, it), wide.lines.capacity);
  }
  assert.deepEqual(wide.spread(2, [1], { ...wide.lines }).slice(0, 3), BigInt64Array.of(0n, 1n, 0n));
  assert.throws(() => wide.spread(1, [most[0] + 1n]), { number: 42, refusal: 'NotAFlow' });
  for (const it of [{}, { ...wide.lines, capacity: [1n] }]) {
    assert.throws(() => wide.spread(1, most, it), { number: 42 });
  }
  for (const it of [[1.5], [2n ** 63n], [-(2n ** 64n)]]) assert.throws(() => wide.spread(1, it), RangeError);
  for (const it of [null, [null], 5]) assert.throws(() => wide.spread(1, it), TypeError);
  assert.throws(() => roads.spread(1, [0n]), /TypeError: the arc lines are missing/);
  const without = new library.constructor({ ...library.calls, dnorm_spread: undefined });
  const there = await without.read([Buffer.from(paths)], { lines: true });
  assert.deepEqual(there.lines, wide.lines);
  assert.throws(() => there.spread(1, most), /TypeError: the module has no dnorm_spread/);
}
const far = await library.read([Buffer.from(`p sp ${2n ** 63n - 1n} 0\n`)]);
assert.throws(() => far.star(), RangeError);

// The forms in which a text is canonical.
const asked = [];
const formsOf = async (bytes) => {
  const it = await library.read(bytes);
  return it.forms((form) => asked.push(form) && canon(it, form) === Buffer.from(bytes).toString());
};
assert.deepEqual(await formsOf(Buffer.from(wanted)), [1, 2]);
assert.deepEqual(asked.splice(0), [1]);
assert.deepEqual(await formsOf(Buffer.from(canon(other, 2))), [2]);
assert.deepEqual(await formsOf(Buffer.from(canon(other, 1))), [1]);
assert.deepEqual(asked.splice(0), [2, 1]);
assert.deepEqual([await formsOf(text), await formsOf(Buffer.from(`c\n${wanted}`))], [[], []]);
assert.deepEqual(asked.splice(0), [1]);

// Many rows and bytes, which come in several copies.
const large = (head, row) => head + Array.from({ length: 60000 }, (_, i) => row(i + 1)).join('');
const star = large('p sp 60000 60000\n', (i) => `a ${i} 1 5\n`);
const many = await library.read([Buffer.from(star)]);
assert.equal([...many.arcs()].length, 60000);
assert.deepEqual(many.columns().tail, BigInt64Array.from({ length: 60000 }, (_, i) => BigInt(i + 1)));
assert.equal(canon(many), star);
const points = await library.read([Buffer.from(large('p aux sp co 60000\n', (i) => `v ${i} 0 -7\n`))]);
assert.deepEqual([...points.items()].at(-1), [60000n, 0n, -7n]);

// Differences, with numbers of 128 bits.
const most = 2n ** 63n - 1n;
const dear = (cost) => [Buffer.from(`p min 1 1\na 1 1 ${most} ${most} ${cost}\n`)];
const difference = await library.compare(dear(most), dear(-most));
const { what, amount, left, right } = difference;
assert.deepEqual([what, amount, left, right], ['pair', most, most * most, -most * most]);
assert.equal(verdict(difference), `differ pair 1 1 amount ${most} cost ${most * most} ${-most * most}`);
assert.equal(verdict(roads.compare(one)), 'same');
const sources = await library.read([Buffer.from('p aux sp ss 1\ns 99\n')]);
assert.throws(() => [...sources.arcs()], { number: 40 });
assert.throws(() => sources.columns(), { number: 40 });
for (const form of [0, 3, 257, '1', 1n, null]) {
  assert.throws(() => canon(roads, form), RangeError);
  assert.throws(() => roads.arcs(form), RangeError);
  assert.throws(() => roads.arcCount(form), RangeError);
}
assert.deepEqual(roads.misfit(sources), { number: 35, node: 99n });
assert.deepEqual(sources.misfit(roads), { number: 36, node: null });
const pieces = [];
for await (const piece of library.canon(PATH)) pieces.push(piece);
assert.equal(Buffer.concat(pieces).toString(), wanted);
assert.equal((await library.check(blob)).kind, 'sp');

// An instance that is freed, twice, and one of another module.
one.free();
one.free();
assert.equal(one.facts().kind, 'none');
assert.throws(() => canon(one), { number: 40 });
assert.throws(() => [...one.arcs()], { number: 40 });
assert.throws(() => roads.compare(one), { number: 40 });
assert.throws(() => roads.misfit(one), { number: 40 });
const second = await load();
const stranger = await second.read(text);
assert.throws(() => roads.compare(stranger), TypeError);

// Modules of another version, and no module.
const empty = Uint8Array.of(0, 97, 115, 109, 1, 0, 0, 0);
await assert.rejects(made(empty), /another version of dnorm: it has no dnorm_begin/);
await assert.rejects(made(Buffer.from('<!doctype html>')), WebAssembly.CompileError);
await assert.rejects(made(Uint8Array.of(0x1f, 0x8b)), Error);

// Memory that is freed is used again, also where nobody frees it.
const before = library.calls.memory.buffer.byteLength;
for (let i = 0; i < 2000; i += 1) (await library.read(text)).free();
assert.equal(library.calls.memory.buffer.byteLength, before);
process.stdout.write('done\n');
