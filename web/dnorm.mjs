#!/usr/bin/env node
// Reads DIMACS network files in browsers, Node 18 or later, Deno and Bun, by the proved reader of dnorm as a module for
// WebAssembly: checks them, writes their canonical texts, compares them. dnorm.d.ts describes what is exported.
//
//     import { load } from 'dnorm';
//     const dnorm = await load();
//     const roads = await dnorm.read('roads.gr');   // or throws Refused: number, name, place
//     for (const piece of roads.canon()) process.stdout.write(piece);
//
// cli.mjs is the command.

/** Numbers of refusals, with their names and sentences. */
export const REFUSALS = {
  1: ["BadLine", "The first word is none of p, n, a, s, q and v."],
  2: ["EarlyLine", "A line other than p precedes the problem line."],
  3: ["SecondProblem", "There is a second problem line."],
  4: ["UnknownProblem", "The problem line names none of the six kinds."],
  5: ["WrongLine", "A file of this kind has no line with this letter."],
  6: ["LateNode", "A node line follows an arc line."],
  7: ["TooManyLines", "There are more counted lines than declared."],
  8: ["FieldCount", "The line has too few or too many words."],
  9: ["NotANumber", "A number field is no whole number in decimal digits."],
  10: ["OutOfRange", "A number is below -2^63 or above 2^63-1."],
  11: ["Negative", "NODES, ARCS, K, LOW or CAP is below 0."],
  12: ["BadTerminal", "The third word of a max node line is neither s nor t."],
  13: ["NodeOutOfRange", "A node is not in 1 to NODES; in a companion, below 1."],
  14: ["RepeatedNode", "A node has a second node line or a second point, or there is a second source or sink."],
  15: ["SameTerminal", "Source and sink are one node."],
  16: ["LowAboveCap", "The lower bound LOW of an arc is above its capacity CAP."],
  17: ["SumTooLarge", "The capacities from SRC to DST sum to more than 2^63-1."],
  18: ["NoProblem", "There is no problem line."],
  19: ["MissingTerminal", "A max file has no source or no sink."],
  20: ["TooFewLines", "There are fewer counted lines than declared."],
  21: ["TooLong", "The line's number is 2^63-1."],
  30: ["Memory", "The system or a limit refused more memory."],
  31: ["Read", "The file could not be opened, or reading it failed."],
  32: ["Endless", "The file has no end: 2^40 reads returned bytes."],
  33: ["Write", "Writing to standard output failed."],
  34: ["CountTooLarge", "The canonical text has more than 2^63-1 counted lines."],
  35: ["NotInGraph", "The companion names a node above NODES of the graph."],
  36: ["NotKinds", "FILE is not an sp graph, or COMPANION is no companion."],
};

/** The kinds of instances, by their numbers in dnorm.h. */
export const KINDS = ['none', 'min', 'max', 'sp', 'ss', 'p2p', 'co'];
const GRAPHS = ['min', 'max', 'sp'];
// What canonical arcs and arc lines have beside their nodes.
const VALUES = { sp: ['length'], max: ['capacity'], min: ['low', 'capacity', 'cost'] };
// Codes that no text has, with their names and sentences.
const CODES = {
  40: ['WrongCall', 'The instance was freed, or is not for this call.'],
  42: ['NotAFlow', 'The flow is none, or the arc lines are those of another text.'],
};
// What a difference is about, by its number in dnorm.h.
const DIFFERENCES = ['same', 'kind', 'nodes', 'supply', 'source', 'sink', 'pair', 'length', 'item', 'point'];

// How many bytes of a text are handed over at once; and the places of a dnorm_place and of the bytes behind the results
// of calls, which are not longer than 96 bytes.
const PIECE = 1 << 20;
const PLACE = 128;
const BYTES = 256;
// How many arc lines are taken at once; and how many numbers an arc line and a dnorm_share have.
const SOME = 1 << 14;
const ROW = 6;
const SHARE = 3;

/** A text is refused, memory ran out (30), an instance is not for a call (40), or a flow is none (42). */
export class Refused extends Error {
  constructor(number, place = null) {
    const [name, sentence] = REFUSALS[number] ?? CODES[number] ?? CODES[40];
    const where = typeof place === 'bigint' ? `line ${place}: ` : place === null ? '' : `${place}: `;
    super(`${where}${number} ${name}: ${sentence}`);
    Object.assign(this, { number, refusal: name, sentence, place });
  }

  get name() {
    return 'Refused';
  }

  /** The line that the program prints for a file of this name. */
  line(file) {
    const place = this.place === null ? '' : `:${this.place}`;
    return `${file}${place}: ${this.number} ${this.refusal}`;
  }
}

// Yields the pieces of a text: of bytes, of a Blob or File, a Response, a stream, or whatever yields pieces.
async function* pieces(source) {
  if (source === null || typeof source !== 'object') throw new TypeError(`${String(source)} is no source of a text`);
  if (source.ok === false) throw new TypeError(`the server answered ${source.status}, and no text`);
  if (source instanceof ArrayBuffer || ArrayBuffer.isView(source)) {
    yield source;
    return;
  }
  const stream = source.body ?? (typeof source.stream === 'function' ? source.stream() : source);
  if (!(stream.getReader || stream[Symbol.asyncIterator] || stream[Symbol.iterator])) {
    throw new TypeError('a source of a text is bytes, a Blob, a Response, a stream, or what yields pieces of bytes');
  }
  if (!stream.getReader) {
    yield* stream;
    return;
  }
  // Not every browser lets a loop take the pieces of a stream.
  const reader = stream.getReader();
  try {
    for (let it = await reader.read(); !it.done; it = await reader.read()) yield it.value;
  } finally {
    // The text may have a fault before its end.
    reader.cancel().catch(() => {});
  }
}

function bytesOf(piece) {
  if (piece instanceof ArrayBuffer) return new Uint8Array(piece);
  // A stream of strings has lost which bytes they were.
  if (!ArrayBuffer.isView(piece)) throw new TypeError('a piece of a text is no bytes');
  return new Uint8Array(piece.buffer, piece.byteOffset, piece.byteLength);
}

// Returns a canonical form, which the module takes as a number of 8 bits.
function formOf(form) {
  if (form !== 1 && form !== 2) throw new RangeError(`a form is 1 or 2, and not ${form}`);
  return form;
}

// Copies so many numbers, by halves: a BigInt for each takes longer. A place is an array, an index, and a step.
function copyNumbers(count, [from, at, step], [to, toAt, toStep]) {
  const [source, target] = [from, to].map((it) => new Int32Array(it.buffer, it.byteOffset, 2 * it.length));
  for (let i = 0, one = 2 * at, other = 2 * toAt; i < count; i += 1, one += 2 * step, other += 2 * toStep) {
    target[other] = source[one];
    target[other + 1] = source[one + 1];
  }
}

// Returns numbers below 2^32 without their upper halves.
function lowHalves(numbers) {
  const halves = new Uint32Array(numbers.buffer, numbers.byteOffset, 2 * numbers.length);
  return new Uint32Array(numbers.length).map((_, i) => halves[2 * i]);
}

// Returns columns with these names of rows, which come in blocks.
function columnsOf(blocks, width, count, names) {
  const made = names.map(() => new BigInt64Array(count));
  let at = 0;
  for (const rows of blocks) {
    made.forEach((it, k) => copyNumbers(rows.length / width, [rows, k, width], [it, at, 1]));
    at += rows.length / width;
  }
  return Object.fromEntries(names.map((name, k) => [name, made[k]]));
}

// Returns the numbers of a flow, which may be whole numbers of any sort.
function numbersOf(given) {
  if (given instanceof BigInt64Array) return given;
  if (!given?.[Symbol.iterator]) throw new TypeError(`${String(given)} is no flow: a BigInt64Array, or whole numbers`);
  return BigInt64Array.from(given, (it) => {
    const number = BigInt(it);
    if (BigInt.asIntN(64, number) !== number) throw new RangeError(`${it} does not fit into 64 signed bits`);
    return number;
  });
}

// Returns how many of these nodes are at most 0, 1, 2 and so on to the last node.
function firstOf(nodes, ends) {
  const first = new Uint32Array(nodes + 1);
  for (const it of ends) first[it] += 1;
  for (let node = 1; node <= nodes; node += 1) first[node] += first[node - 1];
  return first;
}

/** A module with its memory, in which instances are. */
export class Library {
  constructor(calls, open = opened) {
    if (!calls?.dnorm_begin) throw new TypeError('load or made makes a library');
    Object.assign(this, { calls, open });
    this.at = this.block(BYTES + PIECE);
    this.bytes = this.at + BigInt(BYTES);
    // The handle of an instance that is freed. It owns nothing.
    this.none = this.handle();
    this.left = new FinalizationRegistry((handle) => this.release(handle));
  }

  // Returns memory of the module. An address is a number of 64 bits.
  block(size) {
    const at = BigInt.asUintN(64, this.calls.malloc(BigInt(size)));
    if (!at) throw new Refused(30);
    return at;
  }

  handle() {
    const at = this.block(16);
    this.memory(at, 16).fill(0);
    return at;
  }

  release(handle) {
    this.calls.dnorm_free(handle);
    this.calls.free(handle);
  }

  // The memory has another buffer once it has grown, so nothing keeps a view of it.
  memory(at, length) {
    return new Uint8Array(this.calls.memory.buffer, Number(at), length);
  }

  view(at) {
    return new DataView(this.calls.memory.buffer, Number(this.at) + at);
  }

  // What a call has left: a byte, a number of 64 bits with or without a sign, a dnorm_value.
  byte(at) {
    return this.view(at).getUint8(0);
  }

  signed(at) {
    return this.view(at).getBigInt64(0, true);
  }

  unsigned(at) {
    return this.view(at).getBigUint64(0, true);
  }

  value(at) {
    return this.byte(at) ? (this.signed(at + 8) << 64n) + this.unsigned(at + 16) : null;
  }

  // Throws what a call has returned as dnorm_status, unless it is fine.
  fine() {
    if (this.byte(0)) throw new Refused(this.byte(0), [null, this.unsigned(8), 'end'][this.byte(1)]);
  }

  /** Reads a text to its end. After each piece `progress` is called with its length and the instance so far. With
   *  `lines`, the instance has the arc lines of the text. */
  async read(source, { progress, lines = false } = {}) {
    const instance = new Instance(this);
    let reader = null;
    try {
      if (lines) reader = new LinesReader(this);
      this.calls.dnorm_begin(this.at, instance.handle);
      this.fine();
      for await (const piece of pieces(typeof source === 'string' ? await this.open(source) : source)) {
        const all = bytesOf(piece);
        for (let from = 0; from < all.length; from += PIECE) {
          const some = all.subarray(from, from + PIECE);
          instance.feed(some);
          reader?.take(some.length);
        }
        progress?.(all.length, instance);
      }
      this.calls.dnorm_finish(this.at, instance.handle);
      this.fine();
      if (reader) instance.lines = reader.end(instance.facts().kind);
      return instance;
    } catch (error) {
      instance.free();
      throw error;
    } finally {
      reader?.free();
    }
  }

  /** Reads a text, and returns its facts. */
  async check(source) {
    return this.with([source], (it) => it.facts());
  }

  /** Reads a text, and yields its canonical text in form 1 or 2, in pieces of bytes. */
  async *canon(source, form = 1) {
    const instance = await this.read(source);
    try {
      yield* instance.canon(form);
    } finally {
      instance.free();
    }
  }

  /** Reads two texts, the left one first, and returns null if they pose the same problem, or where they differ. */
  async compare(left, right) {
    return this.with([left, right], (one, other) => one.compare(other));
  }

  async with(sources, use) {
    const held = [];
    try {
      for (const it of sources) held.push(await this.read(it));
      return await use(...held);
    } finally {
      for (const it of held) it.free();
    }
  }
}

// Reads the arc lines of a text whose pieces an instance was fed before.
class LinesReader {
  constructor(library) {
    Object.assign(this, { library, own: new Instance(library), blocks: [] });
    library.calls.dnorm_lines_begin(library.at, this.own.handle);
    library.fine();
    this.room = library.block(8 * ROW * SOME);
  }

  // Takes the bytes of the last piece, which still lie there.
  take(length) {
    const { library, own, room } = this;
    for (let done = 0; done < length;) {
      const [from, left] = [library.bytes + BigInt(done), BigInt(length - done)];
      library.calls.dnorm_lines(library.at, own.handle, from, left, room, BigInt(SOME));
      // A line that is refused by itself was refused before.
      if (library.byte(16)) return;
      done += Number(library.unsigned(0));
      const bytes = library.memory(room, 8 * ROW * Number(library.unsigned(8)));
      if (bytes.length) this.blocks.push(new BigInt64Array(bytes.slice().buffer));
    }
  }

  // Ends the text, and returns the columns of its arc lines.
  end(kind) {
    this.library.memory(this.library.bytes, 1)[0] = 10;
    this.take(1);
    const count = this.blocks.reduce((sum, it) => sum + it.length / ROW, 0);
    return columnsOf(this.blocks, ROW, count, ['line', 'tail', 'head', ...VALUES[kind] ?? []]);
  }

  free() {
    this.own.free();
    this.library.calls.free(this.room);
  }
}

/** What a text means. Its memory is free after `free`, or some time after nothing refers to it. `lines` has the columns
 *  of its arc lines, if they were read. */
export class Instance {
  constructor(library) {
    Object.assign(this, { library, handle: library.handle(), lines: null });
    library.left.register(this, this.handle, this);
  }

  feed(some) {
    const { library } = this;
    library.memory(library.bytes, some.length).set(some);
    library.calls.dnorm_feed(library.at, this.handle, library.bytes, BigInt(some.length));
    library.fine();
  }

  /** The kind, NODES, the number of lines, of pairs with canonical arcs, and of items. */
  facts() {
    const { library } = this;
    library.calls.dnorm_facts(library.at, this.handle);
    const [nodes, lines, pairs, items] = [8, 16, 24, 32].map((at) => library.unsigned(at));
    return { kind: KINDS[library.byte(0)], nodes, lines, pairs, items };
  }

  /** The number of canonical arcs, or null if there are 2^64 or more, or no graph. */
  arcCount(form = 1) {
    const { library } = this;
    library.calls.dnorm_arc_count(library.at, this.handle, formOf(form));
    return library.byte(8) ? null : library.unsigned(0);
  }

  /** The canonical arcs: [tail, head, length], [tail, head, capacity] or [tail, head, low, capacity, cost]. Those of
   *  the first `pairs` pairs are passed over. */
  arcs(form = 1, pairs = 0n) {
    const { kind } = this.facts();
    if (typeof pairs !== 'bigint' || pairs < 0n || pairs >= 2n ** 63n) {
      throw new RangeError(`a number of pairs is a BigInt from 0 to 2^63-1, and not ${pairs}`);
    }
    return this.rows(this.blocks('dnorm_next', [formOf(form)], 5, pairs), 5, kind === 'min' ? 5 : 3);
  }

  /** The items: [node, flow], [source, sink], [ID], [ID, ID] or [ID, x, y]. */
  items() {
    const { kind } = this.facts();
    return this.rows(this.blocks('dnorm_items', [], 3, 0n), 3, { ss: 1, co: 3 }[kind] ?? 2);
  }

  /** The canonical arcs as columns: tail, head, and length, or capacity, or low, capacity and cost. */
  columns(form = 1) {
    const count = Number(this.arcCount(form));
    const values = VALUES[this.facts().kind];
    if (!values) throw new Refused(40);
    return columnsOf(this.blocks('dnorm_next', [formOf(form)], 5, 0n), 5, count, ['tail', 'head', ...values]);
  }

  /** The canonical arcs by their tails: those with the tail v, counted from 1, have the indexes from `first[v - 1]` to
   *  `first[v]`, without the last one, in `heads` and `columns`. `reverse` finds the arcs into each node: those with
   *  the head v have the indexes `into[i]`, which ascend, for each i from `intoFirst[v - 1]` to `intoFirst[v]`. */
  star(form = 1) {
    const columns = this.columns(form);
    const { nodes } = this.facts();
    if (nodes >= 2n ** 32n) throw new RangeError(`${nodes} nodes are too many for a star`);
    const [tails, heads] = [columns.tail, columns.head].map(lowHalves);
    const reverse = () => {
      const intoFirst = firstOf(Number(nodes), heads);
      const next = intoFirst.slice();
      const into = new Uint32Array(heads.length);
      heads.forEach((head, i) => {
        into[next[head - 1]] = i;
        next[head - 1] += 1;
      });
      return { intoFirst, into };
    };
    return { first: firstOf(Number(nodes), tails), heads, columns, reverse };
  }

  /** Puts a flow on the canonical arcs in form 1 or 2 back on arc lines, those of the text: returns the units of each
   *  line. The lines of a pair share the units of its arcs: the cheapest ones have them, or the shortest one. */
  spread(form, flow, lines = this.lines) {
    const { library } = this;
    if (!library.calls.dnorm_spread) throw new TypeError('the module has no dnorm_spread, as that of dnorm 3.0.0');
    if (!lines) throw new TypeError('the arc lines are missing: read with { lines: true }');
    const { kind, pairs } = this.facts();
    const given = numbersOf(flow);
    const columns = ['line', 'tail', 'head', ...VALUES[kind] ?? []].map((it) => lines[it] ?? new BigInt64Array(0));
    const count = columns[0].length;
    if (columns.some((it) => !(it instanceof BigInt64Array) || it.length !== count)) throw new Refused(42);
    // The flow, the rows, the shares and the units, one behind the other.
    const counts = [given.length, ROW * count, SHARE * Number(pairs), count];
    const from = [0];
    for (const it of counts) from.push(from.at(-1) + 8 * it);
    const room = library.block(from.at(-1) + 8);
    const numbers = (k) => new BigInt64Array(library.calls.memory.buffer, Number(room) + from[k], counts[k]);
    try {
      numbers(0).set(given);
      const rows = numbers(1).fill(0n);
      columns.forEach((it, k) => copyNumbers(count, [it, 0, 1], [rows, k, ROW]));
      const sizes = [given.length, count, pairs, count];
      const words = sizes.flatMap((it, k) => [room + BigInt(from[k]), BigInt(it)]);
      library.calls.dnorm_spread(library.at, this.handle, formOf(form), ...words);
      library.fine();
      return numbers(3).slice();
    } finally {
      library.calls.free(room);
    }
  }

  *rows(blocks, width, taken) {
    for (const rows of blocks) {
      for (let from = 0; from < rows.length; from += width) yield [...rows.subarray(from, from + taken)];
    }
  }

  // Yields rows of so many numbers, many at once.
  *blocks(call, words, width, pairs) {
    const { library } = this;
    const place = new BigInt64Array([pairs, 0n, 0n, 0n, 0n]);
    const room = Math.floor(PIECE / (8 * width));
    for (let count = room; count === room; ) {
      // Other calls may come between.
      place.forEach((it, i) => library.view(PLACE + 8 * i).setBigInt64(0, it, true));
      library.calls[call](library.at, this.handle, ...words, library.at + BigInt(PLACE), library.bytes, BigInt(room));
      if (library.byte(8)) throw new Refused(library.byte(8));
      count = Number(library.unsigned(0));
      place.forEach((_, i) => { place[i] = library.signed(PLACE + 8 * i); });
      yield new BigInt64Array(library.memory(library.bytes, count * width * 8).slice().buffer);
    }
  }

  /** The canonical text in form 1 or 2, in pieces of bytes. */
  *canon(form = 1) {
    const { library } = this;
    const text = new Instance(library);
    try {
      library.calls.dnorm_canon(library.at, this.handle, formOf(form), text.handle);
      library.fine();
      for (let from = 0n, count = PIECE; count === PIECE; from += BigInt(PIECE)) {
        library.calls.dnorm_text(library.at, text.handle, from, library.bytes, BigInt(PIECE));
        count = Number(library.unsigned(0));
        if (count) yield library.memory(library.bytes, count).slice();
      }
    } finally {
      text.free();
    }
  }

  /** The forms in which the text that was read is canonical. `isText` tells whether it is the canonical text of a form,
   *  and is asked only of forms that have as many arcs as the text has lines. */
  async forms(isText) {
    const { kind, lines } = this.facts();
    const is = async (form) => (!GRAPHS.includes(kind) || this.arcCount(form) === lines) && await isText(form);
    const first = await is(1);
    const second = kind === 'min' ? await is(2) : first;
    return [1, 2].filter((form) => [first, second][form - 1]);
  }

  /** null if both pose the same problem, or where they differ first. */
  compare(right) {
    const library = this.beside(right);
    library.calls.dnorm_compare(library.at, this.handle, right.handle);
    const number = library.byte(0);
    if (number === 255) throw new Refused(40);
    if (!number) return null;
    const [at, to, index, amount] = [8, 16, 24, 32].map((it) => library.signed(it));
    const [left, other] = [library.value(40), library.value(64)];
    return { what: DIFFERENCES[number], kind: this.facts().kind, at, to, index, amount, left, right: other };
  }

  /** null if a companion fits this graph, or `number`, 35 or 36, and `node`, the node that is not in the graph. */
  misfit(companion) {
    const library = this.beside(companion);
    library.calls.dnorm_fits(library.at, this.handle, companion.handle);
    const number = library.byte(0);
    if (number === 255) throw new Refused(40);
    return number ? { number, node: number === 35 ? library.signed(8) : null } : null;
  }

  // An address is one of its own module.
  beside(other) {
    if (!(other instanceof Instance)) throw new TypeError('the other one is no instance');
    if (other.library !== this.library) throw new TypeError('the instances are of two modules');
    return this.library;
  }

  free() {
    if (this.handle === this.library.none) return;
    this.library.left.unregister(this);
    this.library.release(this.handle);
    this.handle = this.library.none;
  }
}

/** The line that the program prints for what `misfit` returns, for a companion of this name. */
export function misfitLine({ number, node }, file) {
  return `${file}: ${number} ${REFUSALS[number][0]}${number === 35 ? ` ${node}` : ''}`;
}

/** The line that the program prints for what `compare` returns. */
export function verdict(difference) {
  if (!difference) return 'same';
  const { what, kind, at, to, index, amount, left, right } = difference;
  const values = `${left ?? 'none'} ${right ?? 'none'}`;
  const words = {
    kind: () => `${KINDS[left]} ${KINDS[right]}`,
    supply: () => `${at} ${values}`,
    pair: () => `${at} ${to} ${{ sp: 'length', max: 'capacity', min: `amount ${amount} cost` }[kind]} ${values}`,
    item: () => index,
    point: () => at,
  };
  return `differ ${what} ${words[what]?.() ?? values}`;
}

// What a module of this version has.
const READING = ['begin', 'feed', 'finish', 'facts', 'free'].map((it) => `dnorm_${it}`);
const ASKING = ['arc_count', 'next', 'items', 'lines', 'canon', 'text', 'compare', 'fits'].map((it) => `dnorm_${it}`);

// Yields the pieces of the file at a path, where there are files.
let opened = () => {
  throw new TypeError('a path, and there are no files here: hand over the bytes, as new TextEncoder().encode(text)');
};

/** Makes a library of the module's bytes, which may be packed by gzip, or of a WebAssembly.Module. */
export async function made(module, open = opened) {
  let code = module;
  if (!(module instanceof WebAssembly.Module)) {
    const all = bytesOf(module);
    const unpacked = new Blob([all]).stream();
    const isPacked = all[0] === 0x1f;
    code = isPacked ? await new Response(unpacked.pipeThrough(new DecompressionStream('gzip'))).arrayBuffer() : all;
  }
  try {
    const { exports } = await WebAssembly.instantiate(code, {}).then((it) => it.instance ?? it);
    const lacking = [...READING, ...ASKING, 'malloc', 'free', 'memory'].find((it) => !(it in exports));
    if (lacking) throw new TypeError(`the module is of another version of dnorm: it has no ${lacking}`);
    return new Library(exports, open);
  } catch (error) {
    // The memory with which a module begins.
    throw error instanceof RangeError ? new Refused(30) : error;
  }
}

// What follows is not part of the page.

/** Yields the lines that the program shows of an instance. */
export function* show(instance) {
  const { kind, nodes, lines, pairs, items } = instance.facts();
  const isGraph = GRAPHS.includes(kind);
  yield `kind ${kind}\n${isGraph ? `nodes ${nodes}\n` : ''}lines ${lines}\n`;
  if (kind === 'min') yield `supplies ${items}\n`;
  if (kind === 'max') for (const [source, sink] of instance.items()) yield `source ${source}\nsink ${sink}\n`;
  if (!isGraph) return;
  yield `pairs ${pairs}\n`;
  if (kind === 'min') {
    yield* bundles(instance);
    return;
  }
  for (const [tail, head, number] of instance.arcs()) {
    yield `pair ${tail} ${head} ${kind === 'sp' ? 'length' : 'total'} ${number}\n`;
  }
}

// Yields the line of each pair of a `min` problem: the arcs of form 1 are forced units or free capacity.
function* bundles(instance) {
  let last = null;
  const line = ({ tail, head, forced, cost, steps }) =>
    `pair ${tail} ${head} forced ${forced} cost ${cost} steps ${steps}\n`;
  for (const [tail, head, low, capacity, cost] of instance.arcs(1)) {
    if (last && (last.tail !== tail || last.head !== head)) {
      yield line(last);
      last = null;
    }
    last ??= { tail, head, forced: 0n, cost: 0n, steps: 0 };
    last.forced += low;
    last.cost += low * cost;
    last.steps += capacity > low ? 1 : 0;
  }
  if (last) yield line(last);
}

// Node, Deno and Bun have what reads files in another module. Its name is no literal, so that a bundle for browsers has
// no need of it.
const beside = (name) => import(/* webpackIgnore: true */ /* @vite-ignore */ new URL(name, import.meta.url).href);
const isFile = /^file:/.test(import.meta.url);
if (isFile) opened = async (path) => (await beside('node.mjs')).opened(path);

/** Makes a library of a module, as `made` does, or else of dnorm.wasm.gz beside this file. A script that is no module
 *  has it beside the page. */
export async function load(module) {
  if (module) return made(module);
  if (isFile) return (await beside('node.mjs')).load();
  const place = new URL('dnorm.wasm.gz', import.meta.url ?? globalThis.location?.href);
  const answer = await fetch(place);
  if (!answer.ok) throw new TypeError(`${place}: the server answered ${answer.status}, and no module`);
  return made(await answer.arrayBuffer());
}

// `node dnorm.mjs` is the command, as cli.mjs is. In a bundle this is a file of another name, and where it is imported,
// another file is run.
const run = /^file:.*[/]dnorm[.]mjs$/.test(import.meta.url) ? globalThis.process?.argv?.[1] : undefined;
if (run !== undefined && import.meta.main !== false) {
  beside('node.mjs').then(({ isThis }) => isThis(run, import.meta.url) && beside('cli.mjs'), () => {});
}
