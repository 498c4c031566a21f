'use strict';
// The worker of the page: it reads texts, of which the page hands over each piece that it asks for, and posts what they
// are and how two of them differ. It reads no file itself, since WebKit lets no worker of a page that is a file do so.
// It is one script with hints.json, the first part of dnorm.mjs, and hints.mjs.

// How many corners of a pair are drawn on each side of the difference; how many pairs are listed, arcs of a pair are
// named, and pairs around a pair are drawn.
const DRAWN = 500;
const LISTED = 100;
const NAMED = 10;
const AROUND = 30;
const PAUSE = 100;
// The greatest text, in bytes, of which a browser computes the checksum at once.
const MOST_SUMMED = 1e9;
let library = null;
let waiting = null;
// The instances by the numbers that the page gives its files.
const held = new Map();

const post = (what, more) => postMessage({ what, ...more });
const told = ({ number = 0, refusal, sentence, place = null, message }) =>
  ({ number, refusal, sentence, place, message });

// Yields the pieces of a file, from its beginning.
async function* text(id) {
  for (let anew = true; ; anew = false) {
    const piece = new Promise((resolve, reject) => { waiting = { resolve, reject }; });
    post('more', { id, anew });
    const some = await piece;
    if (!some) return;
    yield some;
  }
}

// Whether a file is the canonical text of an instance.
async function isCanonical(instance, id, form) {
  const pieces = text(id);
  let rest = new Uint8Array();
  for (const canonical of instance.canon(form)) {
    for (let at = 0; at < canonical.length;) {
      if (rest.length === 0) {
        const { value, done } = await pieces.next();
        if (done) return false;
        rest = value;
      }
      const count = Math.min(rest.length, canonical.length - at);
      for (let i = 0; i < count; i += 1) if (rest[i] !== canonical[at + i]) return false;
      rest = rest.subarray(count);
      at += count;
    }
  }
  return rest.length === 0 && (await pieces.next()).done;
}

async function read({ id, name }) {
  let bytes = 0;
  let last = 0;
  const progress = (length, instance) => {
    bytes += length;
    if (Date.now() < last + PAUSE) return;
    last = Date.now();
    post('progress', { id, bytes, facts: instance.facts() });
  };
  let instance = null;
  try {
    instance = await library.read(text(id), { progress });
  } catch (error) {
    const { number, place = null } = error;
    const isOfText = number && place !== null;
    // The file may have changed since, and is refused all the same.
    const cause = isOfText ? await causeOf(HINTS, () => text(id), { number, place, name }).catch(() => null) : null;
    post('refused', { id, error: told(error), line: error.line?.(name), cause });
    return;
  }
  held.set(id, instance);
  const facts = instance.facts();
  const arcs = GRAPHS.includes(facts.kind) ? [1, 2].map((form) => instance.arcCount(form)) : null;
  // A canonical text may need more memory than there is.
  const forms = await instance.forms((form) => isCanonical(instance, id, form)).catch(() => null);
  post('accepted', { id, facts, bytes, arcs, forms });
}

// Returns the corners of the least costs of a pair around an amount, and at which ends there are more. Behind the units
// that are forced, which come first, come the others by rising cost; the pairs are sorted.
function cornersOf(instance, tail, head, around) {
  const isBefore = ([from, to]) => from < tail || (from === tail && to < head);
  let low = 0n;
  let high = instance.facts().pairs;
  while (low < high) {
    const middle = (low + high) / 2n;
    if (isBefore(instance.arcs(1, middle).next().value)) low = middle + 1n;
    else high = middle;
  }
  let [amount, cost, behind, isCut] = [0n, 0n, 0, false];
  let corners = [[0n, 0n]];
  for (const [from, to, forced, capacity, each] of instance.arcs(1, low)) {
    if (from !== tail || to !== head) break;
    if (behind === DRAWN) return { corners, cuts: [isCut, true] };
    amount += capacity;
    cost += capacity * each;
    if (forced) corners = [];
    corners.push([amount, cost]);
    if (amount > around && !forced) behind += 1;
    if (behind === 0 && corners.length > 2 * DRAWN) {
      corners = corners.slice(-DRAWN);
      isCut = true;
    }
  }
  return { corners: corners.slice(-DRAWN - behind), cuts: [isCut || corners.length > DRAWN + behind, false] };
}

// Yields the pairs of a graph, each with its canonical arcs in words, of which the first ones are named.
function* bundlesOf(instance) {
  let last = null;
  for (const [tail, head, ...values] of instance.arcs(1)) {
    if (last && (last.tail !== tail || last.head !== head)) {
      yield last;
      last = null;
    }
    last ??= { tail, head, arcs: [] };
    last.arcs.push(values.join(' '));
  }
  if (last) yield last;
}

const named = (arcs) => (arcs.length > NAMED ? [...arcs.slice(0, NAMED), `and ${arcs.length - NAMED} more`] : arcs);

// Goes through the pairs of two graphs at once, and counts and lists what differs; and the pairs around the one that
// differs first, those that differ in front.
function differences(one, other, pair) {
  const [lefts, rights] = [bundlesOf(one), bundlesOf(other)];
  const counts = { left: 0, differs: 0, same: 0, right: 0 };
  const [rows, near] = [[], { differs: [], same: [], count: 0 }];
  let center = pair;
  let [left, right] = [lefts.next().value, rights.next().value];
  while (left || right) {
    const [a, b] = [left ?? right, right ?? left];
    const order = !left ? 1 : !right ? -1 : Number(a.tail > b.tail) - Number(a.tail < b.tail)
      || Number(a.head > b.head) - Number(a.head < b.head);
    const { tail, head } = order <= 0 ? left : right;
    const arcs = [order <= 0 ? left.arcs : [], order >= 0 ? right.arcs : []];
    const isSame = order === 0 && arcs[0].join() === arcs[1].join();
    const side = isSame ? 'same' : order === 0 ? 'differs' : order < 0 ? 'left' : 'right';
    counts[side] += 1;
    if (!isSame) center ??= [tail, head];
    if (!isSame && rows.length < LISTED) rows.push([tail, head, ...arcs.map(named)]);
    if (center && [tail, head].some((it) => center.includes(it))) {
      const list = near[isSame ? 'same' : 'differs'];
      near.count += 1;
      const told = [String(tail), String(head), side, ...arcs.map((it) => named(it).join(', ') || 'none')];
      if (tail === center[0] && head === center[1]) list.unshift(told);
      else if (list.length < AROUND) list.push(told);
    }
    if (order <= 0) left = lefts.next().value;
    if (order >= 0) right = rights.next().value;
  }
  const drawn = [...near.differs, ...near.same].slice(0, AROUND);
  const around = center && { pair: center.map(String), arcs: drawn, more: near.count - drawn.length };
  return { counts, rows, around };
}

// A command of the program with names of files.
const command = (...words) => `dnorm ${words.map(quoted).join(' ')}`;

function compare({ ids, names }) {
  const [left, right] = ids.map((id) => held.get(id));
  const kinds = [left, right].map((it) => it.facts().kind);
  // The order of files that a system hands over is that of their names.
  const at = kinds.findIndex((it) => !GRAPHS.includes(it));
  if (at >= 0 && kinds[1 - at] === 'sp') {
    const misfit = [left, right][1 - at].misfit([left, right][at]);
    const line = misfit ? misfitLine(misfit, names[at]) : `fits ${kinds[at]}`;
    post('fitted', { misfit, line, command: command('check', names[1 - at], '--with', names[at]) });
    return;
  }
  const difference = left.compare(right);
  const line = verdict(difference);
  if (difference?.what === 'kind') [difference.left, difference.right] = kinds;
  const isPair = difference?.what === 'pair';
  const isCurve = isPair && difference.kind === 'min';
  const { at: tail, to, amount } = difference ?? {};
  const curves = isCurve ? [left, right].map((it) => cornersOf(it, tail, to, amount)) : null;
  const isGraph = difference && kinds[0] === kinds[1] && GRAPHS.includes(kinds[0]);
  let found = isGraph ? differences(left, right, isPair ? [tail, to] : null) : null;
  // Where a pair is not what differs first, it is known behind the pairs around it.
  if (found?.around && !isPair) found = differences(left, right, found.around.pair.map(BigInt));
  post('compared', { difference, line, command: command('compare', ...names), curves, found });
}

async function canon({ id, form }) {
  let parts = [];
  for (const piece of held.get(id).canon(form)) {
    parts.push(piece);
    // The browser may keep a Blob outside of its memory.
    if (parts.length === 64) parts = [new Blob(parts)];
  }
  const made = new Blob(parts, { type: 'text/plain' });
  post('canon', { id, form, text: made, sum: await checksum(made) });
}

// Browsers compute it in a page that is a file, or comes by https or from this machine.
async function checksum(of) {
  if (!globalThis.crypto?.subtle) return 'not computed: this page came by http';
  if (of.size > MOST_SUMMED) return 'not computed: the text is above 1 GB';
  const sum = new Uint8Array(await crypto.subtle.digest('SHA-256', await of.arrayBuffer()));
  return [...sum].map((it) => it.toString(16).padStart(2, '0')).join('');
}

const JOBS = { read, compare, canon };

onmessage = async ({ data }) => {
  if (data.what === 'piece') {
    if (data.why) waiting.reject(new Error(data.why));
    else waiting.resolve(data.piece);
    return;
  }
  if (data.what === 'forget') {
    held.get(data.id)?.free();
    held.delete(data.id);
    return;
  }
  try {
    if (data.module) library = await made(data.module);
    await JOBS[data.what](data);
  } catch (error) {
    post('failed', { error: told(error) });
  }
  post('idle');
};
