'use strict';
// The page: it takes one file or two, hands their pieces to a worker, and shows what that says of them.

const { around, costs, grouped, make, pairs } = look;
const packed = bytesOf(element('module').textContent);
const EXAMPLES = [
  [['roads.gr', 'c three towns\np sp 3 5\na 1 2 7\na 1 2 3\na 2 1 4\na 2 3 9\na 3 1 -5\n']],
  [['towns.gr', 'p sp 3 2\na 1 2 7\na 1 5 2\n']],
  [
    ['before.min', 'p min 3 4\nn 1 9\nn 3 -9\na 1 2 0 4 1\na 1 2 1 5 3\na 1 2 0 3 6\na 2 3 0 12 0\n'],
    ['after.min', 'p min 3 4\nn 1 9\nn 3 -9\na 1 2 0 4 1\na 1 2 1 3 3\na 1 2 0 5 5\na 2 3 0 12 0\n'],
  ],
];
// What a file of a kind lists.
const LISTED = { min: 'arcs', max: 'arcs', sp: 'arcs', ss: 'sources', p2p: 'queries', co: 'points' };
const SLOTS = ['first', 'second'];
const MEMORY = 'A page has at most 4 GB of memory, and a browser may allow less. The program dnorm takes more.';
// How many packed bytes are unpacked at once; and the greatest texts, in bytes, that a link may carry.
const SMALL = 1 << 16;
const LINKED = 5500;

// The state, from which `show` makes what is seen and what can be pressed: whether the worker is `idle`, `reading` or
// `writing`; the two files, each with its number and its card once it is read; what is said of both; and what ended.
let doing = 'idle';
let slots = [null, null];
let both = null;
let notice = null;
let worker = null;
let job = null;
// The file that is being read, and its pieces.
let open = null;
let last = 0;

function element(id) {
  return document.getElementById(id);
}

// Returns bytes that base 85 spells, four by five characters. A comma stands for the sign that could end a script.
function bytesOf(text) {
  const signs = '0123456789ABCDEFGHIJKLMNOPQRSTUVWXYZabcdefghijklmnopqrstuvwxyz!#$%&()*+-;,=>?@^_`{|}~';
  const digits = Object.fromEntries([...signs].map((it, i) => [it, i]));
  const all = new DataView(new ArrayBuffer(4 * Math.ceil(text.length / 5)));
  for (let at = 0; at < text.length; at += 5) {
    let value = 0;
    for (let i = at; i < at + 5; i += 1) value = value * 85 + (digits[text[i]] ?? 84);
    all.setUint32((at / 5) * 4, value);
  }
  return new Uint8Array(all.buffer, 0, Math.floor((text.length * 4) / 5));
}

function size(bytes) {
  const unit = [[1e9, 'GB', 2], [1e6, 'MB', 1], [1e3, 'kB', 1]].find(([it]) => bytes >= it);
  return unit ? `${(bytes / unit[0]).toFixed(unit[2])} ${unit[1]}` : `${bytes} bytes`;
}
const list = (rows) => make('dl', {}, ...rows.flatMap(([name, it]) => [make('dt', {}, name), make('dd', {}, it)]));
const paragraph = (...inside) => make('p', {}, ...inside);
const code = (text, label) => make('code', { class: 'line', tabindex: 0, role: 'group', 'aria-label': label }, text);
const card = (look, title, ...inside) =>
  make('section', { class: look }, make('h2', { tabindex: -1 }, title), ...inside);
const slotOf = (id) => slots.find((it) => it?.id === id);

// The names of both files, which may be equal.
function names() {
  const [left, right] = slots.map((it) => it.file.name);
  return left === right ? [`${left} (first)`, `${right} (second)`] : [left, right];
}

// Shows the state.
function show() {
  const isIdle = doing === 'idle';
  element('working').hidden = isIdle;
  slots.forEach((slot, i) => {
    const [title, hint] = element(`slot${i}`).children;
    element(`slot${i}`).classList.toggle('full', slot !== null);
    title.textContent = slot ? slot.file.name : `Choose the ${SLOTS[i]} file`;
    const empty = ['or drop it here, or paste a text', 'to compare it with the first'][i];
    hint.textContent = slot ? `the ${SLOTS[i]} file, ${size(slot.file.size)}: choose another one` : empty;
  });
  const full = slots.filter((it) => it);
  const cards = [notice, both, ...full.map((it) => it.card)].filter((it) => it);
  const isNew = cards.some((it, i) => element('answers').children[i] !== it);
  if (isNew || element('answers').children.length !== cards.length) element('answers').replaceChildren(...cards);
  for (const it of element('answers').querySelectorAll('button.ask')) it.disabled = !isIdle || !worker;
  element('swap').disabled = !isIdle || full.length < 2;
  element('anew').disabled = full.length + cards.length === 0;
  element('link').disabled = !isIdle || !full.length || full.reduce((sum, it) => sum + it.file.size, 0) > LINKED;
  element('copy').disabled = cards.length === 0;
}

function become(next, told = '') {
  doing = next;
  element('doing').textContent = told;
  element('done').textContent = '';
  element('bar').removeAttribute('value');
  show();
}

// What is said once, and read aloud.
function tell(sentence) {
  element('told').textContent = sentence;
}

function ask(next, told, message) {
  const isNew = !worker;
  if (isNew) {
    const own = new Worker(job);
    worker = own;
    own.onmessage = ({ data }) => {
      const slot = slotOf(data.id);
      // What a worker said that was ended meanwhile is of other files, and so is what it says of one that was replaced.
      const isOfUse = slot || !data.id || data.what === 'more';
      if (own === worker && isOfUse) SHOW[data.what](data, slot);
    };
    own.onerror = ({ message: why = 'it did not start' }) =>
      own === worker && stop('The worker of this page failed', why);
  }
  become(next, told);
  worker.postMessage(isNew ? { ...message, module: packed } : message);
}

// Reads what is not read yet, and compares what is not compared; then the page is idle.
function proceed() {
  if (!job) {
    become('reading', 'Beginning');
    return;
  }
  open?.pieces.return();
  open = null;
  const slot = slots.find((it) => it && !it.card);
  if (slot) {
    ask('reading', `Reading ${slot.file.name}`, { what: 'read', id: slot.id, name: slot.file.name });
  } else if (!both && slots.every((it) => it?.isAccepted)) {
    const message = { what: 'compare', ids: slots.map((it) => it.id), names: slots.map((it) => it.file.name) };
    ask('reading', 'Comparing both files', message);
  } else {
    const wasReading = doing === 'reading';
    become('idle');
    if (wasReading) announce();
  }
}

function announce() {
  const heading = element('answers').querySelector('h2');
  if (!heading) return;
  tell([heading, both && heading.nextElementSibling].map((it) => it?.textContent ?? '').join('. '));
  heading.focus();
}

// Ends the work. What was read before is gone from memory.
function end() {
  worker?.terminate();
  worker = null;
  open = null;
  doing = 'idle';
}

// Ends the work for a cause. What was not read before is gone from the page.
function stop(title, why = null) {
  end();
  slots = slots.map((it) => (it?.card ? it : null));
  const again = slots.some((it) => it) ? make('button', { onclick: () => restart() }, 'Read again') : null;
  notice = title ? card('fault', title, why && paragraph(why), again) : null;
  become('idle');
  if (title) announce();
}

function restart() {
  notice = null;
  // A file is read again whose worker has ended.
  if (!worker) for (const it of slots) if (it) clear(it);
  proceed();
}

// The texts of a file that may be saved are let go with its card.
function clear(slot) {
  for (const it of slot.card?.querySelectorAll('a[download]') ?? []) URL.revokeObjectURL(it.href);
  Object.assign(slot, { card: null, isAccepted: false });
}

function anew() {
  slots.forEach((it) => it && clear(it));
  slots = [null, null];
  both = null;
  stop();
  tell('');
}

// Takes one file or two, at a slot, or else where there is room.
function fill(chosen, at = null) {
  if (chosen.length === 0) return;
  if (chosen.length > 2) {
    notice = card('fault', 'Drop one file, or two');
    show();
    announce();
    return;
  }
  const free = slots.indexOf(null);
  const places = chosen.length === 2 ? [0, 1] : [at ?? (free < 0 ? 1 : free)];
  const before = places.map((place) => slots[place]).filter((it) => it);
  before.forEach(clear);
  if (doing === 'writing' || before.includes(open?.slot)) end();
  for (const { id } of before) worker?.postMessage({ what: 'forget', id });
  places.forEach((place, i) => {
    last += 1;
    slots[place] = { id: last, file: chosen[i], card: null, isAccepted: false, taken: 0 };
  });
  both = null;
  tell('');
  if (doing === 'idle') restart();
  else show();
}

function start(chosen) {
  anew();
  fill(chosen);
}

async function* chunks(stream) {
  const reader = stream.getReader();
  try {
    for (let it = await reader.read(); !it.done; it = await reader.read()) yield it.value;
  } finally {
    reader.cancel().catch(() => {});
  }
}

function unpacked(part, note = () => {}) {
  const cut = new TransformStream({
    transform(piece, to) {
      for (let at = 0; at < piece.length; at += SMALL) to.enqueue(piece.subarray(at, at + SMALL));
      note(piece);
    },
  });
  return chunks(part.stream().pipeThrough(cut).pipeThrough(new DecompressionStream('gzip')));
}

// Returns the place behind the first member of a packed file: the browser unpacks no two at once.
async function endOf(file) {
  const most = 16 * SMALL;
  for (let from = 0; from < file.size; from += most) {
    const some = new Uint8Array(await file.slice(from, from + most + 3).arrayBuffer());
    for (let at = some.indexOf(31); at >= 0 && at < most; at = some.indexOf(31, at + 1)) {
      const isHead = from + at > 0 && some[at + 1] === 139 && some[at + 2] === 8 && some[at + 3] < 32;
      if (isHead && await isWhole(file.slice(0, from + at))) return from + at;
    }
  }
  return file.size;
}

async function isWhole(part) {
  try {
    for await (const piece of unpacked(part)) void piece;
    return true;
  } catch {
    return false;
  }
}

// Yields the bytes of a file, unpacked if it begins as gzip does.
async function* piecesOf(slot) {
  const note = (piece) => { slot.taken += piece.length; };
  slot.taken = 0;
  const [one, two] = new Uint8Array(await slot.file.slice(0, 2).arrayBuffer());
  if (one === 31 && two === 139) {
    for (let rest = slot.file; rest.size > 0;) {
      const end = await endOf(rest);
      yield* unpacked(rest.slice(0, end), note);
      rest = rest.slice(end);
    }
    return;
  }
  for await (const piece of chunks(slot.file.stream())) {
    note(piece);
    yield piece;
  }
}

// Hands the next piece of a file to the worker that has asked for it.
async function hand({ anew: isFirst }, slot) {
  const to = worker;
  const answer = { what: 'piece', piece: null };
  try {
    if (isFirst) {
      open?.pieces.return();
      open = { slot, pieces: piecesOf(slot) };
    }
    answer.piece = (await open.pieces.next()).value ?? null;
  } catch (error) {
    const cause = 'a folder, a file that changed or vanished since it was chosen, or a damaged gzip file';
    answer.why = `The browser could not read it: it is ${cause} (${error.message}).`;
  }
  if (to === worker) to.postMessage(answer);
}

// Some bytes of a line, as characters up to U+00FF, with each one shown that is no plain letter.
function visible(line) {
  const marks = { '\t': '\u2192', '\r': '\u21b5', ' ': ' ' };
  const name = (it) => `\\u{${it.codePointAt(0).toString(16)}}`;
  const text = new TextDecoder('utf-8', { ignoreBOM: true }).decode(Uint8Array.from(line, (it) => it.charCodeAt(0)));
  return [...text].map((it) => marks[it] ?? (/[\p{C}\p{Z}\ufffd]/u.test(it) ? name(it) : it)).join('');
}

// A refused line with its wrong word, which may be a place where a word is missing.
function lineOf({ line, mark }) {
  const it = code('', 'The line');
  const [from, to] = mark ?? [line.length, line.length];
  const missing = mark && from >= line.length ? ' \u2038' : '';
  const word = mark ? make('mark', {}, visible(line.slice(from, to)) + missing) : null;
  it.append(...[visible(line.slice(0, from)), word, visible(line.slice(to))].filter((part) => part !== null));
  if (!line) it.textContent = '(an empty line)';
  return it;
}

// What a difference says, in a sentence, and the values of both sides.
function words({ what, kind, at, to, index, amount, left, right }) {
  const of = { nodes: 'the number of nodes', supply: `the flow of node ${at}`, source: 'the source', sink: 'the sink' };
  Object.assign(of, { length: 'the number of lines', item: `item ${index}`, point: `the point of node ${at}` });
  const costs_ = `, at amount ${grouped(amount)}. The least costs of this amount are:`;
  const pair = { sp: ': in their least length.', max: ': in their total capacity.', min: costs_ }[kind];
  const said = { kind: 'They are of two kinds.', pair: `The arcs from ${at} to ${to} differ first${pair}` };
  const none = { sp: 'no arc', max: 'no arc', min: 'it is infeasible' }[kind];
  const values = [left, right].map((it) => (it === null ? none : grouped(it)));
  return [said[what] ?? `They differ in ${of[what]}.`, ...values];
}

function factsOf({ kind, nodes, lines, pairs: count, items }, bytes, arcs, forms) {
  const rows = [['Kind', kind], ['Size', size(bytes)]];
  if (forms) {
    const both_ = kind === 'min' ? `yes, in form ${forms.join(' and ')}` : 'yes';
    const about = make('a', { href: '#forms', onclick: () => { element('forms').open = true; } }, 'What is this?');
    rows.push(['Canonical', make('span', {}, `${forms.length ? both_ : 'no'}. `, about)]);
  }
  if (!arcs) return [...rows, [LISTED[kind], grouped(items)]];
  rows.push(['Nodes', grouped(nodes)], ['Arc lines', grouped(lines)], ['Pairs with arcs', grouped(count)]);
  const [one, two] = arcs.map((it) => (it === null ? 'more than 2^64' : grouped(it)));
  rows.push(['Canonical arcs', one === two ? one : `${one} in form 1, ${two} in form 2`]);
  return kind === 'min' ? [...rows, ['Nodes with a flow', grouped(items)]] : rows;
}

// How the program says it, and by which words.
const program = (line, command) => list([['The program prints', code(line, 'What the program prints')],
  ['Command', code(command, 'The command')]]);

// What the worker says.
const SHOW = {
  more: hand,

  progress({ bytes, facts: { kind, lines } }, slot) {
    if (slot.file.size) element('bar').value = Math.min(1, slot.taken / slot.file.size);
    const declared = kind === 'none' ? '' : `: ${kind}, ${grouped(lines)} ${LISTED[kind]} declared`;
    element('done').textContent = `${size(bytes)}${declared}`;
  },

  accepted({ id, facts, bytes, arcs, forms }, slot) {
    const { name } = slot.file;
    const button = (form, label) => {
      const onclick = () => {
        // A text that is there is not written again.
        const made = slot.card.querySelector(`a[data-form="${form}"]`);
        if (made) made.focus();
        else ask('writing', `Writing the canonical text of ${name}`, { what: 'canon', id, form });
      };
      return make('button', { class: 'ask', onclick, 'aria-label': `${label}, of ${name}` }, label);
    };
    const labels = facts.kind === 'min' ? ['Canonical text, form 1', 'Canonical text, form 2'] : ['Canonical text'];
    const buttons = make('div', { class: 'row' }, ...labels.map((it, i) => button(i + 1, it)));
    const rows = list(factsOf(facts, bytes, arcs, forms));
    slot.card = card('fine', `${name} is accepted`, rows, buttons, make('div', { class: 'canon' }));
    slot.isAccepted = true;
  },

  refused({ line, error: { number, refusal, sentence, place, message }, cause }, slot) {
    const { name } = slot.file;
    if (!number) {
      slot.card = card('fault', `${name} could not be read`, paragraph(message));
      return;
    }
    const where = typeof place === 'bigint' ? ` at line ${grouped(place)}` : ' at its end';
    const title = place === null ? `${name} is too large for this page` : `${name} has a fault${where}`;
    const hints = cause?.hints.length ? make('ul', {}, ...cause.hints.map((it) => make('li', {}, it))) : null;
    const problem = cause?.problem ? [['Problem line', cause.problem]] : [];
    const told = list([...problem, ['The program prints', code(line, 'What the program prints')]]);
    const shown = typeof cause?.line === 'string' ? lineOf(cause) : null;
    const more = number === 30 ? paragraph(MEMORY) : null;
    slot.card = card('fault', title, paragraph(`${sentence} (${number} ${refusal})`), shown, hints, more, told);
  },

  fitted({ misfit, line, command }) {
    const said = misfit ? `It names node ${grouped(misfit.node)}, which is not in the graph.` : 'It has all its nodes.';
    const title = misfit ? 'The companion does not fit' : 'The companion fits the graph';
    both = card(`${misfit ? 'fault' : 'fine'} whole`, title, paragraph(said), program(line, command));
  },

  compared({ difference, line, command, curves, found }) {
    const told = program(line, command);
    if (!difference) {
      both = card('fine whole', 'Both files pose the same problem', paragraph(names().join(' and ')), told);
      return;
    }
    const [said, left, right] = words(difference);
    const values = left === undefined ? null : list(names().map((name, i) => [name, [left, right][i]]));
    const pictures = curves ? costs(difference, curves, names()) : [];
    const isCut = curves?.some((it) => it.cuts.includes(true));
    const some = 'Of a curve, only 500 corners on each side of the difference are drawn. It goes on where dots end it.';
    const note = isCut ? paragraph(some) : null;
    both = card('fault whole', 'The files differ', paragraph(said), values, told, note, ...pictures, ...pairsOf(found));
  },

  canon({ form, text, sum }, slot) {
    const place = slot.card.querySelector('.canon');
    URL.revokeObjectURL(place.querySelector('a')?.href);
    const ending = `.canonical${form === 2 ? '-2' : ''}$1`;
    const name = slot.file.name.replace(/\.gz$/i, '').replace(/(\.\w+)?$/, ending);
    const to = { href: URL.createObjectURL(text), download: name, 'data-form': form };
    const save = make('a', { class: 'button', ...to }, `Save ${name}`);
    place.replaceChildren(list([['Size', size(text.size)], ['SHA-256', make('code', {}, sum)]]), save);
    tell(`The canonical text of ${slot.file.name} is ready.`);
    save.focus();
  },

  failed({ error: { number, refusal, sentence, message } }) {
    stop(number ? `${sentence} (${number} ${refusal})` : `The page failed: ${message}`, number === 30 ? MEMORY : null);
  },

  idle: proceed,
};

// How many pairs differ, the first of them, and the arcs around one.
function pairsOf(found) {
  if (!found) return [];
  const { left, right, differs, same } = found.counts;
  const [one, other] = names();
  const counts = [['Different', differs], [`Only in ${one}`, left], [`Only in ${other}`, right], ['Equal', same]];
  const count = left + right + differs;
  const rows = list(counts.map(([name, it]) => [name, grouped(it)]));
  const title = make('h3', {}, `${grouped(count)} ${count === 1 ? 'pair differs' : 'pairs differ'}`);
  if (!count) return [title, rows];
  const which = count > found.rows.length ? `The first ${found.rows.length} that differ` : 'All that differ';
  return [title, rows, pairs(which, found.rows, names()), ...around(found.around, names())];
}

// All that is shown, as lines of text. A picture has a sentence.
function asText() {
  const lines = [];
  const inside = (it) => [...it.childNodes].map((part) => (part.nodeName === 'BR' ? ', ' : part.textContent)).join('');
  for (const it of element('answers').querySelectorAll('h2, h3, p, dt, dd, li, section > .line, svg, tr')) {
    const label = it.tagName === 'svg' && it.getAttribute('aria-label');
    const text = label || (it.tagName === 'TR' ? [...it.children].map(inside).join(' | ') : it.textContent);
    if (it.tagName === 'DD') lines.push(`${lines.pop()}: ${text}`);
    else lines.push(it.tagName === 'H2' && lines.length ? `\n${text}` : text);
  }
  return `${lines.join('\n').replaceAll('\u202f', '')}\n`;
}

// Copies a text, or shows it where the browser does not let a page copy.
async function copy(words_, told) {
  const text = element('text');
  text.value = words_;
  try {
    await navigator.clipboard.writeText(words_);
    text.hidden = true;
    tell(told);
  } catch {
    text.hidden = false;
    text.select();
    tell('The browser does not let a page copy: the text is selected below.');
  }
}

// A link to this page with the texts in it.
async function linkOf() {
  const words_ = new URLSearchParams();
  for (const { file } of slots.filter((it) => it)) {
    const bytes = Array.from(new Uint8Array(await file.arrayBuffer()), (it) => String.fromCharCode(it)).join('');
    words_.append(file.name, btoa(bytes).replaceAll('+', '-').replaceAll('/', '_').replaceAll('=', ''));
  }
  return `${location.href.split('#')[0]}#${words_}`;
}

function openLink() {
  if (!location.hash.includes('=')) return;
  const plain = (text) => atob(text.replaceAll('-', '+').replaceAll('_', '/'));
  const bytesIn = (text) => Uint8Array.from(plain(text), (it) => it.charCodeAt(0));
  try {
    const files = [...new URLSearchParams(location.hash.slice(1))];
    start(files.map(([name, text]) => new File([bytesIn(text)], name)));
  } catch {
    tell('The link is damaged: it has no texts.');
  }
}

['choose', 'second'].forEach((id, i) => {
  element(id).onchange = ({ target }) => {
    fill([...target.files], i);
    target.value = '';
  };
});
element('swap').onclick = () => {
  slots.reverse();
  both = null;
  restart();
};
element('anew').onclick = anew;
element('copy').onclick = () => copy(asText(), 'All is copied.');
element('link').onclick = async () => copy(await linkOf(), 'The link is copied.');
element('cancel').onclick = () => stop('Cancelled');
document.onkeydown = (event) => {
  if (event.key === 'Escape' && doing !== 'idle') stop('Cancelled');
};
for (const it of document.querySelectorAll('[data-example]')) {
  it.onclick = () => start(EXAMPLES[it.dataset.example].map(([name, text]) => new File([text], name)));
}
const slotAt = (target) => [0, 1].find((i) => element(`slot${i}`).contains(target)) ?? null;
const over = (at) => [0, 1].forEach((i) => element(`slot${i}`).classList.toggle('over', i === at));
document.ondragover = (event) => {
  event.preventDefault();
  over(slotAt(event.target));
};
document.ondragleave = (event) => event.relatedTarget || over(null);
// Takes files, or else a text, of what is dropped or pasted.
function take(event, given, at) {
  const text = given.getData('text/plain');
  if (!given.files.length && !text) return;
  event.preventDefault();
  fill(given.files.length ? [...given.files] : [new File([text], 'pasted text')], at);
}
document.ondrop = (event) => {
  event.preventDefault();
  over(null);
  take(event, event.dataTransfer, slotAt(event.target));
};
document.onpaste = (event) => take(event, event.clipboardData, slotAt(event.target));

show();
window.onhashchange = openLink;
openLink();
(async () => {
  const script = new Blob([bytesOf(element('worker').textContent)]).stream();
  const bytes = await new Response(script.pipeThrough(new DecompressionStream('gzip'))).arrayBuffer();
  job = URL.createObjectURL(new Blob([bytes], { type: 'text/javascript' }));
  if (doing !== 'idle') proceed();
})();
