// Tells the cause of a refusal: the refused line with its wrong word, the row that the line is to have, and what the
// text gives away. What is said, and when, is in hints.json of the Python package, whose causes.py describes it; this
// evaluates it for the page and for Node.

// How many bytes of a line are kept, of a line are shown, and of a text are looked at.
const KEPT = 4096;
const LINE = 200;
const HEAD = 1024;
// The refusals that a row explains.
const ROWS = [1, 8, 9, 10, 11, 12, 13, 16, 17];

// Bytes as characters up to U+00FF, which is how hints are written.
const plain = (bytes) => Array.from(bytes, (it) => String.fromCharCode(it)).join('');
const wordsOf = (line) => line.match(/[^ \t\r]+/g) ?? [];
const numberOf = (word) => (/^[+-]?[0-9]{1,4000}$/.test(word ?? '') ? BigInt(word.replace(/^\+/, '')) : null);
const isField = (name) => /[A-Z]/.test(name) && name === name.toUpperCase();

// Returns characters up to U+00FF as `cat -vT` prints their bytes.
function visibly(text) {
  const one = (code) => {
    if (code >= 128) return `M-${one(code - 128)}`;
    return code >= 32 && code < 127 ? String.fromCharCode(code) : `^${String.fromCharCode(code ^ 64)}`;
  };
  return Array.from(text, (it) => one(it.charCodeAt(0))).join('');
}

/** Returns a name as a word of bash. */
export function quoted(name) {
  const isPrintable = !/[\p{C}\p{Zl}\p{Zp}]|(?! )\p{Zs}/u.test(name);
  if (isPrintable) return name.replace(/[^\p{L}\p{N}_@%+=:,./-]/gu, '\\$&');
  const code = (it) => (it >= 32 && it < 127 && it !== 39 && it !== 92
    ? String.fromCharCode(it) : `\\x${it.toString(16).padStart(2, '0')}`);
  return `$'${Array.from(new TextEncoder().encode(name), code).join('')}'`;
}

// Returns the letter of a line and whether it stands alone, by its bytes, since a text may have many lines.
function letterOf(bytes) {
  const isBlank = (byte) => byte === 32 || byte === 9 || byte === 13;
  let at = 0;
  while (isBlank(bytes[at])) at += 1;
  return { letter: bytes[at], isAlone: at + 1 === bytes.length, isBefore: isBlank(bytes[at + 1]) };
}

// Calls `visit` with the first bytes of each line, without the LF, and its number, until it returns true.
async function scan(text, visit) {
  let rest = new Uint8Array();
  let number = 1;
  for await (const piece of text()) {
    let from = 0;
    for (let end = piece.indexOf(10); end >= 0; end = piece.indexOf(10, from), number += 1) {
      const line = piece.subarray(from, Math.min(end, from + KEPT));
      from = end + 1;
      if (visit(rest.length ? joined(rest, line) : line, number)) return;
      rest = new Uint8Array();
    }
    if (rest.length < KEPT) rest = joined(rest, piece.subarray(from, from + KEPT));
  }
  if (rest.length) visit(rest, number);
}

function joined(one, other) {
  const all = new Uint8Array(Math.min(KEPT, one.length + other.length));
  all.set(one);
  all.set(other.subarray(0, all.length - one.length), one.length);
  return all;
}

// Returns the refused line, and the words of the problem line, if that comes before.
async function scanned(text, place) {
  let refused = null;
  let problem = [];
  await scan(text, (bytes, number) => {
    if (!problem.length) {
      const { letter, isBefore } = letterOf(bytes);
      if (letter === 112 && isBefore) problem = wordsOf(plain(bytes.subarray(0, LINE))).map(visibly);
    }
    if (number === place) refused = plain(bytes);
    return refused !== null || (place === null && problem.length > 0);
  });
  return { refused: place === null ? null : refused ?? '', problem };
}

// Returns the number of counted lines of a text.
async function counted(text) {
  let count = 0;
  const letters = [97, 115, 113, 118];
  await scan(text, (bytes) => {
    const { letter, isAlone, isBefore } = letterOf(bytes);
    if (letters.includes(letter) && (isAlone || isBefore)) count += 1;
  });
  return String(count);
}

// Returns where the node, the source or the sink of a refused line comes first.
async function seen(text, words) {
  let told = null;
  const terminal = ['s', 't'].find((it) => it === words[2]);
  await scan(text, (bytes, number) => {
    const found = wordsOf(plain(bytes));
    if (found[0] !== words[0] || found.length < 3) return false;
    if (terminal && found[2] === terminal) {
      told = `The ${terminal === 's' ? 'source' : 'sink'} is node ${visibly(found[1])}, by line ${number}`;
    } else if (numberOf(found[1]) === numberOf(words[1])) {
      told = `${words[0] === 'v' ? 'Point' : 'Node'} ${visibly(words[1])} came first in line ${number}`;
    }
    return told !== null;
  });
  return told;
}

// Returns the sum of the capacities of a pair before the refused line.
async function summed(text, place, words) {
  if (![4, 6].includes(words.length) || place === null) return null;
  const at = words.length === 4 ? 3 : 4;
  const [tail, head, cap] = [words[1], words[2], words[at]].map(numberOf);
  if (tail === null || head === null || cap === null) return null;
  let total = 0n;
  const arc = new RegExp(`^[ \\t\\r]*a[ \\t\\r]+\\+?0*${tail}[ \\t\\r]+\\+?0*${head}[ \\t\\r]`);
  await scan(text, (bytes, number) => {
    if (number >= place) return true;
    const line = plain(bytes.subarray(0, LINE));
    if (arc.test(line)) total += numberOf(wordsOf(line)[at]) ?? 0n;
    return false;
  });
  return `The capacities from ${tail} to ${head} sum to ${total} before this line, and with it to ${total + cap}`;
}

// Returns the first line of a companion that names a node.
async function namedBy(text, node) {
  let told = null;
  await scan(text, (bytes, number) => {
    const line = plain(bytes.subarray(0, LINE));
    const [letter, ...others] = wordsOf(line);
    const names = others.slice(0, { s: 1, q: 2, v: 1 }[letter] ?? 0);
    if (node !== null && names.some((it) => numberOf(it) === node)) told = `line ${number} names it: ${visibly(line)}`;
    return told !== null;
  });
  return told;
}

// Returns what the words of a line are called in this kind, with its letter first. A line of numbers lacks its letter.
function fieldsOf(rows, kind, words) {
  const of = Object.values(rows[kind] ?? {});
  if (of.length && numberOf(words[0]) !== null) return of.at(-1).split(' ');
  if (words[0] === 'p') {
    const heads = Object.values(rows).map((it) => it.p.split(' '));
    return heads.find((head) => head.every((it, i) => isField(it) || i >= words.length || it === words[i])) ?? [];
  }
  return (rows[kind]?.[words[0]] ?? '').split(' ').filter((it) => it);
}

// Returns the row that a line is to have, with the words that are there.
function rowOf(words, fields) {
  const told = fields.slice(0, words.length).map((name, i) =>
    (isField(name) || name.includes('|') ? `${name}=${visibly(words[i].slice(0, 40))}` : name));
  const missing = fields.slice(words.length);
  const row = [...told, ...missing].join(' ');
  if (words.length > fields.length) return `${row}: ${visibly(words[fields.length].slice(0, 40))} is too many`;
  return missing.length ? `${row}: ${missing.join(' and ')} ${missing.length === 1 ? 'is' : 'are'} missing` : row;
}

// Returns the place of the wrong word on a line, the number of words if one is missing, or null.
function placeOf(rule, words, fields, facts) {
  if (facts.number === 8 && fields.length) return Math.min(words.length, fields.length);
  if (!rule || 'word' in rule) return rule?.word ?? null;
  const [least, most] = [rule.least, rule.most].map((it) => numberOf(String(facts[it] ?? it)));
  const isNamed = (name) => (rule.fields ? rule.fields.includes(name) : isField(name));
  const isWrong = (word) => {
    const found = numberOf(word);
    const isOutside = found !== null && ((least !== null && found < least) || (most !== null && found > most));
    return isOutside || ('unless' in rule && !new RegExp(rule.unless).test(word));
  };
  const isAny = rule.fields && Object.keys(rule).length === 1;
  const at = fields.findIndex((name, i) => i < words.length && isNamed(name) && (isAny || isWrong(words[i])));
  return at < 0 ? null : at;
}

// Returns where the word at this place, or the end of the words, is on a line.
function markOf(line, at) {
  const places = [...line.matchAll(/[^ \t\r]+/g)].map((it) => [it.index, it.index + it[0].length]);
  const [start, end] = places[at] ?? [places.at(-1)[1] + 1, places.at(-1)[1] + 2];
  return start < LINE ? [start, Math.min(end, LINE)] : null;
}

function holds(hint, facts) {
  const meets = ([name, test]) => {
    if (typeof test === 'string') return typeof facts[name] === 'string' && new RegExp(test).test(facts[name]);
    return [test].flat().includes(facts[name]);
  };
  return Object.entries(hint.if).every(meets) && !Object.entries(hint.unless ?? {}).some(meets);
}

// Returns the text of a hint, with a command if the file has a name, or null if a fact is not known.
async function said(hint, facts) {
  const text = hint.say + (hint.run && facts.file ? `: ${hint.run} | dnorm check -` : '');
  const known = {};
  for (const [, name] of text.matchAll(/\{(\w+)\}/g)) {
    known[name] ??= typeof facts[name] === 'function' ? await facts[name]() : facts[name];
    if (!known[name]) return null;
  }
  return text.replace(/\{(\w+)\}/g, (_, name) => known[name]);
}

async function allSaid(hints, facts) {
  const found = [];
  for (const it of hints) found.push(await said(it, facts));
  return found.filter((it) => it);
}

/** Returns the cause of a refusal by `data`, which is hints.json: the first bytes of the refused `line`, as characters
 *  up to U+00FF, or null for the end of a text; the `mark`, from where to where its wrong word is, or null; the
 *  `problem` line; and `hints`, which begin with the row. `text` begins the text, and returns its pieces of bytes.
 *  `name` is that of the file, if its bytes are the text: hints have commands then. */
export async function causeOf(data, text, { number, place = null, node = null, name = null }) {
  const at = typeof place === 'bigint' ? Number(place) : null;
  let head = '';
  for await (const piece of text()) {
    head = plain(piece.subarray(0, HEAD));
    break;
  }
  const { refused, problem } = await scanned(text, at);
  const words = wordsOf(refused ?? '');
  const kind = (problem[1] === 'aux' ? problem[3] : problem[1]) ?? '';
  const facts = { number, line: refused ?? '', head, kind, word: null, field: null, file: name && quoted(name) };
  Object.assign(facts, { nodes: problem[2] ?? null, declared: problem.at(-1) ?? null });
  facts.rows = Object.values(data.rows[kind] ?? {}).join('; ');
  Object.assign(facts, { found: () => counted(text), seen: () => seen(text, words) });
  Object.assign(facts, { sum: () => summed(text, at, words), naming: () => namedBy(text, node) });
  const fields = fieldsOf(data.rows, kind, words);
  const wrong = words.length ? placeOf(data.marks[number], words, fields, facts) : null;
  if (wrong !== null) Object.assign(facts, { word: words[wrong] ?? null, field: fields[wrong] ?? null });
  const written = number === 1 ? [fields[0], ...words] : words;
  const row = fields.length && ROWS.includes(number) ? [rowOf(written, fields)] : [];
  const those = (part) => data[part].filter((it) => holds(it, facts));
  const ofFile = those('file').slice(0, 1);
  const told = await allSaid([...(ofFile.length ? ofFile : those('line')), ...those('fault')], facts);
  const hints = [...row, ...(told.length ? told : await allSaid(those('remedy'), facts))];
  const mark = wrong === null ? null : markOf(refused, wrong);
  return { line: refused?.slice(0, LINE) ?? null, mark, problem: problem.join(' '), hints };
}
