// Reads texts in modules whose memory ends at each size: each answer is the one with much memory, or that memory ran
// out, and nothing traps. Prints how many answers are of each sort.
import { readFileSync } from 'node:fs';
import { gunzipSync } from 'node:zlib';
import { Refused, made } from '../../web/dnorm.mjs';

const module = gunzipSync(readFileSync(process.argv[2]));
const MEMORY = 5;
const PAGE = 65536;

// Returns a number of the format LEB128 at a place of the module, and the place behind it.
function number(at) {
  let value = 0;
  let place = at;
  for (let bits = 1; ; bits *= 128, place += 1) {
    value += (module[place] & 127) * bits;
    if (module[place] < 128) return [value, place + 1];
  }
}

function coded(value) {
  return value < 128 ? [value] : [(value & 127) | 128, ...coded(value >>> 7)];
}

// Returns the module with so many pages at most; null if it begins with more.
function limited(pages) {
  for (let at = 8; ; ) {
    const [length, inside] = number(at + 1);
    if (module[at] === MEMORY) {
      const [least] = number(inside + 2);
      const section = [1, module[inside + 1] | 1, ...coded(least), ...coded(pages)];
      const parts = [module.subarray(0, at), Uint8Array.from([MEMORY, section.length, ...section])];
      return least > pages ? null : Buffer.concat([...parts, module.subarray(inside + length)]);
    }
    at = inside + length;
  }
}

const rows = (count, row) => Array.from({ length: count }, (_, i) => row(i)).join('');
const node = (i, count) => 1 + ((i * 7919) % count);
const short = (i) => `a ${node(i, 2999)} ${node(i >> 2, 2999)} ${i % 1000}\n`;
const arc = (i) => `a ${node(i, 1999)} ${node(i >> 3, 1999)} ${i % 3} ${3 + (i % 9)} ${i % 50}\n`;
const TEXTS = {
  sp: `p sp 3000 30000\n${rows(30000, short)}`,
  max: `p max 3000 30000\nn 1 s\nn 2 t\n${rows(30000, short)}`,
  min: `p min 2000 30000\n${rows(30000, arc)}`,
  flows: `p min 9000 1\n${rows(9000, (i) => `n ${i + 1} ${i - 4000}\n`)}a 1 2 0 1 1\n`,
  co: `p aux sp co 9000\n${rows(9000, (i) => `v ${9000 - i} 1 2\n`)}`,
  ss: `p aux sp ss 9000\n${rows(9000, () => 's 5\n')}`,
};
const bytes = (text) => Buffer.from(text);
const plain = (value) => JSON.stringify(value, (_, it) => (typeof it === 'bigint' ? String(it) : it));

// Returns what each call says, by its name.
async function answers(library) {
  const said = {};
  const ask = async (name, call) => {
    try {
      said[name] = await call();
    } catch (error) {
      if (!(error instanceof Refused)) throw error;
      said[name] = error.number;
    }
  };
  for (const [name, text] of Object.entries(TEXTS)) {
    let one = null;
    await ask(`${name} read`, async () => plain((one = await library.read(bytes(text))).facts()));
    if (!one) continue;
    for (const form of [1, 2]) await ask(`${name} canon ${form}`, () => Buffer.concat([...one.canon(form)]).toString());
    const other = bytes(text.replace(/1\n$/, '2\n'));
    await ask(`${name} compare`, async () => plain(await library.compare(bytes(text), other)));
    one.free();
    await ask(`${name} spread`, async () => {
      const it = await library.read(bytes(text), { lines: true });
      try {
        if (!library.calls.dnorm_spread || !it.arcCount()) return it.lines.tail.length;
        const { tail, capacity } = it.columns();
        const units = it.spread(1, capacity ?? new BigInt64Array(tail.length));
        return plain(units.reduce((sum, unit, i) => sum + unit * BigInt(i), 0n));
      } finally {
        it.free();
      }
    });
  }
  await ask('a small text', async () => plain(await library.check(bytes('p sp 1 0\n'))));
  return said;
}

const right = await answers(await made(module));
const counts = { right: 0, memory: 0, other: 0, refused: 0 };
for (let pages = 17; pages < 330; pages += pages < 80 ? 1 : 5) {
  const code = limited(pages);
  if (!code) continue;
  let library = null;
  try {
    library = await made(code);
  } catch (error) {
    if (error.number !== 30) throw error;
    counts.refused += 1;
    continue;
  }
  for (const [name, it] of Object.entries(await answers(library))) {
    if (it === 30) counts.memory += 1;
    else if (it === right[name]) counts.right += 1;
    else counts.other += 1;
  }
  if (library.calls.memory.buffer.byteLength > pages * PAGE) counts.other += 1;
}
process.stdout.write(`${plain(counts)}\n`);
