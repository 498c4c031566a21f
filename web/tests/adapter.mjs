// A reader for suite/run.py --batch: each line of standard input is a call. It also answers `show FILE`.
// With PIECES in the environment, a text is handed over in pieces of so many bytes.
import { readFileSync } from 'node:fs';
import { createInterface } from 'node:readline';
import { Refused, load, misfitLine, show, verdict } from '../../web/dnorm.mjs';

const PIECES = Number(process.env.PIECES ?? 0);
const library = await load();

function* cut(path) {
  const text = readFileSync(path);
  for (let from = 0; from < text.length; from += PIECES) yield text.subarray(from, from + PIECES);
}

const joined = (pieces) => JSON.stringify(Buffer.concat([...pieces].map((it) => Buffer.from(it))).toString('latin1'));

async function answer([call, ...words]) {
  const [form, file] = call === 'canon' ? words.slice(1) : [null, words[0]];
  const held = [];
  const read = async (path) => {
    try {
      held.push(await library.read(PIECES ? cut(path) : path));
    } catch (error) {
      throw error instanceof Refused ? error.line(path) : error;
    }
    return held.at(-1);
  };
  try {
    const one = await read(file);
    if (call === 'canon') return joined(one.canon(Number(form)));
    if (call === 'show') return joined(show(one));
    if (call === 'compare') return verdict(one.compare(await read(words[1])));
    if (words.length === 1) return `accepted ${one.facts().kind}`;
    const companion = await read(words[2]);
    const misfit = one.misfit(companion);
    return misfit ? misfitLine(misfit, words[2]) : `accepted ${one.facts().kind} fits ${companion.facts().kind}`;
  } catch (error) {
    if (typeof error !== 'string') throw error;
    return error;
  } finally {
    for (const it of held) it.free();
  }
}

for await (const line of createInterface({ input: process.stdin })) {
  process.stdout.write(`${await answer(line.split('\t'))}\n`);
}
