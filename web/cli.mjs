#!/usr/bin/env node
// The commands of dnorm for Node, Deno and Bun:
//
//     node cli.mjs compare flow.min flow-cheaper.min
//
// They have the lines and the statuses of the program.
import { createHash } from 'node:crypto';
import { readFileSync } from 'node:fs';
import process from 'node:process';
import { Refused, load, misfitLine, opened, show, verdict } from './node.mjs';

const HELP = `Canonicalises, checks and compares DIMACS network instances, by dnorm as a WebAssembly module.

Usage: dnorm canon [--form 1|2] FILE     writes the canonical form of FILE
       dnorm check FILE [--with COMPANION]
       dnorm compare LEFT RIGHT          prints the first difference
       dnorm show FILE                   shows what FILE contains

FILE may be -, standard input, once. Without arguments: canon -. The lines and exit statuses are those of the program,
which MANUAL.md describes: 0, or 1 if files differ, 2 if a file is refused, 3 for a bad command line, 4 if memory ran
out, or a file or standard output failed.
`;
const COMMANDS = { canon: { files: 1, option: '--form' }, check: { files: 1, option: '--with' } };
Object.assign(COMMANDS, { compare: { files: 2 }, show: { files: 1 } });

/** What ends a run: a line for standard error, and the exit status. */
class Ended extends Error {
  constructor(line, status) {
    super(line);
    this.status = status;
  }
}

// What calls for help.
const isHelp = (word) => /^-h|^--help$/.test(word);

// Understands words as the program does, from left to right. Returns the command, its files and the value of its
// option; or the name `help`, which is the same for each command. A line of words that no command has ends the run.
function understood([name, ...rest]) {
  const bad = new Ended('dnorm: bad command line', 3);
  const help = { name: 'help' };
  const isCommand = (word) => Object.hasOwn(COMMANDS, word);
  const isNamed = name === 'help' && rest.length < 2 && rest.every((it) => it === 'help' || isCommand(it));
  if (isHelp(name) || isNamed) return help;
  if (!isCommand(name)) throw bad;
  const command = COMMANDS[name];
  const files = [];
  let value = null;
  let isOver = false;
  for (let i = 0; i < rest.length; i += 1) {
    const [word, given] = rest[i].split(/=(.*)/s);
    if (isOver || !/^-./s.test(rest[i])) {
      if (files.push(rest[i]) > command.files) throw bad;
    } else if (rest[i] === '--') {
      isOver = true;
    } else if (isHelp(rest[i])) {
      return help;
    } else if (word === command.option && value === null) {
      value = given ?? rest[i += 1];
      // A word that may be an option is a value only behind `=`.
      const isValue = given !== undefined || (value !== undefined && !/^-./s.test(value));
      if (!isValue || (name === 'canon' && !['1', '2'].includes(value))) throw bad;
    } else {
      throw bad;
    }
  }
  if (files.length !== command.files) throw bad;
  const named = name === 'check' && value !== null ? [...files, value] : files;
  if (named.length === 2 && named.every((it) => it === '-')) throw new Ended('dnorm: standard input named twice', 3);
  return { name, files: named, form: Number(value ?? 1) };
}

// Runs a command, and yields what it prints. Returns the exit status.
class Command {
  constructor(library) {
    this.library = library;
  }

  // Reads a file, or standard input. Each piece goes to `seen`.
  async read(file, seen = () => {}) {
    const source = file === '-' ? process.stdin : opened(file);
    const noted = async function* () {
      for await (const piece of source) {
        seen(piece);
        yield piece;
      }
    };
    try {
      return await this.library.read(noted());
    } catch (error) {
      if (error instanceof Refused) throw new Ended(error.line(file), error.number === 30 ? 4 : 2);
      // What Node, Deno or Bun says of a file has a code.
      if (error.code) throw new Ended(`${file}: 31 Read`, 4);
      throw error;
    }
  }

  *written(instance, file, form) {
    try {
      yield* instance.canon(form);
    } catch (error) {
      throw error instanceof Refused ? new Ended(error.line(file), error.number === 30 ? 4 : 2) : error;
    }
  }

  async *canon({ files: [file], form }) {
    yield* this.written(await this.read(file), file, form);
    return 0;
  }

  async *check({ files: [file, companion] }) {
    const sum = createHash('sha256');
    const instance = await this.read(file, (piece) => sum.update(piece));
    const wanted = sum.digest('hex');
    const forms = await instance.forms((form) => {
      const canonical = createHash('sha256');
      for (const piece of this.written(instance, file, form)) canonical.update(piece);
      return canonical.digest('hex') === wanted;
    });
    const lines = [`accepted ${instance.facts().kind}`];
    if (companion !== undefined) {
      const other = await this.read(companion);
      const bad = instance.misfit(other);
      if (bad) throw new Ended(misfitLine(bad, companion), 2);
      lines.push(`fits ${other.facts().kind}`);
    }
    yield `${lines.join('\n')}\nforms ${forms.join(' ') || 'none'}\n`;
    return 0;
  }

  async *compare({ files: [left, right] }) {
    const one = await this.read(left);
    const difference = one.compare(await this.read(right));
    yield `${verdict(difference)}\n`;
    return difference ? 1 : 0;
  }

  async *show({ files: [file] }) {
    yield* show(await this.read(file));
    return 0;
  }
}

async function main(words) {
  // A failing write is told by its callback.
  process.stdout.on('error', () => {});
  const write = (piece) => new Promise((resolve, reject) => {
    process.stdout.write(piece, (error) => (error ? reject(new Ended('out: 33 Write', 4)) : resolve()));
  });
  try {
    if (/^-V|^--version$/.test(words[0])) {
      await write(`dnorm ${JSON.parse(readFileSync(new URL('package.json', import.meta.url))).version}\n`);
      return 0;
    }
    const asked = understood(words.length ? words : ['canon', '-']);
    if (asked.name === 'help') {
      await write(HELP);
      return 0;
    }
    const run = new Command(await load());
    const printing = run[asked.name](asked);
    let it = await printing.next();
    for (; !it.done; it = await printing.next()) await write(it.value);
    return it.value;
  } catch (error) {
    const { message, status } = error instanceof Refused ? { message: 'dnorm: 30 Memory', status: 4 } : error;
    if (status === undefined) throw error;
    process.stderr.write(`${message}\n`);
    return status;
  }
}

process.exitCode = await main(process.argv.slice(2));
