// Calls the functions of a module of assembled.py, and prints for each a sum of all that its calls return, tell and
// leave in memory. The words are the module, the numbers that calls are given, and how many functions get all pairs.
import { readFileSync } from 'node:fs';

const [module, given, plain, room] = process.argv.slice(2);
const numbers = JSON.parse(readFileSync(given));
const at = 3 * 65536;
let sum;
const add = (byte) => { sum = Math.imul(sum ^ byte, 16777619) >>> 0; };
const number = (it) => { for (let i = 0n; i < 64n; i += 8n) add(Number((it >> i) & 255n)); };
const { exports } = (await WebAssembly.instantiate(readFileSync(module), { env: { seen: number } })).instance;
const own = new Uint8Array(exports.memory.buffer, at, Number(room));

const pairs = numbers.flatMap((a) => numbers.map((b) => [BigInt(a), BigInt(b)]));
for (let i = 0; exports[`t${i}`]; i += 1) {
  sum = 2166136261;
  for (const [a, b] of i < plain ? pairs : pairs.filter((_, n) => n % 29 === 0)) {
    own.fill(0xa5);
    try {
      number(exports[`t${i}`](BigInt(at), a, b));
    } catch (error) {
      if (!(error instanceof WebAssembly.RuntimeError)) throw error;
      add(1);
    }
    if (i >= plain - 1) own.forEach(add);
  }
  console.log(sum);
}
// How deep the calls go for which the module's stack has room.
let depth = 0n;
try {
  for (; ; depth += 1n) exports.deep(0n, depth, 0n);
} catch {
  console.log(`deep ${depth}`);
}
