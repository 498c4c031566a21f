// The library for Node, Deno and Bun, which have files: dnorm.mjs with paths as texts, and with the module beside it.
import { createReadStream, existsSync, readFileSync, realpathSync } from 'node:fs';
import { fileURLToPath, pathToFileURL } from 'node:url';
import * as core from './dnorm.mjs';

export * from './dnorm.mjs';

// The module: beside this file, as releases have it, or in a clone, what make makes or a release has made.
const MODULES = ['./dnorm.wasm.gz', '../build/dnorm.wasm.gz', '../released/dnorm.wasm.gz'];
const PIECE = 1 << 20;
// A bundle that is no module has no URL, but a name.
const HERE = import.meta.url ?? pathToFileURL(__filename);

/** Yields the pieces of a file. */
export const opened = (path) => createReadStream(path, { highWaterMark: PIECE });

/** Makes a library, as `made` of dnorm.mjs does, that reads files by their paths. */
export const made = (module) => core.made(module, opened);

/** Makes a library of a module, or else of the one beside this file. */
export async function load(module) {
  if (module) return made(module);
  const places = MODULES.map((it) => new URL(it, HERE));
  return made(readFileSync(places.find((it) => existsSync(it)) ?? places[0]));
}

/** Whether a path leads to the file of a URL. */
export const isThis = (path, url) => existsSync(path) && realpathSync(path) === realpathSync(fileURLToPath(url));
