// Types of dnorm.mjs, which reads DIMACS network files by the proved reader of dnorm.

/** Kinds of instances; 'none' is that of an instance that was freed. */
export type Kind = 'min' | 'max' | 'sp' | 'ss' | 'p2p' | 'co' | 'none';
/** The canonical form: 1 has separate arcs for forced units and for free capacity, 2 has one arc for each cost of a
 *  pair. Forms matter only for `min`. */
export type Form = 1 | 2;
/** A stream of bytes, as a ReadableStream is. */
export interface Streaming {
  getReader(): { read(): Promise<{ done: boolean; value?: Uint8Array | undefined }>; cancel(): Promise<void> };
}
/** A text: its bytes, whatever yields pieces of them, a Blob, a File or a Response; where there are files, a path. */
export type Source =
  | string
  | ArrayBuffer
  | ArrayBufferView
  | Streaming
  | { stream(): Streaming }
  | { readonly ok: boolean; readonly body: Streaming | null }
  | AsyncIterable<Uint8Array>
  | Iterable<Uint8Array>;
/** A module: its bytes, which may be packed by gzip, or a WebAssembly.Module. */
export type Module = ArrayBuffer | ArrayBufferView | object;

/** Numbers of refusals, with their names and sentences. */
export const REFUSALS: Readonly<Record<number, readonly [name: string, sentence: string]>>;
/** The kinds, by their numbers in dnorm.h. */
export const KINDS: readonly Kind[];

/** What an instance is, in numbers. NODES and pairs are 0 for a companion. */
export interface Facts {
  kind: Kind;
  nodes: bigint;
  /** Arc lines, items or points that were read; before the end of the text, those that are declared. */
  lines: bigint;
  /** Ordered pairs of nodes that have canonical arcs. */
  pairs: bigint;
  items: bigint;
}

/** Where two instances differ first. */
export interface Difference {
  what: 'kind' | 'nodes' | 'supply' | 'source' | 'sink' | 'pair' | 'length' | 'item' | 'point';
  /** The kind of the left instance. */
  kind: Kind;
  /** The node ('supply'), the tail ('pair') or the ID ('point'). */
  at: bigint;
  /** The head ('pair'). */
  to: bigint;
  /** The item, counted from 1 ('item'). */
  index: bigint;
  /** The least amount whose least costs differ ('pair' of `min`). */
  amount: bigint;
  /** The values of both sides, up to 128 bits; of 'kind' the numbers of the kinds. null is a missing length or cost. */
  left: bigint | null;
  right: bigint | null;
}

/** Numbers of arcs or arc lines, a column for each: of `sp` also `length`, of `max` `capacity`, and of `min` `low`,
 *  `capacity` and `cost`. */
export interface Columns {
  tail: BigInt64Array;
  head: BigInt64Array;
  [value: string]: BigInt64Array;
}

/** The arc lines of a text, in its order. `line` has their numbers in the text, counted from 1. */
export interface Lines extends Columns {
  line: BigInt64Array;
}

/** The canonical arcs by their tails: those with the tail v, counted from 1, have the indexes from `first[v - 1]` to
 *  `first[v]`, without the last one, in `heads` and `columns`. */
export interface Star {
  first: Uint32Array;
  heads: Uint32Array;
  columns: Columns;
  /** Finds the arcs with the head v: their indexes are `into[i]`, which ascend, for each i from `intoFirst[v - 1]` to
   *  `intoFirst[v]`, without the last one. */
  reverse(): { intoFirst: Uint32Array; into: Uint32Array };
}

/** A text is refused (1 to 21, 34), memory ran out (30), an instance was freed or is not for a call (40), or a flow is
 *  none (42). */
export class Refused extends Error {
  readonly number: number;
  /** The name of the refusal, such as NodeOutOfRange. */
  readonly refusal: string;
  readonly sentence: string;
  /** The line, counted from 1, or the end of the text. */
  readonly place: bigint | 'end' | null;
  /** The line that the program prints for a file of this name. */
  line(file: string): string;
}

/** What a text means. Its memory is free after `free`, or some time after nothing refers to it. */
export class Instance {
  private constructor();
  facts(): Facts;
  /** The number of canonical arcs, or null if there are 2^64 or more, or no graph. */
  arcCount(form?: Form): bigint | null;
  /** [tail, head, length], [tail, head, capacity], or [tail, head, low, capacity, cost], in the order of the canonical
   *  text. Those of the first `pairs` pairs are passed over. */
  arcs(form?: Form, pairs?: bigint): Generator<bigint[]>;
  /** The canonical arcs as columns, in the same order. */
  columns(form?: Form): Columns;
  /** Throws RangeError for 2^32 nodes or more. It has a number for each node, and a text can declare any NODES. */
  star(form?: Form): Star;
  /** The arc lines of the text, if they were read. */
  readonly lines: Lines | null;
  /** Puts a flow on the canonical arcs, the units of each in their order, back on the arc lines of the text, by default
   *  those that were read with it. Returns the units of each line. The lines of a pair share the units of its arcs: in
   *  `min` each has its lower bound, and the rest goes to the cheapest, so that the cost stays the same; in `max` the
   *  first ones are filled; in `sp` the first of the shortest has all. Throws Refused (42) if that is no flow, and
   *  TypeError if the module is that of dnorm 3.0.0, which cannot spread a flow. */
  spread(form: Form, flow: BigInt64Array | Iterable<bigint | number>, lines?: Lines): BigInt64Array;
  /** [node, flow], [source, sink], [ID], [ID, ID] or [ID, x, y]. */
  items(): Generator<bigint[]>;
  /** The canonical text, in pieces of bytes. */
  canon(form?: Form): Generator<Uint8Array>;
  /** The forms in which the text that was read is canonical. `isText` tells whether it is the canonical text of a form;
   *  it is asked only of forms that have as many arcs as the text has lines. */
  forms(isText: (form: Form) => boolean | Promise<boolean>): Promise<Form[]>;
  /** null if both pose the same problem. */
  compare(right: Instance): Difference | null;
  /** null if the companion names only nodes of this graph. Otherwise 35 and the first node that is not in it, or 36 if
   *  this is no `sp` graph or the other one no companion. */
  misfit(companion: Instance): { number: 35 | 36; node: bigint | null } | null;
  free(): void;
}

/** A module with its memory, in which instances are. */
export class Library {
  private constructor();
  /** Reads a text to its end. After each piece `progress` is called with its length and the instance so far.
   *  Throws Refused, or what the source throws. */
  read(source: Source, options?: { progress?: (length: number, instance: Instance) => void }): Promise<Instance>;
  /** Reads a text, and keeps its arc lines. */
  read(
    source: Source,
    options: { lines: true; progress?: (length: number, instance: Instance) => void },
  ): Promise<Instance & { readonly lines: Lines }>;
  /** Reads a text, and returns its facts. */
  check(source: Source): Promise<Facts>;
  /** Reads a text, and yields its canonical text in pieces of bytes. */
  canon(source: Source, form?: Form): AsyncGenerator<Uint8Array>;
  /** Reads two texts, the left one first. null if they pose the same problem. */
  compare(left: Source, right: Source): Promise<Difference | null>;
}

/** The line that the program prints for what `compare` returns. */
export function verdict(difference: Difference | null): string;
/** The line that the program prints for what `misfit` returns, for a companion of this name. */
export function misfitLine(misfit: { number: 35 | 36; node: bigint | null }, file: string): string;
/** Yields the lines that the program shows of an instance. */
export function show(instance: Instance): Generator<string>;
/** Makes a library of a module. */
export function made(module: Module): Promise<Library>;
/** As `made`, or of dnorm.wasm.gz beside dnorm.mjs; beside the page, if the script that has this is no module. */
export function load(module?: Module): Promise<Library>;
