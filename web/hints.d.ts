// Types of hints.mjs, which tells the cause of a refusal.

/** Why a text is refused. */
export interface Cause {
  /** The first 200 bytes of the refused line, as characters up to U+00FF; null for the end of a text. */
  line: string | null;
  /** From where to where its wrong word is, or a word is missing. */
  mark: [from: number, to: number] | null;
  /** The problem line, if it comes before. */
  problem: string;
  /** Sentences, of which the first one may be the row that the line is to have. */
  hints: string[];
}

/** Returns the cause of a refusal by hints.json. `text` begins the text that is refused, and returns its pieces. What a
 *  Refused has tells `number` and `place`; `node` is that of `misfit`; with the `name` of a file, hints have commands.
 */
export function causeOf(
  hints: object,
  text: () => AsyncIterable<Uint8Array> | Iterable<Uint8Array>,
  refused: { number: number; place?: bigint | 'end' | null; node?: bigint | null; name?: string | null },
): Promise<Cause>;
/** Returns a name as a word of bash. */
export function quoted(name: string): string;
