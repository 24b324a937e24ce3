// The lines of the command's input, answered as they come.
import { LINE_FEED, MOST_INPUT, joinedBytes } from "../shared/bytes.js";
import { Stop, TOO_LONG } from "./stop.js";

/** At most so many bytes are read before their lines are answered. */
const BLOCK = 4_096;

/** Answers lines, each with its line feed but the last one of an input, of which the first has this number. */
export type Answering = (lines: Uint8Array, first: number) => void;

/** @returns each without its line feed */
export function* split(lines: Uint8Array): Iterable<Uint8Array> {
  for (let begin = 0; begin < lines.length; ) {
    const found = lines.indexOf(LINE_FEED, begin);
    const end = found < 0 ? lines.length : found;
    yield lines.subarray(begin, end);
    begin = end + 1;
  }
}

/** Has all lines of the input that have come answered before more is read, up to the end.
 * @param read reads some bytes into a buffer, none at the end */
export function answerInput(read: (buffer: Uint8Array) => number, answer: Answering) {
  const buffer = new Uint8Array(BLOCK);
  let open: Uint8Array[] = [];
  let [number, left] = [1, MOST_INPUT];
  for (let count = read(buffer); count > 0; count = read(buffer)) {
    const block = buffer.subarray(0, Math.min(count, left));
    const end = block.lastIndexOf(LINE_FEED) + 1;
    if (end > 0) {
      const lines = joinedBytes([...open, block.subarray(0, end)]);
      open = [];
      answer(lines, number);
      number += [...split(lines)].length;
    }
    // a copy, since the next block takes this one's place
    if (end < block.length) open.push(block.slice(end));
    if (count > left) throw Stop.because(TOO_LONG);
    left -= count;
  }
  if (open.length > 0) answer(joinedBytes(open), number);
}
