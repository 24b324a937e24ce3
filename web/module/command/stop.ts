// What ends the command before its time: a status, and what is said of it.
import { MOST_INPUT } from "../shared/bytes.js";
import { STATUS } from "../shared/structs.js";

export const OUT_OF_MEMORY = "out of memory";
export const TOO_LONG = `input longer than ${MOST_INPUT} bytes`;

export class Stop extends Error {
  constructor(public status: number, public text: string) {
    super(text);
  }

  /** What no line is at fault of. */
  static because(why: string) {
    return new Stop(STATUS.stopped, `nissy: ${why}\n`);
  }

  /** The same after so many lines of which the engine wasn't told. */
  after(lines: number) {
    const moved = (_: string, number: string) => `nissy: line ${Number(number) + lines}`;
    return new Stop(this.status, this.text.replace(/^nissy: line (\d+)/, moved));
  }
}
