// What calls throw beside a `TypeError` for a value of another type and a `RangeError` for one out of its range.
import type { Count, Solution } from "../calls/replies.js";

/** A fault as a plain value: `text`, what is wrong; `part`, what the line is called, such as `scramble`, else nothing;
 * `column`, in bytes of UTF-8 from 1, and `character`, the same in Unicode's characters, both null if it isn't at one
 * place; `step`, which can't begin at the line's cube, null if the line can't be read, and `start`, the step that would
 * have to hold before that one; `line`, of many, from 1, null if there was one. */
export type FaultParts = {
  text: string;
  part: string;
  column: number | null;
  character: number | null;
  step: string | null;
  start: string | null;
  line: number | null;
};

/** What is said before a fault: of which line it is, by its number unless the line has a name, and at which column. */
function placeInWords(line: number | null, column: number | null, name: string) {
  const behind = column === null ? "" : `column ${column}: `;
  if (name !== "") return `${name}, ${behind}`;
  return line === null ? behind : `line ${line}${behind === "" ? ": " : ", "}${behind}`;
}

/** A line at fault, in the program's words, or a cube at which a step can't begin. */
export class NissyFault extends Error {
  /** @param part what the line is called: the message says that in place of its number */
  constructor(text: string, place: Partial<FaultParts>, part = "") {
    const { column = null, character = null, step = null, start = null, line = null } = place;
    super(placeInWords(line, column, part) + text);
    // one by one, since there may be many of a long text
    this.name = "NissyFault";
    this.text = text;
    this.column = column;
    this.character = character;
    this.step = step;
    this.start = start;
    this.line = line;
    this.part = part;
  }

  /** The same as a plain value. */
  parts(): FaultParts {
    const { text, part, column, character, step, start, line } = this;
    return { text, part, column, character, step, start, line };
  }
}

export interface NissyFault extends FaultParts {}

/** What is made with errors that are told in it, and not thrown: without their traces, which take ten times as long. */
export function withoutTraces<Made>(make: () => Made): Made {
  const { stackTraceLimit } = Error as any;
  // some scripts have it that nothing of an error can be set
  Reflect.set(Error, "stackTraceLimit", 0);
  try {
    return make();
  } finally {
    Reflect.set(Error, "stackTraceLimit", stackTraceLimit);
  }
}

/** A search that was cut, since it would have looked at more positions than it might. */
export class SearchCut extends Error {
  override name = "SearchCut";

  /** @param count what it had counted until then
   * @param found the solutions that it had found, with which its list begins; null of a count or of the best
   * @param line of many, from 1; null if there was one */
  constructor(public count: Count, public found: Solution[] | null, public line: number | null = null) {
    super(`${placeInWords(line, null, "")}the search was cut after ${count.nodes} nodes`);
  }
}

/** What is wrong in a line of many, with its number; one of a pair keeps its name. @param line from 1 */
export function inLine(error: unknown, line: number, isOfPair = false): unknown {
  if (error instanceof NissyFault) {
    const fault = new NissyFault(error.text, { ...error.parts(), line }, isOfPair ? error.part : "");
    if (isOfPair) fault.message = `line ${line}, ${error.message}`;
    return fault;
  }
  if (error instanceof SearchCut) return new SearchCut(error.count, error.found, line);
  return error instanceof RangeError ? new RangeError(`line ${line}: ${error.message}`) : error;
}

const NO_WEB_ASSEMBLY = "This browser runs no WebAssembly. Each one of the last years does, but not where it was "
  + "switched off, as in Safari's Lockdown Mode.";

/** This host runs no module at all. */
export class NoWebAssembly extends Error {
  override name = "NoWebAssembly";

  constructor() {
    super(NO_WEB_ASSEMBLY);
  }
}

/** The engine broke off or couldn't be started, and can't be started again. */
export class EngineMissing extends Error {
  override name = "EngineMissing";

  constructor(message: string, public override cause?: unknown) {
    super(message);
  }
}

/** A call that was given up. */
export class Stopped extends Error {
  override name = "AbortError";

  constructor() {
    super("stopped");
  }
}
