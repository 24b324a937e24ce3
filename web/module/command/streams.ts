// The streams of the command, read and written at once: node's own streams lose the rest of a short write to a file,
// and take a folder for an empty input.
import { readSync, writeSync } from "node:fs";

/** How long the first rest lasts before a stream that isn't ready is tried again, and the longest, in milliseconds. */
const FIRST_REST = 1;
const LONGEST_REST = 16;

const nobody = new Int32Array(new SharedArrayBuffer(4));

/** Does what may find that its stream isn't ready, and tries again: npm and other programs hand on such streams. */
function whenReady(attempt: () => number): number {
  for (let rest = FIRST_REST; ; rest = Math.min(2 * rest, LONGEST_REST)) {
    try {
      return attempt();
    } catch (error) {
      if ((error as { code?: string }).code !== "EAGAIN") throw error;
    }
    Atomics.wait(nobody, 0, 0, rest);
  }
}

/** Reads some next bytes into a buffer, as many as have come and have room there.
 * @returns how many, none at the end */
export function readSome(stream: number, buffer: Uint8Array): number {
  try {
    return whenReady(() => readSync(stream, buffer, 0, buffer.length, null));
  } catch (error) {
    // what Windows says at the end of a pipe
    if ((error as { code?: string }).code === "EOF") return 0;
    throw error;
  }
}

export function writeAll(stream: number, bytes: Uint8Array) {
  for (let at = 0; at < bytes.length; ) {
    const taken = whenReady(() => writeSync(stream, bytes, at, bytes.length - at));
    if (taken === 0) throw new Error("the stream takes nothing");
    at += taken;
  }
}
