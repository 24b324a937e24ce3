// What the trials of this folder share: counts of what was seen, and the module with its memory. One is run by `node
// tests/module/rows.mjs MODULE`.
import { deepStrictEqual } from "node:assert";
import { createHash } from "node:crypto";
import { readFileSync } from "node:fs";

let passed = 0;
let failed = 0;

/** Counts what was seen against what was wanted, and shows it if they differ. */
export function same(what, seen, wanted) {
  try {
    deepStrictEqual(seen, wanted);
    passed += 1;
  } catch (error) {
    failed += 1;
    console.log(`not so: ${what}\n${error.message.slice(0, 2000)}`);
  }
}

/** The name of what a call throws, and its message. */
export async function thrown(call) {
  try {
    await call();
  } catch (error) {
    return [error.name, error.message];
  }
  return ["nothing", ""];
}

/** The last line of a trial, and its status. */
export function ended() {
  console.log(`${passed} passed, ${failed} failed`);
  process.exitCode = passed > 0 && failed === 0 ? 0 : 1;
}

export const TURNS = [..."UDRLFB"].flatMap((face) => [face, `${face}2`, `${face}'`]);
let state = 20261127;

/** The next of some numbers that are always the same, from 0 to below `end`. */
export function drawn(end) {
  state = (Math.imul(state, 1664525) + 1013904223) >>> 0;
  return Math.floor((state / 2 ** 32) * end);
}

export const text = (bytes) => new TextDecoder().decode(bytes);
export const fingerprint = (memory) => createHash("sha256").update(new Uint8Array(memory.buffer)).digest("hex");
export const moduleBytes = readFileSync(process.argv[2]);

/** Loads the module by a class of nissy.js, and returns it with the memory of its first instance, which it doesn't show. */
export async function loaded(Nissy) {
  const { instantiate } = WebAssembly;
  let memory;
  WebAssembly.instantiate = async (...given) => {
    const made = await instantiate(...given);
    memory = (made.instance ?? made).exports.memory;
    return made;
  };
  const nissy = await Nissy.load(moduleBytes);
  WebAssembly.instantiate = instantiate;
  return { nissy, memory };
}
