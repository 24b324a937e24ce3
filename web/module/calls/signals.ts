// The signals by which callers give calls up, and what they are told of the progress.
import { Stopped } from "../shared/faults.js";
import { optionOf } from "./requests.js";

/** What gives a call up: it rejects with the signal's reason. */
export type Stoppable = { signal?: AbortSignal | undefined };

/** What is told how far a call is: how much is done, and of how much, null until that is known. What it throws ends the
 * call; of a worker so does a promise that it returns and that rejects. */
export type Followed = { onProgress?: ((done: number, all: number | null) => unknown) | undefined };

export type Progress = { done: number; all: number | null };
export type Follow = (progress: Progress) => unknown;

export function progressOf(options: unknown = {}): Follow {
  const onProgress = optionOf(options, "onProgress", () => {});
  if (typeof onProgress !== "function") throw new TypeError("what is told of the progress is no function");
  return ({ done, all }) => onProgress(done, all);
}

export function signalOf(options: unknown = {}): AbortSignal | undefined {
  const signal = optionOf(options, "signal") as any;
  if (signal === undefined) return undefined;
  const listens = ["addEventListener", "removeEventListener"].every((name) => typeof signal?.[name] === "function");
  if (typeof signal?.aborted !== "boolean" || !listens) throw new TypeError("the signal is no AbortSignal");
  return signal;
}

export const reasonOf = (signal: AbortSignal): unknown => signal.reason ?? new Stopped();

/** What a signal does once it is given. However many calls and workers have the same signal, this one listens to it for
 * all of them: node takes more than ten listeners for a leak. */
class Acts extends Set<() => void> {
  handleEvent() {
    for (const act of this) act();
  }
}

const actsOfSignals = new WeakMap<AbortSignal, Acts>();

/** Has a signal do something once it is given.
 * @returns what has it no longer do so */
export function onAbort(signal: AbortSignal, act: () => void): () => void {
  const acts = actsOfSignals.get(signal) ?? new Acts();
  if (acts.size === 0) signal.addEventListener("abort", acts);
  actsOfSignals.set(signal, acts.add(act));
  return () => {
    acts.delete(act);
    if (acts.size === 0) signal.removeEventListener("abort", acts);
  };
}
