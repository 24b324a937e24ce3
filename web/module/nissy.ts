// nissy wherever JavaScript runs: a call ends before it returns. A long search belongs into a worker, as `NissyWorker`
// of browser.js and of node.js has one.
import { takeCalls } from "./calls/call-table.js";
import { OF_SOLUTIONS, refuseUnknown, runRequest, solutionsRequest } from "./calls/requests.js";
import { progressOf } from "./calls/signals.js";
import { solutionsBy } from "./calls/solutions-in-turn.js";
import { Engine } from "./engine/engine.js";
import type { Calls } from "./calls/calls.js";
import type { ModuleSource } from "./engine/source.js";

export type { Answer, Best, Count, SideSolutions, Solution, Solutions } from "./calls/replies.js";
export type { AttemptCheck, FormInText } from "./text/attempt-checks.js";
export type { Attempt, AttemptCandidate, AttemptDoubt } from "./text/attempts.js";
export type { Axis, Check, CornerPlace, EdgePlace, Facts, Form } from "./shared/facts.js";
export type { Text } from "./shared/bytes.js";
export type { BestRow, BestStep } from "./shared/ways.js";
export type { BestWanted, Wanted } from "./calls/requests.js";
export type { FormPlace, Token } from "./text/tokens.js";
export type { PlainLine, TextPlace } from "./text/written.js";
export type { Step } from "./shared/steps.js";

export { EngineMissing, NissyFault, NoWebAssembly, SearchCut, Stopped } from "./shared/faults.js";
export { AXES, CORNER_PLACES, EDGE_PLACES } from "./shared/facts.js";
export { STEPS, startOf } from "./shared/steps.js";
export { NET, stickersOf } from "./shared/stickers.js";
export { placeOf } from "./text/written.js";

/** The version of the scripts, and of the module that comes with them. */
export const VERSION = "3.2.0";

/** The engine, loaded. After a call that broke off the next one starts the module anew, or throws `EngineMissing`. */
export class Nissy {
  #engine: Engine;

  // a field, since older hosts know no block here
  static #calls = takeCalls<Nissy>(this.prototype, (nissy, row, given) => {
    const { takes, options, request: ask, read, isFollowed } = row;
    if (options) refuseUnknown(given[takes], isFollowed ? [...options, "onProgress"] : options);
    const request = ask(...given);
    return read(nissy.#engine.answer(request, isFollowed ? progressOf(given[takes]) : undefined), request);
  }, {
    // which has no options here
    run(...given) {
      return this.#engine.answer(runRequest(...given));
    },
    solutions(...given) {
      refuseUnknown(given[2], OF_SOLUTIONS);
      return solutionsBy(solutionsRequest(...given), (request) => this.#engine.answer(request));
    },
  });

  constructor(engine: Engine) {
    this.#engine = engine;
  }

  /** Loads the module `nissy.wasm`. Rejects with `NoWebAssembly` if the host runs none. */
  static async load(source: ModuleSource | Promise<ModuleSource>): Promise<Nissy> {
    return new Nissy(await Engine.start(source));
  }
}

export interface Nissy extends Calls<"now"> {}
