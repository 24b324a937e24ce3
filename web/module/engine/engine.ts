// The engine: requests are answered by an instance of the module, and by another one after a call that broke off.
import { TextCalls, type ToldText } from "../text/text-calls.js";
import { EngineMissing } from "../shared/faults.js";
import { START_FAULT } from "../shared/structs.js";
import { bestOf } from "./best-search.js";
import { Instance } from "./instance.js";
import { checked, counted, factsOf, faultText, lineAfterOf, rewritten, runIn, solved, written } from "./line-calls.js";
import { answerAll } from "./many-lines.js";
import { countedOverSides, solvedOverSides } from "./over-sides.js";
import { compiled, type ModuleSource } from "./source.js";
import type { CountOfSides, OneReply } from "../calls/replies.js";
import type { Request, RequestOf } from "../calls/requests.js";
import type { Follow } from "../calls/signals.js";
import type { WrittenLine } from "../text/written.js";

type Reply = OneReply | CountOfSides | WrittenLine | ToldText;
type OneCall = Exclude<Request["call"], "all">;
type Answer<Call extends OneCall> = (instance: Instance, request: RequestOf<Call>, tell: Follow) => Reply;

const REPLIES: { [Call in OneCall]: Answer<Call> } = {
  invert: (instance, { line }) => rewritten(instance, "nissy_invert", line),
  unniss: (instance, { line }) => rewritten(instance, "nissy_unniss", line),
  cleanup: (instance, { line }) => rewritten(instance, "nissy_cleanup", line),
  facelets: (instance, { line }) => rewritten(instance, "nissy_facelets", line),
  solve: solved,
  solveSides: solvedOverSides,
  countSides: countedOverSides,
  count: counted,
  facts: factsOf,
  check: checked,
  lineAfter: lineAfterOf,
  best: bestOf,
  scramble: (instance, { state, stream, length }) => written(instance, "nissy_scramble", [state, stream, length]),
  steps: (instance) => written(instance, "nissy_steps", []),
  run: runIn,
  plainLine: (instance, { text }) => new TextCalls(instance, text).plain(),
  readAttempts: (instance, { text }) => new TextCalls(instance, text).read(),
  checkAttempts: (instance, { text, scrambles }) => ({
    ...new TextCalls(instance, text).checked(scrambles),
    faults: Array.from({ length: START_FAULT }, (_, fault) => faultText(instance, fault)),
  }),
};

const answerOf = (call: OneCall) => REPLIES[call] as Answer<any>;

export class Engine {
  #instance: Instance;

  constructor(private module: WebAssembly.Module, instance: WebAssembly.Instance) {
    this.#instance = new Instance(instance);
  }

  static async start(source: ModuleSource | Promise<ModuleSource>): Promise<Engine> {
    const module = await compiled(source);
    return new Engine(module, await WebAssembly.instantiate(module, {}));
  }

  /** @returns a reply, of the type that the request has */
  answer(request: Request, tell: Follow = () => {}): any {
    const instance = this.#ready();
    if (request.call !== "all") return answerOf(request.call)(instance, request, tell);
    const answer = answerOf(request.each.call);
    return answerAll(instance, request, (asked) => answer(instance, asked, () => {}) as OneReply);
  }

  /** The instance, or another one of the module in place of one that broke off. */
  #ready(): Instance {
    if (!this.#instance.isBroken) return this.#instance;
    try {
      this.#instance = new Instance(new WebAssembly.Instance(this.module, {}));
      return this.#instance;
    } catch (cause) {
      const { message } = cause as Error;
      throw new EngineMissing(`the engine broke off, and can't be started again: ${message}`, cause);
    }
  }
}
