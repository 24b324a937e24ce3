// Reads text as solvers write it on the page's own thread, so that what is typed or pasted is read before anything else
// is done with it: by an instance of the engine's module that has nothing else to do.
import { attemptOf, attemptsIn, type Attempt } from "../../module/text/attempts.js";
import { Instance } from "../../module/engine/instance.js";
import { TextCalls } from "../../module/text/text-calls.js";
import { plainIn, type PlainLine } from "../../module/text/written.js";
import type { SentModule } from "../../module/workers/worker-queue.js";

const asItStands = (text: string): PlainLine => ({ line: text, places: Array.from(text, (_, at) => at), leftOut: [] });

export class Reader {
  /** @param instance null if the page has no engine: then all stays as it stands */
  constructor(private readonly instance: Instance | null) {}

  static async start(module: SentModule) {
    try {
      return new Reader(new Instance(await WebAssembly.instantiate(module as WebAssembly.Module, {})));
    } catch {
      // each worker says why there is no engine
      return new Reader(null);
    }
  }

  plainLine(text: string): PlainLine {
    return this.instance === null ? asItStands(text) : plainIn(new TextCalls(this.instance, text).plain(), text);
  }

  attempts(text: string): Attempt[] {
    if (this.instance === null) return [attemptOf(asItStands(text))];
    return attemptsIn(new TextCalls(this.instance, text).read(), text);
  }
}
