// The calls as promises, by workers: what one of them throws, its promise is rejected with.
import { takeCalls, type Row } from "../calls/call-table.js";
import { OF_SOLUTIONS, refuseUnknown, solutionsRequest, type Request } from "../calls/requests.js";
import { onAbort, progressOf, reasonOf, signalOf, type Follow, type Stoppable } from "../calls/signals.js";
import { solutionsLaterBy } from "../calls/solutions-in-turn.js";
import { compiled, type ModuleSource } from "../engine/source.js";
import { Stopped } from "../shared/faults.js";
import { WorkerQueue, type Call, type NewWorker, type SentModule } from "./worker-queue.js";
import type { Calls, When } from "../calls/calls.js";
import type { SolveReply } from "../calls/replies.js";

/** Has a worker reply to a request, which is given up together with the others of its call. */
export type Ask = (request: Request, follow?: Follow) => Promise<any>;
/** How a call asks several workers.
 * @returns what reads the replies once all of the progress is heard */
export type Share = (row: Row, request: Request, ask: Ask, tell: Follow) => Promise<() => unknown>;

export const unshared: Share = async ({ read }, request, ask, tell) => {
  const reply = await ask(request, tell);
  return () => read(reply, request);
};

export class LaterCalls<Time extends When> {
  #queue: WorkerQueue;

  static #calls = takeCalls<LaterCalls<"worker">>(this.prototype, async (caller, row, given) => {
    const { takes, options = [], one, isFollowed } = row;
    const isTold = isFollowed || (one && caller.share !== unshared);
    refuseUnknown(given[takes], [...options, "signal", ...(isTold ? ["onProgress"] : [])]);
    return caller.#tell(row, row.request(...given), given[takes]);
  }, {
    solutions(step, line, options) {
      refuseUnknown(options, [...OF_SOLUTIONS, "signal"]);
      const stoppable: Stoppable = { signal: signalOf(options) };
      const next = (request: Request): Promise<SolveReply> => this.#together(stoppable, (ask) => ask(request));
      return solutionsLaterBy(solutionsRequest(step, line, options), next);
    },
  });

  constructor(module: SentModule, newWorker: NewWorker, workers = 1, private share = unshared) {
    this.#queue = new WorkerQueue(module, newWorker, workers);
  }

  /** @returns these calls once a first one is answered: without an answer no worker can be started */
  static async begun<Caller extends LaterCalls<any>>(calls: Caller): Promise<Caller> {
    await calls.#queue.answer({ call: "steps" });
    return calls;
  }

  /** Gives up the calls that wait for their turn; what runs goes on. */
  drop() {
    this.#queue.drop();
  }

  /** Gives up all calls. */
  stop() {
    this.#queue.stop();
  }

  /** Gives up all calls, and ends the workers. A later call starts others. */
  end() {
    this.#queue.end();
  }

  async #tell(row: Row, request: Request, options: unknown): Promise<unknown> {
    const follow = progressOf(options);
    const heard: Promise<unknown>[] = [];
    const read = await this.#together(options, (ask, call) => this.share(row, request, ask, (progress) => {
      if (call.isOver) return undefined;
      const told = Promise.resolve(follow(progress));
      heard.push(told);
      return told;
    }));
    await Promise.all(heard);
    return read();
  }

  /** Makes the requests of a call, which are given up together, if one of them fails too. */
  async #together<Value>(options: unknown, make: (ask: Ask, call: Call) => Promise<Value>): Promise<Value> {
    const signal = signalOf(options);
    if (signal?.aborted) throw reasonOf(signal);
    const call: Call = {};
    const forget = signal && onAbort(signal, () => this.#queue.giveUp(call, reasonOf(signal)));
    try {
      return await make((request, follow) => this.#queue.answer(request, call, follow), call);
    } finally {
      forget?.();
      this.#queue.giveUp(call, new Stopped());
    }
  }
}

export interface LaterCalls<Time extends When> extends Calls<Time> {}

/** The engine in a worker. An `AbortSignal` may give up each call: after one that ran, the tables are built anew. */
export class WorkerCalls extends LaterCalls<"worker"> {
  /** Starts an engine. Rejects with `NoWebAssembly` if the host runs none, with `EngineMissing` if no worker starts. */
  static async startBy(source: ModuleSource | Promise<ModuleSource>, newWorker: NewWorker): Promise<WorkerCalls> {
    return this.begun(new this(await compiled(source), newWorker));
  }
}
