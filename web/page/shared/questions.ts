// Questions to the engine, as promises. It runs in a worker, whose script stands in the page (worker.js has what may be
// asked), so that the page never waits. Workers start and build tables while nothing else is asked.
import { NissyFault } from "../../module/shared/faults.js";
import { WorkerQueue, type SentModule } from "../../module/workers/worker-queue.js";
import { ORIENTATIONS, REDUCTIONS, namesOf, openSteps, reductionsAfter, type Step } from "./offered-steps.js";
import { waitsForAnswers } from "./view.js";
import { watched } from "./watch.js";
import type { Answers } from "../page-worker.js";
import type { Request } from "../../module/calls/requests.js";

const UNREADABLE = "An answer of it can't be read.";

/** What starts workers by the text of their script: one early, since that takes a while, others once all is shown. */
export function workersOf(script: string): () => Promise<Worker> {
  const start = () => {
    const address = URL.createObjectURL(new Blob([script], { type: "text/javascript" }));
    const worker = new Worker(address);
    // not before it was read
    worker.addEventListener("message", () => URL.revokeObjectURL(address), { once: true });
    // an answer that can't be read would be waited for
    const unread = () => worker.dispatchEvent(new ErrorEvent("error", { message: UNREADABLE }));
    worker.addEventListener("messageerror", unread);
    return worker;
  };
  let early: Worker | null = null;
  try {
    early = start();
    // nobody is there yet to be told that it failed: another one takes its place
    early.addEventListener("error", (event) => {
      if (early !== event.target) return;
      event.preventDefault();
      early = null;
    });
  } catch {
    // whoever asks for one is told why it can't be started
  }
  return async () => {
    const ready = early;
    early = null;
    if (ready === null) await new Promise((done) => setTimeout(done));
    return ready ?? start();
  };
}

/** How long the page waits for answers, to show them together with what they were asked for. */
const SOON = 50;

/** Waits a moment, since what is shown by itself is laid out and painted by itself. @returns whether an answer came */
export const comesSoon = (asked: Promise<unknown>): Promise<boolean> => Promise.race([
  asked.then(() => true, () => false), new Promise<false>((late) => setTimeout(late, SOON, false)),
]);

type Followed = ((progress: unknown) => void) | undefined;

/** An engine in a worker of its own, which the first question starts. */
export class Calls {
  #queue: WorkerQueue;
  /** How many answers are waited for, beside tables. */
  #asked = 0;
  /** The steps whose tables are built, and those whose are still to be. */
  #ready = new Set<Step>();
  #unready: Step[] = [];

  constructor(newWorker: () => Promise<Worker>, module: SentModule) {
    this.#queue = new WorkerQueue(module, watched(newWorker));
  }

  /** What the engine says. Rejects with a `NissyFault` if lines can't be read. */
  async ask<Name extends keyof Answers>(
    call: Name, about: Parameters<Answers[Name]>[1], followed?: Parameters<Answers[Name]>[2],
  ): Promise<ReturnType<Answers[Name]>> {
    this.#asked++;
    try {
      return await this.#answer(call, about, followed as Followed);
    } finally {
      this.#asked--;
    }
  }

  async #answer(call: keyof Answers, about: unknown, followed?: Followed) {
    const { value, fault } = await this.#queue.answer({ call, about } as unknown as Request, {}, followed);
    if (fault) throw new NissyFault(fault.text, fault);
    return value;
  }

  /** Has the tables of some steps built before they are needed, one after another, until questions are given up. */
  async ready(steps: Step[], axis?: number) {
    const unready = steps.filter((name) => !this.#ready.has(name));
    const isCold = unready.length > 0;
    this.#unready = unready;
    try {
      for (let step = unready.shift(); unready === this.#unready && step !== undefined; step = unready.shift()) {
        await this.#answer("build", { step });
        this.#ready.add(step);
      }
      if (isCold && axis !== undefined && unready === this.#unready) await this.#answer("warmUp", { axis });
    } catch {
      // they are built once they are needed
    }
  }

  /** Gives up the questions that wait for their turn. */
  drop() {
    this.#unready = [];
    this.#queue.drop();
  }

  /** Gives up all questions: what runs has its worker ended, tables too, if it has more to do than these. */
  stop() {
    if (this.#asked === 0) return this.drop();
    this.end();
  }

  end() {
    this.#ready.clear();
    this.#unready = [];
    this.#queue.end();
  }
}

const REST = 150;

type Workers = { calls: Calls; byHand: Calls; list: Calls; finders: Calls[] };

/** What is made ready: `reached` by the line so far, and `isBare` if no scramble is there yet. */
type Wanted = { reached: Step[]; isBare: boolean };

export class Readiness {
  #timer = 0;
  #wanted: Wanted | null = null;

  constructor(private readonly workers: Workers) {
    document.addEventListener("visibilitychange", () => this.begin(this.#wanted));
  }

  /** Begins in a moment, while the page is seen and doesn't wait for answers. @param wanted null ends it */
  begin(wanted: Wanted | null) {
    clearTimeout(this.#timer);
    this.#wanted = wanted;
    if (wanted === null || document.hidden) return;
    this.#timer = setTimeout(() => (waitsForAnswers() ? this.begin(wanted) : this.#build(wanted)), REST);
  }

  #build({ reached, isBare }: Wanted) {
    const { calls, byHand, list, finders } = this.workers;
    byHand.ready(["eofb"]);
    list.ready(namesOf(openSteps(reached)));
    // those that have looked for the best have their own
    const stepsOn = (name: Step) => [name, ...namesOf(reductionsAfter(name))];
    if (isBare) ORIENTATIONS.forEach(({ name }, at) => finders[at].ready(stepsOn(name), at));
    calls.ready(namesOf([...ORIENTATIONS, ...REDUCTIONS]));
  }
}
