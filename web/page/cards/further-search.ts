// Longer orientations, one move and then two, which nobody asked for. They are looked for while the page is seen and
// waits for nothing else, as long as a measure allows them, and after that once they are asked for.
import { present, thrownError } from "../shared/certain.js";
import { findOnAxis, together, type FoundOnAxis, type Further, type Question } from "./finder.js";
import { Measure, isSmall, mostTogether } from "./measure.js";
import { ORIENTATIONS } from "../shared/offered-steps.js";
import { waitsForAnswers } from "../shared/view.js";
import type { Calls } from "../shared/questions.js";
import type { Size } from "../answers/orientations.js";

/** `sizes`: how many orientations each axis has, once they are counted; `isHeld`: it waits until it is asked for;
 * `found`: of the axes that were looked through; `left`: those that are still to be looked at. */
type Search = {
  question: Question; sizes: Size[]; isHeld: boolean; found: Map<number, FoundOnAxis>; left: number[];
  running: Set<number>;
};

/** How many moves longer than the shortest are looked for without being asked for. */
export const FURTHEST = 2;
/** How long nothing is waited for before it begins, in milliseconds. */
const IDLE_FOR = 600;

/** `turned`: once it goes on, or no more, or waits to be asked; `looked`: how many axes are looked through. */
type FurtherActs = {
  turned: () => void; looked: (done: number, all: number) => void; found: (progress: Further) => void;
  ended: (fault: Error | null) => void;
};

export class FurtherSearch {
  readonly measure = new Measure();
  #timer = 0;
  #search: Search | null = null;

  constructor(private readonly finders: Calls[], private readonly acts: FurtherActs) {
    document.addEventListener("visibilitychange", () => this.#wait());
  }

  /** `on`: or waits for a moment in which it may; `held`: until it is asked for; `counting`: so, not yet counted. */
  get state(): "off" | "on" | "counting" | "held" {
    if (!this.#search?.isHeld) return this.#search === null || document.hidden ? "off" : "on";
    return this.#search.sizes.length === 0 ? "counting" : "held";
  }

  /** What it waits with until it is asked for, once that is counted. */
  words() {
    const { question: { slack }, sizes } = present(this.#search);
    return `Up to ${slack} longer: ${this.measure.words(sizes)}.`;
  }

  /** Has it wait until it is asked for again; what it found stays. */
  hold() {
    if (this.#search === null) return;
    this.#search.isHeld = true;
    this.#giveUp(this.#search);
  }

  release() {
    if (this.#search === null) return;
    this.#search.isHeld = false;
    this.acts.turned();
    this.#goOn();
  }

  begin(question: Question) {
    this.stop();
    if (question.reached.length > 0 || question.slack >= FURTHEST) return;
    this.#search = {
      question: { ...question, slack: question.slack + 1, isWhole: true },
      sizes: [],
      isHeld: isSmall(),
      found: new Map(),
      left: ORIENTATIONS.map((_, at) => at),
      running: new Set(),
    };
    this.#wait();
  }

  stop() {
    clearTimeout(this.#timer);
    this.#search = null;
  }

  #giveUp({ running }: Search) {
    for (const at of running) this.finders[at].stop();
  }

  /** Waits for a moment in which it may go on; if the page isn't seen, until it is. */
  #wait() {
    clearTimeout(this.#timer);
    if (this.#search === null || this.state === "held") return;
    if (document.hidden) this.#giveUp(this.#search);
    else this.#timer = setTimeout(() => this.#goOn(), IDLE_FOR);
    this.acts.turned();
  }

  #goOn() {
    // once it is seen it waits anew
    if (document.hidden) return;
    if (waitsForAnswers()) return this.#wait();
    const search = this.#search;
    if (search === null) return;
    if (search.sizes.length === 0) return void this.#weigh(search);
    if (search.isHeld) return;
    const { left, running } = search;
    for (const at of left.splice(0, Math.max(0, mostTogether() - running.size))) this.#look(search, at);
  }

  /** Has the orientations counted, and goes on with as many as may be. */
  async #weigh(search: Search) {
    const { question } = search;
    const isStill = () => search === this.#search;
    const asked = this.finders.map((finder, axis) => finder.ask("orientationsOn", { axis, question }));
    try {
      const sizes = await Promise.all(asked);
      if (!isStill()) return;
      Object.assign(search, { sizes, isHeld: search.isHeld || !this.measure.allows(sizes) });
      if (search.isHeld) this.acts.turned();
      else this.#goOn();
    } catch (fault) {
      // after a pause they are counted again
      if (isStill() && !document.hidden) this.#end(thrownError(fault));
    }
  }

  async #look(search: Search, at: number) {
    search.running.add(at);
    const isStill = () => search === this.#search;
    const begin = performance.now();
    try {
      search.found.set(at, await findOnAxis(this.finders, at, search.question, () => {}));
      this.measure.spend(search.sizes[at], (performance.now() - begin) / 1000);
    } catch (fault) {
      if (isStill()) this.#broken(search, at, thrownError(fault));
      return;
    } finally {
      search.running.delete(at);
    }
    if (isStill()) this.#endOf(search);
  }

  #broken(search: Search, at: number, fault: Error) {
    if (!document.hidden && !search.isHeld) return this.#end(fault);
    // it was given up until the page is seen again, or it is asked for
    search.left.unshift(at);
  }

  #end(fault: Error) {
    this.stop();
    this.acts.ended(fault);
  }

  /** Goes on with the next axis, or with one more move, or ends. @param search one of whose axes is looked through */
  #endOf(search: Search) {
    this.acts.looked(search.found.size, ORIENTATIONS.length);
    if (search.left.length > 0 || search.running.size > 0) return this.#goOn();
    const { question, found } = search;
    this.acts.found({ ...together([...found.values()], question), slack: question.slack });
    this.begin(question);
    if (this.#search === null) this.acts.ended(null);
  }
}
