// What is told of the reductions after the rows of the best that are shown: how many of the shortest there are on each
// side, and which cases the first one passes. It is asked for row by row: of thousands it never is.
import { tellAfter } from "./best-row.js";
import { present } from "../shared/certain.js";
import { setBusy } from "../shared/element.js";
import { takeNamed } from "../shared/rows.js";
import type { Calls } from "../shared/questions.js";
import type { After } from "../answers/examine.js";
import type { Question, Row } from "./finder.js";

export class ShownCounts {
  #question: Question | null = null;
  #shown: Row[] = [];
  /** By the keys of rows; null once it is asked for. */
  #known = new Map<string, After | null>();
  #isAsking = false;

  constructor(private readonly calls: Calls, private readonly body: HTMLElement) {}

  clear() {
    this.#known = new Map();
    this.#shown = [];
    setBusy(this.body.id, false);
  }

  tell(question: Question, shown: Row[]) {
    [this.#question, this.#shown] = [question, shown];
    for (const [at, row] of shown.entries()) {
      const after = this.#known.get(row.key);
      if (after) tellAfter(this.body.children[at], row, after);
    }
    setBusy(this.body.id, this.#isAsking || this.#next() !== undefined);
    if (!this.#isAsking) this.#askAll();
  }

  #next() {
    return this.#shown.find(({ key, next }) => next !== null && !this.#known.has(key));
  }

  async #askAll() {
    this.#isAsking = true;
    for (let row = this.#next(); row; row = this.#next()) await this.#ask(row);
    this.#isAsking = false;
    setBusy(this.body.id, false);
  }

  async #ask(row: Row) {
    const known = this.#known;
    known.set(row.key, null);
    // what the rows are chosen by is there without it
    const { scramble, parts } = present(this.#question);
    const { step, part: first } = present(row.next);
    const asked = { scramble, parts: [...parts, row.part], step, first };
    const found = await this.calls.ask("afterRow", asked).catch(() => null);
    if (known !== this.#known || found === null) return;
    known.set(row.key, found);
    const shown = takeNamed(this.body, row.key)?.closest("tr");
    if (shown) tellAfter(shown, row, found);
  }
}
