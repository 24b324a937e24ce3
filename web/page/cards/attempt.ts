// What is said of an attempt beside its scramble, since on a phone its line stands far below: whether it is solved,
// what is kept and which step is in doubt, with a way there; and in the card of its line if that is no solution.
import { lastOf } from "../shared/certain.js";
import { announceLater, counted, part, tell } from "../shared/element.js";
import { furthestOf, statesOf } from "../shared/offered-steps.js";
import { areBeside, leadTo, withoutMoving } from "../shared/view.js";
import type { Walk } from "../answers/examine.js";
import type { ReadAttempt } from "../answers/read-lines.js";

/** First of what the text calls its solution. @param walk of the line, null if there is none */
function wordsOfAttempt({ kept, solves, unread }: ReadAttempt, walk: Walk | null): string[] {
  const isSolved = walk !== null && lastOf(walk.facts).solved;
  const total = walk === null ? "" : counted(lastOf(walk.totals), "move");
  const reached = walk === null ? [] : furthestOf(statesOf(lastOf(walk.reached)));
  // what can't be read may solve it
  const ending = unread === null ? "Not solved" : "Read in part";
  return [
    solves === null || (solves && isSolved) ? "" : `The solution ${solves ? "solves" : "doesn't solve"} the scramble.`,
    isSolved ? `Solved: ${total}.` : "",
    walk !== null && !isSolved && solves === null ? `${ending}: ${[total, ...reached].join(", ")}.` : "",
    kept.length === 0 ? "" : `${counted(kept.length, "line")} ${kept.length === 1 ? "is" : "are"} kept.`,
  ];
}

export class AttemptAnswer {
  #read: ReadAttempt | null = null;
  /** the card that the way leads to */
  #card: "line" | "kept" = "line";

  constructor() {
    part("attempt-way").addEventListener("click", () => {
      leadTo(part(this.#card), part(`${this.#card}-heading`), areBeside() ? "nearest" : "start");
    });
  }

  /** Takes what was read of a text; what the engine says of its line comes by `tell`. */
  take(read: ReadAttempt) {
    this.#read = read;
    if (read.parts.length > 0) return;
    this.#show(read, wordsOfAttempt(read, null));
    if (!part("attempt").hidden) announceLater(part("attempt-words").textContent);
  }

  /** @param doubted the place of the step that is in doubt, -1 if none is */
  tell(walk: Walk, doubted: number) {
    const read = this.#read;
    if (read === null || read.parts.length === 0) return;
    const words = wordsOfAttempt(read, walk);
    this.#show(read, [...words, doubted < 0 ? "" : `In doubt: step ${doubted + 1}.`]);
    tell(part("unsolved"), read.isOfLine && read.solves === false ? words[0] : "");
  }

  /** Says nothing more, since the line or the scramble is another one. */
  leave() {
    this.#read = null;
    tell(part("unsolved"), "");
    if (part("attempt").hidden) return;
    const card = part("scramble-card");
    withoutMoving(card.contains(document.activeElement) ? card : part("results"), () => {
      part("attempt").hidden = true;
      part("attempt-words").textContent = "";
    });
  }

  #show({ parts, solves }: ReadAttempt, sentences: string[]) {
    const words = sentences.filter(Boolean).join(" ");
    part("attempt").hidden = words === "";
    part("attempt-words").textContent = words;
    part("attempt-words").classList.toggle("lost", solves === false);
    this.#card = parts.length > 0 ? "line" : "kept";
    part("attempt-way").textContent = parts.length > 0 ? "Line so far" : "Kept";
  }
}
