// The card of the candidates that are kept: each with its moves, what it reaches, its case and a note.
import { Stopped } from "../../module/shared/faults.js";
import { nameOf, withStar } from "../state/kept-lines.js";
import {
  addressOf, emptyState, fitsAddress, oneLine, type Candidate, type List, type State,
} from "../state/address.js";
import { lastOf, present } from "../shared/certain.js";
import { copy, fmcOfAll, setUps } from "../shared/copying.js";
import {
  announce, button, counted, element, part, spoken, tell, withData, type Attributes, type PageElement,
} from "../shared/element.js";
import { MOST_COMPARED, compare } from "./comparison.js";
import { LONGEST_NOTE, MOST_CANDIDATES, MOST_MOVES } from "../state/limits.js";
import { WayTo } from "../state/history.js";
import {
  SIDES, axisName, bracketed, isReduced, reductionsAfter, saidToBeReached, sidesOf, stateOf, stepNamed, type Part,
} from "../shared/offered-steps.js";
import { withCases } from "../shared/passage.js";
import { tellAt, withoutMoving } from "../shared/view.js";
import { MOST_ARE_KEPT, NO_ROOM, unanswered, wordsOfFault } from "../shared/words.js";
import type { Calls } from "../shared/questions.js";
import type { KeptWalk } from "../answers/examine.js";

/** How many signs of a note a line has at the most. */
const SIGNS_OF_LINE = 40;

const saidOf = ({ parts, next }: Candidate) =>
  spoken(bracketed(parts)) + (next === "" ? "" : `, ${stateOf(stepNamed(next))}`);

/** How far a candidate has come: 2 with a reduction, also one that is still to be made, 1 with an orientation. */
function stageOf({ reached, next }: KeptWalk) {
  const last = lastOf(reached);
  return next !== null || isReduced(last) ? 2 : Math.min(1, last.length);
}

const totalOf = ({ totals, next }: KeptWalk) => next?.total ?? lastOf(totals);

/** What candidates are put in order by: how far they have come, and then all moves, which are fewer than that many. */
const rankOfKept = (walk: KeptWalk | null) => (walk === null ? 0 : totalOf(walk) - 2 * MOST_MOVES * stageOf(walk));

/** The reduction that a candidate was kept with, such as `DR F/B 6c4e: 4 normal, 7 inverse`, and the first. */
function wordsOfNext({ next }: KeptWalk): string[] {
  if (next === null) return [];
  const { dr, case: name } = next;
  const alone = SIDES.map((side) => `${dr.lengths[side] ?? "–"} ${side}`);
  const both = sidesOf(dr) === "both" ? [`${dr.length} over both`] : [];
  const words = `${stateOf(stepNamed(dr.step))} ${name}: ${[...alone, ...both].join(", ")}`;
  return [words, ...(dr.moves === "" ? [] : [`then ${dr.moves}`])];
}

/** What follows a line that isn't reduced: the reduction that it was kept with, or the case of each that may follow. */
function casesAfter(walk: KeptWalk): string[] {
  const reached = lastOf(walk.reached);
  if (walk.next !== null || isReduced(reached)) return wordsOfNext(walk);
  const { case: cases } = lastOf(walk.facts);
  return [...new Set(reached.flatMap(reductionsAfter).map(({ axis }) => `${axisName(axis)} ${cases[axis]}`))];
}

/** What is seen of a candidate: its steps with their cases and what they reach, all moves, and what follows. */
function stepOf(parts: Part[], walk: KeptWalk | null) {
  const steps = parts.map((part, at) => element("span", { class: "step" },
    element("span", { class: "moves" }, ...withCases(bracketed([part]), walk?.passed[at] ?? [])),
    ...(walk === null ? [] : saidToBeReached(walk, at)).map((state) => element("span", { class: "chip" }, state))));
  const cases = walk === null ? [] : casesAfter(walk);
  return element("span", { class: "step" }, ...steps,
    element("span", { class: "total" }, walk === null ? "" : `${totalOf(walk)} in all`),
    ...cases.map((each) => element("span", { class: "case" }, each)));
}

type Shown = { candidate: Candidate; walk: KeptWalk | null; at: number };

type KeptActs = { goOn: (parts: Part[], list: List | null) => void; change: (kept: Candidate[]) => void };

export class KeptCandidates {
  #candidates: Candidate[] = [];
  #walks: KeptWalk[] = [];
  /** What was kept before one was taken away, as long as nothing else changed. */
  #before: Candidate[] | null = null;
  #notes: PageElement[] = [];
  /** the scramble as it is copied, and by its face turns */
  #scramble = "";
  #line = "";
  /** the names of those that are to be compared, and of those whose set-ups are seen */
  #compared: string[] = [];
  #unfolded = new Set<string>();
  /** whether a star changes them, which moves nothing beside them */ #isStarred = false;
  /** takes the text of all once it is known what they are, if they are to be copied then */
  #toCopy: ((text: string) => void) | null = null;
  #list = part("kept-list");
  #way = new WayTo(part("bar-kept"), part("kept"), part("kept-heading"));

  constructor(private readonly calls: Calls, private readonly acts: KeptActs) {
    part("copy-kept").addEventListener("click", ({ currentTarget }) =>
      copy(this.#text() || new Promise<string>((take) => { this.#toCopy = take; }), currentTarget));
    part("kept-back").addEventListener("click", () => {
      acts.change(present(this.#before));
      announce("The line is kept again.");
    });
    part("kept-compare").addEventListener("click", () => this.#compare());
    part("comparison-close").addEventListener("click", () => part("comparison").close());
  }

  /** Shows candidates; what the engine says of them comes by `describe`. */
  show(candidates: Candidate[]) {
    if (candidates === this.#candidates) return;
    const [before, after] = [this.#candidates, candidates].map((all) => all.map(nameOf).join("\n"));
    this.#candidates = candidates;
    // rows stay where they are, since the press that ends a note may be on a button of one
    if (before === after) {
      for (const [at, { note }] of candidates.entries()) {
        if (this.#notes[at].value !== note) this.#notes[at].value = note;
      }
      return;
    }
    this.#walks = [];
    this.#toCopy = null;
    this.#offerBack(null);
    const { length } = candidates;
    this.#way.show(length === 0 ? "" : `★ ${length}`, `Kept: ${counted(length, "line")}`);
    this.#draw();
  }

  /** Keeps a line, or takes it away if it is kept. @param pressed under which is said why it isn't kept */
  star(state: State, pressed: HTMLElement, parts: Part[], next: Candidate["next"] = "") {
    const kept = withStar(state.kept, parts, next);
    const isKept = kept.length > state.kept.length;
    if (kept.length > MOST_CANDIDATES) return tellAt(pressed, MOST_ARE_KEPT);
    if (!fitsAddress({ ...state, kept })) return tellAt(pressed, NO_ROOM);
    this.#isStarred = true;
    withoutMoving(part("results"), () => (isKept ? this.acts.change(kept) : this.leave(kept)));
    this.#isStarred = false;
    announce(`${spoken(bracketed(parts))}: ${isKept ? "kept" : "no longer kept"}.`);
  }

  /** Leaves one candidate less, which can be undone until something else changes. */
  leave(left: Candidate[]) {
    const before = this.#candidates;
    this.acts.change(left);
    this.#offerBack(before);
    announce("A line was removed. A button below the list undoes that.");
  }

  #offerBack(before: Candidate[] | null) {
    const isFocused = document.activeElement === part("kept-back");
    this.#before = before;
    part("kept-left").hidden = before === null;
    // not by :has, which would lay a style on all of the page whenever a part of it changes
    part("kept").parentElement?.classList.toggle("none-kept", this.#candidates.length === 0 && before === null);
    // what is hidden can't keep the focus
    if (isFocused && before === null) part("kept-heading").focus({ preventScroll: true });
  }

  /** Shows what the engine says of the candidates after a scramble, unless it is shown already. */
  async describe(scramble: string, written: string) {
    const candidates = this.#candidates;
    if (this.#scramble === written && this.#walks.length === candidates.length) return;
    const isStarred = this.#isStarred;
    try {
      const walks = await this.calls.ask("walkKept", { scramble, candidates });
      if (candidates !== this.#candidates) return;
      this.#walks = walks;
      [this.#scramble, this.#line] = [written, scramble];
      withoutMoving(part(isStarred ? "results" : "kept"), () => this.#draw());
      this.#toCopy?.(this.#text());
    } catch (fault) {
      if (candidates !== this.#candidates || fault instanceof Stopped) return;
      tell(part("alert"), `The lines that are kept can't be read: ${wordsOfFault(fault)}.`);
    }
  }

  has(parts: Part[], next: Candidate["next"] = "") {
    return this.#candidates.some((each) => nameOf(each) === nameOf({ parts, next }));
  }

  #sorted(): Shown[] {
    return this.#candidates.map((candidate, at) => ({ candidate, walk: this.#walks[at] ?? null, at }))
      .sort((one, other) => rankOfKept(one.walk) - rankOfKept(other.walk));
  }

  /** All of them to read, and below an address, by which the page takes them back as they are. */
  #text() {
    if (this.#walks.length !== this.#candidates.length) return "";
    const lines = fmcOfAll(this.#scramble, this.#sorted().flatMap(({ candidate: { note }, walk }) =>
      (walk === null ? [] : [{ walk, notes: [...wordsOfNext(walk).slice(0, 1), note].filter(Boolean) }])));
    return `${lines}\n\n${addressOf({ ...emptyState(), scramble: this.#scramble, kept: this.#candidates })}`;
  }

  #draw() {
    const { activeElement } = document;
    const focused = this.#list.contains(activeElement) ? activeElement?.dataset.control : null;
    this.#list.replaceChildren(...this.#sorted().map((each) => this.#item(each)));
    if (focused) withData(this.#list, "control", focused)?.focus({ preventScroll: true });
    this.#compared = this.#compared.filter((name) => this.#candidates.some((each) => nameOf(each) === name));
    const isKnown = this.#compared.length > 1 && this.#walks.length > 0;
    tell(part("kept-compare"), isKnown ? `Compare ${this.#compared.length}` : "");
    tell(part("kept-count"), this.#candidates.length === 0 ? "" : counted(this.#candidates.length, "line"));
  }

  #item({ candidate, walk, at }: Shown) {
    const { parts, note } = candidate;
    const [name, said] = [nameOf(candidate), saidOf(candidate)];
    const act = (word: string, control: string, click: () => void, more: Attributes = {}) => button(word,
      { class: "quiet", "data-control": `${control} ${name}`, "aria-label": `${word}: ${said}`, click, ...more });
    const field = element("textarea", {
      class: "note-field", maxlength: LONGEST_NOTE, placeholder: "Note", autocomplete: "off",
      // as large as the note, where the browser can't say that itself
      cols: Math.max(8, Math.min(note.length, SIGNS_OF_LINE)), rows: 1 + Math.floor(note.length / SIGNS_OF_LINE),
      "data-control": `note ${name}`,
      "aria-label": `Note: ${said}`,
      change: ({ target: { value } }) => {
        this.acts.change(this.#candidates.with(at, { ...this.#candidates[at], note: oneLine(value).trim() }));
      },
    });
    field.value = note;
    field.addEventListener("keydown", (event) => {
      if (event.key !== "Enter" || event.isComposing) return;
      event.preventDefault();
      field.dispatchEvent(new Event("change"));
    });
    this.#notes[at] = field;
    const [isUnfolded, isCompared] = [this.#unfolded.has(name), this.#compared.includes(name)];
    const cubes = walk === null ? [] : [element("dl", { hidden: !isUnfolded }, ...setUps(walk.now.lines, `: ${said}`))];
    return element("li", {},
      stepOf(parts, walk),
      element("span", { class: "row" },
        field,
        element("span", { class: "row" },
          act("Go on", "on", () => this.#goOn(candidate, walk)),
          act("Compare", "compare", () => this.#choose(name), { "aria-pressed": String(isCompared) }),
          act("Set-ups", "cubes", () => this.#unfold(name), { "aria-expanded": String(isUnfolded) }),
          act("Remove", "away", () => this.#remove(at)))),
      ...cubes);
  }

  /** Goes on from a candidate, with the list of the reduction that it was kept with. */
  #goOn({ parts, next }: Candidate, walk: KeptWalk | null) {
    // as long as it isn't known where the best are, over both sides
    const list: List | null = next === "" || walk?.next === null ? null
      : { step: next, side: walk ? sidesOf(walk.next.dr) : "both", slack: 0, isAll: false };
    this.acts.goOn(parts, list);
  }

  /** Has a candidate compared, in place of the first if they are too many, or no more. */
  #choose(name: string) {
    const others = this.#compared.filter((each) => each !== name);
    this.#compared = others.length < this.#compared.length ? others : [...others, name].slice(-MOST_COMPARED);
    this.#draw();
    announce(`${counted(this.#compared.length, "line")} to compare.`);
  }

  #unfold(name: string) {
    if (!this.#unfolded.delete(name)) this.#unfolded.add(name);
    this.#draw();
  }

  async #compare() {
    const candidates = this.#candidates;
    const chosen = this.#sorted().filter(({ candidate }) => this.#compared.includes(nameOf(candidate)));
    const lines = chosen.map(({ candidate }) => candidate.parts);
    try {
      const told = await this.calls.ask("compareLines", { scramble: this.#line, lines });
      if (candidates !== this.#candidates) return;
      compare(chosen.map(({ candidate, walk }) =>
        ({ ...candidate, next: walk?.next ?? null, goOn: () => this.#goOn(candidate, walk) })), told);
    } catch (fault) {
      if (!(fault instanceof Stopped)) tell(part("alert"), unanswered(fault));
    }
  }

  /** Takes a candidate away; the focus, if it was in its row, goes to the next one. */
  #remove(at: number) {
    const row = [...this.#list.children].find((each) => each.contains(document.activeElement));
    const next = row?.nextElementSibling ?? row?.previousElementSibling;
    const control = next?.querySelector("[data-control^=away]")?.dataset.control ?? "";
    this.leave(this.#candidates.toSpliced(at, 1));
    if (row) (withData(this.#list, "control", control) ?? part("kept-back")).focus({ preventScroll: true });
  }
}
