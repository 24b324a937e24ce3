// The card of the line so far: its steps, which may be edited or taken away, moves by hand, and the whole to copy.
import { Stopped } from "../../module/shared/faults.js";
import { AttemptAnswer } from "./attempt.js";
import { thrownError, lastOf } from "../shared/certain.js";
import { copy, fmcOf, setUps } from "../shared/copying.js";
import { announce, button, counted, element, inner, part, spoken, tell, type PageElement } from "../shared/element.js";
import {
  bracketed, furthestOf, isReduced, joined, lastSideOf, movesOn, newlyReached, onOtherSides, otherSide, saidToBeReached,
  sidesOf, statesOf, type Part, type Side,
} from "../shared/offered-steps.js";
import { withCases } from "../shared/passage.js";
import { NO_STEP_AFTER_DR, showFault, wordsOfDoubt, wordsOfLeftOut, wordsOfTurns } from "../shared/words.js";
import type { Calls } from "../shared/questions.js";
import type { Reader } from "../shared/reader.js";
import type { ReadAttempt } from "../answers/read-lines.js";
import type { Walk } from "../answers/examine.js";

const LONGEST_PASTED = 65536;
const UNKNOWN = "…";
const NO_MOVES = "No moves yet";
const OF_MOVES = ["line-list", "whole", "set-ups", "bar-total", "bar-undo", "keep-line"];

/** Words in a row: `one`, `one and another`, `one, another and a third`. */
const listed = (words: string[]) => [words.slice(0, -1).join(", "), ...words.slice(-1)].filter(Boolean).join(" and ");

/** @param whole without brackets, in which moves of the two sides may cancel */
function endOf({ parts, facts, reached, totals }: Walk, whole: string) {
  const [total, left] = [counted(lastOf(totals), "move"), whole.split(" ").filter(Boolean).length];
  if (parts.length === 0) return "";
  if (lastOf(facts).solved) return `Solved: ${total}${left < lastOf(totals) ? `, ${left} without brackets` : ""}.`;
  if (!isReduced(lastOf(reached))) return "";
  const states = furthestOf(statesOf(lastOf(reached)));
  const are = states.length === 1 ? "is" : "are";
  return `${listed(states)} ${are} reached: ${total}. ${NO_STEP_AFTER_DR}: go on by hand.`;
}

/** What is said of a step that newly reaches nothing: what it gives up, and what it would reach on the other side. */
function missedBy({ reached, otherwise }: Walk, index: number) {
  const there = otherwise[index].map((state) => `${state} on the other side`);
  // of what follows a DR nissy knows no step, only the end
  if (isReduced(reached[index + 1])) return otherwise[index].includes("solved") ? there.join() : "";
  const [before, after] = [reached[index], reached[index + 1]].map(statesOf);
  const givenUp = before.filter((state) => !after.includes(state)).map((state) => `gives up ${state}`);
  return [...givenUp, ...there].join(", ") || "reaches no step";
}

/** What is known of the steps that two lines begin with in common. */
function keptOf<Known>(known: Known[], parts: Part[], others: Part[]) {
  const end = parts.findIndex((each, at) => bracketed([each]) !== bracketed(others.slice(at, at + 1)));
  return end < 0 ? known : known.slice(0, end);
}

/** What is to be known of a line without brackets before the cube is solved. */
function noteOfJoined({ parts, facts }: Walk) {
  if (lastOf(facts).solved || movesOn(parts, "inverse") === "") return "";
  return "Not finished: the inverse moves stand at the end as premoves, and what follows goes before them.";
}

/** Has lines that come at once go into a field of one line without comments, of which the first would hide the rest. */
function takeLines(field: PageElement, reader: Reader) {
  const take = (event: Event, brought: string) => {
    const text = brought.trim().replace(/\r\n?/g, "\n");
    if (!text.includes("\n") || text.length > LONGEST_PASTED) return;
    event.preventDefault();
    const { line, leftOut } = reader.plainLine(text);
    document.execCommand("insertText", false, line);
    tell(part("own-read"), wordsOfLeftOut(leftOut));
  };
  field.addEventListener("paste", (event) => take(event, event.clipboardData?.getData("text/plain") ?? ""));
  field.addEventListener("beforeinput", (event) => take(event, event.data ?? ""));
}

/** `change` returns whether it leads back to a row. */
type LineActs = { change: (change: { parts?: Part[]; side?: Side }) => boolean; star: () => void };

export class LineSoFar {
  #parts: Part[] = [];
  /** what each step reached as long as nothing took it away */
  #reached: string[][] = [];
  /** the same of steps that are about to be shown, one of which was edited or removed */
  #wanted: string[][] | null = null;
  /** the elements that say of each step what it reaches and how long it is, also if a field stands in their place */
  #words: Record<"moves" | "reaches" | "lost" | "count" | "otherwise" | "doubt", PageElement>[] = [];
  #side: Side = "normal";
  #doubt: { index: number; words: string } | null = null;
  #attempt = new AttemptAnswer();

  constructor(private readonly calls: Calls, private readonly reader: Reader, private readonly acts: LineActs) {
    part("own-form").addEventListener("submit", (event) => {
      event.preventDefault();
      this.#add();
    });
    takeLines(part("own"), reader);
    part("switch").addEventListener("click", () => this.turn(otherSide(this.#side)));
    part("bar-undo").addEventListener("click", () => this.undoStep());
    part("keep-line").addEventListener("click", () => acts.star());
    for (const name of ["joined", "fmc"]) {
      part(`copy-${name}`).addEventListener("click", (event) => copy(part(name).textContent, event.currentTarget));
    }
  }

  turnTo(side: Side) {
    if (side === this.#side) return;
    this.#side = side;
    part("side").textContent = `${side} side`;
    part("switch").textContent = `Switch to the ${otherSide(side)} side`;
  }

  markKept(isKept: boolean) {
    // a text that is put in again is laid out again
    if (part("keep-line").ariaPressed === String(isKept)) return;
    part("keep-line").textContent = isKept ? "★ Kept" : "☆ Keep";
    part("keep-line").setAttribute("aria-pressed", String(isKept));
  }

  turn(side: Side) {
    this.acts.change({ side });
    announce(`Moves by hand go on the ${side} side.`);
  }

  undoStep() {
    if (this.#parts.length > 0) this.#replace(this.#parts.length - 1, [], 1);
  }

  /** Takes parts, which `show` shows. */
  hold(parts: Part[]) {
    this.#reached = this.#wanted ?? keptOf(this.#reached, this.#parts, parts);
    [this.#wanted, this.#doubt] = [null, null];
    this.#attempt.leave();
    this.#parts = parts;
  }

  /** Shows the parts at once; what the engine says of them comes by `describe`. */
  show(parts: Part[]) {
    this.hold(parts);
    this.#words = parts.map((each) => ({
      moves: element("span", { class: "moves" }, bracketed([each])),
      reaches: element("span", { class: "reaches", hidden: true }),
      lost: element("span", { class: "lost", "aria-live": "polite", hidden: true }),
      count: element("span", { class: "note count" }),
      otherwise: element("span", { class: "note otherwise", "aria-live": "polite", hidden: true }),
      doubt: element("span", { class: "lost doubt", "aria-live": "polite", hidden: true }),
    }));
    for (const name of ["finished", "own-read"]) tell(part(name), "");
    part("line-list").replaceChildren(...parts.map((each, index) => this.#item(each, index)));
    part("line-empty").hidden = parts.length > 0;
    // where the engine can't read them, no line of other parts stays to be copied
    const line = bracketed(parts);
    if (line !== part("bracketed").textContent) {
      this.#showWhole(line, "", UNKNOWN);
      part("set-ups").replaceChildren();
    }
    for (const name of OF_MOVES) part(name).hidden = parts.length === 0;
  }

  /** Shows what each step reaches, how long it is, and the whole. @param whole without brackets */
  describe(walk: Walk, whole: string, scramble: string) {
    const told = { note: noteOfJoined(walk), fmc: fmcOf(scramble, walk) };
    this.#showWhole(bracketed(walk.parts), whole, counted(lastOf(walk.totals), "move"), told);
    this.#words.forEach(({ moves, reaches, lost, otherwise, count }, index) => {
      moves.replaceChildren(...withCases(bracketed([walk.parts[index]]), walk.passed[index]));
      const inAll = index === 0 ? "" : `, ${walk.totals[index + 1]} in all`;
      const side = sidesOf(walk.parts[index]);
      count.textContent = `${counted(walk.turns[index], side === "both" ? "move" : `${side} move`)}${inAll}`;
      const [fresh, missed] = [newlyReached(walk, index), this.#lost(walk, index)];
      tell(reaches, saidToBeReached(walk, index).join(", "));
      tell(otherwise, fresh.length > 0 ? "" : missedBy(walk, index));
      tell(lost, missed.length === 0 ? "" : `no longer ${listed(missed)}`);
      if (missed.length === 0 || fresh.length > 0) this.#reached[index] = fresh;
    });
    // what reaches something with each step is meant as it is read
    const isRead = this.#words.every((_, index) => newlyReached(walk, index).length > 0);
    const doubt = isRead ? null : this.#doubt;
    if (doubt) tell(this.#words[doubt.index].doubt, doubt.words);
    this.#attempt.tell(walk, doubt?.index ?? -1);
    part("set-ups").replaceChildren(...setUps(walk.now.lines));
    tell(part("finished"), endOf(walk, whole));
  }

  /** Takes an attempt that was read of a text, and what makes one doubt a step of it, which says so where it can be
   * mended. */
  take(read: ReadAttempt, text: string) {
    const { parts, doubt, doubted, undoing } = read;
    if (doubt !== null && doubted >= 0) {
      this.#doubt = { index: doubted, words: wordsOfDoubt(doubt, text, { turns: parts[doubted].normal, undoing }) };
    }
    this.#attempt.take(read);
  }

  /** What is said of an attempt, or else of how the line ends. @param next what is said of the steps that may follow */
  said = (next: string) => joined(part("attempt-words").textContent, next) || part("finished").textContent;

  /** What a step reached before it or an earlier one was changed, and what doesn't hold then, nor in the end. */
  #lost({ reached }: Walk, index: number) {
    const holds = statesOf([...reached[index + 1], ...lastOf(reached)]);
    return (this.#reached[index] ?? []).filter((state) => !holds.includes(state));
  }

  #showWhole(line: string, joined: string, total: string, { note, fmc } = { note: "", fmc: "" }) {
    const texts = { bracketed: line, joined, total, fmc, "bar-line": line || NO_MOVES, "bar-total": total };
    for (const [name, text] of Object.entries(texts)) part(name).textContent = text;
    tell(part("joined-note"), note);
    // without inverse moves it is the same
    part("whole").classList.toggle("alike", joined === line);
  }

  #item(each: Part, index: number) {
    const text = bracketed([each]);
    const act = (word: string, click: () => void) =>
      button(word, { class: "quiet", "data-key": `${word} ${index}`, "aria-label": `${word} ${spoken(text)}`, click });
    return element("li", {},
      element("span", { class: "step" }, ...Object.values(this.#words[index])),
      element("span", { class: "acts" },
        act("Edit", () => this.#edit(index)), act("Remove", () => this.#replace(index, [], 1)),
        act("Other side", () => this.#turnStep(index, onOtherSides(each)))));
  }

  #edit(index: number) {
    const item = part("line-list").children[index];
    const text = bracketed([this.#parts[index]]);
    const shown = [...item.childNodes];
    const field = element("input", {
      class: "moves wide", value: text, spellcheck: "false", autocapitalize: "off", autocomplete: "off",
      maxlength: 4096, "aria-label": `Step ${index + 1}`, "data-key": `Edit ${index}`,
    });
    takeLines(field, this.reader);
    const fault = element("div", { class: "fault", hidden: true });
    const leave = () => {
      item.replaceChildren(...shown);
      inner(item, "button").focus();
    };
    const form = element("form", {
      class: "row",
      submit: (event) => {
        event.preventDefault();
        // the step is seen as it is written down, so what has no brackets goes on the normal side
        this.#read(field, fault, "normal", (added) => this.#replace(index, added, 0));
      },
    }, field, button("Change", { type: "submit" }), button("Leave", { click: leave }));
    form.addEventListener("keydown", ({ key }) => key === "Escape" && leave());
    item.replaceChildren(form, fault);
    field.focus();
    field.setSelectionRange(text.length, text.length);
  }

  /** Has a step made on the other side: moves by hand go on there if it is the last one. */
  #turnStep(index: number, turned: Part) {
    this.#replace(index, [turned], 2, index === this.#parts.length - 1 ? lastSideOf(turned) : undefined);
  }

  /** Puts parts in place of a step: the last is to reach what that one reached. The focus, if it was in a row, goes to
   * the last one of these then. @param focused the place of the button that has it then */
  #replace(index: number, added: Part[], focused: number, side?: Side) {
    const isWithin = part("line-list").contains(document.activeElement);
    const reached = added.map((_, at) => (at === added.length - 1 ? this.#reached[index] : []));
    this.#wanted = this.#reached.toSpliced(index, 1, ...reached);
    this.#undo(this.#parts.toSpliced(index, 1, ...added), side);
    const place = index + Math.max(added.length, 1) - 1;
    const row = part("line-list").children[Math.min(place, this.#parts.length - 1)];
    if (isWithin) row?.querySelectorAll("button")[focused].focus({ preventScroll: true });
  }

  /** @param side on which one goes on, else where the last step was if only that is taken back */
  #undo(parts: Part[], side = parts.length === this.#parts.length - 1 ? lastSideOf(lastOf(this.#parts)) : null) {
    const isBack = this.acts.change(side === null ? { parts } : { parts, side });
    announce(parts.length === 0 ? "The line is empty." : `The line is ${spoken(bracketed(parts))}.`);
    // a field that is typed in would bring the keyboard of a phone up, also beside the row
    const isQuiet = isBack || matchMedia("(pointer: coarse)").matches;
    if (parts.length === 0) part(isQuiet ? "line-heading" : "own").focus({ preventScroll: true });
  }

  #add() {
    const parts = this.#parts;
    const field = part("own");
    this.#read(field, part("own-fault"), this.#side, (added) => {
      field.value = "";
      if (added.length > 0) this.acts.change({ parts: [...parts, ...added] });
    });
  }

  async #read(field: PageElement, where: HTMLElement, side: Side, use: (added: Part[]) => void) {
    const [text, parts] = [field.value, this.#parts];
    // what was sent twice, or changed since, isn't added; nor is it to another line
    const isStill = () => field.value === text && this.#parts === parts && field.isConnected;
    const plain = this.reader.plainLine(text);
    try {
      const { parts: added, isTurned } = await this.calls.ask("readByHand", { text: plain.line, side });
      if (!isStill()) return;
      showFault(where, field, plain, null, text);
      use(added);
      const words = [wordsOfLeftOut(plain.leftOut), isTurned ? wordsOfTurns(bracketed(added)) : ""];
      tell(part("own-read"), words.filter(Boolean).join(" "));
    } catch (fault) {
      if (!isStill() || fault instanceof Stopped) return;
      showFault(where, field, plain, thrownError(fault), text);
      // it may come below what is seen, and the field stays in view
      for (const each of [where, field]) each.scrollIntoView({ block: "nearest", behavior: "instant" });
    }
  }
}
