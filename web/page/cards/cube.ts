// The card of the cube: the nets of both sides, the pieces marked on them, and moves played on them.
import { AXES, type Facts } from "../../module/shared/facts.js";
import { stickersOf } from "../../module/shared/stickers.js";
import { lastOf, present } from "../shared/certain.js";
import { announce, element, part, spoken, tell } from "../shared/element.js";
import { emptyNet, outline, showCube, stickerOf } from "./net.js";
import {
  SIDES, axisName, bracketed, isOffered, isReduced, nameOfSide, newlyReached, singleMoves, statesOf, type Side,
} from "../shared/offered-steps.js";
import { withCases } from "../shared/passage.js";
import { PIECES, whyOf } from "./why.js";
import type { Frame, View, Views, Walk } from "../answers/examine.js";

type Asked = typeof PIECES[number] | "";

const FOLLOW = "follow";
const BEAT = 700;
const BY_KEY: Record<string, number> = { ArrowLeft: -1, PageUp: -1, ArrowRight: 1, PageDown: 1 };

/** The places of the pieces that a choice marks, and what they are called; a choice is `EO F/B` or `DR U/D`. */
function marksOf({ badEdges, badCorners, misplacedEdges, case: cases, holds }: Facts, choice: string) {
  const [kind, name] = choice.split(" ");
  const axis = present(AXES.find((each) => axisName(each) === name));
  const pieces = kind === "EO" ? badEdges[axis] : [...badCorners[axis], ...misplacedEdges[axis]];
  // a case may have no bad piece before an orientation holds
  if (statesOf(holds.filter(isOffered)).includes(choice)) return { pieces, words: "done" };
  return { pieces, words: kind === "EO" ? `${pieces.length} bad` : cases[axis] };
}

/** Shows a cube on a net, with what a choice marks of it: if that is nothing, in its colours.
 * @param asked of which piece it is told why, or "" */
export function showMarked(net: SVGElement, side: Side, { letters, facts }: View, choice: string, asked: Asked = "") {
  const marks = choice === "" ? null : marksOf(facts, choice);
  const words = marks === null ? "" : `${choice}: ${marks.words}`;
  const names = marks === null ? "" : `, ${marks.pieces.join(" ") || "none"}`;
  const outlined = asked === "" ? "" : `; ${asked} is outlined`;
  const title = `The cube on the ${side} side${words === "" ? "" : `; ${words}${names}`}${outlined}`;
  outline(net, asked === "" ? [] : stickersOf([asked]));
  showCube(net, letters, title, marks === null || marks.pieces.length === 0 ? null : new Set(stickersOf(marks.pieces)));
  return words === "" ? "" : ` · ${words}`;
}

/** The looks at a line: after how many single moves, and at what goal; at a step's end at its own, then at the next. */
function looksOf(walk: Walk): { made: number; goal: string }[] {
  // what follows a reduction keeps it as its goal, also where others hold in the end
  const reached = walk.parts.map((_, at) => (isReduced(walk.reached[at]) ? "" : newlyReached(walk, at)[0] ?? ""));
  const last = reached.filter(Boolean).at(-1) ?? "";
  const goals = walk.parts.flatMap((part, at) =>
    singleMoves([part]).map(() => reached.slice(at).find(Boolean) ?? last));
  return [...goals, last].flatMap((goal, made) => {
    const done = goals[made - 1] ?? goal;
    return (done === goal ? [goal] : [done, goal]).map((each) => ({ made, goal: each }));
  });
}

const moveByMove = (moves: string) => moves.split(/([^ ()]+)/).map((word, at) =>
  (at % 2 === 0 ? word : element("span", { class: "move" }, word)));

export class Nets {
  #nets = { normal: emptyNet(), inverse: emptyNet() };
  #views: Views | null = null;
  #total = 0;
  #looks: ReturnType<typeof looksOf> = [];
  #last = 0;
  #ask: (() => Promise<Frame[]>) | null = null;
  #frames: Frame[] | null = null;
  #at = 0;
  #timer = 0;
  #open = "";
  #pointed = "";
  /** what is seen */ #drawn: unknown[] = [];
  /** of which sides it is said why a piece is bad, and on which it is outlined */ #asked: readonly Side[] = SIDES;
  #choice = part("marks");
  #play = part("play");

  constructor() {
    for (const side of SIDES) {
      const net = this.#nets[side];
      part(`net-${side}`).prepend(net);
      net.addEventListener("click", ({ target }) => this.#press(side, stickerOf(net, target)));
    }
    part("piece").append(...PIECES.map((name) => element("option", { value: stickersOf([name])[0] }, name)));
    part("piece").addEventListener("change", () => {
      this.#asked = SIDES;
      this.#draw();
    });
    part("cube-large").addEventListener("click", () => this.#enlarge(!part("cube").matches(".large")));
    document.addEventListener("keydown", (event) => this.#typed(event));
    const kinds = ["EO", "DR"].flatMap((kind) => AXES.map((axis) => `${kind} ${axisName(axis)}`));
    this.#choice.append(...kinds.map((kind) => element("option", { value: kind }, kind)));
    this.#choice.addEventListener("change", () => this.#draw());
    const choices = part("choices");
    choices.addEventListener("focusin", ({ target }) => this.#point(target));
    // what comes under a mouse that stays where it is isn't pointed at
    choices.addEventListener("pointermove", ({ target, movementX, movementY }) => {
      if (movementX !== 0 || movementY !== 0) this.#point(target instanceof Element ? target : null);
    });
    for (const kind of ["pointerleave", "focusout"]) choices.addEventListener(kind, () => this.#point(null));
    this.#play.addEventListener("click", () => (this.#timer === 0 ? this.#begin() : this.stop()));
    // a sheet has the whole line
    addEventListener("beforeprint", () => {
      this.stop();
      this.#go(this.#last);
    });
    part("play-back").addEventListener("click", () => this.#step(-1));
    part("play-on").addEventListener("click", () => this.#step(1));
  }

  /** Shows a cube, and the line that leads to it from the scramble. @param ask for the cube after each move */
  show(views: Views, walk: Walk, ask: () => Promise<Frame[]>) {
    this.stop();
    // a list marks once it is there
    [this.#pointed, this.#open, this.#views] = ["", "", views];
    this.#total = lastOf(walk.totals);
    this.#looks = looksOf(walk);
    [this.#last, this.#at] = [this.#looks.length - 1, this.#looks.length - 1];
    part("shown-line").replaceChildren(...walk.parts.flatMap((each, at) =>
      [...withCases(bracketed([each]), walk.passed[at], moveByMove), " "]));
    [this.#ask, this.#frames] = [ask, null];
    part("player").hidden = this.#last === 0;
    part("piece").value = "";
    this.#drawSoon();
  }

  #press(side: Side, sticker: number) {
    if (sticker < 0) return;
    // a centre is no piece of these
    const at = PIECES.findIndex((name) => stickersOf([name]).includes(sticker));
    part("piece").selectedIndex = at + 1;
    this.#asked = [side];
    this.#draw();
  }

  #piece = (): Asked => PIECES[part("piece").selectedIndex - 1] ?? "";

  /** Says of the piece that is asked for why it is bad, or good, on the cube that is shown. */
  #tellWhy() {
    const piece = this.#piece();
    const { views, choice } = this.#shown();
    const words = piece === "" ? [] : this.#asked.map((side) =>
      `${nameOfSide(side)}: ${whyOf(views[side].letters, piece, choice)}`);
    // what stays as it was isn't said again
    if (words.join(" ") !== part("why").textContent) tell(part("why"), words.join(" "));
  }

  #enlarge(isLarge: boolean) {
    part("cube").classList.toggle("large", isLarge);
    // the style asks the root for this, since to look for it in the page takes a millisecond
    document.documentElement.classList.toggle("enlarged", isLarge);
    part("cube-large").textContent = isLarge ? "Smaller" : "Larger";
  }

  /** Has Escape bring the page back, and arrow keys, or those of a presenter, lead from move to move on large nets. */
  #typed(event: KeyboardEvent) {
    if (!part("cube").matches(".large") || document.querySelector(":popover-open")) return;
    if (event.key === "Escape") {
      // what else it closes is behind the nets
      event.stopPropagation();
      this.#enlarge(false);
      part("cube-large").focus();
    } else if (Object.hasOwn(BY_KEY, event.key) && !document.activeElement?.matches("select") && !event.altKey) {
      event.preventDefault();
      this.#step(BY_KEY[event.key]);
    }
  }

  /** @param choice what the cell of the open list would mark, or "" */
  follow(choice: string) {
    this.#open = choice;
    this.#drawSoon();
  }

  stop() {
    clearInterval(this.#timer);
    this.#timer = 0;
    this.#play.textContent = "Play";
  }

  #point(target: Element | null) {
    const marked = target?.closest("[data-marks]");
    const pointed = marked instanceof HTMLElement ? marked.dataset.marks ?? "" : "";
    if (pointed === this.#pointed) return;
    this.#pointed = pointed;
    this.#drawSoon();
  }

  /** Draws once all that is shown together is there; what moves the focus may lay the page out, without new marks. */
  #drawSoon() {
    queueMicrotask(() => this.#draw());
  }

  /** Has the cube after each move, and says whether it is still the same line. */
  async #load() {
    const ask = this.#ask;
    if (this.#frames === null && ask !== null) {
      const frames = await ask().catch(() => null);
      if (ask === this.#ask) this.#frames = frames;
    }
    return ask === this.#ask && this.#frames !== null;
  }

  async #begin() {
    if (!(await this.#load())) return;
    const isOver = this.#at >= this.#last;
    // who wants less motion goes by single moves, one a press
    if (matchMedia("(prefers-reduced-motion: reduce)").matches) return this.#go(isOver ? 0 : this.#at + 1);
    this.#go(isOver ? 0 : this.#at);
    if (this.#timer !== 0) return;
    this.#play.textContent = "Pause";
    this.#timer = setInterval(() => {
      this.#go(this.#at + 1);
      if (this.#at >= this.#last) this.stop();
    }, BEAT);
  }

  async #step(by: number) {
    this.stop();
    if (!(await this.#load())) return;
    this.#go(this.#at + by);
    announce(spoken(`${part("played").textContent}${part("marked-normal").textContent}`));
  }

  #go(at: number) {
    this.#at = Math.min(this.#last, Math.max(0, at));
    this.#draw();
  }

  #draw() {
    if (this.#views === null) return;
    const { views, choice } = this.#shown();
    // what the focus and an open list mark is the same, and each of the stickers would have its style once more
    const piece = this.#piece();
    const drawn = [views, choice, this.#at, this.#frames, piece, this.#asked];
    if (drawn.every((each, at) => each === this.#drawn[at])) return;
    this.#drawn = drawn;
    const { made } = this.#looks[this.#at];
    for (const side of SIDES) {
      const asked = this.#asked.includes(side) ? piece : "";
      part(`marked-${side}`).textContent = showMarked(this.#nets[side], side, views[side], choice, asked);
    }
    const { move = "", total = this.#total } = this.#frames?.[made] ?? {};
    part("played").textContent = `${total} of ${this.#total}${move === "" ? "" : `: ${move}`}`;
    // it keeps the focus, for who goes to an end by keys
    part("play-back").setAttribute("aria-disabled", String(this.#at === 0));
    part("play-on").setAttribute("aria-disabled", String(this.#at === this.#last));
    part("shown-line").querySelectorAll(".move").forEach((each, at) =>
      each.setAttribute("aria-current", String(at === made - 1)));
    this.#tellWhy();
  }

  #shown() {
    const { made, goal } = this.#looks[this.#at];
    const followed = this.#pointed || this.#open || goal;
    const choice = this.#choice.value === FOLLOW ? followed : this.#choice.value;
    const frame = this.#at === this.#last ? null : this.#frames?.[made];
    return { views: present(frame?.views ?? this.#views), choice };
  }
}
