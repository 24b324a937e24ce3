// The list of a step's solutions: grouped by length and trigger, filtered by turns and by case, cut if it is long.
import { thrownError, present } from "../shared/certain.js";
import { announce, announceLater, counted, element, grouped, part, setBusy, spoken, tell } from "../shared/element.js";
import { Filters, NOT_MOVES, ofCases, offerCases, offerMoves, withTurns } from "./filters.js";
import { GREATEST_SLACK } from "../state/limits.js";
import { addRows, roveWithin, showRows, starButton, takeButton, takeNamed, type StarActs } from "../shared/rows.js";
import { axisName, partOf, reductionsAfter, stateOf, stepNamed, titleOf, type Part } from "../shared/offered-steps.js";
import { signsOfCases, triggerOf, wordsOfTrigger } from "../shared/passage.js";
import { sidesOfTwins, wordsOfTwins, type Entry } from "../shared/twins.js";
import { comesSoon, type Calls } from "../shared/questions.js";
import type { Rows } from "../answers/list-rows.js";
import type { List } from "../state/address.js";

/** `longest`: how many signs its longest row has; `list`: of those that are shown. */
export type Group = { name: string; entries: Entry[]; longest: number; list: HTMLElement | null };

/** Moves of more signs leave no room for what is pressed beside them on a phone, which writes no cases there. */
const LONG_LINE = 18;
const MOST_SHOWN = 200;
const LOOKING = "Looking …";

const nameOfList = ({ step, side }: List) =>
  `${titleOf(stepNamed(step))}, ${side === "both" ? "both sides" : `${side} side`}`;

/** What is said of a list. @param matching how many are left */
function noteOfList({ entries, all, whole }: Rows, matching: number, shown: number) {
  if (all === 0) return "No solution within 20 moves.";
  const sentences = [`${whole ? "" : "More than "}${counted(all, "solution")}.`];
  if (all > entries.length) sentences.push(`${counted(entries.length, "row")}: twins share one.`);
  if (matching < entries.length) sentences.push(`${counted(matching, "row")} ${matching === 1 ? "matches" : "match"}.`);
  const first = grouped(shown);
  if (shown < matching) sentences.push(`The first ${first} are shown: type moves to narrow the list.`);
  if (!whole) sentences.push("There are more than the page has room for.");
  return sentences.join(" ");
}

/** What entries that stand together have in common: how long they are, and from which case their trigger goes. */
function nameOfGroup({ length, total, passed = [] }: Entry) {
  const inAll = total === undefined ? [] : [`${total} in all`];
  return [counted(length, "move"), ...inAll, ...wordsOfTrigger(passed)].join(", ");
}

const signsOf = ({ moves, passed = [] }: Entry) => Math.ceil(moves.length + signsOfCases(passed));

/** `opened`: once another list is shown, or none. */
type ListActs = StarActs & {
  take: (parts: Part[], key: string) => void; change: (to: Partial<List> | null) => void;
  opened: (list: List | null) => void;
};

export class SolutionList {
  #name = "";
  #list: List | null = null;
  #rows: Rows | null = null;
  #matching: Entry[] = [];
  #ordered: Group[] = [];
  #shown = MOST_SHOWN;
  #filters = new Filters<Entry>("list", part("solutions-note"), [
    withTurns("filter", (entry) => sidesOfTwins(entry, entry.others)),
    ofCases("list-cases", (entry) => this.#namesOf(entry)),
  ], () => this.#filtered());
  #groups = part("solutions-groups");

  constructor(private readonly calls: Calls, private readonly acts: ListActs) {
    offerMoves("slack", GREATEST_SLACK);
    part("slack").addEventListener("change", () => acts.change({ slack: Number(part("slack").value) }));
    part("list-side").addEventListener("change", () => acts.change({ side: part("list-side").value as List["side"] }));
    part("twins").addEventListener("change", () => acts.change({ isAll: part("twins").checked }));
    part("solutions-close").addEventListener("click", () => acts.change(null));
    part("solutions-more").addEventListener("click", () => this.#more());
    roveWithin(this.#groups);
  }

  end() {
    this.#name = "";
    this.calls.end();
  }

  /** Looks for a list, or shows that none is open. @param name tells it from others @returns whether it is shown */
  async show(name: string, list: List | null, line: { scramble: string; parts: Part[] } | null) {
    if (name === this.#name) return false;
    this.#name = name;
    this.calls.stop();
    setBusy("solutions", list !== null, LOOKING);
    if (!list || !line) {
      this.#open(list);
      return false;
    }
    const asked = this.calls.ask("rowsOfList", { list, scramble: line.scramble, parts: line.parts });
    const isStill = () => name === this.#name;
    // another list is shown together with its rows, if these come soon
    if (!this.#hasListOf(list)) await comesSoon(asked);
    if (!isStill()) return false;
    this.#open(list);
    try {
      const rows = await asked;
      if (isStill()) this.#take(rows);
    } catch (fault) {
      if (!isStill()) return false;
      const why = thrownError(fault).message;
      setBusy("solutions", false);
      tell(part("solutions-note"), why);
      announce(why);
    }
    return isStill();
  }

  #hasListOf = (list: List | null) => list?.step === this.#list?.step && list?.side === this.#list?.side;

  #open(list: List | null) {
    // the filters stay for the same list with other rows, and what is typed while it is looked for stays too
    if (!this.#hasListOf(list)) this.#filters.clear();
    this.#filters.show();
    this.#list = list;
    this.#rows = null;
    this.#shown = MOST_SHOWN;
    part("solutions-more").hidden = true;
    announceLater("");
    this.#groups.replaceChildren();
    part("solutions").hidden = list === null;
    // the best reductions are among those of the list
    part("choices").classList.toggle("lists-reductions", list !== null && stepNamed(list.step).needs !== null);
    this.acts.opened(list);
    if (list === null) return;
    const { step, side, slack, isAll } = list;
    part("solutions-heading").textContent = nameOfList(list);
    part("solutions").dataset.marks = stateOf(stepNamed(step));
    part("slack").value = String(slack);
    part("list-side").value = side;
    part("twins").checked = isAll;
    part("list-cases-name").textContent = stepNamed(step).needs === null ? "Cases after it" : "Trigger from";
    tell(part("solutions-note"), LOOKING);
  }

  #take(rows: Rows) {
    this.#rows = rows;
    setBusy("solutions", false);
    // one row leaves nothing to choose
    const isOfUse = rows.entries.length > 1 || part("filter").value !== "" || part("filter").matches(":focus");
    part("list-moves").hidden = !isOfUse;
    this.#order();
    const all = `${rows.whole ? "" : "more than "}${counted(rows.all, "solution")}`;
    announce(`${nameOfList(present(this.#list))}: ${all}.`);
  }

  focus() {
    (this.#groups.querySelector(".take") ?? part("solutions-heading")).focus({ preventScroll: true });
    // with its heading, and below the bar
    part("solutions").scrollIntoView({ block: "nearest" });
  }

  /** Makes the row of some moves seen. @returns its button, or null */
  reveal(key: string) {
    const at = this.#rows === null ? -1 : this.#matching.findIndex(({ moves }) => moves === key);
    if (at >= this.#shown) {
      this.#shown = at + 1;
      this.#draw();
    }
    return takeNamed(this.#groups, key);
  }

  /** Shows what the filters leave, from its beginning, and says whether there is a list. */
  #filtered() {
    this.#shown = MOST_SHOWN;
    if (this.#rows !== null) this.#order();
    return this.#rows !== null;
  }

  #more() {
    const next = this.#matching[this.#shown];
    this.#shown += MOST_SHOWN;
    this.#draw();
    takeNamed(this.#groups, next.moves)?.focus();
  }

  #casesOf({ cases }: Entry) {
    if (cases === undefined) return [];
    return reductionsAfter(present(this.#list).step).map((step) => (
      { state: stateOf(step), axis: axisName(step.axis), name: cases[step.axis] }));
  }

  /** By which cases an entry is filtered: those after it, or that from which its trigger goes. */
  #namesOf(entry: Entry) {
    const trigger = triggerOf(entry.passed ?? []);
    return trigger === "" ? this.#casesOf(entry).map(({ name }) => name) : [trigger];
  }

  /** Puts what the filters leave in its order, and shows its beginning. */
  #order() {
    const left = this.#filters.left(present(this.#rows).entries);
    this.#ordered = this.#grouped(left ?? []);
    this.#matching = this.#ordered.flatMap(({ entries }) => entries);
    this.#groups.replaceChildren();
    offerCases("list-cases", present(this.#rows).entries.map((entry) => this.#namesOf(entry)));
    this.#draw();
    if (left === null) tell(part("solutions-note"), NOT_MOVES);
  }

  #grouped(matching: Entry[]): Group[] {
    const groups = new Map<string, Group>();
    for (const entry of matching) {
      const name = nameOfGroup(entry);
      const group = groups.get(name) ?? { name, entries: [], longest: 0, list: null };
      groups.set(name, group);
      group.entries.push(entry);
      group.longest = Math.max(group.longest, signsOf(entry));
    }
    return [...groups.values()];
  }

  /** Shows as many rows as are wanted, below those that are seen. */
  #draw() {
    let room = this.#shown;
    showRows(this.#groups, () => {
      for (const group of this.#ordered) {
        const count = Math.min(room, group.entries.length);
        room -= count;
        if (count > 0) this.#extend(group, count);
      }
    }, part("solutions-heading"));
    const count = this.#shown - room;
    this.#filters.show();
    part("solutions-more").hidden = count === this.#matching.length;
    tell(part("solutions-note"), noteOfList(present(this.#rows), this.#matching.length, count));
  }

  /** Shows more of a group. @param count how many of its rows are shown then */
  #extend(group: Group, count: number) {
    const { name, entries, longest } = group;
    if (group.list === null) {
      group.list = element("ul", entries.some(({ moves }) => moves.length > LONG_LINE) ? { class: "long" } : {});
      group.list.style.setProperty("--longest", String(longest));
      const heading = element("h3", {}, `${name}: ${counted(entries.length, "row")}`);
      this.#groups.append(element("div", { class: "group" }, heading, group.list));
    }
    addRows(group.list, entries.slice(group.list.children.length, count).map((entry) => this.#item(entry)));
  }

  #item(entry: Entry) {
    const { moves, others, passed = [] } = entry;
    if (moves === "") return element("li", { class: "reached" }, "no moves: it is reached");
    const [added, cases] = [[partOf(entry)], this.#casesOf(entry)];
    const twins = others.map((other) => `or ${spoken(other)}`);
    const said = { passed, cases: cases.map(({ axis, name }) => `${axis} ${name}`), twins };
    return element("li", {},
      takeButton(moves, { key: moves, isSeen: this.acts.isSeen(added), ...said }, () => this.acts.take(added, moves)),
      ...(others.length === 0 ? [] : [element("small", { class: "twins" }, wordsOfTwins(others))]),
      ...(cases.length === 0 ? [] : [element("span", { class: "cases" }, ...cases.map(({ axis, name, state }) =>
        element("span", { class: "case", "data-marks": state }, `${axis} ${name}`)))]),
      element("span", { class: "acts" },
        starButton(moves, () => this.acts.isStarred(added), (star) => this.acts.star(star, added))));
  }
}
