// Finds the best ways on, each axis by an engine of its own: what they find is one list, by all moves in all.
import { lastOf } from "../shared/certain.js";
import { ORIENTATIONS, type Part, type Side, type Step } from "../shared/offered-steps.js";
import type { Calls } from "../shared/questions.js";

/** The reduction after an orientation; `marks`: what it reaches; `lengths`: the least on each side alone. */
export type Next = {
  step: Step; part: Part; length: number; marks: string; case: string; lengths: Record<Side, number | null>;
};
/** `twins`: their last turns; `passed`: of a reduction the case before each move; `rank`: what puts rows in order. */
export type Row = {
  total: number; part: Part; state: string; twins: string[]; passed: string[]; next: Next | null; key: string;
  rank: number;
};
/** If it `isWhole` more than the first rows are asked for. */
export type Question = { scramble: string; parts: Part[]; reached: Step[]; slack: number; isWhole?: boolean };
/** How many ways on were tried, and how many of all axes are done. */
export type Progress = { tried: number; done: number; all: number };
/** The best, and how many there are. */
export type FoundOnAxis = { rows: Row[]; tried: number };
/** Of all axes; `count`: of all that are kept. */
export type Found = FoundOnAxis & { count: number; isWhole: boolean };
export type Further = Found & { slack: number };

/** The rows that come in once as many are shown of all: those that aren't seen yet. */
export function joiningRows(seen: Row[], rows: Row[], room: number) {
  const known = new Set(seen.map(({ key }) => key));
  return rows.slice(0, room).filter(({ key }) => !known.has(key));
}

/** How many rows are kept, which are all but seldom; of longer ones, of which there are thousands, each takes time. */
const mostKept = (slack: number) => (slack === 0 ? 5000 : 200);

/** How many rows of each axis are asked for: at first little more than are shown, of reductions all. */
const AT_FIRST = 8;
const mostOf = ({ slack, reached, isWhole }: Question) => (isWhole || reached.length > 0 ? mostKept(slack) : AT_FIRST);

const MOST_KEPT_SEARCHES = 8;

const nameOfSearch = ({ scramble, parts, slack }: Question) => JSON.stringify([scramble, parts, slack]);

/** What was found of the last questions, so that an undo shows it at once, longer rows too. */
export class KnownSearches {
  #found = new Map<string, Further>();

  of(question: Question) {
    return this.#found.get(nameOfSearch(question));
  }

  /** What was found of fewer moves more, as far as it was wanted; or nothing. */
  shorter({ slack, ...question }: Question) {
    const found = Array.from({ length: slack }, (_, more) => this.of({ ...question, slack: slack - 1 - more }));
    return found.find((each) => each !== undefined) ?? null;
  }

  keep(question: Question, found: Further) {
    this.#found.set(nameOfSearch(question), found);
    if (this.#found.size > MOST_KEPT_SEARCHES) this.#found.delete(this.#found.keys().next().value);
  }
}

/** What is found on some axes, as one list: up to where an axis may have more rows than were asked for. */
export function together(each: FoundOnAxis[], question: Question): Found {
  const [kept, most] = [mostKept(question.slack), mostOf(question)];
  const end = Math.min(...each.map(({ rows }) => (rows.length < most ? Infinity : lastOf(rows).rank)));
  const rows = each.flatMap((found) => found.rows.filter(({ rank }) => rank <= end));
  const tried = each.reduce((sum, found) => sum + found.tried, 0);
  rows.sort((one, other) => one.rank - other.rank).splice(kept);
  const isWhole = most === kept || end === Infinity;
  return { rows, tried, isWhole, count: isWhole ? rows.length : Math.min(tried, kept) };
}

export function findOnAxis(finders: Calls[], axis: number, question: Question, tell: (tried: number) => void) {
  const finder = finders[axis];
  // it is needed now, and its tables may wait
  finder.drop();
  return finder.ask("bestOfAxis", { axis, question, most: mostOf(question) }, tell);
}

/** The numbers of the axes that are looked at: if some orientations hold, those of these. */
function axesOf({ reached }: Question) {
  const held = ORIENTATIONS.flatMap(({ name }, at) => (reached.includes(name) ? [at] : []));
  return held.length > 0 ? held : ORIENTATIONS.map((_, at) => at);
}

export async function findAll(finders: Calls[], question: Question, tell: (progress: Progress) => void) {
  const axes = axesOf(question);
  const tried = ORIENTATIONS.map(() => 0);
  let done = 0;
  const told = () => tell({ tried: tried.reduce((sum, each) => sum + each), done, all: axes.length });
  told();
  const each = await Promise.all(axes.map(async (axis) => {
    const found = await findOnAxis(finders, axis, question, (count) => {
      tried[axis] = count;
      told();
    });
    done += 1;
    told();
    return found;
  }));
  return together(each, question);
}
