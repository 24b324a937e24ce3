// The lines that are kept of a scramble, each known by its moves and by the reduction that it was kept with.
import { bracketed, stateOf, stepNamed, type Part } from "../shared/offered-steps.js";
import { MOST_ARE_KEPT } from "../shared/words.js";
import { LONGEST_NOTE, MOST_CANDIDATES } from "./limits.js";
import type { Candidate, State } from "./address.js";

export const nameOf = ({ parts, next }: Pick<Candidate, "parts" | "next">) => [bracketed(parts), next].join(" ").trim();

const inOne = (parts: Part[]) => parts.map((each) => bracketed([each])).join(" ");

/** A note without what the page writes before it, of the reduction that a line was kept with. */
const ownNote = (note: string) => note.replace(/^DR \S+ \S+: \S+ normal, \S+ inverse(, \d+ over both)? */, "");

/** What was copied; `line`: all its moves, with the first of the reduction that it was kept with. */
export type Copied = Candidate & { line: string };

/** Whether a line says what was copied: of one that was kept with a reduction the note begins with that. */
const isSaid = ({ line, next }: Copied, read: string, note: string) =>
  line === read && (next === "" ? ownNote(note) === note : note.startsWith(`${stateOf(stepNamed(next))} `));

/** Whether lines say what was copied, with its notes, and nothing more. */
export const areSaid = (copied: Copied[], lines: { line: string; note: string }[]) =>
  lines.length === copied.length && copied.every((each) =>
    lines.some(({ line, note }) => isSaid(each, line, note) && ownNote(note) === each.note));

/** Lines that were read of a text: those that say what was kept are that. If it is no copy, one's own notes stay. */
export const asCopied = (lines: Candidate[], copied: Copied[], own: Candidate[]) => [...lines.map((each) => {
  const { parts, next } = copied.find((one) => isSaid(one, inOne(each.parts), each.note)) ?? each;
  return { parts, next, note: ownNote(each.note).slice(0, LONGEST_NOTE) };
}), ...(copied.length > 0 ? [] : own)];

/** What is kept once a line is starred, or no longer if it was. */
export function withStar(candidates: Candidate[], parts: Part[], next: Candidate["next"]): Candidate[] {
  const others = candidates.filter((each) => nameOf(each) !== nameOf({ parts, next }));
  return others.length === candidates.length ? [...others, { parts, note: "", next }] : others;
}

/** What is kept once others join, and why not all of them do, or "". */
export function withOthers(candidates: Candidate[], others: Candidate[]) {
  const all = new Map<string, Candidate>();
  // of a line that is there twice the first place counts, and the last note
  for (const each of [...candidates, ...others]) {
    all.set(nameOf(each), { ...each, note: each.note || (all.get(nameOf(each))?.note ?? "") });
  }
  return { kept: [...all.values()].slice(0, MOST_CANDIDATES), why: all.size > MOST_CANDIDATES ? MOST_ARE_KEPT : "" };
}

/** One state of two of a scramble, in which nothing is lost: the line of the second one, if it has any, is shown. */
export function joinedStates(own: State, other: State): State {
  const shown = other.parts.length > 0 ? other : own;
  const isLeft = own.parts.length > 0 && bracketed(own.parts) !== bracketed(shown.parts);
  const line: Candidate[] = isLeft ? [{ parts: own.parts, note: "", next: "" }] : [];
  const { kept } = withOthers(own.kept, [...other.kept, ...line, ...own.kept]);
  return { ...shown, list: shown.list ?? other.list, kept, longer: Math.max(own.longer, other.longer) };
}
