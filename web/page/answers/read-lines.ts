// How lines are read, by the engine at hand: as it writes them, and only by face turns if they turn the whole cube.
// Such turns, which it puts at the end, are left out there, so that each letter names one face; of an attempt the next
// steps are read as the cube is held by then.
import { NissyFault, type FaultParts } from "../../module/shared/faults.js";
import { MOST_MOVES } from "../state/limits.js";
import { SIDES, bracketed, joined, type Part, type Side } from "../shared/offered-steps.js";
import type { Candidate } from "../state/address.js";
import type { Copied } from "../state/kept-lines.js";
import type { Nissy } from "../../module/nissy.js";
import type { PlainLine } from "../../module/text/written.js";

const FACE_TURNS = /^[UDRLFB2' ]*$/;

function withoutTurns(cleaned: string) {
  const line = cleaned.replace(/ *[xyz][2']?/g, "");
  const count = line.match(/[UDRLFB]/g)?.length ?? 0;
  if (count > MOST_MOVES) throw new NissyFault(`more than ${MOST_MOVES} moves, as face turns`, {});
  return line;
}

/** The moves of one side by face turns, if the cube is held so before them, and how it is held after them. */
function byFaces(nissy: Nissy, held: string, moves: string) {
  // a fault has its column in the moves
  const whole = nissy.unniss(held === "" ? moves : `${held} ${moves}`);
  if (FACE_TURNS.test(whole)) return { moves: whole, held: "" };
  const cleaned = nissy.cleanup(whole);
  return { moves: withoutTurns(cleaned), held: cleaned.match(/[xyz][2']?/g)?.join(" ") ?? "" };
}

/** Cuts a line that was read into runs: what is in brackets goes on the inverse side.
 * @param side where moves without brackets go in a line that has none */
function runsOf(text: string, side: Side): { side: Side; moves: string }[] {
  if (!text.includes("(")) return [{ side, moves: text }];
  return [...text.matchAll(/\(([^()]*)\)|[^()]+/g)].map(([whole, inside]) =>
    inside === undefined ? { side: "normal", moves: whole } : { side: "inverse", moves: inside },
  );
}

/** What is read of lines, or what is at fault in them. */
export function readOrFault<Value>(read: () => Value): { value: Value } | { fault: FaultParts } {
  try {
    return { value: read() };
  } catch (fault) {
    if (fault instanceof NissyFault) return { fault: fault.parts() };
    throw fault;
  }
}

/** A scramble by its face turns, whether turns of the whole cube were left out, and as it is copied. */
export type ReadScramble = { line: string; isTurned: boolean; written: string };

export function readScramble(nissy: Nissy, text: string): ReadScramble {
  const plain = nissy.plainLine(text).line;
  const { moves: line, held } = byFaces(nissy, "", plain);
  const isTurned = held !== "";
  return { line, isTurned, written: isTurned ? line : plain.trim().replace(/ +/g, " ") };
}

/** How the cube is held on each side, by turns of the whole cube. */
type Held = Record<Side, string>;

const UPRIGHT: Held = { normal: "", inverse: "" };

const hasMoves = ({ normal, inverse }: Part) => normal !== "" || inverse !== "";

/** A line of moves, those in brackets on the inverse side, of a cube that is held so. */
function readHeld(nissy: Nissy, { text, side }: { text: string; side: Side }, before: Held) {
  nissy.unniss(text);
  const held = { ...before };
  const runs = runsOf(text, text.includes("(") ? "normal" : side).map((run) => {
    const read = byFaces(nissy, held[run.side], run.moves);
    held[run.side] = read.held;
    return { side: run.side, moves: read.moves };
  });
  const [normal, inverse] = SIDES.map((each) =>
    joined(...runs.filter((run) => run.side === each).map(({ moves }) => moves)));
  return { part: { normal, inverse }, held };
}

/** Steps as the cube is held at first: what is in brackets is undone at the end, as it is held then. */
function named(nissy: Nissy, parts: Part[], held: Held): Part[] {
  const last = byFaces(nissy, held.normal, nissy.invert(held.inverse)).held;
  if (last === "") return parts;
  return parts.map(({ normal, inverse }) => ({ normal, inverse: byFaces(nissy, last, inverse).moves }));
}

/** Moves by hand as a step, those in brackets on the inverse side, none without moves; and whether they turn the whole
 * cube, which is left out. */
export function readByHand(nissy: Nissy, line: { text: string; side: Side }): { parts: Part[]; isTurned: boolean } {
  const { part, held } = readHeld(nissy, line, UPRIGHT);
  return { parts: hasMoves(part) ? [part] : [], isTurned: SIDES.some((side) => held[side] !== "") };
}

/** A line that can't be read, and those after it, which aren't read then. */
export type Unread = { line: string; fault: FaultParts; rest: string[] };

/** The steps of some lines of text, of a cube that is held so, up to the first that can't be read, and where in the
 * text each of them begins. */
function readAllByHand(
  nissy: Nissy, steps: PlainLine[], held: Held,
): { parts: Part[]; begins: number[]; unread: Unread | null } {
  const [parts, begins]: [Part[], number[]] = [[], []];
  for (const [at, each] of steps.entries()) {
    const line = each.line.trim();
    const read = readOrFault(() => readHeld(nissy, { text: line, side: "normal" }, held));
    if ("fault" in read) {
      const rest = steps.slice(at + 1).map((later) => later.line.trim());
      return { parts: named(nissy, parts, held), begins, unread: { line, ...read, rest } };
    }
    const { part } = read.value;
    held = read.value.held;
    if (!hasMoves(part)) continue;
    parts.push(part);
    begins.push(each.places[0]);
  }
  return { parts: named(nissy, parts, held), begins, unread: null };
}

/** A text as solvers write it, and which of its attempts is meant; `copied`: what it was a copy of, before edits. */
export type Written = { text: string; at: number; copied?: Copied[] };

/** `solves`: whether what the text calls its solution does, null if nothing is, or if that can't be told; `isOfLine`:
 * whether that is the line, and no candidate. */
export type ReadAttempt = ReturnType<typeof readWritten>;

/** The steps and the candidates of an attempt, the first line of it that can't be read, if any, what makes one doubt
 * how it was read, which step is in doubt, or -1, and what undoes that on the normal side. */
export function readWritten(nissy: Nissy, { text, at }: Written) {
  const { attempt, check, doubt } = nissy.checkAttempts(text)[at];
  const { scramble, steps, candidates } = attempt;
  const scrambled = readOrFault(() => byFaces(nissy, "", scramble.line));
  // a scramble that can't be read is told of by itself
  const held = { ...UPRIGHT, normal: "value" in scrambled ? scrambled.value.held : "" };
  const { parts, begins, unread } = readAllByHand(nissy, steps, held);
  const read = candidates.map((each) => ({ note: each.note, ...readAllByHand(nissy, each.steps, held) }));
  const doubted = begins.findIndex((begin) => text.slice(0, begin).split("\n").length === doubt?.place.line);
  // an address has no candidate without moves
  const kept = read.filter((each) => each.parts.length > 0);
  return {
    parts,
    kept: kept.map((each) => ({ parts: each.parts, note: each.note, next: "" as const })),
    unread: [unread, ...read.map((each) => each.unread)].find((each) => each !== null) ?? null,
    doubt,
    doubted,
    solves: check !== null && attempt.isLabelled ? check.solved : null,
    isOfLine: steps.length > 0 && steps[0].places[0] === attempt.solution?.places[0],
    undoing: nissy.invert(parts[doubted]?.normal ?? ""),
  };
}

function readSteps(nissy: Nissy, parts: Part[]): Part[] {
  nissy.unniss(bracketed(parts));
  return parts.flatMap((part) => readByHand(nissy, { text: bracketed([part]), side: "normal" }).parts);
}

/** A candidate of an address, read as its steps are; one that can't be read stays, and is said to be so. */
function readAgain(nissy: Nissy, candidate: Candidate): Candidate {
  if (candidate.parts.every((part) => SIDES.every((side) => FACE_TURNS.test(part[side])))) return candidate;
  const read = readOrFault(() => readSteps(nissy, candidate.parts));
  return "fault" in read ? candidate : { ...candidate, parts: read.value };
}

export const readAddressed = (nissy: Nissy, { parts, kept }: { parts: Part[]; kept: Candidate[] }) => ({
  parts: readSteps(nissy, parts),
  kept: kept.map((each) => readAgain(nissy, each)).filter((each) => each.parts.length > 0),
});
