// The best ways on, and steps over both sides, as values, read from the rows that the module leaves of them.
import { SIDE_TURNS, WAY, WAY_PART } from "./layout.js";
import { SIDES, bracketed, joined, type OnSides } from "./sides.js";
import { STEPS, type Step } from "./steps.js";

/** The moves of a step on both sides: `normal` and `inverse` those of each, and `moves` both in one line, with those on
 * the inverse side in brackets. `twins` are the last turns of the other moves with which it is reached too, written so:
 * they differ only in the direction of these. */
export type BestStep = OnSides<string> & { step: Step; moves: string; length: number; twins: string[] };

/** A reduction, and its least length on each side alone, null if there is none of at most 20 turns. It has twins
 * only if it follows no orientation of its row. */
export type BestReduction = BestStep & { lengths: OnSides<number | null> };

export type BestRow = {
  /** The clean turns of both sides in all, those of the moves so far counted too. */
  total: number;
  /** The moves that follow, with those on the inverse side in brackets. */
  line: string;
  /** None if one holds already. */
  eo: BestStep | null;
  dr: BestReduction;
  /** Of the reduction, such as `4c4e`. */
  case: string;
};

const NO_STEP = 255;
const NO_LENGTH = 21;
const POWERS = ["", "2", "'"];
const TURNS = [..."UDRLFB"].flatMap((face) => POWERS.map((power) => face + power));

function eitherWay(turn: string): string[] {
  if (turn.endsWith("2")) return [turn];
  return [turn, turn.endsWith("'") ? turn[0] : `${turn}'`];
}

/** The turns on a side, and how they may end: the last, free ones are quarter turns of either way, or half turns. */
function sideAt(bytes: Uint8Array, at: number) {
  const { count, free } = SIDE_TURNS.read;
  const begin = at + SIDE_TURNS.at.turns;
  const turns = Array.from(bytes.subarray(begin, begin + count(bytes, at)), (number) => TURNS[number]);
  const ends = turns.slice(turns.length - free(bytes, at)).reduce(
    (begun, turn) => begun.flatMap((each) => eitherWay(turn).map((last) => joined(each, last))), [""],
  );
  return { turns, ends };
}

/** The step whose moves stand at a place, or null if there is none. */
function stepAt(bytes: Uint8Array, at: number): BestStep | null {
  const number = WAY_PART.read.step(bytes, at);
  if (number === NO_STEP) return null;
  const sides = SIDES.map((side) => sideAt(bytes, at + WAY_PART.at[side]));
  const [normal, inverse] = sides.map(({ turns }) => turns.join(" "));
  const [ends, others] = sides.map((side) => side.ends);
  // their own come first
  const twins = ends.flatMap((end) => others.map((other) => bracketed([{ normal: end, inverse: other }]))).slice(1);
  const length = sides[0].turns.length + sides[1].turns.length;
  return { step: STEPS[number], moves: bracketed([{ normal, inverse }]), normal, inverse, length, twins };
}

function wayAt(bytes: Uint8Array, at: number): BestRow {
  const eo = stepAt(bytes, at + WAY.at.eo);
  const dr = stepAt(bytes, at + WAY.at.dr) as BestStep;
  const [normal, inverse] = [WAY.read.onNormal, WAY.read.onInverse].map((read) => read(bytes, at))
    .map((length) => (length === NO_LENGTH ? null : length));
  return {
    total: WAY.read.total(bytes, at),
    line: bracketed(eo === null ? [dr] : [eo, dr]),
    eo,
    dr: { ...dr, twins: eo === null ? dr.twins : [], lengths: { normal, inverse } },
    case: `${WAY.read.corners(bytes, at)}c${WAY.read.edges(bytes, at)}e`,
  };
}

export const waysIn = (bytes: Uint8Array) =>
  Array.from({ length: bytes.length / WAY.bytes }, (_, row) => wayAt(bytes, row * WAY.bytes));

/** The moves of a step, one way to make it after the other. */
export const bothSidesIn = (bytes: Uint8Array) => Array.from({ length: bytes.length / WAY_PART.bytes }, (_, at) =>
  stepAt(bytes, at * WAY_PART.bytes) as BestStep);

/** What ways on are put in order by: all moves, the length of the first step, the pieces of the case, that step. */
export function rankOf({ total, eo, dr, case: name }: BestRow) {
  const { length, step } = eo ?? dr;
  const pieces = Number(name[0]) + Number(name[2]);
  return ((total * 64 + length) * 64 + pieces) * 16 + STEPS.indexOf(step);
}

/** The order of ways on of different axes, no two of which have the same rank. */
export const byRank = (one: BestRow, other: BestRow) => rankOf(one) - rankOf(other);
