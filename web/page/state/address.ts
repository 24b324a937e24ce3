// The state of the page in its address, after the #, so that it can be kept and sent. What an address says is checked
// piece by piece: each piece becomes a part of the state, or is left out and named.
import { thrownError } from "../shared/certain.js";
import { shortened } from "../shared/element.js";
import { GREATEST_SLACK, LONGEST_NOTE, LONGEST_SCRAMBLE, MOST_CANDIDATES } from "./limits.js";
import { SIDES, isOffered, isReduction, isSide, type Part, type Side, type Step } from "../shared/offered-steps.js";

export type List = { step: Step; side: Side | "both"; slack: number; isAll: boolean };
/** `next`: the reduction it was kept with, or "". */
export type Candidate = { parts: Part[]; note: string; next: Step | "" };
/** `longer`: by how many moves more than the shortest the orientations among the best may have. */
export type State = {
  scramble: string; parts: Part[]; side: Side; list: List | null; kept: Candidate[]; longer: number;
};

const LONGEST_ADDRESS = 20000;
const MOST_PARTS = 256;
const MOST_NAMED = 5;
const LONGEST_NAME = 24;
const MOVES = /^[UDRLFBMESxyzw2']+( [UDRLFBMESxyzw2']+)*$/;
const ALL_ROWS = "all";

export const emptyState = (): State => ({ scramble: "", parts: [], side: "normal", list: null, kept: [], longer: 0 });

/** A text in which signs stand for lone halves of pairs, which no address has. */
const wellFormed = (text: string) => text.replace(/[\uD800-\uDFFF]/gu, "\uFFFD");

/** Moves as an address has them: `_` for a blank and `-` for an apostrophe, since some programs cut it there. */
function escaped(text: string) {
  const plain = (sign: string) => `%${sign.charCodeAt(0).toString(16).toUpperCase()}`;
  return encodeURIComponent(wellFormed(text))
    .replace(/[-_()*!~.]/g, plain)
    .replace(/%20/g, "_")
    .replace(/'/g, "-");
}

/** A text as the one line that the engine reads of it. */
export const oneLine = (text: string) => text.replace(/[\r\n]/g, " ");

const spelled = (text: string) => decodeURIComponent(wellFormed(text).replace(/_/g, "%20").replace(/-/g, "'"));

/** Such as `normal.R_U.inverse.F`. */
const writtenPart = (part: Part) =>
  SIDES.filter((side) => part[side] !== "").map((side) => `${side}.${escaped(part[side])}`).join(".");

const writtenParts = (parts: Part[]) => parts.map(writtenPart).join("~");

const writtenCandidate = ({ parts, note, next }: Candidate) =>
  [writtenParts(parts), escaped(note), next].join(";").replace(/;+$/, "");

const writtenList = ({ step, side, slack, isAll }: List) => [step, side, slack, ...(isAll ? [ALL_ROWS] : [])].join(".");

export function addressOf({ scramble, parts, side, list, kept, longer }: State) {
  const fields = [];
  if (scramble !== "") fields.push(`scramble=${escaped(scramble)}`);
  if (parts.length > 0) fields.push(`steps=${writtenParts(parts)}`);
  if (side !== "normal") fields.push(`side=${side}`);
  if (list) fields.push(`list=${writtenList(list)}`);
  if (longer > 0) fields.push(`longer=${longer}`);
  if (kept.length > 0) fields.push(`kept=${kept.map(writtenCandidate).join(",")}`);
  return `#${fields.join("&")}`;
}

export const fitsAddress = (state: State) => addressOf(state).length <= LONGEST_ADDRESS;

/** Whether there is more to read than a scramble, which is read with what is asked of it. */
export const hasLines = ({ parts, kept }: State) => parts.length + kept.length > 0;

function readPart(text: string): Part {
  const pieces = text.split(".");
  const part: Part = { normal: "", inverse: "" };
  for (let at = 0; at < pieces.length; at += 2) {
    const [side, moves] = [pieces[at], spelled(pieces[at + 1] ?? "")];
    if (!isSide(side) || part[side] !== "" || !MOVES.test(moves)) throw new Error("not steps");
    part[side] = moves;
  }
  return part;
}

function split(text: string, sign: string, most: number) {
  const pieces = text.split(sign);
  if (pieces.length > most) throw new Error("too many");
  return pieces;
}

const readParts = (text: string): Part[] => split(text, "~", MOST_PARTS).map(readPart);

const isSlack = (text: string) => /^[0-9]$/.test(text) && Number(text) <= GREATEST_SLACK;

function readList(text: string): List {
  const [step, side, slack, all, ...rest] = text.split(".");
  const isRead = isSlack(slack) && (all === undefined || all === ALL_ROWS);
  const isKnown = isOffered(step) && (isSide(side) || side === "both");
  if (!isRead || !isKnown || rest.length > 0) throw new Error("no list");
  return { step, side, slack: Number(slack), isAll: all === ALL_ROWS };
}

function readCandidate(text: string): Candidate {
  const [parts, note = "", next = "", ...rest] = text.split(";");
  const plain = oneLine(spelled(note));
  const isKnown = next === "" || isReduction(next);
  if (rest.length > 0 || plain.length > LONGEST_NOTE || !isKnown) throw new Error("no candidates");
  return { parts: readParts(parts), note: plain, next };
}

function readOr<Value>(value: Value | undefined, why: string): Value {
  if (value === undefined) throw new Error(why);
  return value;
}

function scrambleIn(text: string) {
  const scramble = oneLine(spelled(text));
  return scramble.length <= LONGEST_SCRAMBLE ? scramble : undefined;
}

/** The part of the state that each field of an address gives. */
const FIELDS: Record<string, (value: string) => Partial<State>> = {
  scramble: (value) => ({ scramble: readOr(scrambleIn(value), "too long") }),
  steps: (value) => ({ parts: readParts(value) }),
  side: (value) => ({ side: readOr(SIDES.find((side) => side === value), "no side") }),
  list: (value) => ({ list: readList(value) }),
  longer: (value) => ({ longer: readOr(isSlack(value) ? Number(value) : undefined, "no number of moves") }),
  kept: (value) => ({ kept: split(value, ",", MOST_CANDIDATES).map(readCandidate) }),
};

/** Puts a field into the state, or says why it isn't. */
function readField(state: State, field: string, said: Set<string>): string {
  const [name, value, ...rest] = field.split("=");
  if (!Object.hasOwn(FIELDS, name)) return "unknown";
  if (value === undefined || rest.length > 0) return "no value";
  if (said.has(name)) return "said twice";
  said.add(name);
  try {
    Object.assign(state, FIELDS[name](value));
    return "";
  } catch (fault) {
    return fault instanceof URIError ? "broken escapes" : thrownError(fault).message;
  }
}

/** The state that an address gives, and what of it was left out, or "". */
export function readAddress(hash: string): { state: State; fault: string } {
  const text = hash.replace(/^#/, "");
  const state = emptyState();
  if (text.length > LONGEST_ADDRESS) return { state, fault: "This address is too long, so the page begins empty." };
  const said = new Set<string>();
  const leftOut = [];
  for (const field of text.split("&").filter((each) => each !== "")) {
    const why = readField(state, field, said);
    if (why !== "") leftOut.push(`${shortened(field.split("=")[0], LONGEST_NAME)} (${why})`);
  }
  if (leftOut.length === 0) return { state, fault: "" };
  const more = leftOut.length > MOST_NAMED ? ` and ${leftOut.length - MOST_NAMED} more` : "";
  return { state, fault: `Left out of this address: ${leftOut.slice(0, MOST_NAMED).join(", ")}${more}.` };
}
