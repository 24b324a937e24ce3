// Sentences: why a line can't be read, with a mark at the place in it, why there is no answer, and the title.
import { EngineMissing, NissyFault, type FaultParts } from "../../module/shared/faults.js";
import { placeOf, type PlainLine } from "../../module/text/written.js";
import { oneLine, type State } from "../state/address.js";
import { thrownError } from "./certain.js";
import { element, shortened } from "./element.js";
import { MOST_CANDIDATES, MOST_MOVES } from "../state/limits.js";
import { bracketed, openSteps, stateOf, stepNamed, titleOf, type Step } from "./offered-steps.js";
import type { AttemptDoubt } from "../../module/text/attempts.js";
import type { Unread } from "../answers/read-lines.js";

export const MOST_ARE_KEPT = `${MOST_CANDIDATES} lines are kept, and there can be no more: remove one of them first.`;
export const NO_ROOM = "The address of the page has no room for another line: "
  + "remove one that is kept, or shorten a note.";
export const NO_STEP_AFTER_DR = "nissy has no step after a DR";
export const NOT_IN_ADDRESS = "The address of the page has no room for all of this, and stays as it was.";
const PAGE_NAME = "nissy";
const TOO_MANY = `more than ${MOST_MOVES} moves`;
const MOST_SIGNS = 40;

export const engineFails = (message: string) => `The engine doesn't work here. ${message}`;

export const wordsOfFault = (fault: unknown) => (fault instanceof NissyFault ? fault.text : thrownError(fault).message);

export function unanswered(fault: unknown) {
  if (fault instanceof EngineMissing) return engineFails(fault.message);
  const words = wordsOfFault(fault);
  if (words !== TOO_MANY) return `There is no answer: ${words}.`;
  return `The scramble and the moves after it can't be read together: they have ${TOO_MANY}.`;
}

/** What tells the tabs of pages apart. */
export function titleOfPage({ scramble, parts }: State) {
  // no sign that turns the direction of a text, or that isn't seen
  const plain = scramble.replace(/[\p{Cc}\p{Cf}\u2028\u2029]/gu, " ").trim();
  const words = [bracketed(parts), plain].filter(Boolean).join(" · ");
  if (words === "") return `${PAGE_NAME}: edge orientation and domino reduction`;
  return `${shortened(words, MOST_SIGNS)} – ${PAGE_NAME}`;
}

/** As what a line is read that turns the whole cube. */
export const wordsOfTurns = (line: string) =>
  `Read as ${line || "no moves"}: the turns of the whole cube are left out, so U stays the face that was U.`;

export const wordsOfLeftOut = (leftOut: string[]) => (leftOut.length === 0 ? "" : `Left out: ${leftOut.join(", ")}.`);

/** Why a step can't be listed, or "". */
export function whyNotListed(name: Step, reached: Step[]) {
  if (openSteps(reached).some((step) => step.name === name)) return "";
  const step = stepNamed(name);
  const { needs } = step;
  const why = needs === null || reached.includes(name) ? "it is reached" : `${stateOf(stepNamed(needs))} isn't reached`;
  return `${titleOf(step)} can't be listed here: ${why}.`;
}

const AROUND = 24;
const LONGEST_WORD = 12;

/** A text in which each sign has its place: blanks have one width, and what isn't seen is told by a sign. */
const visible = (text: string) => text.replace(/\s/g, " ").replace(/[\p{Cc}\p{Cf}]/gu, "\uFFFD");

/** The word that stands at a place, up to a blank or a bracket. */
function wordAt(line: string, place: number) {
  const word = [...(/^[^\s()]*/.exec(line.slice(place))?.[0] ?? "").replace(/\u2019/g, "'")];
  return visible(word.slice(0, LONGEST_WORD).join("")) + (word.length > LONGEST_WORD ? "…" : "");
}

/** A move that ends as no move does, such as `R1` or `F-1`, if it stands at a place: all of it, and its letters. */
function oddMove(line: string, place: number): { word: string; letters: string } | null {
  const begin = /([UDRLFB]w?|[MESudrlfbxyz])['\u20192]?$/.exec(line.slice(0, place));
  const isOdd = /^(?:[-+*^'\u20190-9]|i(?!\p{L}))/u.test(line.slice(place));
  return begin && isOdd ? { word: begin[0] + wordAt(line, place), letters: begin[1] } : null;
}

function sentenceOfMove(line: string, place: number) {
  const odd = oddMove(line, place);
  if (odd === null) return `“${wordAt(line, place)}” is no move.`;
  return `“${odd.word}” is no move: write ${odd.letters}, ${odd.letters}2 or ${odd.letters}'.`;
}

const OF_BRACKETS = new Map([
  ["bracket inside a bracket", "A bracket stands inside a bracket."],
  ["bracket closed that was not opened", "A bracket is closed that was not opened."],
  ["bracket not closed", "A bracket isn't closed."],
]);

/** The engine's words as a solver reads them. @param line what the engine read */
function sentenceOf({ text, character }: FaultParts, line: string) {
  if (text === "not a move") return sentenceOfMove(line, (character ?? 1) - 1);
  return OF_BRACKETS.get(text) ?? `${text[0].toUpperCase()}${text.slice(1)}.`;
}

/** What is said of a text with a line that can't be read, or "". */
export function whyUnread(unread: Unread | null) {
  if (unread === null) return "";
  const { line, fault, rest } = unread;
  const [shown, ...later] = [line, ...rest].map((each) => `“${visible(shortened(each, MOST_SIGNS))}”`);
  const after = later.length === 0 ? "" : ` Not read after it: ${later.join(", ")}.`;
  return `The steps of this text are read up to the line ${shown}: ${sentenceOf(fault, line)}${after}`;
}

/** The text around a place, with a mark at it and a sign under it. */
function marked(text: string, place: number) {
  const from = Math.max(0, place - AROUND);
  const sign = String.fromCodePoint(text.codePointAt(place) ?? 32);
  const before = (from > 0 ? "…" : "") + text.slice(from, place);
  const after = text.slice(place + sign.length, place + AROUND);
  const cut = place + AROUND < text.length ? "…" : "";
  const line = element("span", {}, visible(before), element("mark", {}, visible(sign)), visible(after + cut));
  // it may be scrolled, and is no stop of the Tab key for that
  return element("pre", { "aria-hidden": "true", tabindex: -1 }, line, `\n${" ".repeat([...before].length)}^`);
}

type Turns = { turns: string; undoing: string };

/** What is said of a doubt that a text is read as it was meant, and of the word there, with the turns named by it. */
const WORDS_OF_DOUBTS: Record<AttemptDoubt["reason"], (word: string, named: Turns | null) => string> = {
  "another scramble": () => "this may be more than a scramble, or none",
  "several solutions": () => "which solution counts, or the order of its steps, can't be told",
  side: (word, named) => {
    if (!/^pre-?mov/i.test(word)) return `“${word}” names a side, and its moves may belong on the other one`;
    const how = named?.turns
      ? `premoves ${named.turns} are (${named.undoing}) in brackets` : "write them inverted, in brackets";
    return `premoves stand before the scramble, but are read after it: ${how}`;
  },
  letters: (word) => `“${word}” is read as moves`,
  "small letters": (word) => `“${word}” is read as a wide turn: face turns have capital letters`,
  comment: () => "moves and a comment may be taken for each other",
  repetition: (word) => `“${word}” may say that moves are made several times, and they are read once`,
  insertion: (word) => (/^[UDRLFB][23'’]*$/i.test(word)
    ? `beside “${word}” a move, or a turn of the cube, may be missing`
    : `“${word}” may say that moves belong into others, and they are read in the text's order`),
  "step or scramble": () => "moves of this line may be of a scramble, or of a step",
  signs: (word) => `“${word}” may stand for other moves than are read`,
  "another attempt": () => "another attempt may begin here",
  "which scramble": () => "this may be of another scramble",
  "a part": () => "as a whole this doesn't solve the scramble, but a part of it does",
};

/** Whether the word at a place stands before all moves of its line, or is all of their comment. */
const namesLine = (text: string, at: number) => /(^|\n)[^\w\n]*$/.test(text.slice(0, at))
  || (/\/\/ *$/.test(text.slice(0, at)) && /^[\w-]+ *(\n|$)/.test(text.slice(at)));

/** @param turns those of its step */
export const wordsOfDoubt = ({ reason, place: { at } }: AttemptDoubt, text: string, turns: Turns | null = null) =>
  `In doubt: ${WORDS_OF_DOUBTS[reason](wordAt(text, at), namesLine(text, at) ? turns : null)}.`;

/** Shows under a field what makes one doubt how its text was read, or takes the last one away. */
export function showDoubt(where: HTMLElement, doubt: AttemptDoubt | null, text: string) {
  where.hidden = doubt === null;
  where.replaceChildren();
  if (doubt !== null) where.append(element("p", {}, wordsOfDoubt(doubt, text)), marked(oneLine(text), doubt.place.at));
}

/** Shows a fault under its field, or takes the last one away. */
export function showFault(where: HTMLElement, field: HTMLElement, plain: PlainLine, fault: Error | null, text: string) {
  where.hidden = fault === null;
  where.replaceChildren();
  field.setAttribute("aria-invalid", String(fault !== null));
  if (fault === null) return;
  where.append(element("p", {}, fault instanceof NissyFault ? sentenceOf(fault, plain.line) : fault.message));
  const place = fault instanceof NissyFault ? placeOf(fault, plain, text) : null;
  if (place !== null) where.append(marked(oneLine(text), place.at));
}
