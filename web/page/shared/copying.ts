// Copies: lines as solvers write them, a step a line with what it reaches; and how a text comes to the clipboard.
import { announce, button, element, part } from "./element.js";
import { SIDES, bracketed, saidToBeReached, stateOf, stepNamed, type Part } from "./offered-steps.js";
import type { KeptWalk, Walk } from "../answers/examine.js";

/** A step with its comment, such as `D R B2 // DR R/L (3/10)`: its moves, and those up to its end. */
function stepLine(walk: Walk, index: number) {
  const [own, total] = [walk.turns[index], walk.totals[index + 1]];
  const count = index === 0 ? `(${total})` : `(${own}/${total})`;
  const said = [saidToBeReached(walk, index).join(", "), count].filter(Boolean).join(" ");
  return `${bracketed([walk.parts[index]])} // ${said}`;
}

const stepLines = (walk: Walk) => walk.parts.map((_, index) => stepLine(walk, index));

export const fmcOf = (scramble: string, walk: Walk) => [scramble, ...stepLines(walk)].join("\n");

/** The first of the reductions that a line was kept with, as its last step. */
const lineOfNext = ({ next }: KeptWalk): string[] => (!next?.dr.moves ? []
  : [`${next.dr.moves} // ${stateOf(stepNamed(next.dr.step))} (${next.dr.length}/${next.total})`]);

export function fmcOfAll(scramble: string, candidates: { walk: KeptWalk; notes: string[] }[]) {
  const blocks = candidates.map(({ walk, notes }) =>
    [...stepLines(walk), ...lineOfNext(walk), ...notes.map((note) => `// ${note}`)].join("\n"));
  return [scramble, ...blocks].join("\n\n");
}

const MOMENT = 1500;

function sayOn(button: HTMLElement, word: string) {
  button.dataset.word ??= button.textContent;
  // no narrower, so that it stays below what presses it
  button.style.minWidth ||= `${button.getBoundingClientRect().width}px`;
  button.textContent = word;
  setTimeout(() => {
    button.style.minWidth = "";
    button.textContent = button.dataset.word ?? "";
  }, MOMENT);
}

/** Shows a text that can't be copied, selected; the focus goes back once that is closed. */
function showUncopied(text: string) {
  const field = part("uncopied-text");
  field.value = text;
  part("uncopied").showPopover();
  field.focus();
  field.setSelectionRange(0, text.length);
}

/** Hands a text to the browser at once, if that takes it also one that is still to come: later it forgets the press. */
async function handOver(text: string | Promise<string>) {
  const { clipboard } = navigator;
  if (typeof text === "string") return clipboard.writeText(text);
  if (!clipboard.write || !globalThis.ClipboardItem) return clipboard.writeText(await text);
  const plain = text.then((words) => new Blob([words], { type: "text/plain" }));
  return clipboard.write([new ClipboardItem({ "text/plain": plain })]);
}

export async function copy(text: string | Promise<string>, button: HTMLElement) {
  if (text === "") return;
  try {
    await handOver(text);
    announce(`Copied: ${await text}`);
    sayOn(button, "Copied");
  } catch {
    showUncopied(await text);
    sayOn(button, "Not copied");
  }
}

/** How the cube in one's hands is set up on each side, from solved. @param of what, as it is said after the buttons */
export const setUps = (lines: Part, of = "") => SIDES.flatMap((side) => [
  element("dt", {}, `Set-up of the ${side} side, from solved`),
  element("dd", {}, element("output", { class: "moves" }, lines[side]), button("Copy", {
    class: "quiet", "aria-label": `Copy the set-up of the ${side} side${of}`,
    click: ({ currentTarget }) => copy(lines[side], currentTarget),
  })),
]);
