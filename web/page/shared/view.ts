// How the page is seen and used as a whole: what stays in view, what is dimmed, light and dark, help, and single keys.
import { announce, part } from "./element.js";
import { store, stored } from "../state/storage.js";
import type { State } from "../state/address.js";

const EDGE = 16;
/** How far the results are lowered beside what came above the cube, until the page is scrolled up again. */
let lowered = 0;
/** How far the page is scrolled beyond that. */
export const howFar = () => scrollY - Math.round(lowered);
export const areBeside = () => matchMedia("(min-width: 60rem)").matches;
export const isAtTop = () => areBeside() && howFar() === 0;
export const isNarrow = () => matchMedia("(max-width: 37.5rem)").matches;

export const isBare = ({ scramble, parts }: State) => scramble.trim() === "" && parts.length === 0;

export function showBeginning(state: State) {
  const isShown = isBare(state);
  part("welcome").hidden = !isShown;
  document.body.classList.toggle("bare", isShown);
  part("kept").hidden = isShown && state.kept.length === 0;
}

export const waitsForAnswers = () => document.querySelector('[aria-busy="true"]') !== null;

/** Hides what an address shows until it is known, so that nothing is seen to move. @param state null if it is there */
export function awaitAnswer(state: State | null) {
  // what was seen once stays seen, and keeps the focus
  if (state !== null && !document.body.matches(".awaited, .begun")) return;
  document.body.classList.toggle("awaited", state !== null && !isBare(state));
  document.body.classList.toggle("begun", state !== null && isBare(state));
}

/** Scrolls to where a column that stays shows what has the focus. The browser scrolls, and the column goes along. */
function showFocused(column: HTMLElement, focused: Element) {
  // a button that is clicked stays under the mouse
  if (focused.getBoundingClientRect().top >= 0 || !focused.matches(":focus-visible")) return;
  const start = (column.parentElement ?? column).getBoundingClientRect().top + scrollY;
  const within = focused.getBoundingClientRect().top - column.getBoundingClientRect().top;
  scrollTo({ top: start + within - EDGE });
}

/** Lets a column stay while the other one is scrolled; of one that is higher than the window the lower end stays. */
export function keepInView(column: HTMLElement) {
  const place = () => {
    // where nothing stays the browser keeps still what is read, but not beside a change of this
    if (areBeside()) column.style.top = `${Math.min(EDGE, innerHeight - column.offsetHeight - EDGE)}px`;
  };
  new ResizeObserver(place).observe(column);
  addEventListener("resize", place);
  addEventListener("resize", () => lower(0));
  addEventListener("scroll", () => howFar() < 0 && lower(scrollY));
  // the browser scrolls after the event, and would undo what is done in it
  column.addEventListener("focusin", ({ target }) => requestAnimationFrame(() => showFocused(column, target)));
}

function lower(by: number) {
  lowered = Math.max(0, by);
  // the browser keeps still what is beside them then
  const overflowAnchor = lowered > 0 ? "none" : "";
  Object.assign(part("results").style, { marginTop: `${Math.round(lowered)}px`, overflowAnchor });
}

/** Makes a change that may show or hide what stands above a part, which isn't moved under a finger. Beside results that
 * stay the cube does too: they are lowered as far as what came above that is high, and the page is scrolled. */
export function withoutMoving(still: HTMLElement, change: () => void) {
  const topsOf = () => [still, part("side-column")].map((each) => each.getBoundingClientRect().top);
  const [top, beside] = topsOf();
  change();
  if (areBeside() && still.id === "results") lower(lowered + topsOf()[1] - beside);
  scrollBy({ top: topsOf()[0] - top, behavior: "instant" });
  // a page that is no higher isn't scrolled so far
  if (howFar() < 0) lower(scrollY);
}

/** Has a card come into view, whose heading has the focus then. */
export function leadTo(card: HTMLElement, heading: HTMLElement, block: ScrollLogicalPosition = "start") {
  heading.focus({ preventScroll: true });
  card.scrollIntoView({ block, behavior: "instant" });
}

export function setUsable(usable: boolean) {
  for (const name of ["line", "results", "kept", "cube"]) part(name).inert = !usable;
}

/** Has what follows a step come into view and have the focus: the line, which is said to end so, if no step follows. */
export function showStart(isFinished: boolean, table: { focus: () => void }, stays: boolean) {
  // first, since the page is laid out for it, and the focus changes the marks
  if (!areBeside()) part(isFinished ? "line" : "results").scrollIntoView({ block: "start" });
  else if (!stays) scrollTo({ top: 0, behavior: "instant" });
  if (!isFinished) return table.focus();
  // no further than that, so that the nets stay in view
  if (areBeside()) part("copy-fmc").scrollIntoView({ block: "nearest" });
  part("line-heading").focus({ preventScroll: true });
  announce(part("finished").textContent);
}

const KEY = "nissy-theme";
const THEMES = ["light", "dark"];

export function offerThemes() {
  const [field, kept] = [part("theme"), stored(KEY)];
  const use = () => Object.assign(document.documentElement.dataset, { theme: field.value });
  if (THEMES.includes(kept)) field.value = kept;
  use();
  field.addEventListener("change", () => {
    use();
    store(KEY, field.value);
  });
}

const MARGIN = 6;

function placeUnder(text: HTMLElement, button: HTMLElement) {
  const { left, bottom } = button.getBoundingClientRect();
  const furthest = document.documentElement.clientWidth - text.offsetWidth - MARGIN;
  text.style.left = `${Math.max(MARGIN, Math.min(left, furthest)) + scrollX}px`;
  text.style.top = `${bottom + MARGIN + scrollY}px`;
}

/** Says something under a button, until something else is pressed. */
export function tellAt(button: HTMLElement, text: string) {
  const said = part("said");
  said.textContent = text;
  if (!said.matches(":popover-open")) said.showPopover();
  placeUnder(said, button);
  announce(text);
}

/** Makes every help of the page stand under the button that opens it. */
export function placeHelp() {
  for (const button of document.querySelectorAll("[popovertarget]")) {
    const text = part(button.getAttribute("popovertarget") ?? "");
    text.addEventListener("toggle", (event) => {
      button.setAttribute("aria-expanded", String(event.newState === "open"));
      if (event.newState !== "open") return;
      placeUnder(text, button);
      announce(text.textContent.replace(/\s+/g, " ").trim());
    });
  }
}

const FIELDS_TO_TYPE = "input, textarea, select, [contenteditable]";

export function listenToKeys(acts: Record<string, () => void>) {
  addEventListener("keydown", (event) => {
    if (event.ctrlKey || event.altKey || event.metaKey || event.defaultPrevented || !part("keys-on").checked) return;
    const isField = event.target instanceof Element && event.target.closest(FIELDS_TO_TYPE) !== null;
    // a field has its keys for itself, but for the one that closes its list
    if (isField && (event.key !== "Escape" || !part("solutions").contains(event.target))) return;
    // Escape closes help before it closes anything else
    if (!Object.hasOwn(acts, event.key) || document.querySelector(":popover-open, dialog[open], .large")) return;
    event.preventDefault();
    acts[event.key]();
  });
}

/** Keeps the row that has the focus, or what is given where none has it. */
export function star(otherwise: () => void) {
  const button = document.activeElement?.closest("li, tr")?.querySelector(".star");
  if (button) button.click();
  else otherwise();
}
