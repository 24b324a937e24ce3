// The card of the scramble: its field, what was left out of a text and what is at fault, and its fold.
import { Stopped } from "../../module/shared/faults.js";
import { announce, announceLater, counted, grouped, part, tell } from "../shared/element.js";
import { emptyState } from "../state/address.js";
import { sheetsIn, withoutAddresses, type NewSheet } from "../state/desk.js";
import { areSaid, type Copied } from "../state/kept-lines.js";
import { LONGEST_SCRAMBLE } from "../state/limits.js";
import { areBeside, withoutMoving } from "../shared/view.js";
import { showDoubt, showFault, unanswered, wordsOfLeftOut, wordsOfTurns } from "../shared/words.js";
import type { Attempt, AttemptDoubt } from "../../module/text/attempts.js";
import type { Keeping } from "./scrambles-on-desk.js";
import type { Calls } from "../shared/questions.js";
import type { ReadScramble, Written } from "../answers/read-lines.js";
import type { Reader } from "../shared/reader.js";

/** A new scramble begins a new line, one that is mended keeps it; a draft is nothing, or a beginning of the one that
 * was deleted; `fmc`: where its steps stand, if it has any; `others`: scrambles that came with it. */
export type ScrambleChange = Keeping & { isNew: boolean; fmc: Written | null; others: NewSheet[] };

type ScrambleActs = { change: (scramble: string, change: ScrambleChange) => void; take: (sheets: NewSheet[]) => void };

const PAUSE = 150;

/** With the apostrophe that one types. */
const asTyped = ({ line }: { line: string }): string => line.replace(/\u2019/g, "'");

/** With single blanks, by which two scrambles are compared. */
const spaced = (plain: { line: string }) => asTyped(plain).trim().replace(/ +/g, " ");

const newSheet = ({ scramble, steps, candidates }: Attempt, written: Written): NewSheet => ({
  state: { ...emptyState(), scramble: spaced(scramble) },
  written: steps.length + candidates.length > 0 ? written : null,
});

export class ScrambleField {
  #field = part("scramble");
  #timer = 0;
  #turn = 0;
  #leftOut: string[] = [];
  #isRead = false;
  /** the scramble that was read last, whether what comes next comes at once, and whether in the place of all of it */
  #last = "";
  #isWhole = false;
  #isReplaced = false;
  /** whether it was deleted, and whether the browser's history has an entry of its own for what is typed since */
  #isEmptied = false;
  #isDraft = false;
  /** whether the field has no room for the end of what is pasted */
  #isCut = false;
  /** the text that was read last, what the field has of it, and what makes one doubt how it was read */
  #lastText = "";
  #shown = "";
  #doubt: AttemptDoubt | null = null;

  constructor(private readonly calls: Calls, private readonly reader: Reader, private readonly acts: ScrambleActs) {
    this.#field.maxLength = LONGEST_SCRAMBLE;
    this.#field.addEventListener("input", (event) => this.#typed(event instanceof InputEvent ? event.inputType : ""));
    this.#field.addEventListener("paste", (event) =>
      this.#comes(event, event.clipboardData?.getData("text") ?? "", true));
    this.#field.addEventListener("beforeinput", (event) => {
      const { inputType, data, isComposing } = event;
      if (inputType === "insertFromPaste" || !inputType.startsWith("insert")) return;
      // a keyboard or a drop may bring several words at once; those that are composed come one after another
      this.#comes(event, data ?? "", (isComposing ? /\S\s*\n\s*\S/ : /\S\s+\S/).test(data ?? ""));
    });
    addEventListener("hashchange", () => this.#overtake());
    part("random").addEventListener("click", () => this.#draw());
    part("scramble-edit").addEventListener("click", () => this.focus());
    // not as soon as the focus goes: what is pressed would move away under the finger
    addEventListener("click", ({ target }) => this.#leave(target));
    addEventListener("keyup", () => this.#leave(document.activeElement));
  }

  focus() {
    this.#fold(false);
    this.#field.focus();
  }

  /** Shows a scramble that didn't come from the field. */
  show(scramble: string) {
    clearTimeout(this.#timer);
    if (asTyped(this.reader.plainLine(this.#field.value)) !== scramble) {
      this.#field.value = scramble;
      this.#leftOut = [];
    }
    this.#last = scramble || this.#last;
    this.#shown = this.#field.value;
    this.#isEmptied = false;
    this.#isDraft = false;
  }

  /** Shows what is wrong with the scramble, or that nothing is; and how it is read, where anything is left out. */
  judge(fault: Error | null, read: ReadScramble | null) {
    const text = this.#field.value;
    const plain = this.reader.plainLine(text);
    showFault(part("scramble-fault"), this.#field, plain, fault, text);
    if (!fault && part("scramble-doubt").hidden) this.tellDoubt(this.#doubt);
    // of what is typed not after each sign
    if (fault) announceLater(part("scramble-fault").children[0].textContent);
    const sentences = [wordsOfLeftOut(this.#leftOut)].filter(Boolean);
    if (read?.isTurned) sentences.push(wordsOfTurns(read.line));
    else if (read && plain.line.includes("(")) sentences.push("Moves in brackets count as inverse moves.");
    const words = sentences.join(" ");
    // what stays as it was isn't said again
    if (words !== part("scramble-read").textContent) tell(part("scramble-read"), words);
    part("scramble-folded").textContent = text;
    this.#isRead = read !== null && read.line !== "";
    if (this.#field !== document.activeElement || !this.#isRead) this.#fold(this.#isRead);
  }

  /** Says why the last text may be read otherwise than it was meant, until anything is changed. */
  tellDoubt(doubt: AttemptDoubt | null) {
    this.#doubt = doubt;
    showDoubt(part("scramble-doubt"), doubt, this.#lastText);
  }

  /** Folds the card once something was done elsewhere, if the page is scrolled far enough for nothing to move by it. */
  #leave(where: Element | null) {
    const card = part("scramble-card");
    if (!this.#isRead || card.contains(where) || card.matches(".folded")) return;
    const height = card.offsetHeight;
    withoutMoving(part("results"), () => {
      this.#fold(true);
      if (height - card.offsetHeight > scrollY) this.#fold(false);
    });
  }

  /** Folds the card where the page is narrow, or opens it; the focus isn't lost with what is folded. */
  #fold(isFolded: boolean) {
    const isWithin = part("scramble-open").contains(document.activeElement);
    part("scramble-card").classList.toggle("folded", isFolded);
    if (isFolded && !areBeside() && isWithin) part("scramble-edit").focus({ preventScroll: true });
  }

  /** What was typed just before another address is opened, or is still being drawn, doesn't come over it. */
  #overtake() {
    clearTimeout(this.#timer);
    this.#turn++;
  }

  /** Looks at a text before the field has it. @param isWhole whether it comes at once, as what is pasted does */
  #comes(event: Event, brought: string, isWhole: boolean) {
    const { value, selectionStart, selectionEnd } = this.#field;
    const text = brought.replace(/\r\n?/g, "\n");
    const isAll = selectionStart === 0 && selectionEnd === value.length;
    const isCopy = isWhole && sheetsIn(text).length > 0;
    [this.#isWhole, this.#isReplaced] = [isWhole, isWhole && isAll && !isCopy];
    if (!isWhole && isAll && value.trim() !== "") this.#isEmptied = true;
    // the browser takes as much of it as the field has room for, without a word
    const room = LONGEST_SCRAMBLE - value.length + (selectionEnd - selectionStart);
    this.#isCut = isWhole && !isCopy && text.length > room;
    // what a page copied is taken as a whole, wherever it is put
    if (!isCopy) return;
    event.preventDefault();
    this.#read(text, true, true);
  }

  #typed(how: string) {
    this.#overtake();
    const isPasted = how === "insertFromPaste";
    const isWhole = isPasted || this.#isWhole;
    if (!isWhole) this.#isCut = false;
    const read = () => {
      const isReplaced = this.#isReplaced;
      [this.#isWhole, this.#isReplaced] = [false, false];
      this.#read(this.#field.value, isReplaced, isWhole);
    };
    if (isPasted) return read();
    // of what a keyboard brings at once a browser tells line by line
    this.#timer = setTimeout(read, isWhole ? 0 : PAUSE);
  }

  /** Whether what was kept, and copied, was edited since: then its lines count, and not the address below them. */
  #isEdited({ candidates }: Attempt, copied: Copied[]) {
    const asRead = (note: string) => this.reader.attempts(`R\n\nR\n// ${note}`)[0].candidates[0]?.note ?? note;
    const before = copied.map((each) => ({ ...each, note: asRead(each.note) }));
    const lines = candidates.map(({ solution, note }) => ({ line: spaced(solution), note }));
    return lines.length > 0 && !areSaid(before, lines);
  }

  async #read(typed: string, isReplaced: boolean, isPasted: boolean) {
    const [sheets, text] = [sheetsIn(typed), withoutAddresses(typed)];
    const attempts = this.reader.attempts(text);
    const [line, hasLines] = [spaced(attempts[0].scramble), attempts[0].candidates.length > 0];
    const turn = this.#turn;
    const own = sheets.find(({ state }) => spaced({ line: state.scramble }) === line);
    // none if that can't be said: then the lines count
    const copied = own && hasLines ? await this.calls.ask("copiedOf", own.state).catch(() => []) : [];
    if (turn !== this.#turn) return;
    if (sheets.length > 0 && !this.#isEdited(attempts[0], copied)) {
      this.#field.value = this.#shown;
      return this.acts.take(sheets);
    }
    // an empty line more is nothing new
    if (!isPasted && this.#isRead && text.trim() === this.#shown.trim()) return;
    const plain = this.reader.plainLine(text);
    const whole = line === spaced(plain) ? asTyped(plain) : null;
    const others = isPasted ? attempts.slice(1).map((each, at) => newSheet(each, { text, at: at + 1 })) : [];
    this.#take({ text, at: 0, copied }, attempts, { isReplaced, whole, others });
  }

  /** Reads a scramble of a text that was pasted with others, as if only it had been pasted.
   * @returns whether it is there: the page that kept the text may have had another reader */
  open(written: Written) {
    const attempts = this.reader.attempts(written.text);
    const isThere = Object.hasOwn(attempts, written.at);
    if (isThere) this.#take(written, attempts, { isReplaced: true, whole: null, others: [] });
    return isThere;
  }

  /** @param how `whole`: what the field has, if all is its scramble; `others`: what goes onto the desk beside it */
  #take(
    written: Written, attempts: Attempt[],
    { isReplaced, whole, others }: { isReplaced: boolean; whole: string | null; others: NewSheet[] },
  ) {
    const { name, scramble, steps, candidates, before, doubt } = attempts[written.at];
    const line = whole ?? spaced(scramble);
    if (whole === null) this.#field.value = line;
    const fmc = steps.length + candidates.length > 0 ? written : null;
    this.#lastText = written.text;
    this.#shown = this.#field.value;
    const isNew = this.#isOther(spaced(scramble), isReplaced, fmc !== null);
    const left = attempts.length - 1 - others.length;
    this.#leftOut = [
      ...(before > 0 ? [`${counted(before, "line")} before the scramble`] : []),
      ...(attempts.length === 1 && name !== "" ? [`“${name}”`] : []),
      ...(whole === null && left > 0 && written.at === 0 ? [counted(left, "other scramble")] : []),
      ...scramble.leftOut,
      ...(this.#isCut ? [`what is beyond ${grouped(LONGEST_SCRAMBLE)} signs`] : []),
    ];
    // Back leads to the scramble that was deleted and its lines, also once another one is typed
    const isStep = (isNew || this.#isEmptied) && !this.#isDraft;
    this.#isDraft = this.#isEmptied;
    this.acts.change(line, { isNew, isDrawn: false, isDraft: this.#isDraft, fmc, isStep, others });
    // one that has steps is in doubt with these
    if (fmc === null) this.#doubt = doubt;
  }

  /** Whether a scramble is another one than the last: pasted in its place, or typed anew and no beginning of it. */
  #isOther(line: string, isPasted: boolean, hasSteps: boolean) {
    const last = spaced({ line: this.#last });
    if (line === "") {
      this.#isEmptied = last !== "";
      return false;
    }
    const isAgain = this.#isEmptied && !isPasted && !hasSteps && last.startsWith(line);
    const isReplaced = last !== "" && (isPasted || this.#isEmptied) && !isAgain;
    if (isAgain && last !== line) return false;
    this.#isEmptied = false;
    this.#last = line;
    return last !== line && (isReplaced || hasSteps);
  }

  async #draw() {
    const [seed] = crypto.getRandomValues(new BigUint64Array(1));
    const turn = ++this.#turn;
    try {
      const scramble = await this.calls.ask("scrambleOf", { seed });
      if (turn !== this.#turn) return;
      const isStep = !this.#isDraft;
      this.show(scramble);
      this.acts.change(scramble, { isNew: true, isDrawn: true, isDraft: false, fmc: null, isStep, others: [] });
      announce(`Random scramble: ${scramble}`);
    } catch (fault) {
      if (!(fault instanceof Stopped)) tell(part("alert"), unanswered(fault));
    }
  }
}
