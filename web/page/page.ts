// The page's state, and what each change of it makes the parts of the page show.
import { NissyFault, Stopped } from "../module/shared/faults.js";
import { emptyState, hasLines, readAddress, type List, type State } from "./state/address.js";
import { BestContinuations } from "./cards/best.js";
import { Readiness, comesSoon, type Calls } from "./shared/questions.js";
import { lastOf } from "./shared/certain.js";
import { Nets } from "./cards/cube.js";
import { announce, announceLater, part, setBusy, spoken, tell, withData } from "./shared/element.js";
import { NextFocus, type Where } from "./state/next-focus.js";
import { DeskStrip, type Keeping } from "./cards/scrambles-on-desk.js";
import { KeptCandidates } from "./cards/kept.js";
import { LineSoFar } from "./cards/line.js";
import { asCopied, withOthers } from "./state/kept-lines.js";
import { Seen, WayBack, dropAddress, placeIn, placeNow } from "./state/history.js";
import { refreshRows, type StarActs } from "./shared/rows.js";
import { ScrambleField, type ScrambleChange } from "./cards/scramble.js";
import { SolutionList } from "./cards/solutions.js";
import {
  ORIENTATIONS, bracketed, isReduced, isReduction, lastSideOf, sideAfter, sidesOf, stateOf, stepNamed, type Part,
  type Step,
} from "./shared/offered-steps.js";
import { StepTable, cubeWithOffers, type Cube } from "./cards/step-table.js";
import {
  areBeside, awaitAnswer, isAtTop, isBare, keepInView, listenToKeys, setUsable, showBeginning, showStart, star,
  withoutMoving,
} from "./shared/view.js";
import { tellFailed } from "./shared/watch.js";
import { titleOfPage, unanswered, whyNotListed, whyUnread } from "./shared/words.js";
import type { Examined, Offer } from "./answers/examine.js";
import type { Reader } from "./shared/reader.js";
import type { Row } from "./cards/finder.js";

type ChangeOptions = Partial<Keeping> & { focusNext?: Where };
/** The cube that is shown, with its scramble by its face turns, and as it is copied. */
type CubeOfLine = Cube & { scramble: string; written: string; parts: Part[] };

export class Page {
  #state: State = emptyState();
  #turn = 0;
  #cube: CubeOfLine | null = null;
  #isReading = false;
  /** whether only the line was changed last */ #isOfLine = false;
  #nextFocus = new NextFocus();
  #wayBack = new WayBack();
  #calls: Calls;
  #keptCalls: Calls;
  /** what is asked for by hand is never given up for another cube */ #byHand: Calls;
  #readiness: Readiness;
  #seen = new Seen();
  #desk: DeskStrip;
  #nets = new Nets();
  #scramble: ScrambleField;
  #line: LineSoFar;
  #table: StepTable;
  #list: SolutionList;
  #best: BestContinuations;
  #kept: KeptCandidates;

  constructor(newCalls: () => Calls, reader: Reader) {
    [this.#calls, this.#keptCalls, this.#byHand] = [newCalls(), newCalls(), newCalls()];
    this.#scramble = new ScrambleField(this.#byHand, reader, {
      change: (...typed) => this.#setScramble(...typed), take: (sheets) => this.#desk.take(sheets),
    });
    this.#desk = new DeskStrip(() => this.#scramble.focus());
    this.#line = new LineSoFar(this.#byHand, reader, {
      change: (change) => this.#changeLine(change), star: () => this.#starLine(),
    });
    this.#table = new StepTable((step, side) => this.#open(step, side));
    const stars: StarActs = {
      star: (button, added, next) => this.#kept.star(this.#state, button, [...this.#state.parts, ...added], next),
      isStarred: (added, next) => this.#kept.has([...this.#state.parts, ...added], next),
      isSeen: (added, next) => this.#seen.has(this.#state.scramble, [...this.#state.parts, ...added], next),
    };
    this.#kept = new KeptCandidates(this.#keptCalls, {
      goOn: (parts, list) => this.#change({
        parts, list, side: sideAfter(list?.side ?? sidesOf(lastOf(parts))),
      }, { focusNext: list ? "list" : "table" }),
      change: (kept) => this.#change({ kept }),
    });
    const list = newCalls();
    this.#list = new SolutionList(list, {
      ...stars, take: (taken, key) => this.#take(taken, key), change: (change) => this.#changeList(change),
      opened: (open) => this.#table.mark(open),
    });
    const finders = ORIENTATIONS.map(newCalls);
    this.#readiness = new Readiness({ calls: this.#calls, byHand: this.#byHand, list, finders });
    this.#best = new BestContinuations(finders, this.#keptCalls, {
      ...stars, goOn: (row) => this.#goOn(row), shown: () => this.#goBack(),
      lengthen: (longer) => this.#change({ longer }),
    });
    keepInView(part("side-column"));
    // what gives way to an answer is pressed no more, also before it is dimmed
    const choices = part("choices");
    choices.addEventListener("click", (event) => this.#cube || choices.inert || event.stopPropagation(), true);
    part("skip").addEventListener("click", () => this.#table.focus());
    part("again").addEventListener("click", () => this.#tryAgain());
    this.#listenToKeys();
  }

  #listenToKeys() {
    // what is dimmed is no more used by keys than by the mouse
    const onLine = (act: () => unknown) => () => part("line").inert || act();
    listenToKeys({
      ...Object.fromEntries([1, 2, 3, 4, 5, 6].map((number) => [String(number), () => this.#table.press(number - 1)])),
      n: onLine(() => this.#line.turn("normal")), i: onLine(() => this.#line.turn("inverse")),
      u: onLine(() => this.#line.undoStep()), s: onLine(() => star(() => this.#starLine())),
      "/": () => (this.#state.list && !part("results").inert ? part("filter").focus() : this.#scramble.focus()),
      Escape: () => this.#state.list && this.#changeList(null),
    });
  }

  /** @param state of the history, to which the browser's Back or Forward leads */
  returnTo(state: unknown) {
    // what it undoes isn't said any longer
    if (state !== null && part("said").matches(":popover-open")) part("said").hidePopover();
    this.#wayBack.set(placeIn(state));
  }

  async begin(hash: string) {
    const turn = ++this.#turn;
    const { state: read, fault } = readAddress(hash);
    const { state, place, written } = this.#desk.arrive(read);
    [this.#isReading, this.#isOfLine] = [true, false];
    this.#nextFocus.set(document.activeElement?.matches("#again") ? "table" : undefined);
    dropAddress();
    if (written && this.#scramble.open(written)) return;
    if (place) this.#wayBack.set(place);
    setBusy("results", true);
    tell(part("alert"), fault);
    tellFailed("");
    showBeginning(state);
    awaitAnswer(state);
    try {
      if (hasLines(state)) Object.assign(state, await this.#calls.ask("readAddressed", state));
    } catch (stop) {
      if (turn !== this.#turn) return;
      if (!(stop instanceof NissyFault)) return this.#showUnread(state, stop);
      tell(part("alert"), `The steps of this address can't be read: ${stop.text}.`);
      Object.assign(state, { parts: [], list: null });
    }
    if (turn !== this.#turn) return;
    this.#state = state;
    this.#scramble.show(state.scramble);
    this.#desk.settle(read, state);
    await this.#refresh();
    if (this.#cube === null && this.#turn === turn + 1 && !hasLines(state)) setUsable(false);
  }

  /** Shows what an address says as it stands there, if no engine reads it. */
  #showUnread({ scramble, parts }: State, fault: unknown) {
    this.#scramble.show(scramble);
    this.#line.show(parts);
    awaitAnswer(null);
    setUsable(false);
    this.#refuse(fault);
  }

  /** Takes another state, or parts of it. While an address is still read, what is done on the page that is seen
   * overtakes it. A list doesn't outlast a change of the steps, since it belongs to the cube before it. */
  #change(change: Partial<State>, { focusNext, isStep = "parts" in change, ...ofScramble }: ChangeOptions = {}) {
    this.#nextFocus.set(focusNext);
    this.#wayBack.set(null);
    const place = "parts" in change ? placeNow() : null;
    this.#state = { ...this.#state, ...("parts" in change ? { list: null } : {}), ...change };
    const isOther = "scramble" in change || "parts" in change || this.#isReading;
    if (isOther) tell(part("alert"), "");
    this.#isOfLine = !("scramble" in change);
    // the engine is asked first, and answers meanwhile
    if (isOther) this.#refresh(focusNext !== undefined);
    else this.#showList();
    this.#desk.keep(this.#state, { isStep, place, ...ofScramble });
    if (isOther) return;
    this.#line.turnTo(this.#state.side);
    if ("kept" in change) this.#showKept();
    else this.#line.markKept(this.#kept.has(this.#state.parts, this.#next()));
  }

  /** The reduction that is gone on to, since its list is open, or "". */
  #next = () => (this.#state.list && isReduction(this.#state.list.step) ? this.#state.list.step : "");

  async #setScramble(scramble: string, { isNew, fmc, others, ...how }: ScrambleChange) {
    this.#change(isNew ? this.#desk.begin(scramble) : { scramble, longer: 0 }, how);
    this.#desk.add(others);
    if (!fmc) return;
    const turn = this.#turn;
    try {
      const read = await this.#byHand.ask("readWritten", fmc);
      if (turn !== this.#turn) return;
      const joined = withOthers(this.#state.kept, asCopied(read.kept, fmc.copied ?? [], this.#state.kept));
      const line = read.parts.length > 0 ? { parts: read.parts, side: lastSideOf(lastOf(read.parts)) } : {};
      this.#change({ ...line, kept: joined.kept }, { isStep: !isNew });
      tell(part("alert"), whyUnread(read.unread) || joined.why);
      this.#line.take(read, fmc.text);
      if (read.doubted < 0) this.#scramble.tellDoubt(read.doubt);
    } catch (fault) {
      if (turn === this.#turn && !(fault instanceof Stopped)) tell(part("alert"), unanswered(fault));
    }
  }

  /** Shows all of the state anew. A later call overtakes an earlier one. @param isTaken whether a row leads to it */
  async #refresh(isTaken = false) {
    const turn = ++this.#turn;
    const { scramble, parts } = this.#state;
    // looked at before anything changes, but for a page that begins: for each look the page is laid out by itself
    const wasAtTop = this.#cube && isAtTop();
    this.#isReading = false;
    this.#cube = null;
    this.#readiness.begin(null);
    this.#calls.drop();
    const asked = cubeWithOffers(this.#calls, { text: scramble, parts });
    // what is wrong is said where it is waited for
    asked.catch(() => {});
    document.title = titleOfPage(this.#state);
    this.#nets.stop();
    this.#scramble.tellDoubt(null);
    this.#line.hold(parts);
    this.#best.leave();
    announceLater("");
    tellFailed("");
    setBusy("results", true);
    // what gives way to what comes soon isn't laid out without that
    if (isTaken && areBeside()) await comesSoon(asked);
    if (turn !== this.#turn) return;
    this.#line.show(parts);
    this.#line.turnTo(this.#state.side);
    this.#kept.show(this.#state.kept);
    this.#table.hold();
    if (!this.#state.list) this.#list.show("", null, null);
    this.#best.reset(null);
    try {
      await this.#answer(turn, asked, wasAtTop);
    } catch (fault) {
      if (turn === this.#turn) this.#refuse(fault);
    }
    if (turn !== this.#turn) return;
    awaitAnswer(null);
    setBusy("results", false);
  }

  /** Shows the engine's answers as they come. @param asked the first of them */
  async #answer(turn: number, asked: ReturnType<typeof cubeWithOffers>, wasAtTop: boolean | null) {
    const { cube, offers, isWhole } = await asked;
    if (turn !== this.#turn) return;
    const stays = wasAtTop ?? isAtTop();
    const fault = "unread" in cube ? new NissyFault(cube.unread.text, cube.unread) : null;
    this.#scramble.judge(fault, "read" in cube ? cube.read : null);
    showBeginning(this.#state);
    if ("unread" in cube) return setUsable(false);
    const shown = this.#showCube(cube, stays);
    // what is there is shown at one stroke
    const steps = Array.isArray(offers) ? offers : await offers;
    if (turn !== this.#turn) return;
    this.#showOffers(shown, steps);
    this.#readiness.begin({ reached: shown.reached, isBare: part("choices").hidden });
    await this.#showAnswered(turn, shown, isWhole && stays);
  }

  #showCube({ read: { line: scramble, written }, walk, views, whole }: Examined, stays: boolean): CubeOfLine {
    const { parts } = this.#state;
    const reached = lastOf(walk.reached);
    const cube = { scramble, written, parts, reached, facts: views.normal.facts, made: lastOf(walk.totals) };
    this.#cube = cube;
    this.#nets.show(views, walk, () => this.#byHand.ask("framesOf", { scramble, parts }));
    this.#line.describe(walk, whole, written);
    setUsable(true);
    // no solved cube is left, dimmed, beside the first scramble that can't be read
    for (const name of ["cube", "choices"]) part(name).hidden = isBare(this.#state);
    const begin = () => {
      this.#best.expect(reached, isBare(this.#state));
      this.#table.begin(cube);
    };
    // in one column a line that is worked on stays, also if the page becomes too low for the browser to keep it there
    const isSeen = () => this.#isOfLine && !areBeside() && part("line").getBoundingClientRect().top < innerHeight;
    if (stays) begin();
    else withoutMoving(part(isSeen() ? "line" : "scramble-card"), begin);
    this.#checkList(reached);
    this.#showKept();
    return cube;
  }

  /** Closes a list whose step may not start, and says why. */
  #checkList(reached: Step[]) {
    const { list } = this.#state;
    const why = list ? whyNotListed(list.step, reached) : "";
    if (why === "") return;
    tell(part("alert"), why);
    this.#state = { ...this.#state, list: null };
    this.#desk.keep(this.#state, { isStep: false });
  }

  #showOffers(cube: CubeOfLine, offers: Offer[]) {
    const { scramble, parts, reached } = cube;
    const { list, longer } = this.#state;
    this.#table.show(offers, cube, list);
    // nothing is pressed before the page went on to a list that is to come, or back to a row
    part("choices").inert = list !== null && (this.#nextFocus.waitsFor("list") || this.#wayBack.isOn());
    awaitAnswer(null);
    this.#best.reset(part("choices").hidden ? null : { scramble, parts, reached, longer });
  }

  async #showAnswered(turn: number, { reached }: CubeOfLine, stays: boolean) {
    // a list that is looked for takes the focus itself, and says what it has
    const isOfList = this.#nextFocus.waitsFor("list");
    const shown = this.#showList();
    if (part("choices").inert) await this.#nextFocus.isSoon(shown);
    if (turn !== this.#turn) return;
    part("choices").inert = false;
    if (isOfList) return;
    const isFinished = isReduced(reached) && this.#state.parts.length > 0;
    if (this.#nextFocus.take("table")) showStart(isFinished, this.#table, stays);
    else if (!isBare(this.#state)) announceLater(this.#line.said(this.#table.summary()));
    this.#table.giveBack();
    this.#goBack();
  }

  #goBack = () => this.#wayBack.go((key) => this.#best.reveal(key) ?? this.#list.reveal(key) ?? this.#table.cell(key)
    ?? withData(part("line-list"), "key", key));

  async #showList() {
    const { list } = this.#state;
    if (list && !this.#cube) return;
    if (!list) this.#nets.follow("");
    const name = list ? [this.#turn, list.step, list.side, list.slack, list.isAll].join(" ") : "";
    const isShown = await this.#list.show(name, list, this.#cube);
    if (!list || !isShown || !name.startsWith(`${this.#turn} `)) return;
    part("choices").inert = false;
    if (this.#nextFocus.take("list")) this.#list.focus();
    // the rows come first, since marks lay a style on each sticker
    this.#nets.follow(stateOf(stepNamed(list.step)));
    this.#goBack();
  }

  #showKept() {
    const { kept, parts } = this.#state;
    this.#kept.show(kept);
    refreshRows(part("choices"));
    this.#line.markKept(this.#kept.has(parts, this.#next()));
    if (kept.length > 0 && this.#cube) this.#kept.describe(this.#cube.scramble, this.#cube.written);
  }

  /** Keeps the line so far, with the reduction that is gone on to, or takes it away. */
  #starLine = () => this.#state.parts.length > 0
    && this.#kept.star(this.#state, part("keep-line"), this.#state.parts, this.#next());

  /** @param side of the list, which is opened, or closed if it is open */
  #open(step: Step, side: List["side"]) {
    const { list } = this.#state;
    if (list?.step === step && list.side === side) return this.#changeList(null);
    this.#change({ list: { step, side, slack: list?.slack ?? 0, isAll: list?.isAll ?? false } }, { focusNext: "list" });
  }

  /** @param change of what the open list shows; null closes it */
  #changeList(change: Partial<List> | null) {
    const { list } = this.#state;
    if (!list) return;
    const isWithin = part("solutions").contains(document.activeElement);
    this.#change({ list: change === null ? null : { ...list, ...change } });
    if (change === null && isWithin) (this.#table.cell(`${list.step}.${list.side}`) ?? part("steps-heading")).focus();
  }

  /** Changes the line, and says whether a step is undone that was taken from a row, which then comes back into view. */
  #changeLine(change: Partial<State>) {
    const from = this.#seen.rowBefore(this.#state, change.parts);
    this.#change({ ...change, ...(from && { list: from.list }) });
    this.#wayBack.set(from && { key: from.key, scroll: null });
    return from !== null;
  }

  #take(taken: Part[], key: string) {
    this.#seen.add(this.#state, taken, key);
    this.#change({ parts: [...this.#state.parts, ...taken], side: lastSideOf(lastOf(taken)) }, { focusNext: "table" });
    announce(`${spoken(bracketed(taken))} is taken.`);
  }

  /** @param row of the best, which is taken; the list of its reduction opens */
  #goOn({ part: taken, next, key }: Row) {
    if (!next) return this.#take([taken], key);
    this.#seen.add(this.#state, [taken], key, next.step);
    const list = { step: next.step, side: sidesOf(next.part), slack: 0, isAll: false };
    this.#change({ parts: [...this.#state.parts, taken], side: lastSideOf(next.part), list }, { focusNext: "list" });
  }

  #refuse(fault: unknown) {
    if (fault instanceof Stopped) return;
    setBusy("results", false);
    part("results").inert = true;
    if (fault instanceof NissyFault) tell(part("alert"), unanswered(fault));
    else tellFailed(unanswered(fault));
  }

  #tryAgain() {
    for (const calls of [this.#calls, this.#keptCalls, this.#byHand, this.#list, this.#best]) calls.end();
    // what the address says may not have been read yet
    if (this.#isReading) return void this.begin(location.hash);
    this.#nextFocus.set(this.#state.list ? "list" : "table");
    this.#refresh();
  }
}
