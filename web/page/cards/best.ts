// The card of the best ways on, which are looked for unasked: with progress, a stop, filters, rows that go on.
import { Stopped } from "../../module/shared/faults.js";
import { bestRow, type RowActs } from "./best-row.js";
import { thrownError, present } from "../shared/certain.js";
import { ShownCounts } from "./counts.js";
import { announce, announceLater, counted, grouped, part, setBusy, tell } from "../shared/element.js";
import { Filters, casesOfBest, filtersOfBest, offerCases, offerMoves } from "./filters.js";
import { KnownSearches, findAll, joiningRows, type Further, type Progress, type Question, type Row } from "./finder.js";
import { FURTHEST, FurtherSearch } from "./further-search.js";
import { GREATEST_SLACK } from "../state/limits.js";
import { addRows, roveWithin, showRows, takeNamed } from "../shared/rows.js";
import { isReduced, type Part, type Step } from "../shared/offered-steps.js";
import { isNarrow, withoutMoving } from "../shared/view.js";
import type { Calls } from "../shared/questions.js";

const LOOKING_FOR_BEST = "Looking for the best …";
/** How many rows are shown at first, so that the table below is seen; of reductions more, since it has no rows then. */
const SHOWN_FIRST = { narrow: 5, wide: 6, ofReductions: 8 };
const SHOWN_MORE = 40;

function shownFirst(reached: Step[]) {
  if (isNarrow()) return SHOWN_FIRST.narrow;
  return reached.length > 0 ? SHOWN_FIRST.ofReductions : SHOWN_FIRST.wide;
}

/** `longer`: by how many moves orientations may be longer, as it was chosen for the scramble. */
type CubeOfBest = { scramble: string; parts: Part[]; reached: Step[]; longer: number };

type BestActs = RowActs & { shown: () => void; lengthen: (longer: number) => void };

export class BestContinuations {
  #kinds = filtersOfBest();
  #filters = new Filters("best", part("best-note"), this.#kinds, () => this.#filtered());
  #question: Question | null = null;
  /** What the rows are shown of. */
  #progress: Further | null = null;
  /** Longer ones that were looked at since, if there are some: their rows wait until they are asked for. */
  #newer: Further | null = null;
  #longerReductions = "0";
  #isAsked = false;
  /** Asks again for what was asked for and stopped. */
  #again: (() => void) | null = null;
  #isOfReductions = false;
  #further: FurtherSearch;
  #found = new KnownSearches();
  #counts: ShownCounts;
  #shown = 0;
  #body = part("best-body");
  #room = part("best-rows");
  #seen: Row[] = [];

  /** @param calls that tell more of rows that are seen */
  constructor(private readonly finders: Calls[], calls: Calls, private readonly acts: BestActs) {
    this.#counts = new ShownCounts(calls, this.#body);
    this.#further = new FurtherSearch(finders, {
      turned: () => {
        this.#working(this.#isAsked);
        if (!this.#isAsked) this.#tellRows();
      },
      looked: (done, all) => this.#tellAxes(done, all),
      found: (progress) => this.#foundFurther(progress),
      ended: (fault) => this.#endedFurther(fault),
    });
    roveWithin(this.#body);
    offerMoves("best-slack", GREATEST_SLACK);
    part("best-stop").addEventListener("click", () => this.#stopOrGoOn());
    part("best-new").addEventListener("click", () => this.#showNewer());
    part("best-slack").addEventListener("change", () => this.#lengthened());
    part("best-options").addEventListener("toggle", () => this.#opened());
    part("best-more").addEventListener("click", () => this.#more());
  }

  /** Takes another cube, or none, and looks for the best of it. */
  reset(cube: CubeOfBest | null) {
    this.leave();
    this.#further.measure.begin();
    this.#question = cube && { ...cube, slack: 0 };
    this.#seen = [];
    this.#room.style.minHeight = "";
    this.#counts.clear();
    this.#shown = shownFirst(cube?.reached ?? []);
    // until another cube is known nothing shows or hides the card, or what is read below it would move
    if (cube !== null) this.expect(cube.reached, false);
    if (cube !== null && !isReduced(cube.reached)) return this.#begin(cube);
    this.#body.replaceChildren();
    part("best-note").textContent = "";
    tell(part("best-new"), "");
    part("best-more").hidden = true;
    this.#working(false);
  }

  #begin({ reached, longer, ...cube }: CubeOfBest) {
    const isOfReductions = reached.length > 0;
    part("best-filters").hidden = isOfReductions;
    // the cases of reductions belong to one cube
    if (isOfReductions || this.#isOfReductions) part("best-cases").value = "";
    this.#isOfReductions = isOfReductions;
    this.#filters.kinds = isOfReductions ? this.#kinds.slice(0, 1) : this.#kinds;
    part("best-slack").value = isOfReductions ? this.#longerReductions : String(longer);
    this.#ask(isOfReductions ? null : this.#found.shorter({ ...cube, reached, slack: FURTHEST + 1 }));
  }

  /** Shows the card, or hides it, before there are rows: so nothing moves when they come. */
  expect(reached: Step[], isBare: boolean) {
    part("best").hidden = isBare || isReduced(reached);
    this.#room.classList.toggle("of-reductions", reached.length > 0);
  }

  end() {
    for (const finder of this.finders) finder.end();
  }

  /** Offers the cases of all rows once that is seen, which has them found. */
  #opened() {
    if (!part("best-options").open || this.#question === null) return;
    this.#complete();
    this.#draw();
  }

  /** Shows what the filters leave, as many as before, and says whether there are rows. If the head is seen nothing that
   * is seen moves: the rows keep their room, as far as the window goes. Else they come to the filters. */
  #filtered() {
    const { top, height } = this.#room.getBoundingClientRect();
    const isSeen = part("best-head").getBoundingClientRect().top >= 0;
    this.#room.style.minHeight = isSeen ? `${Math.min(height, Math.max(0, innerHeight - top))}px` : "";
    withoutMoving(part(isSeen ? "best-head" : "best-options"), () => this.#draw());
    this.#complete();
    return this.#progress !== null;
  }

  /** Makes the row seen that has this name. @returns its button, or null */
  reveal(key: string) {
    const at = this.#rows(this.#progress).findIndex((row) => row.key === key);
    // it may be among those that are still to be found
    if (at < 0 && / dr/.test(key)) this.#shown = Math.max(this.#shown, (this.#progress?.rows.length ?? 0) + 1);
    if (at < 0) return null;
    this.#shown = Math.max(this.#shown, at + 1);
    this.#draw();
    return takeNamed(this.#body, key);
  }

  /** Gives up what is looked for, since another cube is to come. */
  leave() {
    this.#stop();
    [this.#question, this.#progress, this.#newer] = [null, null, null];
  }

  #stop() {
    this.#again = null;
    this.#further.stop();
    for (const finder of this.finders) finder.stop();
  }

  #stopOrGoOn() {
    // a search that was asked for says so itself
    if (this.#isAsked) return this.#stop();
    if (this.#again !== null) return this.#again();
    if (this.#further.state === "held") return this.#further.release();
    this.#further.hold();
    this.#brokenOff(new Stopped());
    this.#working(false);
  }

  /** Asks for what is chosen, which stays chosen: of orientations for this scramble. */
  #lengthened() {
    if (this.#question === null) return;
    const { value } = part("best-slack");
    if (this.#question.reached.length > 0) this.#longerReductions = value;
    else this.acts.lengthen(Number(value));
    this.#ask();
  }

  #ask(newer: Further | null = null) {
    if (this.#question === null) return;
    this.#stop();
    this.#newer = newer;
    tell(part("best-new"), "");
    const question = { ...this.#question, slack: Number(part("best-slack").value) };
    this.#question = question;
    const known = this.#found.of(question);
    if (!known) return void this.#find(question, this.#found.shorter(question));
    this.#show(known);
  }

  /** Has all rows found, if the first ones are too few for what is shown, or counted. */
  #complete() {
    if (this.#isAsked || !this.#progress || this.#progress.isWhole) return;
    // the cases of all are counted
    const isEnough = this.#progress.rows.length >= this.#shown && this.#filters.count === 0;
    if (isEnough && !part("best-options").open) return;
    this.#find(present(this.#question), this.#progress, true);
  }

  #foundFurther(progress: Further) {
    this.#found.keep({ ...present(this.#question), slack: progress.slack }, progress);
    this.#newer = progress;
    this.#tellRows();
    if (this.#joining()[0]?.total < this.#seen[0]?.total) announceLater(part("best-new").textContent);
  }

  #endedFurther(fault: Error | null) {
    if (fault) {
      this.#stop();
      this.#brokenOff(fault);
    }
    this.#working(false);
  }

  #waiting() {
    return this.#newer !== null && this.#newer.slack > (this.#progress?.slack ?? 0) ? this.#newer : null;
  }

  /** The rows that wait and belong among those that are seen. */
  #joining() {
    return joiningRows(this.#seen, this.#rows(this.#waiting()), this.#shown);
  }

  /** Shows the rows that wait in their places, and goes to the first of them. */
  #showNewer() {
    const [first] = this.#joining();
    part("best-slack").value = String(present(this.#waiting()).slack);
    this.#lengthened();
    (takeNamed(this.#body, first.key) ?? part("best-heading")).focus({ preventScroll: true });
  }

  /** Finds what is asked for. The shortest are shown first, and stay until all are found. @param known what was found
   * before: of fewer moves more, or its first rows. @param isWhole whether all rows of that are asked for */
  async #find(question: Question, known: Further | null, isWhole = false) {
    const { slack: wanted } = isWhole && known ? known : question;
    const isStill = () => question === this.#question;
    const tell = (progress: Progress) => isStill() && this.#looked(progress);
    this.#stop();
    this.#progress = known;
    if (!known) this.#showRows([]);
    else this.#draw();
    this.#working(true);
    part("best-note").textContent = LOOKING_FOR_BEST;
    try {
      for (const slack of known || wanted === 0 ? [wanted] : [0, wanted]) {
        const found: Further = { ...await findAll(this.finders, { ...question, slack, isWhole }, tell), slack };
        if (!isStill()) return;
        this.#found.keep({ ...question, slack }, found);
        this.#progress = found;
        if (slack !== wanted) this.#draw();
      }
      this.#show(present<Further>(this.#progress));
    } catch (fault) {
      if (!isStill()) return;
      this.#stop();
      if (fault instanceof Stopped) this.#again = () => this.#find(question, this.#progress, isWhole);
      this.#working(false);
      this.#draw();
      this.#brokenOff(fault);
    }
  }

  /** Says how far a search is. Its rows come together, since a later one may belong before others, which would move. */
  #looked({ tried, done, all }: Progress) {
    this.#tellAxes(done, all);
    if (tried > 0) part("best-note").textContent = `${LOOKING_FOR_BEST} ${counted(tried, "way")} tried.`;
  }

  #tellAxes(done: number, all: number) {
    Object.assign(part("best-progress"), { max: all, value: done });
  }

  #brokenOff(fault: unknown) {
    const note = this.#progress ? part("best-note").textContent : "";
    const text = fault instanceof Stopped ? `Stopped. ${note}`.trim() : thrownError(fault).message;
    part("best-note").textContent = text;
    announce(text);
  }

  #working(isAsked: boolean) {
    this.#isAsked = isAsked;
    const [stop, { state }] = [part("best-stop"), this.#further];
    const isOn = isAsked || state === "on";
    const isHeld = !isAsked && (this.#again !== null || state === "held");
    stop.textContent = isHeld || (!isAsked && state === "counting") ? "Go on" : "Stop";
    // what can't be pressed can't keep the focus
    if (!isOn && !isHeld && document.activeElement === stop) part("best-heading").focus({ preventScroll: true });
    // it stays where it is, and so does all below it
    stop.disabled = !isOn && !isHeld;
    part("best-progress").hidden = !isOn;
    setBusy("best", isAsked, "");
    // of rows that a stop left too
    if (!isAsked && this.#progress) this.#counts.tell(present(this.#question), this.#seen);
  }

  /** Shows what was found, and goes on from it, by itself as far as it may. */
  #show(progress: Further) {
    this.#progress = progress;
    this.#draw();
    this.#working(false);
    this.acts.shown();
    this.#complete();
    if (!this.#isAsked) this.#further.begin({ ...present(this.#question), slack: (this.#waiting() ?? progress).slack });
  }

  #rows(progress: Further | null) {
    return this.#filters.left(progress?.rows ?? []) ?? [];
  }

  #draw() {
    const rows = this.#rows(this.#progress);
    const { isWhole = false, rows: all = [], count = 0, tried = 0 } = this.#progress ?? {};
    this.#filters.show();
    if (part("best-options").open) offerCases("best-cases", all.map(casesOfBest));
    const ofWhat = this.#isOfReductions ? "Trigger from" : "Case before DR";
    const some = isWhole && count < tried ? `, of the best ${grouped(count)}` : "";
    part("best-cases-name").textContent = ofWhat + some;
    const shown = rows.slice(0, this.#shown);
    this.#showRows(shown);
    if (this.#progress === null) return;
    if (!this.#isAsked) this.#counts.tell(present(this.#question), shown);
    this.#tellRows();
  }

  #tellRows() {
    if (this.#progress === null) return;
    // with those that are still to be found
    const left = this.#filters.count > 0 ? this.#rows(this.#progress).length : this.#progress.count;
    part("best-more").hidden = this.#shown >= left;
    const rows = this.#joining();
    const from = isNarrow() ? "" : `, from ${rows[0]?.total} moves`;
    tell(part("best-new"), rows.length === 0 ? "" : counted(rows.length, "more row") + from);
    part("best-note").textContent = this.#note(this.#progress, left, rows.length > 0);
  }

  /** What is said of rows that are shown, of which the filters leave some, and of longer ones, which may be offered. */
  #note({ count, tried }: Further, left: number, isOffered: boolean) {
    const some = count < tried ? `the best ${grouped(count)} of ` : "";
    const all = some + counted(tried, "row");
    const words = left === count ? all : `${grouped(left)} of ${all}`;
    const waiting = this.#waiting();
    const longer = waiting ? `Up to ${waiting.slack} longer: ${counted(waiting.tried, "row")}` : "";
    const found = longer && `${longer}${isOffered ? "" : ", none better"}.`;
    const said = this.#further.state === "held" ? this.#further.words() : found;
    return `${words[0].toUpperCase()}${words.slice(1)}. ${said}`.trim();
  }

  #more() {
    const from = this.#body.children.length;
    this.#shown += SHOWN_MORE;
    this.#draw();
    this.#body.querySelectorAll(".take")[from]?.focus();
    this.#complete();
  }

  /** Shows rows below those that are seen; if one of them would move among others all are made anew. */
  #showRows(rows: Row[]) {
    const stay = this.#seen.every((row, at) => row.key === rows[at]?.key) ? this.#seen.length : 0;
    this.#seen = rows;
    showRows(this.#body, () => {
      if (stay === 0) this.#body.replaceChildren();
      addRows(this.#body, rows.slice(stay).map((row) => bestRow(row, this.acts)));
    }, part("best-heading"));
  }
}
