// What the module says of each attempt of a text, as values: whether it is solved, where faults and forms stand in the
// text, and what makes one doubt how an attempt is read.
import { NAMES_OF_CHECK, checkFrom, errorIn, type OfTwo } from "../calls/replies.js";
import { characterAt } from "../shared/bytes.js";
import { NissyFault, withoutTraces } from "../shared/faults.js";
import { CHECK_ANSWER } from "../shared/layout.js";
import { HEAD, STATUS } from "../shared/structs.js";
import { AttemptReader, withoutPlaces, type Attempt, type AttemptDoubt } from "./attempts.js";
import { ATTEMPT_CHECK } from "./text-layout.js";
import { formPlacesOf, type FormPlace } from "./tokens.js";
import { WrittenText, type PlainLine, type TextPlace } from "./written.js";
import type { Check } from "../shared/facts.js";
import type { RequestOf } from "../calls/requests.js";
import type { ToldText } from "./text-calls.js";

/** Forms of a solution as `formPlaces` tells them, and where they stand in the text. */
export type FormInText = Pick<FormPlace, "text" | "forms"> & { place: TextPlace };

/** An attempt of a text. `check` is null if it has no solution or a fault: `fault`, whose `part` says which line, and
 * its `place` in the text. `forms` are those of a solution that was checked. `doubt` tells why an attempt may be read
 * otherwise than it was meant, and is null if it has a fault or is in none, as most are that are solved. */
export type AttemptCheck = {
  attempt: Attempt;
  check: Check | null;
  fault: NissyFault | null;
  place: TextPlace | null;
  forms: FormInText[];
  doubt: AttemptDoubt | null;
};

/** What the module tells of a text whose attempts it checked, and the words for each fault by its number. */
export type CheckedText = ToldText & { faults: readonly string[] };

const ATTEMPT_READ = ATTEMPT_CHECK.read;

/** Reads the checks of the attempts of a text, or of known scrambles and of the parts of a text that has only solutions
 * of these, each by where it stands in what is told. */
class CheckReader {
  #written: WrittenText;
  #attempts: AttemptReader;

  constructor(private told: CheckedText, text: string, private scrambles?: readonly string[]) {
    this.#written = new WrittenText(text);
    this.#attempts = new AttemptReader(this.#written, told);
  }

  #attempt(at: number): Attempt {
    const { told: { checks }, scrambles } = this;
    const first = ATTEMPT_READ.firstLine(checks, at);
    const end = ATTEMPT_READ.endLine(checks, at);
    const attempt = this.#attempts.attempt(first, end);
    if (scrambles === undefined) return attempt;
    attempt.name = this.#written.part(ATTEMPT_READ.nameBegin(checks, at), ATTEMPT_READ.nameEnd(checks, at));
    // a great number says of none
    const scramble = scrambles[ATTEMPT_READ.scramble(checks, at)];
    if (scramble !== undefined && !this.#attempts.scrambles.has(first, end)) attempt.scramble = withoutPlaces(scramble);
    return attempt;
  }

  /** @param at where stands what is said of both lines */
  #fault(at: number, { scramble, solution }: Attempt): NissyFault {
    const { checks, faults } = this.told;
    const line = HEAD.read.line(checks, at);
    const status = HEAD.read.status(checks, at);
    if (status !== STATUS.fault) throw errorIn({ status, line } as OfTwo, NAMES_OF_CHECK);
    const column = HEAD.read.column(checks, at);
    const character = characterAt((line === 1 ? scramble : solution)?.line ?? "", column);
    return new NissyFault(faults[HEAD.read.fault(checks, at)], { column, character, line }, NAMES_OF_CHECK[line - 1]);
  }

  #forms(solution: PlainLine): FormInText[] {
    const { places } = this.#written;
    return formPlacesOf(solution.line).map(({ text, forms, character }) =>
      ({ text, forms, place: places.of(solution.places[character - 1]) }));
  }

  check(at: number): AttemptCheck {
    const { checks } = this.told;
    const attempt = this.#attempt(at);
    const made: AttemptCheck = { attempt, place: null, forms: [], doubt: null, check: null, fault: null };
    if (ATTEMPT_READ.doubted(checks, at) === 1) {
      made.doubt = this.#attempts.doubt(ATTEMPT_READ.doubt(checks, at), ATTEMPT_READ.doubtAt(checks, at));
    }
    const answer = at + ATTEMPT_CHECK.at.check;
    if (HEAD.read.status(checks, answer) !== STATUS.done) {
      made.fault = this.#fault(answer, attempt);
      made.place = this.#attempts.place(ATTEMPT_READ.faultAt(checks, at));
    } else if (ATTEMPT_READ.checked(checks, at) === 1) {
      made.check = checkFrom({ status: STATUS.done, answer: checks, at: answer });
      const { solution } = attempt;
      if (solution !== null && CHECK_ANSWER.read.forms(checks, answer) > 0) made.forms = this.#forms(solution);
    }
    return made;
  }
}

/** What is said of each attempt of a text, at least one, or of each known scramble, and then of what may be of any. */
export function attemptChecksIn(told: CheckedText, { text, scrambles }: RequestOf<"checkAttempts">): AttemptCheck[] {
  const { checks } = told;
  const reader = new CheckReader(told, text, scrambles);
  const made: AttemptCheck[] = [];
  return withoutTraces(() => {
    for (let at = 0; at < checks.length; at += ATTEMPT_CHECK.bytes) {
      const scramble = ATTEMPT_READ.scramble(checks, at);
      // a scramble is a part too, before those that the text has
      const isFurther = scrambles !== undefined && made.length >= scrambles.length && scramble < scrambles.length;
      made[isFurther ? scramble : made.length] = reader.check(at);
    }
    return made;
  });
}
