// The script of the page's workers: all that the page asks, each by its name, of the engine that is at hand there.
import { Engine } from "../module/engine/engine.js";
import { Nissy } from "../module/nissy.js";
import { bestIn, type BestReply } from "../module/calls/replies.js";
import { bestRequest } from "../module/calls/requests.js";
import { serveBy, type Port } from "../module/workers/serve.js";
import { AXES } from "../module/shared/facts.js";
import type { Step } from "../module/shared/steps.js";
import { compareLines } from "./answers/compare.js";
import { orientationsOn } from "./answers/orientations.js";
import { casesPassed, positionAfter } from "./answers/position-after.js";
import { readAddressed, readByHand, readOrFault, readWritten } from "./answers/read-lines.js";
import { rowsOfList } from "./answers/list-rows.js";
import { afterRow, copiedOf, examine, framesOf, walkKept } from "./answers/examine.js";
import { lastOf } from "./shared/certain.js";
import { bracketed, namesOf, partOf, reductionsAfter, stateOf, stepNamed } from "./shared/offered-steps.js";
import { rankOf, type BestRow } from "../module/shared/ways.js";
import type { FoundOnAxis, Question, Row } from "./cards/finder.js";

const SCRAMBLE_TURNS = 25;
const STREAM = 1;
const ANY_SCRAMBLE = "R' U' F L2 U2 R2 B2 D R2 U' L2 B2 D' F' L D' U2 B' R' D2 F2 U R' U' F";

const scrambleOf = (nissy: Nissy, { seed }: { seed: bigint }) => nissy.scramble(seed, STREAM, SCRAMBLE_TURNS);

function rowInWords(row: BestRow): Row {
  const { total, eo, dr, case: name } = row;
  const first = eo ?? dr;
  const { step, length, lengths } = dr;
  const next = eo && { step, part: partOf(dr), length, marks: stateOf(stepNamed(step)), case: name, lengths };
  return {
    total, part: partOf(first), state: stateOf(stepNamed(first.step)), twins: first.twins, passed: [], next,
    key: [first.step, first.moves, step].join(" "), rank: rankOf(row),
  };
}

/** The rows of reductions, each with the cases that it passes. @param now the line before them */
function reductionsInWords(nissy: Nissy, now: string, rows: readonly BestRow[]): Row[] {
  const told = rows.map(rowInWords);
  for (const axis of AXES) {
    const own = told.filter((_, at) => stepNamed(rows[at].dr.step).axis === axis);
    const passed = casesPassed(nissy, axis, now, own.map(({ part }) => part));
    own.forEach((row, at) => Object.assign(row, { passed: passed[at] }));
  }
  return told;
}

function bestOfAxis(
  nissy: Nissy, { axis, question, most }: { axis: number; question: Question; most: number },
  tell: (tried: number) => void, engine: Engine,
): FoundOnAxis {
  const { scramble, parts, reached, slack } = question;
  const request = bestRequest(scramble, { soFar: bracketed(parts), slack, most });
  let tried = 0;
  const reply = engine.answer({ ...request, axes: [axis] }, ({ done }) => {
    // each message takes the page's time
    if (done > tried) tell(done);
    tried = done;
  });
  const rows = bestIn(reply as BestReply, request);
  if (reached.length === 0) return { rows: rows.map(rowInWords), tried };
  return { rows: reductionsInWords(nissy, positionAfter(nissy, scramble, parts).lines.normal, rows), tried };
}

/** Builds the tables of a step, and once those beside it are there looks at any scramble before them, since a browser
 * compiles well only what has run: so the first answer is sooner. A question waits for one table at most. */
function build(nissy: Nissy, { step }: { step: Step }) {
  const { needs } = stepNamed(step);
  const beside = needs === null ? [step] : namesOf(reductionsAfter(needs));
  nissy.count(step, "");
  if (step !== lastOf(beside)) return;
  const parts = needs === null ? [] : [partOf(nissy.solve(needs, ANY_SCRAMBLE, { sides: "normal", most: 1 })[0])];
  for (const name of beside) {
    examine(nissy, { text: ANY_SCRAMBLE, parts }, () => {});
    const list = { step: name, side: "normal", slack: 0, isAll: false } as const;
    rowsOfList(nissy, { list, scramble: ANY_SCRAMBLE, parts });
  }
}

/** Finds the best of any scramble, for the same. */
function warmUp(nissy: Nissy, { axis }: { axis: number }, _: unknown, engine: Engine) {
  const question = { scramble: ANY_SCRAMBLE, parts: [], reached: [], slack: 0 };
  bestOfAxis(nissy, { axis, question, most: 12 }, () => {}, engine);
}

const ANSWERS = {
  afterRow, bestOfAxis, build, compareLines, copiedOf, examine, framesOf, orientationsOn, readAddressed, readByHand,
  readWritten, rowsOfList, scrambleOf, walkKept, warmUp,
};

export type Answers = typeof ANSWERS;

type Asked = { id: number; request: { call: keyof Answers; about: unknown } };
/** How each is answered, some after they told how far they are. */
type Answering = (nissy: Nissy, about: unknown, tell: (progress: unknown) => void, engine: Engine) => unknown;

/** A worker, and no window. */
const worker = self as unknown as Port;
// what nobody caught becomes a failure of the worker, of which the page is told
self.addEventListener("unhandledrejection", ({ reason }) => {
  throw reason;
});
serveBy(worker, (module) => Engine.start(module), (engine, { id, request: { call, about } }: Asked) => {
  const tell = (progress: unknown) => worker.postMessage({ id, progress });
  const answering = ANSWERS[call] as Answering;
  worker.postMessage({ id, reply: readOrFault(() => answering(new Nissy(engine), about, tell, engine)) });
});
