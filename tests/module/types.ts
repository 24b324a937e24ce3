// A caller in TypeScript, who is told of what is wrong: tests/module.sh has tsc read this beside the types of the module.
import {
  AXES, loadNissy, NET, Nissy, NissyFault, NissyPool, NissyWorker, placeOf, SearchCut, startOf, STEPS, stickersOf, VERSION,
  type Attempt, type AttemptCandidate, type AttemptCheck, type AttemptDoubt, type Axis, type Best, type BestRow, type BestStep,
  type Check, type Count, type EdgePlace, type Facts, type Form, type FormInText, type FormPlace, type PlainLine, type SideSolutions, type Solution,
  type Solutions, type Step, type Text, type TextPlace, type Token,
} from "./node.js";
import { NissyPool as NissyPoolOfBrowsers, NissyWorker as NissyWorkerOfBrowsers } from "./browser.js";
import type { LineFault, LineReply, Seen, StartFault } from "./calls/replies.js";

export async function calls(bytes: Uint8Array, compiled: WebAssembly.Module, request: Promise<Response>): Promise<string> {
  const nissy: Nissy = await Nissy.load(request);
  await Nissy.load(bytes);
  await Nissy.load(compiled);
  await loadNissy();
  const inverse: string = nissy.invert("R U' F2") + nissy.unniss(bytes) + nissy.cleanup("R") + nissy.facelets("");
  const solutions: Solution[] = nissy.solve("eofb", "R U F", { limit: 9, slack: 1, most: 10 });
  const moves: string[] = solutions.map((solution) => solution.moves);
  const count: Count = nissy.count("eofb", "R U F", { limit: 9 });
  const length: number | null = count.length;
  const fixed: readonly string[] = ["R", "U"];
  const many: number[] = [...nissy.countAll("eofb", ["R", bytes], { faults: "throw" }), ...nissy.countAll("eofb", fixed, { faults: "throw" })].map(({ nodes }) => nodes);
  const scrambles: string[] = [nissy.scramble(1n, 2, 25), ...nissy.scrambles(1, 2n, 25, 3)];
  const status: number = nissy.run(["steps"] as const, VERSION, 1_000).status;
  return [inverse, moves, length, many, scrambles, status, STEPS].flat().join(" ");
}

export async function callsInWorker(bytes: Uint8Array, signal: AbortSignal): Promise<number[]> {
  const workers = [await NissyWorker.start(bytes), await NissyWorkerOfBrowsers.start(bytes)];
  const [worker] = workers;
  const solutions: Solution[] = await worker.solve("eofb", "R U F", { slack: 1, signal });
  const all: Solution[][] = await worker.solveAll("eofb", ["R U F"] as const, { most: 1, faults: "throw", signal });
  const drawn: string[] = await worker.scrambles(1n, 2, 25, all.length, { signal });
  worker.stop();
  worker.drop();
  worker.end();
  return [...drawn, ...solutions, ...all.flat()].map(({ length }) => length);
}

export async function read(nissy: Nissy, worker: NissyWorker, text: string, places: readonly EdgePlace[]): Promise<number> {
  const { line, places: at, leftOut }: PlainLine = nissy.plainLine(text);
  const written: Attempt[] = [...nissy.readAttempts(text), ...(await worker.readAttempts((await worker.plainLine(text)).line))];
  const solution: PlainLine | null = written[0].solution;
  const place: TextPlace | null = placeOf({ character: 1 }, solution ?? written[0].scramble, text);
  const numbers: number[] = [...stickersOf([...places, "URF"]), ...stickersOf(places, text)];
  const tried: AttemptCandidate[] = written[0].candidates;
  const doubt: AttemptDoubt | null = written[0].doubt;
  const lines: Text[] = [line, Uint8Array.of(0x52), doubt?.reason ?? "", ...tried.map(({ note }) => note)];
  return lines.length + at.length + leftOut.length + written[0].candidates.length + written[0].before + (place?.column ?? 0) + numbers.length;
}

export function drawn(nissy: Nissy): string {
  const [first, ...others]: readonly Axis[] = AXES;
  const bad: number[] = AXES.map((axis) => nissy.facts("R").badEdges[axis].length);
  const places: readonly { readonly row: number; readonly column: number }[] = NET;
  return [first, others, bad, places.map(({ row, column }) => 12 * row + column)].join(" ");
}

export function judged(nissy: Nissy): string {
  const { solved, moves, badEdges, case: cases, holds }: Facts = nissy.facts("R");
  const places: readonly EdgePlace[] = badEdges.fb;
  const steps: Step[] = [...holds, ...STEPS];
  const { cleanMoves, forms }: Check = nissy.check("R", "R'");
  const names: readonly Form[] = forms;
  const where: FormPlace[] = nissy.formPlaces("M");
  const inText: TextPlace | null = placeOf(where[0], nissy.plainLine("M"), "M");
  const [start, further]: (Step | null)[] = [startOf("dr-eofb"), startOf(steps[0])];
  return [solved, moves, cleanMoves, places, cases.ud, steps, names, where[0].forms, where[0].column, inText?.line, start, further].join(" ");
}

export async function checked(nissy: Nissy, worker: NissyWorker, pool: NissyPool, text: string, signal: AbortSignal): Promise<string> {
  const later: AttemptCheck[][] = [await worker.checkAttempts(text, { signal }), await pool.checkAttempts(text)];
  const [{ attempt, check, fault, place, forms, doubt }]: AttemptCheck[] = [...nissy.checkAttempts(text), ...later.flat()];
  const inText: FormInText[] = forms;
  const names: Form[] = inText.flatMap((form) => [...form.forms]);
  const [of, told, wrong, where]: [Attempt, Check | null, NissyFault | null, TextPlace | null] = [attempt, check, fault, place];
  const pairs: readonly (readonly [string, Uint8Array])[] = [["R", Uint8Array.of(0x52)]];
  const both: Check[] = [...nissy.checkAll(pairs, { faults: "throw" }), ...(await worker.checkAll([["R", "R'"]], { faults: "throw", signal }))];
  const orFaults: (Check | NissyFault | RangeError)[] = await pool.checkAll(pairs, { onProgress: () => both.length });
  const known: AttemptCheck[] = [...nissy.checkAttempts(text, { scrambles: ["R", Uint8Array.of(0x52)] }), ...(await pool.checkAttempts(text, { scrambles: ["R"], signal }))];
  const why: AttemptCheck["doubt"] = known[0].doubt ?? doubt ?? attempt.doubt;
  const reason: "side" | "letters" | undefined = why?.reason === "side" || why?.reason === "letters" ? why.reason : undefined;
  return [of.name, told?.solved, wrong?.part, where?.line, forms[0].text, forms[0].place.column, names, reason, why?.place.at, orFaults.length].join(" ");
}

export async function bounded(nissy: Nissy, worker: NissyWorker, step: string): Promise<number> {
  const counts: Count[] = nissy.countAll("eofb", ["R"], { nodes: 1_000, cut: "value", faults: "throw" });
  const told: (Count | NissyFault | RangeError)[] = await worker.countAll("eofb", ["R"], { faults: "value" });
  const all: (Facts | NissyFault | RangeError)[] = nissy.factsAll(["R"]);
  // also one chosen as the program runs, and options that were given to the caller
  const chosen: (Count | NissyFault | RangeError)[] = nissy.countAll("eofb", ["R"], { faults: step === "" ? "value" : "throw" });
  const given: { readonly limit: number; readonly faults: "throw" } = { limit: 3, faults: "throw" };
  const limited: Count[] = await worker.countAll("eofb", ["R"], given);
  const unset: (Count | NissyFault | RangeError)[] = nissy.countAll("eofb", ["R"], { faults: undefined });
  const solutions: Solutions = nissy.solve(STEPS.find((it) => it === step) ?? "eofb", "R", { nodes: 1_000, cut: "value" });
  // a string that isn't known is judged by the call
  nissy.solve(step, "R");
  const [others, nodes]: [boolean, number] = [solutions.more, solutions.nodes];
  return [counts, told, all, chosen, limited, unset].flat().length + (solutions.cut === true || others ? nodes : 0);
}

export async function followed(nissy: Nissy, worker: NissyWorker, bytes: Uint8Array, signal: AbortSignal): Promise<string> {
  const onProgress = (done: number, all: number | null): boolean => done === all;
  const rows: BestRow[] = nissy.best("R U F", { soFar: "(R)", slack: 1, most: 5, nodes: 1_000, onProgress });
  const [{ line, total, eo, dr }] = await worker.best(bytes, { signal, onProgress });
  const lengths: (number | null)[] = [dr.lengths.normal, dr.lengths.inverse];
  const tokens: Token[] = [...nissy.tokens(line), ...(await worker.tokens(line, { signal }))];
  const pools = [await NissyPool.start(4), await NissyPoolOfBrowsers.start(2, bytes)];
  const counts: (Count | NissyFault | RangeError)[] = await pools[0].countAll("eofb", ["R"], { signal, onProgress });
  const facts: Facts[] = await pools[1].factsAll(["R"], { faults: "throw", onProgress });
  const solutions: Solutions[] = await pools[0].solveAll("eofb", ["R"] as const, { most: 1, faults: "throw" });
  // a function written in the call has the types of what it is told, also beside other options
  await pools[0].countAll("eofb", ["R"], { signal, onProgress: (done, all) => onProgress(done, all) });
  await pools[0].solveAll("eofb", ["R"], { faults: "value", onProgress: (done, all) => onProgress(done, all) });
  const [seen, { solved }]: [Facts, Check] = await Promise.all([pools[0].facts("R", { signal }), pools[1].check("R", bytes)]);
  for await (const { length } of pools[0].solutions("eofb", "R")) if (length > seen.moves) break;
  // what is told of the progress may take its time
  await pools[0].countAll("eofb", ["R"], { onProgress: async (done, all) => void (await Promise.resolve(onProgress(done, all))) });
  const after: string[] = [nissy.lineAfter(bytes), await worker.lineAfter("R", "(U)", { signal }), await pools[0].lineAfter("R x", bytes)];
  const best: Best = await pools[1].best("R U F", { slack: 1, nodes: 1_000, cut: "value" });
  const each: (Best | NissyFault | RangeError)[] = await pools[0].bestAll(["R U F"], { most: 3, signal, onProgress });
  const step: BestStep | null = nissy.bestAll(["R U F"], { faults: "throw" })[0][0].eo;
  const overBoth: SideSolutions = await pools[0].solve("eofb", "R U F", { sides: "both", slack: 1, signal });
  const said: [boolean, number, true | undefined] = [overBoth.more, overBoth.nodes, counts.find((it): it is Count => "solutions" in it)?.more];
  const inverse: string = nissy.solveAll("eofb", ["R U F"], { sides: "inverse", faults: "throw" })[0][0].inverse + overBoth[0].normal;
  for (const pool of pools) pool.end();
  return [rows, total, eo?.moves, step?.inverse, inverse, said, each.length, best.nodes, lengths, tokens.map(({ layers }) => layers[0]), counts, facts, solutions, best, solved, pools[0].size, ...after].join(" ");
}

export async function oneByOne(nissy: Nissy, worker: NissyWorker, signal: AbortSignal): Promise<string> {
  for (const { moves } of nissy.solutions("eofb", "R U F", { slack: 1 })) if (moves.length > 3) return moves;
  for await (const solution of worker.solutions("eofb", "R U F", { slack: 1, signal })) return solution.moves;
  return "";
}

// an option that is undefined isn't given, also by tsc's exactOptionalPropertyTypes
export async function leftOpen(nissy: Nissy, worker: NissyWorker, pool: NissyPool, open?: number, signal?: AbortSignal): Promise<string> {
  const within: { limit: number | undefined; slack: number | undefined; most: number | undefined } = { limit: open, slack: open, most: open };
  const bounds: { nodes: number | undefined; cut: undefined } = { nodes: open, cut: undefined };
  const onProgress: ((done: number, all: number | null) => void) | undefined = undefined;
  const counts: (Count | NissyFault | RangeError)[] = await pool.countAll("eofb", ["R"], { ...within, ...bounds, faults: undefined, signal, onProgress });
  const solutions: Solutions = nissy.solve("eofb", "R", { ...within, ...bounds });
  const best: Best = await pool.best("R", { soFar: undefined, slack: open, most: open, milliseconds: open, ...bounds, signal, onProgress });
  for await (const { moves } of worker.solutions("eofb", "R", { limit: open, slack: open, signal })) if (moves) break;
  const { status } = await worker.run(["steps"], "", { room: open, signal });
  return [counts, solutions, best, status, stickersOf([], undefined)].flat().join(" ");
}

export function cutAfter(error: unknown): number | null {
  return error instanceof SearchCut ? error.count.nodes : null;
}

export function place(fault: unknown): number | null {
  const isStart: boolean = fault instanceof NissyFault && fault.step !== null && fault.start !== null;
  return fault instanceof NissyFault && !isStart && fault.part === "" ? fault.column : null;
}

// what a worker sends for a line: a value, a fault of the line, or of its cube, the only one with a step that must hold before
export function said(reply: LineReply | Seen): string | number {
  if ("answer" in reply) return reply.answer.length;
  if (reply.status === 0) return reply.out;
  if (reply.status !== 1) return reply.status;
  return reply.fault === 6 ? `${reply.start} ${reply.text}` : reply.column;
}

export function wrongReplies(ofLine: LineFault, ofCube: StartFault, reply: LineReply): void {
  // @ts-expect-error a line's own fault has no step that must hold before
  void ofLine.start;
  // @ts-expect-error that of a cube is at no place
  void ofCube.column;
  // @ts-expect-error not each reply has a fault
  void reply.fault;
  // @ts-expect-error nor a line
  void reply.out;
}

export function wrong(nissy: Nissy, worker: NissyWorker): void {
  // @ts-expect-error a number is no line
  nissy.invert(1);
  // @ts-expect-error nor is an object with a length
  nissy.run(["unniss"], { length: 3 });
  // @ts-expect-error a step is named by a string
  nissy.solve(1, "R");
  // @ts-expect-error a step has one of thirteen names
  nissy.solve("eofx", "R");
  // @ts-expect-error also where it is asked what has to hold before it
  startOf("eofx");
  // @ts-expect-error an attempt may have no solution
  nissy.readAttempts("R U F")[0].solution.line.trim();
  // @ts-expect-error nor then a check
  nissy.checkAttempts("R U F")[0].check.solved.valueOf();
  // @ts-expect-error a text is a string
  nissy.checkAttempts(Uint8Array.of(0x52));
  // @ts-expect-error a pair has two lines
  nissy.checkAll([["R"]]);
  // @ts-expect-error known scrambles are an array
  nissy.checkAttempts("R", { scrambles: "R" });
  // @ts-expect-error nothing may have to hold
  startOf("dr-eofb").trim();
  // @ts-expect-error a cut is told in one of two ways
  nissy.solve("eofb", "R", { cut: "values" });
  // @ts-expect-error a solution says both sides only if they are asked for
  nissy.solve("eofb", "R")[0].inverse.trim();
  // @ts-expect-error there are two sides
  nissy.solve("eofb", "R", { sides: "left" });
  // @ts-expect-error also that of the best
  nissy.best("R", { cut: true });
  // @ts-expect-error faults in the place of counts are told by the type
  nissy.countAll("eofb", ["R"])[0].nodes.toFixed();
  // @ts-expect-error what all callers share is changed by none
  AXES[0] = "rl";
  // @ts-expect-error nor is a place of it
  NET[0].row = 1;
  // @ts-expect-error a limit is a number
  nissy.solve("eofb", "R", { limit: "9" });
  // @ts-expect-error there is no such option
  nissy.count("eofb", "R", { least: 1 });
  // @ts-expect-error nor of many lines
  nissy.countAll("eofb", ["R"], { limt: 3 });
  // @ts-expect-error nor beside an option that there is
  nissy.solveAll("eofb", ["R"], { faults: "value", limt: 3 });
  // @ts-expect-error what is seen without a search has no limit
  nissy.factsAll(["R"], { limit: 3 });
  // @ts-expect-error faults are told in one of two ways
  nissy.factsAll(["R"], { faults: "values" });
  // @ts-expect-error a length may be null
  nissy.count("eofb", "R").length.toFixed();
  // @ts-expect-error a promise is no string
  worker.invert("R").length;
  // @ts-expect-error what workers are asked of many lines has no other options
  void worker.countAll("eofb", ["R"], { cut: "value", limt: 3 });
  // @ts-expect-error of each call
  void worker.solveAll("eofb", ["R"], { limt: 3 });
  // @ts-expect-error also of facts
  void worker.factsAll(["R"], { fault: "value" });
  // @ts-expect-error one worker tells of no progress there
  void worker.countAll("eofb", ["R"], { onProgress: () => {} });
  // @ts-expect-error an orientation may hold already
  nissy.best("R")[0].eo.moves.trim();
  // @ts-expect-error a pool is told how many workers it has
  void NissyPool.start();
  // @ts-expect-error nor have those of a pool other options
  void (async (pool: NissyPool) => pool.countAll("eofb", ["R"], { limt: 3, onProgress: () => {} }));
  // @ts-expect-error of each call
  void (async (pool: NissyPool) => pool.solveAll("eofb", ["R"], { faults: "value", limt: 3 }));
  // @ts-expect-error also of facts
  void (async (pool: NissyPool) => pool.factsAll(["R"], { limit: 3 }));
  // @ts-expect-error what pools are told to do is a promise too
  void (async (pool: NissyPool) => pool.facts("R").solved);
  // @ts-expect-error nor is there a module beside those of a browser
  void NissyPoolOfBrowsers.start(2);
  // @ts-expect-error a browser's worker has no module beside it
  void NissyWorkerOfBrowsers.start();
}
