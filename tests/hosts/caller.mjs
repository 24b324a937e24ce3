// Makes the calls of the module that standard input asks for, one on each line, and answers each on a line, as hosts.py says; a quarter of those
// without a room in a worker.
//
//     node tests/hosts/caller.mjs MODULE
import { readFileSync } from "node:fs";
import { createInterface } from "node:readline";
import {
  AXES, CORNER_PLACES, EDGE_PLACES, NET, STEPS, Nissy, NissyFault, NissyWorker, SearchCut, placeOf, stickersOf,
} from "../../build/web/module/node.js";

const ALL = 2n ** 64n - 1n;
const decoder = new TextDecoder("utf-8", { fatal: true, ignoreBOM: true });
const bytesOf = (text) => new Uint8Array(Buffer.from(text.slice(1), "hex"));
const toHex = (text) => `=${Buffer.from(text).toString("hex")}`;
const numberOf = (text) => (BigInt(text) === ALL ? undefined : Number(text));

/** The lines of a text, each of which a line feed ends, if not the last one. */
const linesOf = (text) => Buffer.from(bytesOf(text)).toString().match(/[^\n]*\n|[^\n]+$/g)?.map((line) => line.replace("\n", "")) ?? [];

/** Bytes of one's own among others. */
function copied(bytes, buffer = new ArrayBuffer(bytes.length + 9), begin = 4) {
  const view = new Uint8Array(buffer).fill("R".charCodeAt(0)).subarray(begin, begin + bytes.length);
  view.set(bytes);
  return view;
}

function string(bytes) {
  try {
    return decoder.decode(bytes);
  } catch {
    return bytes; // it is no string
  }
}

// the forms of a line, one call's after another's
const FORMS = [string, (bytes) => Uint8Array.from(bytes), copied, Buffer.from, (bytes) => copied(bytes, new SharedArrayBuffer(bytes.length), 0)];
let calls = 0;
const lineOf = (text) => FORMS[calls % FORMS.length](bytesOf(text));

const source = readFileSync(process.argv[2]);
const nissy = await Nissy.load(source);
const worker = await NissyWorker.start(source);
const lines = (all) => all.map((line) => `${line}\n`).join("");
const solved = (found) => lines(found.map(({ moves, length }) => `${moves}${moves && " "}(${length})`));
const part = ({ step, moves, normal, inverse, length, twins }) => [step, moves, normal, inverse, length, twins.join()].join(";");

const seen = ({ solved: is, moves, cleanMoves, holds, case: cases, ...pieces }) => {
  const { badEdges, badCorners, misplacedEdges } = pieces;
  const axes = AXES.map((axis) => [badEdges, badCorners, misplacedEdges].map((each) => each[axis].join()).join("/"));
  const isCase = AXES.every((axis) => cases[axis] === `${badCorners[axis].length}c${misplacedEdges[axis].length}e`);
  return isCase ? [Number(is), moves, cleanMoves, holds.join(), ...axes].join(" ") : "another case";
};

/** How many characters stand before each unit of a text, and before its end. */
function charactersBefore(text) {
  const counts = [];
  let count = 0;
  for (const sign of text) {
    for (let unit = 0; unit < sign.length; unit += 1) counts.push(count);
    count += 1;
  }
  return [...counts, count];
}

/** Where the characters and the lines of a text are. */
const seenIn = (text) => ({
  characters: charactersBefore(text), begins: [0, ...[...text.matchAll(/\n/g)].map(({ index }) => index + 1)], hasReturns: text.includes("\r"),
});

/** A text as one line, the places of its signs in characters, and what is left out. */
function plain(text, { line, places, leftOut }) {
  const characters = charactersBefore(text);
  const own = charactersBefore(line);
  const begins = (at) => own[at] !== own[at - 1];
  const goesOn = places.some((place, at) => !begins(at) && place !== places[at - 1] + 1);
  if (goesOn || places.length !== line.length) return "another place";
  return [line, places.filter((_, at) => begins(at)).map((place) => characters[place]).join(" "), leftOut.join("|")].join("\n");
}

/** A part of an attempt without blanks around it, and the places of its first and last sign, which a fault there has too. */
function partIn(text, plain, { characters, begins, hasReturns }) {
  if (plain === null) return "none";
  const own = plain.line.trim();
  if (own === "") return "";
  const first = plain.line.length - plain.line.trimStart().length;
  const last = first + own.length - [...own].at(-1).length;
  const placeAt = (at) => {
    const { at: place, line, column } = placeOf({ character: at + 1 }, plain, text);
    const told = hasReturns ? characters[place] : characters[begins[line - 1]] + column - 1;
    return told === characters[place] ? told : "another place";
  };
  return `${own}@${placeAt(first)}-${placeAt(last)}`;
}

/** The attempts of a text, each on a line. */
function attempts(text, found) {
  const seen = seenIn(text);
  const one = (each) => partIn(text, each, seen);
  const all = (each) => each.map(one).join("/");
  return found.map(({ name, before, scramble, steps, solution, candidates, isLabelled }) => {
    const others = candidates.map((each) => `${all(each.steps)}=${one(each.solution)}#${each.note}`).join(";");
    return [name, before, one(scramble), all(steps), one(solution), others, ...(isLabelled ? ["labelled"] : [])].join("|");
  }).join("\n");
}

/** How many attempts a text has, and how many steps and candidates all of them. */
function attemptCounts(found) {
  return [found.length, found.flatMap((it) => it.steps).length, found.flatMap((it) => it.candidates).length].join(" ");
}

const formNames = (forms) => forms.join();
const judged = ({ solved: is, moves, cleanMoves, forms }) => [Number(is), moves, cleanMoves, formNames(forms)].join(" ");

/** What is told of an attempt: its check, its fault, and the forms of its solution. */
function attemptTold({ check, fault, place, forms }) {
  const at = ({ line, column }) => `@${line}:${column}`;
  const wrong = fault ? `${fault.part}:${fault.column}:${fault.text}${place ? at(place) : "@nowhere"}` : "";
  return [check ? judged(check) : "", wrong, forms.map((it) => `${it.text}/${formNames(it.forms)}${at(it.place)}`).join(" ")].join("|");
}

/** What makes one doubt an attempt, and where. */
const doubtTold = ({ doubt }) => (doubt ? `${doubt.reason}@${doubt.place.line}:${doubt.place.column}` : "");

/** What is told of a known scramble, or of what isn't told to be of one. */
const knownTold = (it) => [it.attempt.name, attemptTold(it), doubtTold(it)].join("|");

/** All that is told of a text, as hosts.py has it. */
async function textTold(engine, text, scrambles) {
  const checks = await engine.checkAttempts(text);
  const known = await engine.checkAttempts(text, { scrambles });
  const [line, found] = [await engine.plainLine(text), await engine.readAttempts(text)];
  const each = [[checks, attemptTold], [checks, doubtTold], [known, knownTold]].map(([all, told]) => all.map(told).join("\n"));
  return [plain(text, line), each[0], each[1], attempts(text, found), each[2]].join("\x1e");
}

// each call by an engine, and what is given to it
const CALLS = {
  facts: async (engine, line) => seen(await engine.facts(lineOf(line))),
  tokens: async (engine, line) => {
    const told = (await engine.tokens(lineOf(line))).sort((one, other) => one.inverse - other.inverse);
    return told.map((it) => [it.text, it.axis, it.layers.join(), it.quarters, Number(it.inverse)].join("/")).join(" ");
  },
  plain_line: async (engine, text) => plain(string(bytesOf(text)), await engine.plainLine(string(bytesOf(text)))),
  read_attempts: async (engine, text) => attempts(string(bytesOf(text)), await engine.readAttempts(string(bytesOf(text)))),
  attempt_counts: async (engine, text) => attemptCounts(await engine.readAttempts(string(bytesOf(text)))),
  form_places: async (engine, line) => {
    const told = await engine.formPlaces(lineOf(line));
    return told.map(({ column, text, forms }) => [column, text, formNames(forms)].join("/")).join(" ");
  },
  check: async (engine, scramble, solution) => judged(await engine.check(lineOf(scramble), lineOf(solution))),
  check_attempts: async (engine, text) => (await engine.checkAttempts(string(bytesOf(text)))).map(attemptTold).join("\n"),
  attempt_doubts: async (engine, text) => (await engine.checkAttempts(string(bytesOf(text)))).map(doubtTold).join("\n"),
  known_checks: async (engine, text, scrambles) => {
    const told = await engine.checkAttempts(string(bytesOf(text)), { scrambles: linesOf(scrambles) });
    return told.map(knownTold).join("\n");
  },
  text: async (engine, text, scrambles) => textTold(engine, string(bytesOf(text)), linesOf(scrambles)),
  check_all: async (engine, text) => {
    const all = linesOf(text);
    const pairs = all.filter((_, at) => at % 2 === 0).map((scramble, at) => [scramble, all[2 * at + 1]]);
    const told = await engine.checkAll(pairs);
    return told.map((it) => (it instanceof NissyFault ? `${it.part}:${it.column}:${it.text}` : judged(it))).join("\n");
  },
  line_after: async (engine, scramble, soFar) => engine.lineAfter(lineOf(scramble), lineOf(soFar)),
  solve: async (engine, step, limit, slack, most, line) =>
    solved(await engine.solve(string(bytesOf(step)), lineOf(line), { limit: Number(limit), slack: Number(slack), most: numberOf(most) })),
  count: async (engine, step, limit, slack, _, line) => {
    const { length, solutions, nodes } = await engine.count(string(bytesOf(step)), lineOf(line), { limit: Number(limit), slack: Number(slack) });
    return `${length ?? "none"} ${solutions} ${nodes}`;
  },
  scrambles: async (engine, state, stream, length, count) => {
    const given = [BigInt(state), BigInt(stream), Number(length)];
    return lines([await engine.scramble(...given), ...(await engine.scrambles(...given, Number(count)))]);
  },
  steps: async () => lines(STEPS),
  net: async () => [...[AXES, EDGE_PLACES, CORNER_PLACES].map((names) => names.join()), ...NET.map(({ row, column }) => `${row},${column}`)].join("\n"),
  stickers: async (_, names, ...letters) => {
    const places = string(bytesOf(names)).split(",").filter(Boolean);
    return stickersOf(places, ...letters.map((each) => string(bytesOf(each)))).join(" ");
  },
  best: async (engine, scramble, soFar, slack, most, nodes, partial) => {
    const wanted = { soFar: lineOf(soFar), slack: Number(slack), most: numberOf(most) ?? Infinity, nodes: numberOf(nodes) };
    const rows = await engine.best(lineOf(scramble), { ...wanted, cut: partial === "1" ? "value" : "throw" });
    const told = ({ total, line, eo, dr, case: of }) =>
      [total, line, eo ? part(eo) : "none", part(dr), dr.lengths.normal ?? "none", dr.lengths.inverse ?? "none", of].join(";");
    return lines([...rows.map(told), ...(rows.cut ? ["cut"] : [])]);
  },
};

/** The answer to a call. */
async function called(call, given) {
  if (call === "run") {
    const [room, input, ...words] = given;
    const { status, out, err, full } = nissy.run(words.map(bytesOf), bytesOf(input), room === "-" ? undefined : Number(room));
    return Buffer.concat([Buffer.from(`${status} ${Number(full)} ${out.length} `), out, err]);
  }
  calls += 1;
  const engine = calls % 4 === 0 ? worker : nissy;
  return CALLS[call] ? CALLS[call](engine, ...given) : engine[call](lineOf(given[0]));
}

for await (const line of createInterface({ input: process.stdin })) {
  const [call, ...given] = line.split(" ");
  try {
    console.log(toHex(await called(call, given)));
  } catch (fault) {
    const isCut = fault instanceof SearchCut;
    if (!(fault instanceof NissyFault) && !isCut) throw fault;
    console.log(isCut ? `0 0 ${toHex("cut")}` : `${fault.line ?? 0} ${fault.column ?? 0} ${toHex(fault.text)}`);
  }
}
worker.end();
