// Calls by their names with what is wanted, and values of other types at each place of each call: for `Nissy`, and for what has the same
// calls as promises.
import { readFileSync } from "node:fs";
import { NissyFault, STEPS, startOf } from "../../build/web/module/nissy.js";
import { fingerprint, same, thrown } from "./tally.mjs";
import { DETACHED, WRONG } from "./values.mjs";

// the steps, each with what must hold before it
const CALLS = readFileSync(new URL("../calls.tsv", import.meta.url), "latin1").split("\n");
const STARTS = CALLS.filter((row) => row.startsWith("step\t")).map((row) => row.split("\t").slice(1));
export const F_OR_ITS_INVERSE = [{ moves: "F", length: 1 }, { moves: "F'", length: 1 }];

// what a row shows, the call with what it is given, and what is wanted
const ROWS = [
  ["bytes", ["invert", Uint8Array.of(0x52, 0xe2, 0x80, 0x99)], "R"],
  ["the first of them", ["solve", "eofb", "F", { most: 1 }], F_OR_ITS_INVERSE.slice(0, 1)],
  ["as many as there are", ["solve", "eofb", "F", { most: 2 }], F_OR_ITS_INVERSE],
  ["none asked for", ["solve", "eofb", "F", { most: 0 }], []],
  ["a number of solutions that no search has", ["solve", "eofb", "F", { most: Number.MAX_SAFE_INTEGER }], F_OR_ITS_INVERSE],
  ["no options", ["solve", "eofb", "F", {}], F_OR_ITS_INVERSE],
  ["options that are left open", ["solve", "eofb", "F", { limit: undefined, slack: undefined, most: undefined }], F_OR_ITS_INVERSE],
  ["numbers of both kinds", ["scrambles", 42, 54n, 3, 2], ["L' D' F'", "L F' L'"]],
  ["the first of them", ["scramble", 42n, 54, 3], "L' D' F'"],
  ["the characters of a form", ["formPlaces", "U\u2019 M"], [
    { text: "U\u2019", forms: ["apostrophe"], column: 1, character: 1 }, { text: "M", forms: ["slices"], column: 6, character: 4 },
  ]],
];

// a call, and the fault that it throws: text, column, step, what would have to hold before it, and message
const FAULTS = [
  [["invert", "U".repeat(257)], "more than 256 moves", 257, null, null, "column 257: more than 256 moves"],
  [["tokens", "R q"], "not a move", 3, null, null, "column 3: not a move"],
  [["count", "drud-eofb", "F"], "eofb does not hold", null, "drud-eofb", "eofb", "eofb does not hold"],
  [["solve", "dr-eorl", "R"], "eorl does not hold", null, "dr-eorl", "eorl", "eorl does not hold"],
];

/** The steps, in the module's order, and what has to hold before each. */
async function tryStarts(nissy) {
  const { out } = await nissy.run(["steps"]);
  same("the steps", [[...STEPS], new TextDecoder().decode(out).trim().split("\n")], Array(2).fill(STARTS.map(([step]) => step)));
  for (const [step, start] of STARTS) same(`before ${step}`, startOf(step), start === "" ? null : start);
  same("no step", await thrown(() => startOf("htr")), ["RangeError", 'there is no step of the name "htr"']);
  same("a step of another type", await thrown(() => startOf(3)), ["TypeError", "the step is no string"]);
}

// lines at fault, with the column in bytes and the character
const CHARACTERS = [["R q", 3, 3], ["R\u2019 q", 6, 4], ["R2\u2019 U\u2019 \u{1f600}", 12, 8], [Uint8Array.of(0x52, 0xe2, 0x80, 0x99, 0x71), 5, 3]];

/** What a call throws, or null. */
async function faultOf(nissy, call, given) {
  try {
    await nissy[call](...given);
    return null;
  } catch (fault) {
    return fault;
  }
}

/** Rows, by `Nissy` or by what has the same calls as promises. What is read of lines is tried by tests/hosts. */
export async function tryRows(nissy) {
  await tryStarts(nissy);
  for (const [what, [call, ...given], wanted] of ROWS) same(what, await nissy[call](...given), wanted);
  for (const [[call, ...given], ...wanted] of FAULTS) {
    const fault = await faultOf(nissy, call, given);
    const seen = [fault instanceof NissyFault, fault?.name, fault?.text, fault?.column, fault?.step, fault?.start, fault?.message];
    same(`${call} ${given.join(", ").slice(0, 20)}`, seen, [true, "NissyFault", ...wanted]);
  }
  for (const [line, ...wanted] of CHARACTERS) {
    const calls = [["invert", line], ["solve", "eofb", line], ["check", "", line], ["factsAll", ["R", line], { faults: "throw" }], ["countAll", "eofb", [line], { faults: "throw" }]];
    for (const [call, ...given] of calls) {
      const { column, character } = await faultOf(nissy, call, given);
      same(`${call}: the character at fault of ${line}`, [column, character], wanted);
    }
  }
}

/** Solutions one after another: the whole list, none, the first ones of millions, and what no call takes. */
export async function tryEach(nissy) {
  const gone = async (...given) => {
    const all = [];
    for await (const solution of nissy.solutions(...given)) all.push(solution);
    return all;
  };
  for (const [step, line, options] of [["eo", "R U F2 L D R B", { slack: 3 }], ["eofb", "F", {}], ["eofb", "R", {}], ["drud-eofb", "R U", { slack: 2 }]]) {
    const all = await nissy.solve(step, line, options);
    same(`each of ${all.length} solutions`, await gone(step, line, options), [...all]);
    for (const at of [0, all.length >> 1, all.length - 1].filter((each) => each >= 0)) {
      same(`those after solution ${at + 1}`, await gone(step, line, { ...options, after: all[at].moves }), all.slice(at + 1));
    }
  }
  same("none within the limit", await gone("eofb", "F", { limit: 0 }), []);
  same("after turns that are no solution", await gone("eofb", "F", { after: "F" }), (await nissy.solve("eofb", "F")).slice(1));
  same("after as many as there can be", await gone("eofb", "F", { after: "L R ".repeat(11) }), []);
  for (const after of ["(F)", "x", "q"]) {
    same(`after ${after}`, await thrown(() => gone("eofb", "F", { after })), ["RangeError", "the option after is no sequence of turns of a face"]);
  }
  same("after what is no text", await thrown(() => nissy.solutions("eofb", "F", { after: 3 })), ["TypeError", "the option after is neither a string nor a Uint8Array"]);
  const first = [];
  for await (const solution of nissy.solutions("eo", "R U F2 L D R B", { slack: 14 })) {
    first.push(solution);
    if (first.length === 100) break;
  }
  same("the first of millions", first, [...(await nissy.solve("eo", "R U F2 L D R B", { slack: 14, most: 100 }))]);
  const left = nissy.solutions("eofb", "F");
  await left.next();
  same("what its caller throws into it", await thrown(() => left.throw(new RangeError("enough"))), ["RangeError", "enough"]);
  same("nothing comes then", (await left.next()).done, true);
  same("a line at fault", await thrown(() => gone("eofb", "R q")), ["NissyFault", "column 3: not a move"]);
  same("a step that can't begin", await thrown(() => gone("dr-eorl", "R")), ["NissyFault", "eorl does not hold"]);
  same("a step of another type", await thrown(() => nissy.solutions(3, "F")), ["TypeError", "the step is no string"]);
  same("a slack out of its range", (await thrown(() => nissy.solutions("eofb", "F", { slack: 21 })))[0], "RangeError");
}

const BEYOND = " ".repeat(16_777_217);

/** What says that it is an array of so many lines. */
const posing = (length) => new Proxy([], { get: (_, name) => (name === "length" ? length : "F") });
const NO_LENGTH = "the length of the array is no whole number from 0 to 67108864";

// calls of many lines, and what they throw: of the call itself, which is judged though there is no line, and of a line, with its number
const MANY = [
  [["solveAll", 3, []], "TypeError", "the step is no string"],
  [["countAll", "htr", []], "RangeError", 'there is no step of the name "htr"'],
  [["countAll", "eofb", [], { limit: 21 }], "RangeError", "the limit is no whole number from 0 to 20"],
  [["solveAll", "eofb", [], null], "TypeError", "the options are no object"],
  [["solveAll", "eofb", "F"], "TypeError", "the lines are no array"],
  [["countAll", "eofb", new Set(["F"])], "TypeError", "the lines are no array"],
  [["solveAll", "eofb", ["F", 3]], "TypeError", "line 2 is neither a string nor a Uint8Array"],
  [["countAll", "eofb", [, "F"]], "TypeError", "line 1 is neither a string nor a Uint8Array"],
  [["countAll", "eofb", ["F", BEYOND], { faults: "throw" }], "RangeError", "line 2 has more bytes than the engine reads"],
  [["solveAll", "eofb", ["F", "R q"], { faults: "throw" }], "NissyFault", "line 2, column 3: not a move"],
  [["countAll", "dr-eofb", ["", "R", "F"], { faults: "throw" }], "NissyFault", "line 3: eofb does not hold"],
  [["run", [, "R"]], "TypeError", "word 1 is neither a string nor a Uint8Array"],
  ...[2 ** 53, 67_108_865, Infinity, -1, Number.NaN].flatMap((length) => [
    [["countAll", "eofb", posing(length)], "RangeError", NO_LENGTH],
    [["factsAll", posing(length)], "RangeError", NO_LENGTH],
    [["run", posing(length)], "RangeError", NO_LENGTH],
  ]),
];

/** A line of too many bytes among others, of which each has its answer, by `Nissy` or by what has the same calls as promises. */
export async function tryTooLong(nissy) {
  const lines = ["F", "R q", BEYOND, new Uint8Array(16_777_217), "R"];
  const wanted = [null, "column 3: not a move", ...[3, 4].map((line) => `line ${line}: the line has more bytes than the engine reads`), null];
  const told = {
    solutions: await nissy.solveAll("eofb", lines),
    counts: await nissy.countAll("eofb", lines, { faults: "value" }),
    "counts of searches that may be cut": await nissy.countAll("eofb", lines, { nodes: 1_000 }),
    facts: await nissy.factsAll(lines),
    "the best": await nissy.bestAll(["F", "R q", ...lines.slice(2)], { most: 1 }),
  };
  for (const [what, each] of Object.entries(told)) {
    const said = each.map((one) => (one instanceof Error ? one.message.replace(/^line 2, (scramble, )?/, "") : null));
    same(`${what} beside lines of too many bytes`, said, wanted);
    same(`${what}: what stands in their places`, each.slice(1, 4).map(({ name }) => name), ["NissyFault", "RangeError", "RangeError"]);
  }
  same("what is told before and after them", [told.solutions[0], told.solutions[4]], [F_OR_ITS_INVERSE, [{ moves: "", length: 0 }]]);
  same("also of counts", [0, 4].map((at) => told.counts[at].length), [1, 0]);
  same("and of facts", [0, 4].map((at) => told.facts[at].moves), [1, 1]);
}

/** Calls of many lines that are refused, by `Nissy` or by what has the same calls as promises. */
export async function tryMany(nissy) {
  for (const [[call, ...given], ...wanted] of MANY) same(`${call}: ${wanted[1]}`, await thrown(() => nissy[call](...given)), wanted);
  let read = 0;
  const options = {
    get limit() {
      read += 1;
      return 3;
    },
  };
  same("solutions of many lines", await nissy.solveAll("eofb", ["F", Uint8Array.of(0x52)], options), [F_OR_ITS_INVERSE, [{ moves: "", length: 0 }]]);
  same("options are read once for all lines", read, 1);
}

/** Options as the fields of an object, and as what it gets of its class. */
class Fields {
  most = 1;
}

class OfItsClass {
  get most() {
    return 1;
  }
  get limit() {
    return 0;
  }
  get slack() {
    return 1;
  }
}

// options that are an object's own, or that it inherits, and how many of two solutions are found with them
const OWN_OR_NOT = [
  ["its own", { most: 1 }, 1],
  ["fields of a class", new Fields(), 1],
  ["those of an object that inherits nothing", Object.assign(Object.create(null), { most: 1 }), 1],
  ["those that aren't listed", Object.defineProperty({}, "most", { value: 1 }), 1],
  ["what it inherits", Object.create({ most: 1, limit: 0, slack: 1 }), 2],
  ["what a class gets", new OfItsClass(), 2],
  ["what a list inherits", Object.setPrototypeOf([], { most: 1, limit: 0 }), 2],
];

/** What a list says beside its solutions: whether there are others, and how many positions were looked at, as the count of them says. */
export async function tryLists(nissy) {
  for (const most of [0, 1, 2, 3, Infinity]) {
    const [list, { nodes }] = [await nissy.solve("eofb", "F", { most }), await nissy.count("eofb", "F", { most })];
    same(`a list of at most ${most}: whether there are more, and its nodes`, [list.more, list.nodes], [most < F_OR_ITS_INVERSE.length, nodes]);
  }
}

const WITH_OPTIONS = [
  ["solve", "eofb", "F"], ["solveAll", "eofb", ["F"]], ["count", "eofb", "F"], ["countAll", "eofb", []], ["factsAll", ["F"]], ["checkAll", [["F", "F"]]],
  ["checkAttempts", "F"], ["best", "F"], ["bestAll", ["F"]], ["solutions", "eofb", "F"],
];

/** Options are an object's own properties: by `Nissy`, or by what has the same calls as promises. */
export async function tryOptions(nissy) {
  for (const [what, options, count] of OWN_OR_NOT) {
    same(`options: ${what}`, (await nissy.solve("eofb", "F", options)).length, count);
    same(`options of many lines: ${what}`, (await nissy.solveAll("eofb", ["F"], options))[0].length, count);
  }
  same("a count by what an object inherits", (await nissy.count("eofb", "F", new OfItsClass())).solutions, 2);
  for (const [call, ...given] of WITH_OPTIONS) {
    const refused = await thrown(() => nissy[call](...given, { mots: undefined }));
    same(`${call}: an option that it doesn't have`, refused, ["TypeError", "there is no option mots"]);
  }
}

/** Options that are functions' values, each of whose names is noted as it is read. */
function noting(read, functions) {
  const options = {};
  for (const [name, value] of Object.entries(functions)) {
    const get = () => {
      read.push(name);
      return value();
    };
    Object.defineProperty(options, name, { get });
  }
  return options;
}

const GIVEN = { limit: () => 20, slack: () => 0, most: () => 1 };
const READ_BY = [
  ["solve", "F", ["limit", "most", "slack"]],
  ["solveAll", ["F", "F"], ["limit", "most", "slack"]],
  ["count", "F", ["limit", "most", "slack"]],
];

/** Each option is read once, before the module is asked, and what reading it throws the call throws. */
export async function tryReadOptions(nissy, memory = undefined) {
  for (const [call, given, names] of READ_BY) {
    const read = [];
    await nissy[call]("eofb", given, noting(read, GIVEN));
    same(`${call}: each option is read once`, read.sort(), names);
  }
  const asking = () => {
    nissy.invert("R U F D L B");
    return 20;
  };
  const found = await nissy.solve("eofb", "F", noting([], { ...GIVEN, limit: asking }));
  same("an option that asks something itself", found, F_OR_ITS_INVERSE.slice(0, 1));
  const before = memory && fingerprint(memory);
  const throwing = () => {
    throw new RangeError("not to be read");
  };
  for (const name of Object.keys(GIVEN)) {
    const refused = await thrown(() => nissy.solve("eofb", "D F", noting([], { ...GIVEN, [name]: throwing })));
    same(`what the ${name} throws`, refused, ["RangeError", "not to be read"]);
  }
  if (memory) same("the memory after what they throw", fingerprint(memory) === before, true);
}

const NO_TEXT = "is neither a string nor a Uint8Array";
const NO_WIDE = "is neither a number nor a bigint";
const NO_OPTIONS = [["null", null], ["a number", 20], ["a text", "20"], ["a function", () => 1]];
const WITHOUT = (...kinds) => WRONG.filter(([, value]) => !kinds.includes(typeof value));

// what is no array of words, though some would do as one
const NO_WORDS = [
  ["nothing", undefined], ["null", null], ["a text", "invert"], ["a number", 1], ["a truth value", true],
  ["a function", () => ["invert"]], ["words by their places", { length: 1, 0: "invert" }],
  ["a set", new Set(["invert"])], ["bytes", Uint8Array.of(0x52)],
];

// what is no array, though some would do as one
const NO_ARRAY = [["null", null], ["a text", "RU"], ["a number", 2], ["lines by their places", { length: 2, 0: "R", 1: "R'" }], ["a set", new Set(["R", "U"])]];

/** What each place of a call is called, how it is filled, and which values it doesn't take, with the words that refuse them. */
const PLACES = [
  ...["invert", "unniss", "cleanup", "facelets", "formPlaces"].map((call) => [call, "the line", (value) => [value], WRONG, NO_TEXT]),
  ...["plainLine", "readAttempts", "checkAttempts"].map((call) =>
    [call, "the text", (value) => [value], [...WRONG, ["bytes", Uint8Array.of(0x52)], ["nothing", undefined]], "is no string"]),
  ["checkAttempts", "scramble 2", (value) => ["R", { scrambles: ["R", value] }], WRONG, NO_TEXT],
  ["checkAttempts", "the scrambles", (scrambles) => ["R", { scrambles }], NO_ARRAY, "are no array"],
  ["checkAll", "the pairs", (value) => [value], NO_ARRAY, "are no array"],
  ["checkAll", "pair 1", (value) => [[value, ["R", "R'"]]], [...NO_ARRAY, ["one line", ["R"]], ["three lines", ["R", "U", "F"]]], "is no array of two lines"],
  ["checkAll", "the scramble of pair 2", (value) => [[["R", "R'"], [value, "R"]]], WRONG, NO_TEXT],
  ["checkAll", "the solution of pair 1", (value) => [[["R", value]]], WRONG, NO_TEXT],
  ["run", "the input", (value) => [["unniss"], value], WRONG, NO_TEXT],
  ["run", "word 1", (value) => [[value, value], value], WRONG, NO_TEXT],
  ["run", "word 2", (value) => [["unniss", value], "R"], WRONG, NO_TEXT],
  ["run", "the words", (value) => [value, "R"], NO_WORDS, "are no array"],
  ...["solve", "count"].flatMap((call) => [
    [call, "the line", (value) => ["eofb", value], WRONG, NO_TEXT],
    [call, "the step", (value) => [value, "F"], [...WRONG, ["bytes", Uint8Array.of(0x65)]], "is no string"],
    [call, "the options", (value) => ["eofb", "F", value], NO_OPTIONS, "are no object"],
    [call, "the limit", (limit) => ["eofb", "F", { limit }], [...WITHOUT("number"), ["a text", "20"]], "is no number"],
    [call, "the slack", (slack) => ["eofb", "F", { slack }], [...WITHOUT("number"), ["a text", "1"]], "is no number"],
  ]),
  ["solve", "the greatest number of solutions", (most) => ["eofb", "F", { most }], [...WITHOUT("number"), ["a text", "1"]], "is no number"],
  ["scramble", "the state", (state) => [state, 1, 20], [...WITHOUT("number", "bigint"), ["a text", "1"], ["nothing", undefined]], NO_WIDE],
  ["scramble", "the stream", (stream) => [1, stream, 20], [...WITHOUT("number", "bigint"), ["a text", "1"]], NO_WIDE],
  ["scramble", "the length", (length) => [1, 1, length], [...WITHOUT("number"), ["a text", "20"], ["nothing", undefined]], "is no number"],
  ["scrambles", "the state", (state) => [state, 1, 20, 1], [...WITHOUT("number", "bigint"), ["a text", "1"], ["nothing", undefined]], NO_WIDE],
  ["scrambles", "the stream", (stream) => [1, stream, 20, 1], [...WITHOUT("number", "bigint"), ["a text", "1"]], NO_WIDE],
  ["scrambles", "the length", (length) => [1, 1, length, 1], [...WITHOUT("number"), ["a text", "20"], ["nothing", undefined]], "is no number"],
  ["scrambles", "the count", (count) => [1, 1, 20, count], [...WITHOUT("number"), ["a text", "1"], ["nothing", undefined]], "is no number"],
];

/** Each wrong value at each place of each call: it is refused by type, and no byte of the memory is another one after it. */
export async function tryWrongValues(nissy, memory = undefined) {
  await nissy.solve("eofb", "F");
  const before = memory && fingerprint(memory);
  for (const [call, place, filled, values, words] of PLACES) {
    for (const [what, value] of values) {
      const [kind, message] = await thrown(() => nissy[call](...filled(value)));
      const wanted = what === DETACHED && words === NO_TEXT ? message : `${place} ${words}`;
      same(`${call}: ${what} as ${place}`, [kind, message], ["TypeError", wanted]);
    }
    if (memory) same(`${call}: the memory after wrong values as ${place}`, fingerprint(memory) === before, true);
  }
}
