// What is told of lines without a search, and searches with a bound on nodes: by `Nissy`, and by what has the same calls as promises.
import { NissyFault, SearchCut } from "../../build/web/module/nissy.js";
import { TURNS, same, thrown } from "./tally.mjs";

// a call, and the fault that it throws: which line has it, its column and its message
const FAULTS = [
  [["check", "R q", "R"], 1, 3, "scramble, column 3: not a move"],
  [["check", "R", "(R"], 2, 1, "solution, column 1: bracket not closed"],
  [["check", "q", "q"], 1, 1, "scramble, column 1: not a move"],
  [["check", "R", "R\nU"], 2, 2, "solution, column 2: not a move"],
  [["facts", "R q"], null, 3, "column 3: not a move"],
  [["factsAll", ["R", "U".repeat(257)], { faults: "throw" }], 2, 257, "line 2, column 257: more than 256 moves"],
];

/** Lines at fault, and what is no line. */
export async function tryChecks(nissy) {
  for (const [[call, ...given], ...wanted] of FAULTS) {
    const fault = await Promise.resolve().then(() => nissy[call](...given)).catch((stop) => stop);
    same(`${call} ${given.join(", ").slice(0, 20)}`, [fault instanceof NissyFault, fault.line, fault.column, fault.message], [true, ...wanted]);
  }
  same("no scramble", await thrown(() => nissy.check(1, "R")), ["TypeError", "the scramble is neither a string nor a Uint8Array"]);
  same("no solution", await thrown(() => nissy.check("R")), ["TypeError", "the solution is neither a string nor a Uint8Array"]);
  same("no line", await thrown(() => nissy.facts()), ["TypeError", "the line is neither a string nor a Uint8Array"]);
  same("no lines", await thrown(() => nissy.factsAll("R")), ["TypeError", "the lines are no array"]);
}

const NOTHING = { check: null, fault: null, place: null, forms: [], doubt: null };
const form = (text, name, at, line, column) => ({ text, forms: [name], place: { at, line, column } });
const doubt = (reason, at, line, column) => ({ reason, place: { at, line, column } });
const atFault = (part, column, character, at, line, inLine) =>
  ({ ...NOTHING, fault: [part, column, character, "not a move"], place: { at, line, column: inLine } });

// what a text shows, the text, and what is told of each attempt
const TEXTS = [
  ["nothing", "", [NOTHING]],
  ["a scramble alone", "R U", [NOTHING]],
  ["a solution", "R U\n\nU' R'", [{ ...NOTHING, check: { solved: true, moves: 2, cleanMoves: 2, forms: [] } }]],
  ["one that doesn't solve", "R U\n\nR R2", [{ ...NOTHING, check: { solved: false, moves: 2, cleanMoves: 1, forms: [] } }]],
  ["a fault of a scramble alone", "1. R Q", [atFault("scramble", 3, 3, 5, 1, 6)]],
  ["one beside a solution with a form", "R Q\n\nM", [atFault("scramble", 3, 3, 2, 1, 3)]],
  ["faults of both", "R Q\n\nM Q", [atFault("scramble", 3, 3, 2, 1, 3)]],
  ["one of a solution", "R\n\nM Q", [atFault("solution", 3, 3, 5, 3, 3)]],
  ["one after signs of several bytes", "1. R // \u00e9\u{1f600}\nR' // done\n\n2. D // \u00e9\u{1f600}\nSolution: D\u2032 Q\n\n3. F", [
    { ...NOTHING, check: { solved: true, moves: 1, cleanMoves: 1, forms: [] } }, atFault("solution", 6, 4, 49, 5, 14), NOTHING,
  ]],
  ["steps of which the first two solve", "R U\n\nU' // one\nR' // two\nD // three", [{
    ...NOTHING, check: { solved: false, moves: 3, cleanMoves: 3, forms: [] }, doubt: doubt("a part", 5, 3, 1),
  }]],
  ["a side without brackets, after signs of several bytes", "R U F\n\nF' // \u{1f600} premoves\nR U", [{
    ...NOTHING, check: { solved: false, moves: 3, cleanMoves: 3, forms: [] }, doubt: doubt("side", 16, 3, 9),
  }]],
  ["moves that are made twice", "R U R U\n\n(U' R')\u00d72", [{
    ...NOTHING, check: { solved: false, moves: 2, cleanMoves: 2, forms: ["brackets"] }, forms: [form("(", "brackets", 9, 3, 1), form(")", "brackets", 15, 3, 7)],
    doubt: doubt("repetition", 16, 3, 8),
  }]],
  ["a mark among moves", "R U F\n\nF' [1] R'\n[1] = U' D D'", [{
    ...NOTHING, check: { solved: false, moves: 5, cleanMoves: 3, forms: [] }, doubt: doubt("insertion", 10, 3, 4),
  }]],
  ["a scramble in small letters", "r u f", [{ ...NOTHING, doubt: doubt("small letters", 0, 1, 1) }]],
  // M r is R, as M is r' R
  ["forms", "R' D\n\nD\u2032 M r", [{
    ...NOTHING,
    check: { solved: true, moves: 4, cleanMoves: 2, forms: ["slices", "lower_case", "apostrophe"] },
    forms: [form("D\u2019", "apostrophe", 6, 3, 1), form("M", "slices", 9, 3, 4), form("r", "lower_case", 11, 3, 6)],
  }]],
];

/** Each attempt of a text: what `check` says of it, or its fault, and where that and the forms stand in the text. */
export async function tryAttempts(nissy) {
  for (const [what, text, wanted] of TEXTS) {
    const told = await nissy.checkAttempts(text);
    same(`attempts of ${what}`, told.map(({ attempt }) => attempt), await nissy.readAttempts(text));
    same(`faults of ${what}`, told.every(({ fault }) => fault === null || fault instanceof NissyFault), true);
    const parts = (fault) => fault && [fault.part, fault.column, fault.character, fault.text];
    same(`checks of ${what}`, told.map(({ check, fault, place, forms, doubt: why }) => ({ check, fault: parts(fault), place, forms, doubt: why })), wanted);
  }
  for (const call of ["plainLine", "readAttempts", "checkAttempts"]) {
    const refused = ["RangeError", "the text has more bytes than the engine reads"];
    same(`${call} of more bytes than are read`, await thrown(() => nissy[call]("\u2019".repeat(5_592_406))), refused);
  }
  // of each of these apostrophes three bytes are made
  const refused = ["RangeError", "the scramble has more bytes than the engine reads"];
  same("a scramble of more bytes than are read", await thrown(() => nissy.checkAttempts("`".repeat(5_592_406))), refused);
  const half = "R \ud800 U // \udc00";
  same("halves of pairs stay", await nissy.plainLine(half), { line: "R \ud800 U ", places: [0, 1, 2, 3, 4, 5], leftOut: ["comments"] });
  await tryTextPlaces(nissy);
  await tryKnown(nissy);
}

/** Many faults and forms, whose places are counted once: one by one those of the forms alone would take minutes. */
async function tryTextPlaces(nissy) {
  const begun = performance.now();
  const many = 100_000;
  const [{ forms }] = await nissy.checkAttempts(`R // \u{1f600}\n\nR\u2032${"()".repeat(many)}`);
  same("so many forms", forms.length, 2 * many + 1);
  same("the place of the last", forms[2 * many].place, { at: 10 + 2 * many, line: 3, column: 2 * many + 2 });
  const faults = await nissy.checkAttempts("1. R \u{1f600}\n".repeat(5_000));
  same("so many faults", faults.filter(({ fault, place }, at) => fault.part === "scramble" && place.line === at + 1 && place.column === 6).length, 5_000);
  same("soon", performance.now() - begun < 60_000, true);
}

/** Solutions of known scrambles: of each row of the table tests/hosts asks. */
async function tryKnown(nissy) {
  const told = await nissy.checkAttempts("2. D' // \u{1f600}\n7. R\n1. F'", { scrambles: ["F", Uint8Array.of(0x44)] });
  const name = ({ attempt, check, doubt: why }) => [attempt.name, attempt.scramble.line, check && check.solved, why];
  same("solutions of known scrambles", told.map(name), [["1.", "F", true, null], ["2.", "D", true, null], ["7.", "", null, doubt("which scramble", 12, 2, 1)]]);
  same("none of none", await nissy.checkAttempts("", { scrambles: [] }), []);
  same("one that is no text", (await nissy.checkAttempts("R", { scrambles: [Uint8Array.of(0x52, 0xff)] }))[0].fault.character, 2);
  const beyond = ["RangeError", "scramble 1 has more bytes than the engine reads"];
  same("one of more bytes than are read", await thrown(() => nissy.checkAttempts("R", { scrambles: ["\u2019".repeat(5_592_406)] })), beyond);
}

/** Pairs of a scramble and a solution: of drawn ones tests/hosts asks. */
export async function tryPairs(nissy) {
  const pairs = [["R U", "U' R'"], ["R", "U\u2019"], [Uint8Array.of(0x52), "M r"]];
  const alone = await Promise.all(pairs.map(([scramble, solution]) => nissy.check(scramble, solution)));
  same("checks of pairs", await nissy.checkAll(pairs), alone);
  same("no pairs", await nissy.checkAll([]), []);
  const told = await nissy.checkAll([["R", "q"], ["R", "R'"], ["q", "q"], ["R", " ".repeat(16_777_217)]]);
  same("faults in their places", told.map(({ message, line, part, solved }) => message ?? solved), [
    "line 1, solution, column 1: not a move", true, "line 3, scramble, column 1: not a move", "line 4: the solution has more bytes than the engine reads",
  ]);
  same("their parts", told.map(({ line, part }) => [line, part]), [[1, "solution"], [undefined, undefined], [3, "scramble"], [undefined, undefined]]);
  const first = ["NissyFault", "line 2, scramble, column 2: not a move"];
  same("the first fault", await thrown(() => nissy.checkAll([["R", "R"], ["Rq", ""], ["q", ""]], { faults: "throw" })), first);
  const many = Array.from({ length: 2_000 }, (_, at) => [TURNS[at % 18], at % 5 === 0 ? "q" : TURNS[at % 6]]);
  const each = await nissy.checkAll(many);
  same("many pairs", each.map((one) => (one instanceof NissyFault ? one.line : one.solved)),
    many.map(([scramble, solution], at) => (at % 5 === 0 ? at + 1 : isUndone(scramble, solution))));
}

/** Whether one turn undoes another. */
const isUndone = (turn, other) => turn[0] === other[0] && [...`${turn} ${other}`.matchAll(/[A-Z](2|'|)/g)].reduce((sum, [, suffix]) => sum + { "": 1, 2: 2, "'": 3 }[suffix], 0) % 4 === 0;

/** A search that looks at 75 positions, with each bound: it is cut exactly below 75, and what it found begins the whole list. */
async function tryEachBound(nissy) {
  const whole = await nissy.solve("eofb", "F B");
  for (let nodes = 0; nodes <= 80; nodes += 1) {
    const count = await nissy.count("eofb", "F B", { nodes, cut: "value" });
    const found = await nissy.solve("eofb", "F B", { nodes, cut: "value" });
    same(`a bound of ${nodes} cuts`, [count.cut, found.cut], nodes < 75 ? [true, true] : [undefined, undefined]);
    same(`a bound of ${nodes} is kept`, count.nodes <= nodes && count.solutions === found.length, true);
    same(`what is found by ${nodes} nodes begins the list`, [...found], whole.slice(0, found.length));
    same(`the least length by ${nodes} nodes`, count.length, found.length === 0 ? null : 2);
  }
  same("a count within its bound", await nissy.count("eofb", "F B", { nodes: 75 }), { length: 2, solutions: 4, nodes: 75 });
  same("solutions within their bound", await nissy.solve("eofb", "F B", { nodes: 75, cut: "value" }), whole);
}

/** Searches that are cut, told as it was chosen. */
export async function tryBounds(nissy) {
  await tryEachBound(nissy);
  const caught = (call) => Promise.resolve().then(call).catch((stop) => stop);
  const cut = await caught(() => nissy.solve("eofb", "F B", { nodes: 74 }));
  same("a cut is thrown", [cut instanceof SearchCut, cut.name, cut.line, cut.count.length], [true, "SearchCut", null, 2]);
  same("and has what was found", [cut.found.length, cut.found[0]], [cut.count.solutions, { moves: "F B", length: 2 }]);
  same("it says after how many nodes", cut.message, `the search was cut after ${cut.count.nodes} nodes`);
  same("that of a count has no solutions", (await caught(() => nissy.count("eofb", "F B", { nodes: 0, cut: "throw" }))).found, null);
  const many = await caught(() => nissy.countAll("eofb", ["", "F B", "F"], { nodes: 30 }));
  same("a cut of many", [many.name, many.line], ["SearchCut", 2]);
  const mixed = await caught(() => nissy.countAll("eofb", ["", "q", "F B", "F"], { nodes: 30 }));
  same("a cut after a fault that is told", [mixed.name, mixed.line], ["SearchCut", 3]);
  const told = await nissy.countAll("eofb", ["", "F B", "F"], { nodes: 30, cut: "value" });
  same("a cut of many, told", told.map((count) => count.cut), [undefined, true, undefined]);
  same("no nodes at all", await nissy.count("eofb", "R U F", { nodes: 0, cut: "value" }), { length: null, solutions: 0, nodes: 0, more: true, cut: true });
  const long = ["R U F2 L D R B", "q"];
  const limited = { slack: 4, cut: "value", nodes: 100_000 };
  same("a long search among many", await nissy.countAll("eo", long.slice(0, 1), limited), [await nissy.count("eo", long[0], limited)]);
  same("and the fault after it", await thrown(() => nissy.countAll("eo", long, { ...limited, faults: "throw" })), ["NissyFault", "line 2, column 1: not a move"]);
  same("a long one that ends", await nissy.countAll("eo", long.slice(0, 1), { slack: 3 }), [await nissy.count("eo", long[0], { slack: 3 })]);
  const endless = await nissy.count("eo", "R U F2 L D R B", { slack: 20, nodes: 1_000_000, cut: "value" });
  same("a search that would take days", [endless.cut, endless.nodes <= 1_000_000], [true, true]);
  for (const most of [0, 3, 4]) {
    const wanted = most < 4 ? { length: 2, solutions: most, more: true } : { length: 2, solutions: 4 };
    const counts = [await nissy.count("eofb", "F B", { most }), ...(await nissy.countAll("eofb", ["F B"], { most }))];
    same(`a count of at most ${most} knows the length`, counts.map(({ nodes, ...others }) => others), [wanted, wanted]);
  }
  same("a count of none that are", (await nissy.count("eofb", "F B", { most: 0, limit: 1 })).length, null);
  same("its length", (await nissy.countAll("eofb", ["F B", "R", "F"], { most: 1 })).map(({ length }) => length), [2, 0, 1]);
  for (const nodes of [-1, 0.5, Number.NaN, 2 ** 53]) {
    same(`${nodes} nodes`, (await thrown(() => nissy.count("eofb", "F", { nodes })))[0], "RangeError");
  }
  for (const nodes of ["1", null, 1n, {}]) {
    same(`no nodes, but ${typeof nodes}`, await thrown(() => nissy.count("eofb", "F", { nodes })), ["TypeError", "the greatest number of nodes is no number"]);
  }
  same("another word for a cut", await thrown(() => nissy.solve("eofb", "F", { cut: "values" })), ["RangeError", 'the option cut is neither "throw" nor "value"']);
  same("no word for faults", await thrown(() => nissy.factsAll([], { faults: true })), ["TypeError", "the option faults is no string"]);
}

const shown = (told) => (told instanceof Error ? told.message : told);

/** Lines of which some are at fault, each of which is told in its place: none ends the rest. */
export async function tryMixed(nissy) {
  const bytes = (text) => new TextEncoder().encode(text);
  const lines = ["F", "R q", "", "R\nU", bytes("F"), bytes("F\n"), "(R", " ".repeat(300_000), bytes("R \u2019"), "F B"];
  const wrong = { 1: "line 2, column 3: not a move", 3: "line 4, column 2: not a move", 5: "line 6, column 2: not a move",
    6: "line 7, column 1: bracket not closed", 8: "line 9, column 3: not a move" };
  const counted = await nissy.countAll("eofb", lines);
  const wanted = await Promise.all(lines.map(async (line, at) => wrong[at] ?? nissy.count("eofb", line)));
  same("counts of lines of which some are at fault", counted.map(shown), wanted);
  same("they are faults", counted.filter((told) => told instanceof NissyFault).map(({ line, column }) => [line, column]),
    [[2, 3], [4, 2], [6, 2], [7, 1], [9, 3]]);
  const seen = await nissy.factsAll(lines);
  same("facts of the same", seen.map(shown), await Promise.all(lines.map(async (line, at) => wrong[at] ?? nissy.facts(line))));
  const found = await nissy.solveAll("eofb", lines, { most: 1 });
  same("solutions of the same", found.map(shown), await Promise.all(lines.map(async (line, at) => wrong[at] ?? nissy.solve("eofb", line, { most: 1 }))));
  const [, start] = await nissy.countAll("dr-eofb", ["", "F", ""]);
  same("a step that can't begin", [start.step, start.start, start.line, start.message], ["dr-eofb", "eofb", 2, "line 2: eofb does not hold"]);
  const many = Array.from({ length: 1_000 }, (_, at) => (at % 7 === 3 ? "q" : TURNS[at % 18]));
  const counts = await nissy.countAll("eofb", many);
  const lengths = counts.map((told) => (told instanceof NissyFault ? told.line : told.length));
  same("a thousand lines, each with its own", lengths, many.map((line, at) => (line === "q" ? at + 1 : Number(/^[FB]'?$/.test(line)))));
  same("facts of no lines", await nissy.factsAll([]), []);
}
