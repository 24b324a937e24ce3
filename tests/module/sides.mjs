// Tries solutions over both sides of a line: beside all pairs of few turns, each tried by the calls on one line; those on one side beside the list of
// that side; cut, in pieces, in workers, of many lines; and what no call takes.
//
//     node tests/module/sides.mjs MODULE
import { NissyPool, NissyWorker } from "../../build/web/module/node.js";
import { Nissy, SearchCut } from "../../build/web/module/nissy.js";
import { TURNS, ended, moduleBytes, same, thrown } from "./tally.mjs";

const nissy = await Nissy.load(moduleBytes);
const OPPOSITE = { U: "D", D: "U", R: "L", L: "R", F: "B", B: "F" };
// orientations of few turns, on each side and on both
const SCRAMBLES = ["R U F", "F R", "R F U' R", "F R' (U)"];

/** Whether a turn may follow another one: not of the same face, and of opposite ones in turn order alone. */
const mayFollow = (last, turn) => last === undefined || (last[0] !== turn[0] && !(OPPOSITE[last[0]] === turn[0] && "DLB".includes(last[0])));

/** All lines of so many turns. */
function linesWith(count) {
  if (count === 0) return [[]];
  return linesWith(count - 1).flatMap((line) => TURNS.filter((turn) => mayFollow(line.at(-1), turn)).map((turn) => [...line, turn]));
}
const LINES = [0, 1, 2, 3].map(linesWith);

const written = (normal, inverse) => [normal.join(" "), inverse.length > 0 ? `(${inverse.join(" ")})` : ""].filter(Boolean).join(" ");

/** All pairs of so many turns that reach a step by their last ones, on some sides. */
function pairsWith(scramble, step, length, sides) {
  const reaches = (normal, inverse) => nissy.facts(nissy.lineAfter(scramble, written(normal, inverse))).holds.includes(step);
  const isEarlier = (normal, inverse) => normal.some((_, at) => reaches(normal.slice(0, at), inverse))
    || inverse.some((_, at) => [...normal, ""].some((__, of) => reaches(normal.slice(0, of), inverse.slice(0, at))));
  const found = [];
  for (let count = 0; count <= length; count += 1) {
    if ((sides === "normal" && count < length) || (sides === "inverse" && count > 0)) continue;
    for (const normal of LINES[count]) {
      for (const inverse of LINES[length - count]) if (reaches(normal, inverse) && !isEarlier(normal, inverse)) found.push(written(normal, inverse));
    }
  }
  return found;
}

/** All solutions of the least length that is at most two, and of those of one turn more. */
function tryPairs(scramble, step, sides) {
  const lengths = [0, 1, 2, 3].map((length) => pairsWith(scramble, step, length, sides));
  const least = lengths.findIndex((each) => each.length > 0);
  if (least < 0 || least > 2) return 0;
  for (const slack of [0, 1]) {
    const wanted = lengths.slice(least, least + slack + 1).flat();
    const solutions = nissy.solve(step, scramble, { sides, slack });
    const what = `${step} after ${scramble}, ${sides}, slack ${slack}`;
    same(what, solutions.map(({ moves }) => moves).sort(), wanted.sort());
    same(`${what}: by length`, solutions.map(({ length }) => length), solutions.map(({ length }) => length).sort((one, other) => one - other));
    same(`${what}: their parts`, solutions.map((it) => [it.step, written([it.normal].filter(Boolean), [it.inverse].filter(Boolean))]), solutions.map(({ moves }) => [step, moves]));
    same(`${what}: each of their twins is there`, solutions.filter(({ normal, inverse, twins }) => twins.length > 0 && !twins.every((twin) => {
      const ends = [twin.replace(/\(.*/, "").trim(), twin.match(/\((.*)\)/)?.[1] ?? ""].map((end) => end.split(" ").filter(Boolean));
      const other = [normal, inverse].map((moves, at) => moves.split(" ").filter(Boolean).slice(0, -ends[at].length || undefined).concat(ends[at]));
      return wanted.includes(written(...other));
    })), []);
    same(`${what}: the first of them`, nissy.solve(step, scramble, { sides, slack, most: 3 }), solutions.slice(0, 3));
  }
  return 1;
}

/** On one side they are those of that side, but for what reaches the step earlier. */
function tryOneSide(line, step) {
  for (const [sides, on] of [["normal", line], ["inverse", nissy.invert(line)]]) {
    const solutions = nissy.solve(step, line, { sides });
    const plain = nissy.solve(step, on).map(({ moves }) => (sides === "normal" ? moves : `(${moves})`));
    same(`${step} after ${line}, ${sides}`, solutions.map(({ moves }) => moves), plain);
  }
  const both = nissy.solve(step, line, { sides: "both", slack: 2 });
  same(`${step}: both is no longer`, both[0].length <= Math.min(...[line, nissy.invert(line)].map((each) => nissy.count(step, each, { most: 1 }).length)), true);
  // more than come at once
  same(`${step}: each once`, new Set(both.map(({ moves }) => moves)).size, both.length);
  return both.length;
}

/** The moves name the faces by the centres, as those on the line do, also if the line turns them. */
function tryTurned(line) {
  const clean = nissy.lineAfter(line);
  for (const step of ["eofb", "eorl", "eoud"]) {
    const plain = nissy.solve(step, line).map(({ moves }) => moves);
    same(`${step} after ${line}`, nissy.solve(step, line, { sides: "normal" }).map(({ moves }) => moves), plain);
    for (const sides of ["normal", "inverse", "both"]) {
      const solutions = nissy.solve(step, line, { sides, slack: 1 });
      same(`${step} after ${line}, ${sides}`, solutions, nissy.solve(step, clean, { sides, slack: 1 }));
      const reach = solutions.filter(({ moves }) => nissy.facts(nissy.lineAfter(clean, moves)).holds.includes(step));
      same(`after ${clean} each reaches it`, [reach.length > 0, reach.length], [true, solutions.length]);
    }
  }
}

/** What is said of a list: whether there are others, and how far it looked. */
function trySaid(step, line) {
  const whole = nissy.solve(step, line, { sides: "both", slack: 1 });
  for (const most of [0, 1, whole.length - 1, whole.length, whole.length + 1]) {
    const some = nissy.solve(step, line, { sides: "both", slack: 1, most });
    same(`at most ${most}`, [[...some], some.more], [whole.slice(0, most), most < whole.length]);
  }
  same("as many nodes as it needs", nissy.solve(step, line, { sides: "both", slack: 1, nodes: whole.nodes }).nodes, whole.nodes);
  const cut = nissy.solve(step, line, { sides: "both", slack: 1, nodes: whole.nodes - 1, cut: "value" });
  same("a node less", [cut.cut, cut.more, cut.nodes < whole.nodes], [true, true, true]);
  same("within a limit there are no others", nissy.solve(step, line, { sides: "both", limit: whole[0].length, slack: 1, most: whole.length }).more, false);
}

/** What is cut, of many lines, in workers, and what no call takes. */
async function tryRest() {
  const wanted = nissy.solve("eofb", "R U F", { sides: "both", slack: 1 });
  // enough for the shortest, and not for those that are longer
  const nodes = 60;
  const [worker, pool] = [await NissyWorker.start(moduleBytes), await NissyPool.start(2, moduleBytes)];
  for (const engine of [nissy, worker, pool]) {
    same("by each engine", await engine.solve("eofb", "R U F", { sides: "both", slack: 1 }), wanted);
    same("of many lines", (await engine.solveAll("eofb", ["R U F", "q", "R U F"], { sides: "both", slack: 1 })).filter(Array.isArray), [wanted, wanted]);
    const cut = await engine.solve("eofb", "R U F", { sides: "both", slack: 1, nodes, cut: "value" });
    same("cut", [cut.cut, [...cut]], [true, wanted.slice(0, cut.length)]);
    same("a cut that is thrown", (await thrown(() => engine.solve("eofb", "R U F", { sides: "both", nodes: 1 })))[0], "SearchCut");
    same("a fault", await thrown(() => engine.solve("eofb", "R q", { sides: "both" })), ["NissyFault", "column 3: not a move"]);
    same("a step that can't begin", await thrown(() => engine.solve("drud-eofb", "F", { sides: "both" })), ["NissyFault", "eofb does not hold"]);
    same("no step", (await thrown(() => engine.solve("eoxy", "F", { sides: "both" })))[0], "RangeError");
    for (const wrong of ["", "Both", "left"]) same(`sides of ${wrong}`, (await thrown(() => engine.solve("eofb", "F", { sides: wrong })))[0], "RangeError");
    for (const wrong of [3, null, {}]) same(`sides of ${wrong}`, (await thrown(() => engine.solve("eofb", "F", { sides: wrong })))[0], "TypeError");
  }
  const { count, found } = await Promise.resolve().then(() => nissy.solve("eofb", "R U F", { sides: "both", slack: 1, nodes })).catch((error) => error);
  same("what was found until a cut", [found.length, count.solutions, count.nodes <= nodes], [count.solutions, found.length, true]);
  same("a bound that is none", nissy.solve("eofb", "R U F", { sides: "both", slack: 1, nodes: 10_000 }), wanted);
  same("none", nissy.solve("eofb", "R U F", { sides: "both", most: 0 }), []);
  same("none of a line at fault", (await thrown(() => nissy.solve("eofb", "q", { sides: "both", most: 0 })))[1], "column 1: not a move");
  same("within a limit", nissy.solve("eofb", "F R U F' L B", { sides: "both", limit: 0 }), []);
  same("an error of its own", new SearchCut(count, found) instanceof Error, true);
  worker.end();
  pool.end();
}

const tried = SCRAMBLES.flatMap((scramble) => ["eofb", "eorl", "eoud"].flatMap((step) => ["normal", "inverse", "both"].map((sides) => tryPairs(scramble, step, sides))));
same("enough pairs", tried.reduce((sum, each) => sum + each) > 20, true);
const scramble = nissy.scramble(20261127, 1, 25);
const counts = ["eofb", "eorl", "eoud"].map((step) => tryOneSide(scramble, step));
same("more than come at once", Math.max(...counts) > 4_096, true);
for (const line of ["y R U F x", "x F", "M F", "F (Rw U) z", "(F z R)", "R' z (U F)"]) tryTurned(line);
for (const [step, line] of [["eofb", "R U F"], ["eoud", "x F"], ["drud-eofb", "R U R"]]) trySaid(step, line);
await tryRest();
ended();
