// Times calls of the module on one line each, by the steps and their lines that standard input names as JSON: microseconds a call, the
// least of many rounds, once the tables are built.
//
//     node bench/module.mjs MODULE
import { readFileSync } from "node:fs";
import { performance } from "node:perf_hooks";
import { Nissy } from "../build/web/module/nissy.js";

const ROUNDS = 200;

/** The least time of a call on each of the lines. */
function leastOf(lines, call) {
  let least = Infinity;
  for (let round = 0; round < ROUNDS; round += 1) {
    const begun = performance.now();
    for (const line of lines) call(line);
    least = Math.min(least, (performance.now() - begun) / lines.length);
  }
  return 1_000 * least;
}

const nissy = await Nissy.load(readFileSync(process.argv[2]));
for (const [step, lines] of Object.entries(JSON.parse(readFileSync(0, "utf8")))) {
  const begun = performance.now();
  nissy.count(step, "");
  const built = performance.now() - begun;
  const solve = leastOf(lines, (line) => nissy.solve(step, line));
  const count = leastOf(lines, (line) => nissy.count(step, line));
  const times = `tables ${built.toFixed(1)} ms, solve ${solve.toFixed(1)} us, count ${count.toFixed(1)} us a line`;
  console.log(`node      ${step.padEnd(22)} ${times}`);
}
