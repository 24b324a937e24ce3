// What a user of the package imports: it prints a line of each export.
import { readFileSync } from "node:fs";
import { createRequire } from "node:module";
import { Nissy } from "nissy";
import { loadNissy, NissyWorker } from "nissy/node";
import { NissyWorker as NissyWorkerOfBrowsers } from "nissy/worker";

const moduleFile = createRequire(import.meta.url).resolve("nissy/nissy.wasm");
console.log((await Nissy.load(readFileSync(moduleFile))).invert("R U' F2"));
console.log((await loadNissy()).count("eofb", "F B"));
const worker = await NissyWorker.start();
console.log(await worker.solve("drud-eofb", "R U"));
worker.end();
console.log(Object.getPrototypeOf(NissyWorkerOfBrowsers) === Object.getPrototypeOf(NissyWorker));
for (const made of [[], [null]]) console.log(await NissyWorkerOfBrowsers.start(readFileSync(moduleFile), ...made).catch(String));
for (const inner of ["nissy/engine/engine.js", "nissy/command/command.js"]) console.log(await import(inner).catch(({ code }) => code));
