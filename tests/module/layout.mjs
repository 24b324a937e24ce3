// Holds the layout that the scripts have of the module's structs beside include/nissy.h and nissy_text.h: which structs there are, the names of
// their fields, and where C puts each of them; and what is read of a struct beside what was written.
import { readFileSync } from "node:fs";
import * as layout from "../../build/web/module/shared/layout.js";
import { structOf } from "../../build/web/module/shared/structs.js";
import * as textLayout from "../../build/web/module/text/text-layout.js";
import { ended, moduleBytes, same } from "./tally.mjs";

/** The structs that a caller in JavaScript has otherwise: tables stay in the module's memory, and a check says which part solves. */
const OTHERWISE = ["nissy_part_answer", "nissy_tables"];

const headers = ["nissy.h", "nissy_text.h"].map((name) => readFileSync(new URL(`../../include/${name}`, import.meta.url), "utf8")).join("\n");
const inCamelCase = (name) => name.replace(/_([a-z])/g, (_, letter) => letter.toUpperCase());

/** By its name what each struct of the headers has: its bytes, its alignment, and each field with its place and its bytes. */
const structs = new Map();
for (const [, name, body] of headers.replace(/\/\*[\s\S]*?\*\//g, "").matchAll(/typedef struct (\w+) \{([^}]*)\}/g)) {
  const [fields, made] = [{}, { bytes: 0, alignment: 1 }];
  for (const [, type, field, count = 1] of body.matchAll(/(\w+) \*?(\w+)(?:\[(\d+)\])?;/g)) {
    const bits = /^uint(\d+)_t$/.exec(type)?.[1];
    const { bytes, alignment } = bits ? { bytes: bits / 8, alignment: bits / 8 } : structs.get(type) ?? { bytes: 8, alignment: 8 };
    const at = Math.ceil(made.bytes / alignment) * alignment;
    // what only fills a struct is nobody's
    if (field !== "unused") fields[inCamelCase(field)] = [at, bytes];
    Object.assign(made, { bytes: at + bytes * count, alignment: Math.max(made.alignment, alignment) });
  }
  made.bytes = Math.ceil(made.bytes / made.alignment) * made.alignment;
  structs.set(name, { ...made, fields });
}

/** By the names of the headers what the scripts say of each: a struct of the scripts has its name in capitals. */
const OF_SCRIPTS = Object.fromEntries(Object.entries({ ...layout, ...textLayout }).filter(([, made]) => typeof made === "object")
  .map(([name, made]) => [`nissy_${name.toLowerCase()}`, made]));

same("the structs", Object.keys(OF_SCRIPTS).sort(), [...structs.keys()].filter((name) => !OTHERWISE.includes(name)).sort());
for (const [name, { bytes, alignment, at, width, read }] of Object.entries(OF_SCRIPTS)) {
  const wanted = structs.get(name);
  const fields = Object.fromEntries(Object.keys(at).map((field) => [field, [at[field], width[field]]]));
  same(`${name}: its bytes and its alignment`, [bytes, alignment], [wanted.bytes, wanted.alignment]);
  same(`${name}: its fields`, fields, wanted.fields);
  // what is read of a struct is what was written there, of each field another number
  const numbers = Object.fromEntries(Object.keys(read).map((field, nth) => [field, 2 ** (8 * width[field] - 8 * Math.floor(width[field] / 8) - 1) - 1 - nth]));
  const made = structOf(OF_SCRIPTS[name], numbers);
  same(`${name}: what is read of it`, Object.fromEntries(Object.keys(read).map((field) => [field, read[field](made, 0)])), numbers);
}

// the exports of the module are the calls of the headers, each with the place of its answer first, but as web/module/ABI.md says
const { exports } = await WebAssembly.instantiate(await WebAssembly.compile(moduleBytes));
const OWN = { nissy_run: 10, nissy_build: 5 };
const declared = [...headers.replace(/\/\*[\s\S]*?\*\//g, "").matchAll(/\b(nissy_\w+)\(([^)]*)\);/g)].filter(([, name]) => name !== "nissy_version");
same("the calls of the module, each with how many arguments it takes",
  Object.entries(exports).filter(([name]) => name.startsWith("nissy_")).map(([name, { length }]) => [name, length]).sort(),
  declared.map(([, name, taken]) => [name, OWN[name] ?? taken.split(",").length + 1]).sort());
ended();
