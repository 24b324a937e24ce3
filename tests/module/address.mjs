// The state of the page in its address: what is drawn is written and read the same, and of any other text what is read of it.
//
//     node tests/module/address.mjs MODULE
import { addressOf, emptyState, readAddress } from "../../build/web/page/state/address.js";
import { ORIENTATIONS, REDUCTIONS } from "../../build/web/page/shared/offered-steps.js";
import { TURNS, drawn, ended, same } from "./tally.mjs";

const STATES = 4_000;
const TEXTS = 20_000;
const SIDES = ["normal", "inverse"];
// signs that an address has for itself, that it escapes, of two units, and halves of such
const SIGNS = [..."RUF'2()_-~.,;&=#%+ \u2019\u00e9\u754c", "\u{1f9e9}", "\ud83e", "\udde9", "%ED%A0%80", "%F0%9F%A7%A9", "%"];
const PIECES = ["&scramble=", "&steps=", "&side=", "&list=", "&longer=", "&kept=", "normal.", "inverse.", "eofb", "R_U", "all", ...SIGNS];

const some = (all, most) => Array.from({ length: drawn(most) }, () => all[drawn(all.length)]);
const one = (all) => all[drawn(all.length)];
const drawnMoves = () => [one(TURNS), ...some(TURNS, 6)].join(" ");
/** Steps on one side, or on both. */
const drawnParts = () => Array.from({ length: drawn(4) }, () => one([
  { normal: drawnMoves(), inverse: "" }, { normal: "", inverse: drawnMoves() }, { normal: drawnMoves(), inverse: drawnMoves() },
]));

const drawnList = () => ({
  step: one([...ORIENTATIONS, ...REDUCTIONS]).name, side: one([...SIDES, "both"]), slack: drawn(4), isAll: drawn(2) === 0,
});

const drawnState = () => ({
  scramble: some(SIGNS, 20).join("").trim(),
  parts: drawnParts(),
  side: one(SIDES),
  list: drawn(2) === 0 ? null : drawnList(),
  kept: Array.from({ length: drawn(3) }, () => ({ parts: [{ normal: "R", inverse: "" }, ...drawnParts()], note: some(SIGNS, 5).join(""), next: "" })),
  longer: drawn(4),
});

/** A text whose lone halves of pairs are what stands for them. */
const wellFormed = (text) => text.replace(/[\ud800-\udfff]/gu, "\ufffd");
const read = (state) => ({ ...state, scramble: wellFormed(state.scramble), kept: state.kept.map((each) => ({ ...each, note: wellFormed(each.note) })) });

for (let at = 0; at < STATES; at += 1) {
  const state = drawnState();
  same(`${JSON.stringify(state)} is read as it was written`, readAddress(addressOf(state)), { state: read(state), fault: "" });
}
/** An address in which some places are others. */
function damaged(address) {
  let text = address;
  for (let left = 1 + drawn(3); left > 0; left -= 1) {
    const at = 1 + drawn(text.length);
    text = text.slice(0, at) + some(PIECES, 3).join("") + text.slice(at + drawn(4));
  }
  return text;
}

let taken = 0;
for (let at = 0; at < TEXTS; at += 1) {
  const text = damaged(addressOf(drawnState()));
  const { state } = readAddress(text);
  if (addressOf(state) !== addressOf(emptyState())) taken += 1;
  same(`what is read of ${JSON.stringify(text)} is written and read the same`, readAddress(addressOf(state)), { state, fault: "" });
}
same(`something is read of many texts: ${taken}`, taken > TEXTS / 2, true);
same("a lone half of a pair", readAddress("#scramble=R_\ud83e").state.scramble, "R \ufffd");
ended();
