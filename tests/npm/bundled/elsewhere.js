// A page that takes scripts and module from another server, whose address stands after its own.
const server = location.search.slice(1);
const { NissyWorker } = await import(`${server}browser.js`);
const nissy = await NissyWorker.start(fetch(`${server}nissy.wasm`));
const stop = new AbortController();
const running = nissy.count("eo", "R U F2 L D R B", { slack: 14, signal: stop.signal }).catch(({ name }) => name);
setTimeout(() => stop.abort(), 100);
const stopped = await running;
// by a second worker
window.seen = [stopped, await nissy.invert("R U' F2")].join(", ");
