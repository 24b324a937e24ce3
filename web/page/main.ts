// Starts the page: the worker's script and the module, compiled once for all workers, stand in it, packed by gzip.
import { compiled } from "../module/engine/source.js";
import { Calls, workersOf } from "./shared/questions.js";
import { part } from "./shared/element.js";
import { Page } from "./page.js";
import { Reader } from "./shared/reader.js";
import { offerCover } from "./shared/rows.js";
import { offerThemes, placeHelp } from "./shared/view.js";
import type { SentModule } from "../module/workers/worker-queue.js";

/** The bytes of something that is packed. @param name the name of its element */
async function unpacked(name: string) {
  const base64 = part(name).textContent.trim();
  const text = Uint8Array.fromBase64 ? "" : atob(base64);
  const packed = Uint8Array.fromBase64?.(base64) ?? new Uint8Array(text.length);
  // a call for each byte would take as long as all the rest here
  for (let at = 0; at < text.length; at += 1) packed[at] = text.charCodeAt(at);
  const { readable, writable } = new DecompressionStream("gzip");
  const writer = writable.getWriter();
  writer.write(packed);
  writer.close();
  return new Uint8Array(await new Response(readable).arrayBuffer());
}

async function start([module, newWorker]: [SentModule, () => Promise<Worker>]) {
  const page = new Page(() => new Calls(newWorker, module), await Reader.start(module));
  addEventListener("popstate", ({ state }) => page.returnTo(state));
  addEventListener("hashchange", () => page.begin(location.hash));
  page.begin(location.hash);
}

// the first worker starts while the module is compiled
const workers = unpacked("worker-script").then((script) => workersOf(new TextDecoder().decode(script)));
part("unstarted").remove();
offerThemes();
offerCover();
placeHelp();
// if it can't be compiled each worker says why, once it is asked
const module = unpacked("engine-module").then((bytes) => compiled(bytes).catch(() => bytes));
Promise.all([module, workers]).then(start);
