// The engine in a worker of a browser, and in several.
import { WorkerPool } from "./workers/pool.js";
import { WorkerCalls } from "./workers/later-calls.js";
import { listenedTo } from "./workers/worker-queue.js";
import type { ModuleSource } from "./engine/source.js";

export * from "./nissy.js";

const SCRIPT = "worker.js";
const place = () => new URL(SCRIPT, import.meta.url).href;

/** Where the one script of the page's own stands that imports another origin's, from which browsers start no worker. */
let importing: string | null = null;

/** A worker whose script stands beside this file, on the page's server or on another one. */
function besideThis() {
  const { origin } = new URL(import.meta.url);
  if (origin !== "null" && origin !== globalThis.location?.origin) {
    importing ??= URL.createObjectURL(new Blob([`import ${JSON.stringify(place())};`], { type: "text/javascript" }));
    return new Worker(importing, { type: "module" });
  }
  // bundlers know these words, and put the script where they lead
  return new Worker(new URL("./worker.js", import.meta.url), { type: "module" });
}

function workersBy(made: () => Worker) {
  if (typeof made !== "function") throw new TypeError("what makes the worker is no function");
  return listenedTo(made, made === besideThis ? place : undefined);
}

/** The engine in a worker. */
export class NissyWorker extends WorkerCalls {
  /** Starts the engine. Rejects with `NoWebAssembly` if the host runs none, with `EngineMissing` if no worker starts.
   * @param made makes a worker that runs `nissy/worker-script`; else the script that stands beside this file is run */
  static async start(
    source: ModuleSource | Promise<ModuleSource>, made: () => Worker = besideThis,
  ): Promise<NissyWorker> {
    return super.startBy(source, workersBy(made));
  }
}

/** Engines in several workers, which share many lines. */
export class NissyPool extends WorkerPool {
  /** Starts engines, as `NissyWorker.start` starts one. */
  static async start(
    workers: number, source: ModuleSource | Promise<ModuleSource>, made: () => Worker = besideThis,
  ): Promise<NissyPool> {
    return super.startBy(workers, source, workersBy(made));
  }
}
