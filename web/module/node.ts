// nissy in node: the module is a file, and a worker is a thread.
import { readFile } from "node:fs/promises";
import { Worker } from "node:worker_threads";
import { Nissy } from "./nissy.js";
import { WorkerPool } from "./workers/pool.js";
import { WorkerCalls } from "./workers/later-calls.js";
import type { ModuleSource } from "./engine/source.js";
import type { NewWorker } from "./workers/worker-queue.js";

export * from "./nissy.js";

const besideThis = (): Promise<ModuleSource> => readFile(new URL("./nissy.wasm", import.meta.url));

/** A thread, which keeps the process alive as long as it has a call to answer. */
const newThread: NewWorker = (took, failed) => {
  const worker = new Worker(new URL("./worker-node.js", import.meta.url));
  let calls = 0;
  worker.on("message", (data) => {
    // the answer is still to come
    if (!Object.hasOwn(data, "progress")) calls -= 1;
    if (calls === 0) worker.unref();
    took(data);
  });
  worker.on("error", (error) => failed(error.message));
  return {
    postMessage: (message) => {
      // what brings the module has no answer
      if (Object.hasOwn(message as object, "id")) calls += 1;
      worker.ref();
      worker.postMessage(message);
    },
    terminate: () => void worker.terminate(),
  };
};

/** Loads the engine, by the module beside this file if no other is given. */
export const loadNissy = async (source: ModuleSource | Promise<ModuleSource> = besideThis()): Promise<Nissy> =>
  Nissy.load(source);

/** The engine in a thread. */
export class NissyWorker extends WorkerCalls {
  /** Starts the engine, by the module beside this file if no other is given. `EngineMissing`: no thread can start. */
  static async start(source: ModuleSource | Promise<ModuleSource> = besideThis()): Promise<NissyWorker> {
    return super.startBy(source, newThread);
  }
}

/** Engines in several threads, which share many lines. */
export class NissyPool extends WorkerPool {
  /** Starts engines, as `NissyWorker.start` starts one. */
  static async start(workers: number, source: ModuleSource | Promise<ModuleSource> = besideThis()): Promise<NissyPool> {
    return super.startBy(workers, source, newThread);
  }
}
