// Watches the workers, so that the page never waits without a word: one may fail, and one that ended may say nothing.
import { listenedTo, type NewWorker } from "../../module/workers/worker-queue.js";
import { part } from "./element.js";
import { engineFails } from "./words.js";

/** How long a worker that was asked something may be silent, in milliseconds. */
const PATIENCE = 20_000;
const SILENT = `The engine has given no answer for ${PATIENCE / 1000} seconds. `
  + "It may still be at work, or it has ended without a word.";

/** Says what failed, beside a button that tries it again, if that may help; no words take both away. */
export function tellFailed(words: string) {
  part("failed").hidden = words === "";
  part("failed-words").textContent = words;
  part("again").hidden = !globalThis.WebAssembly;
}

const silent = new Set<Silence>();

class Silence {
  #timer = 0;

  begin() {
    this.end();
    this.#timer = setTimeout(() => {
      silent.add(this);
      tellFailed(SILENT);
    }, PATIENCE);
  }

  end() {
    clearTimeout(this.#timer);
    // what it said late is an answer too
    if (silent.delete(this) && silent.size === 0) tellFailed("");
  }
}

/** What starts a worker of which the page says that it failed, or that it is silent. What it is sent waits for it. */
export function watched(made: () => Promise<Worker>): NewWorker {
  return (took, failed) => {
    const silence = new Silence();
    const fails = ({ message }: { message: string }) => {
      silence.end();
      tellFailed(engineFails(message));
      failed(message);
    };
    const listens = (worker: Worker) => listenedTo(() => worker)((data) => {
      // of the best it tells some after the other
      if ("progress" in data) silence.begin();
      else silence.end();
      took(data);
    }, (message) => fails({ message }));
    const started = made().then(listens);
    started.catch(fails);
    return {
      postMessage: (message: object) => {
        started.then((worker) => worker.postMessage(message), () => {});
        // what brings the module has no answer
        if ("request" in message) silence.begin();
      },
      terminate: () => {
        silence.end();
        started.then((worker) => worker.terminate(), () => {});
      },
    };
  };
}
