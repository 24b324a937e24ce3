// What is asked of one worker or several: it waits in one queue, from which each worker that is idle has the next
// request. What runs is stopped by ending its worker, and the next request starts another.
import { EngineMissing, Stopped } from "../shared/faults.js";
import type { Follow, Progress } from "../calls/signals.js";
import type { Told } from "./serve.js";
import type { Request } from "../calls/requests.js";

/** What a worker can be sent: the module compiled, or its bytes, which it compiles then. */
export type SentModule = WebAssembly.Module | ArrayBuffer | Uint8Array;

type Started = { postMessage: (message: object) => void; terminate: () => void };

/** Starts a worker whose messages are taken, and of which it is told that it failed. */
export type NewWorker = (took: (data: Told) => void, failed: (message: string) => void) => Started;

/** A call, whose requests are given up together; none is sent once it is over. */
export type Call = { isOver?: boolean };

type Asked = {
  id: number;
  request: Request;
  call: Call;
  follow: Follow;
  answered: (reply: any) => void;
  refused: (reason: unknown) => void;
};

/** A worker, if it is started, and what it has, the one that runs first. */
type Seat = { worker: Started | null; sent: Asked[] };

/** How many pieces of a call a worker has: it needs not wait for the second one when it ends the first. */
const MOST_SENT = 2;

/** Whether a request is sent while another one runs: both are pieces of a call. */
const followsAtOnce = ({ call }: Asked, next: Asked) =>
  next.request.call === "all" && next.request.isPiece === true && next.call === call;

const errorOf = ({ name, message }: Told["error"]): Error =>
  (name === "RangeError" ? new RangeError(message) : new EngineMissing(message));

/** What starts a worker of a browser. */
export function listenedTo(made: () => Worker, place?: () => string): NewWorker {
  return (took, failed) => {
    const worker = made();
    worker.addEventListener("message", ({ data }) => took(data));
    worker.addEventListener("error", (event) => {
      event.preventDefault();
      // browsers have no message for a script that can't be had
      const from = place ? ` from ${place()}` : "";
      failed(event.message || `the worker's script, or one that it imports, can't be loaded${from}`);
    });
    return worker;
  };
}

export class WorkerQueue {
  #seats: Seat[];
  #waiting: Asked[] = [];
  #next = 0;

  /** @param workers how many, each of which is started by the first request that it has */
  constructor(private module: SentModule, private newWorker: NewWorker, workers = 1) {
    this.#seats = Array.from({ length: workers }, () => ({ worker: null, sent: [] }));
  }

  async answer(request: Request, call: Call = {}, follow: Follow = () => {}): Promise<any> {
    if (call.isOver) throw new Stopped();
    return new Promise((answered, refused) => {
      this.#waiting.push({ id: this.#next++, request, call, follow, answered, refused });
      this.#sendNext();
    });
  }

  giveUp(call: Call, reason: unknown) {
    call.isOver = true;
    this.#giveUp((asked) => asked.call === call, reason);
  }

  drop() {
    for (const { refused } of this.#waiting.splice(0)) refused(new Stopped());
  }

  stop() {
    this.#giveUp(() => true, new Stopped());
  }

  end() {
    for (const seat of this.#seats) this.#waiting.push(...this.#ended(seat));
    this.drop();
  }

  #giveUp(isGivenUp: (asked: Asked) => boolean, reason: unknown) {
    const ended = this.#seats.flatMap((seat) => (seat.sent.some(isGivenUp) ? this.#ended(seat) : []));
    const all = [...ended, ...this.#waiting];
    this.#waiting = all.filter((asked) => !isGivenUp(asked));
    for (const { refused } of all.filter(isGivenUp)) refused(reason);
    // in a moment: what gives this up may give up others too
    queueMicrotask(() => this.#sendNext());
  }

  #ended(seat: Seat): Asked[] {
    seat.worker?.terminate();
    seat.worker = null;
    return seat.sent.splice(0);
  }

  #sendNext() {
    while (this.#waiting.length > 0) {
      const seat = this.#ready(this.#waiting[0]);
      if (seat === undefined) return;
      this.#send(seat, this.#waiting.shift() as Asked);
    }
  }

  #ready(next: Asked): Seat | undefined {
    return this.#seats.find(({ sent }) => sent.length === 0)
      ?? this.#seats.find(({ sent }) => sent.length < MOST_SENT && followsAtOnce(sent[0], next));
  }

  #send(seat: Seat, asked: Asked) {
    seat.sent.push(asked);
    try {
      seat.worker ??= this.#started(seat);
      seat.worker.postMessage({ id: asked.id, request: asked.request });
    } catch (error) {
      this.#fail(seat, new EngineMissing((error as Error).message, error));
    }
  }

  #started(seat: Seat): Started {
    // one that was ended while it loaded says nothing of the next one
    const isThisOne = () => worker === seat.worker;
    const worker = this.newWorker(
      (data) => isThisOne() && this.#hear(seat, data),
      (message) => isThisOne() && this.#fail(seat, new EngineMissing(message)),
    );
    worker.postMessage({ module: this.module });
    return worker;
  }

  /** Ends a worker that failed, and refuses what it had, and what waits if there is no other worker. */
  #fail(seat: Seat, reason: Error) {
    const failed = this.#ended(seat);
    if (this.#seats.every(({ worker }) => worker === null)) failed.push(...this.#waiting.splice(0));
    for (const { refused } of failed) refused(reason);
  }

  #hear(seat: Seat, data: Told) {
    const [asked] = seat.sent;
    if (asked?.id !== data.id) return;
    if (Object.hasOwn(data, "progress")) return void this.#follow(asked, data.progress);
    seat.sent.shift();
    if (Object.hasOwn(data, "error")) asked.refused(errorOf(data.error));
    else asked.answered(data.reply);
    this.#sendNext();
  }

  /** Tells how far a request is, which what it throws, or rejects, gives up. */
  async #follow(asked: Asked, progress: Progress) {
    try {
      await asked.follow(progress);
    } catch (reason) {
      this.#giveUp((other) => other === asked, reason);
    }
  }
}
