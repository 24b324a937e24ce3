// Several workers that share many lines: these go to them in pieces, and the answers come back in the order of the
// lines; the axes of the best are shared too. Another call goes to the first worker that has nothing to do.
import { ToldLines, endsAll, type AllRequest, type ReadOne } from "../calls/many.js";
import { bestIn, type Best, type BestReply } from "../calls/replies.js";
import { compiled, type ModuleSource } from "../engine/source.js";
import { STATUS } from "../shared/structs.js";
import { wholeNumber } from "../shared/bytes.js";
import { byRank } from "../shared/ways.js";
import { LaterCalls, unshared, type Ask } from "./later-calls.js";
import type { NewWorker, SentModule } from "./worker-queue.js";
import type { RequestOf } from "../calls/requests.js";
import type { Follow, Progress } from "../calls/signals.js";
import type { PieceReply } from "./serve.js";

const MOST_WORKERS = 1_024;

const sumOf = (each: Progress[]): Progress => ({
  done: each.reduce((sum, { done }) => sum + done, 0),
  all: each.reduce((sum: number | null, { all }) => (sum === null || all === null ? null : sum + all), 0),
});

/** What is told of all axes together. */
function joinedBest(replies: BestReply[], request: RequestOf<"best">): Best {
  const nodes = replies.reduce((sum, reply) => sum + ("nodes" in reply ? reply.nodes : 0), 0);
  // of all together, which may be cut though no axis is
  const last = nodes > request.nodes ? [{ status: STATUS.cut, ways: new Uint8Array(0), tried: 0, nodes }] : [];
  const found = [...replies, ...last].map((reply) => bestIn("nodes" in reply ? { ...reply, nodes } : reply, request));
  const best: Best = Object.assign(found.flat().sort(byRank).slice(0, request.most), { nodes });
  if (found.some(({ cut }) => cut)) best.cut = true;
  return best;
}

/** Asks for the best of some axes each: in as many requests as there are workers, so that each soon knows how many
 * orientations it has. A bound is for each axis by itself. */
function repliesOfAxes(workers: number, whole: RequestOf<"best">, ask: Ask, tell: Follow): Promise<BestReply[]> {
  const { axes, nodes } = whole;
  const shares = nodes === Infinity ? Math.min(workers, axes.length) : axes.length;
  const progress = new Array<Progress>(shares).fill({ done: 0, all: null });
  const shared = progress.map((_, at) => axes.filter((__, place) => place % shares === at));
  return Promise.all(shared.map((own, at) => ask({ ...whole, axes: own }, (told) => {
    progress[at] = told;
    return tell(sumOf(progress));
  })));
}

/** The lines of the first pieces, and the most of any. */
const FIRST_LINES = 16;
const MOST_LINES = 4_096;

/** A piece that takes fewer milliseconds has more lines follow, one that takes more half as many: so a worker seldom
 * waits for the next one, and none long for the last one of another. */
const SHORT = 10;
const LONG = 40;
/** So many times as many follow at most. */
const GROWTH = 4;

/** So many quick lines are worth a piece; of those that are left each worker gets so many pieces or more. */
const QUICK_LINES = 64;
const PIECES = 2;

type Piece = { begin: number; end: number };

/** Many lines in pieces: which of them are asked for next, and what is told of them. */
class Pieces {
  #told: ToldLines;
  /** What was begun and isn't told. */ #open = new Set<Piece>();
  /** how many lines are in a piece */ #begun = 0;
  /** how many lines are wanted: none after a piece with a reply that ends the call */ #wanted = Infinity;
  #hasFirst = false;
  #size = FIRST_LINES;
  #least = 1;
  #done = 0;
  #isQuick = false;

  constructor(private request: AllRequest, private workers: number, one: ReadOne) {
    this.#told = new ToldLines(request, one);
  }

  /** How many pieces the workers have: each a second one, if they are quick, to go on with while this thread reads the
   * first one's answer. After a slow one it would wait though another worker may be idle. */
  get atOnce() {
    return (this.#isQuick ? 2 : 1) * this.workers;
  }

  /** @returns a piece that nobody has, or null if there is none */
  next(): Piece | null {
    const begin = this.#begun;
    const left = this.request.lines.length - begin;
    // a step that isn't there is told though there may be no line
    if (begin >= this.#wanted || (left === 0 && this.#hasFirst)) return null;
    this.#hasFirst = true;
    const shared = Math.max(this.#least, Math.ceil(left / (PIECES * this.workers)));
    this.#begun += Math.min(left, shared, this.#size);
    const piece = { begin, end: this.#begun };
    this.#open.add(piece);
    return piece;
  }

  requestOf({ begin, end }: Piece): AllRequest {
    return { ...this.request, lines: this.request.lines.slice(begin, end), isPiece: true };
  }

  /** Learns from a reply how many lines the next pieces have, if any: several as long make them shorter once. */
  hear({ begin, end }: Piece, { others, milliseconds }: PieceReply) {
    if (others.some(([, reply]) => endsAll(this.request, reply))) this.#wanted = Math.min(this.#wanted, end);
    const lines = end - begin;
    this.#isQuick = milliseconds <= LONG;
    if (milliseconds > LONG) this.#size = Math.min(this.#size, Math.max(1, Math.floor(lines / 2)));
    if (milliseconds >= SHORT) return;
    const growth = GROWTH * milliseconds < SHORT ? GROWTH : 2;
    this.#size = Math.max(this.#size, Math.min(MOST_LINES, growth * lines));
    this.#least = QUICK_LINES;
  }

  take(piece: Piece, reply: PieceReply) {
    this.#told.take(piece.begin, reply);
    this.#done += piece.end - piece.begin;
    this.#open.delete(piece);
  }

  /** Whether all is told that is wanted. */
  areWhole() {
    const areBegun = this.#begun >= Math.min(this.#wanted, this.request.lines.length);
    return areBegun && [...this.#open].every(({ begin }) => begin >= this.#wanted);
  }

  told(): unknown[] {
    return this.#told.all();
  }

  progress(): Progress {
    return { done: this.#done, all: this.request.lines.length };
  }
}

/** Asks for pieces of many lines, until all is told that is wanted: what comes after a fault isn't waited for. */
const askAll = (pieces: Pieces, ask: Ask, tell: Follow) => new Promise<void>((whole, failed) => {
  let asked = 0;
  const next = () => (asked < pieces.atOnce ? pieces.next() : null);
  const askMore = () => {
    for (let piece = next(); piece !== null; piece = next()) {
      asked += 1;
      ask(pieces.requestOf(piece)).then(took(piece)).catch(failed);
    }
  };
  const follow = async () => tell(pieces.progress());
  const took = (piece: Piece) => (reply: PieceReply) => {
    asked -= 1;
    pieces.hear(piece, reply);
    // the worker goes on while the reply is read
    askMore();
    pieces.take(piece, reply);
    follow().catch(failed);
    if (pieces.areWhole()) whole();
  };
  askMore();
  // how many lines there are is told once the caller has its promise, before any reply
  Promise.resolve().then(follow).catch(failed);
});

/** Engines in several workers. The promise of each call whose worker ends is rejected. */
export class WorkerPool extends LaterCalls<"pool"> {
  readonly size: number;

  constructor(workers: number, module: SentModule, newWorker: NewWorker) {
    super(module, newWorker, workers, async (row, request, ask, tell) => {
      if (request.call === "all" && row.one) {
        const pieces = new Pieces(request, workers, row.one);
        await askAll(pieces, ask, tell);
        return () => pieces.told();
      }
      if (request.call !== "best") return unshared(row, request, ask, tell);
      const replies = await repliesOfAxes(workers, request, ask, tell);
      return () => joinedBest(replies, request);
    });
    this.size = workers;
  }

  /** Starts engines. Rejects as `startBy` of one does. */
  static async startBy(
    workers: number, source: ModuleSource | Promise<ModuleSource>, newWorker: NewWorker,
  ): Promise<WorkerPool> {
    const count = wholeNumber(workers, "the number of workers", MOST_WORKERS);
    if (count === 0) throw new RangeError("a pool has one worker at least");
    return this.begun(new this(count, await compiled(source), newWorker));
  }
}
