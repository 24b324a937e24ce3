// The engine's side of a worker: the first message brings the module, and each later one is answered.
import { Engine } from "../engine/engine.js";
import type { AllReply } from "../calls/many.js";
import type { Progress } from "../calls/signals.js";
import type { Request } from "../calls/requests.js";

/** And how long the worker took for it. */
export type PieceReply = AllReply & { milliseconds: number };
/** What is told of a message, one of these: its reply, what was thrown, or, before some replies, how far it is. */
export type Told = { id: number; reply: unknown; error: { name: string; message: string }; progress: Progress };

/** What messages come from and go to: a worker itself, or its port in node. */
export type Port = {
  addEventListener: (type: "message", listener: (event: { data: any }) => void) => void;
  postMessage: (message: any, handedOver?: any[]) => void;
};

const WITH_BUFFERS = ["out", "err", "ways", "parts", "values", "lines", "checks", "bytes", "places", "before"];

/** The buffers of a reply, and of the moves that it has, which needs them no longer here. */
const buffersOf = (reply: any) =>
  [reply, ...(reply.moves ?? [])].flatMap((part) => WITH_BUFFERS.flatMap((name) => part[name]?.buffer ?? []));

/** Answers what comes through a port, once the first message has brought the module.
 * @param answer posts the answers to a later message; what it throws is posted as an error */
export function serveBy<Started>(
  port: Port, start: (module: any) => Promise<Started>, answer: (started: Started, question: any) => void,
) {
  let starting: Promise<Started> | null = null;
  port.addEventListener("message", async ({ data }) => {
    if (starting === null) {
      starting = start(data.module);
      // each question says so
      starting.catch(() => {});
      return;
    }
    try {
      answer(await starting, data);
    } catch (error) {
      const { name, message } = error as Error;
      port.postMessage({ id: data.id, error: { name: String(name), message: String(message) } });
    }
  });
}

/** Has an engine answer what comes through a port; of some of a call's lines it says how long they took. */
export function serve(port: Port) {
  serveBy(port, (module) => Engine.start(module), (engine, { id, request }: { id: number; request: Request }) => {
    const begun = performance.now();
    const reply = engine.answer(request, (progress) => port.postMessage({ id, progress }));
    const isPiece = request.call === "all" && request.isPiece;
    const told = isPiece ? { ...reply, milliseconds: performance.now() - begun } : reply;
    port.postMessage({ id, reply: told }, buffersOf(reply));
  });
}
