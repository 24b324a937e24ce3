// Where the module comes from.
import { isBytes } from "../shared/bytes.js";
import { NoWebAssembly } from "../shared/faults.js";

/** What the module can be had from: its bytes, what they are compiled to, or an answer to a request for them. */
export type ModuleSource = ArrayBuffer | Uint8Array | WebAssembly.Module | Response;

/** The kind of an object by its own name for it, since each realm has a class of its own. */
const tagOf = (value: unknown) => Object.prototype.toString.call(value).slice("[object ".length, -1);

async function bodyOf(response: Response): Promise<ArrayBuffer> {
  if (!response.ok) throw new Error(`the module can't be had: the request was answered by status ${response.status}`);
  return response.arrayBuffer();
}

/** The module, compiled. Rejects with `NoWebAssembly` if the host runs none. */
export async function compiled(source: ModuleSource | Promise<ModuleSource>): Promise<WebAssembly.Module> {
  if (!globalThis.WebAssembly) {
    // nobody is left to hear that it can't be had either
    Promise.resolve(source).catch(() => {});
    throw new NoWebAssembly();
  }
  // bytes that the caller has may be others a moment later
  const given: any = typeof (source as any)?.then === "function" ? await source : source;
  if (isBytes(given)) return WebAssembly.compile(new Uint8Array(given));
  switch (tagOf(given)) {
    case "WebAssembly.Module":
      return given;
    case "ArrayBuffer":
      return WebAssembly.compile(given);
    case "Response":
      return WebAssembly.compile(await bodyOf(given));
    default:
      throw new TypeError("the module is neither bytes nor a WebAssembly.Module nor a Response");
  }
}
