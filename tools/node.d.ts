// What the scripts of web/module that run only in node make use of there, so that their types are checked without those of node.
declare module "node:fs" {
  export function readFileSync(file: URL): Uint8Array;
  export function readSync(stream: number, buffer: Uint8Array, offset: number, length: number, position: null): number;
  export function writeSync(stream: number, buffer: Uint8Array, offset: number, length: number): number;
}

declare module "node:process" {
  const process: { argv: string[]; exitCode: number | undefined };
  export default process;
}

declare module "node:fs/promises" {
  export function readFile(file: URL): Promise<Uint8Array>;
}

declare module "node:worker_threads" {
  export class Worker {
    constructor(script: URL);
    on(event: "message", listener: (data: any) => void): void;
    on(event: "error", listener: (error: Error) => void): void;
    postMessage(message: unknown): void;
    terminate(): Promise<number>;
    ref(): void;
    unref(): void;
  }
  export const parentPort: MessagePort | null;
}
