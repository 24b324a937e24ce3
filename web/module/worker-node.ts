// The script of a worker in node.
import { parentPort } from "node:worker_threads";
import { serve } from "./workers/serve.js";

serve(parentPort as any);
