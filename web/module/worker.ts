// The script of a worker in browsers.
import { serve } from "./workers/serve.js";

serve(self as any);
