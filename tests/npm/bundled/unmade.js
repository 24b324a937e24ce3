// A page whose bundle has no script for the worker.
import { NissyWorker } from "nissy/worker";

NissyWorker.start(fetch("nissy.wasm")).then(
  () => (window.seen = "it started"),
  ({ name, message }) => (window.seen = `${name}: ${message}`),
);
