// The two ways to an answer: by the module in this browser, or by the program on this machine, which the server of the page runs. Both
// are asked by the same code, in a worker.

import { compileModule } from "./module.js";
import { NO_SERVER } from "./served.js";
import { fetchModules, hasServer, makeWorker } from "./supplies.js";

const NO_MODULE =
  "This browser does not take the workbench's module: it needs WebAssembly with memories of 64 bits, which Chrome and Edge have from " +
  "version 133 on and Firefox from version 134 on.";
const STALE = "The sources have changed, or the program is gone: start ./page again.";

// By hand a click is answered at once: it is enough that the program was current this number of milliseconds before.
const RECENTLY = 2000;

// The workers that answer nothing now, and when the server last said that the program is current, by `performance.now()`.
const idle = [];
let currentAt = -Infinity;
const loading = loadModule();
// One worker is made ready before it is needed. If the browser starts none, that is reported when one is needed.
loading.then(async (module) => (module || hasServer) && idle.push(await startWorker())).catch(() => null);

/** Returns the first module that the browser takes, compiled, or null. */
async function loadModule() {
  try {
    for await (const bytes of fetchModules()) {
      const module = await compileModule(bytes);
      if (module) return module;
    }
  } catch {
    // The server does not answer; it says so when it is asked.
  }
  return null;
}

/**
 * Returns whether the browser has a module that it takes.
 * @returns {Promise<boolean>}
 */
export async function hasModule() {
  return (await loading) !== null;
}

/** Returns the answer by the module. */
async function askModule(question, fields, signal, onProgress) {
  const module = await loading;
  return module ? askWorker({ module, question, fields }, signal, onProgress) : { error: NO_MODULE };
}

/** Returns the answer of a worker. The signal ends it at once, with its worker. `onProgress` is called with words on how far it is. */
async function askWorker(request, signal, onProgress) {
  if (signal.aborted) return null;
  const worker = idle.pop() ?? (await startWorker());
  const answer = await awaitAnswer(worker, request, signal, onProgress);
  if (signal.aborted || worker.broken) worker.terminate();
  else idle.push(worker);
  return answer;
}

/** Starts a worker, and returns it. If it breaks, its `broken` is the error that takes the place of each answer. */
async function startWorker() {
  const worker = await makeWorker();
  worker.onerror = ({ message }) => {
    worker.broken = { error: `The page's worker has failed: ${message ?? "it did not start"}.`, isBeyond: true };
    worker.onmessage?.({ data: worker.broken });
  };
  return worker;
}

/** Asks a worker. Returns its answer, or null once the signal is aborted. `onProgress` is called with words on how far it is. */
function awaitAnswer(worker, request, signal, onProgress) {
  return new Promise((resolve) => {
    signal.addEventListener("abort", () => resolve(null), { once: true });
    worker.onmessage = ({ data }) => ("progress" in data ? onProgress(data.progress) : resolve(data));
    if (worker.broken) resolve(worker.broken);
    else worker.postMessage(request);
  });
}

/**
 * Returns the answer by the program on this machine.
 * @param {string} question
 * @param {object} fields
 * @param {AbortSignal} signal
 * @param {function(string): void} onProgress
 * @returns {Promise<object | null>}
 */
export function askServer(question, fields, signal, onProgress) {
  return refuseStale(question, askWorker({ module: null, question, fields }, signal, onProgress), signal);
}

/**
 * Answers by the module if there is one; what is beyond it, or without a module, by the program, if there is a server.
 * @param {string} question
 * @param {object} fields
 * @param {AbortSignal} signal
 * @param {function(string): void} onProgress
 * @returns {Promise<object | null>}
 */
export async function askBest(question, fields, signal, onProgress) {
  if (!hasServer) return askModule(question, fields, signal, onProgress);
  if (!(await hasModule())) return askServer(question, fields, signal, onProgress);
  const answer = await refuseStale(question, askModule(question, fields, signal, onProgress), signal);
  if (!answer?.isBeyond) return answer;
  const served = await askServer(question, fields, signal, onProgress);
  return served?.error === NO_SERVER ? answer : served;
}

/** Returns the answer that a promise has; or in its place an error, if the server says that the sources have changed since it served the page. */
async function refuseStale(question, answering, signal) {
  if (question === "moves" && performance.now() - currentAt < RECENTLY) return answering;
  const [answer, isStale] = await Promise.all([answering, isStaleBy(signal)]);
  return isStale ? { error: STALE } : answer;
}

/** Returns whether the server says that the program is not that of the sources as they are. */
async function isStaleBy(signal) {
  try {
    const headers = { "Content-Type": "application/json" };
    const response = await fetch("current", { method: "POST", headers, body: "{}", signal });
    const isStale = (await response.json()).is_current === false;
    currentAt = isStale ? -Infinity : performance.now();
    return isStale;
  } catch {
    // The server does not answer; further questions get this error.
    return false;
  }
}
