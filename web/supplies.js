// Gets what the page needs besides its first code: the hints, the tables, the module, and the worker that asks it. If the page is a
// site of files (tools/make_site.py) they come in scripts of its own, in an object by the name `site`; otherwise `./page` serves them.

const site = globalThis.site ?? null;

/** Says whether the page has a server, which can be asked too. */
export const hasServer = site === null;

/** Lists the documents that a made site carries, each with its file and its title. */
export const documents = site?.documents ?? [];

/** The origin of a made site; null if the page has a server. */
export const origin = site?.origin ?? null;

/**
 * The archive with the programs and the tools that a made site carries, with the name of its `file` and its `size` in words; null if there is none.
 * @type {{file: string, size: string} | null}
 */
export const archive = site?.archive ?? null;

const tables = site && unpack(site.tables).then((bytes) => JSON.parse(new TextDecoder().decode(bytes)));

/**
 * Unpacks a text of the site: letters that stand for bytes (`site.bytesOf`), which are gzip.
 * @param {string} text
 * @returns {Promise<Uint8Array>}
 */
async function unpack(text) {
  const stream = new Blob([site.bytesOf(text)]).stream().pipeThrough(new DecompressionStream("gzip"));
  return new Uint8Array(await new Response(stream).arrayBuffer());
}

/**
 * Returns a table of the documents: of the examples, or of the sentences on faults.
 * @param {string} name
 * @returns {Promise<object>}
 */
export async function fetchTable(name) {
  return site ? (await tables)[name] : (await fetch(`${name}.json`)).json();
}

/**
 * Yields the bytes of each module, the preferred one first.
 * @returns {AsyncGenerator<Uint8Array>}
 */
export async function* fetchModules() {
  // The modules are large: the first comes while the page begins, and another is asked for only if the browser does not take the first.
  for (let at = 0; at < (site?.numberOfModules ?? 0); at += 1) {
    if (at === 0) await site.coming;
    if (site.moduleFiles[at]) await runScript(site.moduleFiles[at]);
    while (site.modules.length <= at) await new Promise((resolve) => (site.came = resolve));
    yield unpack(site.modules[at]);
  }
  if (!site) yield new Uint8Array(await (await fetch("lw.wasm")).arrayBuffer());
}

/**
 * Has the browser load a script of the site and run it. Rejects if it does not come.
 * @param {string} name
 * @returns {Promise<void>}
 */
function runScript(name) {
  return new Promise((resolve, reject) => {
    const script = document.createElement("script");
    script.src = name;
    script.onload = resolve;
    script.onerror = () => reject(new Error(`${name} does not come`));
    document.head.append(script);
  });
}

// The functions of hints.js, once they are asked for.
let hints = null;

/**
 * Returns the functions of hints.js, which are loaded when they are first asked for. Rejects if they do not come; then the next call asks again.
 * @returns {Promise<{explainFault: Function, explainMissingRowEnd: Function, findFurtherFaults: Function, makeSlipNotes: Function, fillAbout: Function, takeWalk: Function}>}
 */
export function loadHints() {
  hints ??= site ? runHints() : import("./hints.js").then((it) => it.hints);
  hints.catch(() => (hints = null));
  return hints;
}

/** Has the site's script of the hints loaded, and runs it. Returns its functions. Rejects if it does not come. */
async function runHints() {
  if (!site.packedHints) await runScript("hints.js");
  const script = document.createElement("script");
  script.text = new TextDecoder().decode(await unpack(site.packedHints));
  document.body.append(script);
  return site.hints;
}

/**
 * Returns a worker that runs worker.js. A page that was opened as a file may start one only from its own memory.
 * @returns {Promise<Worker>}
 */
export async function makeWorker() {
  if (!site) return new Worker("worker.js", { type: "module" });
  const address = URL.createObjectURL(new Blob([site.worker], { type: "text/javascript" }));
  const worker = new Worker(address);
  setTimeout(() => URL.revokeObjectURL(address), 10000);
  return worker;
}

/**
 * Has the browser keep the site, if it came by a network, so that it opens without one.
 * @returns {Promise<void>}
 */
export async function keepSite() {
  if (!site?.isKept || !/^https?:$/.test(location.protocol) || !navigator.serviceWorker) return;
  try {
    await navigator.serviceWorker.register("offline.js");
  } catch {
    // The browser keeps nothing; the page is as good as before.
  }
}
