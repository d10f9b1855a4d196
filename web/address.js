// Keeps in the address, after `#`, what the page shows: the test, and where in it the reader is. So a reload shows the same again, and
// the address is a link. The part after `#` is never sent to the server. A browser lets the address change only so often, so
// changes that follow each other closely are written together. A reload may begin before the address is written: so the browser's store of this tab
// has the changes at once. In a browser that gives no store, such a reload loses them.

// For how many milliseconds changes wait to be written together.
const PAUSE = 200;
// The key of the fields in the browser's store of the tab.
const KEY = "address";

// The fields that name an example, whose name has no blank.
const NAMES = ["example", "beside"];

let fields = parseFields(readKeptFields() ?? location.hash.slice(1));
let timer = null;
// The address as it was written or followed last. If the present one differs, a link is about to be followed, and is not overwritten.
let known = location.hash;
storeFields();
// After Back to this page the store of the tab may have the fields of another one.
addEventListener("pageshow", storeFields);

/** Returns whether the text of a test in the part of an address after `#` can be decoded; one that was cut, or is no UTF-8, may not. */
function canDecodeTest(part) {
  try {
    decodeURIComponent(/(?:^|[#&])text=([^&]*)/.exec(part)?.[1] ?? "");
    return true;
  } catch {
    return false;
  }
}

/**
 * Returns the fields of the part of an address after `#`, without a text that can't be decoded. In the name of an example a bare `+` is a plus.
 * @param {string} text
 * @returns {URLSearchParams}
 */
function parseFields(text) {
  const parameters = new URLSearchParams(text.replace(/^#+/, ""));
  if (!canDecodeTest(text)) parameters.delete("text");
  for (const name of NAMES) if (parameters.has(name)) parameters.set(name, parameters.get(name).replaceAll(" ", "+"));
  return parameters;
}

/**
 * Returns the part of the address after `#` that was kept for a reload, or null: if the page is not reloaded, or nothing was kept.
 * @returns {string | null}
 */
function readKeptFields() {
  try {
    return performance.getEntriesByType("navigation")[0]?.type === "reload" ? sessionStorage.getItem(KEY) : null;
  } catch {
    return null;
  }
}

/** Stores the fields in the browser's store of this tab, where a reload of the page finds them. */
function storeFields() {
  try {
    sessionStorage.setItem(KEY, String(fields));
  } catch {
    // Without a store a reload finds what is written into the address, which lacks at most the changes of the last `PAUSE` milliseconds.
  }
}

/**
 * Returns the fields of the address, as an object of texts.
 * @returns {Object<string, string>}
 */
export function read() {
  return Object.fromEntries(fields);
}

/**
 * Changes some of what the address says; what is null is left out. What is new has an entry of its own in the browser's history.
 * @param {Object<string, string | number | null>} changes
 * @param {boolean} [isNew]
 */
export function put(changes, isNew = false) {
  if (isNew) write();
  for (const [key, value] of Object.entries(changes)) {
    if (value === null || value === undefined || value === "") fields.delete(key);
    else fields.set(key, String(value));
  }
  storeFields();
  if (!isNew) timer ??= setTimeout(write, PAUSE);
  else {
    history.pushState(null, "", formatAddress());
    known = location.hash;
  }
}

/** Writes the address now, unless somebody has changed it. */
function write() {
  clearTimeout(timer);
  timer = null;
  if (location.hash !== known) return;
  history.replaceState(null, "", formatAddress());
  known = location.hash;
}

/** Returns the address with the present fields. */
function formatAddress() {
  return String(fields) ? `#${fields}` : location.href.split("#")[0];
}

/**
 * Calls `act` with the fields before, whenever something other than this module changes the address, such as a pasted link or the browser's Back.
 * @param {function(Object<string, string>): void} act
 */
export function watchLinks(act) {
  addEventListener("hashchange", () => {
    clearTimeout(timer);
    timer = null;
    const before = read();
    known = location.hash;
    fields = parseFields(location.hash.slice(1));
    storeFields();
    act(before);
  });
}

/**
 * Writes all changes into the address, and returns it.
 * @returns {string}
 */
export function makeLink() {
  write();
  return location.href;
}

/**
 * Returns a link to the test alone, which asks for a prediction first: it has neither a state nor a run.
 * @returns {string}
 */
export function makeQuestionLink() {
  const kept = ["example", "text", "from", "compiled"].flatMap((name) => (fields.has(name) ? [[name, fields.get(name)]] : []));
  return `${location.href.split("#")[0]}#${new URLSearchParams([...kept, ["predict", "1"]])}`;
}
