// Hands a file, or a text in the clipboard, to the reader.

import { el } from "./dom.js";

// How many milliseconds a browser may take to copy: one that asks its reader about that, where nobody sees it, would never end.
const LONGEST = 1000;

/**
 * Saves a file.
 * @param {string} name
 * @param {string} kind
 * @param {string} content
 */
export function save(name, kind, content) {
  const address = URL.createObjectURL(new Blob([content], { type: kind }));
  el("a", { href: address, download: name }).click();
  setTimeout(() => URL.revokeObjectURL(address), 10000);
}

/**
 * Returns a name as the name of a file: characters that a file's name can't have become `_`.
 * @param {string} name
 * @param {string} ending
 * @returns {string}
 */
export function makeFileName(name, ending) {
  return `${name.replace(/[^\w+.-]/g, "_")}.${ending}`;
}

/**
 * Copies a text: by an older way if the page may not use the new one, as on an address that is no secure context. Returns whether it is
 * copied, and says so; otherwise it shows the text selected.
 * @param {string} text
 * @param {Element} status
 * @param {string} [note]
 * @returns {Promise<boolean>}
 */
export async function copy(text, status, note = "") {
  const isCopied = (await writeToClipboard(text)) || copyFromField(text, status);
  if (isCopied) status.textContent = `Copied${note}.`;
  else showForCopying(text, status);
  return isCopied;
}

/** Writes a text to the clipboard. Returns whether the browser allows that, and does it soon. */
async function writeToClipboard(text) {
  try {
    await Promise.race([navigator.clipboard.writeText(text), new Promise((_, reject) => setTimeout(reject, LONGEST))]);
    return true;
  } catch {
    return false;
  }
}

/**
 * Copies a text out of a field that exists for a moment. The field is in the open dialog, since nothing else can be selected then.
 * @param {string} text
 * @param {Element} status
 * @returns {boolean}
 */
function copyFromField(text, status) {
  const field = el("textarea", { class: "copied", "aria-label": "To copy", readonly: true }, text);
  const focused = document.activeElement;
  (status.closest("dialog") ?? document.body).append(field);
  field.select();
  const isCopied = document.execCommand("copy");
  field.remove();
  focused?.focus?.({ preventScroll: true });
  return isCopied;
}

/** Shows a text in a field, selected, so that the reader can copy it. */
function showForCopying(text, status) {
  const field = el("input", { type: "text", class: "copied-shown", readonly: true, value: text, "aria-label": "To copy" });
  status.replaceChildren("The browser has not copied it. Copy it by hand: ", field);
  field.select();
}
