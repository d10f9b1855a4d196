// The buttons between two instructions of the machine that put a fence into the text of the test, and those that take one out. Tab reaches one
// button of each thread, and arrows lead from it to the others.

import { el } from "./dom.js";

const FENCE = /\bMFENCE$/;

/**
 * Returns the button that puts a fence before an instruction of a thread, or that takes a fence out; null if there is nothing to do. `act` is called
 * with the thread, the number of the instruction, and whether a fence is put.
 * @param {Cell} cell
 * @param {Cell[]} cells
 * @param {number} thread
 * @param {function(number, number, boolean): void} act
 * @returns {Element | null}
 */
export function makeFenceButton({ text, at }, cells, thread, act) {
  const isFence = FENCE.test(text);
  const before = cells.find((it) => it.at === at - 1 && !it.text.endsWith(":"))?.text ?? "";
  if (text.endsWith(":") || (!isFence && (at === 0 || FENCE.test(before)))) return null;
  return el("button", {
    type: "button",
    class: isFence ? "fence-edit take-out" : "fence-edit",
    "data-fence": `${thread}:${at}`,
    "aria-label": isFence ? `P${thread}: take this MFENCE out` : `P${thread}: put an MFENCE before ${text}`,
    title: isFence ? "Take this fence out of the text" : "Put a fence here, into the text",
    tabindex: "-1",
    click: () => act(thread, at, !isFence),
  });
}

/**
 * Goes by arrows from one of these buttons to the next of its thread.
 * @param {KeyboardEvent} event
 */
export function goToFence(event) {
  const way = { ArrowDown: 1, ArrowUp: -1 }[event.key];
  if (!way || !event.target.dataset.fence) return;
  const all = [...event.target.closest(".code").querySelectorAll("[data-fence]")];
  all[all.indexOf(event.target) + way]?.focus();
  event.preventDefault();
}
