// Chooses the size in which a machine is drawn: by its threads, code, registers and store buffers, and by the window.
//
// `Shown` is what a machine is drawn from, as `makeShown` of run_view.js makes it.

import { caches, largeType } from "./preferences.js";

// The largest number of empty slots of a store buffer that are shown.
export const MAX_SLOTS = 4;
// A store whose text has more letters needs the width of its box for its entry.
const LONG_STORE = 18;
// The largest numbers of threads, slots and lines of a machine that is shown large.
const ROOMY = { threads: 2, slots: 2, lines: 5 };
// The largest numbers of lines and slots of one that has the most room in a large window.
const FEW = { lines: 3, slots: 2 };
// The height of a row of cache lines, in em of the page, and the least height of a window in which a large machine has room for it.
const CACHE = 3.5;
const HIGH = 860;
// How wide a window is at least in which the page has two columns.
const TWO_COLUMNS = 1120;

/**
 * Returns the registers that a thread's code names, or that have a word other than 0 in one of some states.
 * @param {Cell[][]} cells
 * @param {State[]} states
 * @param {number} thread
 * @returns {Set<string>}
 */
export function listUsedRegisters(cells, states, thread) {
  const named = new Set(cells[thread].flatMap((it) => it.text.match(/\w+/g) ?? []));
  for (const state of states) for (const [name, word] of state.threads[thread].registers) if (word) named.add(name);
  return named;
}

/**
 * Returns whether registers are shown above the store buffer: in a narrow box, if there are many of them or if entries are long.
 * @param {Shown} shown
 * @param {number} number
 * @returns {boolean}
 */
export function isStacked({ cells }, number) {
  return cells.length > 2 && (number > 2 || hasLongStores(cells));
}

/**
 * Returns whether a store has a long text, so that its entry is wide.
 * @param {Cell[][]} cells
 * @returns {boolean}
 */
export function hasLongStores(cells) {
  return cells.flat().some(({ text }) => /\bMOV \[/.test(text) && text.length > LONG_STORE);
}

/**
 * Returns whether there are many threads, or many slots, so that entries are small.
 * @param {Shown} shown
 * @returns {boolean}
 */
function isTight({ cells, slots }) {
  return cells.length > ROOMY.threads || slots.some((it) => it > ROOMY.slots);
}

/** Returns whether cache lines are shown. */
function hasCaches({ state }) {
  return caches.isOn && state.threads.some((it) => it.lines);
}

/** Returns whether the window, in which the page has two columns, is too low for a machine in large type. */
function isLowForType() {
  return largeType.isOn && innerHeight < HIGH && innerWidth > TWO_COLUMNS;
}

/**
 * Returns whether there is so little room that only a dense machine has it: for many registers, or in large type.
 * @param {Shown} shown
 * @returns {boolean}
 */
function isDense(shown) {
  const { cells, state, used } = shown;
  if (isLowForType() && !isRoomy(shown)) return true;
  const registers = state.threads.map((it, thread) => it.registers.filter(([name]) => used[thread].has(name)).length);
  return cells.length > 3 ? Math.max(...registers) > 2 : cells.length > 2 && Math.max(...registers) > 4;
}

/**
 * Returns whether a store buffer has so many slots that its entries are low.
 * @param {Shown} shown
 * @returns {boolean}
 */
function isTall({ slots }) {
  return slots.some((it) => it >= MAX_SLOTS);
}

/** Returns whether the list of states is above the machine, not beside the verdict. */
function isListAbove() {
  return document.querySelector("#outcome > .states-place:not(.aside)") !== null;
}

/**
 * Returns whether the machine is drawn large: it is small, and the window is high enough or nothing else needs its height (caches, a list above the
 * machine, or large type with several slots).
 * @param {Shown} shown
 * @returns {boolean}
 */
function isRoomy(shown) {
  const isHigh = innerHeight >= HIGH || !(hasCaches(shown) || isListAbove() || (largeType.isOn && shown.slots.some((it) => it > 1)));
  return isHigh && !isTight(shown) && shown.cells.every((it) => it.length <= ROOMY.lines);
}

/**
 * Returns whether the code is short: in a large window it is drawn even larger.
 * @param {Shown} shown
 * @returns {boolean}
 */
function isFew({ cells, slots }) {
  return cells.every((it) => it.length <= FEW.lines) && slots.every((it) => it <= FEW.slots);
}

/**
 * Returns the classes that say in which size a machine is drawn, each with whether it applies.
 * @param {Shown} shown
 * @returns {Object<string, boolean>}
 */
export function listSizeClasses(shown) {
  return { tight: isTight(shown), roomy: isRoomy(shown), few: isFew(shown), dense: isDense(shown), tall: isTall(shown) };
}

/**
 * Returns how high the threads' boxes are at least, in letters of the page's size. If there is less room, the page is scrolled.
 * @param {Shown} shown
 * @returns {number}
 */
export function computeLeastHeight(shown) {
  const { cells, slots, used, state, inSource } = shown;
  const [threads, dense] = [cells.length, isDense(shown)];
  const heights = cells.map((lines, thread) => {
    const registers = state.threads[thread].registers.filter(([name]) => used[thread].has(name)).length;
    const stacked = isStacked(shown, registers);
    const inRow = stacked ? 3 : threads > 3 && !dense ? 1 : threads > 2 || inSource ? 2 : 4;
    const rows = Math.ceil(registers / inRow) * (dense ? 1.4 : threads > 2 ? 1.9 : 2.2);
    const entry = dense ? 1.75 : isTall(shown) ? 1.7 : threads > 2 || slots[thread] > ROOMY.slots ? 2.05 : 2.4;
    const buffer = 1.4 + Math.max(1, Math.min(slots[thread], MAX_SLOTS)) * entry;
    const cache = hasCaches(shown) ? CACHE : 0;
    return 2.8 + Math.min(lines.length + 1, 3) * (dense ? 1.4 : 1.6) + (stacked ? rows + buffer : Math.max(rows, buffer)) + cache;
  });
  return Math.max(...heights);
}
