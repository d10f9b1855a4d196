// The part of a thread's code that is in sight, if not all of it has room: the next instruction is always in it, and the first line is whole.
// There is no scroll bar: the box says which lines are shown, and the last line is pale if others follow it.

import { largeType } from "./preferences.js";

// The part of a line that may be missing at the end of a code that is shown as a whole; and in a machine that is fitted, since it may become a bit lower.
const SPARE = 0.35;
const FITTED = 0.2;
// The number of columns of threads in a narrow window, and the least number of lines of codes that are fitted.
const PHONE = "(max-width: 40rem)";
const COLUMNS = 2;
const MIN_LINES = 3;
// More than a machine that is out of sight: what a line lacks can't be scrolled into sight.
const TOO_LONG = 100000;
// And for each such line, less than that.
const LONG_LINE = 50;
// The empty space below a machine, in pixels.
const MARGIN = 14;

/**
 * Puts the next instruction of each thread's code into sight, and says which lines are there.
 * @param {Element} machine
 */
export function showNext(machine) {
  for (const code of machine.querySelectorAll(".code")) {
    const next = code.querySelector(".next, .reached");
    code.style.paddingBottom = "";
    const isWhole = countHiddenLines(code, SPARE) === 0;
    code.classList.toggle("whole", isWhole);
    if (isWhole) code.scrollTop = 0;
    else if (next) scrollTo(code, next);
    showLinesInSight(code);
  }
}

/** Returns how many lines of a code have no room in its box, of which a `spare` part of a line may be missing. */
function countHiddenLines(code, spare = FITTED) {
  const line = code.firstElementChild.offsetHeight;
  return Math.max(0, Math.ceil((code.scrollHeight - code.clientHeight) / line - spare));
}

/**
 * Returns how much of the codes of a machine is cut: the largest number of lines that have no room, more for each line that is too long, and far more if
 * there is one. In large type it does not matter how many are too long.
 * @param {Element} machine
 * @returns {number}
 */
export function measureCut(machine) {
  const codes = [...machine.querySelectorAll(".code")];
  for (const code of codes) code.style.paddingBottom = "";
  const isTooLong = (it) => it.scrollWidth > it.clientWidth + 1;
  const cut = codes.filter(isTooLong);
  const lines = largeType.isOn ? 0 : cut.flatMap((it) => [...it.querySelectorAll(".line")]).filter(isTooLong).length;
  return Math.max(0, ...codes.map((it) => countHiddenLines(it))) + lines * LONG_LINE + (cut.length ? TOO_LONG : 0);
}

/**
 * Returns how high a machine may be to be in sight as a whole, the best first: on a phone on the first screen, or else once it is scrolled there. Returns
 * nothing if it has the room that the page gives it.
 */
function listRooms(machine) {
  const { top } = machine.getBoundingClientRect();
  const column = machine.closest(".side")?.parentElement.parentElement;
  if (matchMedia(PHONE).matches) {
    if (column) return [];
    const head = machine.closest(".run").querySelector(".run-head");
    return [innerHeight - top - scrollY, innerHeight - head.offsetHeight];
  }
  if (!column || getComputedStyle(column).overflowY !== "auto") return [];
  return [column.clientHeight - (top - column.getBoundingClientRect().top + column.scrollTop) - MARGIN];
}

/**
 * Lets the codes of a machine be so high that all of the machine is in sight: on a phone, and beside another one.
 * @param {Element} machine
 */
export function fitCodes(machine) {
  machine.style.removeProperty("--code-fit");
  machine.classList.remove("below-first-screen");
  const codes = [...machine.querySelectorAll(".code")];
  const rooms = codes.length && machine.closest(".run") ? listRooms(machine) : [];
  if (!rooms.length) return;
  const rows = matchMedia(PHONE).matches ? Math.ceil(codes.length / COLUMNS) : 1;
  const tallest = Math.max(...codes.map((it) => it.clientHeight));
  const least = Math.min(tallest, MIN_LINES * codes[0].firstElementChild.offsetHeight);
  const fitting = rooms.map((room) => tallest - Math.ceil((machine.offsetHeight - room) / rows));
  const fit = fitting.find((it) => it >= least) ?? least;
  // Memory lies over nothing: if the machine is not in sight as a whole at first, memory is scrolled with it.
  machine.classList.toggle("below-first-screen", matchMedia(PHONE).matches && fit !== fitting[0]);
  if (fit < tallest) machine.style.setProperty("--code-fit", `${fit}px`);
}

/**
 * Returns whether a machine is in a column that is scrolled by itself, so that its code has the room which the column leaves.
 * @param {Element} machine
 * @returns {boolean}
 */
export function isScrolled(machine) {
  const column = machine.closest("#answers");
  return column !== null && getComputedStyle(column).overflowY === "auto";
}

/**
 * Returns how much of a machine is out of sight at first in a column that is scrolled, in pixels.
 * @param {Element} machine
 * @returns {number}
 */
export function measureHiddenHeight(machine) {
  if (!isScrolled(machine)) return 0;
  const column = machine.closest("#answers");
  const [threads, memory] = [".threads", ".memory"].map((css) => machine.querySelector(css));
  const bottom = threads.getBoundingClientRect().bottom + parseFloat(getComputedStyle(machine).rowGap) + memory.offsetHeight;
  return Math.max(0, bottom - column.getBoundingClientRect().bottom + column.scrollTop);
}

/**
 * Returns how much lower a machine can be: as much as is out of sight, if each code still has its least number of lines then, and otherwise as much
 * as leaves them.
 * @param {Element} machine
 * @returns {number}
 */
export function measureSpareHeight(machine) {
  const hidden = measureHiddenHeight(machine);
  if (!hidden) return 0;
  const spares = [...machine.querySelectorAll(".thread")].map((thread) => {
    const [code, waits, registers, buffer] = [".code", ".waits", ".registers", ".buffer"].map((css) => thread.querySelector(css));
    const least = Math.min(code.children.length, MIN_LINES) * code.firstElementChild.offsetHeight + waits.offsetHeight;
    const measureDistance = (it) => (it ? it.getBoundingClientRect().top - code.getBoundingClientRect().top : Infinity);
    return Math.min(measureDistance(registers) - least, measureDistance(buffer) - (machine.classList.contains("beside") ? 0 : least));
  });
  return Math.max(0, Math.min(hidden + 1, ...spares));
}

/**
 * Watches the codes of a machine: what is in sight of them changes with the room and when the reader scrolls them.
 * @param {Element} machine
 */
export function watchCodes(machine) {
  const scrolled = ({ target }) => target.classList?.contains("code") && showLinesInSight(target);
  machine.addEventListener("scroll", scrolled, { capture: true, passive: true });
  new ResizeObserver(() => showNext(machine)).observe(machine);
  addEventListener("resize", () => fitCodes(machine));
}

/** Scrolls a line into sight inside its box, with one line around it, and nothing else. The first line in sight is whole. */
function scrollTo(code, line) {
  const first = findFirstLine(code, line).offsetTop;
  // Room after the last line lets this line be the first in sight.
  const missing = first + code.clientHeight - code.scrollHeight;
  if (missing > 0) code.style.paddingBottom = `${missing}px`;
  code.scrollTop = first;
}

/** Returns the first line to be in sight so that a line is, with the one before it or after it, and as many others as have room. */
function findFirstLine(code, line) {
  const lines = [...code.children];
  const [before, after] = [line.previousElementSibling ?? line, line.nextElementSibling ?? line];
  const isAbove = (it) => it.offsetTop >= code.scrollTop - 1;
  const isEnough = (it) => after.offsetTop + after.offsetHeight <= it.offsetTop + code.clientHeight + 1;
  if (line.offsetTop < code.scrollTop + 4) return before;
  return lines.find((other) => other === line || (isAbove(other) && isEnough(other)));
}

/** Says which lines of a code are in sight. */
function showLinesInSight(code) {
  const isWhole = code.classList.contains("whole");
  const [top, bottom] = [code.scrollTop, code.scrollTop + code.clientHeight];
  code.classList.toggle("more-above", !isWhole && top > 2);
  code.classList.toggle("more-below", !isWhole && bottom < code.lastElementChild.offsetTop + code.lastElementChild.offsetHeight - 2);
  const lines = [...code.children].slice(0, -1);
  const findMiddle = (it) => it.offsetTop + it.offsetHeight / 2;
  const seen = lines.flatMap((it, index) => (findMiddle(it) > top && findMiddle(it) < bottom ? [index + 1] : []));
  const note = code.parentElement.querySelector(".lines-in-sight");
  if (note) note.textContent = isWhole || !seen.length || seen.length === lines.length ? "" : `lines ${seen[0]} to ${seen.at(-1)} of ${lines.length}`;
}
