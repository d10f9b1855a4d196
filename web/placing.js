// Places the parts of the page: by the width of the window, by the size of the graph, and on a projector.

import { el, findById, makeButton } from "./dom.js";

// In a window that is narrower the page has one column.
const NARROW = "(max-width: 69.99rem)";
const PHONE = "(max-width: 40rem)";

/**
 * Places the parts: in one column the verdict and the machine come first, and the text is folded. The graph is beside the machine if it has room, and
 * otherwise below it. On a phone the words on the test are below the verdict, and otherwise above the text. `fit` is called when the room for the
 * machine has changed, with `true` on a projector and after it.
 * @param {Present} present
 * @param {function(boolean): void} fit
 */
export function placeParts(present, fit) {
  const [narrow, phone] = [NARROW, PHONE].map((it) => matchMedia(it));
  const graph = findById("graph-place");
  const placeGraph = () => {
    const drawn = graph.querySelector(".graph");
    const needed = drawn ? parseFloat(getComputedStyle(drawn).minWidth) : 0;
    const isBelow = narrow.matches || present.isOpen || needed > findById("test").clientWidth - 4;
    const place = isBelow ? findById("answers") : findById("test");
    if (graph.parentElement !== place) place.insertBefore(graph, place.querySelector(":scope > .folded"));
  };
  const about = findById("about");
  const brief = el("div", { class: "brief" }, makeMoreButton(about));
  const placeAbout = () => {
    findById("editor").before(about);
    brief.remove();
    if (!phone.matches) return;
    findById("outcome").querySelector(".verdicts").after(brief);
    brief.prepend(about);
  };
  const place = () => {
    findById(narrow.matches ? "beside" : "answers").before(findById("test"));
    fold(narrow.matches);
    placeGraph();
  };
  narrow.addEventListener("change", place);
  phone.addEventListener("change", placeAbout);
  graph.addEventListener("drawn", () => {
    placeGraph();
    present.fit();
    fit();
  });
  const measured = new ResizeObserver(() => {
    setRoom();
    fit();
  });
  for (const name of ["answers", "outcome"]) measured.observe(findById(name));
  new ResizeObserver(() => placeNext(!narrow.matches && !present.isOpen)).observe(findById("watching"));
  present.onChange(() => {
    placeGraph();
    fit(true);
  });
  place();
  placeAbout();
}

/** Puts what to look at next below the run; or below the text, if it is seen only there, since memory covers it below the run or it is cut. */
function placeNext(hasTwoColumns) {
  const [next, test] = ["next", "test"].map((name) => findById(name));
  const [below, memory] = [".after-run", ".memory"].map((css) => document.querySelector(`#watching ${css}`));
  if (next.contains(document.activeElement)) return;
  const isSeen = () => next.getBoundingClientRect().bottom <= innerHeight;
  below.append(next);
  const isCovered = memory?.getBoundingClientRect().bottom > next.getBoundingClientRect().top;
  if (!hasTwoColumns || (isSeen() && !isCovered)) return;
  test.insertBefore(next, test.querySelector(":scope > .folded"));
  if (!isSeen()) below.append(next);
}

/**
 * Marks a note that is folded to one line and has no room in it.
 * @param {Element | null} note
 */
export function markCut(note) {
  const shown = note?.firstElementChild;
  if (shown) note.classList.toggle("cut", shown.scrollWidth > shown.clientWidth + 1 && getComputedStyle(note).display === "flex");
}

/**
 * Returns a button that shows the whole of a text of which the first line is shown.
 * @param {Element} place
 * @returns {Element}
 */
export function makeMoreButton(place) {
  const toggle = () => {
    const isWhole = place.classList.toggle("whole");
    more.setAttribute("aria-expanded", String(isWhole));
    more.textContent = isWhole ? "less" : "more";
  };
  const more = makeButton("more", toggle, { class: "link small", "aria-expanded": "false", "aria-controls": place.id });
  return more;
}

/** Sets how high the machine may be so that it is in sight, with the graph below it. */
export function setRoom() {
  const [answers, watching] = ["answers", "watching"].map((name) => findById(name));
  if (watching.hidden) return;
  const above = watching.getBoundingClientRect().top - answers.getBoundingClientRect().top + answers.scrollTop;
  watching.style.setProperty("--room", `${Math.floor(answers.clientHeight - above)}px`);
}

/**
 * Folds the text of the test, or unfolds it.
 * @param {boolean} isClosed
 */
export function fold(isClosed) {
  findById("test").classList.toggle("folded-up", isClosed);
  findById("unfold").setAttribute("aria-expanded", String(!isClosed));
}

/**
 * Returns whether the text of the test is folded.
 * @returns {boolean}
 */
export function isFolded() {
  return findById("test").classList.contains("folded-up");
}
