// Highlights the item under the pointer wherever it appears: a thread or a location at each of its names, and an instruction in the code, in
// the schedule and in the graph.

const NAMES = "span.loc, span.thr, .entry, .word, .badge-thread, text.loc, text.thr, b.thr";

/** Returns the class of the thread or location whose name an element shows, or null. */
function findKind(target) {
  const name = target.closest?.(NAMES)?.getAttribute("class") ?? "";
  return /\b(?:loc|thr)-\d\b/.exec(name)?.[0] ?? null;
}

/** Returns the name in the coloured text of an editor that is below a point, since the field above it takes the pointer. */
function findNameBelow(colours, { clientX, clientY }) {
  const isThere = ({ left, right, top, bottom }) => left <= clientX && clientX <= right && top <= clientY && clientY <= bottom;
  return [...colours.querySelectorAll("span.loc, span.thr")].find((it) => isThere(it.getBoundingClientRect())) ?? null;
}

/** Has style.css light a thread or a location: it goes by `data-lit` of the root. */
function lightName(kind) {
  const root = document.documentElement;
  if (kind) root.dataset.lit = kind;
  else delete root.dataset.lit;
}

/** Marks an instruction wherever it appears, by its place in its thread, or none. */
function point(at) {
  for (const it of document.querySelectorAll(".pointed")) if (it.dataset.at !== at) it.classList.remove("pointed");
  if (at) for (const it of document.querySelectorAll(`[data-at="${CSS.escape(at)}"]`)) it.classList.add("pointed");
}

/**
 * Lights what the pointer is on, and what has the focus.
 * @param {Editor} editor
 */
export function lightNames({ area, colours }) {
  document.addEventListener("pointerover", ({ target }) => {
    if (target !== area) lightName(findKind(target));
    point(target.closest?.("[data-at]")?.dataset.at ?? null);
  });
  document.addEventListener("focusin", ({ target }) => point(target.closest("[data-at]")?.dataset.at ?? null));
  area.addEventListener("pointermove", (event) => lightName(findKind(findNameBelow(colours, event) ?? area)));
}
