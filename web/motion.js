// Moves a word from one place of the picture to another, and the things that make room for it. Nothing moves if the reader's
// system asks for less motion, and nothing waits for a motion to end.

const TIME = 280;
const EASE = "cubic-bezier(.3, .1, .2, 1)";
const less = matchMedia("(prefers-reduced-motion: reduce)");

/**
 * Returns whether nothing is to move.
 * @returns {boolean}
 */
export function isStill() {
  return less.matches;
}

/**
 * Returns where the keyed things of a place are.
 * @param {Element} place
 * @returns {Map<string, DOMRect>}
 */
export function measurePlaces(place) {
  return new Map([...place.querySelectorAll("[data-key]")].map((it) => [it.dataset.key, it.getBoundingClientRect()]));
}

/**
 * Moves a thing from where it was to where it is now.
 * @param {Element} thing
 * @param {DOMRect} before
 */
export function settle(thing, before) {
  const now = thing.getBoundingClientRect();
  const [dx, dy] = [before.left - now.left, before.top - now.top];
  if (isStill() || (Math.abs(dx) < 1 && Math.abs(dy) < 1)) return;
  thing.animate([{ transform: `translate(${dx}px, ${dy}px)` }, { transform: "none" }], { duration: TIME, easing: EASE });
}

/**
 * Lets a word fly over a place from one box to another; the thing that it becomes is shown when it arrives.
 * @param {Element} over
 * @param {DOMRect | null} from
 * @param {DOMRect | null} to
 * @param {{word: string, kind: string, arrived?: Element | null}} flight
 */
export function fly(over, from, to, { word, kind, arrived = null }) {
  if (isStill() || !from || !to) return;
  const base = over.getBoundingClientRect();
  const ghost = document.createElement("span");
  ghost.className = `ghost ${kind}`;
  ghost.textContent = word;
  ghost.setAttribute("aria-hidden", "true");
  over.append(ghost);
  const own = ghost.getBoundingClientRect();
  const findMiddle = (box) => [box.left - base.left + (box.width - own.width) / 2, box.top - base.top + (box.height - own.height) / 2];
  const formatSpot = (box) => `translate(${findMiddle(box).map((it) => `${it}px`).join(", ")})`;
  const [begin, end] = [formatSpot(from), formatSpot(to)];
  const flight = ghost.animate([{ transform: begin }, { transform: end }], { duration: TIME, easing: EASE, fill: "both" });
  flight.finished.catch(() => null).then(() => ghost.remove());
  arrived?.animate([{ opacity: 0 }, { opacity: 0, offset: 0.8 }, { opacity: 1 }], { duration: TIME, easing: "linear" });
}

/**
 * Lights a place for a moment: a word came from there.
 * @param {Element | null} thing
 */
export function glow(thing) {
  if (!thing || isStill()) return;
  const dark = { boxShadow: "0 0 0 0 transparent" };
  const lit = { boxShadow: "0 0 0 0.35rem color-mix(in srgb, var(--lit) 45%, transparent)", offset: 0.35 };
  thing.animate([dark, lit, dark], { duration: 2.4 * TIME });
}
