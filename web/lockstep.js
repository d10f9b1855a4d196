// Two runs that step together if they can: an event that both schedules have is carried out in both at once, and an event of only one in that
// one. The pairs of steps follow a longest common subsequence of the two schedules.

import { el, makeButton } from "./dom.js";

/** Returns a table: at [i][j] the length of a longest common subsequence of the first schedule without its first i events and the second without j. */
function countCommon(first, second) {
  const table = Array.from({ length: first.length + 1 }, () => new Array(second.length + 1).fill(0));
  for (let i = first.length - 1; i >= 0; i -= 1) {
    for (let j = second.length - 1; j >= 0; j -= 1) {
      table[i][j] = first[i] === second[j] ? table[i + 1][j + 1] + 1 : Math.max(table[i + 1][j], table[i][j + 1]);
    }
  }
  return table;
}

/**
 * Returns the steps of two schedules together: pairs of a step of each, from the start to both ends.
 * @param {string[]} first
 * @param {string[]} second
 * @returns {[number, number][]}
 */
export function pairSteps(first, second) {
  const common = countCommon(first, second);
  const pairs = [[0, 0]];
  let [i, j] = [0, 0];
  while (i < first.length || j < second.length) {
    const isBoth = i < first.length && j < second.length && first[i] === second[j];
    const isFirst = !isBoth && i < first.length && (j === second.length || common[i + 1][j] >= common[i][j + 1]);
    if (isBoth || isFirst) i += 1;
    if (isBoth || !isFirst) j += 1;
    pairs.push([i, j]);
  }
  return pairs;
}

/** The controls that step two runs together. */
export class Lockstep {
  /** Makes the controls of both runs. `used` is called when the reader steps both. */
  constructor(runs, used) {
    Object.assign(this, { runs, used, pairs: [[0, 0]], at: 0 });
    const makeButtonTo = (text, at, attributes) => makeButton(text, () => this.jump(at()), attributes);
    const first = makeButtonTo("|◀", () => 0, { "aria-label": "Both to the start", title: "Both to the start (Home)" });
    const last = makeButtonTo("▶|", () => this.pairs.length - 1, { "aria-label": "Both to the end", title: "Both to the end (End)" });
    this.back = makeButtonTo("◀", () => this.at - 1, { id: "both-back", "aria-label": "Both back", title: "Both back (←)" });
    this.forward = makeButtonTo("Step both ▶", () => this.at + 1, { id: "both-forward", class: "main", title: "Both forward (→)" });
    this.count = el("span", { class: "count" });
    const named = { class: "lockstep", role: "group", "aria-label": "Both runs together" };
    this.place = el("span", named, first, this.back, this.forward, last, this.count);
    this.place.hidden = true;
    document.addEventListener("keydown", (event) => this.handleKey(event));
  }

  /** Returns whether both runs are shown at a step. */
  get isReady() {
    return this.runs.every((it) => it.isOpen && it.step !== null);
  }

  /** Shows the place of both runs, after one of them is another run or at another step. */
  follow() {
    this.place.hidden = !this.isReady;
    if (!this.isReady) return;
    const [first, second] = this.runs;
    this.pairs = pairSteps(first.events, second.events);
    const isHere = ([i, j]) => i === first.step && j === second.step;
    const isNear = ([i]) => i === first.step;
    const here = this.pairs.findIndex(isHere);
    this.at = here < 0 ? this.pairs.findIndex(isNear) : here;
    this.back.disabled = this.at === 0;
    this.forward.disabled = this.at === this.pairs.length - 1;
    this.count.textContent = `${this.at} / ${this.pairs.length - 1}`;
  }

  /** Goes to a pair of steps of both runs. */
  async jump(index) {
    if (!this.isReady) return;
    this.used();
    const [i, j] = this.pairs[Math.max(0, Math.min(index, this.pairs.length - 1))];
    const [first, second] = this.runs;
    for (const it of this.runs) it.view.player.touch();
    await Promise.all([first.step === i ? null : first.go(i), second.step === j ? null : second.go(j)]);
  }

  /** Steps both by keys, unless one of the two has them. */
  handleKey(event) {
    const { key, target } = event;
    if (!this.isReady || this.runs.some((it) => it.editor.hasKeys) || event.altKey || event.ctrlKey || event.metaKey) return;
    if (target.closest("textarea, select, input:not([type=checkbox]), [role=listbox], dialog") || !this.place.getClientRects().length) return;
    const [forward, back, last] = [this.at + 1, this.at - 1, this.pairs.length - 1];
    const steps = { ArrowRight: forward, PageDown: forward, ArrowLeft: back, PageUp: back, Home: 0, End: last };
    if (!(key in steps)) return;
    this.jump(steps[key]);
    event.preventDefault();
  }
}
