// Fits the view for a projector: only the question, the verdict, the list, the machine and the graph, in the largest type in which all of it fits,
// and never in less than a least size, nor in less than the page itself has; if it takes that, the graph goes, and a button shows it in place of the
// machine. Its letters are as large as the rest if they can be. If not all fits in the least size, long code is scrolled inside its box, and the next
// instruction stays in sight. The text of a test is shown with the table of its fences, since no machine is there.

import { showNext } from "./code_window.js";
import { findById } from "./dom.js";

// The least size of type in pixels, of one test and of two, the least of one test as a part of the height of the window, and the largest.
const MIN_TYPE = 18;
const MIN_TYPE_OF_TWO = 13;
const MIN_PART_OF_HEIGHT = 0.024;
const MAX_TYPE = 44;
// The size of type in pixels that is still tried if the machine is not in sight as a whole in the least one.
const SMALLEST_TYPE = 11;
// The largest ratio of the machine's type to the rest, if there is room: with at most two threads, and with more.
const [MAX_SCALE, MAX_TIGHT_SCALE] = [1.5, 1.2];
// The possible places of the graph: beside the machine, and beside all. Its possible sizes there: that in which its letters are as large as the rest, a
// smaller one, and as it is drawn; and the largest if there is room. A graph beside the machine may have the list below it, in place of the list above.
// With four threads the machine has the whole width, and the graph is below it, if that has room.
const GRAPH_PLACES = ["machine", "all"];
const GRAPH_BELOW = "below";
// The possible places of the text, if fences are shown: below what is said of them, and beside all.
const TEXT_PLACES = ["below", "beside"];
const LIST_BELOW = "list";
const GRAPH_SIZES = [1.24, 1.12, 1];
// A graph that the reader has put in place of the machine, and its further sizes.
const GRAPH_ONLY = "only";
const SMALL_SIZES = [0.85, 0.7];
const MAX_GRAPH_SIZE = 1.6;
// The least part of the width that the machine has beside a graph, if all fits then.
const MIN_PART_OF_WIDTH = 0.6;
// The elements that are no smaller than on the page itself, by the property of the style sheet that has their size there.
const USUAL = {
  "--usual-verdict": "#outcome .verdict",
  "--usual-strong": "#outcome .verdict strong",
  "--usual-list": "#outcome table.strip",
  "--usual-code": "#watching .code",
  "--usual-word": "#watching .word",
};
// The largest number of lines of the verdict, if it can be, with a part of a line to spare, since its first word is larger.
const LINES_OF_VERDICT = 2.7;
// The least number of lines of code that are shown, and how often their room is made smaller at most.
const MIN_LINES = 3;
const MAX_TRIES = 4;

/** Fits the view for a projector into the window. */
export class ProjectorFit {
  /** Chooses the largest type in which all fits. */
  fit() {
    const isOne = !document.body.classList.contains("two");
    const least = isOne ? Math.max(MIN_TYPE, MIN_PART_OF_HEIGHT * innerHeight) : MIN_TYPE_OF_TWO;
    const most = Math.max(MAX_TYPE, least * 2);
    const { dataset, style } = document.documentElement;
    style.removeProperty("--code-room");
    document.documentElement.classList.remove("close");
    this.keepUsual();
    this.placeGraph(dataset, least);
    this.placeText(dataset, least);
    document.documentElement.classList.toggle("close", !this.fits(least));
    if (!this.fits(least)) return this.shrink(least);
    const size = this.findSize(least, most);
    if (isOne) this.enlarge(this.moveList(least, most, size));
  }

  /** Returns the largest size of type in which all fits, and the verdict has no more lines than in the least size. Leaves the page in that size. */
  findSize(least, most) {
    this.fits(least);
    const isShort = hasShortVerdict();
    const size = findLargest([least, most, 0.5], (it) => this.fits(it) && (!isShort || hasShortVerdict()));
    this.fits(size);
    return size;
  }

  /**
   * Moves the list below a graph that is beside the machine, if the type is larger then than a size. Returns the size of the type, and leaves the page
   * in it.
   */
  moveList(least, most, size) {
    const { dataset } = document.documentElement;
    const isShown = document.querySelector("#answers > #graph-place .graph")?.getClientRects().length > 0;
    if (dataset.graph !== "machine" || !isShown) return size;
    dataset.graph = LIST_BELOW;
    const other = this.fits(least) ? this.findSize(least, most) : 0;
    if (other > size) return other;
    dataset.graph = "machine";
    this.fits(size);
    return size;
  }

  /**
   * Puts the graph, as large as can be, where all fits in the least size of type, or if there is no such place, nowhere: its button puts it in place of
   * the machine then.
   */
  placeGraph(dataset, least) {
    const listTries = (places, part) => GRAPH_SIZES.flatMap((ofGraph) => places.map((place) => ({ place, ofGraph, part })));
    const isOfFour = document.querySelector("#watching .thread:nth-child(4)") !== null;
    const below = isOfFour ? listTries([GRAPH_BELOW], 0) : [];
    if (document.documentElement.classList.contains("graph-only")) {
      dataset.graph = GRAPH_ONLY;
      return [...GRAPH_SIZES, ...SMALL_SIZES].find((ofGraph) => this.fits(least, { ofMachine: 1, ofGraph, part: 0 }));
    }
    for (const { place, ofGraph, part } of [...below, ...listTries(GRAPH_PLACES, MIN_PART_OF_WIDTH), ...listTries(GRAPH_PLACES, 0)]) {
      dataset.graph = place;
      if (this.fits(least, { ofMachine: 1, ofGraph, part })) return;
    }
    dataset.graph = "none";
  }

  /** Shows the text where all fits with it in the least size of type, or if there is no such place, nowhere. */
  placeText(dataset, least) {
    dataset.text = TEXT_PLACES.find((place) => {
      dataset.text = place;
      return this.fits(least);
    }) ?? "none";
  }

  /** Makes the machine as large as the room beside the rest allows, in a size of type, and then the graph. */
  enlarge(size) {
    const isTight = document.querySelector("#watching .machine.tight") !== null;
    const grow = (name, most) => {
      const accepts = (it) => this.fits(size, { [name]: it });
      accepts(findLargest([this[name], most, 0.05], accepts));
    };
    grow("ofMachine", isTight ? MAX_TIGHT_SCALE : MAX_SCALE);
    grow("ofGraph", MAX_GRAPH_SIZE);
  }

  /** Keeps the sizes of type that the page itself has in this window. */
  keepUsual() {
    const { classList, style } = document.documentElement;
    classList.remove("present");
    style.fontSize = "";
    const shown = Object.entries(USUAL).map(([name, css]) => [name, document.querySelector(css)]).filter(([, it]) => it);
    const sizes = shown.map(([name, it]) => [name, getComputedStyle(it).fontSize]);
    classList.add("present");
    for (const [name, size] of sizes) style.setProperty(name, size);
  }

  /** Folds the code, in a size of type, or in a smaller one if the machine is not in sight as a whole then. */
  shrink(least) {
    const root = document.documentElement;
    for (let size = least; size >= SMALLEST_TYPE; size -= 1) {
      root.style.removeProperty("--code-room");
      root.style.fontSize = `${size}px`;
      this.foldCode();
      if (root.scrollHeight <= innerHeight) return;
    }
  }

  /** Shows as many lines of the code as leave room for the rest of the machine, and the next instruction among them. */
  foldCode() {
    const root = document.documentElement;
    const codes = [...document.querySelectorAll(".code")].filter((it) => it.offsetParent !== null);
    const measureTallest = () => Math.max(...codes.map((it) => it.clientHeight));
    for (let tries = 0; codes.length && tries < MAX_TRIES && root.scrollHeight > innerHeight; tries += 1) {
      const least = MIN_LINES * codes[0].firstElementChild.offsetHeight;
      root.style.setProperty("--code-room", `${Math.max(least, measureTallest() - (root.scrollHeight - innerHeight))}px`);
    }
    for (const it of document.querySelectorAll(".machine")) showNext(it);
  }

  /**
   * Returns whether all fits in a size of type, with the machine and the graph larger by factors, and the machine has its part of the width. Leaves the page
   * in that size.
   */
  fits(size, factors = {}) {
    const root = document.documentElement;
    Object.assign(this, factors);
    root.style.fontSize = `${size}px`;
    root.style.setProperty("--of-machine", this.ofMachine);
    root.style.setProperty("--of-graph", this.ofGraph);
    const isWhole = (box) => box.scrollWidth <= box.clientWidth + 1 && box.scrollHeight <= box.clientHeight + 1;
    const scrolled = [...document.querySelectorAll(".code, .wide, .registers, #text")].filter((it) => it.offsetParent !== null);
    const isWide = findById("watching").offsetWidth >= this.part * findById("answers").offsetWidth;
    return isWide && scrolled.every(isWhole) && root.scrollHeight <= innerHeight && root.scrollWidth <= innerWidth;
  }

  /** Returns to the sizes of the page. */
  end() {
    const { classList, style } = document.documentElement;
    classList.remove("graph-only");
    style.fontSize = "";
    for (const name of ["--code-room", "--of-machine", "--of-graph", ...Object.keys(USUAL)]) style.removeProperty(name);
  }
}

/** Returns about the largest number between two, to within a step, that a test accepts; it accepts the smallest. */
function findLargest([small, large, step], accepts) {
  let [best, above] = [small, large];
  while (above - best > step) {
    const middle = (best + above) / 2;
    if (accepts(middle)) best = middle;
    else above = middle;
  }
  return best;
}

/** Returns whether the verdict of one test has few lines. */
function hasShortVerdict() {
  const verdict = document.querySelector("#outcome .verdict");
  return !verdict || verdict.offsetHeight <= LINES_OF_VERDICT * parseFloat(getComputedStyle(verdict).lineHeight);
}
