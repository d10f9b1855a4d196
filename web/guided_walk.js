// A walk through the page for beginners: a panel below the head of the page that explains the first test in a few steps, marks what each is about, and
// leads the page's own run on. It comes with the hints, and so do its styles. Whatever the reader does meanwhile is not hindered: the next step opens
// again what it needs.

import * as address from "./address.js";
import { el, findById, makeButton } from "./dom.js";
import { isStill } from "./motion.js";
import { findTints, renderTintedSentence } from "./tint.js";

// The fields of the address of the run that is explained, and of the test that follows it.
const RUN = { example: "SB-x86", state: "0:EAX=0; 1:EAX=0;", own: "1" };
const FENCED = { example: "SB+mfences-x86" };
const QUESTION = { example: "MP-x86", predict: "1" };
// The steps: the title, the words, the parts of the page that are marked, the test, and the steps of the run that are shown in sequence, if the words are on
// the last of them.
const STEPS = [
  {
    title: "Two threads and a question",
    words:
      "P0 and P1 run at the same time. Each stores 1 to one location, then loads the other one into its register `EAX`. Both locations are 0 at first. " +
      "lw says *Allowed*: both loads can read 0. This walk shows how that comes.",
    parts: "#editor, #watching .code, #outcome .asked > code",
    link: RUN,
    run: [0],
  },
  {
    title: "A store waits",
    words: "P0 stores 1 to `x`. The store does not reach memory at once: `x=1` waits in P0's store buffer. Memory still has `x=0`, so P1 can't see the 1 yet.",
    parts: "#watching .thr-0 .buffer, #watching .memory",
    link: RUN,
    run: [1],
  },
  {
    title: "A load goes ahead",
    words: "P0 does not wait for its store. It loads `y` from memory, which is still 0, into `EAX`.",
    parts: "#watching .thr-0 .register, #watching .memory",
    link: RUN,
    run: [2],
  },
  {
    title: "The other thread does the same",
    words: "`y=1` waits in P1's own store buffer, and P1 loads `x` from memory: 0 again. Both loads have read 0.",
    parts: "#watching .thr-1 :is(.buffer, .register), #watching .memory",
    link: RUN,
    run: [3, 4],
  },
  {
    title: "The stores come too late",
    words: "Both entries go to memory, each when the machine likes: they drain. The run has ended, with 0 in both registers. So the verdict is *Allowed*.",
    parts: "#watching .memory, #outcome .verdict",
    link: RUN,
    run: [5, 6],
  },
  {
    title: "All ways to end",
    words:
      "The list has every state in which a run can end. If the threads only took turns, there would be three of the four: the later load comes after both " +
      "stores, and reads 1. The first state needs store buffers. Click a number to watch a run to it.",
    parts: ".states-place",
    link: RUN,
    run: [6],
    isFree: true,
  },
  {
    title: "A fence forbids it",
    words:
      "This is the same test with a fence in each thread. `MFENCE` waits until the thread's own store buffer is empty, so no load goes ahead of the store: " +
      "*Forbidden*. *Why not?* draws the reason.",
    parts: "#watching li:has(.fencing), #outcome .verdict, #outcome .never, #tab-why",
    link: FENCED,
  },
  {
    title: "Your turn",
    words: "Go on with one of these:",
    parts: "header .switch:has(#predict), #open-gallery, #to-text, #editor",
    link: FENCED,
    isFree: true,
  },
];
const LEFT = "The page shows something else now. *Next* or *Back* goes on with the walk.";
const NO_RUN = "The page has no answer to this test now. Close the walk, and take it again later.";
// How long a step of the run is shown before the next, in milliseconds.
const PAUSE = 1100;
// In a window that is narrower the page is scrolled as a whole.
const NARROW = "(max-width: 69.99rem)";
const FRAME = "color-mix(in srgb, var(--lit) 72%, CanvasText)";
const STYLE = `
#walk {
  display: flex; flex-wrap: wrap; gap: 0.3rem 1rem; align-items: center; padding: 0.5rem 1rem; position: sticky; top: 0; z-index: 6;
  background: color-mix(in srgb, var(--lit) 14%, Canvas); border-bottom: 2px solid ${FRAME};
}
#walk > div { flex: 1 1 26rem; max-width: 66rem; }
#walk h2 { font-size: 0.9375rem; }
#walk h2 span { font-weight: 400; }
#walk p { font-size: 1rem; min-height: 2.9em; }
#walk .row { margin-left: auto; }
#walk [aria-disabled=true] { opacity: 0.45; cursor: default; }
html.present #walk, body:has(> #walk:not([hidden])) :is(#offer, #paste) { display: none; }
@media (min-width: 70rem) and (min-height: 34rem) {
  body:has(> #walk:not([hidden])) { grid-template-rows: auto auto minmax(0, 1fr); }
  html.present body:has(> #walk) { grid-template-rows: auto minmax(0, 1fr); }
}
@media (max-width: 40rem) { #walk { padding: 0.4rem 0.75rem; } #walk p { font-size: 0.9375rem; line-height: 1.35; } }
@media (min-width: 70rem) and (max-height: 53.7rem) { body:has(> #walk:not([hidden])) #test :is(.folded, .graph-place .row) { display: none; } }
@media print { #walk { display: none; } }
`;

/** The panel of the walk. */
class GuidedWalk {
  /** Makes the panel, given `open`, which opens the fields of an address, `choose`, which opens an example or the reader's own test, and the page's `run`. */
  constructor(page) {
    Object.assign(this, page, { at: 0, ticket: 0, isBusy: false, marks: new CSSStyleSheet() });
    const styles = new CSSStyleSheet();
    styles.replaceSync(STYLE);
    document.adoptedStyleSheets = [...document.adoptedStyleSheets, styles, this.marks];
    this.title = el("h2", { id: "walk-title" });
    this.words = el("p", { id: "walk-words", role: "status" });
    this.back = makeButton("Back", () => this.at && this.go(this.at - 1));
    this.next = makeButton("Next", () => (this.isLast ? this.close() : this.go(this.at + 1)), { class: "main" });
    const close = makeButton("✕", () => this.close(), { "aria-label": "Close the walk", title: "Close (Esc)" });
    const attributes = { id: "walk", role: "dialog", "aria-labelledby": "walk-title", "aria-describedby": "walk-words", hidden: true };
    this.place = el("section", attributes, el("div", {}, this.title, this.words), el("span", { class: "row" }, this.back, this.next, close));
    document.querySelector("header").after(this.place);
    document.addEventListener("keydown", ({ key }) => key === "Escape" && this.closeByKey());
    for (const name of ["outcome", "watching"]) new MutationObserver(() => this.follow()).observe(findById(name), { childList: true, subtree: true });
  }

  /** Returns whether the last step is shown. */
  get isLast() {
    return this.at === STEPS.length - 1;
  }

  /** Begins the walk. */
  start() {
    this.place.hidden = false;
    this.next.focus({ preventScroll: true });
    return this.go(0);
  }

  /** Ends the walk. The focus goes to where the walk begins, unless the reader has put it elsewhere. */
  close() {
    const { activeElement } = document;
    const isHere = this.place.contains(activeElement) || activeElement === document.body;
    this.ticket += 1;
    this.place.hidden = true;
    this.marks.replaceSync("");
    if (isHere) (findById("open-walk") ?? findById("answers")).focus({ preventScroll: true });
  }

  /** Ends the walk, unless Escape closes something else. */
  closeByKey() {
    if (!this.place.hidden && !document.querySelector("dialog[open], html.present")) this.close();
  }

  // The steps.

  /** Shows a step: opens its test, unless the page shows that, and leads the run to its place. */
  async go(at) {
    this.ticket += 1;
    const { ticket } = this;
    const isForward = at > this.at;
    const { link, run = [] } = STEPS[at];
    Object.assign(this, { at, isBusy: true });
    this.showTitle();
    const steps = isForward && !isStill() ? run : run.slice(-1);
    if (!this.isOpen(link)) await this.open({ ...link, step: run.length ? steps[0] : null });
    for (const [index, step] of steps.entries()) {
      if (index) await new Promise((resolve) => setTimeout(resolve, PAUSE));
      if (ticket !== this.ticket) return;
      if (this.isOpen(link) && this.run.step !== step) await this.run.go(step);
      if (!index && ticket === this.ticket) this.showWords(this.isOpen(link));
    }
    if (ticket !== this.ticket) return;
    this.isBusy = false;
    if (!run.length) this.showWords(this.isOpen(link));
    this.follow();
  }

  /** Returns whether the page shows the test of a link, with its run if the link names one, and nothing is kept back. */
  isOpen({ example, state }) {
    const { run } = this;
    const { beside, beside_text: other, predict, example: shown } = address.read();
    if (beside || other || predict || shown !== example || !run.isOpen || !run.isOfEditor) return false;
    return !state || (!run.isByHand && run.goal === state && document.body.dataset.view === "states");
  }

  /** Shows the title of the step, and what the buttons do. */
  showTitle() {
    const { title } = STEPS[this.at];
    this.title.replaceChildren(title, " ", el("span", { class: "small" }, `${this.at + 1} of ${STEPS.length}`));
    this.back.setAttribute("aria-disabled", String(this.at === 0));
    this.next.textContent = this.isLast ? "Done" : "Next";
  }

  /** Shows the words of the step, and marks what they are about; or says that the page does not show it. */
  showWords(isShown, instead = NO_RUN) {
    const { words, parts } = STEPS[this.at];
    this.words.replaceChildren(...this.render(isShown ? words : instead), ...(isShown && this.isLast ? this.makeWays() : []));
    const margin = this.place.offsetHeight + 10;
    const mark = `:is(${parts}) { outline: 3px dashed ${FRAME}; outline-offset: -1px; border-radius: 0.3rem; } header :is(${parts}) { outline-offset: 3px; }`;
    this.marks.replaceSync(isShown ? `${mark} #outcome, .run { scroll-margin-top: ${margin}px; }` : "");
    this.isShown = isShown;
    if (isShown) this.bringParts(parts);
  }

  /** Returns words in the colours of the test, with names of the page's parts in bold. */
  render(words) {
    const tints = findTints(this.run.editor.text);
    return words.split("*").flatMap((it, index) => (index % 2 ? el("b", {}, it) : renderTintedSentence(it, tints)));
  }

  /** Brings what is marked into sight in a window in which the page is scrolled as a whole. */
  bringParts(parts) {
    if (!matchMedia(NARROW).matches) return;
    const marked = [...document.querySelectorAll(parts)].find((it) => it.getClientRects().length);
    const whole = marked?.closest(".run, #outcome");
    if (whole) whole.scrollIntoView({ block: "start", behavior: isStill() ? "auto" : "smooth" });
    else scrollTo({ top: 0 });
  }

  /** Takes note that the reader has changed what the step is about, or has brought it back. */
  follow() {
    const { link, run, isFree } = STEPS[this.at];
    if (this.place.hidden || this.isBusy || isFree) return;
    const isShown = this.isOpen(link) && (!run || this.run.step === run.at(-1));
    if (isShown !== this.isShown) this.showWords(isShown, LEFT);
  }

  /** Returns what the walk ends with: buttons that lead on. */
  makeWays() {
    const makeWay = (text, act) => {
      const go = () => {
        this.close();
        act();
      };
      return makeButton(text, go, { class: "link" });
    };
    return [
      " ", makeWay("predict a test", () => this.open(QUESTION)), " before its answer is shown, ",
      makeWay("look through all examples", () => findById("open-gallery").click()), ", or ",
      makeWay("write a test or paste code of your own", () => this.choose("")), " in C, C++, Rust or assembly.",
    ];
  }
}

// The walk, once it was begun.
let walk = null;

/**
 * Begins the walk through the page, on the first test.
 * @param {{open: function(object): Promise<void>, choose: function(string): Promise<void>, run: Run}} page
 */
export function takeWalk(page) {
  walk ??= new GuidedWalk(page);
  walk.start();
}
