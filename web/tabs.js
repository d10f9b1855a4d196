// The tabs of the page. Watching a run and running by hand have one panel; each other tab has its own.

import { findById } from "./dom.js";

export const VIEWS = ["states", "hand", "why", "compile", "fences"];
const IN_RUN = ["states", "hand"];

/** The tabs of the page. */
export class Tabs {
  /** Listens to the tabs. It calls `onChoose` with the tab that the reader has chosen. */
  constructor(onChoose) {
    this.onChoose = onChoose;
    this.view = VIEWS[0];
    for (const name of VIEWS) findById(`tab-${name}`).addEventListener("click", () => this.choose(name));
    findById("tabs").addEventListener("keydown", (event) => this.handleKey(event));
  }

  /** Returns whether the tab is one of a run. */
  get isOfRun() {
    return IN_RUN.includes(this.view);
  }

  /** Shows a tab with its panel. */
  show(view) {
    this.view = view;
    document.body.dataset.view = view;
    for (const name of VIEWS) {
      const tab = findById(`tab-${name}`);
      tab.setAttribute("aria-selected", String(name === view));
      tab.tabIndex = name === view ? 0 : -1;
      if (!IN_RUN.includes(name)) findById(name).hidden = name !== view;
    }
    findById("watching").hidden = !this.isOfRun;
    findById("watching").setAttribute("aria-labelledby", `tab-${this.isOfRun ? view : IN_RUN[0]}`);
  }

  /** Chooses a view as a click on its tab does. */
  choose(view) {
    this.show(view);
    findById(`tab-${view}`).focus({ preventScroll: true });
    this.onChoose(view);
  }

  /** Goes from tab to tab by arrows. */
  handleKey(event) {
    const at = VIEWS.findIndex((it) => findById(`tab-${it}`) === event.target);
    const to = { ArrowRight: at + 1, ArrowLeft: at + VIEWS.length - 1, Home: 0, End: VIEWS.length - 1 }[event.key];
    if (to === undefined) return;
    this.choose(VIEWS[to % VIEWS.length]);
    event.preventDefault();
  }
}
