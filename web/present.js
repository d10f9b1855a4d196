// Opens and closes the view for a projector, which is fitted into the window by code that comes with the hints.

import { findById } from "./dom.js";
import { loadHints } from "./supplies.js";

/** The view for a projector. */
export class Present {
  constructor() {
    Object.assign(this, { isOpen: false, changed: () => null });
    findById("present").addEventListener("click", () => this.open());
    findById("end-present").addEventListener("click", () => this.close());
    addEventListener("resize", () => this.fit());
    document.addEventListener("fullscreenchange", () => (document.fullscreenElement ? this.fit() : this.wasFull && this.close()));
    document.addEventListener("keydown", (event) => event.key === "Escape" && !document.querySelector("dialog[open]") && this.close());
  }

  /** Calls back when the view is opened or closed. */
  onChange(changed) {
    this.changed = changed;
  }

  /** Opens the view, on the full screen if the browser allows that. */
  async open() {
    this.isOpen = true;
    document.documentElement.classList.add("present");
    findById("end-present").hidden = false;
    this.changed();
    this.projectorFit ??= (await loadHints().catch(() => null))?.makeProjectorFit();
    if (!this.isOpen) return;
    this.fit();
    try {
      await document.documentElement.requestFullscreen();
      this.wasFull = true;
    } catch {
      // The view fills the window.
    }
    document.activeElement?.blur();
  }

  /** Returns to the usual view. */
  close() {
    if (!this.isOpen) return;
    this.isOpen = false;
    this.wasFull = false;
    document.documentElement.classList.remove("present");
    this.projectorFit?.end();
    findById("end-present").hidden = true;
    this.changed();
    if (document.fullscreenElement) document.exitFullscreen().catch(() => null);
    findById("present").focus();
  }

  /** Fits the view into the window, if it is open. */
  fit() {
    if (this.isOpen) this.projectorFit?.fit();
  }
}
