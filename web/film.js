// Shows a run of another text than that in the editor, in a panel of its own; and makes the button that shows one.

import { makeButton } from "./dom.js";
import { isStill } from "./motion.js";
import { Run } from "./run.js";

/**
 * Makes the button that shows a run to a state.
 * @param {string} state
 * @param {function(): void} act
 * @returns {Element}
 */
export function makeWatchButton(state, act) {
  return makeButton("Watch", act, { class: "watch", "aria-label": `Watch a run to ${state}` });
}

/** A run of another text than that in the editor. */
export class Film extends Run {
  constructor(editor) {
    super(editor, { isLinked: false });
  }

  /** Shows a run from its start, which plays, and brings it into sight. */
  async show(state, options) {
    await super.show(state, { play: true, ...options });
    this.place.scrollIntoView({ block: "nearest", behavior: isStill() ? "auto" : "smooth" });
  }
}
