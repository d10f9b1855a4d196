// Writes the lines that are printed above the rest: the test, the schedule of the shown run, and a link to this view.

import * as address from "./address.js";
import { el, findById } from "./dom.js";
import { parseName } from "./tokens.js";

/** Returns a line that says which run of a test is shown, and at which step; or nothing if there is none. */
function describeRun({ editor, run }) {
  if (!run.isOpen || run.isLocked || run.step === null) return null;
  const schedule = run.events.length ? run.events.join(" ") : "no event";
  return el("p", {}, `The run of ${parseName(editor.text)}: `, el("code", {}, schedule), `, shown after ${run.step} of ${run.events.length} events.`);
}

/**
 * Fills what is printed above the rest whenever the page is printed; `shown` returns the tests with their runs.
 * @param {function(): States[]} shown
 */
export function listenToPrint(shown) {
  const fill = () => {
    const tests = shown();
    const names = tests.map(({ editor }) => parseName(editor.text)).join(" beside ");
    findById("paper").replaceChildren(
      el("h2", {}, names, el("span", {}, " in lw, a proved workbench for litmus tests on x86-TSO")),
      ...tests.map(describeRun).filter(Boolean),
      el("p", {}, "This page: ", el("code", {}, address.makeLink())),
    );
  };
  addEventListener("beforeprint", fill);
  matchMedia("print").addEventListener("change", ({ matches }) => matches && fill());
}
