// The further actions on a run: show another to the same state, copy its schedule, save its pictures, and follow a schedule that the reader
// writes.

import { ask } from "./ask.js";
import { el, makeButton } from "./dom.js";
import { copy, save } from "./output.js";
import { showError } from "./errors.js";

/** The menu of a run. */
export class RunMenu {
  constructor(run) {
    this.run = run;
    const id = (name) => run.editor.makeId(name);
    this.said = el("span", { role: "status" });
    this.wrong = el("div", { role: "status", class: "small" });
    const enter = (event) => event.key === "Enter" && this.follow();
    this.written = el("input", { type: "text", size: "22", id: id("written"), placeholder: "P0 D0 P1", keydown: enter });
    this.listed = makeButton("Watch the run that lw lists", () => this.run.chooseListed(), { class: "listed-run" });
    this.opener = el("summary", { "aria-label": "More on this run" }, "⋯");
    this.place = el("details", { class: "menu" }, this.opener, el("div", { class: "sheet-menu" },
      this.listed,
      makeButton("Copy the schedule", () => copy(run.events.join(" "), this.said)),
      makeButton("Save this picture", () => this.savePicture(false), { id: id("save-picture") }),
      makeButton("Save all steps as a strip", () => this.savePicture(true), { id: id("save-strip") }),
      this.said,
      el("label", {}, "Follow a schedule ", this.written),
      makeButton("Follow", () => this.follow(), { id: id("follow") }),
      this.wrong));
  }

  /** Closes it: another run is shown. If that is not the one that lw lists, the listed one is offered. */
  reset() {
    this.place.open = false;
    this.listed.hidden = !this.run.isOther;
    this.said.replaceChildren();
    this.wrong.replaceChildren();
    this.written.value = "";
  }

  /** Saves a picture of the run's present step, or a strip of all its steps. */
  async savePicture(isStrip) {
    const { editor, text, protocol, events, step } = this.run;
    const schedule = (isStrip ? events : events.slice(0, step)).join(" ");
    const answer = await ask(editor, "picture", { text, schedule, protocol, strip: isStrip });
    if (answer?.picture) save(isStrip ? "strip.svg" : "machine.svg", "image/svg+xml", answer.picture);
    this.said.textContent = answer?.picture ? "Saved." : "";
    if (answer && !answer.picture) showError(answer, this.wrong, editor);
  }

  /** Follows the schedule that is written, and closes the menu; or says what is wrong with it. */
  async follow() {
    const answer = await this.run.follow(this.written.value.trim());
    this.wrong.replaceChildren();
    if (answer) return showError(answer, this.wrong, this.run.editor);
    this.place.open = false;
    return this.opener.focus({ preventScroll: true });
  }
}
