// The row that plays a run: buttons for its steps, and its schedule, a button for each event, along which the reader goes.

import { el, makeButton } from "./dom.js";
import { makeThreadClass } from "./tint.js";

const PAUSE = 1000;

/** The row that plays a run. */
export class Player {
  /** Makes the row. `id` makes the ids of the buttons, `go` goes to a step, `isSeen` says whether the run is in sight; `more` is shown at the end. */
  constructor(id, { go, isSeen, more }) {
    Object.assign(this, { go, isSeen, step: 0, events: [], timer: null, isFresh: false });
    const makeButtonTo = (text, step, attributes) => makeButton(text, () => this.jump(step()), attributes);
    this.first = makeButtonTo("|◀", () => 0, { "aria-label": "To the start", title: "To the start (Home)" });
    this.last = makeButtonTo("▶|", () => this.events.length, { "aria-label": "To the end", title: "To the end (End)" });
    this.back = makeButtonTo("◀", () => this.step - 1, { id: id("back"), "aria-label": "Back", title: "Back (←)" });
    this.forward = makeButtonTo("Step ▶", () => this.step + 1, { id: id("forward"), class: "main", title: "Forward (→)" });
    this.playing = makeButton("▶ Play", () => (this.timer ? this.stop() : this.play()), { id: id("play"), class: "play" });
    const scrub = (event) => this.scrub(event);
    this.schedule = el("ol", { class: "events", id: id("schedule"), "aria-label": "The schedule", pointerdown: scrub, pointermove: scrub });
    this.count = el("span", { class: "count" });
    this.place = el("div", { class: "transport" }, this.first, this.back, this.forward, this.last, this.playing, this.schedule, this.count, more);
  }

  /**
   * Shows a schedule, and the step that the run is at. `isOpen` says that more events may follow, `places` has of each event the place of its
   * instruction, if that is known.
   */
  show(events, step, { isOpen, places }) {
    Object.assign(this, { events, step, places });
    this.back.disabled = step === 0;
    this.forward.disabled = step === events.length;
    for (const it of [this.first, this.last, this.playing]) it.disabled = events.length === 0;
    this.count.textContent = isOpen && step === events.length ? "" : `${step} / ${events.length}`;
    this.drawSchedule();
    if (step === events.length) this.stop();
  }

  /** Draws the events of the schedule as buttons, and scrolls to the present one. */
  drawSchedule() {
    const hadFocus = this.schedule.contains(document.activeElement);
    this.schedule.replaceChildren(...this.events.map((event, index) => el("li", {}, this.makeEventButton(event, index))));
    const now = this.schedule.querySelector("[tabindex='0']");
    if (hadFocus) now?.focus({ preventScroll: true });
    if (now) this.schedule.scrollLeft = Math.max(0, now.offsetLeft - this.schedule.offsetLeft - this.schedule.clientWidth / 2);
  }

  /** Returns the button of an event, which goes to the step after it. */
  makeEventButton(event, index) {
    const [isDone, isNow] = [index < this.step, index === this.step - 1];
    const kinds = ["event", makeThreadClass(event[1]), event[0] === "D" && "drains", isDone && "behind", isNow && "now"];
    return makeButton(event, () => this.jump(index + 1), {
      class: kinds.filter(Boolean).join(" "),
      "data-step": String(index + 1),
      "data-at": this.places[index] ?? null,
      title: event[0] === "P" ? `${event}: its next step` : event[0] === "D" ? `${event}: P${event[1]}'s oldest store goes to memory` : null,
      "aria-label": `Event ${index + 1} of ${this.events.length}: ${event}`,
      "aria-current": isNow ? "step" : null,
      tabindex: index === Math.max(this.step - 1, 0) ? "0" : "-1",
    });
  }

  /** Goes to a step at the reader's request. */
  jump(step) {
    this.touch();
    this.go(step);
  }

  /** Begins with another run, which the reader has not stepped through yet. */
  begin() {
    this.isFresh = true;
  }

  /** Stops: the reader steps through the run. */
  touch() {
    this.isFresh = false;
    this.stop();
  }

  /** Goes along the schedule with a pointer that is held down. */
  scrub(event) {
    const over = document.elementFromPoint(event.clientX, event.clientY)?.closest?.("[data-step]");
    const step = Number(over?.dataset.step);
    if (event.buttons && over && this.schedule.contains(over) && step !== this.step) this.jump(step);
  }

  /** Plays the run: from its start if the reader has not stepped through it yet or if it has ended. Stops if the run is out of sight. */
  play() {
    if (this.isFresh || this.step === this.events.length) this.go(0);
    this.isFresh = false;
    this.playing.textContent = "❚❚ Pause";
    this.timer = setInterval(() => (this.isSeen() ? this.go(this.step + 1) : this.stop()), PAUSE);
  }

  /** Stops playing. */
  stop() {
    clearInterval(this.timer);
    this.timer = null;
    this.playing.textContent = "▶ Play";
  }
}
