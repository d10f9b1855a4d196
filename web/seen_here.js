// Shows which states of a test this machine reaches. If ./page serves the page, its server runs the test on this processor for some seconds, as
// tools/on_machine.py does, and a table says how often each listed state was seen. Nothing is concluded from that: a state that was not seen
// may still be possible.
//
// An answer of the server is what tools/on_machine.py prints as JSON: the numbers of `runs`, `seconds`, `processors` and `listed` states; the states that
// were `seen`, each with its `count` and whether it is `listed`, and those `not_seen`; who made the `list`; and `notes`. Or it has an `error`.

import { el, makeButton } from "./dom.js";
import { NO_SERVER } from "./served.js";
import { hasServer } from "./supplies.js";

const SECONDS = 2;
const ABOUT = "What a processor shows proves nothing, and a state that was not seen was not seen, no more (docs/ON-MACHINE.md).";

/** The offer to run a test on this machine, and what was seen. There is none if no server is behind the page, or beside another test. */
export class SeenHere {
  text = null;

  constructor({ isAlone }) {
    this.isOffered = hasServer && isAlone;
    this.place = el("div", { class: "seen-here", hidden: !this.isOffered });
  }

  /** Offers to run the test of a text, in place of what was shown; of none if there is null. */
  offer(text) {
    this.text = this.isOffered ? text : null;
    this.place.replaceChildren(...this.makeButtons());
  }

  /** Returns the button that runs the test, in a list that is empty if there is no test. */
  makeButtons() {
    const run = () => this.run(this.text);
    return this.text === null ? [] : [makeButton(`Run it on this machine for ${SECONDS} seconds`, run, { class: "run-here" })];
  }

  /** Runs a test, and shows what was seen, unless another is offered meanwhile. */
  async run(text) {
    const notice = el("p", { class: "row asking", role: "status" }, `Running on this machine for ${SECONDS} seconds …`);
    this.place.replaceChildren(notice);
    const answer = await askServer(text);
    if (!this.place.contains(notice)) return;
    this.place.replaceChildren(...(answer.error ? [el("p", { class: "notice", role: "alert" }, answer.error)] : makeSeenTable(answer)), ...this.makeButtons());
  }
}

/** Asks the server to run the test of a text. Returns its answer, or one with an `error` if the server does not answer. */
async function askServer(text) {
  try {
    const body = JSON.stringify({ text, seconds: SECONDS });
    return await (await fetch("machine", { method: "POST", headers: { "Content-Type": "application/json" }, body })).json();
  } catch {
    return { error: NO_SERVER };
  }
}

/**
 * Returns the rows of the table: of each state its line and what is said of it, those that are seen most often first.
 * @param {object} answer
 * @returns {[string, string][]}
 */
export function listRows({ seen, not_seen: notSeen }) {
  const ordered = [...seen].sort((one, other) => Number(one.listed) - Number(other.listed) || other.count - one.count);
  const describeCount = ({ count, listed }) => (listed ? count.toLocaleString("en") : `${count.toLocaleString("en")}, and it is not listed`);
  return [...ordered.map((it) => [it.state, describeCount(it)]), ...notSeen.map((state) => [state, "not seen"])];
}

/**
 * Returns the sentence on a measurement: how many runs there were, for how long, and how many of the listed states were seen.
 * @param {object} answer
 * @returns {string}
 */
export function describeMeasurement({ runs, seconds, processors, listed, seen, list }) {
  const seenOfListed = seen.filter((it) => it.listed).length;
  const howOften = `${runs.toLocaleString("en")} runs in ${seconds.toFixed(1)} seconds on ${processors} processor${processors === 1 ? "" : "s"}`;
  return `${howOften}: seen here ${seenOfListed} of ${listed} listed states (the list by ${list}).`;
}

/** Returns the table of what was seen on this machine. */
function makeSeenTable(answer) {
  const rows = listRows(answer).map(([state, said]) => el("tr", {}, el("th", { scope: "row" }, el("code", {}, state)), el("td", {}, said)));
  const head = el("tr", {}, el("th", { scope: "col" }, "State"), el("th", { scope: "col" }, "Seen on this machine"));
  const notes = answer.notes.map((it) => el("p", { class: "small" }, it));
  const table = el("table", {}, el("thead", {}, head), el("tbody", {}, rows));
  return [el("p", { role: "status" }, describeMeasurement(answer)), table, ...notes, el("p", { class: "small" }, ABOUT)];
}
