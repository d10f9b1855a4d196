// Asks one question on the test that an editor holds. A new question ends the one before it, and the reader can end one that takes long.

import { el, makeButton } from "./dom.js";
import { hasServer } from "./supplies.js";
import { askBest, askServer, hasModule } from "./ways.js";

// In milliseconds: after how long the reader can end a question, and a second.
const PAUSE = 400;
const SECOND = 1000;
// What the page does meanwhile, if a question takes long.
const DOING = {
  film: "looking for a run to watch", graph: "finding its graph", "more fences": "trying fences", exchanges: "trying exchanges without their locks",
  "enough together": "trying fences and locks together", candidate: "looking for a state whose cycle says most",
};

// For each editor the questions that are asked on its test, by their names.
const askedByEditor = new WeakMap();

/** A question that is asked: `answer` is a promise, `shown` the line that is shown until it is fulfilled, and `progress` how far the way to it is, in words. */
class Asked {
  constructor(question, fields) {
    Object.assign(this, { question, fields, control: null, begun: performance.now(), progress: "" });
    this.answer = new Promise((resolve) => (this.resolve = resolve));
    this.ask(askBest);
  }

  /** Asks by one way, in place of the way so far. */
  async ask(way) {
    this.control?.abort();
    this.control = new AbortController();
    const { signal } = this.control;
    const failed = (error) => ({ error: `The page failed: ${error}.` });
    const answer = await way(this.question, this.fields, signal, (progress) => (this.progress = progress)).catch(failed);
    if (!signal.aborted) this.end(answer);
  }

  /** Ends it with an answer. If that is null, the line that is shown is removed, since nothing takes its place. */
  end(answer) {
    this.control.abort();
    clearInterval(this.clock);
    clearTimeout(this.limit);
    if (answer === null) this.shown?.remove();
    this.resolve(answer);
  }

  /**
   * Ends what runs by itself after so many milliseconds.
   * @param {number} timeout
   */
  endAfter(timeout) {
    const words = `This ran by itself, and was ended after ${timeout / SECOND} seconds. Run it to let it take longer.`;
    this.limit = setTimeout(() => this.end({ error: words }), timeout);
  }

  /**
   * Makes the line that is shown until the answer arrives: after a while how long it takes, how to end it, and the other way to an answer.
   * @returns {Element}
   */
  makeLine() {
    const words = el("span", {}, "…");
    const line = el("p", { class: "row asking", role: "status" }, words);
    const cancel = () => this.end({ error: "Cancelled." });
    const instead = (event) => {
      event.target.remove();
      this.ask(askServer);
    };
    setTimeout(async () => {
      line.append(makeButton("Cancel", cancel, { class: "cancel" }));
      if (!hasServer || !(await hasModule())) return;
      line.append(makeButton("Ask the program on this machine instead", instead, { class: "instead" }));
    }, PAUSE);
    this.clock = setInterval(() => (words.textContent = this.describeWaiting()), SECOND);
    this.shown = line;
    return line;
  }

  /** Returns how far the answer is, and since how many seconds it is waited for. */
  describeWaiting() {
    const seconds = Math.floor((performance.now() - this.begun) / SECOND);
    return ["…", [this.progress || DOING[this.question], `${seconds} s`].filter(Boolean).join(", ")].join(" ");
  }
}

/** Returns the questions that are asked on the test of an editor, a map by their names. */
function listQuestions(editor) {
  if (!askedByEditor.has(editor)) askedByEditor.set(editor, new Map());
  return askedByEditor.get(editor);
}

/**
 * Returns the answer: an object that has `fault` or `error` if there is no other; null if it was ended meanwhile, by a later question of the same name or by `endQuestions`. Until then a
 * `place` shows that it is waited for. What is asked for at several places has a `name` for each. The answer may take `timeout` milliseconds,
 * or any time if that is null, since the reader has asked for it.
 * @param {Editor} editor
 * @param {string} question
 * @param {object} fields
 * @param {{place?: Element, name?: string, timeout?: number}} [options]
 * @returns {Promise<object | null>}
 */
export async function ask(editor, question, fields, { place = null, name = question, timeout = null } = {}) {
  listQuestions(editor).get(name)?.end(null);
  const asking = new Asked(question, fields);
  listQuestions(editor).set(name, asking);
  if (timeout !== null) asking.endAfter(timeout);
  place?.replaceChildren(asking.makeLine());
  return asking.answer;
}

/**
 * Ends all questions on the test of an editor: their answers would be of another test.
 * @param {Editor} editor
 */
export function endQuestions(editor) {
  for (const it of listQuestions(editor).values()) it.end(null);
  listQuestions(editor).clear();
}
