// Shows why there is no answer: a fault, with its place and the sentence of docs/FORMAT.md for it, or an error. `Hints` are the functions of hints.js.

import { ask } from "./ask.js";
import { isOtherText } from "./change.js";
import { el, findById, makeButton, renderSentence } from "./dom.js";
import { keepCode } from "./made_from.js";
import { copy } from "./output.js";
import { fold } from "./placing.js";
import { documents, fetchTable, loadHints } from "./supplies.js";
import { findTints, renderText } from "./tint.js";

// The sentences of docs/FORMAT.md, by the kind and the number of a cause, as `cell 2`.
let sentences = {};

/** Loads the sentences of docs/FORMAT.md. */
export async function loadSentences() {
  sentences = await fetchTable("sentences");
}

/**
 * Returns the sentence of docs/FORMAT.md for a cause: its kind is text, cell, schedule, limit or end.
 * @param {string} kind
 * @param {number} number
 * @returns {string}
 */
function findSentence(kind, number) {
  return sentences[`${kind} ${number}`] ?? "";
}

/**
 * Returns why an event can't be carried out, as a sentence, by the number of its cause.
 * @param {string} event
 * @param {{number: number}} refused
 * @returns {string}
 */
export function explainRefusal(event, { number }) {
  const [kind, thread] = event;
  const who = { P: `P${thread} can't go on`, D: `P${thread}'s buffer can't drain`, E: `P${thread}'s cache can't give up its line` }[kind];
  return `${who}: ${findSentence("end", number)}.`;
}

/**
 * Says why there is no answer: in the panel, or at the editor if its text has a fault. Hides the answers to the text `before` if this is another text.
 * @param {{fault?: Fault, error?: string, refused?: object}} answer
 * @param {Element} panel
 * @param {Editor} editor
 * @param {string} [before]
 */
export function showError(answer, panel, editor, before = editor.text) {
  const { fault } = answer;
  const notice = el("p", { class: "notice", role: "alert" });
  panel.append(notice);
  if (isInText(fault)) showFault(fault, notice, editor, before);
  else notice.append(...(fault ? [...describeFault(fault), makeFaultLine(fault)] : describeError(answer)));
}

/**
 * Shows a fault of a text, once the hints are there: at the editor, or in the notice of a panel if there are two editors, or if a hint offers to make a
 * test of the text. Does nothing if the notice or the text has been replaced meanwhile. If the hints do not come, it shows lw's sentence.
 */
async function showFault(fault, notice, editor, before) {
  const { text } = editor;
  let hints = null;
  try {
    hints = await loadHints();
  } catch {
    // The network is gone.
  }
  if (!notice.isConnected || editor.text !== text) return;
  const hint = hints?.explainFault(fault, text) ?? { words: null };
  const end = hints && !hint.at ? renderSentence(hints.explainMissingRowEnd(fault, text)) : [];
  const words = [...describeFault(fault, hint), ...end];
  if (!editor.isAlone) return notice.append(...words, makeFaultLine(fault));
  const { isOffer = false } = hint;
  findById("answers").classList.toggle("unanswered", isOffer || isOtherText(before, text));
  notice.className = `no-answer${isOffer ? " offer" : ""}`;
  const [reason, apply] = [describeFault(fault, hint), makeApplyButtons(hint, editor)];
  if (isOffer) {
    const { begin, end, text: put } = hint.change;
    const made = text.slice(0, begin) + put + text.slice(end);
    const offer = [apply, el("p", {}, reason), makeReading(hint), el("pre", { title: "The test that the button makes" }, renderText(made, findTints(made)))];
    return notice.append("This text is no test yet. The page can make one of it.", el("div", { class: "reason" }, offer));
  }
  const { row } = showFaultInEditor(fault, words, hint, hints, editor);
  // On a phone the text, with its fault, is far below.
  notice.append(`No answer yet, because of line ${row}.`, el("div", { class: "reason" }, reason, " ", apply));
}

/** Returns whether a fault is one of the text of a test. */
function isInText(fault) {
  return fault?.kind === "text" || fault?.kind === "cell";
}

/**
 * Returns an error in words. A refused event of a schedule is named with the sentence of its cause.
 * @param {{error: string, refused?: object}} answer
 * @returns {(Node | string)[]}
 */
function describeError({ error, refused }) {
  if (!refused) return renderSentence(error);
  return renderSentence(`Event ${refused.at + 1} of the schedule, \`${refused.event}\`, is refused. ${explainRefusal(refused.event, refused)}`);
}

const GUESS = "The question is a guess: change it to yours.";
// Why a list is refused, by the name of the limit.
const LIMITS = {
  TooManyItems: "One choice of its branches and words has more than 128 events and fences",
  TooManyOrders: "For n conflicts lw counts 2^n orders, and here these are more than 1,048,576",
};

/** Returns lw's own line on a fault, in a line of its own: it is no part of the sentence before it. */
function makeFaultLine({ line }) {
  return el("div", { class: "fault-line small" }, "As lw prints it: ", el("code", {}, line));
}

/**
 * Returns a fault in words: its place, and what is wrong, by the `hint` on it or by lw's sentence.
 * @param {Fault} fault
 * @param {Hint} [hint]
 * @returns {(Node | string)[]}
 */
function describeFault(fault, hint = { words: null }) {
  if (fault.kind === "limit") return [`The list could take too long, so it is refused. ${LIMITS[fault.name]}.`];
  const { row, column } = hint.at ?? fault;
  const place = row && !hint.isOffer ? el("b", {}, `Line ${row}, column ${column}: `) : "";
  const named = fault.name ? [fault.name, ": ", ...renderSentence(findSentence(fault.kind, fault.number)), ". "] : [];
  return [place, ...(hint.words ? renderSentence(`${hint.words} `) : named)];
}

/**
 * Marks a fault in the editor, with its `words` and what the hint on it proposes, and unfolds the text. Returns where it is marked.
 * @param {Fault} fault
 * @param {(Node | string)[]} words
 * @param {Hint} hint
 * @param {Hints | null} hints
 * @param {Editor} editor
 * @returns {{row: number}}
 */
function showFaultInEditor(fault, words, hint, hints, editor) {
  const marked = { ...fault, ...hint.at };
  fold(false);
  editor.mark(marked);
  const goTo = makeButton("Go to it", () => editor.goTo(marked.index), { class: "go-to" });
  const further = el("div", { class: "further", role: "status" });
  const apply = makeApplyButtons(hint, editor);
  const parts = hint.more ? [" ", apply, " ", goTo, makeReading(hint)] : [" ", makeReading(hint), " ", apply, " ", goTo];
  findById("fault").replaceChildren(el("p", { class: "notice" }, words, parts, makeFaultLine(fault), further));
  if (hints) showFurtherFaults({ fault, hint }, hints, further, editor);
  return marked;
}

/** Returns what a hint proposes to read and to do elsewhere: a document, and a command to copy; in a part to unfold if it has more words on that. */
function makeReading({ document, command, more, change }) {
  const [file, title] = documents.find(([it]) => it === document) ?? [];
  const read = file && el("a", { href: file, target: "reading" }, title);
  const copyIt = command && makeButton("Copy the command", () => copy(command, findById("said")), { class: "apply" });
  if (!more) return [read, " ", copyIt].filter(Boolean);
  return [el("details", { class: "small", open: !change }, el("summary", {}, "With a compiler"), renderSentence(`${more} `), read, " ", copyIt)];
}

/** Returns buttons that apply what a hint proposes. That a question is a guess is said then, too. */
function makeApplyButtons({ words, change, also, isOffer }, editor) {
  const guess = words?.includes(GUESS) ? ` ${GUESS}` : "";
  const apply = (it) => {
    const code = editor.text;
    applyChange({ ...it, done: it.done && it.done + guess }, editor);
    if (isOffer) keepCode(code, Boolean(it.isCompiled));
  };
  const makeApply = (it) => makeButton(it.title ?? `Change it to ${it.text}`, () => apply(it), { class: isOffer ? "apply main" : "apply" });
  return [change, also].filter(Boolean).map(makeApply);
}

/**
 * Shows at a place where the faults after the first one of a text are, once they are found: a button goes to each and shows its sentence. Another
 * one changes all if it is known how.
 * @param {{fault: Fault, hint: Hint}} first
 * @param {Hints} hints
 * @param {Element} place
 * @param {Editor} editor
 */
async function showFurtherFaults(first, hints, place, editor) {
  const { text } = editor;
  const findFault = async (mended) => {
    const answer = await ask(editor, "compile", { text: mended }, { name: "further faults" });
    return answer?.compiled ? null : answer?.fault;
  };
  const { faults, change } = await hints.findFurtherFaults(first, text, findFault);
  if (!faults.length) return;
  const count = faults.length + 1;
  const sentence = el("div");
  const makePlace = ({ fault: it, hint }) => {
    const show = () => {
      editor.goTo(hint.at.index);
      sentence.replaceChildren(el("span", {}, describeFault(it, hint)));
    };
    return makeButton(`line ${hint.at.row}, column ${hint.at.column}`, show, { class: "link", title: hint.words?.replaceAll("`", "") });
  };
  const places = faults.flatMap((it) => [" · ", makePlace(it)]);
  const changeAll = () => applyChange({ ...change, done: `${count} places are changed.` }, editor);
  place.append("Also: ", ...places.slice(1), " ", change ? makeButton(`Change all ${count}`, changeAll, { class: "apply" }) : "", sentence);
}

/**
 * Puts a proposed change into the text, and offers to undo it.
 * @param {{text: string, done?: string}} change
 * @param {Editor} editor
 */
function applyChange(change, editor) {
  const before = editor.text;
  editor.replace(change);
  if (!change.done) return;
  const undo = () => editor.replace({ begin: 0, end: editor.text.length, text: before });
  findById("said").replaceChildren(`${change.done} `, makeButton("Undo", undo, { class: "link", id: "undo" }));
}

/**
 * Removes the fault from the editor.
 * @param {Editor} editor
 */
export function clearFault(editor) {
  if (!editor.isAlone) return;
  findById("answers").classList.remove("unanswered");
  findById("fault").replaceChildren();
  editor.mark(null);
}
