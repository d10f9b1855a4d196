// Puts the page together: the test, the verdict with its list, the panels below them, and the address, which keeps the reader's place.

import * as address from "./address.js";
import { endQuestions } from "./ask.js";
import { Beside } from "./beside.js";
import { Compile } from "./compile.js";
import { el, findById, makeButton } from "./dom.js";
import { Editor } from "./editor.js";
import { Examples } from "./examples.js";
import { insertFencesInText, removeFenceFromText } from "./fence_edit.js";
import { decodeFile } from "./files.js";
import { Gallery } from "./gallery.js";
import * as guess from "./guess.js";
import { lightNames } from "./lighting.js";
import { findShownCode, followCode, NO_CODE, showCode } from "./made_from.js";
import { isStill } from "./motion.js";
import { copy, makeFileName, save } from "./output.js";
import { Own } from "./own.js";
import { fold, isFolded, placeParts } from "./placing.js";
import { bindTheme, caches, largeType } from "./preferences.js";
import { Present } from "./present.js";
import { chooseRandomTest, showScore } from "./score.js";
import { States } from "./states.js";
import { fetchTable, hasServer, keepSite, loadHints } from "./supplies.js";
import { Tabs, VIEWS } from "./tabs.js";
import { loadSentences, clearFault } from "./errors.js";
import { findNearest } from "./nearest.js";
import { showNextStep } from "./next.js";
import { listenToPrint } from "./paper.js";
import { TEMPLATE } from "./template.js";
import { parseName } from "./tokens.js";
import { hasModule } from "./ways.js";
import { Why } from "./why.js";

const FIRST = "SB-x86";
const INSTEAD = `${FIRST} is shown in its place.`;
// The pause in typing after which the states are listed, and the longest time of a question that the page asks by itself, in milliseconds.
const TYPING = 600;
const MAX_MILLISECONDS = 10000;
const HERE_ONLY = ": it is of use on this machine only";
const ASKS_FIRST = ": it asks for a prediction first";
const QUESTION_TITLE = "Copy a link that opens this test with Predict first";
const CHANGED = "Changed: Ctrl+Enter lists its states.";
// How many letters of an unknown field of a link are named at most.
const MAX_LETTERS = 40;
// The other fields of the address; and those on a test, and on the reader's place in it.
const CHOICES = { predict: null, fences: null, beside: null, beside_text: null, left: null, right: null };
const NOWHERE = { text: null, example: null, state: null, own: null, step: null, run: null, protocol: null, schedule: null, view: null };

const editor = new Editor(findById("editor"), followChange);
const own = new Own(editor, (text, code) => take(text, { text, ...code }, true));
const present = new Present();
const why = new Why(editor, watchState, (line) => states.strip.explain(line));
const states = new States(findById("outcome"), editor, () => updateOffers(), {
  why: askWhy,
  onWatch: watchState,
  runPanel: findById("watching"),
  onDraw: fitLater,
  graphPlace: findById("graph-place"),
  next: findById("next"),
  onVeil: keepBack,
  ownOf: (text) => examples.findOwnSchedule(text),
  noteOf: (text, isAllowed) => examples.findNote(text, isAllowed),
  onUnlisted: showUnlisted,
  onFence: changeFence,
});
const panels = {
  compile: new Compile(findById("compile"), editor, takeKnown, makeSourceButton),
  // Its code comes with the hints.
  fences: {
    clear: () => panels.fences.panel?.clear(),
    askOnce: async (timeout) => {
      const hints = await loadHints().catch(() => null);
      if (!hints) return findById("fences").replaceChildren("This part of the page does not come. Try again later.");
      const { fences } = panels;
      fences.panel ??= new hints.Fences(findById("fences"), editor, takeKnown);
      return fences.panel.askOnce(timeout);
    },
  },
};
const tabs = new Tabs(followTab);
let examples;
let beside;
// The timer that lists the states after a pause in typing.
let typing = null;

/** Fits what is shown on a projector, after it has changed. */
function fitLater() {
  requestAnimationFrame(() => present.fit());
}

// Questions.

/** Offers what can be asked about the list, after it is shown or gone. */
function updateOffers() {
  const report = states?.report ?? null;
  why.offer(report, report && states.asked);
  if (report && tabs.view === "why") why.askOnce();
  // A run by hand keeps the verdict back right after this.
  if (report) queueMicrotask(showAnswered);
  findById("slips").replaceChildren();
  if (report && examples.findName(editor.text) === undefined) showSlips(report);
  findById("printed-place").hidden = report === null || states.isVeiled;
  findById("printed-place").open = false;
  findById("printed").replaceChildren();
}

/** Shows the slips of a test that is the reader's own, once the hints are there, if its report is shown then. */
async function showSlips(report) {
  const hints = await loadHints().catch(() => null);
  if (hints && states.report === report) findById("slips").replaceChildren(...hints.makeSlipNotes(editor.text, mend));
}

/** Puts a text that the page proposes in place of the reader's. */
function mend(text) {
  editor.replace({ begin: 0, end: editor.text.length, text });
}

/** Keeps back what is known of a test while the reader looks for its states, and records that the answer to a guess is shown. */
function keepBack(isVeiled) {
  findById("about").classList.toggle("kept-back", isVeiled);
  findById("printed-place").hidden = isVeiled || !states.report;
  if (isVeiled || !states.report) return;
  guess.noteAnswer(editor.text);
  showNext();
}

/**
 * Shows the verdict that is kept back by hand, if the reader has guessed and was shown the answer before; and with all states, if another tab shows the
 * answer below it.
 */
function showAnswered() {
  if (!states.report) return;
  if (!tabs.isOfRun && !guess.isLocked(editor.text)) states.showAll();
  else if (guess.isAnswered(editor.text)) states.unveil();
}

/**
 * Marks what was answered on the text `before` the change as stale, and lists the new one after a pause; or if it was changed by a button of the page, at
 * once, and brings the answer into sight.
 */
function followChange(before, isByPage) {
  guess.noteChange(before, editor.text);
  forgetAnswers();
  address.put({ ...NOWHERE, text: editor.text });
  followCode(before, editor.text);
  show("", true);
  markStale(true);
  findById("said").textContent = CHANGED;
  const answer = async () => {
    await list({ isKept: true, timeout: MAX_MILLISECONDS });
    if (isByPage && !findById("answers").classList.contains("stale")) scrollToAnswers();
  };
  typing = setTimeout(answer, isByPage ? 0 : TYPING);
}

/** Ends all questions, and clears what is said of the text in the editor. */
function forgetAnswers() {
  clearTimeout(typing);
  endQuestions(editor);
  findById("said").textContent = "";
  for (const name of ["unknown", "slips"]) findById(name).replaceChildren();
  clearFault(editor);
  for (const panel of Object.values(panels)) panel.clear();
}

/** Removes all answers. */
function clear() {
  forgetAnswers();
  states.clear();
  why.clear();
  markStale(false);
}

/** Marks what was answered as stale, or no longer: style.css pales answers on another text. */
function markStale(isStale) {
  for (const name of ["answers", "graph-place"]) findById(name).classList.toggle("stale", isStale);
}

/**
 * Lists the states and shows a run: that of a link, if there is one. With `isKept` what is shown stays until the answer is there. If `timeout` is given,
 * the question is ended after that many milliseconds. Does nothing while two tests are compared.
 */
async function list({ link = null, isKept = false, timeout = null } = {}) {
  clearTimeout(typing);
  if (beside?.isOpen) return;
  const { text } = editor;
  if (await states.ask(link, { isKept, timeout })) markStale(false);
  if (text === editor.text && findById("said").textContent === CHANGED) findById("said").textContent = "";
  present.fit();
}

/** Lists the states at the reader's request. Scrolls to the answer if there is one column. */
async function listAsked() {
  await list({ isKept: true });
  scrollToAnswers();
}

/**
 * Scrolls to the answers, unless they begin in the upper part of the window. On a phone they are above the text. It is done at once: what is drawn
 * meanwhile may end a smooth scroll.
 */
function scrollToAnswers() {
  const { top } = findById("answers").getBoundingClientRect();
  if (top < 0 || top > 0.6 * innerHeight) findById("answers").scrollIntoView({ block: "start" });
}

/** Folds the text of the test, or unfolds it and brings it into sight; with no argument it does what was not done last. */
function toggleText(isClosed = !isFolded()) {
  fold(isClosed);
  if (!isClosed) findById("unfold").scrollIntoView({ block: "start", behavior: isStill() ? "auto" : "smooth" });
}

/** Asks why no run ends in a state that is missing. */
function askWhy(line) {
  tabs.show("why");
  address.put({ view: "why" });
  findById("tab-why").focus({ preventScroll: true });
  why.set(line);
}

/** Shows the run that is listed to a state. */
function watchState(line) {
  tabs.choose(VIEWS[0]);
  states.choose(line);
}

/** Asks for what a tab shows, after it was chosen. */
function followTab(view) {
  address.put({ view: view === VIEWS[0] ? null : view });
  if (view !== "why") states.strip.explain(null);
  if (view === "hand") {
    states.beginByHand();
    showAnswered();
  } else if (view === "states") states.endByHand();
  else if (view === "why") why.askOnce(states.strip.line);
  else panels[view]?.askOnce();
  if (!tabs.isOfRun) showAnswered();
}

// The test.

/** Puts a text into the editor, writes it into the address, and lists its states. The browser's Back returns to the text before. */
async function take(text, where, isOwn = false) {
  own.keep();
  editor.text = text;
  clear();
  address.put({ ...NOWHERE, ...NO_CODE, ...where }, true);
  showCode();
  examples.showCaches(where.example);
  show(where.example ?? "", isOwn);
  if (tabs.view !== "hand" && tabs.view !== "why") tabs.show(VIEWS[0]);
  await list();
  scrollToAnswers();
}

/** Puts a text into the editor that a panel has made of the one there, and of which it has shown the answer: there is nothing left to predict. */
function takeKnown(text) {
  if (guess.isAwaited(text)) guess.settle(text, null);
  take(text, { text, ...findShownCode() });
}

/** Shows which example the text in the editor is, if it is one, whether it is the reader's own, and what is beside it. */
function show(example, isOwn) {
  if (examples) {
    examples.show(example, editor.text);
    showNext();
  }
  own.put(isOwn);
  beside?.follow();
}

/** Shows what to look at next; no test that would tell a part of an answer while a guess is awaited. */
function showNext() {
  const name = guess.isLocked(editor.text) ? "" : examples?.name;
  const browse = () => findById("open-gallery").click();
  if (examples) showNextStep(examples, name, { choose, compare: (other) => beside.take({ beside: other }), browse });
}

/** Puts a fence into the text before an instruction of a thread, or takes the fence there out, and lists the states anew. */
async function changeFence(thread, position, isPut) {
  const before = editor.text;
  const text = isPut ? insertFencesInText(before, [[thread, position]]) : removeFenceFromText(before, [thread, position]);
  if (text === null) {
    findById("said").textContent = "The page can't change this text.";
    return;
  }
  const name = examples.findName(text);
  own.keep();
  editor.text = text;
  guess.noteChange(before, text);
  forgetAnswers();
  address.put({ ...NOWHERE, view: tabs.view === "hand" ? "hand" : null, ...(name ? { example: name } : { text }) }, true);
  show(name ?? "", !name);
  markStale(true);
  findById("said").textContent = isPut ? "MFENCE put in." : "MFENCE taken out.";
  await list({ isKept: true });
  document.querySelector(`#watching [data-fence="${thread}:${position}"]`)?.focus({ preventScroll: true });
}

/** Shows what the address says. */
function follow() {
  const link = address.read();
  const example = examples.findText(link.example) === undefined ? "" : link.example;
  own.keep();
  editor.text = examples.findText(example) ?? link.text ?? examples.findText(FIRST);
  clear();
  showCode();
  findById("predict").checked = link.predict === "1";
  showUnknownExample([link.text === undefined && link.example, link.beside].filter((it) => it && examples.findText(it) === undefined));
  if (!link.example && link.text === undefined) showUnknownFields(link);
  const isOwn = !example && link.text !== undefined;
  examples.showCaches(example);
  show(example || (isOwn ? "" : FIRST), isOwn);
  states.isByHand = link.view === "hand";
  tabs.show(VIEWS.includes(link.view) ? link.view : VIEWS[0]);
  if (!beside.isOpen) panels[tabs.view]?.askOnce(MAX_MILLISECONDS);
  return list({ link: link.state || link.view === "hand" ? link : null, timeout: MAX_MILLISECONDS });
}

/** Opens the fields of an address. Returns when its run is shown. */
function open(link) {
  address.put({ ...NOWHERE, ...CHOICES, ...NO_CODE, ...link }, true);
  return follow();
}

/** Says that a link names examples that do not exist, and offers to open one of nearly the name of the first. An empty list clears the notice. */
function showUnknownExample([name]) {
  if (name) showUnknown(`There is no example named ${name}.`, name, "The button at the top opens all examples.");
  else findById("unknown").replaceChildren();
}

/** Says that a link names a state in which no run ends. What else it could not open is said before. */
function showUnlisted(line) {
  if (!findById("unknown").firstChild) showUnknown(`No run of this test ends in ${line.replace(/;$/, "")}.`, "", "The run on which the test opens is shown in its place.");
}

/**
 * Says that a link opens no test, if its text can't be decoded, or it has fields that are unknown or empty, and offers to open the example that one of these
 * seems to name.
 */
function showUnknownFields(link) {
  if (/[#&]text=./.test(location.hash)) return showUnknown("The test in this link can't be decoded: a part of it may be missing.", "", INSTEAD);
  const [field, value] = Object.entries(link).find(([name, it]) => name === "example" || !(name in NOWHERE || name in CHOICES || name in NO_CODE)) ?? [];
  if (field === undefined) return null;
  const part = `#${field}${value && `=${value.length > MAX_LETTERS ? `${value.slice(0, MAX_LETTERS)}…` : value}`}`;
  const how = `A link has example= with a name, or text= with a test; ${INSTEAD}`;
  return showUnknown(`This link opens no test by ${part}.`, value || field, how);
}

/** Says what a link could not open, and offers an example of nearly a name; if there is none, it says something else. */
function showUnknown(words, name, otherwise) {
  const all = [...examples.tests.keys()];
  const meant = all.find((it) => it.toLowerCase() === name.toLowerCase()) ?? findNearest(name, all);
  const open = () => (address.read().beside === name ? beside.take({ beside: meant }) : choose(meant));
  const link = meant ? ["Did you mean ", makeButton(meant, open, { class: "link" }), "?"] : otherwise;
  findById("unknown").replaceChildren(el("p", { class: "notice" }, words, " ", link));
}

/** Follows a link on the open page. If it names the same first test, everything shown of that test stays. */
function followFrom(before) {
  const formatFirst = ({ beside: _, beside_text: __, left: ___, right: ____, ...first }) => JSON.stringify(first);
  if (formatFirst(before) === formatFirst(address.read())) beside.follow();
  else follow();
}

/** Takes an example, or what the reader has written before; if that is nothing, a small test to begin with. */
async function choose(name) {
  if (name) return take(examples.findText(name), { example: name });
  if (own.bring()) return null;
  if (beside.isOpen || own.isHere) return show(examples.name, own.isHere);
  await take(TEMPLATE, { text: TEMPLATE }, true);
  fold(false);
  return editor.area.focus();
}

/** Asks what the reader expects of an example at random. */
function openSurprise() {
  findById("predict").checked = true;
  address.put({ predict: "1" });
  findById("gallery").close();
  const name = chooseRandomTest([...examples.tests.values()], examples.name);
  guess.forgetGuess(examples.findText(name));
  choose(name);
}

/** Returns a button that opens the source form of an x86 example, compiled; null if there is none. */
function makeSourceButton() {
  const name = examples.name.replace(/-x86$/, "");
  const open = async () => {
    await choose(name);
    tabs.choose("compile");
  };
  return name !== examples.name && examples.tests.has(name) ? makeButton(name, open, { class: "link" }) : null;
}

/** Opens a file of a test. */
async function openFile({ target }) {
  const [file] = target.files;
  if (!file) return;
  const { text, note } = decodeFile(new Uint8Array(await file.arrayBuffer()));
  take(text, { text }, true);
  findById("said").textContent = note;
  target.value = "";
}

/** Copies the link to what is shown. `status` says whether that succeeded. */
async function copyLink(status) {
  if (!address.read().example && !address.read().text) address.put({ text: editor.text });
  await copy(address.makeLink(), status, location.protocol === "file:" ? HERE_ONLY : "");
  if (beside.isOpen || findById("predict").checked) return;
  const copyQuestion = () => copy(address.makeQuestionLink(), status, location.protocol === "file:" ? HERE_ONLY : ASKS_FIRST);
  status.append(" ", makeButton("Hide the answer in it", copyQuestion, { class: "link", id: "link-question", title: QUESTION_TITLE }));
}

// Listeners.

/** Connects the buttons of the editor. */
function listenToTools() {
  findById("unfold").addEventListener("click", () => toggleText());
  findById("to-text").addEventListener("click", () => toggleText(false));
  findById("to-paste").addEventListener("click", () => {
    editor.area.select();
    findById("said").textContent = "Now paste: Ctrl+V.";
  });
  findById("file").addEventListener("change", openFile);
  findById("save").addEventListener("click", () => save(makeFileName(parseName(editor.text), "litmus"), "text/plain", editor.text));
  findById("link").addEventListener("click", () => copyLink(findById("said")));
  findById("run-it").addEventListener("click", listAsked);
  editor.area.addEventListener("keydown", (event) => {
    if (event.key !== "Enter" || !(event.ctrlKey || event.metaKey)) return;
    event.preventDefault();
    listAsked();
  });
  findById("printed-place").addEventListener("toggle", ({ target }) => target.open && findById("printed").replaceChildren(...states.makePrinted()));
}

/** Listens to the reader's choices: predicting is kept in the address, the other choices by the browser. */
function listenToChoices() {
  findById("predict").addEventListener("change", ({ target }) => {
    address.put({ predict: target.checked ? "1" : null });
    if (target.checked) guess.forgetGuess();
    show(examples.name, own.isHere);
    guess.follow();
    if (guess.isAwaited(editor.text)) list();
  });
  document.addEventListener("click", ({ target }) => target.closest(".surprise") && openSurprise());
  showScore();
  bindTheme(findById("theme"));
  caches.bindTo(findById("caches"));
  largeType.bindTo(findById("large"));
}

/** Skips to the answers without following the link, since the address has the reader's place. */
function listenToSkip() {
  findById("skip").addEventListener("click", (event) => {
    event.preventDefault();
    findById(beside.isOpen ? "beside" : "answers").focus();
  });
}

/** Opens the dialog that says what the page is, whose words come with the hints. */
async function openAbout() {
  const place = findById("about-dialog");
  if (place.children.length === 1) {
    (await loadHints()).fillAbout(place, openWalk);
    await showWhere();
  }
  if (!place.open) place.showModal();
}

/** Begins the walk for beginners, which comes with the hints. */
async function openWalk() {
  findById("about-dialog").close();
  (await loadHints()).takeWalk({ open, choose, run: states.run });
}

/** Says where the proved workbench runs: in the browser or on this machine. */
async function showWhere() {
  const isHere = await hasModule();
  if (isHere || hasServer) findById("where").textContent = isHere ? ", in this browser as a WebAssembly module" : ", on this machine";
}

/** Starts the page. */
async function begin() {
  findById("why").append(why.place);
  placeParts(present, (isAnyway) => states.run.view.refit(isAnyway));
  lightNames(editor);
  listenToTools();
  listenToChoices();
  listenToSkip();
  listenToPrint(() => (beside?.isOpen ? beside.sides.map((it) => it.states) : [states]));
  findById("open-about").addEventListener("click", openAbout);
  const [families] = await Promise.all([fetchTable("examples"), loadSentences()]);
  examples = new Examples(families, choose, openWalk);
  new Gallery(examples, choose);
  beside = new Beside(editor, examples, own, { choose, copyLink, onDraw: fitLater });
  follow();
  document.body.dataset.ready = "true";
  address.watchLinks(followFrom);
  await keepSite();
  // A fault asks for them again if they do not come.
  loadHints().catch(() => null);
}

begin();
