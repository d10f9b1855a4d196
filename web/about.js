// Explains the page in a few sentences, and its words and keys.

import { el, makeButton, makePlainMark, renderSentence } from "./dom.js";
import { archive, documents, origin } from "./supplies.js";

const TERMS = [
  ["store buffer", "where a processor keeps its stores before others can see them: a queue, the oldest first; the processor itself reads from it"],
  ["drain", "the oldest entry of a store buffer goes to memory; in a schedule `D0` is a drain of P0, and `P0` its next instruction"],
  ["final state", "what the registers and locations that the test asks about have when all threads and buffers are done"],
  ["condition", "what the test asks about a final state. `exists`: can a run end this way; `~exists`: can none; `forall`: does every run"],
  ["fence", "`MFENCE`: waits until the own store buffer is empty, as the locked instructions `XCHG` and `LOCK XADD` do"],
  ["interleaving", "the threads take turns on one memory, without store buffers"],
  ["arrows of a graph", "`po`: program order; `rf`: a read has its word from that write; `co`: that write comes later to the same location; `fr`: " +
    "that write comes after the one that was read. They run from what comes before"],
  ["global happens-before", "the order that all processors agree on: `rf` between threads, `co`, `fr`, and program order, but not from a plain store to " +
    "a later load without a fence or a locked instruction between them. A state that needs a cycle of it is forbidden"],
  ["coherence", "the accesses to one location have one order, which all processors agree on. A state that needs a cycle of it is forbidden"],
  ["complete (proved)", "the list has every final state and no other. lw finds them by going through all orders of accesses that conflict (two to one " +
    "location, at least one of them a store), or by a search of the machine's states"],
];
const KEYS = [
  ["← →", "a step back, a step forward"],
  ["Home End", "to the start, to the end"],
  ["0 to 3", "carry out the next instruction of that thread; with Shift its oldest entry drains"],
  ["Ctrl+Enter", "run the text in the editor"],
  ["Esc", "leave the projector's view"],
];
const WHAT =
  "lw answers a question about a small multithreaded program, a litmus test: in which states can it end? On x86 a store waits in its processor's " +
  "store buffer, while loads after it go ahead; so there are final states that no interleaving explains. It is for students of concurrency and " +
  "for programmers of lock-free code. A test has at most four threads, eight locations, and six registers a thread; jumps go forward only, and there " +
  "is no general compare-and-swap.";
const OWN =
  "To try code of your own, put it in place of the text: a test, x86 instructions, or a small program in C, C++ or Rust, of which a button makes a test.";
const PROVED = "Reports, schedules, compiled texts and each step of a run come from a program that is proved correct";
const NOT_CLAIMED = "The machine is x86-TSO as it was published. That processors on sale behave like it is not proved.";
// The words on the page's origin if it has a server.
const SERVED = "The program, its sources and its proof are in the repository that `./page` was started in.";
const ARCHIVED =
  " has the programs `lw` and `beyond`, the tools that the page and the documents name, the library, and all examples. It needs Linux on x86-64 " +
  "and Python, and nothing is built: unpack it, and begin with its README.md.";
const THEOREMS = "theorems.html";
// The documents by their readers, each by the name of its file, in the order in which they are read.
const READERS = [
  ["First steps", ["tutorial", "page", "families", "terms"]],
  ["For a class", ["lab", "sheet", "slides", "quiz", "solutions"]],
  ["Your own programs", ["your-code", "from-c", "algorithms", "fences", "on-machine", "from-herd", "limits"]],
  ["Reference", ["card", "format", "examples", "axioms"]],
  ["What is proved", ["theorems", "believe", "proof", "trusted"]],
];
const PLAIN = ". What the page's own code finds, which is not proved, is marked ";

/** Returns a link to the document that says what is proved, as children for `el`; none if the page is no site that carries it. */
function makeTheoremsLink() {
  const found = documents.find(([file]) => file === THEOREMS);
  return found ? [" ", el("a", { href: THEOREMS, target: "reading" }, "What is proved, in plain words"), "."] : [];
}

/** Returns a heading and links to the documents by their readers, as children for `el`; none if the page is no site that carries some. */
function makeReadingList() {
  const link = ([file, words]) => el("li", {}, el("a", { href: file, target: "reading" }, words));
  const named = READERS.flatMap(([, names]) => names);
  const findDocument = (name) => documents.find(([file]) => file === `${name}.html`);
  const others = documents.filter(([file]) => !named.includes(file.replace(/\.html$/, "")));
  const groups = READERS.map(([title, names]) => [title, names.map(findDocument).filter(Boolean)]).concat([["Other documents", others]]);
  const lists = groups.filter(([, found]) => found.length);
  const describe = ([title, found]) => [el("dt", {}, title), el("dd", {}, el("ul", { class: "reading" }, found.map(link)))];
  return lists.length ? [el("h3", {}, "To read"), el("dl", { class: "readers" }, lists.flatMap(describe))] : [];
}

/** Returns a heading and a link to the archive with the programs and the tools, as children for `el`; none if the page is no site that carries one. */
function describeArchive() {
  if (!archive) return [];
  const link = el("a", { href: archive.file, download: "" }, archive.file);
  return [el("h3", {}, "To take along"), el("p", {}, link, ` (${archive.size})`, ...renderSentence(ARCHIVED))];
}

/**
 * Fills the dialog that says what the page is, below its title. `openWalk` begins the walk for beginners.
 * @param {Element} place
 * @param {function(): void} openWalk
 */
export function fillAbout(place, openWalk) {
  const list = (pairs) => el("dl", {}, pairs.flatMap(([name, words]) => [el("dt", {}, name), el("dd", {}, renderSentence(words))]));
  place.append(
    el("p", {}, WHAT),
    el("p", {}, "New to this? ", makeButton("Take the two-minute walk", openWalk, { class: "link" }), ". It explains the first test, step by step."),
    el("p", {}, OWN),
    el("p", {}, PROVED, el("span", { id: "where" }), PLAIN, makePlainMark(), ". Nothing is sent anywhere."),
    el("p", {}, NOT_CLAIMED, ...makeTheoremsLink()),
    el("h3", {}, "Words"), list(TERMS),
    el("h3", {}, "Keys"), list(KEYS),
    ...makeReadingList(),
    ...describeArchive(),
    el("p", { class: "origin small" }, renderSentence(origin ?? SERVED)),
    el("p", { class: "row" }, makeButton("Close", () => place.close(), { class: "main" })),
  );
  place.addEventListener("click", (event) => event.target === place && place.close());
}
