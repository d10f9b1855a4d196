// Shows the examples by family, and the comment of the chosen one.

import { alignCells } from "./aligned.js";
import { el, findById, makeButton, renderSentence } from "./dom.js";
import { caches } from "./preferences.js";
import { beginsWithX86, parseName } from "./tokens.js";

// The suffixes after the `+` in the name of a test to which fences or locked exchanges were added: the clearest first.
const FENCED = [/^mfences$/, /mfence/, /^(?:xchgs|xadds)$/, /^(?:xchg|swap)$/];

// The example that the walk for beginners explains.
const WALKED = "SB-x86";

/** Returns the two parts of an example's name: what comes before `-x86`, and that. */
function splitName(name) {
  const [, stem, form] = /^(.*?)(-x86)?$/.exec(name);
  return [stem, form ?? ""];
}

/** Returns the length of the longest common prefix of two names. */
function measureCommonPrefix(one, other) {
  const differs = [...one].findIndex((letter, index) => letter !== other[index]);
  return differs < 0 ? one.length : differs;
}

/** Returns a comment, without its sentences on caches if the reader does not look at them. */
function removeCacheSentences(text) {
  if (caches.isOn) return text;
  const kept = text.split(/(?<=[.?!]) (?=[A-Z])/).filter((it) => !/\bcaches?\b|\blines?\b|memory's own/i.test(it));
  return kept.length ? kept.join(" ") : text;
}

// The words of a comment that may name another example: those that end in -x86, are between backquotes, or follow `see`.
const NAME = /(`?[\w.+]+-x86\b`?|`[\w.+]+`|(?<=\b[Ss]ee )[\w.+]*\w)/;

// Why the outcome of an x86 test that is allowed surprises, or that it needs no store buffer: what is known of it by interleaving.
const BY_INTERLEAVING = {
  allowed: "Some interleaving gives this, too: it needs no store buffer.",
  forbidden: "No interleaving gives this outcome.",
};
// A sentence that says more of one test.
const SURPRISES = {
  "SB-x86": "No interleaving gives this: each load would have to come before the other thread's store.",
};
// What the examples with which a lesson may begin show, in words for those who know no store buffers; the tests' own words are folded then.
const PLAIN = {
  "SB-x86": "Each thread writes one variable, then reads the other's. Both can read 0: a write waits in a store buffer, unseen by the other thread, before " +
    "it goes to memory (“drains”).",
  "SB+mfences-x86": "The same with a fence after each write: MFENCE waits until the write is in memory. So at least one thread reads 1.",
  "MP-x86": "One thread writes a message, x, and then a flag, y. The other reads the flag, then the message. Who sees the flag sees the message: a thread's " +
    "writes reach memory in order.",
  "n6-x86": "Both threads write x. The first then reads its own 1, even while that write waits in its store buffer, where the other thread cannot see it.",
  "IRIW-x86": "Two threads write one variable each; two others read both, in different orders. These never disagree on which write came first: what is in " +
    "memory is there for all at once.",
  "Peterson-x86": "Each thread says that it wants the lock, lets the other go first, and looks whether the other wants it, too. The writes that say so can " +
    "wait in store buffers while both look: then both enter.",
  "ChaseLev-x86": "The owner of a queue takes an item from its bottom, a thief from its top. The owner's write that says so can wait in its store buffer: " +
    "then both take the same item.",
  SB: "Each thread writes one variable and then reads the other's. If the threads take turns, one of them reads 1.",
};
const KNOWN = /^Interleaving: (allowed|forbidden)\. x86-TSO: allowed\./;

/** Returns the schedule of the run that a comment describes, or null. */
function findSchedule(comment) {
  return /\bA (?:telling schedule|run): ([\w\s:]+)/.exec(comment)?.[1].trim().replace(/\s+/g, " ") ?? null;
}

/** Returns the words beside the comment of a source test if only the compiler's fences forbid its outcome on x86; or "". */
function explainFences({ name, text, known }, tests) {
  const isHeldByFences = text.startsWith("SRC") && KNOWN.exec(known)?.[1] === "forbidden";
  if (!isHeldByFences) return "";
  const bare = `${name}-x86`;
  return ` On x86 the compiler's fences forbid this outcome; without them it is allowed${tests.has(bare) ? `: \`${bare}\`` : ""}.`;
}

/** The examples, and what is said of the one in the editor. */
export class Examples {
  /**
   * Takes the examples by family. It calls `choose` with the name of one that the reader follows from another's comment, and `openWalk` for a beginner, to
   * whom the first one is explained.
   */
  constructor(families, choose, openWalk) {
    Object.assign(this, { families, choose, openWalk });
    caches.onChange(() => this.tests.has(this.name) && this.show(this.name, ""));
    this.tests = new Map(families.flatMap((family) => family.tests).map((it) => [it.name, { ...it, text: alignCells(it.text) }]));
  }

  /** Returns the options of a list of all tests: by family, with what each shows, or only their names if the reader predicts. */
  makeOptions() {
    const isPredicting = findById("predict").checked;
    const makeOption = ({ name, shows }) => el("option", { value: name }, isPredicting ? name : `${name}: ${shows.replaceAll("`", "")}`);
    const makeGroup = ({ name, tests }) => (isPredicting ? tests.map(makeOption) : el("optgroup", { label: name }, tests.map(makeOption)));
    return [el("option", { value: "" }, "a test of my own"), ...this.families.flatMap(makeGroup)];
  }

  /** Shows which example the text is, if it is one. Words that give the answer away are folded, all of them if the reader predicts. */
  show(name, text) {
    const test = this.tests.get(name);
    const isPredicting = findById("predict").checked;
    this.name = name;
    findById("example-name").textContent = test ? name : parseName(text);
    findById("example-shows").textContent = test ? "" : "my own";
    const plain = caches.isOn ? undefined : PLAIN[name];
    const own = test && removeCacheSentences(test.about);
    const about = test && el("p", { class: "about" }, this.linkNames(`${plain ?? own}${explainFences(test, this.tests)}`));
    const known = test && el("p", {}, this.linkNames(`${plain ? `${own} ` : ""}${test.known}`));
    findById("offer").replaceChildren(...(name === WALKED && !isPredicting ? this.makeWalkOffer() : []));
    const makeFold = (title, ...inner) => el("details", {}, el("summary", {}, title), inner);
    findById("about").replaceChildren(test && !isPredicting ? about : "");
    findById("known").replaceChildren(test ? (isPredicting ? makeFold("About it", about, known) : makeFold("What is known about it", known)) : "");
  }

  /** Returns the offer of the walk, as children for `el`. */
  makeWalkOffer() {
    const begin = makeButton("Take the two-minute walk", this.openWalk, { class: "link", id: "open-walk" });
    return [el("span", { class: "all-what" }, "New to this? "), begin, "."];
  }

  /** Returns a sentence in which the name of another example leads to it. */
  linkNames(text) {
    const isOther = (name) => name !== this.name && this.tests.has(name);
    const renderName = (name) => (isOther(name) ? makeButton(name, () => this.choose(name), { class: "link" }) : this.tests.has(name) && el("code", {}, name));
    return text.split(NAME).flatMap((part, index) => (index % 2 && renderName(part.replaceAll("`", ""))) || renderSentence(part));
  }

  /** Returns the same x86 test with fences, or undefined if there is none. */
  findFenced(name) {
    const [stem, form] = splitName(name);
    if (!form) return undefined;
    const added = [...this.tests.keys()].filter((it) => it.startsWith(`${stem}+`) && it.endsWith(form));
    return FENCED.map((kind) => added.find((it) => kind.test(splitName(it)[0].slice(stem.length + 1)))).find(Boolean);
  }

  /**
   * Returns the same test in another form: with fences; of one with fences that without; of a source test that for x86, without the
   * compiler's fences. Returns undefined if there is none.
   */
  findRelative(name) {
    const [stem, form] = splitName(name);
    const bare = `${stem.slice(0, Math.max(0, stem.lastIndexOf("+")))}${form}`;
    return this.findFenced(name) ?? [bare, form ? "" : `${stem}-x86`].find((it) => this.tests.has(it));
  }

  /** Returns the example to compare one with: the same test in another form, or else the one with the nearest name. */
  findPartner(name) {
    const found = this.findRelative(name);
    if (found) return found;
    const others = [...this.tests.keys()].filter((it) => it !== name);
    return others.reduce((best, it) => (measureCommonPrefix(name, it) > measureCommonPrefix(name, best) ? it : best));
  }

  /** Shows cache lines if an example is about caches, and otherwise if the reader has chosen that. */
  showCaches(name) {
    const isOn = caches.isChosen || this.families.some((it) => /^Caches/.test(it.name) && it.tests.some((test) => test.name === name));
    if (isOn !== caches.isOn) caches.show(isOn);
  }

  /** Returns the text of an example, aligned; undefined if there is none of the name. */
  findText(name) {
    return this.tests.get(name)?.text;
  }

  /** Returns the name of the example with a text, or undefined. */
  findName(text) {
    return [...this.tests.values()].find((it) => it.text === text)?.name;
  }

  /**
   * Returns a note on the outcome of an x86 example that x86-TSO allows: whether interleaving allows it, too. Of an x86 test that is no example it is
   * null, and otherwise "".
   */
  findNote(text, isAllowed) {
    const name = this.findName(alignCells(text));
    const isX86 = beginsWithX86(text);
    if (isX86 && !name) return null;
    const by = isX86 && isAllowed ? KNOWN.exec(this.tests.get(name)?.known)?.[1] : undefined;
    return by ? (SURPRISES[name] ?? BY_INTERLEAVING[by]) : "";
  }

  /** Returns the schedule that a text has of its own: of an example that of the comment beside it, and otherwise that of a comment in it; or null. */
  findOwnSchedule(text) {
    return findSchedule(this.tests.get(this.findName(text))?.known ?? text);
  }
}
