// Shows which fences of a test matter: a table of them, with a film to each state that a fence removes. A fence matters if states are added
// without it. That does not show that a test with all its fences is right, so the table says in how many states the condition holds.

import * as address from "./address.js";
import { ask } from "./ask.js";
import { makeEndTest } from "./condition_words.js";
import { el, makeButton, makePlainMark, renderSentence } from "./dom.js";
import { insertFenceSet } from "./fence_edit.js";
import { describeFence } from "./fence_words.js";
import { Film, makeWatchButton } from "./film.js";
import * as guess from "./guess.js";
import { describeMapping, listVariables } from "./register_names.js";
import { askOrSearch, isTooLong, makeSearchOffer } from "./search.js";
import { showError, clearFault } from "./errors.js";
import { blankComments } from "./tokens.js";
import { isUnasked } from "./verdicts.js";

const MAX_SHOWN = 4;
// The search for further fences that nobody has asked for: how many lists it may make, and after how many milliseconds it begins no further one.
const AT_ONCE = { lists: 16, milliseconds: 1000 };
const REACHABLE = "What is asked about is reachable with all locks. Once fences forbid it, a lock that changes nothing here may be needed: ask again then.";
const UNASKED = "The test asks nothing, so a fence may matter for what no list names: ask what must not happen.";
const OWN_FIRST = "First try fences of your own: this answers once the test has an `MFENCE`.";
// Of a test to be repaired this answers on the reader's own fences only.
const OWN_FORBIDS = "With your fences no run ends as the test asks.";
const OWN_FAILS = "With your fences a run still ends as the test asks: try others, or say why none helps.";
const HAS_FENCE = /\bmfence\b/i;
const ENDED = "States in which a wait has not ended are left out here.";
const TOGETHER = "Two that change nothing alone may matter together.";
const BY_CLICK = "In Watch and By hand “+ fence” puts a fence between two instructions, where the pointer is, and “✕ fence” takes it out.";

/** The panel that shows which fences matter. */
export class Fences {
  /** Fills the panel. It calls `take` with a text for the editor. */
  constructor(panel, editor, take) {
    Object.assign(this, { editor, take });
    this.place = el("div", {});
    this.more = el("div", { class: "more-fences" });
    this.locks = el("div", { class: "locks" });
    this.together = el("div", { class: "together" });
    this.film = new Film(editor);
    this.everything = el("input", { type: "checkbox", id: "everything", change: () => this.ask() });
    const words = " Compare all registers and locations, not only those of the question";
    this.choice = el("p", { class: "row" }, el("label", {}, this.everything, words));
    this.hint = el("p", { class: "small by-click" }, BY_CLICK);
    panel.replaceChildren(this.place, this.more, this.locks, this.together, this.choice, this.hint, this.film.place);
  }

  /** Removes what is shown. */
  clear() {
    this.askedOf = null;
    this.place.replaceChildren();
    this.more.replaceChildren();
    this.locks.replaceChildren();
    this.together.replaceChildren();
    this.hint.hidden = true;
    this.film.clear();
  }

  /** Asks, unless what is shown is of the same text. What runs by itself may take at most `timeout` milliseconds. */
  askOnce(timeout = null) {
    return this.askedOf === this.editor.text ? null : this.ask(timeout);
  }

  /** Asks which fences matter, once the guess is made. The answer takes `timeout` milliseconds at most, or any time if that is null. */
  ask(timeout = null) {
    this.clear();
    this.askedOf = this.editor.text;
    clearFault(this.editor);
    if (isToRepair(this.editor.text) && !HAS_FENCE.test(blankComments(this.editor.text))) {
      this.choice.hidden = true;
      this.place.append(el("p", { class: "notice" }, ...renderSentence(OWN_FIRST)));
      return null;
    }
    return guess.unlock(this.editor, this.place, () => this.show(timeout));
  }

  /** Shows the table, if it is there within `timeout` milliseconds (null: no limit). With `search` its lists are made by a search. */
  async show(timeout, search = false) {
    const fields = { text: this.editor.text, everything: this.everything.checked, search };
    const answer = await askOrSearch(this.editor, "fences", fields, { place: this.place, timeout });
    if (!answer) return;
    this.place.replaceChildren();
    if (!answer.table) return this.fail(answer);
    this.isSearched = answer.isSearched;
    this.choice.hidden = !answer.table.rows.length && !hasExchange(this.editor.text);
    this.hint.hidden = answer.language === "SRC";
    const isPartial = isUnasked(answer) && !this.everything.checked;
    const ended = makeEndTest(this.editor.text) ? el("p", { class: "small" }, ENDED) : "";
    this.place.append(...this.makeParts(answer), isPartial ? el("p", { class: "notice" }, UNASKED) : "", ended);
    if (isToRepair(fields.text)) return this.showOwn(answer);
    if (answer.table.answered_by.includes("plain")) return;
    this.offerExchanges(answer);
    this.offerMore(answer);
  }

  /** Says whether the reader's own fences repair a test, and nothing of others. */
  showOwn(answer) {
    const isExists = answer.condition.includes("exists");
    if (isExists && !isUnasked(answer)) this.place.append(el("p", { class: "next-step" }, isForbidden(answer) ? OWN_FORBIDS : OWN_FAILS));
  }

  /** Shows which exchanges need their lock, if there are some; a button offers to look for that if it takes many lists. */
  async offerExchanges(shown) {
    if (!hasExchange(this.editor.text)) return;
    const offer = makeButton("Which exchanges need their lock?", () => this.showExchanges(shown), { class: "main find-locks" });
    const answer = await this.askExchanges({ limit: AT_ONCE });
    if (!answer) return;
    this.locks.replaceChildren(...(answer.exchanges ? this.makePartsOfExchanges(answer.exchanges, shown) : [offer]));
    if (answer.exchanges) await this.offerTogether(answer.exchanges, shown);
  }

  /** Shows which exchanges need their lock. */
  async showExchanges(shown) {
    const answer = await this.askExchanges({}, { place: this.locks });
    if (!answer) return;
    this.locks.replaceChildren();
    if (!answer.exchanges) return showError(answer, this.locks, this.editor);
    this.locks.append(...this.makePartsOfExchanges(answer.exchanges, shown));
    await this.offerTogether(answer.exchanges, shown);
  }

  /** Asks which exchanges need their lock, or another question on them, within a limit, if there is one. */
  askExchanges(limit, options, question = "exchanges") {
    const fields = { text: this.editor.text, everything: this.everything.checked, search: this.isSearched, ...limit };
    return ask(this.editor, question, fields, options);
  }

  /** Shows which fences and locks are enough together, if there are several; a button offers to look for that if it takes many lists. */
  async offerTogether(exchanges, { table, language }) {
    const tried = exchanges.filter(({ words }) => words).length;
    if (!tried || tried + table.rows.length < 2) return;
    const noun = table.rows.length ? "fences and locks" : "locks";
    const makeParts = ({ together }) => this.makePartsOfTogether(together, { noun, isAllTried: tried === exchanges.length, isSource: language === "SRC" });
    const show = async () => {
      const answer = await this.askExchanges({}, { place: this.together }, "enough together");
      if (!answer) return;
      this.together.replaceChildren(...(answer.together ? makeParts(answer) : []));
      if (!answer.together) showError(answer, this.together, this.editor);
    };
    const answer = await this.askExchanges({ limit: AT_ONCE }, undefined, "enough together");
    if (!answer) return;
    const offer = makeButton(`Which ${noun} are enough together?`, show, { class: "main find-together" });
    this.together.replaceChildren(...(answer.together ? makeParts(answer) : [el("p", {}, TOGETHER, " ", offer)]));
  }

  /**
   * Returns the words on the smallest sets of fences and locks, which `noun` calls. `isAllTried` says whether each exchange was tried without its lock;
   * the sets of a source test are those of its compiled program, and are not put into its text.
   */
  makePartsOfTogether({ places, states, sets, more }, { noun, isAllTried, isSource }) {
    const names = listFenceNames({ rows: places.map((place) => ({ place: nameFence(place) })) });
    const makeHead = (words, ...rest) => el("p", { class: "next-step" }, el("b", {}, words), ...rest);
    const tryIt = ({ text }) => (isSource ? "" : makeButton("Try it", () => this.take(text), { class: "take" }));
    const isOf = `A set has only ${noun} that ${isSource ? "the compiled program" : "the test"} has: no other fence is tried in place of a lock.`;
    const note = el("p", { class: "small" }, isOf, isAllTried ? "" : " An exchange for which no register is free keeps its lock.");
    const number = sets[0].kept.length;
    if (!number) return [makeHead(`All ${noun} can be left out together:`, " no state is added. ", tryIt(sets[0])), note];
    if (number === places.length) return [makeHead(`All ${noun} are needed:`, " if any one of them is left out, states are added."), note];
    const rows = sets.map((set) => el("li", {}, `${set.kept.map((it) => names[it]).join("; ")}. `, tryIt(set)));
    const others = more ? [el("p", { class: "small" }, `And ${more} other sets of as many.`)] : [];
    return [makeHead(`The fewest ${noun} that are enough for ${formatSameStates(states)}:`), el("ul", { class: "fence-sets" }, rows), ...others, note];
  }

  /** Returns the table of exchanges, each with the states that are new without its lock, and what follows from it. */
  makePartsOfExchanges(exchanges, { condition, table }) {
    if (!exchanges.length) return [];
    const by = this.everything.checked ? "by all registers and locations" : ["by the question ", el("code", {}, condition)];
    const head = el("tr", {}, ["Exchange", "Without its lock", "States that are new then"].map((it) => el("th", { scope: "col" }, it)));
    const rows = exchanges.map(({ place, words, added, text }) => {
      const name = place.replace(/ at \d+,/, ",");
      const effect = words ? `as ${words} it ${formatAdded(added)}` : "not tried, since no register is free";
      const of = [`with ${words} in place of ${name} `, makePlainMark(), " "];
      const watch = (line) => makeWatchButton(line, () => this.film.show(line, { text, of, search: this.isSearched }));
      return el("tr", {}, el("th", { scope: "row" }, name), el("td", {}, effect), el("td", {}, makeStateLines(added ?? [], watch)));
    });
    return [
      el("p", {}, "Which exchanges need their lock, ", by, "? Each is tried alone without it."),
      el("div", { class: "wide" }, el("table", {}, el("thead", {}, head), el("tbody", {}, rows))),
      isForbidden({ condition, table }) || isUnasked({ condition }) ? "" : el("p", { class: "notice" }, REACHABLE),
      el("p", { class: "small" }, renderSentence("The page's own code writes the texts without a lock, as `tools/fences.py --exchanges` does "), makePlainMark(),
        ". The lists come from lw."),
    ];
  }

  /**
   * Shows where further fences would forbid what an x86 test asks about, unless that is forbidden; a button offers to look for them if that takes
   * many lists.
   */
  async offerMore(shown) {
    if (shown.language === "SRC" || isForbidden(shown) || isUnasked(shown)) return;
    const isForall = shown.condition.startsWith("forall");
    const words = isForall ? "Which fences would make it hold always?" : "Which fences would forbid it?";
    const offer = makeButton(words, () => this.showMore(isForall), { class: "main find-fences" });
    const answer = await ask(this.editor, "more fences", { text: this.editor.text, search: this.isSearched, limit: AT_ONCE });
    if (answer) this.more.replaceChildren(...(answer.fenced ? this.makePartsOfMore(answer.fenced, isForall) : [offer]));
  }

  /** Shows the fewest further fences that would forbid what a test asks about. */
  async showMore(isForall) {
    const fields = { text: this.editor.text, search: this.isSearched };
    const answer = await ask(this.editor, "more fences", fields, { place: this.more });
    if (!answer) return;
    this.more.replaceChildren();
    if (!answer.fenced) return showError(answer, this.more, this.editor);
    this.more.append(...this.makePartsOfMore(answer.fenced, isForall));
  }

  /** Returns the words on the sets of places for fences. */
  makePartsOfMore({ sets, more }, isForall) {
    const goal = isForall ? "make the condition hold in every state" : "forbid it";
    // With all fences that may help a test's states are those of interleaving.
    const why = isForall ? "interleaving already ends in a state in which it does not hold" : "interleaving already ends in such a state";
    if (!sets.length) return [el("p", { class: "next-step" }, el("b", {}, `No further MFENCE would ${goal}:`), ` ${why}.`)];
    const rows = sets.map(({ places, text, states }) => {
      const placeWords = places.map((it) => it.replace(/^(P\d) at \d+, before (.*)$/, "in $1 before `$2`")).join(" and ");
      const several = `it holds in ${isForall ? "all" : "none of"} ${states} states`;
      const result = states === 1 ? `it ${isForall ? "holds" : "does not hold"} in the only state` : several;
      const tryIt = () => this.take(insertFenceSet(this.editor.text, { places, text }));
      return el("li", {}, `An MFENCE `, renderSentence(placeWords), `: ${result}. `, makeButton("Try it", tryIt, { class: "take" }));
    });
    const others = more ? [el("p", { class: "small" }, `And ${more} other sets of as many fences.`)] : [];
    const fewest = HAS_FENCE.test(blankComments(this.editor.text)) ? "Besides its own, the fewest fences" : "The fewest fences";
    const head = el("p", { class: "next-step" }, el("b", {}, `${fewest} that ${goal}:`));
    const note = el("p", { class: "small" }, "The page itself puts the fences into the text ", makePlainMark(), ". The lists come from lw.");
    const { from, compiled } = address.read();
    const isOfProgram = (from && compiled) || listVariables(this.editor.text).size;
    const inProgram = isOfProgram ? [el("p", { class: "in-program" }, renderSentence(describeFence(from)))] : [];
    return [head, el("ul", { class: "fence-sets" }, rows), ...others, ...inProgram, note];
  }

  /** Says why there is no table, and offers a search if it would take too long. */
  fail(answer) {
    showError(answer, this.place, this.editor);
    if (isTooLong(answer)) this.place.append(this.makeOffer());
  }

  /** Returns the button that asks again, by a search. */
  makeOffer() {
    return makeSearchOffer(() => this.show(null, true), this.editor.makeId("search-fences"));
  }

  /** Returns the parts of an answer: the table of fences, and what follows from it. */
  makeParts(answer) {
    const { table, condition, texts } = answer;
    const by = this.everything.checked ? "by all registers and locations?" : ["by the question ", el("code", {}, condition), "?"];
    const head = el("tr", {}, ["Fence", "If only it is left out", "States that are new then"].map((it) => el("th", { scope: "col" }, it)));
    const names = listFenceNames(table);
    const rows = table.rows.map((it, index) => this.makeRow(names[index], it, texts[index]));
    const shown = el("table", {}, el("thead", {}, head), el("tbody", {}, rows));
    const isSource = answer.language === "SRC";
    const verdict = el("p", { class: "verdict", role: "status" }, el("strong", {}, describeTable(answer, names)));
    const isPlain = table.answered_by.includes("plain");
    const byPage = "lw refuses some lists by their count of orders; these come from the page's own interpreter ";
    const lists = isPlain ? [byPage, makePlainMark(), "."] : [`All lists come from lw${this.isSearched ? ", by a search" : ""}.`];
    const search = isPlain ? this.makeOffer() : "";
    if (!table.rows.length) return [verdict, isPlain || this.isSearched ? el("p", { class: "small" }, ...lists) : "", search];
    return [
      el("p", {}, `Which fences of ${isSource ? "the compiled program" : "the test"} are needed, `, by,
        isSource ? [" ", renderSentence(describeMapping(JSON.stringify([condition, table])))] : ""),
      el("div", { class: "wide" }, shown),
      verdict,
      el("p", { class: "small" }, "The page's own code takes the fences out of the text, which is ", makePlainMark(), ". ", ...lists),
      search,
    ];
  }

  /** Returns the row of a fence, by its name, given the text without it. */
  makeRow(name, { added }, text) {
    const effect = formatAdded(added);
    const of = [`without the fence of ${name} `, makePlainMark(), " "];
    const watch = (line) => makeWatchButton(line, () => this.film.show(line, { text, of, search: this.isSearched }));
    return el("tr", {}, el("th", { scope: "row" }, name), el("td", {}, effect), el("td", {}, makeStateLines(added, watch)));
  }
}

/** Returns whether the link asks for the reader's own fences in an x86 test: it is to be repaired. */
function isToRepair(text) {
  return address.read().fences === "own" && /^\s*X86\b/i.test(blankComments(text));
}

/** Returns whether no state is against a question: its condition holds in none, or of `forall` in all. */
function isForbidden({ condition, table }) {
  return table.positive === (condition.startsWith("forall") ? table.states : 0);
}

/** Returns whether a text has an exchange, or a source statement that is compiled to one. */
function hasExchange(text) {
  return /\b(?:xchg|xadd|swap|fetchadd)\b/i.test(blankComments(text));
}

/** Returns states that two programs have in common, in words. */
function formatSameStates(number) {
  return number === 1 ? "the same state" : `the same ${number} states`;
}

/** Returns the words on how many of some states have the condition: of several, which are called by a name, or of the only `one`. */
function formatHolding({ states, positive }, several = `${states} states`, one = "the only state") {
  if (states === 1) return `the condition ${positive ? "holds" : "does not hold"} in ${one}.`;
  return `the condition holds in ${positive || "none"} of ${several}.`;
}

/** Returns the page's names of the fences: by the instruction after each, since their numbers count instructions from 0. */
function listFenceNames({ rows }) {
  const names = rows.map(({ place }) => place.replace(/^(P\d) at \d+$/, "$1, at its end").replace(/ at \d+/, ""));
  return names.map((name, index) => {
    const alike = names.filter((it) => it === name).length;
    return alike === 1 ? name : `${name} (${names.slice(0, index + 1).filter((it) => it === name).length} of ${alike})`;
  });
}

/**
 * Returns, as children for `el`, the sentence on which fences are enough for the states that exist with all of them, and in how many of these states the
 * condition holds. `names` are those of the fences, in the order of the rows.
 */
function describeTable(answer, names) {
  const { table, language } = answer;
  const { rows, enough, states } = table;
  const program = language === "SRC" ? "the compiled program" : "the test";
  const isOne = rows.length === 1;
  if (!rows.length) return [`${describeNoFences(answer)}: ${formatHolding(table)}`];
  if (!enough.length) {
    const [fences, all] = isOne ? ["The fence changes", "it and without it"] : ["The fences change", "all of them and with none"];
    return [`${fences} nothing: with ${all} ${program} ends in ${formatSameStates(states)}, and ${formatHolding(table, "them", "it")}`];
  }
  if (enough.length < rows.length) {
    // The comma keeps `P0 at 1` from being the start of `P0 at 12`.
    const kept = names.filter((_, index) => enough.some((it) => `${rows[index].place},`.startsWith(`${it},`)));
    const needed = `These are enough for ${formatSameStates(states)}, and none of them can be left out: ${kept.join("; ")}.`;
    return [`${needed} With them ${formatHolding(table, "these states", "this state")}`];
  }
  const needed = isOne ? "The fence is needed: without it" : "Every fence is needed: if any one of them is left out,";
  return [`${needed} ${program} ends in more states. With ${isOne ? "it" : "all"} ${formatHolding(table)}`];
}

/** Returns that a program without a fence needs none, if no state is against its question, or else that there is none to leave out. */
function describeNoFences(answer) {
  const isSource = answer.language === "SRC";
  if (isForbidden(answer)) return isSource ? "The compiled program needs no fence" : "No fence is needed";
  return `The ${isSource ? "compiled program" : "test"} has no MFENCE to leave out`;
}

/** Returns the place of an exchange as it is, and that of a fence with the name of its instruction. */
function nameFence(place) {
  return place.replace(/^(P\d at \d+)(?:$|, (?=before ))/, (_, at) => `${at}, MFENCE `).replace(/MFENCE $/, "MFENCE at the end");
}

/** Returns how many states are new, in words. */
function formatAdded(added) {
  return added.length ? `adds ${added.length} state${added.length === 1 ? "" : "s"}` : "changes nothing";
}

/** Returns the first states of some lines, each with its button to watch a run, and how many others there are. */
function makeStateLines(lines, watch) {
  const shown = lines.slice(0, MAX_SHOWN).map((it) => el("div", {}, el("code", {}, it), " ", watch(it)));
  return lines.length > MAX_SHOWN ? [...shown, `and ${lines.length - MAX_SHOWN} others`] : shown;
}
