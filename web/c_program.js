// Rewrites a program in C or C++, or a test of herd in C, as an x86 test: its threads have no loops but those that wait, and each access becomes what
// gcc and clang make of it, in the order of the program. What they make different code of is refused, and what is no such program. Not proved.
//
// The records `Program` and `Part` are those of c_reader.js.

import { alignCells } from "./aligned.js";
import { CallWriter } from "./c_calls.js";
import { findClosing, parseConstant, refusePart } from "./c_code.js";
import { ConditionWriter } from "./c_conditions.js";
import { rewriteDialect } from "./c_dialects.js";
import { applyEdits, replaceMatch } from "./c_edits.js";
import { areEntering, findEither, findEntry, formatList, guessQuestion } from "./c_guess.js";
import { needsWords, writeKnown } from "./c_known_threads.js";
import { linkThreads } from "./c_links.js";
import { addUsers, refuseUsers } from "./c_lone_lock.js";
import { addQueueUsers } from "./c_lone_queue.js";
import { blankDelays } from "./c_delays.js";
import { OF_STORING } from "./c_loop_reader.js";
import { startThreads } from "./c_main.js";
import { separateMainPart } from "./c_main_part.js";
import { OF_RUNS } from "./c_main_reader.js";
import { quoteProgram } from "./c_quotes.js";
import { addEnds, addPhrase, formatAssertion, formatFormula, limitQuestion, readProposition } from "./c_question.js";
import { rewritePointers } from "./c_pointers.js";
import { checkThreads, readProgram } from "./c_reader.js";
import { expandRelations, mapSites } from "./c_relations.js";
import { rewriteRounds } from "./c_rounds.js";
import { BITS, OF_BITS } from "./c_statements.js";
import { listStaticEdits } from "./c_statics.js";
import { rewriteTemplates } from "./c_templates.js";
import { rewriteTerms } from "./c_terms.js";
import { RESULT } from "./c_thread.js";
import { findAllWords } from "./c_words.js";
import { readTest } from "./tests.js";
import { WORD } from "./token_reader.js";

// Why a variable in a question is refused, and the result of a thread.
const OF_NOTHING = "nothing sets it";
const OF_RESULT = "the thread returns a value on some paths only";
const OF_PATHS = "declare it outside of blocks, with a value, as `int r0 = 0`";
const OF_ASKED = ": the program asks something else, so leave this out";
const OF_ENDLESS = ": the thread may still wait after this, in a loop or for a lock, so assert it at the end of `main`";
const OF_OTHERS = ": another thread may still wait then, in a loop or for a lock, so load it into a variable here, as `int r0 = x;`, and assert that at the end of `main`";
const OF_SECTIONS =
  ": another thread may still wait then, in a loop or for a lock, and this variable changes again, so count in the section, as `n++`, and ask at the end of `main` " +
  "whether an addition is lost";
const OF_QUESTION = ": a question is `exists (..)`, `~exists (..)` or `forall (..)`";
const OF_WIDE = ": the page takes words of 64 bits as words of 32, which sums or constants of this program may exceed";
// A type of 64 bits, which is the group, and one of 32 without a sign.
const WIDE_TYPE = /\b((?:atomic_)?(?:u?l?long|s?size_t|u?int(?:64|ptr)_t)|LONG64|LONGLONG|INT64|\w+_PTR|SIZE_T)\b/;
const UNSIGNED = /\bunsigned\b(?!\s+(?:long|char|short))|\b(?:atomic_)?uint(?:32_t)?\b|\b(?:DWORD|UINT|ULONG)/;
const OF_SWAPS = ": a compare-exchange is rewritten if its variable is only ever set to the two constants that it names";
const OF_PAIRS = ": a loop that exchanges needs a variable that is only set to the constant that it writes, and to the one at which it ends";
// A number with marks between its digits.
const SEPARATED = /(?<![\w.'])\d+(?:'[\da-fA-F]+)+/g;
// Why lw refuses a test with a name.
const RESERVED = /^(\w+) is reserved\b/;
// A name in a question: the groups are the number of a thread before it, and the name. And those that are words of the question itself.
const NAME = /(?<!\w)(?:P?(\d)\s*:\s*)?([A-Za-z_]\w*)/g;
// A longer program is not written with words that are known.
const MOST_KNOWN = 20000;
const WORD_OF_QUESTION = /^(?:exists|forall|locations|not|true|false)$/;

/** Returns the names of variables on which there is a race by a plain access: another thread accesses them too, and one of the two writes. */
function listRaces(accesses) {
  const isConflict = (one, other) => one.thread !== other.thread && one.name === other.name && (one.isWrite || other.isWrite);
  const races = accesses.filter((it) => it.isPlain && accesses.some((other) => isConflict(it, other)));
  return [...new Set(races.map((it) => it.name))];
}

/**
 * Throws NoTest for a loop that exchanges, or for a compare-exchange, if its variable may have another word than that which it writes and that at which it
 * ends. Otherwise an exchange that fails changes nothing.
 */
function checkPairs({ words }, writers, accesses) {
  for (const { statement, name, words: pair, isSingle } of writers.flatMap((it) => it.pairs)) {
    const written = accesses.filter((it) => it.isWrite && it.name === name).map((it) => it.word);
    if ([words.get(name), ...written].some((it) => !pair.includes(it))) refusePart(statement, BITS.test(statement.code) ? OF_BITS : isSingle ? OF_SWAPS : OF_PAIRS);
  }
}

/** Returns the greatest magnitude of words that threads may have, if each instruction is executed once: sums come first, and then doublings. */
function boundWords(instructions, words) {
  const toMagnitude = (word) => Math.min(word, WORD - word);
  const constants = [...words, ...instructions.flatMap((it) => [...it.matchAll(/\$(\d+)/g)].map(([, digits]) => Number(digits)))];
  const before = instructions.map((it, at) => [it, instructions[at - 1] ?? ""]);
  const sums = before.filter(([it]) => /\b(?:ADD|XADD) /.test(it));
  const doublings = sums.filter(([it, last]) => !/ADD \w+,\$\d+$/.test(it) && !(/XADD/.test(it) && /MOV \w+,\$\d+$/.test(last))).length;
  return Math.max(0, ...constants.map(toMagnitude)) * (1 + sums.length - doublings) * 2 ** doublings;
}

/** Returns whether a program has words of 64 bits, in place of which are words of 32. Throws NoTest if one of them may not be such a word. */
function checkWide({ text, words }, writers, used) {
  const isWideUse = (writer) => writer.isWide || [...writer.variables.values()].some((it) => it.isWide && used.has(it.name));
  if (!writers.some(isWideUse)) return false;
  const instructions = writers.flatMap((it) => it.instructions);
  const initial = [...used].map((it) => words.get(it) ?? 0);
  const isNegative = instructions.some((it) => /\$\d{10}/.test(it)) || initial.some((it) => it >= WORD / 2);
  const hasLong = (text.match(/\b(?:0x[\da-f]+|\d+)/gi) ?? []).some((it) => Number(it) >= WORD / 2);
  const isMixed = isNegative && UNSIGNED.test(text);
  if (hasLong || isMixed || boundWords(instructions, initial) >= WORD / 2) {
    const [, type] = WIDE_TYPE.exec(text);
    refusePart(locateName({ code: text, index: 0 }, type), OF_WIDE);
  }
  return true;
}

/** Throws NoTest for a loop whose passes are runs, unless it sets each variable that its threads change, so that all its passes begin alike. */
function checkRepeated({ repeated }, writers, accesses) {
  const written = accesses.filter((it) => it.isWrite && !it.isMutex).map((it) => it.name);
  const name = [...written, ...writers.flatMap((it) => it.listUnset())].find((it) => repeated && !repeated.names.has(it));
  if (name) refusePart(repeated.statement, `: its passes begin alike if it sets \`${name}\` before the threads`);
}

/** Returns the first part of another one that is a name. */
function locateName({ code, index }, name) {
  return { code: name, index: index + Math.max(code.search(new RegExp(`\\b${name}\\b`)), 0) };
}

/**
 * Returns a function of the name of a variable in the question, the number of its thread, if it is said, and its index in the code of the question,
 * that returns its site, and adds it to the names in `used` if it is a location. It throws NoTest if the variable has no register and is not shared.
 */
function makeSiteFinder({ words, question: { code, index, source } }, writers, used) {
  const begin = index + code.search(/\S|$/);
  const findPart = (site, offset) => (source ? locateName(source, site) : { code: site, index: begin + offset });
  return (site, number, variable, offset) => {
    const writer = number ? writers[number] : writers.find((it) => it.own.some(({ name }) => name === variable));
    if (writer?.known.has(variable)) return writer.makeSite(variable);
    const why = !writer?.registers.includes(variable) ? OF_NOTHING : variable === RESULT ? OF_RESULT : OF_PATHS;
    if (site !== variable || !words.has(site)) refusePart(findPart(site, offset), `, of which the question asks: ${why}`);
    used.add(site);
    return site;
  };
}

/**
 * Returns a question with its connectives and registers as lw writes them, and adds its locations to the names in `used`. Throws NoTest if it names a
 * variable that neither has a register nor is shared.
 */
function translateQuestion(program, writers, used) {
  const findSite = makeSiteFinder(program, writers, used);
  const { formulas, code, isAsserted } = program.question;
  if (formulas) {
    const expanded = listAsked(program, writers, used);
    return isAsserted ? formatAssertion(expanded) : `exists (${formatFormula(expanded[0])})`;
  }
  const named = code.trim().replace(NAME, (site, ...groups) => (WORD_OF_QUESTION.test(site) ? site : findSite(site, ...groups)));
  const question = named.replace(/&&/g, "/\\").replace(/\|\|/g, "\\/").replace(/==/g, "=");
  return question.replace(/= ?(-\d{1,10})\b/g, (whole, constant) => `=${parseConstant(constant) ?? constant}`);
}

/** Returns the formulas that `main` asserts or asks, of sites. Throws NoTest if they have a relation that is no formula of words. */
function listAsked(program, writers, used) {
  const { text, words, question: { formulas, isAsserted, source } } = program;
  const findSite = makeSiteFinder(program, writers, used);
  const findWords = findAllWords(writers, words);
  const expand = (formula) => expandRelations(formula, findWords, text, isAsserted, (why) => refusePart(source, why));
  return formulas.map((it) => expand(mapSites(it, (name) => findSite(name, undefined, name))));
}

/** Returns whether a thread gives each mutex back before it takes another one, on all its paths. */
function isPaired({ accesses }) {
  const mutexes = accesses.filter((it) => it.isMutex);
  const isNext = ({ name, word, isSure, isTried }, at) => isSure && !isTried && word === 1 - (at % 2) && (word || name === mutexes[at - 1].name);
  return mutexes.length % 2 === 0 && mutexes.every(isNext);
}

/** Returns whether a thread takes a mutex while it may have another one. */
function takesWhileHolding({ accesses }) {
  const mutexes = accesses.filter((it) => it.isMutex);
  return mutexes.some(({ word }, at) => word && mutexes[at - 1]?.word);
}

/** Returns whether a thread waits only for mutexes: it comes to its end, whatever others do that give theirs back. */
function waitsForMutexes({ accesses, waits }) {
  return waits.length === accesses.filter((it) => it.isMutex && it.word).length;
}

/** Returns whether a variable of an assertion changes after it in its block: what it is at the end of `main` says nothing then. */
function changesAfter(text, { code, index }) {
  const begin = text.indexOf(";", index);
  const names = code.match(/[A-Za-z_]\w*/g)?.filter((it) => it !== "assert") ?? [];
  let depth = 0;
  const length = text.slice(begin).split("").findIndex((it) => (depth += Number(it === "{") - Number(it === "}")) < 0);
  const after = text.slice(begin, length < 0 ? undefined : begin + length);
  return names.some((it) => new RegExp(`\\b${it}\\s*(?:=(?!=)|\\+\\+|--|[-+]=|\\.\\s*(?:store|fetch_\\w+|exchange)\\b)|(?:\\+\\+|--)\\s*${it}\\b`).test(after));
}

/**
 * Returns the question of what threads assert, with what `main` asserts, or "" if threads assert nothing. Throws NoTest if the program asks besides,
 * or if a loop waits that need not end before an assertion.
 */
function askAssertions(program, writers, used) {
  const { text, words, question } = program;
  const asserting = writers.filter((it) => it.assertion);
  for (const writer of asserting) {
    if (question.code && !question.isAsserted) refusePart(writer.assertion, OF_ASKED);
    const others = writers.filter((it) => it !== writer && it.waits.length);
    const areSure = others.every(waitsForMutexes) && writers.every(isPaired);
    if (others.length && !areSure) refusePart(writer.assertion, changesAfter(text, writer.assertion) ? OF_SECTIONS : OF_OTHERS);
    if (writer.waitCount < writer.waits.length) refusePart(writer.assertion, OF_ENDLESS);
  }
  if (!asserting.length) return "";
  const findWords = findAllWords(writers, words);
  const expand = (writer, formula) => expandRelations(formula, findWords, text, true, (why) => refusePart(writer.assertion, why));
  const ofMain = question.isAsserted ? listAsked(program, writers, used) : [];
  return formatAssertion([...asserting.flatMap((writer) => writer.asserted.map((it) => expand(writer, it))), ...ofMain]);
}

/** Returns the header of threads, and their instructions in rows. */
function formatRows(writers) {
  const columns = writers.map((it) => [`P${it.number}`, ...it.instructions]);
  const count = Math.max(...columns.map((it) => it.length));
  return Array.from({ length: count }, (_, row) => ` ${columns.map((it) => it[row] ?? "").join(" | ")} ;\n`).join("");
}

/** Returns a writer of a thread, in which words are known if the program says of which variables they are not. */
function makeWriter(program, number, kept) {
  return program.unknowable ? new ConditionWriter(program, number, kept) : new CallWriter(program, number, kept);
}

/** Returns the writer of a thread, in which the conditions around assertions have registers, as those at some indices have. */
function writeAsserting(program, number, kept = []) {
  const writer = makeWriter(program, number, kept);
  try {
    return writer.writeThread();
  } catch (error) {
    const others = writer.unkept.filter((it) => !kept.includes(it));
    if (!others.length) throw error;
    return writeAsserting(program, number, [...kept, ...others]);
  }
}

/**
 * Returns the writer of a thread, in which the conditions that a guessed question asks of have registers, if there are enough: that of its only branch if
 * all threads are entering one, and those before its last load.
 */
function writeThread(program, number, isEntering = false) {
  const writer = writeAsserting(program, number);
  const branches = (isEntering && (findEntry(writer) ?? findEither(writer)?.flat())) || writer.loadedBranches;
  if (program.question.code || writer.assertion || !branches.length) return writer;
  try {
    return makeWriter(program, number, branches.map((it) => it.index)).writeThread();
  } catch {
    return writer;
  }
}

/**
 * Returns the writers of all threads. A plain variable that only one thread accesses has a register of it: what a function with parameters accesses is
 * known when it is written.
 */
function writeThreads(program) {
  const first = program.threads.map((_, number) => writeThread(program, number));
  const isEntering = areEntering(program, first);
  const writers = isEntering ? first.map((_, number) => writeThread(program, number, true)) : first;
  if (!program.threads.some((it) => it.values?.length || it.members?.length)) return writers;
  const owners = new Map(writers.flatMap((writer) => writer.own.map((it) => [it.name, writer.number])));
  const accesses = writers.flatMap((it) => it.accesses);
  for (const { thread, name } of accesses) owners.set(name, (owners.get(name) ?? thread) === thread ? thread : -1);
  try {
    return program.threads.map((_, number) => writeThread({ ...program, owners }, number, isEntering));
  } catch {
    return writers;
  }
}

/**
 * Returns the question of a test, whether it is a guess, and whether it is `true` (`isOpen`); and phrases (`said`), each with the proposition that has
 * their meaning. It asks only of the states in which all waits have ended (`ends`). The question of the program may have a `meaning` in words.
 */
function makeQuestion(program, writers, used, ends, meaning) {
  const asked = askAssertions(program, writers, used) || translateQuestion(program, writers, used);
  const { question: whole, phrases } = asked ? { question: asked, phrases: [] } : guessQuestion(program, writers, writers.flatMap((it) => it.accesses));
  const said = phrases.map(({ words, formula }) => ({ words, proposition: formatFormula(formula) }));
  const isOpen = /^(?:locations.*\n)?exists \(true\)$/.test(whole);
  if (asked && meaning) said.push({ words: meaning, proposition: readProposition(asked) });
  const question = ends.length && !isOpen ? limitQuestion(whole, ends) ?? refusePart(program.question, OF_QUESTION) : whole;
  return { question, isGuess: !asked || isOpen, isOpen, said };
}

/**
 * Returns the record of `rewriteProgram` of a text, whose question may have a `meaning` in words, and in which words are known in the order of the
 * program, or not. Throws NoTest if it is not rewritten.
 */
function writeTest(text, meaning, isKnown) {
  const program = linkThreads(startThreads(readProgram(text)));
  checkThreads(program);
  const writers = isKnown ? writeKnown(program, writeThreads) : writeThreads(program);
  if (writers.some((it) => it.unknownEnds.length)) {
    const findWords = findAllWords(writers, program.words);
    for (const it of writers) it.findEnds(findWords);
  }
  const accesses = writers.flatMap((it) => it.accesses);
  const used = new Set(accesses.map((it) => it.name));
  const ends = writers.flatMap((it) => it.waits);
  const { question, isGuess, isOpen, said } = makeQuestion(program, writers, used, ends, meaning);
  const [entry] = writers.flatMap((it) => it.entries);
  // Its other passes are left out, so that only the guessed question of a defect can be asked.
  if (entry && (!isGuess || !said.length || program.repeated || ends.length)) refusePart(entry, OF_STORING);
  const sites = writers.flatMap((writer) => writer.registers.map((variable) => ({ site: writer.makeSite(variable), variable })));
  const comment = sites.length ? `(* ${sites.map(({ site, variable }) => `${site} is ${variable}`).join(", ")} *)\n` : "";
  const block = [...program.words].filter(([name]) => used.has(name)).map(([name, word]) => `${name}=${word}; `).join("");
  checkPairs(program, writers, accesses);
  checkRepeated(program, writers, accesses);
  const list = formatList(question, isGuess, accesses, sites.map((it) => it.site));
  const bare = alignCells(`X86 ${program.name}\n${comment}{ ${block}}\n${formatRows(writers)}${list}${question}\n`);
  const made = said.reduce((text, { words, proposition }) => addPhrase(text, words, proposition), addEnds(bare, ends));
  const isWide = checkWide(program, writers, used);
  const isWaiting = writers.some((it) => it.isWaiting);
  const isSwapping = writers.some((it) => it.pairs.some(({ isSingle }) => isSingle));
  const locks = accesses.filter((it) => it.isMutex && !it.isSpin && it.word === 1);
  const [isLocking, isTrying] = [locks.some((it) => !it.isTried), locks.length > 0 && locks.every((it) => it.isTried)];
  const isRepeated = Boolean(program.repeated);
  const isEnding = entry !== undefined;
  const isHolding = isLocking && writers.some(takesWhileHolding);
  return { program, made, isGuess, isOpen, races: listRaces(accesses), isWaiting, isSwapping, isLocking, isTrying, isHolding, isWide, isRepeated, isEnding };
}

/** Throws why lw refuses a test: if that is its question, NoTest at the question of the program. */
function checkTest(made, { question: { code, index, source } }) {
  try {
    readTest(made);
  } catch (error) {
    const others = made.replace(/\n(?:~\s*exists|exists|forall)\b[^]*$/, "\nexists (true)\n");
    if (!code || source || !isRead(others)) throw error;
    refusePart({ code: code.trim(), index: index + code.search(/\S|$/) }, `: ${error.message}`);
  }
}

/** Returns whether a text is read as a test. */
function isRead(text) {
  try {
    return Boolean(readTest(text));
  } catch {
    return false;
  }
}

/**
 * Returns the x86 test of a program in C or C++, or of a test of herd in C, and whether its question is a guess, since the program asks nothing, or is
 * `true`, since there is none to guess (`isOpen`); the names of plain variables on which threads race; whether one pass is in place of a loop that
 * waits; whether an exchange is in place of a compare-exchange (`isSwapping`); whether a location is in place of a mutex (`isLocking`), or of some
 * that are only tried (`isTrying`); whether a thread takes one while it has another (`isHolding`); whether words of 32 bits are in place of those of 64; whether a run is in place of a loop of them; whether delays are
 * left out (`isDelayed`); whether a thread ends at a loop that stores (`isEnding`); the name of a variable in place of a member of an object (`pointed`), if
 * there are some; a sentence on threads that are added (`users`); and sentences on what threads look at in place of waiting (`terms`). Or returns why it is not rewritten: a part of it, with its index, and the end of a
 * sentence; or without an index why lw refuses the test.
 * @param {string} text
 * @param {string} [meaning] What the question of the program means, in words.
 * @returns {{made?: string, isGuess?: boolean, isOpen?: boolean, races?: string[], isWaiting?: boolean, isSwapping?: boolean, isLocking?: boolean,
 *   isTrying?: boolean, isHolding?: boolean, isWide?: boolean, isRepeated?: boolean, isDelayed?: boolean, isEnding?: boolean, pointed?: string, users?: string, terms?: string,
 *   why?: string, index?: number}}
 */
export function rewriteProgram(text, meaning = "") {
  const joined = text.replace(SEPARATED, (it) => it.replaceAll("'", "").padEnd(it.length));
  const test = rewriteReserved(joined, meaning);
  return test.made ? test : quoteProgram(rewriteOther(joined, meaning, test.index) ?? test, text);
}

/** Returns what `rewriteJoined` does of a program in which a shared variable that has the name of a register, or another name that lw reserves, ends in `_`. */
function rewriteReserved(text, meaning) {
  const test = rewriteJoined(text, meaning);
  const [, name] = RESERVED.exec(test.index === undefined ? test.why ?? "" : "") ?? [];
  const isTaken = new RegExp(`\\b${name}_\\b`).test(text);
  if (name === undefined || isTaken) return test;
  const named = [...text.matchAll(new RegExp(`\\b${name}\\b`, "g"))].map((it) => replaceMatch(it, `${name}_`));
  const edited = applyEdits(text, named);
  const { index, ...other } = rewriteReserved(edited.text, meaning);
  if (!other.made) return { ...other, index: index === undefined ? undefined : edited.findIndex(index) };
  return { ...other, terms: ` The variable \`${name}\` is \`${name}_\` here, since lw has that name.${other.terms ?? ""}` };
}

/** Returns what `rewriteProgram` does of a program in the form of another tool, which is `refused` at an index; null of one in its own form. */
function rewriteOther(text, meaning, refused) {
  try {
    const edited = rewriteDialect(text, refused);
    if (!edited) return null;
    const { index, ...test } = rewriteReserved(edited.text, meaning);
    return { ...test, index: index === undefined ? undefined : edited.findIndex(index) };
  } catch ({ message, index }) {
    return { why: message, index };
  }
}

/** Returns what `rewriteProgram` does of a program without marks between digits. */
function rewriteJoined(text, meaning) {
  const test = rewriteLone(text, meaning);
  const edited = test.made ? null : rewriteTerms(text);
  const { index, ...other } = edited ? rewriteLone(edited.text, meaning) : {};
  if (other.made) return { ...other, terms: edited.words };
  const place = index === undefined ? -1 : edited.findIndex(index);
  return place > test.index ? { ...other, why: quotePart(other.why, text, place), index: place } : test;
}

/** Returns why a part is refused that is at an index of a program, with the program's own code in place of that which is quoted. */
function quotePart(why, text, index) {
  const rest = text.slice(index);
  const head = /^(?:for|while|if|switch)\s*(?=\()/.exec(rest)?.[0].length;
  const close = head ? findClosing(rest, head) + 1 : rest.search(/[;{}]/);
  const code = rest.slice(0, close > 0 ? close : undefined).trim().replace(/\s+/g, " ").replace(/^(.{40}).+/, "$1..");
  return why.replace(/^`[^`]*`/, () => `\`${code}\``);
}

/** Returns what `rewriteProgram` does of a program in the terms that the page reads, to which threads are added if it is a queue that none uses. */
function rewriteLone(text, meaning) {
  const test = rewriteUnblocked(text, meaning);
  const used = test.made ? null : addQueueUsers(text);
  const other = used && rewriteUnblocked(used.text, meaning);
  if (other?.made) return { ...other, users: used.users };
  return other?.index < text.trimEnd().length ? other : test;
}

/** Returns what `rewriteProgram` does of a program whose threads look at what they wait for. */
function rewriteUnblocked(text, meaning) {
  try {
    const without = rewriteTemplates(text);
    if (!without) return rewriteStatic(text, meaning);
    const { index, ...test } = rewriteStatic(without.text, meaning);
    return { ...test, index: index === undefined ? undefined : without.findIndex(index) };
  } catch ({ message, index }) {
    return { why: message, index };
  }
}

/** Returns what `rewriteProgram` does of a program without templates. */
function rewriteStatic(text, meaning) {
  const test = rewriteUndelayed(text, meaning);
  const edits = test.made ? [] : listStaticEdits(text);
  if (!edits.length) return test;
  const without = applyEdits(text, edits);
  const { index, ...other } = rewriteUndelayed(without.text, meaning);
  return { ...other, index: index === undefined ? undefined : without.findIndex(index) };
}

/** Returns what `rewriteProgram` does of a program whose classes have no static members. */
function rewriteUndelayed(text, meaning) {
  const test = rewriteWhole(text, meaning);
  const without = test.made ? null : blankDelays(text);
  const other = without && rewriteWhole(without.text, meaning);
  return other ? { ...other, isDelayed: without.isDelayed } : test;
}

/** Returns what `rewriteProgram` does of a program without delays. */
function rewriteWhole(text, meaning) {
  const used = rewriteUsed(text, meaning);
  if (used) return used;
  const test = tryProgram(text, meaning);
  return test.made ? test : rewriteRound(text, meaning) ?? rewriteMainPart(text, meaning, test) ?? rewritePointing(text, meaning) ?? test;
}

/** Returns what `rewriteProgram` does of a program to which threads are added, with a sentence on them (`users`); null of another program. */
function rewriteUsed(text, meaning) {
  try {
    const added = addUsers(text);
    if (!added) return null;
    const test = tryProgram(added.text, meaning);
    if (test.made) return { ...test, users: added.users };
    return test.index < text.length || test.index === undefined ? test : refuseUsers(added.part);
  } catch ({ message, index }) {
    return { why: message, index };
  }
}

/** Returns what `rewriteProgram` does of a program of rounds; null of another program. */
function rewriteRound(text, meaning) {
  const round = rewriteRounds(text);
  if (!round) return null;
  const { index, why, ...test } = tryProgram(round.text, meaning);
  // The loop that `main` has then is not in the program.
  return { ...test, why: why?.replace(/^`for [^`]*`/, "`main`"), index: index === undefined ? undefined : Math.min(index, round.main) };
}

/**
 * Returns what `rewriteProgram` does of a program whose `main` does something while its threads run; null if that is not so, or if something else than a loop
 * is refused of it, unless a loop of `main` is what is `refused` of the whole.
 */
function rewriteMainPart(text, meaning, refused) {
  const separated = separateMainPart(text);
  const test = separated && tryProgram(separated.text, meaning);
  if (!test || test.made) return test;
  const isOfLoop = /^`(?:while|for|do)\b/.test(test.why) || refused.why.endsWith(OF_RUNS);
  return isOfLoop && test.index !== undefined ? { ...test, index: separated.findIndex(test.index) } : null;
}

/** Returns what `rewriteProgram` does of a program that makes objects, with the name of a variable in place of a member (`pointed`); null of another one. */
function rewritePointing(text, meaning) {
  try {
    const without = rewritePointers(text);
    if (!without) return null;
    const { index, ...test } = tryProgram(without.text, meaning);
    return { ...test, index: index === undefined ? undefined : without.findIndex(index), pointed: without.variable };
  } catch ({ message, index }) {
    return { why: message, index };
  }
}

/**
 * Returns what `rewriteProgram` does of a program that makes no objects. It is written with words that are known if it has indices that are no
 * constants, or needs to know which result a function has.
 */
function tryProgram(text, meaning) {
  const test = tryOnce(text, meaning, false);
  const isOfKnown = !test.made && text.length < MOST_KNOWN && needsWords(test, text);
  const known = isOfKnown ? tryOnce(text, meaning, true) : test;
  return known.made || known.index >= test.index ? known : test;
}

/** Returns the same of a program in which words are known, or not. */
function tryOnce(text, meaning, isKnown) {
  try {
    const { program, ...test } = writeTest(text, meaning, isKnown);
    checkTest(test.made, program);
    return test;
  } catch ({ message, index }) {
    return { why: message, index };
  }
}
