// Makes an x86 test of instructions that have none around them, as a compiler prints them or as somebody writes them below the names of threads. Not
// proved.
//
// The records `AssemblyBlock` and `Line` are those of assembly_reader.js. A `Source` is a text of instructions in its parts: the `front` of a test before it
// and its `tail`, a question, if it has them, the index of this (`end`), its `threads`, lists of code, the index of each line in the text (`places`), the
// `locations` that variables are, with the index of the line that first names each (`mentions`), and what `readThreads` returns.

import { alignCells } from "./aligned.js";
import { nameAddresses } from "./assembly_addresses.js";
import { blankPrompts, describeNegative, dropHash } from "./assembly_origins.js";
import { findLocations, formatList, guessQuestion, REGISTER } from "./assembly_question.js";
import { readBlocks, rewriteReturns } from "./assembly_reader.js";
import { describeUnset, limitTest, lowerText } from "./assembly_test.js";
import { addEnds } from "./c_question.js";
import { rewriteListing } from "./disassembly.js";
import { rewriteWhole } from "./notation.js";
import { explainProcessor } from "./other_processors.js";
import { isRead } from "./other_tools.js";
import { Refusal } from "./register_state.js";
import { readTest } from "./tests.js";
import { isReserved, WORD } from "./token_reader.js";
import { leaveAllLoops } from "./waiting.js";

const MAX_THREADS = 4;
// The end of a function, and a line with a label.
const RETURN = /^(?:rep\s+|bnd\s+)?retq?$/i;
const LABELLED = /^[.\w$@]+:/;
// The letters of the longest name of lw.
const MAX_NAME = 32;
// More functions than these are not named one by one.
const MAX_NAMED = 3;
// More instructions of a thread than this are not rewritten.
const MAX_LINES = 64;
// No line is longer, and no question.
const LONGEST = 2000;
// The front of a test, with which a text of instructions may begin; and how a question begins, or the list of locations before it.
const FRONT = /^\s*X86[^{|;]*\{[^}|]*\}/;
const QUESTION = /^[ \t]*(?:locations\b|filter\b|forall\b|(?:(?:[~!]|not\b)[ \t]*)?exists\b)/m;
// The row of the threads' names, which a test has.
const NAMES_ROW = /^[ \t]*P0[ \t]*(?:[|;,]|P1\b)/m;
// An instruction on a variable in a function's frame on the stack, or that begins the frame.
const FRAME = /^(?!lock\b).*(?:\[[er]bp\s*[-+]|\d\[[er]bp\]|\d\(%[er]bp\))|^mov\w*\s+(?:[er]bp,\s*[er]sp|%[er]sp,\s*%[er]bp)$/i;
// One on a variable on the stack, as optimized code has it, too.
const ON_STACK = /^(?!lock\b).*(?:\[[er]sp\s*[-+]|\d\[[er]sp\]|\d\(%[er]sp\))/i;
// An instruction that loads the address of a variable from a table; and one with an address in a register, other than that of the stack.
const OF_TABLE = /@GOTPCREL\b/i;
const ADDRESS = /[[(][^[\]()]*(?<!\w)%?(?:[re](?:[abcd]x|[sd]i)|r(?:[89]|1[0-5])d?)\b/i;
const IS_SUM = /^(?:\w+:\s*)*lea/i;
// A line of instructions that a test may have: labels, an instruction, or both. And instructions that no test has.
const NAMES = "mov|x?add|sub|cmp|xchg|inc|dec|test|x?or|and|j[nmez]|[mls]fence|nop|pause";
const OTHER_NAMES = "call|lea|cdqe?|cltq|imul|set\\w+|cmov\\w+|cmpxchg|bt[src]?|sh[lr]|sa[lr]|neg|not|j\\w+|push|pop|leave";
const ASSEMBLY = new RegExp(`^(?:\\w+:\\s*)+$|^(?:\\w+:\\s*)*(?:(?:lock|rep)\\s+)?(?:${NAMES})\\w*(?:\\s[^;|{}=]*)?$`, "i");
const OTHER_INSTRUCTION = new RegExp(`^(?:\\w+:\\s*)*(?:lock\\s+)?(?:${OTHER_NAMES})\\w*(?:\\s[^;|{}=]*)?$`, "i");
// What may be another instruction: a name, with operands or without.
const UNKNOWN_INSTRUCTION = /^(?:\w+:\s*)*(?:lock\s+)?[a-z]\w{1,9}(?:\s[^\s,;|{}=]+(?:\s?,[^;|{}=]*)?)?$/i;
// A variable in an instruction, perhaps in a class and with a number of bytes after it: relative to the next instruction, in brackets, or after its size. The
// groups are what is before it, its name, and the number.
const NAME = "([A-Za-z_][\\w.$]*(?:::[A-Za-z_][\\w.$]*)*)";
const VARIABLES = [
  new RegExp(`(?<![\\w.$:])()${NAME}(?:\\+(\\d+))?(?=\\(%rip\\)|\\[rip\\])`, "gi"),
  new RegExp(`(\\[(?:rip\\s*\\+\\s*|rel\\s+)?)${NAME}(?:\\s*\\+\\s*(\\d+))?(?=\\s*\\])`, "gi"),
  new RegExp(`(\\b(?:byte|[dq]?word)\\s+ptr\\s+)${NAME}(?:\\+(\\d+))?(?=\\s*(?:,|$))`, "gi"),
];
// An instruction of 64 bits.
const WIDE = /\bqword\b|\b(?:mov|x?add|sub|xchg|cmp|inc|dec|x?or|and)q\b|\br(?:[abcd]x|[sd]i|\d\d?)\b/i;
// Functions that are no threads: they start these, or set variables before them, or are parts of libraries. That of a thread of C++ is `_M_run`.
const NO_THREAD = new RegExp(
  "^(?!.*_M_run)\"?_?(?:(?:main|_start|_init|_fini|(?:de)?register_tm_clones|__do_global_dtors_aux|frame_dummy|_dl_relocate_static_pie|" +
    "_GLOBAL__sub_I_.*|__cxx_global_var_init.*)(?:\\(.*\\))?|__clang_call_terminate|" +
    "_ZN?K?S[at].*|_ZN\\d+__gnu_cxx.*|(?:std|__gnu_cxx)::.*|.*@plt.*|.*\\.cold(?:\\.\\d+)?)\"?$",
);
// A call of a function whose address is in memory, as in the code of a thread of C++ that calls one.
const INDIRECT = /^(?:jmp|call)q?\s+(?:\*|\[|qword\b)/i;
// The sentence on code that is not optimized.
const UNOPTIMIZED = "These are instructions of a compiler without optimization, which keep variables on the stack: compile with `-O2`.";
// The sentence on code of a library.
const POSITION_INDEPENDENT = "These are instructions of a library, which loads the address of each variable from a table: compile without `-fPIC`, or by rustc with `-C relocation-model=static`.";
// A second name of a variable.
const ALIAS = /^[ \t]*\.(?:set|equ)[ \t]+([\w.$]+)[ \t]*,/gm;
// An address that the linker has not put in yet, and the sentence on it.
const UNLINKED = /(?<!\w)0x0\(%rip\)|\[rip\s*\+\s*0x0\]/i;
const NOT_LINKED = "These are instructions of an object file, which lacks the addresses of its variables: use `objdump -dr`, or that of the linked program.";
const BEGIN = "These are instructions without a test around them";
const TOO_LARGE = "a test has eight locations at most, and each thread of it 32 instructions";
const OF_GUESS = "The question is a guess: change it to yours.";
const OF_TRUE = "The question `true` asks nothing: look at the list of states, and ask what must not happen.";
// The question of a test of which none is guessed.
const TRUE = "exists (true)\n";
const OTHER_BEGIN = "write the initial values as `{ x=1; }`";
const OTHERWISE = "Write it by `MOV`, `ADD`, `CMP`, jumps forward, `MFENCE`, `XCHG` and `LOCK XADD`, or leave it out";

/**
 * Returns words with commas between them, and `and` before the last one.
 * @param {string[]} words
 * @returns {string}
 */
export function formatNames(words) {
  return words.length === 1 ? words[0] : `${words.slice(0, -1).join(", ")} and ${words.at(-1)}`;
}

/** Returns whether a line is the end of a function, and the next one has code that no jump reaches. */
function endsFunction(lines, at) {
  return RETURN.test(lines[at].code) && Boolean(lines[at + 1]?.code) && !LABELLED.test(lines[at + 1].code);
}

/**
 * Returns the lines of threads that a blank line or the end of a function separates; one, if there are too many, or if a jump would leave its thread.
 */
function splitAtBlankLines(lines) {
  const threads = [[]];
  for (const [at, line] of lines.entries()) {
    if (line.code) threads.at(-1).push(line);
    if ((!line.code && threads.at(-1).length) || endsFunction(lines, at)) threads.push([]);
  }
  const filled = threads.filter((it) => it.length);
  const isLeft = (thread) => {
    const code = thread.map((it) => it.code);
    const labels = new Set(code.map((it) => /^([.\w$@]+):/.exec(it)?.[1]));
    return code.some((it) => [...it.matchAll(/\bj\w+\s+([.\w$@]+)$/gi)].some(([, label]) => !labels.has(label)));
  };
  return filled.length > MAX_THREADS || filled.some(isLeft) ? [filled.flat()] : filled;
}

/** Returns whether the numbers of blocks are those of threads, from a first number on without a gap, in any order. */
function areNumbered(blocks, first) {
  const numbers = new Set(blocks.map((it) => it.number));
  return blocks.every((_, at) => numbers.has(first + at));
}

/**
 * Returns the threads of a text of instructions, as lists of lines; the `first` number that their names have; whether they are `named`; the
 * names of the functions that are `leftOut`; and the variables, as blocks. Without names a blank line begins the next thread.
 */
function readThreads(text) {
  const [front, ...others] = readBlocks(text);
  const hasCode = (it) => it.lines.some((line) => line.code);
  const all = others.filter(hasCode);
  const isThread = ({ name, lines }) => !NO_THREAD.test(name) && !(name.includes("_M_run") && lines.some((it) => INDIRECT.test(it.code)));
  const kept = all.filter(isThread);
  const [blocks, leftOut] = kept.length ? [kept, all.filter((it) => !kept.includes(it)).map((it) => it.name)] : [all, []];
  const variables = others.filter((it) => it.words.length);
  if (!blocks.length || hasCode(front)) {
    const threads = all.length ? [front, ...all].filter(hasCode).map((it) => it.lines) : splitAtBlankLines(front.lines);
    const isByReturn = front.lines.some((_, at) => endsFunction(front.lines, at));
    return { threads, isByReturn, names: all.map((it) => it.name), first: 0, leftOut: [], variables };
  }
  const first = areNumbered(blocks, 1) ? 1 : 0;
  const sorted = first || areNumbered(blocks, 0) ? [...blocks].sort((one, other) => one.number - other.number) : blocks;
  return { threads: sorted.map((it) => it.lines), names: sorted.map((it) => it.name), first, leftOut, variables };
}

/** Returns the name of the location of a variable, or of the part of it that begins so many bytes after its begin. */
function formatLocation(variable, offset) {
  const name = dropHash(variable).replace(/\W/g, "_") + (Number(offset) ? `_${Number(offset)}` : "");
  // The end of a long name says more than its begin.
  return isReserved(name) ? `${name}_` : name.length > MAX_NAME ? `_${name.slice(1 - MAX_NAME)}` : name;
}

/** Returns the code of a line in which variables have names of locations, and adds these to a map of names, and the index of the line to one of mentions. */
function rewriteVariables({ code: line, index }, locations, mentions) {
  const rewrite = (whole, before, variable, offset) => {
    if (REGISTER.test(variable)) return whole;
    const name = formatLocation(variable, offset);
    const key = Number(offset) ? `${variable}+${Number(offset)}` : variable;
    locations.set(key, name);
    mentions.set(key, Math.min(index, mentions.get(key) ?? index));
    return before + name;
  };
  const written = line.replace(/\[rip\s*\+\s*(\d+)\]/i, "+$1[rip]").replace(/(?<![-\w+.$])(\d+)\+([A-Za-z_][\w.$:]*)(?=\(%rip\))/, "$2+$1");
  return VARIABLES.reduce((code, pattern) => code.replace(pattern, rewrite), written);
}

/** Returns a part of a variable, as a key of a map of names, that is no word of the size that code accesses; undefined if there is none. */
function findPartOfWord(lines, locations) {
  const wide = new Set(lines.filter((it) => WIDE.test(it)).flatMap(findLocations).map((it) => it.name));
  const findVariable = (key) => key.replace(/\+\d+$/, "");
  const variables = new Set([...locations].filter(([, name]) => wide.has(name)).map(([key]) => findVariable(key)));
  return [...locations.keys()].find((it) => Number(/\+(\d+)$/.exec(it)?.[1] ?? 0) % (variables.has(findVariable(it)) ? 8 : 4));
}

/** Returns two variables whose locations would have one name; undefined if there are none. */
function findNamesakes(locations) {
  const variables = [...locations.keys()];
  const other = variables.find((it, at) => variables.findIndex((one) => locations.get(one) === locations.get(it)) < at);
  return other && [variables.find((it) => locations.get(it) === locations.get(other)), other];
}

/** Returns the words of variables that code names, each with the `name` of its location. */
function listWords(variables, lines) {
  const entries = variables.flatMap(({ name, words }) => words.map(({ offset, ...it }) => ({ name: formatLocation(name, offset), ...it })));
  const named = new Set(lines.flatMap((it) => it.match(/[\w.$]+/g) ?? []));
  return entries.filter((it) => named.has(it.name));
}

/** Returns the name of a location that code names, and whose initial value of 64 bits is no word; undefined if there is none. */
function findLargeWord(variables, lines) {
  return listWords(variables, lines).find(({ word, bytes }) => bytes === 8 && !(word >= 0 && word < WORD))?.name;
}

/** Returns the initial values other than 0 that variables have, if code names them, as entries of a block. */
function formatWords(variables, lines) {
  return listWords(variables, lines).filter((it) => it.word).map(({ name, word }) => `${name}=${((word % WORD) + WORD) % WORD};`).join(" ");
}

/** Returns whether lines are instructions, also if the page does not know all of them. */
function areInstructions(lines) {
  const known = lines.filter((it) => ASSEMBLY.test(it));
  const unknown = lines.filter((it) => !ASSEMBLY.test(it) && !OTHER_INSTRUCTION.test(it));
  if (!known.length || !unknown.every((it) => UNKNOWN_INSTRUCTION.test(it))) return false;
  return !unknown.length || (known.some((it) => it.includes(",")) && unknown.length * 2 <= lines.length);
}

/** Returns the index of the first mention of a location in a text; undefined if it has none. */
function findMention({ locations, mentions }, name) {
  return mentions.get([...locations].find(([, it]) => it === name)?.[0]);
}

/** Returns why the variables of a text are refused, a sentence, and the `index` of the place; or null. */
function refuseVariables(source) {
  const { threads, locations, mentions, variables } = source;
  const namesakes = findNamesakes(locations);
  if (namesakes) {
    return { words: `${BEGIN}, in which ${formatNames(namesakes.map((it) => `\`${it}\``))} would have one name.`, index: mentions.get(namesakes[1]) };
  }
  const large = findLargeWord(variables, threads.flat());
  const words = `${BEGIN}: the initial value of \`${large}\` does not fit into the 32 bits of a word of lw.`;
  return large ? { words, index: findMention(source, large) } : null;
}

/** Returns why a text in which a location has two names is refused, a sentence, and the `index` of the place; or null. */
function refuseAliases(text, { locations, mentions }) {
  const [, name] = [...text.matchAll(ALIAS)].find(([, it]) => locations.has(it)) ?? [];
  return name ? { words: `${BEGIN}, in which \`${name}\` is another name of a variable: write one name.`, index: mentions.get(name) } : null;
}

// Lines that no test has, and the sentence on the first of them.
const REFUSED_LINES = [
  [(it) => FRAME.test(it), () => UNOPTIMIZED],
  [(it) => ON_STACK.test(it), (code) => `${BEGIN}. \`${code}\` accesses the stack, which no test has.`],
  [(it) => OF_TABLE.test(it), () => POSITION_INDEPENDENT],
  [(it) => UNLINKED.test(it), () => NOT_LINKED],
];

/** Returns a function that returns the first line for which a test holds, and its `index` in the text; undefined if there is none. */
function makeFinder({ threads, places }) {
  const lines = threads.flatMap((it, thread) => it.map((code, at) => ({ code, index: places[thread][at] })));
  return (isSuch) => lines.find((it) => isSuch(it.code));
}

/**
 * Returns why the lines of a text of instructions are refused: `words`, a sentence, and the `index` of the place, if that is not the begin; or null. The
 * words are "" if they are no instructions.
 */
function refuseLines(source) {
  const { threads, names } = source;
  if (!areInstructions(threads.flat())) return { words: "" };
  const findLine = makeFinder(source);
  for (const [isRefused, explain] of REFUSED_LINES) {
    const line = findLine(isRefused);
    if (line) return { words: explain(line.code), index: line.index };
  }
  const parts = names.length ? `, as \`${names[0]}\` and \`${names[1]}\`` : "";
  if (threads.length > MAX_THREADS) return { words: `${BEGIN}, in ${threads.length} parts${parts}: a test has four threads at most.` };
  const long = threads.findIndex((it) => it.length > MAX_LINES);
  if (long >= 0) return { words: `${BEGIN}: a thread has 32 at most.`, index: source.places[long][0] };
  const address = findLine((it) => ADDRESS.test(it) && !IS_SUM.test(it));
  const words = `${BEGIN}: \`${address?.code}\` has an address in a register, and lw has locations by their names only.`;
  return address ? { words, index: address.index } : null;
}

/**
 * Returns a question in which threads have the numbers of a test, given the number of the first thread in it.
 * @param {string} question
 * @param {number} first
 * @returns {string}
 */
export function numberThreads(question, first) {
  const isShifted = first && !/\b(?:P|T)?0\s*:/.test(question);
  return isShifted ? question.replace(/\b([PT]?)([1-4])(?=\s*:)/g, (_, letter, digit) => `${letter}${digit - 1}`) : question;
}

/** Returns what is said of the threads of a text of instructions. */
function describeThreads({ threads, names, first, leftOut, front, isDisassembly, isByReturn }, locations) {
  const renamed = [...locations].filter(([from, to]) => from !== to);
  const others = leftOut.length > MAX_NAMED ? [`\`${leftOut[0]}\``, `${leftOut.length - 1} other functions`] : leftOut.map((it) => `\`${it}\``);
  return [
    threads.length > 1 && !names.length && (isByReturn ? "What follows a `ret` is the next thread." : "A blank line begins the next thread."),
    first && `\`${names[0]}\` is P0 here, since the first thread has the number 0.`,
    others.length && `${formatNames(others)} ${others.length === 1 ? "is" : "are"} left out.`,
    isDisassembly && !front && "A disassembly has no initial values: they are 0 here.",
    ...renamed.slice(0, 2).map(([from, to]) => `The location of \`${from}\` is \`${to}\`.`),
  ].filter(Boolean);
}

/** Returns whether a text has a line, other than a directive, or an end that is longer than those of instructions. */
function isTooLong(text) {
  const end = text.search(QUESTION);
  const isLong = (line) => line.length > LONGEST && !/^\s*\./.test(line);
  return (end >= 0 && text.length - end > LONGEST) || text.split("\n").some(isLong);
}

/** Returns a text of instructions in its parts, as a `Source`. */
function readSource(text) {
  const [front = ""] = FRONT.exec(text) ?? [];
  const index = text.search(QUESTION);
  const end = index < front.length ? text.length : index;
  const listing = rewriteListing(text.slice(front.length, end));
  const read = readThreads(listing.text);
  const [locations, mentions] = [new Map(), new Map()];
  const findPlace = ({ row, column }) => front.length + listing.begins[row] + column;
  const lines = read.threads.map((it) => rewriteReturns(nameAddresses(it)).map((line) => ({ code: line.code, index: findPlace(line) })));
  const threads = lines.map((it) => it.map((line) => rewriteVariables(line, locations, mentions)));
  const places = lines.map((it) => it.map((line) => line.index));
  const tail = numberThreads(text.slice(end), read.first);
  return { ...read, front, locations, mentions, threads, places, isDisassembly: listing.isDisassembly, tail, end };
}

/** Returns the text of a test of threads of lines. */
function formatTest(head, threads, tail) {
  const names = threads.map((_, thread) => `P${thread}`);
  const rows = Array.from({ length: Math.max(...threads.map((it) => it.length)) }, (_, row) => threads.map((it) => it[row] ?? ""));
  return `${head}\n${[names, ...rows].map((it) => ` ${it.join(" | ")} ;\n`).join("")}${tail}`;
}

/** Returns the front of a test with words at the begin. */
const formatHead = (front, words) => front || `X86 Mine\n{${words.replace(/.+/, " $& ")}}`;

/**
 * Returns a test that has the instructions of a text in lw's notation, whether its question asks for something, and what is said of it; null if lw would not
 * read it. `isLooping` says that its loops only wait, and that they are still to be left.
 */
function makeWritten({ front, threads, tail, locations, variables }) {
  if (findPartOfWord(threads.flat(), locations)) return null;
  const head = formatHead(front, formatWords(variables, threads.flat()));
  const bare = rewriteWhole(formatTest(head, threads, tail || TRUE)).text;
  const isLooping = !isRead(bare);
  if (isLooping && !(threads.length && isRead(leaveAllLoops(bare)))) return null;
  const guess = tail || isLooping ? null : guessQuestion(readTest(bare));
  const list = formatList(threads, /%e?[a-z]{2}\b|\$\w/.test(threads.flat().join("\n")), guess ?? "");
  const { text, words } = rewriteWhole(formatTest(head, threads, tail || `${list}${guess ?? TRUE}`));
  return { text, isAsked: guess !== null, isLooping, said: [words, !front && describeUnset(threads)] };
}

/**
 * Returns a test of what `lowerText` returns, and whether its question asks for something, as `makeWritten` does; or `why` there is none. A question that is
 * guessed asks only for the states in which all loops have ended.
 */
function formatLowered({ lines, own, block, isShown, tail, ends, say, isBegin, looping }, front) {
  const head = formatHead(front, block);
  const { text: bare } = rewriteWhole(formatTest(head, lines, tail || TRUE));
  const { text: limited, why } = tail ? limitTest(bare, ends, QUESTION) : { text: bare };
  if (why) return { why, isOfQuestion: true };
  if (!isRead(limited)) return { why: `: ${TOO_LARGE}` };
  const test = readTest(limited);
  if (!isBegin(test)) return { why: `: ${OTHER_BEGIN}` };
  if (tail) return { text: limited, said: say(true) };
  const guess = guessQuestion(test, looping, isShown);
  const markers = guess ? [] : ends.map((it) => it.name);
  const list = formatList(own, false, guess ?? "", isShown, markers);
  const { text } = rewriteWhole(formatTest(head, lines, `${list}${guess ?? TRUE}`));
  const { text: made } = guess ? limitTest(text, ends, QUESTION) : { text: addEnds(text, ends) };
  return isRead(made) ? { text: made, isAsked: guess !== null, said: say(guess !== null) } : { why: `: ${TOO_LARGE}` };
}

/**
 * Returns a test that does the same as the instructions of a text, as `makeWritten` does; or `why` there is none: the end of a sentence, and the `index` of
 * the place, if that is not the begin.
 */
function makeLowered(source) {
  try {
    const { part, ...lowered } = lowerText(source);
    if (part) return { why: `: \`${part}\` is in the middle of a word.`, index: source.mentions.get(part.replace(/\+0$/, "")) };
    const made = formatLowered(lowered, source.front);
    return made.isOfQuestion ? { ...made, index: source.end } : made;
  } catch (fault) {
    if (!(fault instanceof Refusal)) throw fault;
    const { message, step } = fault;
    // The label of a jump may be another one than that in the text.
    const code = step?.code.replace(/^(j(?!mp)\w+) .*/, "$1");
    const words = message ? `: ${message}` : `. ${OTHERWISE}`;
    return { why: step ? `, of which the page does not rewrite \`${code}\`${words}` : `: ${message}`, index: step?.index };
  }
}

/** Returns a test of the instructions of a text, or why there is none, as `makeLowered` does: in its own notation, if lw reads it. */
function makeTest(source) {
  const written = makeWritten(source);
  if (written && (source.tail || !written.isLooping)) return written;
  const lowered = makeLowered(source);
  return lowered.why && written ? written : lowered;
}

/**
 * Returns a sentence that says that a text has only instructions, with a question or without one, and proposes to make a test of them; or "". If it refuses
 * them, `place.at` is the place of the first one that is refused.
 * @param {FaultPlace} place
 * @returns {string}
 */
export function explainAssembly(place) {
  const text = blankPrompts(place.text);
  if (NAMES_ROW.test(text) || isTooLong(text)) return "";
  const processor = explainProcessor(text);
  if (processor) return processor;
  const source = readSource(text);
  const { threads, tail, locations } = source;
  const refused = refuseLines(source) ?? refuseVariables(source) ?? refuseAliases(text, source);
  const { text: made, isAsked, said, words, why, index } = refused ?? makeTest(source);
  if (index !== undefined) place.markMissing(index);
  if (words !== undefined) return words;
  if (why) return `${BEGIN}${why.replace(/[^.]$/, "$&.")}`;
  place.proposeChange(threads.length > 1 ? alignCells(made) : made, 0, text.length);
  place.change.title = threads.length > 1 ? `Make ${formatNames(threads.map((_, thread) => `P${thread}`))} of them` : "Make it P0 of a test";
  place.change.done = "Rewritten.";
  place.isOffer = true;
  const asked = !tail && (isAsked ? OF_GUESS : OF_TRUE);
  return [`${BEGIN}.`, ...describeThreads(source, locations), asked, ...said, describeNegative(text, made)].filter(Boolean).join(" ").trim();
}
