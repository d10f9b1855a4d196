// Explains a fault of a text in a sentence for beginners: what is at its place, what lw expects there, and what may be meant, which a button puts
// into the text. The sentence depends on the fault's name and on the token at its place; lw's own line is shown beside it. Not proved.

import { explainAssembly, formatNames } from "./assembly.js";
import { makeChange } from "./change.js";
import { explainName, explainThreadNames } from "./headers.js";
import { explainFramed } from "./framed_texts.js";
import { rewriteEntries } from "./initial_values.js";
import { explainLacked, explainSpareFence, NO_CAS } from "./instead.js";
import { explainMissingQuestion } from "./missing_question.js";
import { findNearest } from "./nearest.js";
import { CONSTANT, findRewriting, NEGATIVE, rewriteWhole } from "./notation.js";
import { convertRegister, explainCode, explainOtherFirstWord, isAllIn, parseCells } from "./other_language.js";
import { explainComment, explainMissingFront, findOtherLanguage, isRead } from "./other_tools.js";
import { explainPaperTable, explainTableDoubt } from "./paper_tables.js";
import { explainPseudoCode } from "./pseudo_code.js";
import { explainDoubt, explainPseudoProgram } from "./pseudo_program.js";
import { explainRaggedRows } from "./ragged.js";
import { TEMPLATE } from "./template.js";
import { explainOutput } from "./tool_outputs.js";
import { readTest } from "./tests.js";
import { REGISTERS, WORD } from "./token_reader.js";
import { explainTypography } from "./typography.js";
import { beginsWithX86, blankComments, findToken } from "./tokens.js";
import { explainWaiting } from "./waiting.js";

const STATEMENTS =
  "A statement is `x := 1` or `x := r0` (a store), `r0 := x` (a load), `r0 := 1`, `r0 := r1 + 1`, `r0 := swap x r1`, `r0 := fetchadd x r1`, " +
  "`if r0 = 1 goto L` or `goto L`.";
const INSTRUCTIONS =
  "An instruction is `MOV [x],$1` or `MOV [x],EAX` (a store), `MOV EAX,[x]` (a load), `MOV EAX,$1`, `ADD EAX,$1`, `CMP EAX,$1`, `JE L`, `JNE L`, " +
  "`JMP L`, `MFENCE`, `XCHG [x],EAX` or `LOCK XADD [x],EAX`.";
const MNEMONICS = ["MOV", "ADD", "CMP", "JE", "JNE", "JMP", "MFENCE", "XCHG", "LOCK", "XADD"];
const MNEMONIC = new RegExp(`^(?:${MNEMONICS.join("|")})$`, "i");
const QUESTIONS = ["exists", "forall"];
const HEADS = ["SRC", "X86"];
// The labels before an instruction in its cell.
const LABELS = /^(?:\w+\s*:\s*)*$/;
const QUESTION_OR_LIST = /(?:(?:[~!]|\bnot\b)\s*)?\b(?:exists|forall|locations|filter)\b|\b(?:forbidden|never|allowed|required|always)\s*\(/i;
// Signs of print, and what lines around a test begin with.
const ODD = /^(?:[^\x00-\x7f]|[`><]|~~)/;
// An instruction with the first of its two operands.
const ONE_OPERAND = /\b(?:MOV|ADD|CMP|XCHG|XADD)\s+[\w[\]]+$/i;

/** Returns a token in words, to begin a sentence. */
function describeToken(token) {
  if (token === "") return "the end of the text";
  if (token === "\n") return "the end of the line";
  if (token === "`") return "a backquote";
  return `\`${token}\``;
}

/**
 * The place of a fault: its token, what is before it in its cell and after it in the text, the `change` of the text that is proposed, or null, `isOffer`,
 * whether the text is no test, of which the change makes one, and `at`, where the text is to be changed, or undefined if that is the fault's place.
 */
class FaultPlace {
  constructor(text, index) {
    const token = findToken(text, index);
    Object.assign(this, { text, index, token, tokenWords: describeToken(token), change: null, at: undefined, isOffer: false, isX86: beginsWithX86(text) });
    Object.assign(this, { before: findCellBefore(text, index), after: text.slice(index + token.length) });
  }

  /**
   * Proposes a text in place of the token, or of another part: sets `change`.
   * @param {string} text
   * @param {number} [begin]
   * @param {number} [end]
   */
  proposeChange(text, begin = this.index, end = this.index + this.token.length) {
    this.change = { begin, end, text };
  }

  /**
   * Sets `at`: the text is to be changed at an index, and not at the fault. Proposes the `mark` that is missing there, if it is known.
   * @param {number} index
   * @param {string} [mark]
   */
  markMissing(index, mark = "") {
    const front = this.text.slice(0, index).split("\n");
    this.at = { row: front.length, column: [...front.at(-1)].length + 1, index };
    if (mark) this.change = { begin: index, end: index, text: mark, title: `Put in the ${mark.trim()}` };
  }

  /** Proposes a text as `proposeChange` does. Returns the question that says so, to follow a sentence. */
  propose(text, ...part) {
    this.proposeChange(text, ...part);
    return ` Did you mean \`${text}\`?`;
  }

  /**
   * Proposes the nearest of some names in place of a word, by default the token. Returns the question that says so; "" if no name is near.
   * @param {string[]} names
   * @param {string} [word]
   * @param {number} [begin]
   * @returns {string}
   */
  proposeNearest(names, word = this.token, begin = this.index) {
    const name = findNearest(word, names);
    return name === null ? "" : this.propose(name, begin, begin + word.length);
  }

  /**
   * Proposes a register of the test's language in place of the token: of one of the other language that with its number. Returns the question that says
   * so, or "".
   * @returns {string}
   */
  proposeRegister() {
    const other = convertRegister(this.token, this.isX86);
    return other === null ? this.proposeNearest(REGISTERS[this.isX86 ? "X86" : "SRC"]) : this.propose(other);
  }
}

/** Returns the part of a cell that is before an index in it. */
function findCellBefore(text, index) {
  return text.slice(Math.max(...["|", ";"].map((it) => text.lastIndexOf(it, index - 1))) + 1, index).trim();
}

/**
 * Returns the text after `exists` or `forall` in the question at the end of a text, without comments; or null if there is none.
 * @param {string} text
 * @returns {string | null}
 */
function findQuestion(text) {
  const code = blankComments(text);
  const end = code.slice(code.lastIndexOf(";") + 1);
  return /^(?:\s*locations\s*\[[^\]]*\]|[^\][]*\])?\s*(?:~\s*)?(?:exists|forall)\b([^]*)$/.exec(end)?.[1] ?? null;
}

/**
 * Returns the word at the start of the question at the end of a text, if it is nearly `exists` or `forall`; or null.
 * @param {string} text
 * @returns {string | null}
 */
function findMisspeltQuestion(text) {
  const begin = /;\s*(?:~\s*)?([A-Za-z]+)\s*\([^;]*$/.exec(text)?.[1];
  return begin && findNearest(begin, QUESTIONS) ? begin : null;
}

/** Returns a sentence that says that the first word of the question is misspelt, and proposes the one that is meant; or "". `place.at` is then that word. */
function explainMisspeltQuestion(place) {
  const { text } = place;
  const misspelt = findMisspeltQuestion(text);
  if (!misspelt) return "";
  const index = text.lastIndexOf(misspelt);
  place.markMissing(index);
  return `lw has no question of the name \`${misspelt}\`.${place.proposeNearest(QUESTIONS, misspelt, index)}`;
}

/**
 * Returns words on the missing part of the question if a text ends in it; or "" if it is not known.
 * @param {FaultPlace} place
 * @returns {string}
 */
function explainMissingInQuestion(place) {
  const { text } = place;
  const misspelt = explainMisspeltQuestion(place);
  if (misspelt) return misspelt;
  const question = findQuestion(text);
  const end = blankComments(text).trimEnd().length;
  place.markMissing(end);
  const comment = text.lastIndexOf("(*");
  if (question?.includes("(*") && /^..\s*\w+\s*=/.test(text.slice(comment))) {
    place.markMissing(comment);
    place.proposeChange(text.slice(comment).replace(/\*(?=\s*[A-Za-z_])/g, ""), comment, text.length);
    place.change.title = "Take out the *";
    return "`(*` opens a comment: a location has no `*`.";
  }
  if (question === null) return explainMissingQuestion(place);
  if (question.includes("(*")) return "";
  const missing = question.split("(").length - question.split(")").length;
  if (!/(?:=\s*\w+|\)|\btrue|\bfalse)\s*$/.test(question)) return "The question is not complete. It is for instance `exists (x=1)`.";
  if (missing < 1) return "";
  place.markMissing(end, ")".repeat(missing));
  return `The question lacks ${missing === 1 ? "a `)`" : `${missing} \`)\``} at its end.`;
}

/** Returns a sentence that says that the test has no thread of the number at a place, or "" if that is not so. */
function explainMissingThread({ token, after, text }) {
  const names = /^[ \t]*P0\b[^;]*(?=;)/m.exec(text)?.[0].split("|").map((_, thread) => `\`P${thread}\``);
  if (!names || !/^\d+$/.test(token) || !/^\s*:/.test(after) || Number(token) < names.length) return "";
  return `There is no thread ${token}: the test has ${formatNames(names)}.`;
}

/**
 * Returns a sentence that says that a register at a place has no thread before it, and proposes the only one whose code has it, or names those that have it;
 * or "" if that is not so. A register of the other language is meant as that with its number, unless all code is in that language.
 */
function explainThreadlessRegister(place) {
  const { text, index, token, isX86 } = place;
  const own = isX86 ? token.toUpperCase() : token;
  const isOther = isAllIn(isX86 ? "SRC" : "X86", text);
  const converted = convertRegister(token, isX86);
  const name = REGISTERS[isX86 ? "X86" : "SRC"].includes(own) ? own : isOther && converted ? token : converted;
  if (!name || /:\s*$/.test(text.slice(0, index))) return "";
  const pattern = new RegExp(`\\b(?:${name}|${token})\\b`, "i");
  const threads = [...new Set(parseCells(text).flatMap(({ code, thread }) => (pattern.test(code) ? [thread] : [])))].sort();
  const sites = threads.map((it) => `${it}:${name}`);
  const begin = "A register has its thread before it outside of the code";
  if (sites.length === 1) return `${begin}.${place.propose(sites[0])}`;
  return sites.length ? `${begin}: \`${sites.join("` or `")}\`.` : `${begin}, as in \`0:${name}\`. No thread's code has ${name}.`;
}

/** Returns whether a text ends within the initial values. */
function isInBlock(text) {
  return text.lastIndexOf("{") > text.lastIndexOf("}");
}

/**
 * Returns a sentence on a question or initial values that are written as in another notation, and proposes lw's; or "".
 * @param {FaultPlace} place
 * @returns {string}
 */
function explainNotation(place) {
  const { token, text, index } = place;
  const front = text.slice(0, index);
  if (findQuestion(front) === null && !isInBlock(front)) return "";
  const negated = token === "!=" && /(?:\d\s*:\s*)?\[?\b\w+\]?\s*$/.exec(front);
  if (negated) return `A question has no \`!=\`: \`~x=1\` asks for another word than 1.${place.propose(`~${negated[0].trim()}=`, negated.index, index + token.length)}`;
  if (isInBlock(front)) return explainEntries(place);
  return /^[;.?,]$/.test(token) && !place.after.trim() ? `The question is the end of a test.${takeOut(place)}` : "";
}

/** Proposes to take the token out. Returns "". */
function takeOut(place) {
  place.proposeChange("");
  place.change.title = `Take out the ${place.token}`;
  return "";
}

/** Returns a sentence that says how initial values are written, and proposes those of a text; or "" if they are written so, or are something else. */
function explainEntries(place) {
  const { text, index } = place;
  const begin = text.lastIndexOf("{", index);
  const end = text.indexOf("}", begin) + 1;
  const block = end ? rewriteEntries(blankComments(text).slice(begin + 1, end - 1)) : null;
  if (block === null) return "";
  place.proposeChange(block, begin, end);
  place.change.title = "Rewrite them";
  return "Initial values have a `;` between them: `{ x=0; y=1; }`.";
}

/**
 * Returns words on the fault of a text's first word, if that is at the place; or "".
 * @param {FaultPlace} place
 * @returns {string}
 */
function explainFirstWord(place) {
  if (place.text.slice(0, place.index).trim()) return "";
  const meant = /86/.test(place.token) ? place.propose(HEADS[1]) : place.proposeNearest(HEADS);
  return meant && `A test begins with \`SRC\` or \`X86\`.${meant}`;
}

/** Returns a sentence that says that the initial values have no end, or "" if that is not so. `place.at` is then where they should end. */
function explainOpenBlock(place) {
  const code = blankComments(place.text);
  if (!isInBlock(code)) return "";
  const begin = code.lastIndexOf("{");
  const length = code.slice(begin).search(/^[ \t]*P0\b/m);
  if (length >= 0) place.markMissing(code.slice(0, begin + length).trimEnd().length);
  return "The initial values lack a `}` at their end.";
}

/**
 * Returns a sentence that says that the list of locations before the question has no end, or "" if that is not so. `place.at` is then where the list
 * should end, and `]` is proposed there.
 */
function explainOpenList(place) {
  const front = blankComments(place.text.slice(0, place.index)).trimEnd();
  if (!/^(?:exists|forall|~)$/.test(place.token) || !/\blocations\s*\[[^\]]*$/.test(front)) return "";
  place.markMissing(front.length, "]");
  return "The list of locations lacks a `]` at its end.";
}

/**
 * Returns a sentence that says what a constant is, if the one at a place is negative or no whole number; or "" if that is not so. Proposes the word that is
 * a negative number.
 */
function explainConstant(place) {
  const { text, index } = place;
  const [number] = (/(?:[=,$+]\s*|\b\d+)$/.test(text.slice(0, index)) && /^[-.]\s*\d+/.exec(text.slice(index))) || [];
  if (!number) return "";
  const word = WORD - Number(number.slice(1));
  return number[0] === "-" && word > 0 ? `${NEGATIVE}${place.propose(String(word % WORD), index, index + number.length)}` : CONSTANT;
}

/**
 * Returns the number of the last line of code before a fault if this line has no `;`; null if it has one, or a mark of a comment that is left open, if
 * there is no header yet, or if the question is misspelt. `row` is the number of the fault's line.
 * @param {Fault} fault
 * @param {string} text
 * @returns {number | null}
 */
function findLineWithoutEnd({ row }, text) {
  const front = blankComments(text).split("\n", row - 1).join("\n");
  const rows = front.split(QUESTION_OR_LIST)[0].trimEnd();
  const hasEnd = /;|\(\*|\*\)|^\s*(?:\(|\d\s*:)/.test(rows.slice(rows.lastIndexOf("\n") + 1));
  return !/^[ \t]*P0\b/m.test(rows) || hasEnd || findMisspeltQuestion(text) ? null : rows.split("\n").length;
}

/**
 * Returns a sentence that says that the last line of code before a fault has no `;` at its end, or "" if that is not so.
 * @param {Fault} fault
 * @param {string} text
 * @returns {string}
 */
export function explainMissingRowEnd(fault, text) {
  const line = findLineWithoutEnd(fault, text);
  return line === null ? "" : `Line ${line} has no \`;\` at its end: perhaps that is the fault. `;
}

/**
 * Returns the indices at which rows without `;` end, before their comments; none if the row before a fault has its `;`.
 * @param {Fault} fault
 * @param {string} text
 * @returns {number[]}
 */
function listMissingEnds(fault, text) {
  if (findLineWithoutEnd(fault, text) === null) return [];
  const code = blankComments(text).split(QUESTION_OR_LIST, 1)[0];
  const first = code.slice(0, code.search(/^[ \t]*P0\b/m)).trimEnd().split("\n").length;
  let begin = 0;
  return code.split("\n").flatMap((line, at) => {
    const end = begin + line.trimEnd().length;
    begin += line.length + 1;
    return at < first || !line.trim() || line.trimEnd().endsWith(";") ? [] : [end];
  });
}

/**
 * Returns a hint that rows have no `;` at their ends, if the text is read once each of them gets one; otherwise null. The hint is at the first such
 * row.
 * @param {Fault} fault
 * @param {string} text
 * @returns {Hint | null}
 */
function explainRowsWithoutEnd(fault, text) {
  const ends = listMissingEnds(fault, text);
  if (!ends.length) return null;
  const [begin, end] = [ends[0], ends.at(-1)];
  const withEnds = ends.map((it, at) => `${text.slice(ends[at - 1] ?? begin, it)} ;`).join("");
  const mended = text.slice(0, begin) + withEnds + text.slice(end);
  const { text: whole, words: others } = isRead(mended) ? { text: mended, words: "" } : rewriteWhole(mended);
  if (!isRead(whole)) return null;
  const front = text.slice(0, begin).split("\n");
  const further = ends.length === 2 ? "another one" : `${ends.length - 1} others`;
  const words = ends.length === 1 ? "This row has no `;` at its end." : `This row and ${further} have no \`;\` at their ends.`;
  const title = ends.length === 1 ? "Put in the ;" : `Put in ${ends.length} ;`;
  const at = { row: front.length, column: [...front.at(-1)].length + 1, index: begin };
  if (others) return { words: `${words} ${others}`, change: { ...makeChange(text, whole), title: "Rewrite all" }, at };
  return { words, change: { begin, end, text: withEnds, title }, at };
}

/** Returns a hint that a `;` is within a row, after `LOCK` or before the end of a cell, with the text without it, if rows are ragged by it; otherwise null. */
function explainSpareEnds(name, text) {
  const begin = text.search(/\bP0\b/);
  const rest = text.slice(begin);
  const mended = rest.replace(/\b(lock|rep)\s*;/gi, "$1").replace(/;(?=[ \t]*[|;])/g, "");
  if (!/^(?:Ragged|Unterminated)$/.test(name) || mended === rest || blankComments(text) !== text) return null;
  return { words: "Only a row's end has a `;`.", change: { begin, end: text.length, text: mended, title: "Take out the others" } };
}

/** Returns a sentence that says that a text is empty, and proposes a small test in its place; or "" if that is not so. */
function explainEmptyText(place) {
  if (place.text.trim()) return "";
  place.proposeChange(TEMPLATE, 0, place.text.length);
  place.change.title = "Begin with a small test";
  return "There is no text.";
}

/**
 * Returns words on the fault of the form of a statement of a source test.
 * @param {FaultPlace} place
 * @returns {string}
 */
function explainSourceForm(place) {
  const { token, before, index, text } = place;
  const isEnd = token === ";" || token === "|";
  const other = token === ":=" ? convertRegister(before, false) : null;
  if (other !== null) {
    const begin = text.lastIndexOf(before, index);
    return `\`${before}\` is a register of x86.${place.propose(other, begin, begin + before.length)}`;
  }
  if (/\b(?:cas|cmpxchg|compare_exchange\w*)\b/i.test(`${before} ${token}`)) return NO_CAS.SRC;
  if (isEnd) return `The statement before it is not complete. ${STATEMENTS}`;
  return token === "+" ? "A sum goes into a register first: `r0 := r1 + 1`, then `x := r0`." : STATEMENTS;
}

/**
 * Returns words on the fault of the form of an instruction.
 * @param {FaultPlace} place
 * @returns {string}
 */
function explainX86Form(place) {
  const { token, before, index, text } = place;
  if (/^xadd$/i.test(token) && before === "") return "Write `LOCK XADD`.";
  if (token === "=" || token === ":=") return "The operands of an instruction have a comma between them: `MOV [x],$1`.";
  if (token === "[" && before.includes("[")) return "An instruction has one location at most: load it into a register first.";
  if (ONE_OPERAND.test(before) && /^[[$\w]/.test(token)) {
    const rest = text.slice(index).split(/[|;\n]/, 1)[0].trimEnd();
    const proposal = place.propose(`${before},${rest}`, text.lastIndexOf(before, index), index + rest.length);
    return `The operands of an instruction have a comma between them.${proposal}`;
  }
  if (token === "[") return "Only `MOV`, `XCHG` and `LOCK XADD` take a location.";
  if (token === "$") return "What is written comes first: `MOV [x],$1`.";
  if (token === ";" || token === "|") return `The instruction before it is not complete. ${INSTRUCTIONS}`;
  if (/\block$/i.test(before)) return `\`LOCK\` comes before \`XADD\` or \`XCHG\`.${place.proposeNearest(["XADD", "XCHG"])}`;
  if (!LABELS.test(before) || MNEMONIC.test(token)) return INSTRUCTIONS;
  const spare = explainSpareFence(place);
  if (spare) return spare;
  return `lw has no instruction of this name.${place.proposeNearest(MNEMONICS)} ${INSTRUCTIONS}`;
}

/** Proposes brackets around a name, in an instruction that takes a location there. Returns the question that says so, or "". */
function proposeBrackets(place) {
  const { isX86, before, token, after } = place;
  const isLocation = isX86 && /\b(?:MOV|XCHG|XADD)(?:\s+\w+\s*,)?$/i.test(before) && /^(?!r\d)[A-Za-z_]\w*$/i.test(token) && /^\s*[,;|\n]/.test(after);
  return isLocation ? place.propose(`[${token}]`) : "";
}

const FILTER = "lw has no `filter`: its condition is a part of the question, as in `exists ((1:EAX=1) /\\ (x=1))`.";
// Of each fault, by its kind and name, what is wrong and what is expected. `tokenWords` is the token in words.
const SENTENCES = {
  "text NotUtf8": () => "The text is not UTF-8 from here on.",
  "text TooLong": () => "The text is too long: it may have 65,536 bytes.",
  "text Unterminated": (place) =>
    explainEmptyText(place) ||
    explainOpenBlock(place) ||
    explainMissingInQuestion(place) ||
    "The text ends too early. The last row may lack its `;`, a comment its `*)`, or the test its question, as `exists (x=1)`.",
  "text Unexpected": (place) =>
    explainAssembly(place) ||
    explainTableDoubt(place.text) ||
    explainDoubt(place.text) ||
    explainComment(place) ||
    explainOpenBlock(place) ||
    explainName(place) ||
    explainThreadNames(place) ||
    explainMissingFront(place) ||
    explainLacked(place) ||
    explainConstant(place) ||
    explainMisspeltQuestion(place) ||
    explainNotation(place) ||
    explainFirstWord(place) ||
    `${place.tokenWords} is not expected here. A test is \`SRC\` or \`X86\` and a name, the initial values in \`{ }\`, the row \`P0 | P1 ;\`, ` +
    "the rows of code, and a question.",
  "text Number": ({ tokenWords }) => `${tokenWords} is no constant. ${CONSTANT} In base 16 it begins with \`0x\`.`,
  "text Name": (place) =>
    explainOpenList(place) ||
    explainMissingThread(place) ||
    (convertRegister(place.token, place.isX86) !== null && explainOtherFirstWord(place)) ||
    explainThreadlessRegister(place) ||
    `${place.tokenWords} can't be a name here. A question names a location, as \`x=1\`, or a register with its thread, as ` +
    `\`${place.isX86 ? "0:EAX=1" : "0:r0=1"}\`.${place.proposeRegister()}`,
  "text Ragged": () => "This row has too few or too many cells: it needs one for each thread, with `|` between them and `;` only at its end. A cell may be empty.",
  "text TooManyThreads": () => "A test has four threads at most.",
  "text TooManyRows": () => "A test has 64 rows at most.",
  "text TooManyLocations": () => "A test has eight locations at most.",
  "text Condition": (place) =>
    (place.token === "filter" && FILTER) ||
    explainOpenList(place) ||
    explainNotation(place) ||
    `${place.tokenWords} does not fit into the question. It is \`exists\`, \`~exists\` or \`forall\`, and then for instance \`(x=1 /\\ 0:r0=0)\`, ` +
    "with `/\\` (and), `\\/` (or) and `~` (not).",
  "cell Form": (place) =>
    `${place.tokenWords} does not fit here. ${explainLacked(place) || explainCode(place) || (place.isX86 ? explainX86Form(place) : explainSourceForm(place))}`,
  "cell Register": (place) =>
    explainCode(place) ||
    explainLacked(place) ||
    `${place.tokenWords} is no register, and one is needed here: ${place.isX86 ? "`EAX`, `EBX`, `ECX`, `EDX`, `ESI` or `EDI`" : "`r0` to `r5`"}.` +
    `${place.proposeRegister() || proposeBrackets(place)} ` +
    (place.isX86 ? "A location has brackets: `[x]`." : "A location is loaded into a register first: `r0 := y`."),
  "cell LabelMissing": (place) =>
    `The thread has no label ${place.tokenWords} to jump to.` +
    place.proposeNearest([...place.text.matchAll(/([A-Za-z_]\w*)\s*:(?!=)/g)].map(([, label]) => label)),
  "cell LabelTwice": ({ tokenWords }) => `The thread has the label ${tokenWords} already.`,
  "cell Backward": (place) =>
    explainWaiting(place) || `The jump to ${place.tokenWords} goes back. Jumps go forward only: a loop is written out as often as it is tried.`,
  "cell TooMany": ({ isX86 }) =>
    `A thread has ${isX86 ? "32 instructions" : "16 statements"} at most, and a test eight locations.`,
};

/**
 * Returns the explanation of a text's fault, a `Hint`: `words`, a sentence in which code is between backquotes, or null if the fault is not known;
 * `more` words on what else can be done, the `document` on it and the `command` to call, if there are some; the proposed `change`, a text with the
 * `begin` and the `end` of the part that it replaces, and a `title` if the text says little, or null; `isOffer`, if the text is no test, and the change
 * makes one of it; `also` another one, if two are likely; and where the text is to be changed (`at`), if that is not the place of the fault.
 * @param {Fault} fault
 * @param {string} text
 * @returns {{words: string | null, more?: string, document?: string, command?: string, isOffer?: boolean, also?: object, at?: object,
 *   change: {begin: number, end: number, text: string, title?: string} | null}}
 */
export function explainFault(fault, text) {
  const plain = explainPlain(fault, text);
  const isWhole = plain.isOffer || fault.kind !== "text" || fault.name !== "Unexpected";
  return (isWhole ? null : explainFramed(text, explainBegin)) ?? plain;
}

/** Returns the explanation of a text that begins as no test. */
function explainBegin(text) {
  return explainPlain({ kind: "text", number: 4, name: "Unexpected", row: 1, column: 1, index: text.search(/\S/) }, text);
}

/** Returns the explanation of a text's fault, as explainFault does, if the text has nothing around it. */
function explainPlain(fault, text) {
  const { kind, name, index } = fault;
  const place = new FaultPlace(text, index);
  const typography = ODD.test(place.token) || ODD.test(text[0]) ? explainTypography(place) : "";
  if (typography) return { words: typography, change: place.change };
  const output = kind === "text" ? explainOutput(text) : null;
  if (output) return (output.isPromela && explainPseudoProgram(text)) || output;
  const table = kind === "text" ? explainPaperTable(text) : null;
  if (table) return table;
  const rewriting = name === "TooManyRows" ? null : findRewriting(text, index);
  const other = kind === "text" && findOtherLanguage(place);
  const choice = rewriting?.also ? " The other button makes x86 code of the rows, which may have more states." : "";
  if (rewriting?.isWhole && (rewriting.count > 1 || other)) return { ...rewriting, words: rewriting.words + choice };
  if (other && place.change) return { ...other, change: place.change, isOffer: true };
  const program = kind === "text" ? explainPseudoProgram(text) : null;
  const pseudo = program?.isAsked ? program : kind === "text" ? explainPseudoCode(text) ?? program : null;
  if (pseudo && !(pseudo.isCall && other)) return pseudo;
  if (other) return { ...other, change: other.change ?? null };
  const rows = explainSpareEnds(name, text) ?? explainRowsWithoutEnd(fault, text) ?? (/^(?:Ragged|Form|Unexpected)$/.test(name) ? explainRaggedRows(text) : null);
  if (rows) return rows;
  const words = SENTENCES[`${kind} ${name}`]?.(place) ?? null;
  if (rewriting && (rewriting.count !== 1 || !place.change || rewriting.isBetter)) return rewriting;
  return { words, change: place.change, at: place.at, isOffer: place.isOffer };
}
