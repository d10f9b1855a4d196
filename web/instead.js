// Finds what lw has in place of an x86 instruction or a source statement that it lacks: what does the same, one after another. Not proved.

import { findCell, parseCells } from "./other_language.js";
import { isReserved, REGISTERS, WORD } from "./token_reader.js";

const LOCATION = "(?!E\\w\\w\\b|R\\w+\\b|[XYZ]?MM\\d|[A-D][XHL]\\b|[SD]IL?\\b|[BSI]PL?\\b|(?:TRUE|FALSE|NULL|NULLPTR)\\b)[A-Z_]\\w*";
// Patterns of instructions, in which INC, DEC and SUB are written as ADD; and what does the same, in which T is a register that the thread does not use.
const SAME = [
  [/^LOCK X?ADD (\[\w+\]),(\$?\w+)$/i, "MOV T,$2;LOCK XADD $1,T"],
  [/^ADD (\[\w+\]),(\$?\w+)$/i, "MOV T,$1;ADD T,$2;MOV $1,T"],
  [/^(ADD|CMP) (\w+),(\[\w+\])$/i, "MOV T,$3;$1 $2,T"],
  [/^CMP (\[\w+\]),(\$?\w+)$/i, "MOV T,$1;CMP T,$2"],
  [/^(ADD \w+,\$\d+)$/i, "$1"],
  [/^MOV (\$\w+),(E[A-D]X|E[SD]I|\[\w+\])$/i, "MOV $2,$1"],
  [/^MOV (\$\w+),(\w+)$/i, "MOV [$2],$1"],
  // Two locations, of which no word looks like a register or a constant.
  [new RegExp(`^MOV \\[(\\w+)\\],\\[?(${LOCATION})\\]?$`, "i"), "MOV T,[$2];MOV [$1],T"],
  [new RegExp(`^MOV (${LOCATION}),(${LOCATION})$`, "i"), "MOV T,[$2];MOV [$1],T"],
  [/^XADD (\[\w+\]),(E\w\w)$/i, "MOV T,$1;ADD $2,T;MOV $1,$2;MOV $2,T"],
  [/^XCHG (\[\w+\]),(\$?\d+)$/i, "MOV T,$2;XCHG $1,T"],
  [/^XCHG (\$?\d+),(\[\w+\])$/i, "MOV T,$1;XCHG $2,T"],
  [/^XCHG (E\w\w),(E\w\w)$/i, "MOV T,$1;MOV $1,$2;MOV $2,T"],
  // As tools/herd/rewrite.py: what changes no word, and what gives 0, with the flag that they leave.
  [/^LOCK (?:X?OR (\[\w+\]),\$?0|AND (\[\w+\]),\$?4294967295)$/i, "MOV T,$0;LOCK XADD $1$2,T"],
  [/^(?:(?:TEST|AND|OR) (E\w\w),(?:\1|\$?4294967295)|OR (E\w\w),\$?0)$/i, "CMP $1$2,$0"],
  [/^(?:(?:XOR|SUB) (E\w\w),\1|AND (E\w\w),\$?0)$/i, "MOV $1$2,$0;CMP $1$2,$0"],
];
const ADDING = /^(LOCK )?(INC|DEC|SUB) (\[?\w+\]?)(?:,\$?(\d+))?$/i;
// Instructions that are often written, and that nothing in lw does for all operands.
const NEVER = /^(?:LOCK )?(SUB|AND|X?OR|NOT|NEG|TEST|BT[SRC]?|SH[LR]|I?MUL|LEA|PUSH|POP|CALL|RET|J[GLAB]E?)\b/i;
/** Returns the sentences that say what a test may have in place of a compare-and-swap: an exchange, and what is done with the word that it returns. */
const explainCas = (exchange, compare) =>
  `lw has no compare-and-swap. \`${exchange}\` serves if the loser may write, too, as in \`TryLock\`; ${compare} the word that it returns. ` +
  "`tools/assume.py` answers tests with compare-and-swap.";
/** The sentences on compare-and-swap, by the language of a test. */
export const NO_CAS = { X86: explainCas("XCHG", "it sets no flag, so `CMP`"), SRC: explainCas("swap", "compare") };
// A source statement that sets a location or a register to a sum or a difference, without blanks.
const SUM = /^(\w+)(?::=(\w+)([+-])|([+-])=)(\w+)$/;

// A source statement that exchanges a constant, or adds it: the groups are what is before the constant, and it.
const EXCHANGE = /^(r\d\s*:=\s*(?:swap|fetchadd)\s+[A-Za-z_]\w*)\s+(\d+)$/;

/** Returns code with one blank between its words, in which INC, DEC and SUB are written as ADD. */
function rewriteAsAdd(code) {
  const short = code.replace(/\s+/g, " ").replace(/ ?, ?/g, ",");
  const rewriteSum = (_, lock, name, operand, number = 1) => {
    const by = /inc/i.test(name) ? Number(number) : WORD - Number(number);
    return `${lock ?? ""}ADD ${operand},$${by % WORD}`;
  };
  const rewriteStep = (_, name, number = 1) => `ADD ${REGISTERS.X86.includes(name) ? name : `[${name}]`},$${number}`;
  return short.replace(/^(\w+) ?(?:\+\+|\+= ?(\d+))$/, rewriteStep).replace(ADDING, rewriteSum);
}

/** Returns whether an operand of a source statement is a location. */
const isLocation = (operand) => /^(?!r\d+$)[A-Za-z_]/.test(operand);

/**
 * Returns source statements that do what one with `++`, `+=`, `-`, a location in a sum, a copied location or an exchanged constant does, with a free
 * register; none if it is no such statement, has words without a sign between them, or is a difference of registers.
 */
function listSumSteps(code, register) {
  const [, exchange, word] = EXCHANGE.exec(code) ?? [];
  if (exchange) return [`${register} := ${word}`, `${exchange.replace(/\s+/g, " ")} ${register}`];
  if (/\w\s+\w/.test(code)) return [];
  const short = code.replace(/\s/g, "").replace(/^([+-])\1(\w+)$|^(\w+)([+-])\4$/, "$2$3$1$4=1");
  const copied = /^(\w+):=(\w+)$/.exec(short)?.slice(1) ?? [];
  if (copied.length && copied.every((it) => isLocation(it) && !isReserved(it))) return [`${register} := ${copied[1]}`, `${copied[0]} := ${register}`];
  const [whole, to, left = to, minus, sign = minus, right] = SUM.exec(short) ?? [];
  if (whole === undefined || (sign === "-" && !/^\d+$/.test(right))) return [];
  const added = sign === "-" ? String((WORD - Number(right)) % WORD) : right;
  const [first, second] = isLocation(added) || /^\d/.test(left) ? [added, left] : [left, added];
  if (isLocation(second) || /^\d/.test(first)) return [];
  const [from, target] = [isLocation(first) ? register : first, isLocation(to) ? register : to];
  const [load, store] = [isLocation(first) && `${register} := ${first}`, isLocation(to) && `${to} := ${register}`];
  return [load, `${target} := ${from} + ${second}`, store].filter(Boolean);
}

/** Returns a register that a thread does not use and of which the text says nothing; undefined if there is none. */
export function findFreeRegister(text, thread, names) {
  const cells = text.split(";").map((row) => row.split("|")[thread] ?? "");
  const sites = text.match(new RegExp(`\\b${thread}\\s*:\\s*\\w+`, "g")) ?? [];
  const used = [...cells, ...sites].join(" ");
  return names.find((name) => !new RegExp(`\\b${name}\\b`, "i").test(used));
}

/**
 * Returns a row for each of some instructions of a thread, as broad as another row.
 * @param {string} row
 * @param {number} thread
 * @param {string[]} instructions
 * @returns {string}
 */
function makeRowsLike(row, thread, instructions) {
  const cells = row.replace(/^[^]*\n/, "").split("|");
  const put = (instruction) => (cell, at) => (at === thread ? `${` ${instruction}`.padEnd(cell.length - 1)} ` : " ".repeat(Math.max(1, cell.length)));
  return instructions.map((it) => `\n${cells.map(put(it)).join("|")};`).join("");
}

/**
 * Returns the text of a row's end and of the rows below it in which a thread has further instructions, and the index at which this ends: first the
 * blank cells of the thread are filled, and then there are rows that are put in.
 * @param {string} text
 * @param {{front: number, end: number}} row
 * @param {number} thread
 * @param {string[]} instructions
 * @returns {{rows: string, end: number}}
 */
export function makeRowsBelow(text, row, thread, instructions) {
  const below = parseCells(text).filter((it) => it.thread === thread && it.front > row.end);
  const isBlank = (it) => !text.slice(it.front, it.end).trim();
  const taken = below.findIndex((it) => !isBlank(it));
  const blank = below.slice(0, taken < 0 ? below.length : taken).slice(0, instructions.length);
  let [rows, end] = [";", row.end + 1];
  blank.forEach((cell, at) => {
    const [, lines, blanks] = /^([^]*\n)?(.*)$/.exec(text.slice(cell.front, cell.end));
    rows += `${text.slice(end, cell.front)}${lines ?? ""}${` ${instructions[at]}`.padEnd(blanks.length - 1)} `;
    end = cell.end;
  });
  const last = blank.length ? text.indexOf(";", end) + 1 : end;
  return { rows: `${rows}${text.slice(end, last)}${makeRowsLike(text.slice(row.front, row.end), thread, instructions.slice(blank.length))}`, end: last };
}

/**
 * Returns a sentence that says that a fence at a place orders nothing, or "" if there is none. It proposes to take the fence out, unless it has a label.
 * @param {FaultPlace} place
 * @returns {string}
 */
export function explainSpareFence(place) {
  const { text, index, token, before } = place;
  if (!/^[SL]FENCE$/i.test(token)) return "";
  if (before === "") {
    place.proposeChange(" ".repeat(token.length), index, index + token.length);
    place.change.title = `Take out ${token}`;
  }
  return `${token} orders nothing that x86-TSO does not order already: leave it out. Of the fences only MFENCE holds back a later load until earlier stores are in memory.`;
}

/** Returns what does the same as an instruction, one after another, with a free register; none if it is not known, or no register is free. */
function listSame(instruction, register) {
  const added = rewriteAsAdd(instruction);
  const [pattern, same] = SAME.find(([it]) => it.test(added)) ?? [];
  if (!pattern || (/\bT\b/.test(same) && !register)) return [];
  return added.replace(pattern, same.replace(/\bT\b/g, register)).split(";");
}

/** Returns whether some steps load a location first and store to it last, so that another thread may write between. */
function areLoadAndStore(steps) {
  const loaded = /^MOV \w+,\[(\w+)\]$|:= (\w+)$/.exec(steps[0]);
  return loaded !== null && steps.slice(2).some((it) => it.startsWith(`MOV [${loaded[1]}]`) || it.startsWith(`${loaded[2]} :=`));
}

/** Returns sentences on what some steps do: what a large number means, and that they are no single step; or "". */
function explainSteps(code, steps, isX86) {
  const number = /\b429496\d{4}\b/.exec(steps)?.[0];
  const meaning = number && !code.includes(number) ? ` \`${number}\` is -${WORD - Number(number)} in a word of 32 bits.` : "";
  return areLoadAndStore(steps) ? `${meaning} Another thread may write between them: \`${isX86 ? "LOCK XADD" : "fetchadd"}\` does it in one step.` : meaning;
}

/**
 * Returns what lw has in place of the instruction or the source statement at a fault's place, if it is known, and proposes it if it does the same; or "".
 * @param {FaultPlace} place
 * @returns {string}
 */
export function explainLacked(place) {
  const { text, index, isX86 } = place;
  const { begin, code } = findCell(text, index);
  const [, labels, instruction] = /^((?:\w+\s*:(?!=)\s*)*)([^]*)$/.exec(code);
  if (isX86 && /^(?:LOCK\s+)?(?:CMPXCHG|CAS)\b/i.test(instruction)) return NO_CAS.X86;
  const front = text.lastIndexOf(";", begin - 1) + 1;
  const end = text.indexOf(";", begin);
  const thread = text.slice(front, begin).split("|").length - 1;
  const register = findFreeRegister(text, thread, REGISTERS[isX86 ? "X86" : "SRC"]);
  const steps = isX86 ? listSame(instruction, register) : register ? listSumSteps(instruction, register) : [];
  const [, never] = (isX86 && !steps.length && NEVER.exec(instruction)) || [];
  if (never) return `lw has no \`${never}\`, and the page knows nothing that does the same here.`;
  if (!steps.length || end < 0) return "";
  const [first, ...others] = steps;
  const start = begin + labels.length;
  const rest = text.slice(start + instruction.length, end);
  const below = makeRowsBelow(text, { front, end }, thread, others);
  place.proposeChange(`${first}${rest}${below.rows}`, start, below.end);
  place.change.title = others.length ? `Put in these ${steps.length}` : `Change it to ${first}`;
  return `lw does this by ${steps.map((it) => `\`${it}\``).join(", then ")}.${explainSteps(instruction, steps, isX86)}`;
}
