// Finds what a test has of the notation of other assemblers and tools, and rewrites all of it in lw's: AT&T's order, registers of 64 bits, sizes,
// locations without brackets, types, `=` in source statements, and words of the question. What may mean something else is left to the reader, with the
// reason. Not proved.
//
// An `Operand` has its `kind` (register, number, location or word), its text as lw writes it (`written`), and its `bits`, if it says so; or `why` it can't be
// rewritten. An `Instruction` has its `labels`, its `lock`, its `name`, its `bits`, if it says so, and its `operands`. An `Edit` has the `text` that is
// put in, the `begin` and the `end` of what it replaces (`from`), and the `kinds` of what is changed, of which SENTENCES has one for each.

import { alignCells } from "./aligned.js";
import { makeChange } from "./change.js";
import { rewriteEntries } from "./initial_values.js";
import { findNearest } from "./nearest.js";
import { convertRegister, convertToX86, isAllIn, parseCells, SAID_OF_ALL } from "./other_language.js";
import { explainCall, isRead, NO_TYPES, rewriteTypes } from "./other_tools.js";
import { isReserved, REGISTERS, WORD } from "./token_reader.js";
import { blankComments, findFirstWord } from "./tokens.js";

const NAMES = ["MOV", "ADD", "SUB", "CMP", "XCHG", "XADD", "INC", "DEC", "TEST", "AND", "OR", "XOR"];
// Those of them that lw lacks, and that do what another instruction does if they have one register, twice.
const BITWISE = ["TEST", "AND", "OR", "XOR"];
const JUMPS = { JZ: "JE", JNZ: "JNE" };
const BITS = { B: 8, W: 16, L: 32, Q: 64, BYTE: 8, WORD: 16, DWORD: 32, QWORD: 64 };
const INSTRUCTION = /^((?:\w+\s*:\s*)*)(lock\s+)?([a-z]+)(?:\s+([^]*))?$/i;
const REGISTER = /^%?([re]?)([abcd]x|[sd]i)$/i;
const LABELS = "((?:\\w+\\s*:\\s*)*)";
// An instruction without effect; and one that is used as a fence, since it changes nothing on the stack.
const IDLE = new RegExp(`^${LABELS}(?:pause|(?:rep\\s+)?nop)$`, "i");
const STACK = "(?:(?:[dq]word\\s+ptr\\s*)?\\[\\s*[re]sp\\s*(?:[+-]\\s*\\w+\\s*)?\\]\\s*,\\s*\\$?0|\\$0\\s*,\\s*-?\\w*\\(\\s*%?[re]sp\\s*\\))";
const STACK_FENCE = new RegExp(`^${LABELS}lock\\s+(?:add|x?or|sub)[lq]?\\s+${STACK}$`, "i");
// Registers that lw lacks: others of 64 and 32 bits, and parts of 8 bits.
const LACKED = /^%?(?:[re]?[bsi]p|r(?:[89]|1[0-5])[dwb]?|[abcd][hl]|[sd]il|[xyz]?mm\d+)$/i;
const NUMBER = /^([$#]?)(-?)\s*(0x[\da-f]+|\d+)$/i;
const SIZE = /^(byte|word|dword|qword)(?:\s+ptr)?(?=[\s[])\s*/i;
// What says that an address is relative to the next instruction, which a location is not.
const RELATIVE = /(?<!\s)\s*[([]%?rip[)\]]$|(?<=^\[)\s*(?:rel\s+|rip\s*\+)/gi;
const LOCATION = /^([[(]?)\s*([A-Za-z_]\w*)\s*[\])]?$/;
// A register in brackets or in parentheses.
const ADDRESS = /[[(][^\])]*(?<!\w)%?(?:[re](?:[abcd]x|[sd]i|[sb]p)|r\d+)(?!\w)/i;
/** Returns the word that is a negative number, given the number without its sign. */
const negate = (digits) => (WORD - Number(digits)) % WORD;
// How other tools write the parts of a question, and how lw does: a text, or a function of what is written.
const IN_QUESTION = [
  ["quantifier", /^\s*(not\s+exists|!\s*exists|forbidden|never)\b/gi, "~exists"], ["quantifier", /^\s*(allowed)\b/gi, "exists"],
  ["quantifier", /^\s*(required|always)\b/gi, "forall"],
  ["quantifier", /^\s*(E[Xx][Ii][Ss][Tt][Ss]|F[Oo][Rr][Aa][Ll][Ll])\b/g, (it) => it.toLowerCase()],
  ["quantifier", /()(?=\(|\d\s*:)(?<=^\s*)/g, "exists "],
  ["connective", /(&&?|\band\b)/gi, "/\\"], ["connective", /(,)/g, " /\\"], ["connective", /(\|\|?|\bor\b)/gi, "\\/"],
  ["connective", /(!)(?![=\s]|\s*exists)/g, "~"], ["equals", /(==)/g, "="],
  ["unequal", /((?:\d\s*:\s*)?\[?\b\w+\]?\s*!=\s*)/g, (it) => `~${it.split("!=").map((part) => part.trim()).join("=")}`],
  ["negative", /=\s*(-\s*\d+)\b/g, (it) => String(negate(it.slice(1)))],
];
const SITE = /\b(P?)(\d)\s*:\s*(%?[A-Za-z]\w*)(\s*=\s*&?[A-Za-z]\w*)?/g;
// A register without a thread before it.
const BARE = /(?<![\w%$&])(?<![:=]\s*)%?(?:[re](?:[abcd]x|[sd]i)|r\d+)\b(?!\s*[\]:])/gi;
// How a statement begins that sets a location or a register by `=`, and how a branch compares by `==`.
const SET = /^((?:\w+\s*:(?!=)\s*)*(?:\w+|\[\s*\w+\s*\])\s*)=(?!=)/;
const FENCE = /^((?:\w+\s*:(?!=)\s*)*)((?:[mls]?fence|smp_mb|atomic_thread_fence|fence_seq_cst)\b(?:\s*\([^)]*\))?)$/i;
const BRANCH = /^((?:\w+\s*:\s*)*)if\s*\(\s*(r\d)\s*(==?|!=)\s*(\w+)\s*\)\s*goto\s+(\w+)$/;
const COMPARED = /^((?:\w+\s*:\s*)*if\b[^=]*)==/;
// A negative number after an operator, or one that is subtracted from a register.
const MINUS = /-(?<=(?:([=+])|\br\d)\s*-)\s*(\d+)\b/g;
// A store, a load and a fence in C.
const IN_C = new RegExp(`^${LABELS}(?:WRITE_ONCE\\s*\\(\\s*[*&]?(\\w+)\\s*,\\s*(\\w+)\\s*\\)|(?:int\\s+)?\\*?(\\w+)\\s*=\\s*(?:READ_ONCE\\s*\\(\\s*[*&]?(\\w+)\\s*\\)|\\*?(\\w+))|smp_mb\\(\\))$`);
// A call, as of a program.
const CALL = /^(?:[\w\s*]+=\s*)?[a-z]\w*\(/i;

/** The sentence on negative numbers. */
export const NEGATIVE = "lw has no negative numbers: in a word of 32 bits -1 is 4294967295.";
// What is said of each kind of edit, in this order.
const SENTENCES = {
  heading: "An x86 test begins with `X86`.",
  first: SAID_OF_ALL.SRC,
  order: "This is AT&T's order, with the destination last: lw has the destination first.",
  c: "This is C. As x86 code a plain or relaxed store is `MOV [x],$1` (a `seq_cst` store is an `XCHG`), a load `MOV EAX,[x]`, and a fence `MFENCE`.",
  register: "Registers are `EAX` to `EDX`, `ESI` and `EDI`, of 32 bits.",
  source: "Registers are `r0` to `r5`.",
  percent: "A register has no `%` before it.",
  own: "In code a register has no thread before it: it is the thread's own.",
  owner: "A register has its thread before it outside of the code.",
  size: "lw writes no sizes: each word has 32 bits.",
  brackets: "A location has brackets: `[x]`.",
  number: "A constant has no `#` before it.",
  negative: NEGATIVE,
  jump: "Jumps are `JE`, `JNE` and `JMP`.",
  compare: "`TEST`, `AND` and `OR` of a register with itself compare it with 0.",
  clear: "`XOR` of a register with itself sets it to 0.",
  idle: "`PAUSE` and `NOP` change no state.",
  stack: "A locked instruction on the stack is a fence.",
  sum: "lw has sums only.",
  entries: "Initial values have a `;` between them: `{ x=0; y=1; }`.",
  types: NO_TYPES,
  set: "A statement sets a location or a register by `:=`.",
  compared: "A branch compares with one `=`.",
  branch: "A branch is `if r0 = 1 goto L`.",
  bare: "In a source test a location has no brackets.",
  fence: "A source test has no fences: the compiler adds them.",
  list: "The list of locations has a `;` after each.",
  quantifier: "A question begins with `exists`, `~exists` or `forall`.",
  thread: "The thread of a register is a number, without `P`.",
  connective: "In a question, and is `/\\`, or is `\\/`, not is `~`.",
  equals: "A question compares with one `=`.",
  unequal: "A question has no `!=`: `~x=1` asks for another word than 1.",
};
const ORDER_IS_OPEN = "A suffix is usual in AT&T's order, with the destination last; nothing else here says so. lw has no suffixes, and the destination first.";
const SIZES_DIFFER = "An instruction has operands of 32 bits or of 64: all words and registers of lw have 32.";
/** What a constant is. */
export const CONSTANT = "A constant is a whole number from 0 to 4294967295.";
const MAY_BE_LARGE = "A result of 64 bits may not fit into the 32 bits of a word of lw.";
// The kinds of edits of which more is said here than of their faults in general.
const BETTER = ["first", "clear", "stack", "register", "source", "negative", "unequal"];
// The cells of the largest test.
const MAX_CELLS = 256;
// How many changes are named at most, and how many letters each has.
const [MAX_NAMED, MAX_LETTERS] = [2, 32];

/** Returns a sentence that says that a register is none of lw. */
function explainLackedRegister(register) {
  return `\`${register}\` is no register of lw: these are \`EAX\` to \`EDX\`, \`ESI\` and \`EDI\`, of 32 bits.`;
}

/** Returns a sentence that says that a part of a test is an address in a register. */
function explainAddress(part) {
  return `\`${part}\` is an address in a register: lw has locations by their names only, as \`[x]\`.`;
}

/** Returns a sentence that says that a thread's code names a register of another thread. */
function explainOtherThread(site, other, thread) {
  return `\`${site}\` is a register of P${other}: the code of P${thread} names its own registers only, and shares locations.`;
}

/**
 * Returns an operand of an instruction of a thread. `isLocation` says whether a name without brackets is that of a location, and `rename` is as
 * `makeX86Renaming` returns it.
 * @param {string} operand
 * @param {number} thread
 * @param {{isLocation: function(string): boolean, rename: function(number, string): string}} names
 * @returns {Operand}
 */
function parseOperand(operand, thread, { isLocation, rename }) {
  const [prefix, owner] = /^(\d)\s*:\s*(?=%?\w)/.exec(operand) ?? [];
  if (prefix) {
    const rest = parseOperand(operand.slice(prefix.length), thread, { isLocation, rename });
    if (rest.kind !== "register") return { kind: "word", written: operand, kinds: [] };
    return Number(owner) === thread ? { ...rest, kinds: [...rest.kinds, "own"] } : { why: explainOtherThread(operand, owner, thread) };
  }
  const [front, size] = SIZE.exec(operand) ?? [""];
  const given = operand.slice(front.length);
  const [, wide, letters] = (!size && REGISTER.exec(given)) || [];
  if (letters && wide) {
    const isWide = /r/i.test(wide);
    const kinds = [isWide && "register", given.startsWith("%") && "percent"].filter(Boolean);
    return { kind: "register", written: `E${letters.toUpperCase()}`, bits: isWide ? 64 : 32, kinds };
  }
  if (letters) return { why: explainLackedRegister(given) };
  if (!size && LACKED.test(given)) {
    const written = rename(thread, given.replace("%", ""));
    return LACKED.test(written) ? { why: explainLackedRegister(given) } : { kind: "register", written, bits: /d$/i.test(given) ? 32 : 64, kinds: ["register"] };
  }
  const [, mark, sign, digits] = (!size && NUMBER.exec(given)) || [];
  if (digits && !(sign && Number(digits) >= WORD)) {
    const value = sign ? negate(digits) : Number(digits);
    const kinds = [mark === "#" && "number", sign && "negative"].filter(Boolean);
    return { kind: "number", written: kinds.length ? `${mark && "$"}${sign ? value : digits}` : given, value, kinds };
  }
  if (ADDRESS.test(given)) return { why: explainAddress(operand) };
  if (/^\$[A-Za-z_]/.test(given)) return { why: `\`${given}\` is an address: a location is \`[x]\`, and words are numbers.` };
  if (/^\$?-/.test(given)) return { why: CONSTANT };
  const text = given.replace(RELATIVE, "");
  const [, open, name] = LOCATION.exec(text) ?? [];
  // A word that may be a misspelt register is left as it is, and so is what is no operand.
  if (!name || isReserved(name) || (text === operand && !open && !isLocation(name))) return { kind: "word", written: operand, kinds: [] };
  const kinds = [size && "size", (open !== "[" || text !== given) && "brackets"].filter(Boolean);
  return { kind: "location", written: `[${name}]`, bits: size && BITS[size.toUpperCase()], kinds, isAtt: given.includes("(") };
}

/**
 * Returns whether a branch may read the flag that an instruction of some cells leaves, as find_read_flags of tools/herd/flow.py; after a jump it is taken to be
 * so if any branch follows.
 */
function canFlagBeRead(cells, at) {
  const names = cells.slice(at + 1).filter((it) => it.thread === cells[at].thread).map(({ code }) => INSTRUCTION.exec(code)?.[3].toUpperCase() ?? "");
  const isBranch = (it) => /^(?:J(?!MP)|CMOV|SET)/.test(it);
  const next = names.findIndex((it) => isBranch(it) || /^(?:JMP$|CMP|X?ADD|SUB|INC|DEC|TEST|AND|X?OR)/.test(it));
  return next >= 0 && (isBranch(names[next]) || (names[next] === "JMP" && names.slice(next).some(isBranch)));
}

/** Returns the instruction that compilers make of a statement in C that stores, loads or is a fence, with its labels; or null. */
function convertFromC(code) {
  const [whole, labels, stored, word, to, loaded, from] = IN_C.exec(code) ?? [];
  if (whole === undefined) return null;
  const [target, value] = [stored ?? to, word ?? loaded ?? from];
  if (!target) return `${labels}MFENCE`;
  const isOdd = [target, value].some((it) => isReserved(it) && convertRegister(it, true) === null);
  const made = isOdd ? null : convertToX86(`${target} := ${value}`);
  return made && labels + made;
}

/**
 * Returns the instruction of a cell, or null if it is none that is rewritten here. `isFlagRead` says that a later branch may read its flag.
 * @param {CodeCell} cell
 * @param {object} names as of parseOperand
 * @param {boolean} isFlagRead
 * @returns {Instruction | null}
 */
function parseInstruction({ code, thread }, names, isFlagRead) {
  const same = convertFromC(code);
  if (same) return { code, labels: "", lock: "", name: "", operands: [], same, kinds: ["c"], thread };
  const [, idle] = IDLE.exec(code) ?? [];
  if (idle !== undefined) return { code, labels: idle, lock: "", name: "", operands: [], rest: "", kinds: ["idle"], thread };
  const [, front] = STACK_FENCE.exec(code) ?? [];
  if (front !== undefined && !isFlagRead) return { code, labels: front, lock: "", name: "MFENCE", operands: [], rest: "", kinds: ["stack"], thread };
  const [, labels, lock = "", word, rest = ""] = INSTRUCTION.exec(code) ?? [];
  const upper = word?.toUpperCase() ?? "";
  if (Object.hasOwn(JUMPS, upper)) return { code, labels, lock, name: JUMPS[upper], operands: [], rest, kinds: ["jump"], thread };
  const name = [upper, upper.slice(0, -1)].find((it) => NAMES.includes(it));
  if (!name || (name !== upper && !BITS[upper.at(-1)])) return null;
  const operands = rest.split(",").map((it) => parseOperand(it.trim(), thread, names));
  const bits = name === upper ? undefined : BITS[upper.at(-1)];
  const instruction = { code, labels, lock, name, bits, operands, kinds: bits ? ["size"] : [], thread };
  if (!BITWISE.includes(name)) return instruction;
  const [one, other] = operands;
  const isTwice = one.kind === "register" && one.written === other?.written;
  if (isTwice && !lock && name !== "XOR") return { ...instruction, same: `CMP ${one.written},$0`, kinds: ["compare"] };
  if (isTwice && !lock && !isFlagRead) return { ...instruction, same: `MOV ${one.written},$0`, kinds: ["clear"] };
  return isTwice || (lock && operands.some((it) => it.kind === "location")) ? instruction : null;
}

/** Returns whether a number is the operand of an instruction at an index, of two. */
const hasNumberAt = (index) => ({ operands }) => operands.length === 2 && operands[index].kind === "number";

/** Returns whether an instruction loads in lw's order a register that no earlier one of its thread has set in AT&T's: so its order is lw's. */
function isLoadInLwOrder({ operands: [first, second], thread }, index, instructions) {
  if (first?.kind !== "register" || second?.kind !== "location" || second.isAtt) return false;
  const isSet = (it) => it.thread === thread && it.operands[1]?.written === first.written;
  return !instructions.slice(0, index).some(isSet);
}

/** Returns what an instruction has that only AT&T's notation has, or undefined. */
function findAttMark({ code, operands }) {
  if (operands.some((it) => it.isAtt) || /\(\s*%/.test(code)) return /\([^)]*\)?/.exec(code)[0];
  return /^[^[]*%[^[]*$/.test(code) ? /%\w*/.exec(code)[0] : undefined;
}

/** Returns what an instruction has that AT&T's notation has not, or undefined: a location in brackets, a size, a number last, or a register without `%`. */
function findIntelMark(instruction) {
  const { code, operands } = instruction;
  const mark = /\[[^\]]*\]?|\b[dq]?word\s+ptr\b/i.exec(code)?.[0];
  if (mark && !code.includes("%") && !hasNumberAt(0)(instruction)) return mark;
  if (hasNumberAt(1)(instruction)) return code.slice(code.lastIndexOf(",") + 1).trim();
  return operands.length === 2 && operands.some((it) => it.kind === "register") ? /(?<![%\w:])e?[abcd]x\b|(?<![%\w:])e?[sd]i\b/i.exec(code)?.[0] : undefined;
}

/** Returns why instructions have no order together, as tools/herd/order.py: marks of AT&T's notation and others; "" if that is not so. */
function explainOrders(instructions) {
  const [att, intel] = [findAttMark, findIntelMark].map((find) => instructions.map(find).find(Boolean));
  const isOpen = (it, at) => it.operands.length === 2 && it.operands.every(({ kind }) => kind !== "number") && !isLoadInLwOrder(it, at, instructions);
  const isDoubtful = (it) => hasNumberAt(0)(it) && instructions.some((other, at) => other.thread === it.thread && isOpen(other, at));
  if (!att && instructions.some(isDoubtful) && instructions.some(hasNumberAt(1))) return "A constant comes first here and last there: only one order can be right.";
  return att && intel ? `\`${intel}\` says Intel's order, with the destination first, and \`${att}\` says AT&T's: write one of them.` : "";
}

/**
 * Returns whether instructions are in AT&T's order: one is for sure or has a number first, and none is in lw's; null if that is not certain, also of one
 * thread.
 * @param {Instruction[]} instructions
 * @returns {boolean | null}
 */
function areInAttOrder(instructions) {
  const hasOrder = ({ bits, operands }) => bits && operands.length === 2 && operands.some((it) => it.kind === "location");
  const hasMark = (it) => /[[]|\bptr\b/i.test(it.code) || hasNumberAt(0)(it) || hasNumberAt(1)(it);
  const isOpen = (it) => hasOrder(it) && !instructions.some((other) => other.thread === it.thread && hasMark(other));
  if (instructions.some(findAttMark)) return true;
  if (instructions.some(isOpen)) return null;
  if (instructions.some(hasNumberAt(1))) return false;
  return instructions.some(hasNumberAt(0)) && !instructions.some(isLoadInLwOrder);
}

/** Returns why the sizes of instructions have no meaning in lw, or "". */
function explainSizes(instructions, numbers) {
  const sizes = new Set(instructions.flatMap(({ bits, operands }) => [bits, ...operands.map((it) => it.bits)]).filter(Boolean));
  if (sizes.has(8) || sizes.has(16)) return "lw has words of 32 bits, and none of 8 or 16.";
  if (!sizes.has(64)) return "";
  // Words below 2 to the 32 are the same in 64 bits: the upper half of each of them is 0.
  if (instructions.some(({ bits, operands }) => new Set([bits, ...operands.map((it) => it.bits)].filter(Boolean)).size > 1)) return SIZES_DIFFER;
  const sums = instructions.filter(({ name }) => ["ADD", "XADD", "INC"].includes(name)).length;
  const isLess = instructions.some(({ name, operands }) => ["SUB", "DEC"].includes(name) || operands.some((it) => it.kinds.includes("negative")));
  return isLess || Math.max(1, ...numbers) * 2 ** sums >= WORD ? MAY_BE_LARGE : "";
}

/** Returns an instruction as lw writes it, with the kinds of its changes; `isAtt` says that its destination is last. */
function formatInstruction(instruction, isAtt) {
  const { code, labels, lock, name, operands, rest, kinds, same } = instruction;
  if (same) return { text: labels + same, kinds };
  if (rest !== undefined) return { text: `${labels}${lock}${name} ${rest}`.trim().padEnd(name ? 0 : code.length), kinds };
  const changes = [...kinds, ...operands.flatMap((it) => it.kinds)];
  const isTurned = isAtt && operands.length === 2;
  if (!changes.length && !isTurned) return { text: code, kinds: [] };
  const written = operands.map((it) => it.written);
  if (isTurned) written.reverse();
  // An exchange has its location first, in either order.
  if (isTurned && name === "XCHG") written.sort((one, other) => other.startsWith("[") - one.startsWith("["));
  return { text: `${labels}${lock && "LOCK "}${name} ${written.join(",")}`, kinds: isAtt ? ["order"] : changes };
}

/** Returns what formatInstruction does, of a difference of a register and a number: as a sum. */
function rewriteSum(formatted) {
  const [, labels, name, register, number] = /^((?:\w+\s*:\s*)*)(SUB|INC|DEC)\s+(E\w\w)(?:\s*,\s*\$?(0x[\da-f]+|\d+))?$/i.exec(formatted?.text ?? "") ?? [];
  const isSub = name?.toUpperCase() === "SUB";
  if (!name || isSub !== Boolean(number)) return formatted;
  const by = name.toUpperCase() === "INC" ? 1 : (WORD - Number(number ?? 1)) % WORD;
  return { text: `${labels}ADD ${register.toUpperCase()},$${by}`, kinds: [...formatted.kinds, "sum"] };
}

/**
 * Returns the edits of the code; or why it can't be rewritten, with the cells at whose faults that is said. `numbers` are those of the initial values.
 * @param {CodeCell[]} cells
 * @param {object} names as of parseOperand
 * @param {number[]} numbers
 * @returns {{edits?: Edit[], why?: string, places?: CodeCell[]}}
 */
function listCodeEdits(cells, names, numbers) {
  const instructions = cells.map((it, at) => parseInstruction(it, names, canFlagBeRead(cells, at)));
  const known = instructions.filter(Boolean);
  const isAtt = areInAttOrder(known);
  const apart = explainOrders(known);
  const begin = isAtt && !apart ? `${SENTENCES.order} ` : "";
  const isUnclear = (at) => (instructions[at] ? instructions[at].operands.some((it) => it.why) : /[%(]/.test(cells[at].code));
  const unclear = cells.findIndex((_, at) => isUnclear(at));
  if (unclear >= 0) {
    const { code } = cells[unclear];
    const why = instructions[unclear]?.operands.find((it) => it.why).why ?? (CALL.test(code) ? explainCall(code) : `lw has no instruction as \`${code}\`.`);
    return { why: `${begin}${why}`, places: isAtt ? cells : [cells[unclear]] };
  }
  const values = known.flatMap((it) => it.operands.map((operand) => operand.value ?? 0));
  const why = apart || (isAtt === null ? ORDER_IS_OPEN : explainSizes(known, [...numbers, ...values]));
  const written = instructions.map((it) => (it ? formatInstruction(it, isAtt) : null));
  // Differences are rewritten as sums together with other changes.
  const formatted = written.some((it) => it?.kinds.length) ? written.map(rewriteSum) : written;
  const places = cells.filter((_, at) => formatted[at]?.kinds.length);
  if (why) return { why: `${begin}${why}`, places };
  const edits = cells.map(({ begin: start, code }, at) => ({ begin: start, end: start + code.length, from: code, ...formatted[at] }));
  return { edits: edits.filter(({ from, text }) => text !== undefined && text !== from) };
}

/** Returns the edit of a part of a text at an index, of which nothing is known but its kind. */
function makeEdit(begin, from, text, kind) {
  return { begin, end: begin + from.length, from, text, kinds: [kind] };
}

/** Returns the name of a register of a thread in the language of a test. `isOther` and `rename` are as for listSiteEdits. */
function rewriteRegister(register, thread, isX86, isOther, rename) {
  const [, wide, letters] = (isX86 && REGISTER.exec(register)) || [];
  if (letters && (/r/i.test(wide) || register.startsWith("%"))) return `E${letters.toUpperCase()}`;
  return ((!isOther && convertRegister(register, isX86)) || rename?.(thread, register)) ?? register;
}

/**
 * Returns the edits of the registers in a part of a text, which begins at an index; or why one of an x86 test can't be rewritten. `isOther` says that all
 * code is of the other language, whose registers stay. `rename` is as `makeRenaming` returns it.
 */
function listSiteEdits(part, begin, isX86, isOther, rename = null) {
  const edits = [];
  for (const { 0: whole, 1: letter, 2: thread, 3: register, 4: value = "", index } of part.matchAll(SITE)) {
    const from = whole.slice(0, whole.length - value.length);
    const [, wide, letters] = (isX86 && REGISTER.exec(register)) || [];
    if (letters && value) return { why: explainAddress(whole) };
    const name = rewriteRegister(register, Number(thread), isX86, isOther, rename);
    if ((isX86 && LACKED.test(name)) || (letters && !wide)) return { why: explainLackedRegister(from) };
    const isSource = name.startsWith("r");
    if (name !== register) edits.push(makeEdit(begin + index, from, `${thread}:${name}`, isSource ? "source" : register.startsWith("%e") ? "percent" : "register"));
    else if (letter) edits.push(makeEdit(begin + index, from, `${thread}:${name}`, "thread"));
  }
  return { edits };
}

/** Returns the edits that put its thread before each register in a part of a text that has none, if the code of one thread only has this register. */
function listOwnerEdits(part, begin, cells, isX86, isOther, rename) {
  const formatKey = (register) => rewriteRegister(register, 0, isX86, isOther).toUpperCase();
  return [...part.matchAll(BARE)].flatMap(({ 0: from, index }) => {
    const isSame = (it) => formatKey(it) === formatKey(from);
    const [thread, ...others] = new Set(cells.filter(({ code }) => code.match(/%?\w+/g)?.some(isSame)).map((it) => it.thread));
    const name = thread === undefined || others.length ? "" : rewriteRegister(from, thread, isX86, isOther, rename);
    const isRegister = REGISTERS[isX86 ? "X86" : "SRC"].includes(isX86 ? name.toUpperCase() : name);
    return isRegister ? [makeEdit(begin + index, from, `${thread}:${name}`, "owner")] : [];
  });
}

/** Returns the edits of the question, which a text has from an index on, except those of its registers. Comments are blank. */
function listQuestionEdits(code, begin) {
  const [list = ""] = /^\s*locations\s*\[[^\]]*\]/i.exec(code.slice(begin)) ?? [];
  const question = list.replace(/[^\n]/g, " ") + code.slice(begin + list.length);
  const makeEditOf = (kind, text) => ({ 0: whole, 1: from, index }) => makeEdit(begin + index + whole.indexOf(from), from, text.call ? text(from) : text, kind);
  const ofList = [...list.matchAll(/,/g)].map(({ index }) => makeEdit(begin + index, ",", ";", "list"));
  return [...ofList, ...IN_QUESTION.flatMap(([kind, pattern, text]) => [...question.matchAll(pattern)].map(makeEditOf(kind, text)))];
}

/**
 * Returns a function that returns what a register of a thread is renamed to: of a register past `r5` one that the thread does not use, if there is one for
 * each of these; of others itself.
 */
function makeRenaming(cells, code) {
  const threads = listUsedNames(cells, code, /\br\d+\b/g).map((used) => mapLacked(used, REGISTERS.SRC));
  return (thread, register) => threads[thread]?.get(register) ?? register;
}

/** Returns what makeRenaming does, of an x86 test: of `R8` to `R15`, in whatever letters, a register that the thread does not use. */
function makeX86Renaming(cells, code) {
  const normalize = (name) => name.toUpperCase().replace(/^(R\d+)D$/, "$1").replace(/^R?([A-D]X|[SD]I)$/, "E$1");
  const threads = listUsedNames(cells, code, /\b(?:[re]?(?:[abcd]x|[sd]i)|r(?:[89]|1[0-5])d?)\b/gi);
  const maps = threads.map((used) => mapLacked(used.map(normalize), REGISTERS.X86));
  return (thread, register) => maps[thread]?.get(normalize(register)) ?? register;
}

/** Returns, for each thread, the names in its cells and at its sites in a text that a pattern matches. */
function listUsedNames(cells, code, pattern) {
  const sites = [...code.matchAll(/\b(\d)\s*:\s*(%?\w+)/g)].map(([, thread, name]) => ({ thread: Number(thread), code: name }));
  const threads = [[], [], [], []];
  for (const { thread, code: it } of [...cells, ...sites]) threads[thread]?.push(...(it.match(pattern) ?? []));
  return threads;
}

/** Returns a map from the used names that a language lacks to those of its registers that are not used; an empty one, if there are too few. */
function mapLacked(used, registers) {
  const lacked = [...new Set(used)].filter((it) => !registers.includes(it));
  const free = registers.filter((it) => !used.includes(it));
  return new Map(lacked.length <= free.length ? lacked.map((it, at) => [it, free[at]]) : []);
}

/**
 * Returns the edits of the statements of a source test; or why they can't be rewritten, with the cell at whose fault that is said. `rename` is as
 * `makeRenaming` returns it.
 */
function listStatementEdits(cells, rename) {
  const edits = [];
  for (const cell of cells) {
    const { begin, code, thread } = cell;
    for (const { 0: site, 1: owner, 2: register, index } of code.matchAll(/(?<!\w)(\d)\s*:\s*(r\d+)\b/g)) {
      if (Number(owner) !== thread) return { why: explainOtherThread(site, owner, thread), places: [cell] };
      edits.push(makeEdit(begin + index, site, rename(thread, register), "own"));
    }
    const branch = BRANCH.exec(code);
    for (const { 0: register, index } of branch ? [] : code.matchAll(/(?<!\d\s*:\s*)\br\d+\b/g)) {
      const name = rename(thread, register);
      if (name !== register) edits.push(makeEdit(begin + index, register, name, "source"));
    }
    for (const { 0: from, 1: operator, 2: number, index } of code.matchAll(MINUS)) {
      edits.push(makeEdit(begin + index, from, `${operator ? "" : "+ "}${negate(number)}`, "negative"));
    }
    const [, labels, fence] = FENCE.exec(code) ?? [];
    if (fence) edits.push(makeEdit(begin + labels.length, fence, " ".repeat(fence.length), "fence"));
    const set = /^(?:\w+\s*:(?!=)\s*)*(?:if|goto)\b/.test(code) ? null : SET.exec(code);
    if (set) edits.push(makeEdit(begin + set[1].length, "=", ":=", "set"));
    if (branch) edits.push(makeEdit(begin + branch[1].length, code.slice(branch[1].length), `if ${rename(thread, branch[2])} ${branch[3] === "==" ? "=" : branch[3]} ${branch[4]} goto ${branch[5]}`, "branch"));
    for (const { 0: from, 1: name, index } of branch ? [] : code.matchAll(/\[\s*(?!r\d)(\w+)\s*\]/g)) edits.push(makeEdit(begin + index, from, name, "bare"));
    const compared = !branch && COMPARED.exec(code);
    if (compared) edits.push(makeEdit(begin + compared[1].length, "==", "=", "compared"));
  }
  return { edits: edits.sort((one, other) => one.begin - other.begin) };
}

/** Returns a text with edits, of which none lies in another. */
function applyEdits(text, edits) {
  return edits.reduceRight((whole, { begin, end, text: put }) => whole.slice(0, begin) + put + whole.slice(end), text);
}

/**
 * Returns a function that says whether a name without brackets is that of a location: not if it is reserved or a label, or may be a misspelt register that
 * the text has nowhere else.
 */
function makeLocationTest(text, cells) {
  const others = blankComments(text).replace(/[^]*?\{/, "");
  const isNamed = (name) => new RegExp(`[[(]\\s*${name}\\s*[\\])]|(?:[{;(]|/\\\\)\\s*(?:\\w+\\s+)*${name}\\s*[=;]`).test(others);
  const isLabel = (name) => cells.some(({ code }) => new RegExp(`^(?:\\w+\\s*:\\s*)*${name}\\s*:`).test(code));
  return (name) => !isReserved(name) && !isLabel(name) && (findNearest(name, REGISTERS.X86) === null || isNamed(name));
}

/**
 * Returns the edits of the initial values: of their types, or only of their registers; or why they can't be rewritten.
 * @param {string} text
 * @param {number} begin
 * @param {number} end
 * @param {boolean} isX86
 * @param {(function(number, string): string) | null} rename As `makeRenaming` returns it.
 * @returns {{edits?: Edit[], why?: string}}
 */
function listBlockEdits(text, begin, end, isX86, rename) {
  const block = blankComments(text).slice(begin, end);
  const { edits, why } = listSiteEdits(block, begin, isX86, false, rename);
  if (why) return { why };
  const renamed = applyEdits(block, edits.map((it) => ({ ...it, begin: it.begin - begin, end: it.end - begin })));
  const entries = block === text.slice(begin, end) ? rewriteEntries(renamed.slice(1, -1)) : null;
  if (entries) return { edits: [makeEdit(begin, block, entries, "entries")] };
  const types = rewriteTypes(renamed);
  if (types === null) return { edits };
  return types && block === text.slice(begin, end) ? { edits: [makeEdit(begin, block, types, "types")] } : { why: NO_TYPES };
}

/**
 * Returns the edits that rewrite a test in lw's notation, from first to last; or `why` that is not certain, with the parts of the text at whose faults
 * that is said; null if the text is no test of x86 or of source code.
 * @param {string} text
 * @returns {{edits?: Edit[], why?: string, places?: {begin: number, code: string}[]} | null}
 */
function findEdits(text) {
  const { word, offset } = findFirstWord(text);
  const all = parseCells(text);
  const cells = all.filter(({ code }) => code);
  const isX86 = /^x86(?:[_-]64)?$/i.test(word);
  const code = blankComments(text);
  const [opens, closes] = [code.indexOf("{"), code.indexOf("}")];
  if (!(isX86 || word === "SRC") || !cells.length || all.length > MAX_CELLS || opens < 0 || closes > cells[0].begin) return null;
  const end = all.at(-1).end + 1;
  const heading = isX86 && word !== "X86" ? [makeEdit(offset, word, "X86", "heading")] : [];
  const numbers = [...code.slice(opens, closes).matchAll(/=\s*(\d\w*)/g)].map(([, it]) => Number(it));
  const rename = isX86 ? makeX86Renaming(cells, code) : makeRenaming(cells, code);
  const ofCode = isX86 ? listCodeEdits(cells, { isLocation: makeLocationTest(text, cells), rename }, numbers) : listStatementEdits(cells, rename);
  if (ofCode.why) return ofCode;
  const isOther = isX86 ? !ofCode.edits.length && isAllIn("SRC", text) : isAllIn("X86", text);
  const sites = listSiteEdits(code.slice(end), end, isX86, isOther, rename);
  const block = listBlockEdits(text, opens, closes + 1, isX86, rename);
  const why = block.why ?? sites.why;
  if (why) return { why, places: [{ begin: opens, code: code.slice(opens, closes) }, { begin: end, code: code.slice(end) }] };
  const parts = listQuestionEdits(code, end);
  const isInPart = (it) => parts.some((part) => it.begin >= part.begin && it.begin < part.end);
  const registers = [...sites.edits, ...listOwnerEdits(code.slice(end), end, cells, isX86, isOther, rename)];
  const ofQuestion = [...registers.filter((it) => !isInPart(it)), ...parts].sort((one, other) => one.begin - other.begin);
  return { edits: [...heading, ...block.edits, ...ofCode.edits, ...ofQuestion] };
}

/** Returns the edits that make a source test of an x86 test whose code is all that of one; none if they are not certain. */
function listSourceEdits(text) {
  const { word, offset } = findFirstWord(text);
  if (word !== "X86" || !isAllIn("SRC", text)) return [];
  const { edits } = findEdits(`${text.slice(0, offset)}SRC${text.slice(offset + word.length)}`) ?? {};
  return edits ? [makeEdit(offset, word, "SRC", "first"), ...edits] : [];
}

/** Returns a further change of an x86 test whose code is all that of a source test, which makes x86 code of it; undefined if there is none. */
function makeX86Choice(text, index) {
  const { change, isWhole } = makeRewriting(text, index, findEdits(text)?.edits ?? []) ?? {};
  return isWhole ? { ...change, title: "Make it x86 code" } : undefined;
}

/**
 * Returns a text that is rewritten in lw's notation, and the words on that, if it is read then; otherwise the text itself, and no words.
 * @param {string} text
 * @returns {{text: string, words: string}}
 */
export function rewriteWhole(text) {
  const { change, isWhole, words } = findRewriting(text, 0) ?? {};
  return isWhole ? { text: text.slice(0, change.begin) + change.text + text.slice(change.end), words } : { text, words: "" };
}

/** Returns edits in words: the first of them, and how many others there are. */
function describeEdits(edits) {
  if (edits.every(({ text }) => !text.trim())) return `The button takes out \`${edits[0].from}\`.`;
  const formatEdit = ({ from, text }) => `\`${from}\` to ${text.trim() ? `\`${text.trim()}\`` : "nothing"}`;
  const short = edits.filter(({ from, text }) => from && Math.max(from.length, text.length) < MAX_LETTERS);
  const named = [...new Set(short.map(formatEdit))].slice(0, MAX_NAMED);
  const isMore = new Set(edits.map(formatEdit)).size > named.length;
  if (edits.length === 1 && (named.length || !edits[0].from)) return `Did you mean \`${edits[0].text.trim()}\`?`;
  return named.length ? `The button changes ${named.join(isMore ? ", " : " and ")}${isMore ? ", and so on" : ""}.` : "";
}

/**
 * Returns what is said of a test in another notation, given the index of its fault, with the change that rewrites all of it (`count` is the number of
 * its places, `isWhole` says that nothing else is wrong, and `isBetter` that what is said of the fault in general is longer or says less), and `also` another
 * one if two are likely; or why that is not certain; null if the fault is no matter of notation.
 * @param {string} text
 * @param {number} index
 * @returns {{words: string, change: object | null, also?: object, count: number, isWhole: boolean, isBetter?: boolean} | null}
 */
export function findRewriting(text, index) {
  const asSource = makeRewriting(text, index, listSourceEdits(text));
  if (asSource) return { ...asSource, also: makeX86Choice(text, index) };
  const { edits = [], why, places } = findEdits(text) ?? {};
  if (why) {
    const isThere = /^(?:X86|SRC)$/.test(findFirstWord(text).word) && places.some(({ begin, code }) => index >= begin && index <= begin + code.length);
    if (!isThere) return null;
    const wide = why === SIZES_DIFFER ? /^r([abcd]x|[sd]i)\b/i.exec(text.slice(index)) : null;
    const name = wide && `E${wide[1].toUpperCase()}`;
    const change = wide && { begin: index, end: index + name.length, text: name };
    return { words: wide ? `${why} Did you mean \`${name}\`?` : why, change, count: 0, isWhole: false };
  }
  return makeRewriting(text, index, edits);
}

/** Returns the hint on a test that some edits rewrite, as findRewriting does; null if they neither make a test of it nor change what is at its fault. */
function makeRewriting(text, index, edits) {
  if (!edits.length) return null;
  const edited = applyEdits(text, edits);
  const whole = alignCells(text) === text ? alignCells(edited) : edited;
  const isWhole = isRead(whole);
  if (!isWhole && !edits.some(({ begin, end }) => index >= begin && index <= end)) return null;
  const kinds = new Set(edits.flatMap((it) => it.kinds));
  const said = Object.keys(SENTENCES).filter((it) => kinds.has(it)).map((it) => SENTENCES[it]);
  const [{ from, text: put }] = edits;
  const single = !from ? `Put in ${put.trim()}` : put.trim() ? `Change it to ${put.trim()}` : `Take out ${from}`;
  const title = edits.length > 1 ? `Rewrite all ${edits.length} places` : from.length > MAX_LETTERS ? "Rewrite it" : single;
  const done = edits.length > 1 ? `${edits.length} places are rewritten.` : "Rewritten.";
  const ofEdits = { begin: edits[0].begin, end: edits.at(-1).end, text: whole.slice(edits[0].begin, whole.length - (text.length - edits.at(-1).end)) };
  const change = { ...(whole === edited ? ofEdits : makeChange(text, whole)), title, done };
  return { words: `${said.join(" ")} ${describeEdits(edits)}`, change, count: edits.length, isWhole, isBetter: BETTER.some((it) => kinds.has(it)) };
}
