// Reads instructions without a test around them, as a compiler prints them or as somebody writes them below the names of threads: the code of each
// function, and the words of variables. Not proved.
//
// An `AssemblyBlock` has the `name` in the line that begins it, or "", the `number` of the thread that this line names, or null, its `lines`, and the `words`
// of a variable, each a `word` with its `offset` and its size (`bytes`). A `Line` has its `code`: an instruction, a label with a colon, or "" for a blank
// line; and its place in the text, a `row` and a `column`, which both count from 0. The record `Step` is that of block_order.js.

import { orderSteps } from "./block_order.js";

// A line before the code of a thread, as `P0:` or `// Thread 1`: the groups are the mark of its comment, its name, the number in it, and the code after the
// colon.
const HEADING = /^(?:(#|\/\/|;)\s*)?((?:P|T|CPU|core|processor|thread)[\s_]*(\d+))\s*(?:\(\)\s*)?(?::(?!:)(.*))?$/i;
// Where a comment begins. (`#1` may be a constant, and `#1.5` is a place in the program.)
const COMMENT = /(?:^|[ \t])(?:#(?!\d)|#(?=\d+\.\d+\s*$)|;|\/\/).*$/;
// The name of a function in C++ has blanks only if it has one of these.
const OF_FUNCTION = /\(|::/;
// A label before more in its line.
const LABEL_BEFORE = /^([.\w$@]+)\s*:(?!:)\s*(?=\S)/;
const JUMP = /\bj\w+\s+(?:short\s+)?([.\w$@]+)/gi;
// The jump that is all code of a function: the group is the name of another function.
const ONLY_JUMP = /^jmp\s+([A-Za-z_$].*)$/i;
// What reserves memory: the groups are its directive, of GNU's assembler or of others, and what is in it. And a variable before it in a line, as in NASM.
const DATA = /^(?:\.(long|int|4byte|quad|8byte|value|short|2byte|byte|zero|space|skip)|(d[bwdq]))\b\s*(.*)$/i;
const VARIABLE = /^([A-Za-z_]\w*)\s+(?=d[bwdq]\s)/i;
// The size of each word of a directive; other directives have a number of bytes.
const BYTES = { long: 4, int: 4, "4byte": 4, quad: 8, "8byte": 8, value: 2, short: 2, "2byte": 2, byte: 1, db: 1, dw: 2, dd: 4, dq: 8 };
// A text, whose bytes are not read.
const TEXT = /^\.(?:ascii|asciz|string)\b/i;
// What is left out: directives, lines around segments and procedures, and instructions without effect.
const DIRECTIVE = "\\.|(?:section|segment|global|extern|bits|default|align|public|extrn|include\\w*|comm|end|title|npad|assume|res[bwdq])\\b";
const IGNORED = new RegExp(
  `^(?:${DIRECTIVE}|[\\w$]+\\s*=\\s*-?\\d+$|\\S+\\s+(?:segment|ends|endp)\\b|endbr(?:32|64)$|(?:data16\\s+|cs\\s+)*nop\\w*(?:\\s|$)|xchg\\s+%?ax,\\s*%?ax$)`, "i",
);
// The line that begins a procedure of Microsoft's assembler.
const PROCEDURE = /^(\S+)\s+proc\b/i;
// A directive with the name of a function or of a variable.
const DECLARED = /^\.?(?:globl|global|type)\s+([^\s,]+)/;
const RETURN = /^(?:(?:rep|bnd)\s+)?ret[lqnf]?\b/i;
// An instruction after which a label begins a function.
const LEAVES = /^(?:(?:rep|bnd)\s+)?(?:ret|jmp|ud2|hlt|int\s?3)/i;

/** Returns the statements of a line, with `;` between them, without its comment, each with its `code` and its `column`. */
function splitStatements(line) {
  const code = line.replace(COMMENT, "").replace(/\block\s*;/gi, (it) => `${it.slice(0, -1)} `);
  let begin = 0;
  const statements = code.split(";").map((it) => {
    const column = begin + it.length - it.trimStart().length;
    begin += it.length + 1;
    return { code: it.trim(), column };
  });
  return statements.filter((it) => it.code);
}

/** Returns the label of a line that has nothing else; undefined if there is none. */
function parseLabelLine(line) {
  const name = line.endsWith(":") ? line.slice(0, -1).trimEnd() : "";
  return name && (!/\s/.test(name) || OF_FUNCTION.test(name)) ? name : undefined;
}

/** Returns the words that a directive gives a variable, each with its number of bytes. */
function parseWords(directive, list) {
  const numbers = list.split(",").map((it) => Number(it.trim().replace(/^0?([\da-f]+)h$/i, "0x$1")));
  const bytes = BYTES[directive.toLowerCase()];
  return bytes ? numbers.map((word) => ({ word, bytes })) : [{ word: 0, bytes: numbers[0] }];
}

/** Returns the names of functions to which others only jump, as compilers make one function of two that do the same, given lines without comments. */
function listSharedFunctions(lines) {
  const code = lines.map((it) => it.trim()).filter((it) => it && !it.startsWith("."));
  const labels = new Map(code.map((it, at) => [it, at]));
  const beginsFunction = (at) => at === 0 || (at > 0 && LEAVES.test(code[at - 1]));
  return code.flatMap((line, at) => {
    const [, name] = ONLY_JUMP.exec(line) ?? [];
    const isWhole = name && at && code[at - 1].endsWith(":") && (code[at + 1] ?? ":").endsWith(":");
    return isWhole && beginsFunction(labels.get(`${name}:`)) ? [name] : [];
  });
}

/** Returns, for each of some lines without comments, the next one that is no directive other than data; undefined if there is none. */
function listFollowing(lines) {
  const following = [];
  let next;
  for (let at = lines.length - 1; at >= 0; at -= 1) {
    following[at] = next;
    const line = lines[at].trim();
    if (line && (DATA.test(line) || !line.startsWith("."))) next = line;
  }
  return following;
}

/** Reads the lines of a text, from first to last. */
class AssemblyReader {
  /** @param {string} text */
  constructor(text) {
    const whole = text.split("\n");
    this.lines = whole.map((it) => it.trim());
    this.indents = whole.map((it) => it.length - it.trimStart().length);
    const written = this.lines.map((it) => it.replace(COMMENT, ""));
    const code = written.join("\n");
    const shared = new Set(listSharedFunctions(written));
    this.targets = new Set([...code.matchAll(JUMP)].map(([, label]) => label).filter((it) => !shared.has(it)));
    // Set if returns or the names of threads say where a function ends.
    this.hasEnds = /^(?:\w+:\s*)?(?:(?:rep|bnd)\s+)?ret/im.test(code) || this.lines.some((it) => HEADING.test(it));
    this.following = listFollowing(written);
    this.declared = new Set(this.lines.flatMap((it) => DECLARED.exec(it)?.[1] ?? []));
    this.blocks = [{ name: "", number: null, lines: [], words: [] }];
  }

  /** Returns the block that is read. */
  get block() {
    return this.blocks.at(-1);
  }

  /** Begins a block. */
  beginBlock(name, number = null) {
    this.blocks.push({ name, number, lines: [], words: [] });
  }

  /** Returns all blocks; the first one has what is before all names. */
  readAll() {
    for (const [at, line] of this.lines.entries()) {
      const [, mark, name, number, code = ""] = HEADING.exec(line) ?? [];
      const isHeading = name !== undefined && !this.targets.has(name);
      if (isHeading) this.beginBlock(name, Number(number));
      const rest = !isHeading ? line : mark ? "" : code;
      const begin = this.indents[at] + line.length - rest.length;
      if (!line) this.addLine("", at, begin);
      for (const it of splitStatements(rest)) this.readStatement(it.code, at, begin + it.column);
    }
    return this.blocks;
  }

  /** Adds code that begins at a place to the lines of the block. */
  addLine(code, row, column) {
    this.block.lines.push({ code, row, column });
  }

  /** Reads a statement of the line that has an index, in which it begins at a column. */
  readStatement(statement, at, column) {
    const [, procedure] = PROCEDURE.exec(statement) ?? [];
    const label = procedure ?? parseLabelLine(statement) ?? LABEL_BEFORE.exec(statement)?.[1] ?? VARIABLE.exec(statement)?.[1];
    const rest = procedure ? "" : statement.slice(label ? statement.indexOf(label) + label.length : 0).replace(/^\s*:/, "").trim();
    if (procedure) this.declared.add(procedure);
    if (label) this.readLabel(label, rest, at, column);
    const [, directive, other, list] = DATA.exec(rest) ?? [];
    if (directive ?? other) this.addWords(parseWords(directive ?? other, list));
    else if (TEXT.test(rest) && !this.block.lines.some((it) => it.code)) this.addWords([{ word: NaN, bytes: 8 }]);
    else if (rest && !IGNORED.test(rest)) this.addLine(rest.replace(/\s+/g, " "), at, column + statement.length - rest.length);
  }

  /** Reads a label, which the rest of its line follows: that of a jump, the name of a block, or both, or one to which nothing jumps, which is left out. */
  readLabel(label, rest, at, column) {
    const isTarget = this.targets.has(label);
    const isBegin = isTarget ? this.declared.has(label) : !label.startsWith(".") && this.beginsBlock(label, rest, at);
    if (isBegin) {
      const [, digit] = /^P(\d)(?:\(.*\))?$/.exec(label) ?? [];
      this.beginBlock(label, digit === undefined ? null : Number(digit));
    }
    if (isTarget) this.addLine(`${label}:`, at, column);
  }

  /**
   * Returns whether a label begins a block: it is declared, data follows it, or it follows a return or a jump. Each label does if neither returns nor names
   * of threads say where a function ends.
   */
  beginsBlock(label, rest, at) {
    const code = this.block.lines.map((it) => it.code).filter(Boolean);
    const next = rest || this.following[at];
    const isNamed = !this.hasEnds && !this.blocks[0].lines.some((it) => it.code);
    return isNamed || this.declared.has(label) || !code.length || LEAVES.test(code.at(-1)) || DATA.test(next ?? "");
  }

  /** Adds the words of a directive to those of the block, after these. */
  addWords(added) {
    const { words } = this.block;
    for (const { word, bytes } of added) {
      const last = words.at(-1);
      words.push({ offset: last ? last.offset + last.bytes : 0, word, bytes });
    }
  }
}

/**
 * Returns the blocks of a text of instructions. The first one has no name. A function that only jumps to another one has the lines of that one.
 * @param {string} text
 * @returns {AssemblyBlock[]}
 */
export function readBlocks(text) {
  const blocks = new AssemblyReader(text).readAll();
  const named = new Map(blocks.filter((it) => it.name).map((it) => [it.name, it.lines]));
  return blocks.map((block) => {
    const [only, another] = block.lines.filter((it) => it.code);
    const [, name] = (another === undefined && ONLY_JUMP.exec(only?.code ?? "")) || [];
    return name && name !== block.name && named.has(name) ? { ...block, lines: named.get(name) } : block;
  });
}

/** Returns a label of a compiler as a name of lw. */
function rewriteLabel(label) {
  return label.replace(/^\.+/, "").replace(/\W/g, "_");
}

/** Returns the steps of the lines of a function, and the labels after the last one. */
function readSteps(lines) {
  const steps = [];
  let labels = [];
  for (const line of lines.filter((it) => it.code)) {
    if (line.code.endsWith(":")) labels.push(line.code.slice(0, -1));
    else {
      steps.push({ ...line, labels });
      labels = [];
    }
  }
  return { steps, last: labels };
}

/** Returns a label for the end of a function that has other labels. */
function makeEnd(labels) {
  const names = new Set(labels.map(rewriteLabel));
  let end = "END";
  while (names.has(end)) end += "_";
  return end;
}

/**
 * Returns lines of a function with its labels before instructions, in which each return but the last one jumps to a label at the end, and so does what
 * jumps to a return. Only loops jump back.
 * @param {Line[]} lines
 * @returns {Line[]}
 */
export function rewriteReturns(lines) {
  const { steps, last } = readSteps(lines);
  const end = makeEnd([...steps.flatMap((it) => it.labels), ...last]);
  const isReturn = (it) => RETURN.test(it.code);
  const ends = new Set([...steps.filter(isReturn).flatMap((it) => it.labels), ...last]);
  const rewriteJump = (code) => code.replace(JUMP, (jump, label) => jump.slice(0, -label.length) + (ends.has(label) ? end : rewriteLabel(label)));
  const rewriteCode = (it) => (isReturn(it) ? `jmp ${end}` : rewriteJump(it.code));
  const rewriteStep = (it) => ({ ...it, labels: isReturn(it) ? [] : it.labels.map(rewriteLabel), code: rewriteCode(it) });
  const written = orderSteps(steps.map(rewriteStep), end);
  const isLast = ({ labels, code }) => !labels.length && new RegExp(`^jmp\\s+(?:short\\s+)?${end}$`, "i").test(code);
  while (written.length && isLast(written.at(-1))) written.pop();
  const code = written.map(({ labels, ...it }) => ({ ...it, code: [...labels.map((label) => `${label}:`), it.code].join(" ") }));
  return written.some((it) => it.code.endsWith(` ${end}`)) ? [...code, { ...code.at(-1), code: `${end}:` }] : code;
}
