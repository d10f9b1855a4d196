// Finds the threads of pseudo code, as books and blogs write it: below their names, in columns, or with bars between them; and what is before and after
// them. A `Doubt` is thrown for a part that is not sure. Not proved.
//
// A `PseudoText` has the lines `before` the threads and `after` them, and the `threads`, each with its lines, as `Line`s: the `code` of one, without its
// comment, and its `indent`, in letters. `first` is the number of the first thread.

import { Doubt, makeDoubt } from "./pseudo_doubts.js";

const MAX_LETTERS = 4000;
const MAX_THREADS = 4;
const TAB = 8;
// How a test begins, and the row of the threads' names that it has.
const TEST = /^\s*(?:X86|SRC)\b|^[ \t]*P0[ \t]*\|(?!\|)[^;\n]*;/m;
// The name of a thread, perhaps in a comment: the groups are its number and its letter. And one before code.
const NAME = "(?:\\/\\/|\\/\\*|#|--)?\\s*(?:P|T|CPU|core|proc|process|processor|thread)[ _#]*(?:[CPT][ _]?)?(?:(\\d)|([A-Za-z]))(?:[ ](?:core|cpu)\\s*#?\\d)?";
const ONLY_NAME = new RegExp(`^${NAME}\\s*:?\\s*(?:\\*\\/)?$`, "i");
const BEGIN = new RegExp(`^\\s*${NAME}\\s*:(?!=)`, "i");
// A name by a whole word; the name of a thread without a number, alone in its line; and a label with a number.
const LONG_NAME = /^\W*(?:CPU|core|proc|process|processor|thread)/i;
const LETTER_HEAD = /^\s*([pqr])\s*:(?!=)/;
const LETTER_ALONE = /^\s*[pqr]\s*:\s*$/;
const NUMBERED = /^\s*[A-Za-z]\d\s*:(?![=:])/;
// The code of a thread in braces after its name.
const IN_BRACES = new RegExp(
  `^(?<indent>[ \\t]*)(?<name>${NAME})\\s*(?:\\(\\s*\\)\\s*)?\\{(?:(?<line>[^{}\\n]*)\\}[ \\t]*$|(?<lines>[^]*?)\\n\\k<indent>\\})`, "gim",
);
const LETTER = /^[pqr]$/;
const COMMENTS = /^comments?$/i;
// What may have deeper lines below it.
const OPENS = /^(?:if|while|for|else|elif|elsif|loop|repeat|do|begin|await|wait|forever|until|spin)\b|[:{(]$|\b(?:then|do|else|begin)$/i;
const UNDERLINE = /^[\s=+|:-]*$/;
const COMMENT = /(?:\/\/|#(?!\d|(?:Store|Load)(?:Store|Load)\b)|--(?=\s)).*$/;
// A comment that may be a fence, and one with initial words, which are the group.
const FENCE = /^\W*(?:(?:full|memory|store-?load) )*(?:barrier|m?fence)\W*$/i;
const INITIAL_COMMENT = new RegExp(
  "(?:\\/\\*|\\(\\*|\\/\\/|#|--)\\s*([^*\\n]*\\b" +
    "(?:init(?:ial(?:ly)?)?|\\w\\s+(?:starts?|begins?)\\s+(?:out\\s+)?(?:as|at|with|from|being|=))\\b[^*\\n]*)", "gi",
);
// A comment that is in place of a critical section.
const CRITICAL = /^\W*(?:in\s+)?(?:the\s+)?(?:critical[\s_](?:section|region)|CS)\W*$/i;
/** Events of a run, as `Wx=1` and `Ry=0`, which are no assignments. */
export const EVENTS = /\bW[a-z]\d?\s*=[^]*\bR[a-z]\d?\s*=/;
// A parallel sign, and a cell that is in parentheses or braces as a whole.
const PARALLEL = /[\u2225\u2016\u23d0]|\\parallel\b/g;
const ENCLOSED = /^\((?!\s*\))([^()]*)\)$|^\{([^{}]*)\}$/;
// An instruction whose operands are those of pseudo code only.
const PSEUDO_MOVE = /^(?:mov|xchg)\s+(?:\[\s*_?\w+\s*\]\s*,\s*(?:\d+|r[0-7])|r[0-7]\s*,\s*(?:\d+|r[0-7]|\[\s*_?\w+\s*\]))$/i;
// Names of threads by what they do, which become numbers.
const ROLES = new RegExp(
  "(?<=^|[ \\t]{2}|\\t|\\|[ \\t]*|\\/\\/[ \\t]*|\\/\\*[ \\t]*)(?:producer|consumer|writer|reader|sender|receiver|alice|bob)(?:[ \\t]+(?:thread|process))?" +
    "(?=[ \\t]*(?:\\([ \\t]*\\)[ \\t]*)?(?::(?!=)|\\{|\\||\\*\\/|$)|[ \\t]{2}|\\t)",
  "gim",
);
// Why parts of a text are not sure.
const OF_COLUMN = "it is not sure in which column it is, so write each thread below its name, as `P0:`";
const OF_ASSERTION = "it may be of the thread above it or of all, so indent it as that thread, or leave a blank line above it";
const OF_TABS = "below it tabs and columns differ, so put blanks in place of tabs";
const OF_LABELS = "it is not sure which labels are names of threads, so name these as `P0:`";
const OF_NO_CODE = "it has no code of its own, so write the lines of each thread below its name";
const OF_STATEMENT = "below the threads it may be an outcome, initial words or code of a thread, so begin it with `Can` or `Initially`";
/** Why an assignment of a number is not sure. */
export const OF_OUTCOME = "it may be an outcome or a statement, so ask for an outcome by `Can`";
// Pieces of a line with gaps between them.
const PIECE = /\S+(?: \S+)*/g;
// How a line begins that stores, and a line that is or begins with a whole assignment.
const STORE = /^\w[\w[\]]*\s*(?::=|=|<-|\u2190)|^(?:mov|xchg)\b|^\w+(?:\.|->)(?:store|exchange|fetch_add)\s*\(/i;
const STATEMENT = /^\s*[A-Za-z_][\w[\]]*\s*(?::=|<-|\u2190|=)(?!=)\s*\w+(?:\s*[+-]\s*\w+)?\s*(?:[;|]|$|\s{2})/;
// Words that numbers follow with commas between them.
const SET_BY_COMMAS = /^(?:[A-Za-z_]\w*\s*(?::=|<-|\u2190|=)\s*\d+\s*,\s*)+[A-Za-z_]\w*\s*(?::=|<-|\u2190|=)\s*\d+[.;]?$/;
// An outcome, perhaps after its title, a sentence, and what makes that code.
const OUTCOME = new RegExp(
  "^(?:[A-Za-z][\\w -]*:\\s*)?\\(?\\s*(?:(?:[PT]?\\d\\s*:\\s*)?[A-Za-z]\\w*(?:\\[\\d\\])?\\s*==?\\s*)+\\d+" +
    "(?:\\s*(?:,|;|\\band\\b|&&|\u2227|\\/\\\\)\\s*(?:(?:[PT]?\\d\\s*:\\s*)?[A-Za-z]\\w*(?:\\[\\d\\])?\\s*==?\\s*)+\\d+)*\\s*\\)?[.;?!]*$",
);
const PAIR = /^(?:[A-Za-z][\w -]*:\s*)?\(\s*\w+\s*,\s*\w+\s*\)\s*==?\s*\(\s*\d+\s*,\s*\d+\s*\)[.;?!]*$/;
const PROSE = /^[A-Z][a-z]*,?\s+\S+\s.*[.?!]$/;
const IS_CODE = /:=|<-|\u2190|;|[{}]|\b(?:then|do|goto)\b/;
const INITIAL = /^\s*init(?:ial(?:ly)?)?\b/i;
// A label, a number or a bullet before a statement: the groups have the digits after the first one. A word without a digit may be a title.
const LABEL = new RegExp(
  "^(?:(?!(?:else|do|then|repeat|loop|forever|begin)\\b)(?:[A-Za-z][A-Za-z_]*\\d(\\d*)\\w*|[A-PR-Z])\\s*:(?![=:])" +
    "|\\(?\\d(\\d?)[.):](?!\\d)|\\d{1,2}\\s+(?=[A-Za-z_])|\\(?[a-z]\\)|[-*\\u2022](?=\\s))\\s*",
  "i",
);
// How a line begins or ends that asks, or says what is allowed.
const ASKING = "can|could|is|may|might|what|question|outcomes?|result|finally|final|forbidden|allowed|exists|forall|assert|(?:bug|warn)_on(?:_once)?|on|does|should|must|post-?condition|at the end";
const ASSERTS = /^\s*(?:assert|(?:BUG|WARN)_ON(?:_ONCE)?)\b/i;
const ASKS = new RegExp(
  `^\\(?\\s*(?:~\\s*)?(?:${ASKING})\\b(?!\\s*(?::?=(?!=)|<-|\u2190|[+[.-]))|\\?\\s*\\)?$|` +
    "^(?:both|all|neither|either|here|note)\\b.*\\b(?:may|can|must|will|are|is)\\b|\\b(?:allowed|possible|forbidden|impossible|cannot|can't)\\b", "i",
);

/** Returns a line of code that begins at an index, without the label before it. */
function makeLine(code, index) {
  const [label, digits, others] = LABEL.exec(code) ?? [""];
  return { code: code.slice(label.length).trim(), indent: index + label.length - (digits ?? others ?? "").length };
}

/** Returns a line with blanks before its tabs, which end at the next stop then. */
function expandTabs(line) {
  return line.split("\t").reduce((all, part) => all + "\t".padStart(TAB - (all.length % TAB)) + part);
}

/** Returns the lines of a text; those of a table of Markdown without its frame. Bold words are plain, and a sentence after initial words has its own line. */
function splitLines(text) {
  const bare = text.replace(/^([ \t]*)\*\*([^*\n]+)\*\*/gm, "$1$2");
  const plain = bare.replace(/^([ \t]*initially\b[^.?\n]*\.)[ \t]+(?=(?:is|are|can|could|may|might|does|what)\b[^\n]*\?)/gim, "$1\n");
  const lines = plain.split("\n").filter((it) => it.trim() && !/^\s*```/.test(it));
  const isFramed = lines.every((it) => !it.includes("|") || /^\s*\|(?!\|)/.test(it));
  return lines.map((it) => expandTabs(isFramed ? it.replace(/^\s*\||\|\s*$|`/g, "") : it));
}

/** Returns whether all of a line at an index of a text is in comments. */
function isCommentLine(text, index) {
  const [begin, end] = [text.lastIndexOf("\n", index) + 1, text.indexOf("\n", index)];
  return !text.slice(begin, end < 0 ? undefined : end).replace(/\/\*[^*\n]*\*\//g, "").trim();
}

/**
 * Returns a text with blanks in place of comments between signs, except the names of threads in lines of their own; a comment that is in place of a
 * critical section becomes its name.
 */
function blankSpans(text) {
  const replace = (whole, inner, index) => {
    if (/^[^(]/.test(whole) && ONLY_NAME.test(inner.trim()) && isCommentLine(text, index)) return whole;
    return CRITICAL.test(inner) ? "CS".padEnd(whole.length) : whole.replace(/[^\n]/g, " ");
  };
  const blanked = text.replace(/\/\*([^*]*)\*\//g, replace).replace(/\(\*([^*]*)\*\)/g, replace);
  // What follows an empty body is no part of its loop.
  const ended = blanked.replace(/(?<=\bwhile[ \t]*\([^\n{};]*\)[ \t]*)\{[ \t]*\}(?=[ \t]*[A-Za-z_])/g, (it) => ";".padEnd(it.length));
  return ended.replace(/\{[ \t]*\}/g, (it) => "{}".padEnd(it.length));
}

/** Returns a line without its comment, unless that is a critical section or may be a fence. */
function dropComment(line) {
  return line.replace(COMMENT, (comment) => (CRITICAL.test(comment) ? "critical section" : FENCE.test(comment) ? comment : ""));
}

/** Returns a text in which threads that are named by what they do have numbers; the same text if there are not two names. */
function numberRoles(text) {
  const names = [...new Set((text.match(ROLES) ?? []).map((it) => it.toLowerCase()))];
  if (names.length < 2) return text;
  const numbered = text.replace(ROLES, (it) => `P${names.indexOf(it.toLowerCase())}`.padEnd(it.length));
  return numbered.replace(/\/\*[ \t]*(P\d)[ \t]*\*\//g, (it, name) => `/* ${name} */`.padEnd(it.length));
}

/** Returns the first one of the numbers of threads, 0 if they have none; NaN if they are not in order. */
function findFirst(numbers) {
  const first = Number(numbers[0] ?? 0);
  return numbers.every((it, at) => it === undefined || Number(it) === first + at) ? first : NaN;
}

/** Returns the letter of a thread of a name. */
function findLetter(code) {
  return (ONLY_NAME.exec(code.trim())?.[2] ?? BEGIN.exec(code)?.[2] ?? "").toLowerCase();
}

/** Returns the pieces of a line that are apart, each with the index at which it begins. */
function listPieces(line) {
  return [...line.matchAll(PIECE)].map(({ 0: code, index }) => ({ code, index }));
}

/** Returns whether a piece of a line is the name of a thread. */
function isName({ code }) {
  return ONLY_NAME.test(code.trim()) || LETTER.test(code.trim());
}

/** Returns the number of a thread of a name; undefined if the name has a letter. */
function findNumber(code) {
  return /\d/.exec(ONLY_NAME.exec(code.trim())?.[1] ?? BEGIN.exec(code)?.[1] ?? "")?.[0];
}

/** Returns the cells of a line between signs, each with the index at which its code begins in it. */
function splitCells(line, sign) {
  return line.split(sign).map((it) => ({ code: it.trim(), index: Math.max(it.search(/\S/), 0) }));
}

/** Returns the cells of a line between bars, without what encloses them; its pieces that are apart, if there is no bar. */
function listCells(line) {
  if (!line.includes("|")) return listPieces(line);
  const cells = splitCells(line, /\|{1,3}/);
  const inner = cells.map(({ code }) => ENCLOSED.exec(code)?.slice(1).find((it) => it !== undefined));
  return inner.includes(undefined) ? cells : inner.map((it) => ({ code: it.trim(), index: 0 }));
}

/** Returns whether tabs below names may mean other columns than the stops of a terminal, as in a copied table. */
function hasOtherTabs(names, lines, columns) {
  // All lines may be indented by tabs.
  const [margin] = /^(?:[ \t]*\t)?/.exec(names);
  const cut = (it) => (it.slice(0, margin.length).trim() ? it : it.slice(margin.length));
  const rows = lines.map((it) => splitCells(cut(it), "\t"));
  if (splitCells(cut(names).trimEnd(), "\t").length !== columns.length || rows.some((it) => it.length > columns.length)) return false;
  const find = (index) => columns.findLastIndex((it) => index >= it - 2);
  return rows.some((row, at) => row.length > 1 && listPieces(lines[at]).some(({ code, index }) => row[find(index)]?.code !== code));
}

/**
 * Returns the lines of threads in columns, given the columns' first letters and whether they have bars. Throws a doubt if a cell is in no column for sure.
 */
function readColumns(lines, columns, hasBars) {
  const threads = columns.map(() => []);
  for (const [row, line] of lines.entries()) {
    const cells = hasBars ? listCells(line) : listPieces(line);
    // A line without a bar may be that of all columns.
    if (hasBars && !line.includes("|") && columns.length > 1) throw makeDoubt(line, "a line without a bar may be one of each thread");
    let commented = -1;
    for (const [at, { code, index }] of cells.entries()) {
      const thread = hasBars ? at : columns.findLastIndex((it) => index >= it - 2);
      if (thread < 0 || thread >= columns.length) throw makeDoubt(code, OF_COLUMN);
      // A comment ends at the next column. One that crosses it may have code after it.
      if (thread === commented) continue;
      const bare = dropComment(code);
      const isComment = bare !== code && !CRITICAL.test(bare);
      if (isComment) commented = thread;
      const isCrossing = isComment && !hasBars && (cells.length > 1 || bare.trim()) && index + code.length > columns[thread + 1];
      if (isCrossing) throw makeDoubt(code, "the comment may end in the next column");
      const made = makeLine(bare.trim(), Math.max(index - (hasBars ? 0 : columns[thread]), 0));
      const above = threads[thread].at(-1);
      // A cell without one beside it may be that of all columns.
      const isCentred = !hasBars && cells.length < columns.length && made.indent > above?.indent + 1 && !OPENS.test(above.code);
      if (made.code && (above?.row === row || isCentred)) throw makeDoubt(code, OF_COLUMN);
      if (made.code) threads[thread].push({ ...made, row });
    }
  }
  return threads;
}

/** Returns the threads between signs: each line has its indentation. */
function toLines(code) {
  return code.split("\n").map((it) => makeLine(it.trim(), Math.max(it.search(/\S/), 0))).filter((it) => it.code);
}

/** Returns the index of the first line that asks, and is not `isCode`; the number of lines, if none does. */
function findEnd(lines, isCode) {
  const end = lines.findIndex((it) => ASKS.test(it.trim().replace(/(?<=\S)\s*\/\/.*$/, "")) && !isCode(it));
  return end < 0 ? lines.length : end;
}

/** Returns whether an assertion at the margin may be one of the thread above it, and not of the whole: no line is blank above it, and it names more than registers. */
function isUnsureAssertion(line, apart) {
  const names = line.replace(/\b(?:assert|(?:BUG|WARN)_ON(?:_ONCE)?|and|or|not|true|false)\b/gi, " ").match(/[A-Za-z_]\w*/g) ?? [];
  return !apart.has(line) && !names.every((it) => /^r\w?\d$|^r\d+$/i.test(it));
}

/** Returns a text of threads between `{{{`, `|||` and `}}}`; null if it has none. */
function readBraced(text) {
  const [, before, inner, after] = /^([^{}]*)\{\{\{([^]*?)\}\}\}([^]*)$/.exec(text) ?? [];
  if (inner === undefined) return null;
  const listLines = (it) => it.split("\n").map((line) => dropComment(line).trim()).filter(Boolean);
  const threads = inner.split("|||").map((it) => toLines(it.split("\n").map(dropComment).join("\n")));
  return { before: listLines(before), threads, after: listLines(after), first: 0 };
}

/**
 * Returns a text of threads in columns, below a row of their names at an index, or without names from the row at an index on. Lines `apart` have a blank one
 * above them.
 */
function readBeside(lines, at, isNamed, apart) {
  const names = listCells(lines[at]).filter((it) => !COMMENTS.test(it.code));
  const below = lines.slice(isNamed ? at + 1 : at).filter((it) => !UNDERLINE.test(it));
  const before = [...lines.slice(0, at), ...below.filter((it) => INITIAL.test(it))];
  const rows = below.filter((it) => !INITIAL.test(it));
  const columns = names.map((it) => it.index);
  const hasBars = lines[at].includes("|");
  // An assertion that begins in a column is one of the thread there.
  const isAssertion = (it) => !hasBars && columns.length > 1 && ASSERTS.test(it);
  const end = findEnd(rows, (it) => isAssertion(it) && it.search(/\S/) >= columns[1] - 2);
  const asked = rows[end] ?? "";
  const isShort = asked.trimEnd().length < columns[1];
  if (isAssertion(asked) && isShort && isUnsureAssertion(asked, apart)) throw makeDoubt(asked, OF_ASSERTION);
  const code = rows.slice(0, end);
  // Initial values may be below the names.
  while (/^\s*\{[^{}]*\}\s*$/.test(code[0] ?? "")) before.push(code.shift().replace(/[{}]/g, ""));
  if (!hasBars && hasOtherTabs(lines[at], code, columns)) throw makeDoubt(lines[at], OF_TABS);
  const threads = readColumns(code, columns, hasBars);
  const first = isNamed ? findFirst(names.map((it) => findNumber(it.code))) : 0;
  return { before, threads, after: rows.slice(end), first };
}

/** Returns the name of a thread at the beginning of a line: its letters (`label`), and whether the line has nothing else; null if there is none. */
function parseHead(line) {
  const [label] = BEGIN.exec(line) ?? [];
  const isBare = listPieces(line).length === 1 && ONLY_NAME.test(line.trim());
  if (label === undefined && !isBare) return null;
  return { label: label ?? line, isBare, isLong: LONG_NAME.test(line), name: findNumber(line) ?? findLetter(line) };
}

/**
 * Returns the names of threads at the beginnings of lines, null for other lines: those of labels are none. Returns null if it is not sure which names
 * are those of threads.
 */
function findHeads(lines) {
  const heads = lines.map(parseHead);
  const letters = lines.flatMap((it) => LETTER_HEAD.exec(it)?.[1] ?? []);
  if (letters.length > 1 && !heads.some((it) => it?.isLong || (it?.isBare && !LETTER_ALONE.test(it.label)))) {
    const isSure = new Set(letters).size === letters.length && lines.every((it) => !LETTER_HEAD.test(it) || LETTER_ALONE.test(it));
    return isSure ? lines.map((it) => (LETTER_ALONE.test(it) ? { label: it, isBare: true, isLong: false, name: it.trim()[0] } : null)) : null;
  }
  const isOf = (pattern) => heads.some((it) => it && pattern(it));
  const [isLong, isBare] = [isOf((it) => it.isLong), isOf((it) => it.isBare)];
  const chosen = heads.map((it) => (it && (isLong ? it.isLong : it.isBare || !isBare) ? it : null));
  const isUnsure = (line, at) => {
    const code = chosen[at] ? line.slice(chosen[at].label.length) : line;
    if (chosen[at] && BEGIN.test(code) && parseHead(code).isLong === isLong) return true;
    return LETTER_HEAD.test(line) || (!isLong && !isBare && (NUMBERED.test(code) || (heads[at] === null && BEGIN.test(code))));
  };
  return lines.some(isUnsure) ? null : chosen;
}

/** Returns the lines of the last thread without those that end it, and these: they are less indented than its code and that of the others. */
function splitLast(parts) {
  const [last, others] = [parts.at(-1), parts.slice(0, -1)];
  const indentOf = ({ raw, made }) => Math.max(raw, made.indent);
  const base = last.column ?? (last.rows.length ? indentOf(last.rows[0]) : 0);
  const least = Math.min(base, ...others.flatMap((it) => it.rows.slice(it.column === null ? 0 : 1).map(indentOf)));
  const end = last.rows.findIndex((it) => indentOf(it) < least);
  return end < 0 ? [last.rows, []] : [last.rows.slice(0, end), last.rows.slice(end)];
}

/** Returns a text of threads below their names; null if it has none. Lines `apart` have a blank one above them. */
function readBelow(given, apart) {
  const lines = given.filter((it) => !UNDERLINE.test(it));
  const heads = findHeads(lines);
  if (!heads) throw makeDoubt(lines.find((it) => BEGIN.test(it) || LETTER_HEAD.test(it)) ?? "", OF_LABELS);
  const [before, after, parts, numbers] = [[], [], [], []];
  let last = null;
  for (const [at, line] of lines.entries()) {
    const head = heads[at];
    // A label of a line may begin as the name of its thread.
    if (head && (head.isBare || head.name !== last)) {
      parts.push({ rows: [], column: null });
      numbers.push(findNumber(line));
    }
    last = head?.name ?? last;
    if (head?.isBare) continue;
    const code = dropComment(head ? " ".repeat(head.label.length) + line.slice(head.label.length) : line);
    const raw = code.search(/\S/);
    // Below code that is not indented an assertion may be one of the last thread.
    const isBare = raw === 0 && parts.at(-1)?.rows.at(-1)?.raw === 0;
    if (isBare && ASSERTS.test(code) && isUnsureAssertion(line, apart)) throw makeDoubt(line, OF_ASSERTION);
    if (!parts.length || INITIAL.test(line)) before.push(line);
    else if (after.length || (ASKS.test(code.trim()) && raw === 0)) after.push(line);
    else if (code.trim()) {
      if (head && !parts.at(-1).rows.length) parts.at(-1).column = raw;
      parts.at(-1).rows.push({ line, raw, made: makeLine(code.trim(), raw) });
    }
  }
  if (!parts.length) return null;
  const [rows, ended] = splitLast(parts);
  const asking = ended.findIndex(({ line }) => ASKS.test(line.trim()));
  const isCode = ({ line }) => !OUTCOME.test(line.trim()) && !PAIR.test(line.trim()) && !(PROSE.test(line.trim()) && !IS_CODE.test(line));
  const unsure = ended.slice(0, asking < 0 ? ended.length : asking).find(isCode);
  if (unsure) throw makeDoubt(unsure.line, "it is less indented than the last thread, so it may be code of that or not");
  const threads = [...parts.slice(0, -1).map((it) => it.rows), rows].map((it) => it.map(({ made }) => made));
  // Instructions of x86 below names are read by assembly.js.
  if (threads.flat().some((it) => /^mov/i.test(it.code) && !PSEUDO_MOVE.test(it.code))) return null;
  return { before, threads, after: [...ended.map((it) => it.line), ...after], first: findFirst(numbers) };
}

/** Returns the end of a thread that may be an outcome: it sets names to numbers, with commas, as no other line does; undefined if there is none. */
function findOutcomeLine(threads) {
  const found = threads.flat().filter((it) => SET_BY_COMMAS.test(it.code));
  return found.length === 1 && threads.some((it) => it.length > 1 && it.at(-1) === found[0]) ? found[0].code : undefined;
}

/** Throws a doubt if what is read of a text is not sure as a whole. */
function refuseUnsure({ threads, after, first }) {
  const empty = threads.findIndex((it) => !it.length);
  if (threads.length > 1 && empty >= 0) throw new Doubt(`the thread ${empty + first || empty}: ${OF_NO_CODE}`);
  if (threads.length > MAX_THREADS) throw new Doubt("its number of threads: a test has four at most");
  if (!(first <= 1)) throw new Doubt("the names of the threads: their numbers are not in order from 0 or 1 on");
  const outcome = findOutcomeLine(threads);
  if (outcome) throw makeDoubt(outcome, OF_OUTCOME);
  const statement = after.find((it) => STATEMENT.test(it));
  if (statement) throw makeDoubt(statement, OF_STATEMENT);
}

/**
 * Returns whether threads with code in C, which have their own names, may set one of them as an outcome, not as a statement: a number comes after what
 * was loaded, or another thread loads the name, and the name is not used then.
 * @param {string[]} codes
 * @param {string[][]} own
 * @returns {boolean}
 */
export function hasOutcome(codes, own) {
  const isSet = (name, code) => new RegExp(`(?<!\\w)${name} ?= ?[^\\d\\s=]`).test(code);
  return codes.some((code, thread) => own[thread].some((name) => {
    const end = code.search(new RegExp(`(?<![\\w\\]])${name} ?= ?\\d+ ?(?:;(?![^]*(?<!\\w)${name}\\b)|$)`));
    const before = code.slice(0, Math.max(end, 0));
    const isInBranch = !/(?:^|[;}])\s*$/.test(before) || before.split("{").length > before.split("}").length;
    if (end < 0 || /^(?:inside|critical)/.test(name) || isInBranch) return false;
    return isSet(name, before) || codes.some((it, other) => other !== thread && own[other].includes(name) && isSet(name, it));
  }));
}

/**
 * Returns the threads of pseudo code, and what is around them; null if a text has none. Throws a doubt if they are not sure.
 * @param {string} text
 * @returns {PseudoText | null}
 */
export function findPseudoThreads(text) {
  if (text.length > MAX_LETTERS || TEST.test(text) || EVENTS.test(text)) return null;
  const blanked = blankSpans(numberRoles(text).replace(/\r/g, "").replaceAll("\u00a0", " ").replace(PARALLEL, "||"));
  const lines = splitLines(blanked.replace(IN_BRACES, "$<indent>$<name>:\n$<indent> $<line>$<lines>\n"));
  const isRow = (it, isCell) => listCells(it).length > 1 && listCells(it).every(isCell);
  const named = lines.findIndex((it) => isRow(it, (cell) => isName(cell) || COMMENTS.test(cell.code)));
  const hasNames = lines.some((it) => BEGIN.test(it) || ONLY_NAME.test(it.trim()) || LETTER_ALONE.test(it));
  const columns = lines.findIndex((it) => isRow(it, ({ code }) => STORE.test(code)) && !ASKS.test(it.trim()) && !INITIAL.test(it));
  const apart = new Set(blanked.split("\n").filter((it, row, all) => row && !all[row - 1].trim()));
  const readLines = () => {
    if (named >= 0) return readBeside(lines, named, true, apart);
    if (hasNames) return readBelow(lines, apart);
    return columns >= 0 && lines.slice(0, columns).every((it) => listCells(it).length < 2) ? readBeside(lines, columns, false, apart) : null;
  };
  const read = readBraced(blanked) ?? readLines();
  const commented = [...text.matchAll(INITIAL_COMMENT)].map(([, words]) => words);
  read?.before.push(...commented);
  // One thread has a name by a whole word with a number, in its own line, and no blank line that may begin another thread.
  const isAlone = read?.threads.length === 1 && !/\n\s*\n/.test(text.trim()) && lines.some((it) => LONG_NAME.test(it) && ONLY_NAME.exec(it.trim())?.[1]);
  if (!read || (read.threads.length < 2 && !isAlone)) return null;
  refuseUnsure(read);
  return read;
}

/**
 * Returns what `findPseudoThreads` does; null also if that is not sure.
 * @param {string} text
 * @returns {PseudoText | null}
 */
export function readPseudoText(text) {
  try {
    return findPseudoThreads(text);
  } catch (error) {
    if (error instanceof Doubt) return null;
    throw error;
  }
}
