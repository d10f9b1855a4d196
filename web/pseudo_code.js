// Makes a test of pseudo code, as books and blogs write it: assignments and fences, below the names of threads or side by side. Not proved.

import { alignCells } from "./aligned.js";
import { numberThreads } from "./assembly.js";
import { guessProposition } from "./guess_question.js";
import { makeBlock } from "./initial_values.js";
import { findRewriting } from "./notation.js";
import { isRead } from "./other_tools.js";
import { readAnnotations } from "./pseudo_annotations.js";
import { EVENTS, hasOutcome, readPseudoText } from "./pseudo_lines.js";
import { rewritePseudoProgram } from "./pseudo_program.js";
import { REGISTERS } from "./token_reader.js";

// A longer text is not read.
const LONGEST = 4000;
const MAX_THREADS = 4;
// The row of the threads' names in a test. And what a test begins with.
const TABLE = /^[ \t]*P0[ \t]*\|(?!\|)[^;\n]*;/m;
const FRONT = /^\s*(X86|SRC)\s+\S+\s*\{[^}|;]*\}/;
const QUESTION = /^(?:locations\b|forall\b|(?:(?:[~!]|not\b)\s*)?exists\b)/i;
// A line that asks in words, and one with initial values: the group is what is after its first word.
const ASKS = /^(?:can|could|is|may|might|what|question|outcome|result|final|finally|forbidden|allowed)\b(?!\s*(?::?=|<-|\u2190|\+|-))/i;
// A comment that may have initial values, or be a fence.
const NO_COMMENT = /\/\/.*(?:\binit|=|\b(?:barrier|m?fence)\b)/i;
const INITIAL = /^(?:initial(?:ly)?|init|shared|globals?)\b(?:\s+(?:state|values?))?\s*:?(.*)$/i;
// The name of a thread: the group is its number. And one before its code.
const NAME = "(?:P|T|CPU|core|proc|process|processor|thread)[ \\t_]*(\\d)";
const ONLY_NAME = new RegExp(`^${NAME}:?$`, "i");
const BEGIN = new RegExp(`^${NAME}\\s*:(?!=)(.*)$`, "i");
const FENCE = /^(?:mfence|fence|smp_mb|atomic_thread_fence|__sync_synchronize)\b\s*(?:\((?:[\w:]*seq_cst|sc)?\))?$/i;
const ASSIGNMENT = /^([A-Za-z_]\w*)\s*:?=\s*(\w+)$/;
// A line below the names of threads, as manuals of Linux have it.
const RULE = /^[=\-\s]{3,}$/;
const BARS = /\|{1,3}|\u2225|\u2016/;
const BESIDE = /\t| {2,}/;

/** Returns the statements of a part of a line; null if it has something else. */
function parseStatements(code) {
  const all = code.split(";").map((it) => it.trim()).filter(Boolean);
  return all.every((it) => FENCE.test(it) || ASSIGNMENT.test(it)) ? all.map((it) => (FENCE.test(it) ? "MFENCE" : it.replace(":=", "="))) : null;
}

/** Returns the statements of the threads, which are below their names, and the number of the first one; null if lines are something else. */
function readBelow(lines) {
  const threads = [];
  for (const line of lines) {
    const [, number, rest] = BEGIN.exec(line) ?? (ONLY_NAME.test(line) ? [line, ONLY_NAME.exec(line)[1], ""] : []);
    if (number !== undefined) threads.push({ number: Number(number), code: [] });
    const statements = parseStatements(rest ?? line);
    if (!statements || !threads.length) return null;
    threads.at(-1).code.push(...statements);
  }
  const first = threads[0]?.number;
  return first <= 1 && threads.every((it, at) => it.number === first + at) ? { codes: threads.map((it) => it.code), first } : null;
}

/** Returns the same of threads side by side, with their names above or without them; null if lines are something else. */
function readBeside(lines) {
  const rows = lines.map((line) => line.replace(/;$/, "").split(BARS.test(line) ? BARS : BESIDE).map((it) => it.trim()));
  const numbers = rows[0]?.map((it) => ONLY_NAME.exec(it)?.[1]) ?? [];
  const first = numbers.includes(undefined) ? 0 : Number(numbers[0]);
  const code = numbers.includes(undefined) ? rows : rows.slice(1);
  const count = rows[0]?.length ?? 0;
  const cells = code.map((row) => row.map(parseStatements));
  if (count < 2 || first > 1 || !code.length || cells.some((row) => row.length !== count || row.includes(null))) return null;
  if (code !== rows && numbers.some((it, at) => Number(it) !== first + at)) return null;
  return { codes: Array.from({ length: count }, (_, thread) => cells.flatMap((row) => row[thread])), first };
}

/** Returns the names of each thread that are its own, each with a register: they are set from a name, and no other thread and no initial value has them. */
function findOwnNames(codes, block) {
  const listNames = (code) => code.flatMap((it) => ASSIGNMENT.exec(it)?.slice(1) ?? []).filter((it) => /^[A-Za-z_]/.test(it));
  const all = codes.map(listNames);
  return codes.map((code, thread) => {
    const used = all[thread];
    const free = REGISTERS.SRC.filter((it) => !used.includes(it));
    const isElsewhere = (name) => all.some((names, other) => other !== thread && names.includes(name)) || new RegExp(`\\b${name}\\b`).test(block);
    const set = code.flatMap((it) => (/^[A-Za-z_]/.test(ASSIGNMENT.exec(it)?.[2] ?? "") ? [ASSIGNMENT.exec(it)[1]] : []));
    const own = [...new Set(set)].filter((it) => !REGISTERS.SRC.includes(it) && !isElsewhere(it));
    return new Map(own.map((name, at) => [name, free[at] ?? name]));
  });
}

/** Returns whether a thread has the name of a register that it does not set, and that another thread sets: it is that of a location then. */
function hasSharedRegister(codes) {
  const isSet = (name, code) => code.some((it) => ASSIGNMENT.exec(it)?.[1] === name);
  return codes.some((code, thread) => code.some((it) => {
    const from = ASSIGNMENT.exec(it)?.[2];
    return REGISTERS.SRC.includes(from) && !isSet(from, code) && codes.some((other, at) => at !== thread && isSet(from, other));
  }));
}

/** Returns whether what is read of a text without the head of a test is sure: all of it is read with indentation, and no outcome is a statement. */
function isSure(codes, text) {
  const listSet = (code) => code.flatMap((it) => ASSIGNMENT.exec(it)?.[1] ?? []).filter((it) => REGISTERS.SRC.includes(it) || /^r\d*$/.test(it));
  const isRewritten = (it) => rewritePseudoProgram(it)?.isUnread === false;
  const sure = [text, ...(text.includes("\t") ? [text.replaceAll("\t", " | ")] : [])].find(isRewritten);
  if (sure === undefined || readPseudoText(sure)?.threads.length !== codes.length) return false;
  return !hasOutcome(codes.map((it) => it.join("; ")), codes.map(listSet));
}

/** Returns what is read of a text: the code of the threads, with registers for their own names, and a table of it with a question. */
function readPseudoCode(text) {
  const [front = "", language = ""] = FRONT.exec(text) ?? [];
  const lines = text.slice(front.length).split("\n").map((it) => it.replace(/\/\/.*$/, "").trim()).filter((it) => it && !RULE.test(it));
  const end = lines.findIndex((it) => QUESTION.test(it) || ASKS.test(it));
  const rows = end < 0 ? lines : lines.slice(0, end);
  const question = end >= 0 && QUESTION.test(lines[end]) ? lines.slice(end).join("\n") : "";
  const [, initial] = INITIAL.exec(rows[0] ?? "") ?? [];
  const read = readBelow(initial === undefined ? rows : rows.slice(1)) ?? readBeside(initial === undefined ? rows : rows.slice(1));
  const block = front ? "" : initial?.trim() ? makeBlock(initial.replace(/\.$/, "")) : "{}";
  if (!read || block === null || read.codes.length < 2 || read.codes.length > MAX_THREADS || hasSharedRegister(read.codes)) return null;
  if (end >= 0 && !question && lines.slice(end + 1).some((it) => parseStatements(it) || BEGIN.test(it) || ONLY_NAME.test(it))) return null;
  if (!isSure(read.codes, text.slice(front.length))) return null;
  const own = findOwnNames(read.codes, front || block);
  const rename = (code, thread) => code.replace(/[A-Za-z_]\w*/g, (it) => own[thread].get(it) ?? it);
  const codes = read.codes.map((code, thread) => code.map((it) => rename(it, thread)));
  const site = (name) => own.flatMap((names, thread) => (names.has(name) ? [`${thread}:${names.get(name)}`] : []))[0] ?? name;
  const asked = numberThreads(question, read.first).replace(/(?<![\w:])[A-Za-z_]\w*/g, site);
  return { head: front || `X86 Mine\n${block}`, language, codes, own, asked };
}

/** Returns a guessed question, with a list of the registers that it does not name and that are set from a location; of all locations, if there are none. */
function guessQuestion(codes) {
  const loads = codes.map((code, thread) => code.flatMap((it) => parseLoad(it, thread) ?? []));
  const proposition = guessProposition(loads);
  const stored = codes.flat().flatMap((it) => /^(?!r\d)[A-Za-z_]\w*(?=\s*:?=)/.exec(it)?.[0] ?? []);
  const sites = loads.flat().map((it) => it.site);
  const listed = new Set(sites.length ? sites.filter((it) => !proposition.includes(it)) : stored);
  const list = listed.size ? `locations [${[...listed].map((it) => `${it};`).join(" ")}]\n` : "";
  return `${list}exists (${proposition})`;
}

/** Returns the load of a statement of a thread, as guessProposition has it; undefined if it is none. */
function parseLoad(code, thread) {
  const [, register, location] = /^(r\d)\s*:?=\s*(?!r\d)([A-Za-z_]\w*)/.exec(code) ?? [];
  return register && { site: `${thread}:${register}`, location };
}

/** Returns the register of x86 code that has the words of a register of a source test. */
function findX86Register(register) {
  return REGISTERS.X86[REGISTERS.SRC.indexOf(register)];
}

/** Returns a test; if it is x86 code, with a comment that says which names of the code its registers are. */
function nameRegisters(text, codes, own) {
  if (!text.startsWith("X86")) return text;
  const named = codes.flatMap((code, thread) => {
    const registers = new Set(code.flatMap((it) => it.match(/(?<!\w)r\d(?!\w)/g) ?? []));
    const findName = (register) => [...own[thread]].find(([, it]) => it === register)?.[0] ?? register;
    return [...registers].map((it) => `${thread}:${findX86Register(it)} is ${findName(it)}`);
  });
  return named.length ? text.replace("\n", `\n(* ${named.join(", ")} *)\n`) : text;
}

/**
 * Returns a hint that offers a test of pseudo code, as x86 code and as a source test; or null if a text is something else.
 * @param {string} text
 * @returns {Hint | null}
 */
export function explainPseudoCode(text) {
  const read = text.length > LONGEST || readAnnotations(text) || TABLE.test(text) || NO_COMMENT.test(text) || EVENTS.test(text) ? null : readPseudoCode(text);
  if (!read) return null;
  const { head, language, codes, own, asked } = read;
  const rows = Array.from({ length: Math.max(...codes.map((it) => it.length)) }, (_, row) => codes.map((it) => it[row] ?? ""));
  const names = codes.map((_, thread) => `P${thread}`);
  const table = `${head}\n${[names, ...rows].map((it) => ` ${it.join(" | ")} ;\n`).join("")}${asked || guessQuestion(codes)}\n`;
  const { change, also } = findRewriting(table, 0) ?? {};
  const makeText = (it) => it && table.slice(0, it.begin) + it.text + table.slice(it.end);
  const made = [makeText(also ?? change) ?? table, makeText(also && change)].filter((it) => it && isRead(it)).map((it) => alignCells(nameRegisters(it, codes, own)));
  const offers = made.map((it) => ({ begin: 0, end: text.length, text: it, title: it.startsWith("SRC") ? "Make a source test of it" : "Make x86 code of it", done: "Rewritten." }));
  const chosen = offers.filter((it) => !language || it.text.trimStart().startsWith(language));
  if (!chosen.length) return null;
  const describeRegister = (register) => `\`${register}\` (\`${findX86Register(register)}\`)`;
  const renamed = own.flatMap((it, thread) => [...it].map(([name, register]) => `\`${name}\` is ${describeRegister(register)} of P${thread}.`));
  const words = [
    "This is pseudo code: each assignment is one load or one store.", ...renamed,
    !asked && "The question is a guess: change it to yours.", chosen.length > 1 && "A source test runs by interleaving; the tab Compile adds its fences.",
  ];
  return { words: words.filter(Boolean).join(" "), change: chosen[0], also: chosen[1], isOffer: true };
}
