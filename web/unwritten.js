// Finds registers that no load has written in any run to a state, since all code that writes them is jumped over: then the state has their initial
// words, which look as if they were loaded. Each path through a thread's code is followed with unknown words for loads; one that can't end with the state's registers is left out. What is left
// has all runs to the state, and maybe others, so what no path of these writes, no run writes. Not proved.

import { parseReportLine } from "./replays.js";
import { readTest } from "./tests.js";
import { REGISTERS } from "./token_reader.js";

// The largest number of paths that are followed through a thread's code.
const MAX_PATHS = 2000;
const LOADING = ["load", "xchg", "xadd"];
const WRITING = ["load", "set", "add", "xchg", "xadd"];

/**
 * Returns what is known of unknown words if a word is, or is not, another one; null if it can't be. A word is a number, or an unknown one as `{ from }`, the
 * number of its instruction.
 */
function learn(known, word, number, isEqual) {
  if (typeof word === "number") return (word === number) === isEqual ? known : null;
  const { is = null, not = [] } = known[word.from] ?? {};
  if (isEqual ? not.includes(number) || (is !== null && is !== number) : is === number) return null;
  return { ...known, [word.from]: isEqual ? { is: number, not } : { is, not: [...not, number] } };
}

/** Returns the ends of all paths through a thread's code: the words of registers, what is known of unknown ones, and which are written; null if there are too many. */
function listPathEnds(code, registers) {
  const ends = [];
  const queue = [{ at: 0, words: registers.map(Number), known: {}, written: [], compared: null }];
  while (queue.length) {
    const { at, words, known, written, compared } = queue.pop();
    if (queue.length + ends.length > MAX_PATHS) return null;
    if (at >= code.length) {
      ends.push({ words, known, written });
      continue;
    }
    const { kind, register, value, target } = code[at];
    if (target !== undefined && target <= at) return null;
    if (kind === "jmp") queue.push({ at: target, words, known, written, compared });
    else if (kind === "je" || kind === "jne") {
      for (const isTaken of [false, true]) {
        const learnt = compared ? learn(known, compared.word, compared.number, isTaken === (kind === "je")) : known;
        if (learnt) queue.push({ at: isTaken ? target : at + 1, words, known: learnt, written, compared });
      }
    } else {
      const operand = value?.number ?? words[value?.register];
      const after = [...words];
      if (WRITING.includes(kind)) after[register] = kind === "set" ? operand : { from: at };
      const isKnown = kind === "cmp" && typeof operand === "number";
      const flag = isKnown ? { word: words[register], number: operand } : ["load", "set", "store", "mfence"].includes(kind) ? compared : null;
      queue.push({ at: at + 1, words: after, known, written: WRITING.includes(kind) ? [...written, register] : written, compared: flag });
    }
  }
  return ends;
}

/** Returns whether a path may end with some words of registers. */
function canEndWith({ words, known }, found) {
  return found.reduce((so_far, { register, word }) => so_far && learn(so_far, words[register], word, true), known) !== null;
}

/**
 * Returns for some lines of states of an x86 test the names of the registers, as `0:EAX`, that the test loads and that no instruction has written in any run
 * to them.
 * @param {string} text
 * @param {string[]} lines
 * @returns {Map<string, string[]>}
 */
export function findUnwritten(text, lines) {
  const test = readTest(text);
  if (test.language !== "X86") return new Map();
  const ends = test.threads.map((code, thread) => listPathEnds(code, test.registers[thread]));
  const listNames = (line) => {
    const sites = parseReportLine(line).flatMap(([name, word]) => {
      const [, thread, register] = /^(\d):(\w+)$/.exec(name) ?? [];
      return register ? [{ name, thread: Number(thread), register: REGISTERS.X86.indexOf(register), word }] : [];
    });
    const possible = ends.map((all, thread) => all?.filter((it) => canEndWith(it, sites.filter((site) => site.thread === thread))) ?? []);
    const isLoaded = ({ thread, register }) => test.threads[thread].some((it) => LOADING.includes(it.kind) && it.register === register);
    const isUnwritten = ({ thread, register }) => possible[thread].length > 0 && possible[thread].every(({ written }) => !written.includes(register));
    return sites.filter((it) => isLoaded(it) && isUnwritten(it)).map(({ name }) => name);
  };
  return new Map(lines.map((line) => [line, listNames(line)]));
}
