// Finds the words that the registers of threads may have, from the instructions of a test: all words that some order of its accesses may give them, and
// perhaps more. Not proved.
//
// An `Origin` is a word with the set of writes that it comes from, which are bits: `5/3`.

import { WORD } from "./token_reader.js";

// An instruction: the groups are its labels, its name, and its operands.
const INSTRUCTION = /^((?:\w+: ?)*)(?:(MOV|ADD|XCHG|LOCK XADD|CMP|JE|JNE|JMP|MFENCE)(?: (.*))?)?$/;
// Sets with more origins, and tests with more writes, are not followed.
const MOST = 60;
const MOST_WRITES = 30;

/** Returns the origins of sums of two words. */
function addWords(one, other) {
  const sum = ([word, writes], [added, others]) => `${(word + added) % WORD}/${writes | others}`;
  return new Set([...one].flatMap((it) => [...other].map((another) => sum(it.split("/").map(Number), another.split("/").map(Number)))));
}

/** Returns the registers after two paths, the second one of which may be none. */
function joinStates(one, other) {
  if (!one || !other) return one ?? other ?? null;
  return new Map([...one.keys(), ...other.keys()].map((it) => [it, new Set([...one.get(it) ?? ["0/0"], ...other.get(it) ?? ["0/0"]])]));
}

/**
 * Follows the instructions of a thread, whose writes have numbers from `first` on, given the origins that other threads and the initial state give to its
 * loads. Returns the origins of its registers, and those that it writes.
 */
function followThread(instructions, first, findOthers) {
  let [state, number] = [new Map(), first];
  const jumped = new Map();
  const written = new Map();
  // No write is executed twice, so that none has its own word.
  const write = (place, origins) => {
    const bit = 1 << number;
    const others = [...origins].map((it) => it.split("/")).filter(([, writes]) => !(Number(writes) & bit));
    written.set(place, new Set([...written.get(place) ?? [], ...others.map(([word, writes]) => `${word}/${Number(writes) | bit}`)]));
  };
  // A thread loads of its own words only those that it has written before.
  const load = (place) => new Set([...findOthers(place), ...written.get(place) ?? []]);
  for (const [, labels, name = "", operands = ""] of instructions.map((it) => INSTRUCTION.exec(it))) {
    for (const label of labels.split(/: ?/)) state = joinStates(state, jumped.get(label));
    const [target, source = ""] = operands.split(",");
    const find = (it) => (it[0] === "$" ? new Set([`${it.slice(1)}/0`]) : it[0] === "[" ? load(it) : new Set(state.get(it) ?? ["0/0"]));
    const isWrite = target[0] === "[";
    if (state && name.startsWith("J")) jumped.set(target, joinStates(new Map(state), jumped.get(target)));
    if (name === "JMP") state = null;
    else if (state && isWrite) {
      const [found, origins] = [load(target), find(source)];
      write(target, name === "LOCK XADD" ? addWords(found, origins) : origins);
      if (name !== "MOV") state.set(source, new Set([...found].filter((it) => !(Number(it.split("/")[1]) & (1 << number)))));
    } else if (state && /^(?:MOV|ADD)$/.test(name)) state.set(target, name === "MOV" ? find(source) : addWords(find(target), find(source)));
    number += Number(isWrite);
  }
  return { registers: state ?? new Map(), written };
}

/**
 * Returns a function of a site, as `0:EAX` or `x`, that returns the words which it may have at the end; null if these are too many.
 * @param {{number: number, instructions: string[]}[]} writers
 * @param {Map<string, number>} words
 * @returns {function(string): number[] | null}
 */
export function findAllWords(writers, words) {
  const counts = writers.map((it) => it.instructions.filter((instruction) => /(?:MOV|XCHG|XADD) \[/.test(instruction)).length);
  const count = counts.reduce((all, it) => all + it, 0);
  if (count > MOST_WRITES) return () => null;
  let all = writers.map(() => ({ registers: new Map(), written: new Map() }));
  // Each round follows an origin to one more write, and none has more writes than there are.
  for (let round = 0; round <= count; round += 1) {
    const before = all;
    const findOthers = (thread) => (place) => {
      const others = before.flatMap((it, number) => (number === thread ? [] : [...it.written.get(place) ?? []]));
      return [`${words.get(place.slice(1, -1))}/0`, ...others];
    };
    all = writers.map((it, thread) => followThread(it.instructions, counts.slice(0, thread).reduce((sum, some) => sum + some, 0), findOthers(thread)));
    if (all.some(({ registers, written }) => [...registers.values(), ...written.values()].some((it) => it.size > MOST))) return () => null;
  }
  return (site) => {
    const [number, register] = site.split(":");
    const listWritten = (name) => [`${words.get(name)}/0`, ...all.flatMap((it) => [...it.written.get(`[${name}]`) ?? []])];
    const origins = register ? [...all[Number(number)].registers.get(register) ?? ["0/0"]] : listWritten(site);
    return [...new Set(origins.map((it) => Number(it.split("/")[0])))].sort((one, other) => one - other);
  };
}
