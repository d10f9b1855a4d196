// Finds all final states of an x86 test by a walk through all its reachable states, with store buffers before one memory. Not proved:
// for lists that lw refuses for its limits. There is no limit here.
//
// A `MachineState` has `processors`, each with its `position`, its `registers`, its `zero` flag and its `buffer`, pairs of a location and a
// word, the oldest first; and the `words` of memory. `Item` is any type.

import { formatSite, isTrueIn, listObservedSites, readWord } from "./propositions.js";
import { WORD } from "./token_reader.js";

/**
 * Returns a list with one item replaced.
 * @param {Item[]} list
 * @param {number} index
 * @param {Item} item
 * @returns {Item[]}
 */
function replaceItem(list, index, item) {
  return list.with ? list.with(index, item) : list.map((it, number) => (number === index ? item : it));
}

/**
 * Returns the word of a statement's value, by its thread's registers.
 * @param {Value} value
 * @param {number[]} registers
 * @returns {number}
 */
function readValue(value, registers) {
  return value.number === undefined ? registers[value.register] : value.number;
}

/**
 * Returns a state in which a processor has other fields, and memory perhaps other words. Without a `position` in `changes` the processor is at its next
 * instruction.
 * @param {MachineState} state
 * @param {number} cpu
 * @param {object} changes
 * @param {number[]} [words]
 * @returns {MachineState}
 */
function advance(state, cpu, changes, words = state.words) {
  const processor = state.processors[cpu];
  return { processors: replaceItem(state.processors, cpu, { ...processor, position: processor.position + 1, ...changes }), words };
}

/**
 * Returns the state after the next instruction of a processor, or null if it has ended or waits.
 * @param {Test} test
 * @param {MachineState} state
 * @param {number} cpu
 * @returns {MachineState | null}
 */
function executeNext(test, state, cpu) {
  const { position, registers, zero, buffer } = state.processors[cpu];
  const instruction = test.threads[cpu][position];
  if (!instruction) return null;
  if (instruction.kind === "mfence") return buffer.length ? null : advance(state, cpu, {});
  if (instruction.kind === "xchg" || instruction.kind === "xadd") return buffer.length ? null : executeLocked(state, cpu, instruction);
  if (instruction.target !== undefined) {
    const jumps = instruction.kind === "jmp" || zero === (instruction.kind === "je");
    return advance(state, cpu, jumps ? { position: instruction.target } : {});
  }
  if (instruction.kind === "load") {
    const entry = buffer.findLast(([location]) => location === instruction.location);
    return advance(state, cpu, { registers: replaceItem(registers, instruction.register, entry ? entry[1] : state.words[instruction.location]) });
  }
  const word = readValue(instruction.value, registers);
  if (instruction.kind === "store") return advance(state, cpu, { buffer: [...buffer, [instruction.location, word]] });
  if (instruction.kind === "set") return advance(state, cpu, { registers: replaceItem(registers, instruction.register, word) });
  if (instruction.kind === "cmp") return advance(state, cpu, { zero: registers[instruction.register] === word });
  const total = (registers[instruction.register] + word) % WORD;
  return advance(state, cpu, { registers: replaceItem(registers, instruction.register, total), zero: total === 0 });
}

/**
 * Returns the state after XCHG or LOCK XADD with a location.
 * @param {MachineState} state
 * @param {number} cpu
 * @param {Statement} instruction
 * @returns {MachineState}
 */
function executeLocked(state, cpu, instruction) {
  const { registers } = state.processors[cpu];
  const old = state.words[instruction.location];
  const operand = registers[instruction.register];
  const loaded = replaceItem(registers, instruction.register, old);
  if (instruction.kind === "xchg") return advance(state, cpu, { registers: loaded }, replaceItem(state.words, instruction.location, operand));
  const total = (old + operand) % WORD;
  return advance(state, cpu, { registers: loaded, zero: total === 0 }, replaceItem(state.words, instruction.location, total));
}

/**
 * Returns the state after a drain of a processor's oldest entry, or null if there is none.
 * @param {MachineState} state
 * @param {number} cpu
 * @returns {MachineState | null}
 */
function drainOldest(state, cpu) {
  const { position, buffer } = state.processors[cpu];
  if (!buffer.length) return null;
  const [[location, word], ...others] = buffer;
  return advance(state, cpu, { position, buffer: others }, replaceItem(state.words, location, word));
}

/**
 * Returns the states after each step and each drain that is possible in a state.
 * @param {Test} test
 * @param {MachineState} state
 * @returns {MachineState[]}
 */
function listX86Moves(test, state) {
  return state.processors.flatMap((_, cpu) => [executeNext(test, state, cpu), drainOldest(state, cpu)].filter(Boolean));
}

/**
 * Returns all final states of a test.
 * @param {Test} test
 * @returns {MachineState[]}
 */
function exploreStates(test) {
  const start = { processors: test.registers.map((registers) => ({ position: 0, registers, zero: false, buffer: [] })), words: test.words };
  const seen = new Set([JSON.stringify(start)]);
  const queue = [start];
  const finals = [];
  while (queue.length) {
    const state = queue.pop();
    const successors = listX86Moves(test, state);
    if (!successors.length) finals.push(state);
    for (const next of successors) {
      const key = JSON.stringify(next);
      if (!seen.has(key)) queue.push(next);
      seen.add(key);
    }
  }
  return finals;
}

/**
 * Returns the lines of the states in which a test ends, as a report has them, and the number of those in which its proposition is true.
 * @param {Test} test
 * @returns {{lines: string[], positive: number}}
 */
export function listStates(test) {
  const sites = listObservedSites(test);
  const outcomes = exploreStates(test).map(({ processors, words }) => ({ registers: processors.map((it) => it.registers), words }));
  const rows = outcomes.map((outcome) => ({ row: sites.map((site) => readWord(site, outcome)), isTrue: isTrueIn(test.proposition, outcome) }));
  const sorted = [...new Map(rows.map((it) => [String(it.row), it])).values()].sort((first, second) => compareRows(first.row, second.row));
  const lines = sorted.map(({ row }) => row.map((word, index) => `${formatSite(test, sites[index])}=${word};`).join(" "));
  return { lines, positive: sorted.filter((it) => it.isTrue).length };
}

/**
 * Compares two rows of words of the same length, as a sort does.
 * @param {number[]} first
 * @param {number[]} second
 * @returns {number}
 */
function compareRows(first, second) {
  const index = first.findIndex((word, number) => word !== second[number]);
  return index < 0 ? 0 : first[index] - second[index];
}
