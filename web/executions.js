// Lists the executions of an x86 test by the axiomatic model of x86-TSO, and says which axioms they satisfy, as tools/executions.py. Not proved.
//
// An execution has for each thread the positions of its path (`paths`), for each read the write that it reads from, or null for the
// initial word (`rf`), and for each location its writes in coherence order (`co`). An event is a number, thread * 64 + position. A word that
// would depend on itself is null.
//
// An `Edge`, a pair of a relation, has a `kind` (po, rf, co or fr), and two events, its `source` and its `target`. `Item` is any type.

import { WORD } from "./token_reader.js";

const EVENTS = 64;
const READS = ["load", "xchg", "xadd"];
const WRITES = ["store", "xchg", "xadd"];

/**
 * Returns the thread of an event.
 * @param {number} event
 * @returns {number}
 */
export const findThread = (event) => Math.floor(event / EVENTS);
/**
 * Returns the position of an event's instruction in its thread's code.
 * @param {number} event
 * @returns {number}
 */
export const findPosition = (event) => event % EVENTS;
/** Returns the event of an instruction, by its thread and its position. */
const makeEvent = (thread, position) => thread * EVENTS + position;
/** Returns a function that makes an edge of a kind from its two events. */
const makeEdge = (kind) => ([source, target]) => ({ kind, source, target });

/** There are more candidate executions than the caller allows. */
export class TooMany extends Error {}

/**
 * A candidate execution of an x86 test. The words of events follow from its paths, reads-from and coherence order: `read` and `written` have them, and
 * `ends` each thread's registers at its end, or null if the words lead some thread along another path.
 */
export class Execution {
  constructor(test, paths, rf, co) {
    Object.assign(this, { test, paths, rf, co, read: new Map(), written: new Map() });
    this.ends = this.computeWords();
  }

  /**
   * Returns the same execution with other coherence orders, on which no word depends.
   * @param {Map<number, number[]>} co
   * @returns {Execution}
   */
  withOrders(co) {
    return Object.assign(Object.create(Execution.prototype), this, { co });
  }

  /**
   * Returns the instruction of an event.
   * @param {number} event
   * @returns {Statement}
   */
  findInstruction(event) {
    return this.test.threads[findThread(event)][findPosition(event)];
  }

  /**
   * Returns the accesses to memory and the fences, thread by thread.
   * @returns {number[]}
   */
  listEvents() {
    return listEventsOnPaths(this.paths).filter((it) => isAccessOrFence(this.findInstruction(it)));
  }

  // Words.

  /**
   * Finds the words that events read and write: follows all paths until no word changes. Returns, for each thread, its registers at its end, or null
   * if the words lead some thread elsewhere.
   * @returns {(number | null)[][] | null}
   */
  computeWords() {
    for (;;) {
      const before = new Map(this.written);
      const ends = this.paths.map((path, thread) => this.followPath(thread, path));
      if (ends.includes(null)) return null;
      if ([...this.written].every(([event, word]) => before.get(event) === word)) return ends;
    }
  }

  /**
   * Records the words that a thread's events read and write, as far as they are known. Returns the registers at the end of the path, or null if the
   * words lead elsewhere.
   * @param {number} thread
   * @param {number[]} path
   * @returns {(number | null)[] | null}
   */
  followPath(thread, path) {
    const code = this.test.threads[thread];
    let state = { at: 0, registers: this.test.registers[thread], zero: false };
    for (const position of path) {
      if (state.at !== position && state.at !== null) return null;
      const [event, instruction] = [makeEvent(thread, position), code[position]];
      const word = READS.includes(instruction.kind) ? this.findReadWord(event) : null;
      this.read.set(event, word);
      if (WRITES.includes(instruction.kind)) this.written.set(event, computeWrittenWord(instruction, state.registers, word));
      state = computeNextState(instruction, position, state, word);
    }
    return state.at === code.length || state.at === null ? state.registers : null;
  }

  /**
   * Returns the word that an event reads, or null if it is not known.
   * @param {number} event
   * @returns {number | null}
   */
  findReadWord(event) {
    const source = this.rf.get(event);
    return source === null ? this.test.words[this.findInstruction(event).location] : (this.written.get(source) ?? null);
  }

  /**
   * Returns all threads' registers and the locations' words.
   * @returns {Outcome}
   */
  makeOutcome() {
    const words = this.test.words.map((word, location) => {
      const last = this.co.get(location)?.at(-1);
      return last === undefined ? word : this.written.get(last);
    });
    return { registers: this.ends, words };
  }

  // Relations.

  /**
   * Returns program order, all pairs.
   * @returns {Edge[]}
   */
  listPoEdges() {
    const events = this.listEvents();
    const pairs = events.flatMap((a) => events.filter((b) => findThread(a) === findThread(b) && a < b).map((b) => [a, b]));
    return pairs.map(makeEdge("po"));
  }

  /**
   * Returns reads-from, except from the initial words.
   * @returns {Edge[]}
   */
  listRfEdges() {
    return [...this.rf].filter(([, source]) => source !== null).map(([read, source]) => makeEdge("rf")([source, read]));
  }

  /**
   * Returns coherence order, all pairs.
   * @returns {Edge[]}
   */
  listCoEdges() {
    return [...this.co.values()].flatMap((row) => row.flatMap((a, index) => row.slice(index + 1).map((b) => [a, b]))).map(makeEdge("co"));
  }

  /**
   * Returns from-reads: from each read to the other writes after the one that it reads from.
   * @returns {Edge[]}
   */
  listFrEdges() {
    return [...this.rf].flatMap(([read, source]) => {
      const row = this.co.get(this.findInstruction(read).location) ?? [];
      const later = source === null ? row : row.slice(row.indexOf(source) + 1);
      return later.filter((it) => it !== read).map((it) => makeEdge("fr")([read, it]));
    });
  }

  /**
   * Returns whether all threads see a pair of program order in its order: every pair except a store and then a load.
   * @param {Edge} edge
   * @returns {boolean}
   */
  isPreserved({ source, target }) {
    return !(this.findInstruction(source).kind === "store" && this.findInstruction(target).kind === "load");
  }

  /**
   * Returns whether a fence or a locked instruction is between the events of a pair of program order.
   * @param {Edge} edge
   * @returns {boolean}
   */
  hasFenceBetween({ source, target }) {
    const between = this.listEvents().filter((it) => source < it && it < target);
    return between.some((it) => !["store", "load"].includes(this.findInstruction(it).kind));
  }

  /**
   * Returns the edges of the axiom of coherence.
   * @returns {Edge[]}
   */
  listCoherenceEdges() {
    const findLocation = (event) => this.findInstruction(event).location;
    const isOfOneLocation = ({ source, target }) => findLocation(source) !== undefined && findLocation(source) === findLocation(target);
    return [...this.listPoEdges().filter(isOfOneLocation), ...this.listRfEdges(), ...this.listCoEdges(), ...this.listFrEdges()];
  }

  /**
   * Returns the edges of the axiom of global happens-before.
   * @returns {Edge[]}
   */
  listHappensBeforeEdges() {
    const external = this.listRfEdges().filter((it) => findThread(it.source) !== findThread(it.target));
    return [...this.listPoEdges().filter((it) => this.isPreserved(it)), ...external, ...this.listCoEdges(), ...this.listFrEdges()];
  }

  /**
   * Returns the first axiom that the execution violates, with a shortest cycle; null if it satisfies both.
   * @returns {{axiom: string, cycle: Edge[]} | null}
   */
  findBrokenAxiom() {
    const coherence = findShortestCycle(this.listCoherenceEdges());
    if (coherence) return { axiom: "coherence", cycle: coherence };
    const order = findShortestCycle(this.listHappensBeforeEdges());
    return order && { axiom: "global happens-before", cycle: order };
  }

  /**
   * Returns a shortest cycle of all relations together: there is one if the execution is not sequentially consistent.
   * @returns {Edge[] | null}
   */
  findCycle() {
    return findShortestCycle([...this.listPoEdges(), ...this.listRfEdges(), ...this.listCoEdges(), ...this.listFrEdges()]);
  }
}

/**
 * Returns whether an instruction accesses memory or is a fence.
 * @param {Statement} instruction
 * @returns {boolean}
 */
function isAccessOrFence(instruction) {
  return instruction.location !== undefined || instruction.kind === "mfence";
}

/**
 * Returns the events of all instructions on paths, jumps among them, thread by thread.
 * @param {number[][]} paths
 * @returns {number[]}
 */
function listEventsOnPaths(paths) {
  return paths.flatMap((path, thread) => path.map((position) => makeEvent(thread, position)));
}

// One thread's instructions, with words that may not be known (null).

/**
 * Returns the word of a value, or null if it is not known.
 * @param {Value} value
 * @param {(number | null)[]} registers
 * @returns {number | null}
 */
function resolveValue(value, registers) {
  return value.number === undefined ? registers[value.register] : value.number;
}

/**
 * Returns the sum of two words, or null if one is not known.
 * @param {number | null} first
 * @param {number | null} second
 * @returns {number | null}
 */
function addWords(first, second) {
  return first === null || second === null ? null : (first + second) % WORD;
}

/**
 * Returns whether two words are the same, or null if one is not known.
 * @param {number | null} first
 * @param {number | null} second
 * @returns {boolean | null}
 */
function areEqual(first, second) {
  return first === null || second === null ? null : first === second;
}

/** Returns a list with one item replaced. */
function replaceItem(list, at, item) {
  return list.map((it, number) => (number === at ? item : it));
}

/**
 * Returns the word that a store or a locked instruction writes to memory, if it reads `word`; null if it is not known.
 * @param {Statement} instruction
 * @param {(number | null)[]} registers
 * @param {number | null} word
 * @returns {number | null}
 */
function computeWrittenWord(instruction, registers, word) {
  if (instruction.kind === "store") return resolveValue(instruction.value, registers);
  return instruction.kind === "xchg" ? registers[instruction.register] : addWords(word, registers[instruction.register]);
}

/** Returns the position, the registers and the zero flag of a thread after an instruction. `word` is the one that it reads, or null. */
function computeNextState(instruction, position, { registers, zero }, word) {
  const next = position + 1;
  if (instruction.target !== undefined) {
    const jumps = instruction.kind === "jmp" ? true : areEqual(zero, instruction.kind === "je");
    return { at: jumps === null ? null : jumps ? instruction.target : next, registers, zero };
  }
  if (instruction.kind === "load" || instruction.kind === "xchg") {
    return { at: next, registers: replaceItem(registers, instruction.register, word), zero };
  }
  if (instruction.kind === "xadd") {
    const sum = addWords(word, registers[instruction.register]);
    return { at: next, registers: replaceItem(registers, instruction.register, word), zero: areEqual(sum, 0) };
  }
  if (instruction.kind === "set") {
    return { at: next, registers: replaceItem(registers, instruction.register, resolveValue(instruction.value, registers)), zero };
  }
  if (instruction.kind === "add") {
    const sum = addWords(registers[instruction.register], resolveValue(instruction.value, registers));
    return { at: next, registers: replaceItem(registers, instruction.register, sum), zero: areEqual(sum, 0) };
  }
  if (instruction.kind === "cmp") return { at: next, registers, zero: areEqual(registers[instruction.register], resolveValue(instruction.value, registers)) };
  return { at: next, registers, zero };
}

// Cycles.

/**
 * Returns the edges of a shortest cycle, or null.
 * @param {Edge[]} edges
 * @returns {Edge[] | null}
 */
export function findShortestCycle(edges) {
  const edgesFrom = new Map();
  for (const edge of edges) {
    const targets = edgesFrom.get(edge.source) ?? edgesFrom.set(edge.source, new Map()).get(edge.source);
    if (!targets.has(edge.target)) targets.set(edge.target, edge);
  }
  if (isAcyclic(edgesFrom)) return null;
  const starts = [...edgesFrom.keys()].sort((a, b) => a - b);
  const cycles = starts.map((start) => findCycleThrough(start, edgesFrom)).filter(Boolean);
  return cycles.reduce((best, it) => (it.length < best.length ? it : best));
}

/**
 * Returns whether there is no cycle: events without a successor are removed until none is left. Most executions have no cycle, and this is quicker
 * than a search from each event.
 * @param {Map<number, Map<number, Edge>>} edgesFrom
 * @returns {boolean}
 */
function isAcyclic(edgesFrom) {
  let rest = [...edgesFrom].map(([source, targets]) => [source, [...targets.keys()]]);
  while (rest.length) {
    const sources = new Set(rest.map(([source]) => source));
    const next = rest.map(([source, targets]) => [source, targets.filter((it) => sources.has(it))]).filter(([, targets]) => targets.length);
    if (next.length === rest.length) return false;
    rest = next;
  }
  return true;
}

/**
 * Returns a shortest cycle through an event, or null.
 * @param {number} start
 * @param {Map<number, Map<number, Edge>>} edgesFrom
 * @returns {Edge[] | null}
 */
function findCycleThrough(start, edgesFrom) {
  const cameBy = new Map();
  const queue = [start];
  for (const event of queue) {
    for (const [target, edge] of edgesFrom.get(event) ?? []) {
      if (target === start) return traceCycle(start, edge, cameBy);
      if (!cameBy.has(target)) {
        cameBy.set(target, edge);
        queue.push(target);
      }
    }
  }
  return null;
}

/**
 * Returns the edges of a cycle from an event, given the `last` one, which leads back to it. `cameBy` has the edge by which each other event was reached.
 * @param {number} start
 * @param {Edge} last
 * @param {Map<number, Edge>} cameBy
 * @returns {Edge[]}
 */
function traceCycle(start, last, cameBy) {
  const cycle = [last];
  while (cycle.at(-1).source !== start) cycle.push(cameBy.get(cycle.at(-1).source));
  return cycle.reverse();
}

// All candidate executions.

/**
 * Yields every choice of one item of each list; the last list's item changes first.
 * @param {Item[][]} lists
 * @returns {Generator<Item[]>}
 */
function* listChoices(lists) {
  if (!lists.length) return yield [];
  const [first, ...others] = lists;
  for (const it of first) for (const rest of listChoices(others)) yield [it, ...rest];
}

/**
 * Returns all orders of a row.
 * @param {Item[]} row
 * @returns {Item[][]}
 */
function listPermutations(row) {
  if (row.length < 2) return [row];
  return row.flatMap((it, index) => listPermutations([...row.slice(0, index), ...row.slice(index + 1)]).map((rest) => [it, ...rest]));
}

/**
 * Returns the flow paths of a thread's code.
 * @param {Statement[]} code
 * @param {number} [at]
 * @returns {number[][]}
 */
function listPaths(code, at = 0) {
  if (at === code.length) return [[]];
  const { kind, target } = code[at];
  const followers = target === undefined ? [at + 1] : kind === "jmp" || target === at + 1 ? [target] : [at + 1, target];
  return followers.flatMap((next) => listPaths(code, next).map((path) => [at, ...path]));
}

/**
 * Yields all candidate executions of a test, or only those that `fits` does not leave out: it is asked of an execution with its words and without its
 * coherence orders. Throws TooMany after `limit` of them all.
 * @param {Test} test
 * @param {number} limit
 * @param {function(Execution): boolean} [fits]
 * @returns {Generator<Execution>}
 */
export function* listCandidates(test, limit, fits = () => true) {
  let number = 0;
  for (const paths of listChoices(test.threads.map((code) => listPaths(code)))) {
    const events = listEventsOnPaths(paths);
    const findInstruction = (event) => test.threads[findThread(event)][findPosition(event)];
    const writes = new Map();
    for (const it of events.filter((event) => WRITES.includes(findInstruction(event).kind))) {
      const { location } = findInstruction(it);
      writes.set(location, [...(writes.get(location) ?? []), it]);
    }
    const reads = events.filter((event) => READS.includes(findInstruction(event).kind));
    const sources = reads.map((read) => [null, ...(writes.get(findInstruction(read).location) ?? []).filter((it) => it !== read)]);
    for (const chosen of listChoices(sources)) {
      number += 1;
      if (number > limit) throw new TooMany();
      const execution = new Execution(test, paths, new Map(reads.map((read, index) => [read, chosen[index]])), writes);
      if (execution.ends === null) continue;
      const orders = [...writes.values()].map(listPermutations);
      if (!fits(execution)) {
        number += orders.reduce((product, it) => product * it.length, 1);
        continue;
      }
      for (const rows of listChoices(orders)) {
        number += 1;
        yield execution.withOrders(new Map([...writes.keys()].map((location, index) => [location, rows[index]])));
      }
    }
  }
}

// The execution of a run.

/**
 * Returns the execution of a run of an x86 test to its end, by its schedule: each event, which has to be enabled, with the position of its thread after
 * it.
 * @param {Test} test
 * @param {[string, number][]} schedule
 * @returns {Execution}
 */
export function makeExecution(test, schedule) {
  const positions = test.threads.map(() => 0);
  const buffers = test.threads.map(() => []);
  const paths = test.threads.map(() => []);
  const last = new Map();
  const [rf, co] = [new Map(), new Map()];
  const findLocation = (event) => test.threads[findThread(event)][findPosition(event)].location;
  const recordWrite = (event) => {
    last.set(findLocation(event), event);
    co.set(findLocation(event), [...(co.get(findLocation(event)) ?? []), event]);
  };
  for (const [word, next] of schedule) {
    const thread = Number(word[1]);
    if (word[0] === "D") recordWrite(buffers[thread].shift());
    if (word[0] !== "P") continue;
    const event = makeEvent(thread, positions[thread]);
    const { kind, location } = test.threads[thread][positions[thread]];
    paths[thread].push(positions[thread]);
    positions[thread] = next;
    if (READS.includes(kind)) {
      const store = buffers[thread].findLast((it) => findLocation(it) === location);
      rf.set(event, store ?? last.get(location) ?? null);
    }
    if (kind === "store") buffers[thread].push(event);
    else if (WRITES.includes(kind)) recordWrite(event);
  }
  return new Execution(test, paths, rf, co);
}
