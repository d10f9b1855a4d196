// Writes the functions of a text of assembly as threads of lw that do exactly the same: with bytes in words, one pass in place of loops that wait, and what
// lw lacks written out. What is not exactly the same is refused. Not proved.
//
// The records `Flow` and `Words` are those of thread_flow.js and possible_words.js.

import { parseOperation } from "./assembly_operations.js";
import { OF_CALL, StepWriter } from "./assembly_steps.js";
import { getOnly, makeWords } from "./possible_words.js";
import { joinStates, Refusal, SharedWords } from "./register_state.js";
import { areFlagsRead, findCarried, findFlow } from "./thread_flow.js";
import { REGISTERS } from "./token_reader.js";

const OF_LABEL = "two labels before it have one name";
const OF_LOOP = "lw has no loops: write the passes out";
const OF_PAIRS = "a loop that exchanges is read if its variable is only set to the constant that it writes, and to the one at which it ends";
const OF_ENDLESS = "its loop never ends";
const OF_REGISTERS = "the thread uses more registers than the six of lw";
// The letters of the longest label of lw.
const MAX_LABEL = 32;
// Code that has no operation, and a sentence of its own.
const OF_MEANING = /^(?:call\w*|ud2|hlt|int3?|(?:lock )?cmpxchg(?:8|16)b)\b/i;
const LINE = /^((?:\w+:\s*)*)(.*)$/;

/**
 * Returns the steps of the lines of a thread, and the indices of the steps that its labels are before, or of the end. A step has the `index` of its line in
 * the text, of those in `places`. Throws Refusal.
 */
function readSteps(lines, isAtt, places = []) {
  const all = lines.map((line, at) => {
    const [, labels, code] = LINE.exec(line);
    return { labels: labels.match(/\w+/g) ?? [], code, operation: parseOperation(code, isAtt) ?? { operands: [] }, index: places[at] };
  });
  const indices = new Map(all.flatMap(({ labels }, at) => labels.map((it) => [it, at])));
  const twice = all.find(({ labels }, at) => labels.some((it) => indices.get(it) !== at));
  if (twice) throw new Refusal(OF_LABEL, twice);
  const steps = all.at(-1)?.code === "" ? all.slice(0, -1) : all;
  const isUnread = ({ code, operation: { name, label } }) => (!name && !OF_MEANING.test(code)) || (label && !indices.has(label));
  const unread = steps.find(isUnread);
  // The steps before a call prepare it.
  const call = unread && steps.find((it) => /^call/i.test(it.code) || (it.operation.label && isUnread(it)));
  if (unread) throw new Refusal(call ? OF_CALL : "", call ?? unread);
  return { steps, indices };
}

/** Returns the register of lw for each that a thread uses, and those that are free: of others than lw's own a free one. `asked` are not free. */
function nameRegisters(steps, asked) {
  const parts = steps.flatMap(({ operation: { name, operands } }) => (/^(?:push|pop)$/.test(name) ? [] : operands.flatMap((it) => it.address ?? it)));
  const isExchange = steps.some((it) => it.operation.name === "cmpxchg");
  const used = [...new Set([...parts.map((it) => it.register), ...asked, isExchange && "RAX"])].filter((it) => it && it !== "RSP");
  const own = (it) => REGISTERS.X86.find((name) => name.slice(1) === it.slice(1));
  const free = REGISTERS.X86.filter((name) => !used.some((it) => own(it) === name));
  const others = used.filter((it) => !own(it));
  if (others.length > free.length) throw new Refusal(OF_REGISTERS, steps[0]);
  // EAX has the result of a function: another register is renamed to it last.
  const renamed = [...free.filter((it) => it !== "EAX"), "EAX"].slice(0, others.length);
  const names = new Map(used.map((it) => [it, own(it) ?? renamed[others.indexOf(it)]]));
  for (const { operation: { name, operands: [to] } } of steps) if (name === "pop" && to?.register) names.set(to.register, names.get(to.register) ?? "");
  return { names, spare: free.filter((it) => !renamed.includes(it)) };
}

/** Returns a bound of all sums in runs of threads, given the words at the begin: no instruction is executed twice. */
function boundSums(steps, words) {
  const operations = steps.map((it) => it.operation);
  const numbers = [...words, ...operations.flatMap((it) => it.operands.flatMap((part) => part.number ?? 0))];
  const isOpen = operations.some((it) => /^(?:sub|dec|adc|sbb|neg|not|or|xor|lea|movs)$/.test(it.name)) || numbers.some((it) => it < 0);
  return isOpen ? Infinity : Math.max(1, ...numbers) * 2 ** operations.filter((it) => /^(?:add|inc|xadd)$/.test(it.name)).length;
}

/** Writes one thread, whose flow is known. */
class ThreadWriter extends StepWriter {
  constructor(flow, shared, { names, spare }, begin) {
    super(shared, names, spare, begin);
    Object.assign(this, { flow, states: new Map([[flow.first, this.save()]]), pairs: new Set(), labels: new Map() });
    const taken = new Set(flow.steps.flatMap((it) => it.labels));
    const choose = (name) => (taken.has(name) ? choose(`${name}_`) : name);
    const choosePrefix = (name) => ([...taken].some((it) => it.startsWith(name)) ? choosePrefix(`_${name}`) : name);
    Object.assign(this, { left: choose("END"), finished: choose("DONE"), prefix: choosePrefix("S") });
    this.isLooping = flow.loops.length > 0;
  }

  makeLabel() {
    return `${this.prefix}${super.makeLabel().slice(1)}`;
  }

  /** Returns the label of a step, or of the end. */
  getLabel(at) {
    if (at === this.flow.steps.length) return this.isLooping ? this.finished : this.left;
    const label = this.flow.names.get(at);
    return label?.length <= MAX_LABEL ? label : `${this.prefix}_${at}`;
  }

  /** Returns the label to which a run jumps from a step to another one: after a jump back the thread is left. */
  findTarget(from, to) {
    const loop = this.flow.loops.find((it) => it.from === from && it.head === to);
    return loop ? this.left : this.getLabel(to);
  }

  /** Writes all steps in order. Returns this. */
  writeThread() {
    const { order, steps } = this.flow;
    for (const [place, at] of order.entries()) {
      if (!this.states.has(at)) continue;
      this.restore(this.states.get(at));
      this.pending = [...this.pending, this.getLabel(at)];
      if (at === steps.length) break;
      this.step = steps[at];
      try {
        this.writeOne(at, order[place + 1]);
      } catch (fault) {
        fault.step ??= this.step;
        throw fault;
      }
    }
    return this;
  }

  /** Writes a step, and the jumps after it. */
  writeOne(at, following) {
    const { operation } = this.step;
    const { jumped, continued } = this.flow.next[at];
    if (operation.name !== "j") {
      this.writeStep(this.step, areFlagsRead(this.flow, at));
      return this.continueAt(at, continued, following);
    }
    const condition = this.findCondition(operation.condition);
    if (condition === "always") return this.continueAt(at, jumped, following);
    if (condition === "never") return this.continueAt(at, continued, following);
    const known = this.save();
    this.limitRegister(condition === "e");
    const isBack = this.arrive(at, jumped);
    this.restore(known);
    this.limitRegister(condition !== "e");
    // If the run is to continue where it would jump, the jump is turned round.
    if (jumped !== following || isBack) {
      this.emit(`J${condition.toUpperCase()} ${this.findTarget(at, jumped)}`);
      return this.continueAt(at, continued, following);
    }
    this.emit(`J${condition === "e" ? "NE" : "E"} ${this.findTarget(at, continued)}`);
    this.arrive(at, continued);
    return undefined;
  }

  /** Records that the register that was compared with a constant is equal to it, or is not. */
  limitRegister(isEqual) {
    const { register, constant } = this.flags;
    if (!register || constant === undefined) return;
    const content = this.getContent(register);
    const list = isEqual ? [constant] : content.list?.filter((it) => it !== constant);
    if (list?.length) this.contents.set(register, { ...content, ...makeWords(list) });
    this.isImpossible ||= list?.length === 0 || (isEqual && content.list?.includes(constant) === false);
  }

  /** Continues at a step, by a jump unless it is the following one. */
  continueAt(from, to, following) {
    const isBack = this.arrive(from, to);
    if (isBack || to !== following) this.emit(`JMP ${this.findTarget(from, to)}`);
  }

  /** Records what is known at a step to which a run comes. Returns whether it jumps back; throws if the pass of this loop has changed something. */
  arrive(from, to) {
    const loop = this.flow.loops.find((it) => it.from === from && it.head === to);
    const begin = (register) => this.getContent(register);
    if (!loop) {
      const state = this.save();
      this.contents = new Map();
      this.states.set(to, joinStates(this.states.get(to), state, begin));
      this.restore(state);
      return false;
    }
    const isIn = ({ step }) => loop.nodes.has(this.flow.steps.indexOf(step));
    const changed = !this.isImpossible && this.changes.filter(isIn).find((it) => !it.register || getOnly(this.getContent(it.register)) !== it.word);
    if (changed) throw new Refusal(changed.word === undefined ? OF_LOOP : OF_PAIRS, changed.step);
    return true;
  }

  /**
   * Returns the lines of the thread, with those labels that are used; those of them that are `own`: all except the end of a thread with a loop, in which a
   * `marker`, a register, is set to 1; the registers that are `shown`; and for each line of the code whether it is in a loop (`looping`). Throws if no run
   * comes to the end.
   */
  finish() {
    if (!this.states.has(this.flow.steps.length)) throw new Refusal(OF_ENDLESS, this.flow.steps[this.flow.loops[0]?.from ?? 0]);
    const ownCount = this.lines.length;
    const marker = this.isLooping ? this.takeSpare(this.taken) : null;
    if (marker) {
      this.emit(`MOV ${marker},$1`);
      this.pending = [this.left];
    }
    const isUsed = (label) => this.lines.some((it) => it.code.endsWith(` ${label}`));
    const format = ({ labels, code }) => `${labels.filter(isUsed).map((it) => `${it}: `).join("")}${code}`.trim();
    const lines = [...this.lines, { labels: this.pending, code: "" }].map(format);
    const own = (marker ? lines.slice(0, ownCount) : lines).filter(Boolean);
    const { steps, loops } = this.flow;
    const looping = this.lines.slice(0, ownCount).map(({ step }) => loops.some((it) => it.nodes.has(steps.indexOf(step))));
    return { lines: lines.filter(Boolean), own, marker, shown: this.listKnown(), looping };
  }

  /** Returns the registers of which the lowest bits are known at the end, with their names in lw and the number of these bits. */
  listKnown() {
    const contents = [...this.names].filter(([, name]) => name).map(([register, name]) => ({ register, name, ...this.getContent(register) }));
    return contents.filter((it) => it.known).map(({ register, name, known }) => ({ register, name, known }));
  }
}

/**
 * Returns whether a register at the end of a thread is shown: those that a question names, and those that have 32 known bits. Of RAX, the result of a
 * function, the lowest bits are enough: callers look at no others if it is a `bool`.
 */
const isShown = ({ register, known }, asked) => known >= 32 || register === "RAX" || asked.includes(register);

/** Returns the parts of registers that are shown at the end. */
function listShownParts(shown) {
  return shown.flatMap(({ register, known }) => ["b", "w", "h"].slice(0, { 8: 1, 16: 2 }[known] ?? 3).map((it) => register + it));
}

/** Returns threads that are written after the words of all locations are known. */
function writeAll(flows, shared, registers, begins) {
  for (;;) {
    shared.isChanged = false;
    const writers = flows.map((flow, thread) => new ThreadWriter(flow, shared, registers[thread], begins[thread]).writeThread());
    if (!shared.isChanged) return writers;
  }
}

/**
 * Returns threads that do the same as lines of assembly: their `lines`, the `marker` of each, and the registers that are `shown`; and the `widths` and the
 * `words` of the locations. `initial` returns the word of a location of some width at the begin, `begins` has those of the registers of each thread, or
 * null, `asked` the registers of each thread that a question names, and `places` the index of each line in the text. Throws Refusal.
 * @param {string[][]} threads
 * @param {{isAtt: boolean, initial: function(string, number): number, begins: (Map<string, number> | null)[], asked: string[][], places: number[][]}} given
 * @returns {object}
 */
export function lowerThreads(threads, { isAtt, initial, begins, asked, places }) {
  const read = threads.map((lines, thread) => readSteps(lines, isAtt, places[thread]));
  const all = read.map((it) => it.steps);
  const flows = read.map((it) => findFlow(it.steps, it.indices));
  const open = flows.findIndex((it) => !it);
  if (open >= 0) throw new Refusal(OF_LOOP, all[open].find((it) => it.operation.name === "j"));
  const registers = all.map((steps, thread) => nameRegisters(steps, asked[thread] ?? []));
  const names = new Set(all.flat().flatMap((it) => it.operation.operands.flatMap((part) => part.location ?? [])));
  const words = [...names].map((it) => initial(it, 32)).concat(begins.flatMap((it) => [...(it?.values() ?? [])]));
  const shared = new SharedWords(initial, boundSums(all.flat(), words));
  const writers = writeAll(flows, shared, registers, begins);
  const ends = writers.map((it) => it.finish());
  const written = ends.map((it, thread) => ({ ...it, shown: it.shown.filter((end) => isShown(end, asked[thread] ?? [])) }));
  for (const [thread, { shown }] of written.entries()) {
    const carried = findCarried(flows[thread], listShownParts(shown));
    if (carried !== undefined) throw new Refusal(OF_LOOP, all[thread][carried]);
  }
  return { written, registers, widths: shared.widths, words: shared.words, pairs: new Set(writers.flatMap((it) => [...it.pairs])) };
}

/**
 * Returns, for each thread, the registers that it reads before it sets them; none of threads that are not read.
 * @param {string[][]} threads
 * @param {boolean} isAtt
 * @returns {string[][]}
 */
export function listUnset(threads, isAtt) {
  try {
    const flows = threads.map((lines) => readSteps(lines, isAtt)).map(({ steps, indices }) => findFlow(steps, indices));
    return flows.map((it) => [...new Set([...it.live[it.first]].map((part) => part.slice(0, -1)).filter(Boolean))]);
  } catch {
    return threads.map(() => []);
  }
}
