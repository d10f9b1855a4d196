// Finds the order and the loops of the instructions of a thread, and what is still read of its registers after each of them. Not proved.
//
// A loop whose passes change nothing but registers that it sets anew needs one pass in lw: the last one. Its jump back is `cut`: the thread is left there. A
// run from which all other passes are taken out is a run with the same end: loads change nothing, and each further pass begins as the last one does.
//
// A `Flow` has, for each step, its `next` ones ({ jumped, continued }), the `order` of the steps that a run reaches, the `loops`, each with the `from` and the
// `head` of its jump back and its `nodes`, the parts of registers that are `live` before each step, and labels of steps (`names`). The step after the last one
// is the end.

import { listAccesses } from "./assembly_operations.js";

/** Returns the index of the step that a run executes when it comes to another one: what does nothing and jumps are passed. */
function findExecuted(steps, indices, at) {
  const passed = new Set();
  for (let to = at; ; ) {
    const { name, condition, label } = steps[to]?.operation ?? {};
    const isPassed = name === "nop" || condition === "mp";
    // A jump to itself stays.
    if (!isPassed || passed.has(to)) return to;
    passed.add(to);
    to = condition ? indices.get(label) : to + 1;
  }
}

/** Returns the indices of steps that follow each step of a thread. */
function listNext(steps, indices) {
  return steps.map(({ operation: { label, condition } }, at) => ({
    jumped: label && findExecuted(steps, indices, indices.get(label)),
    continued: condition === "mp" ? undefined : findExecuted(steps, indices, at + 1),
  }));
}

/** Returns the indices that follow the one of a step. */
const listBoth = (next, at) => [next[at]?.jumped, next[at]?.continued].filter((it) => it !== undefined);

/** Returns the order of steps, and the jumps back in it. What a step continues to is after it. */
function sortSteps(next, first) {
  const [open, done, order, back] = [new Set(), new Set(), [], []];
  const visit = (at) => {
    open.add(at);
    for (const to of listBoth(next, at)) {
      if (open.has(to)) back.push({ from: at, head: to });
      else if (!done.has(to)) visit(to);
    }
    open.delete(at);
    done.add(at);
    if (at < next.length) order.unshift(at);
  };
  visit(first);
  return { order: [...order, next.length], back };
}

/** Returns the steps of the loop of a jump back; null if a run may enter it elsewhere than at its head. */
function findNodes(next, order, first, { from, head }) {
  const nodes = new Set([head]);
  const open = [from];
  for (let at = open.pop(); at !== undefined; at = open.pop()) {
    if (nodes.has(at)) continue;
    if (at === first) return null;
    nodes.add(at);
    open.push(...order.filter((it) => listBoth(next, it).includes(at)));
  }
  return nodes;
}

/** Returns the parts of registers that are read after the begin of each step, before they are written; `atEnd` are those that are read at the end. */
function findLive(steps, next, atEnd) {
  const accesses = steps.map((it) => listAccesses(it.operation));
  const live = [...steps.map(() => new Set()), new Set(atEnd)];
  for (let isChanged = true; isChanged; ) {
    isChanged = false;
    for (let at = steps.length - 1; at >= 0; at -= 1) {
      const { reads, writes } = accesses[at];
      const after = listBoth(next, at).flatMap((it) => [...live[it]]);
      const before = new Set([...reads, ...after.filter((it) => !writes.includes(it))]);
      isChanged ||= before.size > live[at].size;
      live[at] = before;
    }
  }
  return live;
}

/**
 * Returns the flow of the steps of a thread, of whose labels a map has the indices; null if it has a loop that a run may enter in the middle.
 * @param {{operation: Operation}[]} steps
 * @param {Map<string, number>} indices
 * @returns {Flow | null}
 */
export function findFlow(steps, indices) {
  const next = listNext(steps, indices);
  const first = findExecuted(steps, indices, 0);
  const { order, back } = sortSteps(next, first);
  const loops = back.map((it) => ({ ...it, nodes: findNodes(next, order, first, it) }));
  const names = new Map([...indices].reverse().map(([label, at]) => [findExecuted(steps, indices, at), label]));
  return loops.some((it) => !it.nodes) ? null : { steps, next, first, order, loops, names, live: findLive(steps, next, []) };
}

/**
 * Returns the index of a step in a loop that writes what the next pass reads; undefined if there is none.
 * @param {Flow} flow
 * @param {string[]} atEnd the parts of registers that are read at the end
 * @returns {number | undefined}
 */
export function findCarried({ steps, next, loops }, atEnd) {
  const live = findLive(steps, next, atEnd);
  return loops.flatMap(({ head, nodes }) => [...nodes].filter((at) => listAccesses(steps[at].operation).writes.some((it) => live[head].has(it))))[0];
}

/**
 * Returns whether a branch may read the flags that a step leaves.
 * @param {Flow} flow
 * @param {number} at
 * @returns {boolean}
 */
export function areFlagsRead({ next, live }, at) {
  return listBoth(next, at).some((it) => live[it].has("F"));
}
