// Orders the code of a thread so that its jumps go forward, as lw wants them: compilers put code that runs rarely at the end, from where it jumps back.
// Only the jump back of a loop stays one. Not proved.
//
// A `Step` has its `labels`, its `code`: an instruction, and the `row` and the `column` of its place in the text. A block is a list of steps that a run
// enters at the first one only, and leaves at the last one.

const JUMP = /^j(\w+)\s+(?:short\s+)?(\w+)$/i;
// More steps than this are not ordered.
const MAX_STEPS = 256;
// A jump that is taken if another one is not.
const OPPOSITES = { e: "ne", ne: "e", z: "nz", nz: "z" };

/** Returns the label and the condition of a step that is a jump, `mp` without one; none if it is another step. */
function parseJump({ code }) {
  const [, condition, label] = JUMP.exec(code) ?? [];
  return label ? { condition: condition.toLowerCase(), label } : {};
}

/** Returns the blocks of steps. */
function splitBlocks(steps) {
  const blocks = [];
  for (const [at, step] of steps.entries()) {
    if (!at || step.labels.length || parseJump(steps[at - 1]).label) blocks.push([]);
    blocks.at(-1).push(step);
  }
  return blocks;
}

/** Returns the indices of blocks that follow the one at an index: that to which it jumps, and that to which it continues. */
function listNext(blocks, indices, at) {
  const { condition, label } = parseJump(blocks[at].at(-1));
  return { jumped: label && indices.get(label), continued: condition === "mp" ? undefined : at + 1 };
}

/** Returns whether a run may come from one block to another one. */
function isReachable(next, from, to) {
  const [visited, open] = [new Set(), [from]];
  for (let at = open.pop(); at !== undefined; at = open.pop()) {
    if (at === to) return true;
    if (visited.has(at) || at >= next.length) continue;
    visited.add(at);
    open.push(...[next[at].jumped, next[at].continued].filter((it) => it !== undefined));
  }
  return false;
}

/**
 * Returns the indices of the blocks that a run may reach, each one after those from which runs come to it, unless they are in a loop with it. The blocks of a
 * loop are together.
 * @param {{jumped?: number, continued?: number}[]} next
 * @returns {number[]}
 */
function sortBlocks(next) {
  const [visited, sorted] = [new Set(), []];
  const visit = (at) => {
    if (at === undefined || at >= next.length || visited.has(at)) return;
    visited.add(at);
    const { jumped, continued } = next[at];
    const isInLoop = (it) => it !== undefined && isReachable(next, it, at);
    // The block that is visited last is sorted first.
    const isTurned = isInLoop(jumped) && !isInLoop(continued);
    for (const it of isTurned ? [continued, jumped] : [jumped, continued]) visit(it);
    sorted.unshift(at);
  };
  visit(0);
  return sorted;
}

/** Returns the steps of a block before another one, after which a run is where it would have continued. `label` returns the label of a block. */
function linkBlock(block, { jumped, continued }, following, label) {
  const { condition } = parseJump(block.at(-1));
  const front = condition ? block.slice(0, -1) : block;
  const makeJump = (name, to) => ({ ...block.at(-1), labels: condition ? block.at(-1).labels : [], code: `j${name} ${label(to)}` });
  if (condition === "mp") return jumped === following && !block.at(-1).labels.length ? front : block;
  if (continued === following) return block;
  if (jumped === following && OPPOSITES[condition]) return [...front, makeJump(OPPOSITES[condition], continued)];
  return [...block, { ...block.at(-1), labels: [], code: `jmp ${label(continued)}` }];
}

/** Returns a label for the block at an index, and records it. */
function makeLabel(indices, at) {
  let name = `B${at}`;
  while (indices.has(name)) name += "_";
  indices.set(name, at);
  return name;
}

/** Returns over how many steps all jumps back go together. */
function measureJumpsBack(steps) {
  const indices = new Map(steps.flatMap(({ labels }, at) => labels.map((label) => [label, at])));
  return steps.reduce((sum, step, at) => sum + Math.max(0, at + 1 - (indices.get(parseJump(step).label) ?? at + 1)), 0);
}

/** Returns the steps of blocks in an order in which only loops jump back. `indices` has the blocks' labels, of which `end` is after the last one. */
function joinBlocks(blocks, indices, end) {
  const next = blocks.map((_, at) => listNext(blocks, indices, at));
  const sorted = sortBlocks(next);
  const label = (at) => {
    if (at === blocks.length) return end;
    const [first] = blocks[at];
    if (!first.labels.length) first.labels.push(makeLabel(indices, at));
    return first.labels[0];
  };
  return sorted.flatMap((at, place) => linkBlock(blocks[at], next[at], sorted[place + 1] ?? blocks.length, label));
}

/**
 * Returns steps in an order in which jumps go forward, except those of loops; the same ones if that is no gain. `end` is the label after the last step.
 * @param {Step[]} steps
 * @param {string} end
 * @returns {Step[]}
 */
export function orderSteps(steps, end) {
  if (steps.length > MAX_STEPS || !measureJumpsBack(steps)) return steps;
  const blocks = splitBlocks(steps.map((it) => ({ ...it, labels: [...it.labels] })));
  const indices = new Map([...blocks.flatMap((block, at) => block[0].labels.map((label) => [label, at])), [end, blocks.length]]);
  if (steps.some((it) => !indices.has(parseJump(it).label ?? end))) return steps;
  const ordered = joinBlocks(blocks, indices, end);
  return measureJumpsBack(ordered) < measureJumpsBack(steps) ? ordered : steps;
}
