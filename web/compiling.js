// Finds the instructions of a compiled program that begin the statements of its source test. lw compiles by a proved rule. The rule is
// repeated here to find the source run that a compiled program's run represents. Not proved; the run is shown only if its replay
// by lw ends in the same state.

/**
 * Returns the positions that may follow a statement.
 * @param {Statement} statement
 * @param {number} position
 * @returns {number[]}
 */
function listSuccessors(statement, position) {
  if (statement.target === undefined) return [position + 1];
  return statement.kind === "goto" ? [statement.target] : [position + 1, statement.target];
}

/**
 * Returns the positions of the loads that some path through a thread reaches from a store, with nothing between that waits for it.
 * @param {Statement[]} statements
 * @returns {Set<number>}
 */
function findFencedLoads(statements) {
  const fenced = new Set();
  const reached = new Set();
  const waiting = statements.flatMap((it, position) => (it.kind === "store" ? listSuccessors(it, position) : []));
  while (waiting.length) {
    const position = waiting.pop();
    if (position === statements.length || reached.has(position)) continue;
    reached.add(position);
    const { kind } = statements[position];
    if (kind === "load") fenced.add(position);
    else if (kind !== "swap" && kind !== "fetchadd") waiting.push(...listSuccessors(statements[position], position));
  }
  return fenced;
}

/**
 * Returns the number of instructions of a source statement, without a fence.
 * @param {Statement} statement
 * @returns {number}
 */
function countInstructions({ kind, register, value, left }) {
  if (kind === "store" || kind === "load" || kind === "set" || kind === "goto") return 1;
  if (kind === "swap" || kind === "fetchadd") return value.register === register ? 1 : 2;
  if (kind === "sum") return left === register || value.register === register ? 1 : 2;
  return 2;
}

/**
 * Returns the position of the first instruction of each statement of a thread, in its compiled program.
 * @param {Statement[]} statements
 * @returns {number[]}
 */
export function listStatementStarts(statements) {
  const fenced = findFencedLoads(statements);
  let next = 0;
  return statements.map((statement, position) => {
    const begin = next;
    next += (fenced.has(position) ? 1 : 0) + countInstructions(statement);
    return begin;
  });
}
