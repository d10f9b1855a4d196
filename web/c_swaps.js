// Writes single compare-exchanges of a thread in C as exchanges, if their variable has no third word, and locks that are tried. Not proved.
//
// A `Swap` is that of c_loops.js. If a variable is only ever set to the word that a compare-exchange expects and to the one that it desires, an exchange
// does the same: one that fails finds the word that it would write. Both drain the buffer, whether they change the word or not.

import { parseConstant } from "./c_code.js";
import { parseTry } from "./c_locks.js";
import { LoopWriter, parseFound, parseSwap } from "./c_loops.js";
import { splitOutside } from "./c_statements.js";

// An assignment or a declaration of one variable, in squeezed code: the groups are its type, its name, and its value. And a return of a value.
const SET = /^((?:const )?(?:auto|bool|_Bool|int|unsigned|long) )?(\w+)=(?!=)(.*)$/;
const RETURN = /^return (.*)$/;
const OF_CONSTANTS = ": a compare-exchange is rewritten only from one constant to another";
const OF_NUMBERS = ": compare the result with 0, as `int failed = pthread_mutex_trylock(&m) != 0;`";

/** Returns the compare-exchange that a condition consists of, with whether the condition holds if it succeeds (`isSuccess`); null if it is none. */
function parseTried(code) {
  const [, negated] = /^!\((.*)!=0\)$/.exec(code) ?? [];
  const condition = negated === undefined ? code : `${negated}==0`;
  const failing = parseSwap(condition);
  if (failing) return { swap: failing, isSuccess: false };
  const [found, last, ...others] = splitOutside(condition, "==");
  const swap = parseSwap(`!(${condition})`) ?? (last !== undefined && !others.length ? parseSwap(`${found}!=${last}`) : null);
  return swap && { swap, isSuccess: true };
}

/** Writes the instructions of a thread, in which single compare-exchanges are exchanges. */
export class SwapWriter extends LoopWriter {
  /**
   * Writes an exchange in place of a compare-exchange. Returns a variable with the word that it finds, and the one that is expected. Throws NoTest if the
   * words are no constants.
   */
  writeSwap({ name, expected, desired, isSetting }) {
    const isVariable = parseConstant(expected) === null;
    const [last, word] = [isVariable ? this.findConstant(expected) : parseConstant(expected), parseConstant(desired)];
    if (last === null || word === null || last === word || (isVariable && !this.locals.has(expected))) this.refuseStatement(OF_CONSTANTS);
    const variable = isVariable && isSetting ? expected : this.nameNew(`${name}_before`);
    this.locals.add(variable);
    this.assignLocal(variable, `atomic_exchange(${this.isHerd ? "" : "&"}${name},${word})`);
    this.pairs.push({ statement: this.statement, name, words: [word, last], isSingle: true });
    return { variable, last };
  }

  /** Returns a condition in which a variable is in place of a compare-exchange or a lock that is tried, an exchange then; null if it has none. */
  replaceTried(code) {
    const lock = this.functions.has(/^\w+(?=\()/.exec(code)?.[0]) ? null : parseTry(code);
    if (lock) return `${this.writeTry(lock.name)}${lock.isSuccess ? "==" : "!="}0`;
    const tried = parseTried(code);
    if (!tried) return null;
    const { variable, last } = this.writeSwap(tried.swap);
    return `${variable}${tried.isSuccess ? "==" : "!="}${last}`;
  }

  /** Returns the same of a value, which is a condition or the word that a compare-exchange finds. */
  replaceSwap(code) {
    const found = parseFound(code);
    if (parseTry(code)?.isNumber) this.refuseStatement(OF_NUMBERS);
    return found ? this.writeSwap(found).variable : this.replaceTried(code);
  }

  /** Writes an `if`. */
  writeBranch(statement, isLast) {
    const condition = this.replaceTried(this.squeeze(statement.condition));
    super.writeBranch(condition === null ? statement : { ...statement, condition }, isLast);
  }

  /** Writes a statement without branches. */
  writeSimple(statement, isLast) {
    const [, result] = RETURN.exec(statement) ?? [];
    const [, type = "", name, value] = SET.exec(statement) ?? [];
    const replaced = this.replaceSwap(result ?? value ?? statement);
    if (replaced === null) return super.writeSimple(statement, isLast);
    if (result !== undefined) return super.writeSimple(`return ${replaced}`, isLast);
    return name === undefined ? undefined : super.writeSimple(`${type}${name}=${replaced}`, isLast);
  }
}
