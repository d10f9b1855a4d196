// Follows `main` of a program in C or C++: the threads that it starts, in their order, the words of variables before it starts them, and what it asks
// after it has joined them. Not proved.
//
// The records `Program`, `CThread` and `Part` are those of c_reader.js, and `Statement` is that of c_statements.js and c_main_reader.js.
// A `Start` has the code by which a thread is joined, its `handle`, as `t1` or `threads[0]`, and what is `started`, its function and arguments after
// this, unless it has only one `argument`. It `isJoining` if its handle joins it at the end of a block, or not.

import { declareObjects } from "./c_classes.js";
import { parseFormula } from "./c_question.js";
import { parseRelation } from "./c_relations.js";
import { declareVariables, defineName, findClosing, parseConstant, parseDeclaration, refusePart, replaceNames, squeezeCode } from "./c_code.js";
import { foldConstants } from "./c_constants.js";
import { MainReader, OF_RUNS } from "./c_main_reader.js";
import { parseParameters } from "./c_parameters.js";
import { explainType } from "./c_reasons.js";
import { isCondition, OUTPUT, removeStrings, splitOutside } from "./c_statements.js";
import { explainWindows, parseHandles, parseWindowsStarts, parseWindowsWait } from "./c_windows.js";

// A lambda up to its code: the groups are what it captures, its parameters, and its type.
const LAMBDA = /(?<![\w\])])\[([^\][]*)\]\s*(?:\(([^(){};]*)\)\s*)?(?:mutable\b\s*)?(?:noexcept\b\s*)?(?:->\s*(\w{1,20})\b\s*)?\{/;
// The patterns that follow are of squeezed code. What changes nothing that threads share, as output does, unless it has an effect.
const HARMLESS = new RegExp(
  "^(?:(?:(?:pthread_(?:mutex|spin)|mtx)_(?:init|destroy)|(?:Initialize|Delete)(?:CriticalSection|SRWLock)|CloseHandle|_mm_pause|" +
    "static_assert|\\w*sleep\\w*|this_thread::\\w+|exit|abort|pthread_exit)\\(|return\\b|" +
    "\\(void\\)\\w+$|\\w+\\.(?:reserve|request_stop)\\(|break$|$)",
);
// What counts runs: the groups are what it adds to.
const COUNTED = /^(?:\+\+(\w+)|(\w+)(?:\+\+|\+=1))$/;
const ENDING = /^(?:return\b|exit\(|abort\()/;
const FAILURE = /^(?:abort\(|(?:_|quick_)?exit\((?!0\)|EXIT_SUCCESS)|__builtin_trap\()/;
const LEAVING = /^(?:return\b|break$|(?:exit|abort|pthread_exit)\()/;
// A variable with a value that may be asked: the groups are its type, its name, and its value.
const NAMED_VALUE = /^(?:const )?(bool|int|auto) (\w+)=([^=].*)$/;
const EFFECT = /(?<![=!<>])=(?!=)|\+\+|--|exchange|store|fetch_|lambda/;
const JOIN = /^(?:(\w+(?:\[\d+\])?)\.join\(\)|(?:pthread|thrd)_join\((\w+(?:\[\d+\])?),[^,]*\))$/;
// A call that starts or joins a thread, in a condition: the group is the call. And what its result is assigned to.
const CHECKED = /^((?:pthread|thrd)_(?:create|join)\s*\([^()]*\))\s*(?:[!=<>]=?\s*\w+)?$/;
const RESULT = /^(?:int )?\w+=(?=(?:pthread|thrd)_(?:create|join)\()/;
const HANDLES = /^(?:pthread_t|thrd_t|HANDLE) \w+(?:\[\w+\])?(?:,\w+)*(?:=NULL)?$/;
const CONTAINER = /^(?:vector<(j?)thread>|array<(j?)thread,\w+>) ?(\w+)(?:\(\w*\)|\{\})?$/;
const THREADS = /^(j?)thread (.*)$/;
const DECLARATOR = /^(\w+(?:\[\w*\])?)(?:=?(?:j?thread)?[({](.+)[)}])?$/;
const ASSIGNED = /^(?:auto )?(\w+(?:\[\d+\])?)=(j?)thread[({](.*)[)}]$/;
const APPENDED = /^(\w+)\.(?:emplace|push)_back\((.*)\)$/;
const MADE = /^j?thread[({](.*)[)}]$/;
const CREATED = /^(?:pthread|thrd)_create\((.*)\)$/;
// What a thread of pthreads gets that has no argument.
const NOTHING = /^(?:NULL|nullptr|0|\(void\*\)0)?$/;
const NAMED_LAMBDA = /^(?:const )?auto ?&{0,2}(\w+)=(lambda_\d+)$/;
const CALLEE = /^&?(\w+)$/;
const METHOD = /^&\w+::(\w+)$/;
const OBJECT = /^(?:&|ref\()(\w+)\)?$/;
const ASSIGNMENT = /^(\w+)=([^=].*)$/;
const INITIAL_STORE = /^atomic_(?:store|init)(?:_explicit|_relaxed|_release)?\(&(\w+),([^,]*)(?:,memory_order_\w+)?\)$/;
const ASSERTION = /^assert\((.*)\)$/;
// The most passes of a loop that starts threads, and of another one.
const MOST_THREADS = 4;
const MOST_WORDS = 9;
// How many calls of functions that set variables may be in one another.
const DEEPEST = 8;
// Why a part is refused.
/** Why too many threads are refused, as the end of a sentence. */
export const OF_MANY = ": a test has 4 threads at most, so start fewer";
const OF_BEFORE = ": before its threads, `main` only declares variables, and sets them to constants, as `x = 0;`";
const OF_RUNNING = ": while threads run, `main` only starts others and joins them, so give this to a thread of its own";
const OF_AFTER = ": after the joins, `main` only prints, or asks by an `assert` or an `if`";
const OF_JOINS = ": `main` starts all threads before it joins one";
const OF_UNJOINED = ": `main` joins all threads before";
const OF_HANDLES = ": no thread that runs has this name";
const OF_CAPTURES = ": a lambda has its variables by reference, as `[&]`";
const OF_ASKED = ": `main` asks only once";
const OF_FORMULAS = ": what `main` asks compares variables, constants and sums of them, joined by `&&` and `||`";
const OF_LEFT = ": an assertion follows no `return` in a branch";
const OF_NAMES = ": give it a name that no other variable has";
const OF_UNREACHED = ": no run comes here after a `return`";
const OF_CODE = ": a thread begins with a function or a lambda, and has an argument for each parameter";

/** Follows the statements of `main`. */
class MainFollower {
  /** @param {Program} program */
  constructor(program) {
    this.program = program;
    this.functions = new Map(program.threads.map((it) => [it.name, it]));
    // The threads that are started, and of those that are not joined yet, whether their handles join them.
    this.threads = [];
    this.running = new Map();
    this.hasJoined = false;
    this.depth = 0;
    // The names of variables that `main` declares, and of the indices of the loops around a statement.
    this.locals = new Set();
    this.numbers = new Set();
    // Of handles and arrays of them, whether they join threads at the end of their block.
    this.containers = new Map();
    // The handles of which there are arrays.
    this.arrays = new Map();
    // The loop whose passes are runs, with the names of variables that it sets before its threads.
    this.repeated = null;
    // Of the variables that `main` sets after the joins, their values. The question, and whether a `return` in a branch may leave out what follows.
    this.values = new Map();
    this.question = null;
    this.isLeft = false;
  }

  /** Follows statements. Throws NoTest at one that does more than what is rewritten, and at one that no run comes to. */
  followStatements(statements) {
    let isOver = false;
    for (const statement of statements) {
      const isSimple = !statement.block && !statement.then && !statement.repeat && !statement.joined;
      const code = isSimple ? squeezeCode(removeStrings(statement.code)) : "";
      if (isOver && !(isSimple && this.isHarmless(code))) refusePart(statement, OF_UNREACHED);
      this.followStatement(statement);
      isOver ||= ENDING.test(code);
    }
  }

  /** Follows a statement. */
  followStatement(statement) {
    if (statement.isRepeated) this.repeated = { statement, names: new Set() };
    if (statement.number) this.setNumber(statement.number);
    if (statement.repeat) this.followCounting(statement);
    else if (statement.block) this.followBlock(statement.block);
    else if (statement.then) this.followBranch(statement);
    else if (statement.joined) this.joinAll(statement);
    else this.followSimple(statement);
    if (statement.number) this.setNumber({ name: statement.number.name });
  }

  /** Gives the index of a loop its digit in a pass, or takes it from it if there is none. */
  setNumber({ name, digit }) {
    if (digit) this.program.names.set(name, digit) && this.numbers.add(name);
    else this.program.names.delete(name) && this.numbers.delete(name);
  }

  /** Follows the passes of a loop that counts. Throws NoTest if there are more than threads in a test. */
  followCounting(statement) {
    const count = parseConstant(this.program.names.get(statement.times) ?? statement.times);
    if (count === null || !count) refusePart(statement, OF_RUNS);
    if (count > (statement.isStarting ? MOST_THREADS : MOST_WORDS)) refusePart(statement, statement.isStarting ? OF_MANY : OF_RUNS);
    this.followBlock(statement.repeat(count));
  }

  /** Follows statements, at whose end some handles join the threads that are started in them. */
  followBlock(statements) {
    const outer = new Set(this.containers.keys());
    this.followStatements(statements);
    const isInner = (handle) => !outer.has(handle.split("[")[0]);
    for (const [handle, isJoining] of [...this.running]) if (isJoining && isInner(handle)) this.joinThread(handle);
  }

  /** Takes an `if` for a question, unless it asks whether a thread was started or joined. What is in its branches does not matter. */
  followBranch(statement) {
    for (const it of [...statement.then, ...statement.otherwise]) this.checkHarmless(it);
    const [, call] = CHECKED.exec(statement.condition.trim()) ?? [];
    if (call) this.followSimple({ code: call, index: statement.index + statement.code.indexOf(call) });
    else if (hasAssertion(statement) || statement.otherwise.some(isFailing)) this.followAssertions([statement], []);
    else if (statement.otherwise.some((it) => it.then)) refusePart(statement.otherwise.find((it) => it.then), OF_ASKED);
    else this.ask(statement, joinConditions(statement));
  }

  /** Asks what statements assert, unless one of some conditions holds: then no run comes to them. */
  followAssertions(statements, conditions) {
    for (const statement of statements) {
      const { code, condition, block, then, otherwise } = statement;
      if (block) this.followAssertions(block, conditions);
      if (then) this.followAssertions(then, [...conditions, `!(${condition})`]);
      if (otherwise) this.followAssertions(otherwise, [...conditions, `(${condition})`]);
      if (block || then) continue;
      const squeezed = squeezeCode(removeStrings(code));
      const [, asserted] = ASSERTION.exec(squeezed) ?? [];
      if (asserted) this.ask(statement, [...conditions, `(${asserted})`].join("||"), true);
      else if (FAILURE.test(squeezed) && conditions.length) this.ask(statement, conditions.join("||"), true);
      this.isLeft ||= LEAVING.test(squeezed);
    }
  }

  /** Throws NoTest unless a statement, and all statements in it, change nothing that threads share. */
  checkHarmless(statement) {
    for (const it of statement.block ?? [...(statement.then ?? []), ...(statement.otherwise ?? [])]) this.checkHarmless(it);
    const code = statement.block || statement.then ? "" : squeezeCode(removeStrings(statement.code));
    if (!ASSERTION.test(code) && !this.isHarmless(code)) refusePart(statement, OF_AFTER);
  }

  /** Returns whether squeezed code without strings changes nothing that threads share. A function of the program may do so. */
  isHarmless(code) {
    const isOfProgram = this.program.functions.has(/^\w+(?=\()/.exec(code)?.[0]);
    const [, first, second] = COUNTED.exec(code) ?? [];
    const counter = first ?? second;
    if (counter && this.threads.length && !this.isUsed(counter)) return true;
    return (OUTPUT.test(code) || HARMLESS.test(code)) && !EFFECT.test(code) && !isOfProgram;
  }

  /** Returns whether a function or a lambda has a name. */
  isUsed(name) {
    const pattern = new RegExp(`\\b${name}\\b`);
    return [...this.functions.values()].some((it) => pattern.test(it.code.code));
  }

  /** Sets the question to a condition in a statement, or adds it to what is asserted. Throws NoTest if threads run, or `main` asks something else. */
  ask(statement, condition, isAsserted = false) {
    if (!this.threads.length) refusePart(statement, OF_BEFORE);
    if (this.running.size) refusePart(statement, OF_UNJOINED);
    if (this.isLeft) refusePart(statement, OF_LEFT);
    if (this.question && !(isAsserted && this.question.isAsserted)) refusePart(statement, OF_ASKED);
    const code = this.replaceValues(this.squeeze(condition));
    const formula = parseFormula(code, parseRelation) ?? refusePart(statement, OF_FORMULAS);
    const { formulas = [], source: { index } = statement } = this.question ?? {};
    const source = { code: this.program.text.slice(index, statement.index + statement.code.length), index };
    this.question = { code: `${this.question?.code ?? ""} ${code}`, index: statement.index, source, formulas: [...formulas, formula], isAsserted };
  }

  /** Returns squeezed code with the values of variables in place of these. */
  replaceValues(code) {
    return code.replace(/(?<![\w.])[A-Za-z_]\w*/g, (name) => this.values.get(name) ?? name);
  }

  /** Gives a variable of `main` its value after the joins, in squeezed code. Returns whether the code does this. */
  nameValue(code) {
    const [, type, name, value] = NAMED_VALUE.exec(code) ?? [];
    if (!name || this.running.size || !this.threads.length || this.program.globals.has(name) || this.values.has(name)) return false;
    const replaced = this.replaceValues(value);
    if (EFFECT.test(value) || parseFormula(replaced, parseRelation) === null) return false;
    this.values.set(name, type === "bool" && !isCondition(replaced) ? `((${replaced})!=0)` : `(${replaced})`);
    return true;
  }

  /** Follows a statement that has no statements in it, except in lambdas. */
  followSimple(statement) {
    const code = this.squeeze(this.takeLambdas({ code: removeStrings(statement.code), index: statement.index }));
    if (ENDING.test(code) && [...this.running.values()].includes(false)) refusePart(statement, OF_RUNNING);
    if (FAILURE.test(code) && this.question) refusePart(statement, OF_ASKED);
    if (this.isHarmless(code)) return;
    this.followCode(code.replace(RESULT, ""), statement);
  }

  /** Follows the squeezed code of a statement. */
  followCode(code, statement) {
    const starts = this.parseStarts(code);
    const [, lambdaName, lambda] = NAMED_LAMBDA.exec(code) ?? [];
    const [, handle, other] = JOIN.exec(code) ?? [];
    const [, condition] = ASSERTION.exec(code) ?? [];
    const [awaited, array] = [parseWindowsWait(code), parseHandles(code)];
    if (array && array.handles.every((it) => this.running.has(it))) this.arrays.set(array.name, array.handles);
    else if (awaited) this.awaitHandles(awaited, statement);
    else if (starts) starts.forEach((it) => this.startThread(it, statement));
    else if (lambda) this.nameLambda(lambdaName, this.functions.get(lambda));
    else if (handle ?? other) this.joinThread(handle ?? other, statement);
    else if (condition) this.ask(statement, condition, true);
    else if (this.nameValue(code)) return;
    else if (explainWindows(code)) refusePart(statement, explainWindows(code));
    else if (!this.threads.length && this.followCall(code)) return;
    else if (!this.threads.length || this.isUnread(code)) this.setWords(code, statement);
    else refusePart(statement, explainType(code) ?? (this.running.size ? OF_RUNNING : OF_AFTER));
  }

  /** Follows the statements of a function that squeezed code calls without arguments, before threads run. Returns whether it is such a call. */
  followCall(code) {
    const called = this.program.functions.get(/^(\w+)\(\)$/.exec(code)?.[1]);
    if (!called || this.depth >= DEEPEST) return false;
    this.depth += 1;
    this.followBlock(new MainReader(called.code).readAll());
    this.depth -= 1;
    return true;
  }

  /** Returns whether squeezed code sets a variable that no thread reads that runs: it is in no function, and not among their arguments. */
  isUnread(code) {
    const { globals, functions } = this.program;
    const name = ASSIGNMENT.exec(code)?.[1];
    const pattern = new RegExp(`\\b(?:${name}|${globals.get(name)?.element?.split("[")[0] ?? name})\\b`);
    const codes = [...this.functions.values(), ...functions.values()].map((it) => it.code.code);
    return globals.has(name) && ![...codes, ...this.threads.flatMap((it) => it.values ?? [])].some((it) => pattern.test(it));
  }

  /** Gives a lambda a name, by which threads may call it. */
  nameLambda(name, lambda) {
    this.functions.set(name, lambda);
    if (!this.program.functions.has(name)) this.program.functions.set(name, { ...lambda, name });
  }

  /** Returns squeezed code with the values of names in place of these. */
  squeeze(code) {
    return squeezeCode(replaceNames(code, this.program.names));
  }

  /** Returns the code of a part with names in place of its lambdas, which are functions then. */
  takeLambdas({ code, index }) {
    const pieces = [];
    let at = 0;
    for (let found = LAMBDA.exec(code); found; found = LAMBDA.exec(code.slice(at))) {
      const begin = at + found.index;
      const open = begin + found[0].length;
      const end = findClosing(code, open - 1) + 1;
      const whole = { code: code.slice(begin, end || open), index: index + begin };
      if (!end) refusePart(whole, ": its `}` is missing");
      pieces.push(code.slice(at, begin), this.addLambda(whole, { code: code.slice(open, end - 1), index: index + open }, found));
      at = end;
    }
    return [...pieces, code.slice(at)].join("");
  }

  /** Adds the function of a lambda, given all of it and its code. Returns a name for it. Throws NoTest if it captures variables by their values. */
  addLambda(whole, code, [, captured, parameters = "", type]) {
    const name = `lambda_${this.functions.size}`;
    const { globals, names } = this.program;
    const isLocal = [...this.locals].some((it) => new RegExp(`\\b${it}\\b`).test(code.code));
    const copied = squeezeCode(captured).split(",").filter((it) => it && !it.startsWith("&"));
    const values = copied.flatMap((it) => (it === "=" && !isLocal ? [...this.numbers] : [it]));
    if (values.some((it) => parseConstant(names.get(it) ?? "") === null)) refusePart(whole, OF_CAPTURES);
    const members = values.map((it) => [it, names.get(it)]);
    const head = whole.index;
    this.functions.set(name, { name: "lambda", type: type ?? "auto", head, whole, parameters, code, variables: globals, returnsWord: false, members });
    return name;
  }

  /** Returns the threads that squeezed code starts, which are none in a declaration of handles; null if it is neither. */
  parseStarts(code) {
    const [, isVectorJoining, isArrayJoining, container] = CONTAINER.exec(code) ?? [];
    if (container) this.containers.set(container, Boolean(isVectorJoining || isArrayJoining));
    if (container || HANDLES.test(code)) return [];
    const [, isJoining, declarators] = THREADS.exec(code) ?? [];
    if (declarators) return this.parseDeclarators(splitOutside(declarators.replace(/\{/g, "(").replace(/\}/g, ")"), ","), isJoining === "j");
    const [, assigned, isAssignedJoining, callee] = ASSIGNED.exec(code) ?? [];
    if (assigned) return [makeStart(assigned, isAssignedJoining === "j" || this.containers.get(assigned.split("[")[0]), callee)];
    const [, appended, first] = APPENDED.exec(code) ?? [];
    if (appended) return [makeStart(`${appended}[${this.threads.length}]`, this.containers.get(appended), MADE.exec(first)?.[1] ?? first)];
    const [, words] = CREATED.exec(code) ?? [];
    const ofWindows = parseWindowsStarts(code);
    if (ofWindows) return ofWindows.map(({ handle, started, argument }) => makeStart(handle, false, started, argument));
    const [created, ...others] = splitOutside(words ?? "", ",");
    return others.length > 1 ? [makeStart(created.replace(/^&/, "").replace(/^(\w+)\+(\d+)$/, "$1[$2]"), false, others.at(-2), others.at(-1))] : null;
  }

  /** Returns the threads that declarations of handles start; null if they are none. */
  parseDeclarators(declarators, isJoining) {
    const found = declarators.map((it) => DECLARATOR.exec(it));
    if (found.includes(null)) return null;
    for (const [, handle] of found) this.containers.set(handle.split("[")[0], isJoining);
    return found.filter(([, , started]) => started).map(([, handle, started]) => makeStart(handle, isJoining, started));
  }

  /** Adds a thread. Throws NoTest for the statement that starts it if a thread was joined before, or if it is of no function. */
  startThread({ handle, isJoining, started, argument }, statement) {
    const { callee, others } = this.findMethod(splitOutside(started, ","));
    const thread = this.functions.get(callee) ?? this.program.functions.get(callee) ?? refusePart(statement, OF_CODE);
    const values = argument === undefined ? others : [NOTHING.test(argument) ? "0" : argument];
    const isFitting = values.length === parseParameters(thread.parameters).length;
    if (argument === undefined && !isFitting) refusePart(statement, OF_CODE);
    if (this.hasJoined || this.running.has(handle)) refusePart(statement, OF_JOINS);
    this.threads.push({ ...thread, isStarted: true, start: statement, values: isFitting ? values.map(foldConstants) : undefined });
    this.running.set(handle, Boolean(isJoining));
  }

  /** Returns the name of the function that a thread begins with, and its arguments, of which the first one may be the object of a method. */
  findMethod([callee, object = "", ...others]) {
    const [, name] = METHOD.exec(callee) ?? [];
    const [, owner] = OBJECT.exec(object) ?? [];
    if (name) return { callee: `${owner}__${name}`, others };
    return { callee: CALLEE.exec(callee)?.[1], others: object ? [object, ...others] : [] };
  }

  /** Joins the thread of a handle. Throws NoTest for the statement if none runs. */
  joinThread(handle, statement) {
    if (!this.running.delete(handle)) refusePart(statement, OF_HANDLES);
    this.hasJoined = true;
  }

  /** Joins the threads of a handle, of handles in an array, or of an array, for which `main` waits. */
  awaitHandles({ handle, joined, count }, statement) {
    const handles = this.arrays.get(joined);
    const number = parseConstant(count ?? "");
    if (!handle && (number === null || number !== (handles?.length ?? number))) refusePart(statement, OF_HANDLES);
    if (handles ?? handle) for (const it of handles ?? [handle]) this.joinThread(it, statement);
    else this.joinAll({ ...statement, joined, count: number });
  }

  /** Joins the threads of an array, or the first ones of it. */
  joinAll(statement) {
    const { joined, count } = statement;
    const isJoined = (handle) => handle.startsWith(`${joined}[`) && (count === null || parseInt(handle.slice(joined.length + 1), 10) < count);
    const handles = [...this.running.keys()].filter(isJoined);
    if (!handles.length) refusePart(statement, OF_HANDLES);
    handles.forEach((it) => this.joinThread(it, statement));
  }

  /** Declares variables, or sets one to a constant, before threads run. */
  setWords(code, statement) {
    const { globals, words, names } = this.program;
    if (defineName(code, names)) return;
    const declared = parseDeclaration(code);
    if (declared.some((it) => globals.has(it.name))) refusePart(statement, OF_NAMES);
    if (declareObjects(this.program, code, statement)) {
      for (const it of this.program.objects) this.locals.add(it);
      return;
    }
    for (const it of declared) this.repeated?.names.add(it.name);
    for (const it of declared) this.locals.add(it.element?.split("[")[0] ?? it.name);
    if (declared.length) {
      declareVariables(this.program, globals, statement.code, statement, OF_BEFORE);
      return;
    }
    const [, name, value] = ASSIGNMENT.exec(code) ?? INITIAL_STORE.exec(code) ?? refusePart(statement, explainType(code) ?? OF_BEFORE);
    const word = parseConstant(value);
    if (!globals.has(name) && explainType(code)) refusePart(statement, explainType(code));
    if (!globals.has(name) || word === null || word >= globals.get(name).limit) refusePart(statement, OF_BEFORE);
    words.set(name, word);
    this.repeated?.names.add(name);
  }
}

/** Returns whether a statement asserts something, or one in it does. */
function hasAssertion({ code, block, then, otherwise }) {
  const inner = block ?? (then && [...then, ...otherwise]);
  return inner ? inner.some(hasAssertion) : ASSERTION.test(squeezeCode(removeStrings(code)));
}

/** Returns whether a statement, or one in it, ends the program since something is wrong. */
function isFailing({ code, block, then, otherwise }) {
  const inner = block ?? (then && [...then, ...otherwise]);
  return inner ? inner.some(isFailing) : FAILURE.test(squeezeCode(removeStrings(code)));
}

/** Returns the condition of an `if`, with that of an `if` that is all of its branch. */
function joinConditions({ condition, then, otherwise }) {
  const [inner, ...others] = then;
  const isNested = inner?.then && !others.length && !otherwise.length && !inner.otherwise.length;
  return isNested ? `(${condition}) && (${joinConditions(inner)})` : condition;
}

/** Returns a record of a start. */
function makeStart(handle, isJoining, started, argument) {
  return { handle, isJoining, started, argument };
}

/**
 * Returns a program whose threads are those that its `main` starts, and whose question is that of `main` if it has no other one. A program without a
 * `main` is returned unchanged. Throws NoTest if `main` does more.
 * @param {Program} program
 * @returns {Program}
 */
export function startThreads(program) {
  const { main, question } = program;
  if (!main) return program;
  const follower = new MainFollower(program);
  follower.followStatements(new MainReader(main).readAll());
  const end = { code: "}", index: main.index + main.code.length };
  const [left] = [...follower.running].find(([, isJoining]) => !isJoining) ?? [];
  if (left) refusePart(end, `: \`main\` joins each thread, and not \`${left}\``);
  if (!follower.threads.length) refusePart(end, ": `main` starts no thread, so leave it out");
  return { ...program, threads: follower.threads, question: question.code ? question : follower.question ?? question, repeated: follower.repeated };
}
