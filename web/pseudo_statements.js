// Writes the statements of pseudo code as those of C. Not proved.
//
// A `Line` is that of pseudo_lines.js.

import { doubtStatement, makeDoubt } from "./pseudo_doubts.js";
import { alignSections, CRITICAL, unwrapEndless } from "./pseudo_loops.js";

// Operators and constants of pseudo code, and those of C. A negation in words is that of a whole comparison.
const COMPARED = /(?:\bnot\b|¬)\s*([A-Za-z_][\w[\]]*\s*(?:==?|!=|<>|≠)\s*\w+)/gi;
const WORDS = [
  [COMPARED, "!($1)"], [/:=|<-|←/g, "="], [/\band\b|∧/gi, "&&"], [/\bor\b|∨/gi, "||"], [/\bnot\b\s*|¬/gi, "!"], [/<>|≠|=\/=/g, "!="],
  [/\btrue\b/gi, "1"], [/\bfalse\b/gi, "0"], [/\b(?:NEW|SET)\b/g, "1"],
];
// Statements that do nothing, and fences with those of C.
const NOTHING = new RegExp(
  "^(?:skip|pass|continue|(?:cpu_relax|[\\w.:]*yield|pause)\\s*\\(\\)|nop|no-?op|do nothing|do|done|od|fi|begin|end(?:[ _]?(?:if|while|do))?|\\.{2,}|…|" +
    "busy[ -]wait|spin|;|\\{\\s*\\}|<?(?:non-?[ _]?critical|remainder)(?:[ _](?:section|code|region))?>?(?:\\(\\))?)?$",
  "i",
);
const FENCES = [
  [/^<?(?:(?:general|full)[ _])?(?:memory[ _])?(?:barrier|fence)>?(?:\(\))?$/i, "smp_mb();"],
  [/^(?:mfence|smp_mb|__sync_synchronize|mb|(?:membar )?#?StoreLoad(?: (?:barrier|fence))?)\s*(?:\(\))?$/i, "smp_mb();"],
  [/^(?:(?:std::)?atomic_thread_)?fence\s*(?:\((?:[\w:]*seq_cst|sc)?\))?$/i, "smp_mb();"],
  [/^<?(?:write|read|compiler|acquire|release)[ _](?:barrier|fence)>?(?:\(\))?$|^(?:smp_[rw]mb|[ls]fence)\s*(?:\(\))?$/i, "smp_rmb();"],
  [/^(?:(?:std::)?atomic_thread_)?fence\s*\([\w:]*(?:acquire|release|acq_rel)\)$|^(?:membar )?#?(?:Load|Store){2}(?: (?:barrier|fence))?$/i, "smp_rmb();"],
];
// The first word of a branch or loop, and the rest of its line.
const HEAD = new RegExp(
  "^(if|while|await|(?:wait|spin|loop|repeat)\\s+(?:until|for|while)|wait(?=\\s*\\(.*[=≠<>])|until|elif|elsif|else\\s*if|else)" +
    "(?!\\w)\\s*(.*)$",
  "i",
);
const BEGIN = /(^|\b(?:then|do|else)\s+)begin\b(?=\s*(?:$|[A-Za-z_]))/i;
const ELSE = /\s*(?:;\s*)?\belse\b:?\s*/i;
const ASSIGNMENT = /^([A-Za-z_]\w*(?:\[\d\])?)\s*(\+=|-=|=(?!=))\s*(.+)$/;
const LOADED = /^(?:(?:load|read)\s+|(?:load|read)\s*(?=\()|(?:\.{2,}|…)\s*=\s*)[[(]?\s*_?([A-Za-z_]\w*(?:\[\d\])?)\s*[\])]?$/i;
const STORED = /^(?:store|write)\s*(?:\(\s*|\s)\[?(\w+)\]?\s*,\s*(\w+)\s*\)?$/i;
const LOADS = /(?<=(?::=|<-|←|=)\s*)(?:load|read)\s*(?:\(\s*\[?(\w+)\]?\s*\)|\s\[?(\w+)\]?)$/i;
const SWAP = /^xchg\s+(?:\[\s*_?(\w+)\s*\]\s*,\s*(\w+)|(\w+)\s*,\s*\[\s*_?(\w+)\s*\])$/i;
const MOVE = /^mov[lq]?\s+([^\s,<][^,<]*?)\s*(?:,|<-)\s*(.+)$/i;
const EXPRESSION = /^[\w\s+()[\]-]+$/;
const CONDITION = /^(?:[\w\s=!&|()[\]+.,:-]|[<>](?![<>]))+$/;
// A call of an atomic variable or function in C++ or C, code with one, and an order of memory by its short name.
const CALL = /\b\w+(?:\.|->)(?:store|load|exchange|fetch_\w+|test_and_set|clear)\s*\(|\batomic_\w+\s*\(/;
const CODE_WITH_CALL = /^(?:\w+\s*=\s*)?[\w\s()[\]&+.,:>-]+$/;
const ORDER = /(?<![\w:])(?:mo_|memory_order_)?(relaxed|consume|acquire|release|acq_rel|seq_cst)\b/g;
// The same as the last argument, by three letters.
const SHORT_ORDER = /(?<=[(,]\s*)(?:mo_)?(rlx|acq|rel|sc|ar|acqrel)(?=\s*[,)])/gi;
const SHORT_ORDERS = { rlx: "relaxed", acq: "acquire", rel: "release", sc: "seq_cst", ar: "acq_rel", acqrel: "acq_rel" };
const KERNEL_LOAD = /\b(?:READ_ONCE|smp_load_acquire)\s*\(\s*&?(\w+)\s*\)/g;
const KERNEL_STORE = /^(?:WRITE_ONCE|smp_store_release)\s*\(\s*&?(\w+)\s*,\s*(.+)\)$/;
// Instructions of processors in pseudo code, with what does the same in C; and a lock that a thread gets or gives back.
const ATOMICS = [
  [/\b(?:TestAndSet|test_and_set|TAS)\s*\(\s*&?(\w+)\s*\)/gi, "__sync_lock_test_and_set(&$1, 1)"],
  [/\b(?:exchange|xchg|atomic_swap|get_?and_?set)\s*\(\s*&?(\w+)\s*,\s*(\w+)\s*\)/gi, "__sync_lock_test_and_set(&$1, $2)"],
  [/\b(?:fetch_?and_?add|fetch_add|FAA|get_?and_?add)\s*\(\s*&?(\w+)\s*,\s*(\w+)\s*\)/gi, "__sync_fetch_and_add(&$1, $2)"],
  [/\b(?:CAS|compare_?and_?(?:swap|set))\s*\(\s*&?(\w+)\s*,\s*(\w+)\s*,\s*(\w+)\s*\)/gi, "__sync_bool_compare_and_swap(&$1, $2, $3)"],
];
// A compare-exchange whose result is compared with a number, or which a name gets.
const CALL_OF_CAS = "\\b(?:CAS|compare_?and_?swap)\\s*\\([^()]*\\)";
const COMPARED_CAS = new RegExp(
  `${CALL_OF_CAS}\\s*(?:[=!]?=|<>|≠)\\s*(?!true|false)\\w+|\\w+\\s*(?::=|<-|\u2190|[=!]?=|<>|≠)\\s*${CALL_OF_CAS}`, "i",
);
const BUILTIN = /^(?:\w+ ?=(?!=) ?)?__sync_\w+\(&\w+(?:, \w+)*\)$/;
const FAILS_IF = /^(?:BUG|WARN)_ON(?:_ONCE)?\s*(\(.+\))$/;
const REMARK = /(?<=\w)\s*\((?:reads|sees|observes|yields)\s+(\d+)\)$/i;
const UNKNOWN_CALL = /^[A-Za-z_]\w*\s*\(\s*\)$/;
const LOCK = /^(un)?lock\s*\(\s*&?(\w+)\s*\)$|^(?:acquire|(release))\s*\(\s*&?(\w+)\s*\)$/i;
// Names of the C code that pseudo code can't have.
const TAKEN = /\b(?:critical|inside\d|(?:printed|loaded)\d)\b/;

/** Thrown if a text is not read as pseudo code; its message is the reason, "" if there is none that helps. */
export class Unread extends Error {}

/**
 * Returns code with the operators and constants of C.
 * @param {string} code
 * @returns {string}
 */
export function toC(code) {
  return WORDS.reduce((all, [pattern, word]) => all.replace(pattern, word), code).trim();
}

/** Returns code in which each order of memory has its whole name. */
function nameOrders(code) {
  const whole = code.replace(SHORT_ORDER, (_, short) => SHORT_ORDERS[short.toLowerCase()]);
  return whole.replace(ORDER, "std::memory_order_$1");
}

/** Returns code in which instructions of processors are functions of C. */
function nameAtomics(code) {
  return ATOMICS.reduce((all, [pattern, call]) => all.replace(pattern, call), code);
}

/** Throws Unread if the result of a compare-exchange may be the old word, or whether it stored. */
function refuseOldWord(code) {
  const [compared] = COMPARED_CAS.exec(code) ?? [];
  if (!compared) return;
  throw new Unread(`\`${compared.trim()}\`: it may return the old word, or whether it stores, so write it as a condition, \`if CAS(..)\``);
}

/**
 * Returns a condition as C writes it. Throws Unread if it is something else.
 * @param {string} code
 * @returns {string}
 */
export function toCondition(code) {
  refuseOldWord(code);
  // An arrow may be a sign and a negative number.
  if (/<\s*-/.test(code)) throw new Unread();
  const condition = toC(nameAtomics(code.replace(KERNEL_LOAD, "$1"))).replace(/(?<![=!<>])=(?!=)/g, "==");
  if (!CONDITION.test(condition) || !condition.trim() || TAKEN.test(condition)) throw new Unread();
  return nameOrders(condition);
}

/** Returns lines with braces in place of `begin` and `end` around the bodies of branches, and without those around all. */
function convertBlocks(lines) {
  const isAround = /^begin$/i.test(lines[0].code) && /^end[;.]?$/i.test(lines.at(-1).code);
  const inner = isAround ? lines.slice(1, -1) : lines;
  if (!inner.some((it) => BEGIN.test(it.code))) return inner;
  return inner.map((it) => ({ ...it, code: it.code.replace(/^end\b\s*;?(?=\s*(?:else\b|$))/i, "}").replace(BEGIN, "$1{") }));
}

/** Returns what a function writes of code. Where that is not read and the function gives no reason, it throws a doubt that names the code. */
function naming(code, write) {
  try {
    return write();
  } catch (error) {
    throw error instanceof Unread && !error.message ? doubtStatement(code) : error;
  }
}

/** Writes the statements of a thread in C. What is not read throws Unread. */
export class StatementWriter {
  /** `written` are the lines of the thread with this `number`. */
  constructor(written, number) {
    const unwrapped = unwrapEndless(written);
    const lines = alignSections(convertBlocks(unwrapped ?? written));
    // `depth` is the number of branches and braces around the present statement, `isHead` whether the last one was the head of a branch, and `isBranched`
    // whether a critical section is in one. `declared` has the names that the thread declares.
    // `branch` is the indentation of the `if` before the present statement. `isEndless` is set if one pass is in place of an endless loop.
    Object.assign(this, { isEndless: unwrapped !== null, loaded: 0 });
    Object.assign(this, { lines, number, at: 0, printed: 0, depth: 0, branch: -1, isHead: false, declared: new Set(), reads: [] });
    Object.assign(this, { hasSection: false, isBranched: false, isAfterSection: false });
    this.hasBraces = lines.some((it) => /[{}]/.test(it.code.replace(/\{\s*\}/g, "")));
  }

  /** Returns the statements of the thread. */
  writeThread() {
    const written = this.hasBraces ? this.lines.map((it) => naming(it.code, () => this.writeBraced(it.code))) : this.writeBlock(0);
    if (this.at < this.lines.length && !this.hasBraces) throw doubtStatement(this.lines[this.at].code);
    return written.join(" ");
  }

  // Code with braces, which are those of C.

  /** Returns a line with braces as C has it. */
  writeBraced(code) {
    return code.split(/([{}])/).map((it) => it.trim()).filter(Boolean).map((it) => (/^[{}]$/.test(it) ? this.writeBrace(it) : this.writePart(it))).join(" ");
  }

  /** Returns a brace. */
  writeBrace(brace) {
    // A brace that is not that of a branch or loop may be of a set of values.
    if (brace === "{" && !this.isHead) throw new Unread();
    this.depth += brace === "{" ? 1 : -1;
    this.isHead = false;
    return brace;
  }

  /** Returns a part of a line without braces: the head of a branch or loop, perhaps with a statement, or statements. */
  writePart(code) {
    // What `do` begins with a brace is a loop whose condition is at its end.
    if (/^do$/i.test(code)) return this.beginLoop();
    const [head, rest] = this.splitHead(code) ?? [];
    if (head === undefined) return this.writeSimples(code);
    this.isHead = true;
    return `${head} ${rest && this.writePart(rest)}`;
  }

  /** Returns the word before the brace of a loop whose condition is at its end. */
  beginLoop() {
    this.isHead = true;
    return "do";
  }

  // Code with indentation.

  /** Returns the statements of the lines from the present one on that are indented at least as far as it. */
  writeBlock(indent) {
    const written = [];
    while (this.at < this.lines.length && this.lines[this.at].indent >= indent) {
      written.push(naming(this.lines[this.at].code, () => this.writeStatement()));
    }
    return written;
  }

  /** Returns the statement of the present line, with the lines that belong to it. Throws Unread for a branch without statements. */
  writeStatement() {
    const { code, indent } = this.lines[this.at];
    this.at += 1;
    if (/^repeat:?$/i.test(code)) return this.writeRepeat(indent);
    const [, repeated, until] = /^repeat\s+(?!(?:until|while|for)\b)(.+?)\s+until\s+(.+?);?$/i.exec(code) ?? [];
    if (until) return `do { ${this.writeSimples(repeated)} } while (!(${toCondition(until)})) ;`;
    const [head, rest, sign] = this.splitHead(code) ?? [];
    if (head === undefined) return this.writeSimples(code);
    // An `else` is below its `if`.
    const isBelow = !head.startsWith("else") || this.branch === indent;
    if (head.endsWith(";")) return `${head} ${rest && this.writePart(rest)}`;
    this.depth += 1;
    const next = this.lines[this.at]?.indent ?? -1;
    const isDeep = next > indent;
    const body = rest ? this.writeInline(rest, sign === ":", isDeep) : isDeep ? `{ ${this.writeBlock(next).join(" ")} }` : "";
    this.depth -= 1;
    this.branch = head === "else" ? -1 : indent;
    if (!isBelow || (isDeep && this.lines[this.at]?.indent > indent)) throw new Unread();
    if (body) return `${head} ${body}`;
    // A line below a loop without a body may be its body.
    if (!head.startsWith("while") || (next === indent && !NOTHING.test(this.lines[this.at].code))) throw new Unread();
    return `${head} ;`;
  }

  /** Returns the loop of the lines up to the one that begins with `until`. Throws Unread if there is none. */
  writeRepeat(indent) {
    const next = this.lines[this.at]?.indent ?? -1;
    const body = next > indent ? this.writeBlock(next).join(" ").trim() : "";
    const [, condition] = /^until\s+(.*?)\s*;?$/i.exec(this.lines[this.at]?.code ?? "") ?? [];
    if (!condition || this.lines[this.at].indent !== indent) throw new Unread();
    this.at += 1;
    const ended = `while (!(${toCondition(condition)})) ;`;
    return body ? `do { ${body} } ${ended}` : ended;
  }

  /**
   * Returns what is after the head of a branch or loop in its line, in braces, and an `else` there. Throws Unread if it is not sure what belongs to it, of
   * several statements or lines below (`isDeep`).
   */
  writeInline(rest, hasColon, isDeep) {
    const parts = rest.split(ELSE);
    const isElseBelow = /^(?:else|elif|elsif)\b/i.test(this.lines[this.at]?.code ?? "");
    const isSeveral = parts.some((it) => it.split(/[;,](?![^(]*\))/).filter((part) => part.trim()).length > 1);
    if (isDeep || parts.length > 2 || (isSeveral && (!hasColon || parts.length > 1))) throw new Unread();
    if (HEAD.test(parts[0]) && (isElseBelow || parts.length > 1)) throw new Unread();
    return parts.map((it) => `{ ${this.writePart(it)} }`).join(" else ");
  }

  // Parts of lines.

  /**
   * Returns the head of a branch or loop as C has it, which ends with a semicolon if it is a whole loop, and what follows it in its line; null if code
   * begins with none.
   */
  splitHead(code) {
    const [, word, rest] = HEAD.exec(code) ?? [];
    if (!word) return null;
    this.isAfterSection ||= this.hasSection;
    if (/^else$/i.test(word)) return ["else", rest.replace(/^:/, "").trim(), rest[0] ?? ""];
    const [condition, sign, after] = splitCondition(rest);
    const kind = word.toLowerCase().replace(/^(?:elif|else\s*if|elsif)$/, "else if");
    const isWhole = sign === ";" || kind !== "while";
    if (/^(?:if|else if)$/.test(kind) && sign !== ";") return [`${kind} (${toCondition(condition)})`, after, sign];
    if (/if$/.test(kind)) throw new Unread();
    const isOn = /\bwhile$/.test(kind);
    return [`while (${isOn ? toCondition(condition) : `!(${toCondition(condition)})`})${isWhole ? " ;" : ""}`, after, sign];
  }

  /** Returns the statements of code without branches. */
  writeSimples(code) {
    const parts = [MOVE, SWAP, STORED].some((it) => it.test(code)) ? [code] : code.split(/;\s*|,(?![^([]*[)\]])\s*/);
    const written = parts.map((it) => this.writeSimple(it.trim().replace(/[.;]$/, ""))).join(" ");
    this.isHead = false;
    return written;
  }

  /** Returns a statement. Throws Unread if it is something else. */
  writeSimple(code) {
    const [remark, found] = REMARK.exec(code) ?? [];
    if (remark) return this.writeReading(code.slice(0, -remark.length), found);
    if (NOTHING.test(code)) return "";
    if (CRITICAL.test(code)) return this.writeSection();
    const fence = FENCES.find(([pattern]) => pattern.test(code));
    if (fence) return fence[1];
    this.isAfterSection ||= this.hasSection;
    const [, shown] = /^print\s*\(?\s*([\w[\]]+)\s*\)?$/i.exec(code) ?? [];
    if (shown) return `printed${this.number}${(this.printed += 1) > 1 ? `_${this.printed}` : ""} = ${shown};`;
    const [, to, word] = STORED.exec(code) ?? [];
    if (to) return writeAssignment(`${to} = ${word}`);
    const [, read] = LOADED.exec(code) ?? [];
    if (read) return `loaded${this.number}${(this.loaded += 1) > 1 ? `_${this.loaded}` : ""} = ${read};`;
    const [, asserted] = /^assert\b\s*(.+)$/i.exec(code) ?? [];
    if (asserted) return `assert(${toCondition(asserted)});`;
    const [, failing] = FAILS_IF.exec(code) ?? [];
    if (failing) return `assert(!(${toCondition(failing)}));`;
    const [locked, isUnlocked, mutex, isReleased, other = mutex] = LOCK.exec(code) ?? [];
    if (locked) return `pthread_mutex_${isUnlocked || isReleased ? "unlock" : "lock"}(&${other});`;
    const [, counted] = /^([A-Za-z_]\w*)\s*\+\+$/.exec(code) ?? [];
    if (counted) return `${counted}++;`;
    const [, type, name] = /^((?:const\s+)?(?:auto|int|unsigned|bool|long)\s+)(\w+)\s*=/.exec(code) ?? [];
    if (name) this.declared.add(name);
    if (!/\bbool\b/.test(type ?? "")) refuseOldWord(code);
    const bare = (type ? code.slice(type.length) : code).replace(LOADS, "$1$2");
    // Such a text may be code of a language, too.
    if (UNKNOWN_CALL.test(bare)) throw Object.assign(new Unread(`\`${bare}\`: write what it does to the names that threads share`), { isCall: true });
    return writeAssignment(bare.replace(/^(?:store|write)\s+(?=\w+\s*(?::=|<-|←|=))/i, ""));
  }

  /** Returns a load of a word, which is one that the text asks for. Throws Unread if it is something else, or the register is set twice. */
  writeReading(code, word) {
    const written = this.writeSimple(code);
    const [, register] = /^(\w+) = [A-Za-z_][\w[\]]*;$/.exec(written) ?? [];
    if (!register || this.reads.some((it) => it.startsWith(`${register}=`))) throw new Unread();
    this.reads.push(`${register}=${word}`);
    return written;
  }

  /** Returns a critical section: it sets a variable, and adds to a location, which is lost if another thread is there. Throws Unread for a second. */
  writeSection() {
    if (this.hasSection) throw makeDoubt("critical section", "a thread has one here");
    this.hasSection = true;
    this.isBranched ||= this.depth > 0 || this.isHead;
    return `inside${this.number} = 1; critical++;`;
  }
}

/** Returns an assignment. Throws Unread if code is none. */
function writeAssignment(code) {
  const [, to, from] = MOVE.exec(code) ?? [];
  const clean = (it) => it.replace(/^\[\s*_?(\w+)\s*\]$|^\$?(\w+)$/, "$1$2");
  const [swap, memory, after, before, other = memory] = SWAP.exec(code) ?? [];
  if (swap) return `${after ?? before} = __sync_lock_test_and_set(&${other}, ${after ?? before});`;
  const [, stored, word] = KERNEL_STORE.exec(code) ?? [];
  const plain = to ? `${clean(to)} = ${clean(from)}` : stored ? `${stored} = ${word}` : nameAtomics(code.replace(KERNEL_LOAD, "$1"));
  if (TAKEN.test(plain)) throw new Unread();
  const call = toC(plain).replace(/\s*=\s*/, " = ");
  if (BUILTIN.test(call)) return `${call};`;
  if (CALL.test(plain) && CODE_WITH_CALL.test(plain)) return `${nameOrders(plain).replace(/^(\w+)\s*=\s*/, "$1 = ")};`;
  const [, name, sign, value] = ASSIGNMENT.exec(toC(plain)) ?? [];
  if (!name || !EXPRESSION.test(value) || /[\w\])]\s+[\w(]/.test(value)) throw new Unread();
  return `${name} ${sign} ${value};`;
}

/** Returns the condition after the first word of a branch or loop, the sign or word that ends it, and what follows it in its line. */
function splitCondition(code) {
  if (code.startsWith("(")) {
    let depth = 0;
    const end = code.split("").findIndex((it) => (depth += (it === "(") - (it === ")")) === 0);
    const [, sign, rest] = /^\s*(:(?!=)|;|then\b|do\b|)\s*(.*)$/i.exec(code.slice(end + 1));
    if (end > 0 && !/^(?:and|or|&&|\|\||[=!<>≠∧∨])/i.test(rest)) return [code.slice(1, end), sign, rest.trim()];
  }
  const [, condition, sign, rest] = /^(.*?)\s*(\bthen\b|\bdo\b|:(?!=)|(?<!\d)\{|;)\s*(.*)$/i.exec(code) ?? [code, code, "", ""];
  return [condition, sign, rest.trim()];
}
