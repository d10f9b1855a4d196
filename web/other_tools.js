// Finds what a text has from other tools and languages: their first words, comments, types of initial values; and what it lacks before its rows. Not
// proved.

import { rewriteWithComment } from "./c_comments.js";
import { rewriteProgram } from "./c_program.js";
import { findRemedy } from "./c_remedies.js";
import { rewriteWithSections } from "./c_sections.js";
import { findSlip } from "./c_slips.js";
import { findBareEntries } from "./initial_values.js";
import { isAllIn } from "./other_language.js";
import { rewriteRust } from "./rust_program.js";
import { findRustRemedy } from "./rust_remedies.js";
import { readTest } from "./tests.js";
import { blankComments } from "./tokens.js";

const HERE = "Here only `SRC` and `X86` tests are read.";
const OF_HERD = `${HERE} \`tools/from_herd.py\` converts tests of herd for X86 and X86_64.`;
const OF_OTHERS = `${HERE} They are of x86 processors, and no tool of lw converts tests of others.`;
const OTHERS = /^(?:AArch64|ARM|PPC|RISCV|MIPS)$/i;
// The blanks and comments before a program in C, and how it begins.
const C_COMMENTS = /^(?:\s|\/\/.*|\/\*[^]*?\*\/)*/;
const C = new RegExp(
  "^(?:C\\s|(?:\\{[^{}]*\\}\\s*)?P0\\s*\\([^(){};|]*\\*[^(){};|]*\\)\\s*\\{|#[ \\t]*(?:include|define|pragma|if|ifdef|ifndef)\\b|" +
    "using\\s|(?:inline\\s+)?namespace\\b|TEST\\s*\\(\\s*\\w+\\s*,|union\\s|extern\\s+\"C|alignas\\b|template\\b|typedef\\s|\\[\\[|" +
    "(?:(?:extern|static|inline|volatile|const|constexpr|thread_local|_Atomic)\\s+)*" +
    "(?:class\\s+\\w+[\\w\\s]{0,40}\\{|enum\\s*(?:(?:class|struct)\\s+)?(?:\\w+\\s*)?(?::\\s*[\\w:]+\\s*)?\\{|" +
    "(?:atomic_\\w+|int|void|(?:un)?signed|long|short|char|s?size_t|bool|auto|struct|u?int(?:\\d+|ptr)_t|pthread_(?:\\w+_)?t|" +
    "mtx_t|thrd_t|cnd_t|sem_t|spinlock_t|LONG(?:64)?|U?INT|U?LONG|DWORD|BOOL|HANDLE|CRITICAL_SECTION|SRWLOCK)\\s|" +
    "atomic<|std::|_Atomic\\(|DEFINE_(?:RAW_)?(?:SPINLOCK|MUTEX)\\())",
);
// A procedure in a listing of Microsoft's compiler.
const LISTING = /^[^\n]*\bPROC\b[^]*^[^\n]*\bENDP\b/m;
const OF_C = "`tools/from_c.py` compiles programs in C, C++ and Rust, and herd's tests in C";
const OF_PROGRAM = " For that its threads are functions `P0`, `P1` and so on without parameters, and its last line asks, as `// lw: exists (0:r0=0)` does.";
const OF_FIRST_LINE = " Its first line is `C mine` then.";
const OF_FIRST_LINES = " Its first lines are `C mine` and `{}` then.";
const OF_FIRST_WORD = " Its first word is `C` then.";
const OF_GUESS = " The question is a guess: change it to yours.";
const OF_BUTTON =
  "The button makes an x86 test of it: each access as gcc and clang compile it, in the order of the program. That is not proved, and a compiler may " +
  "also reorder or merge relaxed and plain accesses.";
const OF_WAITING = " A loop that waits is one pass here: the list hides the states in which it has not ended";
const OF_SWAPPING = " A compare-exchange is an `XCHG` here, which does the same, since its variable has no third word.";
const OF_LOCKING = " A mutex is a word that `XCHG` takes and gives back: the list hides the states in which a thread did not get it";
const OF_HOLDING = " A thread takes a mutex while it has another one: lw does not look for deadlock.";
const OF_TRYING = " A mutex is a word here, which `XCHG` takes if it is free.";
const LEFT_OUT = ", and the question leaves them out";
const OF_WIDE = " Words of 64 bits are words of 32 bits here, which no sum of this program exceeds.";
const OF_REPEATED = " The loop in `main` is one run here, which is enough, since the page lists all final states.";
const OF_ENTRY =
  " A loop that stores before its critical section is no single pass, so a thread that would begin one ends there: what this test finds can happen, but " +
  "runs with such passes are left out.";
const OF_DELAYS = " A loop that only delays its thread is left out.";
const NOT_ASKED = " The question `true` asks nothing: look at the list of states, and ask what must not happen.";
// How programs in Rust, Java, Go, C# and Python begin, what only C++ has, and how a thread in C begins.
const RUST = new RegExp(
  "^\\s*(?:use\\b|let\\s+(?:mut\\s+)?\\w+\\s*=\\s*(?:Arc::new\\(|Atomic)|(?:std::)?thread::scope\\b|(?:unsafe\\s+)?fn\\b|pub\\b|" +
    "(?:static|const)\\s+(?:mut\\s+)?\\w+\\s*:|extern\\s+crate\\b|mod\\s+\\w+\\s*\\{|#!?\\[)",
);
const JAVA = /^(?:import\s+(?:static\s+)?java|package\s+[\w.]+;|(?:(?:public|final|abstract)\s+)*class\s+\w+[^;{]{0,80}\{)/;
const GO = /^(?:package\s+\w+[ \t]*\r?(?:\n|$)|func\s+\w*\(|import\s+(?:\(|")|var\s+\w+(?:,\s*\w+)*\s+(?:u?int\d*|bool|atomic\.\w+|sync\.\w+)\b)/;
const C_SHARP = /^using\s+System\b|^namespace\s+\w+(?:\.\w+)+\s*[{;]/;
const PYTHON = /^(?:#.*\n\s*)*(?:from\s+\w+\s+import\b|import\s+[\w.]+[ \t]*(?:\n|\r|,|as\b)|def\s+\w+\([^()]*\)\s*(?:->\s*\w+\s*)?:)/;
const OTHER_LANGUAGES = [["C#", C_SHARP], ["Python", PYTHON], ["Java", JAVA], ["Go", GO]];
const CPP = /\bstd::|<atomic>|\batomic<|\busing\s|\bnamespace\b/;
const IS_READ = "The page reads C, C++, Rust and x86 assembly.";
const THREAD_IN_C = /^(?:X86|SRC)\s(?:[^{]*\{[^}]*\})?\s*P0\s*[({]/;
// The row of the threads' names.
const NAMES_ROW = /^[ \t]*P0[ \t]*[|;]/m;
/** The sentence on the types of initial values. */
export const NO_TYPES = "The initial values have no types.";
// Words that declare the type of a location.
const TYPES = "(?:(?:const|volatile|unsigned|signed|_Atomic|atomic_\\w+|u?int\\d*|long|short|char|bool|[A-Za-z]\\w*_t)\\s+)+";
const ENTRY = new RegExp(`^(?:(${TYPES}))?((?:\\d\\s*:\\s*)?\\w+)(?:\\s*=\\s*(\\d\\w*))?$`);
const TYPED = new RegExp(`(?:[{;]|^)\\s*${TYPES}(?:\\d\\s*:\\s*)?\\w`);

/**
 * Returns a hint on a program, that `words` say begins here: the `command` that prints its test, which a file of a likely name has, with words on it in
 * `more`. If the program is in C or C++ and simple, the hint proposes the test in place of the whole text; otherwise it says why it is not, and where.
 * @param {string} words
 * @param {string} text
 * @param {FaultPlace} place
 * @returns {{words: string, more: string, document: string, command: string, at?: object, change?: object}}
 */
function explainProgram(words, text, place) {
  const name = /^\s*(?:C|X86|SRC)\s+([\w+.-]+)/.exec(text)?.[1] ?? "mine";
  const file = `${name}.${RUST.test(text.replace(C_COMMENTS, "")) ? "rs" : CPP.test(text) ? "cc" : "c"}`;
  const command = `python3 tools/from_c.py --show ${file}`;
  const once = /_ONCE\b/.test(text) ? " (In place of `READ_ONCE(*x)` it takes `atomic_load_explicit(x, memory_order_relaxed)`.)" : "";
  const [, first] = /^\s*(C|X86|SRC)\s/.exec(text) ?? [];
  const [front, block] = /^\s*(\{[^{}]*\})?\s*P0\b/.exec(text.replace(C_COMMENTS, "")) ?? [];
  const whole = front === undefined ? OF_PROGRAM : block ? OF_FIRST_LINE : OF_FIRST_LINES;
  const form = first === "C" ? "" : first ? OF_FIRST_WORD : whole;
  const how = `${OF_C}: save this as \`${file}\`, then \`${command}\` prints a test for this page.${form}${once}`;
  const hint = { more: how, document: "from-c.html", command };
  const isRust = RUST.test(text.replace(C_COMMENTS, ""));
  const test = rewriteWithComment(text, isRust ? rewriteRust : rewriteWithSections);
  if (!test) return { words: `${words} ${IS_READ}`, ...hint };
  const slip = test.made || isRust ? null : findSlip(text, test, rewriteProgram);
  if (slip) return { ...explainSlip(text, slip, place.text), ...hint };
  if (!test.made) return explainFault(text, test, place.text, isRust ? findRustRemedy(text, rewriteRust) : findRemedy(text, test, rewriteProgram), hint);
  place.proposeChange(test.made, 0, place.text.length);
  Object.assign(place.change, { title: "Rewrite it as an x86 test", done: "Rewritten.", isCompiled: true });
  const compiled = isRust ? OF_BUTTON.replace("gcc and clang compile", "rustc compiles") : OF_BUTTON;
  return { words: `${words} ${compiled}${test.sections ?? ""}${explainMade(test)}`, ...hint };
}

/**
 * Returns sentences on what a test has in place of parts of its program, and on its question.
 * @param {object} test
 * @returns {string}
 */
export function explainMade({ made, isGuess, isOpen, races, isWaiting, isSwapping, isLocking, isTrying, isHolding, isWide, isRepeated, isDelayed, isEnding, pointed, users = "", terms = "", asks = "" }) {
  const end = `${isOpen ? "" : LEFT_OUT}.`;
  const objects = ` A pointer is a word here, 0 for null and 1 for the object, whose members are variables, as \`${pointed}\`; a null pointer reads them, too.`;
  const ofLocks = [[isLocking, OF_LOCKING + end], [isTrying, OF_TRYING], [isHolding, OF_HOLDING]];
  const ofLoops = [[isWaiting, OF_WAITING + end], [isSwapping, OF_SWAPPING]];
  const parts = [[pointed, objects], ...ofLoops, ...ofLocks, [isWide, OF_WIDE], [isRepeated, OF_REPEATED], [isDelayed, OF_DELAYS], [isEnding, OF_ENTRY]];
  const question = made.endsWith("(true)\n") ? NOT_ASKED : isGuess ? OF_GUESS : "";
  return `${users}${terms}${explainRaces(races)}${parts.map(([isSo, sentence]) => (isSo ? sentence : "")).join("")}${asks}${question}`;
}

/** Returns a sentence on plain variables, if there are some, on which threads race in a program; or "". */
function explainRaces(names) {
  if (!names.length) return "";
  const list = names.map((it) => `\`${it}\``).join(", ").replace(/, (?=[^,]*$)/, " and ");
  const [are, them] = names.length === 1 ? ["is", "it"] : ["are", "them"];
  return ` ${list} ${are} plain: each access is one \`MOV\` here, which a compiler need not keep if threads race on ${them}.`;
}

/** Returns the begin of a sentence that says why a program is not rewritten. */
function beginRefusal(text) {
  const program = `this program in ${RUST.test(text.replace(C_COMMENTS, "")) ? "Rust" : CPP.test(text) ? "C++" : "C"}`;
  return `The page can't make a test of ${program}`;
}

/** Returns a sentence that says why a program is not rewritten: for its part at an index, or, without an index, for what lw refuses in its test. */
function explainRefusedProgram(text, why, index) {
  return `${beginRefusal(text)}${index === undefined ? ", since lw refuses it:" : " because of"} ${why}.`;
}

/** Returns words on the part because of which a program that ends a text is refused, its place, and the change of the text that helps, or none. */
function explainFault(program, { why, index }, text, change, hint) {
  return { words: explainRefusedProgram(program, why, index), ...hint, at: findPart(text, program, index), ...(change && { change: moveChange(change, program, text) }) };
}

/** Returns words on a slip in a program that ends a text, its place, and the change of the text that puts it right. */
function explainSlip(program, { words, index, change }, text) {
  return { words: `${beginRefusal(program)}: ${words}`, at: findPart(text, program, index), change: change && moveChange(change, program, text) };
}

/** Returns the change of a text that a change of the program at its end is. */
function moveChange(change, program, text) {
  const front = text.length - program.length;
  return { ...change, begin: front + change.begin, end: front + change.end };
}

/** Returns where an index is of a program that ends a text, as a row, a column and an index of the text; undefined if the index is. */
function findPart(text, program, index) {
  if (index === undefined) return undefined;
  const at = text.length - program.length + index;
  const lines = text.slice(0, at).split("\n");
  return { row: lines.length, column: [...lines.at(-1)].length + 1, index: at };
}

/**
 * Returns a sentence that says that code calls a function of C.
 * @param {string} code
 * @returns {string}
 */
export function explainCall(code) {
  return `\`${code}\` is a call in C, and no instruction. ${OF_C}.`;
}

/**
 * Returns words on the first word of a text, if it is that of another language, the document that says what converts it, and the command that does so, if it
 * is known; or null. Of a simple program in C it proposes the test.
 * @param {FaultPlace} place
 * @returns {{words: string, more?: string, document: string, command?: string} | null}
 */
export function findOtherLanguage(place) {
  const { text, index, token } = place;
  if (THREAD_IN_C.test(text)) return explainProgram("The threads are functions in C: the first word is `C` then.", text, place);
  if (blankComments(text.slice(0, index)).trim()) return null;
  const rest = text.slice(index);
  const code = rest.replace(C_COMMENTS, "");
  const [other] = OTHER_LANGUAGES.find(([, pattern]) => pattern.test(code) && (pattern === C_SHARP || !CPP.test(code))) ?? [];
  if (other) return { words: `This begins as a program in ${other} does. ${IS_READ}`, document: "your-code.html" };
  if (C.test(code) && !LISTING.test(code)) return explainProgram(`This begins as a program ${CPP.test(code) ? "in C++" : "or a test in C"} does.`, rest, place);
  if (RUST.test(code)) return explainProgram("This begins as a program in Rust does.", rest, place);
  if (OTHERS.test(token)) return { words: `\`${token}\` is the language of another processor in herd's tests. ${OF_OTHERS}`, document: "from-herd.html" };
  if (/^X86_64$/i.test(token) && !isRead(rest.replace(/^\w+/, "X86"))) {
    return { words: `\`X86_64\` is a language of herd's tests. ${OF_HERD}`, document: "from-herd.html" };
  }
  return null;
}

/**
 * Returns whether a text is read as a test.
 * @param {string} text
 * @returns {boolean}
 */
export function isRead(text) {
  try {
    readTest(text);
    return true;
  } catch {
    return false;
  }
}

/**
 * Returns a sentence that says what comments are, if a place begins one of another language; or "". It proposes lw's for all of these comments from there
 * on.
 * @param {FaultPlace} place
 * @returns {string}
 */
export function explainComment(place) {
  const { text, index } = place;
  const rest = text.slice(index);
  // In ARM's assembly a constant is `#1`.
  const mark = /^(?:\/\/|\/\*|#(?!\d))/.exec(rest)?.[0];
  if (!mark) return "";
  const pattern = mark === "/*" ? /\/\*([^]*?)\*\// : new RegExp(`${mark}${mark === "#" ? "(?!\\d)" : ""}[ \\t]?(.*)`);
  // lw's own comments stay as they are.
  const either = new RegExp(`\\(\\*[^]*?\\*\\)|${pattern.source}`, "g");
  const comments = [...rest.matchAll(either)].filter(([, inner]) => inner !== undefined);
  if (comments.length && !comments.some(([, inner]) => /\(\*|\*\)/.test(inner))) {
    const mended = rest.replace(either, (whole, inner) => (inner === undefined ? whole : `(* ${inner.trim()} *)`));
    place.proposeChange(mended, index, text.length);
    place.change.title = comments.length === 1 ? "Change this comment" : `Change ${comments.length} comments`;
  }
  return "Comments are `(*` and `*)`.";
}

/**
 * Returns a sentence that says that a text has no first line, or no name or no initial values, if that is so at a place; or "". It proposes to put them in.
 * @param {FaultPlace} place
 * @returns {string}
 */
export function explainMissingFront(place) {
  const { text, index, token } = place;
  // Without rows it is no test that lacks its front.
  if (!/[|;][ \t]*$/m.test(text.slice(index))) return "";
  const front = blankComments(text.slice(0, index));
  // Before a block a thread's name is read as that of a note, and the fault is after it.
  const hasThreads = token === "P0" || (/\bP0\s*$/.test(front) && /^[|;]$/.test(token));
  const begin = text.lastIndexOf("\n", hasThreads && token !== "P0" ? front.lastIndexOf("P0") : index - 1) + 1;
  if (!front.trim() && /^(?:\{|P0)$/.test(token) && NAMES_ROW.test(text)) {
    const language = isAllIn("SRC", text) ? "SRC" : "X86";
    place.proposeChange(`${language} Mine\n${token === "{" ? "" : "{}\n"}`, begin, begin);
    place.change.title = "Put in a first line";
    return `The first line is missing: \`SRC\` or \`X86\`, and a name.`;
  }
  const [, word] = /^\s*(SRC|X86)\s+\{\S*\s/.exec(front) ?? [];
  if (word && hasThreads) {
    const end = front.indexOf(word) + word.length;
    place.proposeChange(" Mine", end, end);
    place.change.title = "Put in a name";
    return `The test has no name: it is after \`${word}\`.`;
  }
  if (!hasThreads || front.includes("{")) return "";
  const bare = findBareEntries(blankComments(text), begin);
  if (bare) {
    place.proposeChange(`${bare.block}\n`, bare.begin, begin);
    place.change.title = "Put them in braces";
    return "Initial values are in braces, each with a `;` after it.";
  }
  place.proposeChange("{}\n", begin, begin);
  place.change.title = "Put in {}";
  return "The initial values are missing before the threads: they are `{}` if all are 0.";
}

/**
 * Returns a block of initial values without its types; "" if that is not exact, and null if it has none.
 * @param {string} block
 * @returns {string | null}
 */
export function rewriteTypes(block) {
  if (!TYPED.test(block)) return null;
  const entries = block.slice(1, -1).split(";").map((it) => it.trim()).filter(Boolean).map((it) => ENTRY.exec(it));
  if (entries.includes(null)) return "";
  const given = entries.filter(([, , , value]) => value !== undefined).map(([, , site, value]) => [site, value]);
  if (new Map(given).size !== given.length) return "";
  // A location that is declared without a value begins with 0, unless another entry has its value.
  const values = new Map([...entries.map(([, , site]) => [site, "0"]), ...given]);
  return `{ ${[...values].map((it) => it.join("=")).join("; ")} }`;
}
