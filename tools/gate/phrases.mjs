// Compares what the page says of conditions whose propositions a comment of the test names, and in which states waits have ended, with what is typed in
// here.
//
//     node tools/gate/phrases.mjs      compares; the last line is 'N passed, M failed'
//
// tools/gate/check_site.mjs compares this too. It needs neither a browser nor the module.

import { loadModules } from "./c_programs.mjs";
import { runAlone } from "./typed_texts.mjs";

/** Returns a test of a lock with comments and a question. */
function makeTest(comments, question) {
  const rows = " P0            | P1            ;\n MOV EAX,$1    | MOV EAX,$1    ;\n XCHG [l],EAX  | XCHG [l],EAX  ;\n MOV [n],$1    | MOV [n],$2    ;\n";
  return `X86 A\n${comments}{ l=0; n=0; }\n${rows}${question}\n`;
}

const ENDS = "(* every wait ends: 0:EAX=0 /\\ 1:EAX=0 *)\n";
const LOST = "(* a store is lost: ~n=2 *)\n";
// Comments, a question, and how its condition is put into words: these, the premise, and of what all runs are to have the words on what is so otherwise; or
// null.
const CONDITIONS = [
  ["", "exists (0:EAX=0 /\\ ~n=2)", "P0 ends with `EAX=0` and memory ends with `n≠2`", ""],
  [ENDS, "exists (0:EAX=0 /\\ 1:EAX=0 /\\ n=1)", "every wait ends and memory ends with `n=1`", ""],
  [ENDS + LOST, "~exists (0:EAX=0 /\\ 1:EAX=0 /\\ ~n=2)", "every wait ends and a store is lost", ""],
  [ENDS + LOST, "~exists ((~n=2 /\\ 1:EAX=0) /\\ 0:EAX=0)", "every wait ends and a store is lost", ""],
  [ENDS + LOST, "exists (0:EAX=0 /\\ 1:EAX=0)", "every wait ends", ""],
  // A proposition that is not whole in the condition is no phrase.
  [ENDS + LOST, "exists (0:EAX=0 /\\ n=2)", "P0 ends with `EAX=0` and memory ends with `n=2`", ""],
  [ENDS, "exists (0:EAX=0 /\\ 1:EAX=0 \\/ n=1)", "P0 and P1 both end with `EAX=0`, or memory ends with `n=1`", ""],
  [ENDS, "exists (0:EAX=0 /\\ 1:EAX=1)", "P0 ends with `EAX=0` and P1 ends with `EAX=1`", ""],
  // What all runs are to have.
  [ENDS, "forall (~0:EAX=0 \\/ ~1:EAX=0 \\/ n=2)", "memory ends with `n=2`", "every wait ends", "memory ends with `n≠2`"],
  [ENDS, "forall (~0:EAX=0 \\/ ~1:EAX=0 \\/ n=2 \\/ n=1)", "memory ends with `n=2`, or memory ends with `n=1`", "every wait ends", "memory ends with `n≠2` and `n≠1`"],
  [ENDS, "forall (~(0:EAX=0 /\\ 1:EAX=0) \\/ n=2)", "memory ends with `n=2`", "every wait ends", "memory ends with `n≠2`"],
  [ENDS, "forall (~0:EAX=0 \\/ n=2)", "P0 ends with `EAX≠0`, or memory ends with `n=2`", "", "P0 ends with `EAX=0` and memory ends with `n≠2`"],
  [ENDS, "forall (0:EAX=0 /\\ 1:EAX=0)", "P0 and P1 both end with `EAX=0`", "", "P0 ends with `EAX≠0`, or P1 ends with `EAX≠0`"],
  // Of several alternatives, as a wait for one of two conditions has.
  ["(* every wait ends: (0:EAX=0 \\/ ~1:EAX=1) /\\ n=2 *)\n", "exists ((0:EAX=0 \\/ ~1:EAX=1) /\\ n=2 /\\ l=1)", "every wait ends and memory ends with `l=1`", ""],
  ["(* every wait ends: (0:EAX=0 \\/ ~1:EAX=1) /\\ n=2 *)\n", "forall (~0:EAX=0 /\\ 1:EAX=1 \\/ ~n=2 \\/ l=1)", "memory ends with `l=1`", "every wait ends",
    "memory ends with `l≠1`"],
  // Comments that name nothing, and words without a verb, as a reader's own comment may have.
  ["(* init: n=1 *)\n", "exists (n=1)", "memory ends with `n=1`", ""],
  ["(* never: n=1 *)\n", "exists (n=1)", "memory ends with `n=1`", ""],
  ["(* the lock is free: l=0 *)\n", "exists (l=0)", "the lock is free", ""],
  ["(* every wait ends: 0:EAX *)\n", "exists (n=1)", "memory ends with `n=1`", ""],
  ["(* every wait ends: 5:EAX=0 *)\n", "exists (n=1)", "memory ends with `n=1`", ""],
  ["(* every wait ends: n=1) \\/ (n=2 *)\n", "exists (n=1)", "memory ends with `n=1`", ""],
  ["(* 0:EAX is r1, 1:EAX is r2 *)\n", "exists (0:EAX=0)", "P0 ends with `r1=0`", ""],
  ["(* 0:EAX is l, 1:EAX is l *)\n", "exists (0:EAX=0)", "P0 ends with `EAX=0`", ""],
  ["", "exists (true)", null, null],
];
// Comments, a question, and the lines of states in which all waits have ended; or null, if that is not known.
const STATES = ["0:EAX=0; 1:EAX=0; n=2;", "0:EAX=0; 1:EAX=1; n=2;", "0:EAX=1; 1:EAX=0; n=1;"];
const ENDED = [
  [ENDS, "exists (0:EAX=0 /\\ 1:EAX=0 /\\ n=1)", [0]],
  [ENDS, "locations [0:EAX; 1:EAX; n]\nexists (true)", [0]],
  ["(* every wait ends: ~0:EAX=1 \\/ n=1 *)\n", "exists (0:EAX=0 /\\ 1:EAX=0 /\\ n=1)", [0, 1, 2]],
  // The list does not say all of it.
  [ENDS, "exists (0:EAX=0 /\\ n=1)", null],
  [LOST, "exists (0:EAX=0 /\\ 1:EAX=0 /\\ n=1)", null],
  ["", "exists (n=1)", null],
];

const OF_C = "`atomic_thread_fence(memory_order_seq_cst)`";
const OF_HEADER = `${OF_C} of \`<stdatomic.h>\``;
const OF_STORE = "; or the last store before it becomes seq_cst, if that is an atomic store: it is an `XCHG` on x86 then.";
const PLACE = " at that place";
// Programs, and the fence that the sentence on them names; and whether a store may be in its place.
const PROGRAMS = [
  ["#include <pthread.h>\nvolatile int x, y;\nvoid *a(void *p) { x = 1; int r = y; }", OF_HEADER, false],
  ["#include <stdatomic.h>\natomic_int x, y;\nvoid a() { atomic_store_explicit(&x, 1, memory_order_relaxed); }", OF_C, true],
  ["#include <stdatomic.h>\n_Atomic int x; volatile int y;", OF_C, true],
  // A program that has a fence, and no atomic variable; and one whose comment is of C++.
  ["#include <stdatomic.h>\nvolatile int x;\nvoid a() { x = 1; atomic_thread_fence(memory_order_release); }", OF_C, false],
  ["// as std::atomic<int>, in C\nvolatile int x; /* using namespace std */", OF_HEADER, false],
  ["C SB\n{}\nP0(atomic_int *x, atomic_int *y) { atomic_store_explicit(x, 1, memory_order_relaxed); }", OF_HEADER, true],
  ["C SB\n{}\nP0(int *x, int *y) { WRITE_ONCE(*x, 1); int r0 = READ_ONCE(*y); }", "`smp_mb()`", false],
  ["atomic_t n; void a(void) { atomic_set(&n, 1); }", "`smp_mb()`", false],
  // Functions and macros of the program itself that are called as the kernel's.
  ["#include <stdatomic.h>\natomic_int l;\nvoid spin_lock(atomic_int *l) { }", OF_C, true],
  ["#define READ_ONCE(x) (*(volatile int *)&(x))\nint x; void *a(void *p) { READ_ONCE(x); }\nint main() { pthread_create(); }", OF_HEADER, false],
  ["int x; void a() { __atomic_store_n(&x, 1, __ATOMIC_RELAXED); }", "`__atomic_thread_fence(__ATOMIC_SEQ_CST)`", true],
  ["#include <atomic>\nstd::atomic<int> x;", "`std::atomic_thread_fence(std::memory_order_seq_cst)`", true],
  ["#include <atomic>\nusing namespace std;\natomic_int x;", "`std::atomic_thread_fence(std::memory_order_seq_cst)`", true],
  ["#include <thread>\nvolatile int x;\nint main() { std::thread a(f); }", "`std::atomic_thread_fence(std::memory_order_seq_cst)`", false],
  ["static X: AtomicI32 = AtomicI32::new(0);\nfn main() { X.store(1, Ordering::Relaxed); }", "`fence(Ordering::SeqCst)`", true],
  ["static mut X: i32 = 0;\nfn main() { unsafe { X = 1; } }", "`fence(Ordering::SeqCst)`", false],
];
// What is said if the program is not known.
const UNKNOWN =
  "In the program this fence is `atomic_thread_fence(memory_order_seq_cst)` in C, the same with `std::` in C++, `fence(Ordering::SeqCst)` in Rust, and " +
  "`smp_mb()` in the kernel, at that place.";

/** Returns a test of a thread, whose instructions have `;` between them, beside one that stores. */
function makeJumping(code) {
  return `X86 J\n{ 0:EBX=0; }\n P0 | P1 ;\n${code.split(";").map((it, at) => ` ${it.trim()} | ${at ? "" : "MOV [f],$1"} ;\n`).join("")}exists (0:EAX=0 /\\ 0:EBX=0)\n`;
}

const SKIPPING = "MOV EAX,[f]; CMP EAX,$0; JE OUT; MOV EBX,[d]; OUT:";
// The code of a thread, the line of a state, and the registers that it loads and that nothing has written in any run to the state.
const UNWRITTEN = [
  [SKIPPING, "0:EAX=0; 0:EBX=0;", ["0:EBX"]],
  [SKIPPING, "0:EAX=1; 0:EBX=0;", []],
  [SKIPPING.replace("JE", "JNE"), "0:EAX=0; 0:EBX=0;", []],
  [SKIPPING.replace("JE", "JNE"), "0:EAX=1; 0:EBX=0;", ["0:EBX"]],
  [SKIPPING.replace("$0", "$1"), "0:EAX=0; 0:EBX=0;", []],
  // The state does not say what was compared: it has not the register, or another word that came later.
  [SKIPPING, "0:EBX=0;", []],
  [`${SKIPPING} MOV EAX,$0`, "0:EAX=0; 0:EBX=0;", []],
  [SKIPPING.replace("JE", "ADD ECX,$1; JE"), "0:EAX=0; 0:EBX=0;", []],
  // A copy says it, and so does a word that no run compares as equal.
  [SKIPPING.replace("; CMP", "; MOV ECX,EAX; CMP").replace("OUT:", "OUT: MOV EAX,$7"), "0:EAX=7; 0:EBX=0; 0:ECX=0;", ["0:EBX"]],
  [`${SKIPPING} MOV EAX,$0`.replace("MOV EAX,[f]", "MOV EAX,$0"), "0:EAX=0; 0:EBX=0;", ["0:EBX"]],
  // Another path loads it, or it is locked; and a register that is only set is none of these.
  ["MOV EAX,[f]; CMP EAX,$0; JE ELSE; MOV EBX,[d]; JMP OUT; ELSE: MOV EBX,[e]; OUT:", "0:EAX=0; 0:EBX=0;", []],
  ["XCHG [l],EBX; MOV EAX,[f]; CMP EAX,$0; JE OUT; MOV EBX,[d]; OUT:", "0:EAX=0; 0:EBX=0;", []],
  [SKIPPING.replace("MOV EBX,[d]", "MOV EBX,$1"), "0:EAX=0; 0:EBX=0;", []],
];

/**
 * Compares all that is typed in here.
 * @param {function(string, any, any)} compare
 */
export async function comparePhrases(compare) {
  const { condition_words, fence_words, unwritten } = await loadModules(["condition_words", "fence_words", "unwritten"]);
  for (const [comments, question, words, premise, otherwise = ""] of CONDITIONS) {
    const expected = words === null ? null : { words, premise, otherwise };
    compare(`the condition ${comments}${question} in words`, expected, condition_words.describeCondition(makeTest(comments, question)));
  }
  for (const [comments, question, ended] of ENDED) {
    const hasEnded = condition_words.makeEndTest(makeTest(comments, question));
    compare(`where waits have ended: ${comments}${question}`, ended, hasEnded && STATES.flatMap((it, at) => (hasEnded(it) ? [at] : [])));
  }
  for (const [program, fence, hasStores] of PROGRAMS) {
    const expected = `In the program this fence is ${fence}${PLACE}${hasStores ? OF_STORE : "."}`;
    compare(`a fence in ${JSON.stringify(program)}`, expected, fence_words.describeFence(program));
  }
  for (const [code, line, names] of UNWRITTEN) {
    compare(`what ${code} has not written in ${line}`, names, unwritten.findUnwritten(makeJumping(code), [line]).get(line));
  }
  compare("a fence in an unknown program", UNKNOWN, fence_words.describeFence(undefined));
}

await runAlone(import.meta.url, comparePhrases);
