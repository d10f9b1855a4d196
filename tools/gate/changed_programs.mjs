// Compares what the page changes in programs in C, C++ and Rust that it refuses, where one change helps, and what it makes of comments in place of critical
// sections, with what is typed in here.
//
//     node tools/gate/changed_programs.mjs      compares; the last line is 'N passed, M failed'
//
// tools/gate/check_site.mjs compares this too. It needs neither a browser nor the module.

import { loadModules } from "./c_programs.mjs";
import { makeFault, runAlone } from "./typed_texts.mjs";

const LOCK = `#include <atomic>
#include <thread>
#include <cassert>
class SpinLock {
  std::atomic_flag flag = ATOMIC_FLAG_INIT;
public:
  void lock() { while (flag.test_and_set(std::memory_order_acquire)) { } }
  void unlock() { flag.clear(std::memory_order_release); }
};
SpinLock lock;
int counter = 0;
void work() {
  for (int i = 0; i < 100000; ++i) {
    lock.lock();
    ++counter; // 100000 times
    lock.unlock();
  }
}
int main() {
  std::thread t1(work), t2(work);
  t1.join(); t2.join();
  assert(counter == 200000);
}
`;
const NAMED = LOCK.replace("int counter", "constexpr int N = 100'000;\nint counter").replace("i < 100000", "i < N").replace("200000", "2 * N");
const DEFINED = LOCK.replace("int counter", "#define ROUNDS 100000\nint counter").replace("i < 100000", "i < ROUNDS").replace("200000", "2 * ROUNDS");
const PETERSON = `bool flag[2] = {false, false};
int turn;

void P0() {
  flag[0] = true;
  turn = 1;
  while (flag[1] && turn == 1) { /* busy wait */ }
  // critical section
  flag[0] = false;
}
void P1() {
  flag[1] = true;
  turn = 0;
  while (flag[0] && turn == 0) { }
  /* Critical section here. */
  flag[1] = false;
}
`;
const VOLATILE = PETERSON.replace("bool flag", "volatile bool flag").replace("int turn", "volatile int turn");
const MESSAGE = `static int data, ready = 0;
void writer(void) { data = 42; ready = 1; }
void reader(void) { int r; while (!ready) { } r = data; }
`;
const MEMBERS = `#include <thread>
struct Shared {
  int data = 0;
  bool ready = false;
} s;
void writer() { s.data = 42; s.ready = true; }
void reader() { while (!s.ready) ; int r = s.data; }
`;
const MANY = `#include <atomic>
#include <thread>
#include <vector>
std::atomic<int> count{0};
void add() { for (int n = 0; n < 1000; ++n) count.fetch_add(1, std::memory_order_relaxed); }
int main() {
  std::vector<std::thread> v;
  for (int n = 0; n < 10; ++n) v.emplace_back(add);
  for (auto& t : v) t.join();
  printf("%d", count.load());
}
`;
const STARTED = `int n;
int add(void *p) { ++n; return 0; }
int main(void) {
  thrd_t thr[10];
  for (int i = 0; i < 10; ++i) thrd_create(&thr[i], add, NULL);
  for (int i = 0; i < 10; ++i) thrd_join(thr[i], NULL);
}
`;
const ENDLESS = `volatile int flag[2], turn;
int counter = 0;
void *p0(void *arg) {
    while (1) {
        flag[0] = 1; turn = 1;
        while (flag[1] == 1 && turn == 1);
        counter++;
        flag[0] = 0;
    }
}
void *p1(void *arg) {
    for (;;) {
        flag[1] = 1; turn = 0;
        while (flag[0] == 1 && turn == 0);
        counter++;
        flag[1] = 0;
    }
}
`;
const BOOK = `use std::sync::{Arc, Mutex};
use std::thread;

fn main() {
    let counter = Arc::new(Mutex::new(0));
    let mut handles = vec![];
    for _ in 0..10 {
        let counter = Arc::clone(&counter);
        let handle = thread::spawn(move || {
            let mut num = counter.lock().unwrap();
            *num += 1;
        });
        handles.push(handle);
    }
    for handle in handles {
        handle.join().unwrap();
    }
    println!("Result: {} of 10", *counter.lock().unwrap());
}
`;
const PRODUCT = `use std::sync::atomic::{AtomicUsize, Ordering};
use std::sync::Arc;
use std::thread;
const ROUNDS: usize = 1_000;
fn main() {
    let counter = Arc::new(AtomicUsize::new(0));
    let handles: Vec<_> = (0..8)
        .map(|_| {
            let counter = Arc::clone(&counter);
            thread::spawn(move || {
                for _ in 0..ROUNDS { counter.fetch_add(1, Ordering::Relaxed); }
            })
        })
        .collect();
    for h in handles { h.join().unwrap(); }
    assert_eq!(counter.load(Ordering::SeqCst), 8_000);
}
`;
const GEEKS = `int flag[2];
int turn;
const int MAX = 1e9;
int ans = 0;
void lock_init() { flag[0] = flag[1] = 0; turn = 0; }
void lock(int self) {
    flag[self] = 1;
    turn = 1-self;
    while (flag[1-self]==1 && turn==1-self) ;
}
void unlock(int self) { flag[self] = 0; }
void* func(void *s) {
    int i = 0;
    int self = (int *)s;
    lock(self);
    for (i=0; i<MAX; i++)
        ans++;
    unlock(self);
}
int main() {
    pthread_t p1, p2;
    lock_init();
    pthread_create(&p1, NULL, func, (void*)0);
    pthread_create(&p2, NULL, func, (void*)1);
    pthread_join(p1, NULL);
    pthread_join(p2, NULL);
    printf("%d of %d", ans, MAX*2);
}
`;
// A program that is refused, the title of the button that changes it, and the parts that become others. Null is the title if nothing is changed.
const CHANGES = [
  ["a loop that counts far", LOCK, "Count to 2", [["i < 100000", "i < 2"], ["200000", "4"]]],
  ["a constant with marks between its digits", NAMED, "Count to 2", [["100'000", "2"]]],
  ["a constant of a directive", DEFINED, "Count to 2", [["ROUNDS 100000", "ROUNDS 2"]]],
  ["a sum with marks between its digits", LOCK.replace("200000", "200'000"), "Count to 2", [["i < 100000", "i < 2"], ["200'000", "4"]]],
  // A number of the program that is no multiple stays.
  ["a store of another number", LOCK.replace("++counter", "counter += 3"), "Count to 2", [["i < 100000", "i < 2"], ["200000", "4"]]],
  ["a loop with a few passes", LOCK.replace("i < 100000", "i < 10").replace("200000", "20"), "Count to 2", [["i < 10", "i < 2"], ["20", "4"]]],
  ["a loop with many statements", "std::atomic<int> x{0};\nvoid a() { for (int i = 0; i < 9; i++) { x.store(i); x.store(i); } }\nvoid b() { int r = x.load(); }\n",
    "Count to 2", [["i < 9", "i < 2"]]],
  ["a thread that is long without loops", LOCK.replace(/for .*\{/, "{").replace("++counter;", "counter++; ".repeat(20)), null, []],
  ["many threads", MANY, "Start 2 threads", [["n < 10;", "n < 2;"]]],
  ["many threads in an array", STARTED, "Start 2 threads", [["thr[10]", "thr[2]"], ["i < 10", "i < 2"], ["i < 10", "i < 2"]]],
  ["many threads, and a sum of theirs", STARTED.replace("NULL);\n}", "NULL);\n  assert(n == 20);\n}"), null, []],
  ["many threads, each of which has started", MANY.replace("n < 10;", "n < 2;"), "Count to 2", [["n < 1000", "n < 2"]]],
  ["endless loops", ENDLESS, "Run each endless loop once", [["while (1) {", "{"], ["for (;;) {", "{"]]],
  ["an endless loop that is left", ENDLESS.replace("counter++;", "if (counter++) break;"), null, []],
  ["threads in Rust", BOOK, "Make the count 2", [["0..10", "0..2"]]],
  ["threads and rounds in Rust", PRODUCT, "Make each count 2", [["1_000", "2"], ["0..8", "0..2"], ["8_000", "4"]]],
  ["a sum in Rust that is no product", PRODUCT.replace("8_000", "16_000"), null, []],
  ["a constant that is scaled", GEEKS, "Count to 2", [["1e9", "2"]]],
  ["the same after its first change", GEEKS.replace("1e9", "2"), "Make flag and turn volatile", [["int flag", "volatile int flag"], ["int turn", "volatile int turn"]]],
  // What would be asked of other counts.
  ["a number that is less than the count", LOCK.replace("counter == 200000", "counter > 500"), null, []],
  ["a number in base 16", LOCK.replace("200000", "0x30d40"), null, []],
  ["passes two by two, and their sum", LOCK.replace("++i", "i += 2").replace("200000", "100000"), null, []],
  ["passes from 1 on, and their sum", LOCK.replace("i = 0", "i = 1").replace("200000", "199998"), null, []],
  ["a question in a comment", `${LOCK.replace("  assert(counter == 200000);\n", "")}// lw: exists (counter=3)\n`, null, []],
  ["a number that the threads have, too", STARTED.replace("NULL);\n}", "NULL);\n  assert(n == 10);\n}"), null, []],
  ["a branch on a number of threads", STARTED.replace("NULL);\n}", "NULL);\n  if (n != 9) printf(\"lost\");\n}"), null, []],
  ["endless loops with an assertion", ENDLESS.replace("counter++;", "counter++; assert(counter < 3);"), null, []],
  ["variables that are declared with others", PETERSON.replace("int turn;", "int turn, counter;"), "Make flag, turn and counter volatile",
    [["bool flag", "volatile bool flag"], ["int turn", "volatile int turn"]]],
  ["a range in Rust from 1 on", BOOK.replace("0..10", "1..10").replace('println!("Result: {} of 10", *counter.lock().unwrap());', "assert_eq!(*counter.lock().unwrap(), 9);"), null, []],
  ["a number in Rust that is less than the count", PRODUCT.replace("assert_eq!(counter.load(Ordering::SeqCst), 8_000)", "assert!(counter.load(Ordering::SeqCst) > 5)"), null, []],
  // A sum that the new count would not have.
  ["a loop with one pass more", LOCK.replace("i < 100000", "i <= 100000").replace("200000", "200002"), null, []],
  ["loops in loops", LOCK.replace("100000; ++i)", "100; ++i) for (int j = 0; j < 1000; ++j)"), null, []],
  ["a small count, and a number that may be something else", LOCK.replace("i < 100000", "i < 9").replace("200000", "18"), null, []],
  ["a count of two digits, and its sum", LOCK.replace("i < 100000", "i < 20").replace("200000", "40"), "Count to 2", [["i < 20", "i < 2"], ["40", "4"]]],
  ["textbook waits for plain variables", PETERSON, "Make flag and turn volatile", [["bool flag", "volatile bool flag"], ["int turn", "volatile int turn"]]],
  ["a plain flag among others", MESSAGE, "Make ready and data volatile", [["static int", "static volatile int"]]],
  ["a plain member", MEMBERS, "Make ready volatile", [["bool ready", "volatile bool ready"]]],
  ["a local name of a plain variable", MESSAGE.replace("static int data, ready = 0;", "int data;").replace("int r;", "int r, ready = 0;"), null, []],
  ["a plain variable behind a pointer", MESSAGE.replace("static int data, ready = 0;", "int data, *ready;").replace("!ready", "!*ready"), null, []],
];
// Comments in place of critical sections: a program, and whether it has additions to `critical`.
const SECTIONS = [
  ["two kinds of comments", VOLATILE, true],
  ["a comment on how to leave it", VOLATILE.replace("// critical section", "// leave the critical section").replace("Critical section here.", ""), false],
  ["a comment on what is before it", VOLATILE.replace("// critical section", "// wait for the critical section").replace("Critical section here.", ""), false],
  ["words around it", VOLATILE.replace("// critical section", "// --- enter critical section ---"), true],
  ["words before its lock", VOLATILE.replace("// critical section", "").replace("  flag[0] = true;", "  // enter critical section\n  flag[0] = true;").replace("Critical section here.", ""), false],
  ["a branch without a block", "std::atomic<int> l{0};\nvoid a() {\n  if (!l.exchange(1)) // critical section\n    l.store(0);\n}\nvoid b() {\n  if (!l.exchange(1)) // critical section\n    l.store(0);\n}\n", false],
  ["a variable of that name", VOLATILE.replace("int turn;", "int turn;\nvolatile int critical;"), false],
];

// Programs with comments in place of `// Q` and `/* R */`, in which two threads store, load the other's variable, and do nothing else.
const ASKED = {
  C: "int x, y; // Q\nvoid P0(void) { WRITE_ONCE(x, 1); int r1 = READ_ONCE(y); }\nvoid P1(void) { WRITE_ONCE(y, 1); int r2 = READ_ONCE(x); /* R */ }\n",
  "C++": `// Q
#include <atomic>
#include <thread>
std::atomic<int> x{0}, y{0};
int r1 = 0, r2 = 0;
int main() {
  std::thread a([] { x.store(1, std::memory_order_relaxed); r1 = y.load(std::memory_order_relaxed); });
  std::thread b([] { y.store(1, std::memory_order_relaxed); r2 = x.load(std::memory_order_relaxed); });
  a.join(); b.join();
  /* R */
}
`,
  Rust: `use std::sync::atomic::{AtomicI32, Ordering::*};
use std::thread;
static x: AtomicI32 = AtomicI32::new(0);
static y: AtomicI32 = AtomicI32::new(0);
// Q
fn main() {
  let t = thread::spawn(|| { x.store(1, Relaxed); let r1 = y.load(Relaxed); });
  let u = thread::spawn(|| { y.store(1, Relaxed); let r2 = x.load(Relaxed); });
  t.join().unwrap(); u.join().unwrap(); /* R */
}
`,
};
const OF_BOTH = "exists (0:EAX=1 /\\ 1:EAX=1)";
const OF_NONE = "~exists (0:EAX=0 /\\ 1:EAX=0)";
const OF_TRUE = "locations [0:EAX; 1:EAX]\nexists (true)";
const IS_READ = "The question is that of the comment `";
const IS_UNREAD = "The page does not read the question of the comment `";
const ARE_SEVERAL = "Several comments seem to ask, and a test has one question: leave in the one that is yours.";
// Words of comments in place of Q and R, the question that they become, and what is said of them.
const QUESTIONS = [
  ["r1 == 1 && r2 == 1 ?", "", OF_BOTH, IS_READ],
  ["", "r1 == 1 && r2 == 1 ?", OF_BOTH, IS_READ],
  ["Can r1 == 1 && r2 == 1 happen?", "", OF_BOTH, IS_READ],
  ["exists (r1 == 1 && r2 == 1)", "", OF_BOTH, IS_READ],
  ["", "Is r1 == 1 and r2 == 1 possible?", OF_BOTH, IS_READ],
  ["Store buffering. Can r1 = 1 and r2 = 1?", "", OF_BOTH, IS_READ],
  ["r1 == 2 && r2 == 1 must be impossible", "", "~exists (0:EAX=2 /\\ 1:EAX=1)", IS_READ],
  ["forbidden: r1 == 1 && r2 == 1", "", OF_BOTH, IS_READ],
  ["assert never r1 == 0 && r2 == 0", "", OF_NONE, IS_READ],
  ["r1 == 0 && r2 == 0 can't happen", "", OF_NONE, IS_READ],
  ["~exists (r1 = 0 /\\ r2 = 0)", "", OF_NONE, IS_READ],
  ["forall (r1 == 1 || r2 == 1)", "", "forall (0:EAX=1 \\/ 1:EAX=1)", IS_READ],
  ["Can r1 == 0 || r2 != 1 happen?", "", "exists (0:EAX=0 \\/ ~1:EAX=1)", IS_READ],
  ["x == 1 && r1 == 0 possible?", "", "exists (x=1 /\\ 0:EAX=0)", IS_READ],
  ["r1 == 1 && r2 == 1 ?", "r1 == 1 && r2 == 1?", OF_BOTH, IS_READ],
  ["exists (0:r1=0 /\\ 1:r2=1)", "", "exists (0:EAX=0 /\\ 1:EAX=1)", IS_READ],
  ["Initially x = y = 0. Can r1 = 1 and r2 = 1?", "", OF_BOTH, IS_READ],
  ["Is r1 == 1 possible? (r2 == 1)", "", OF_TRUE, IS_UNREAD],
  ["r1 == 1 && r2 == 1 is possible only with a fence", "", OF_TRUE, IS_UNREAD],
  ["r1 == 1 && r2 == 1 ?", "r1 == 0 && r2 == 0 ?", OF_TRUE, ARE_SEVERAL],
  // What compares nothing asks nothing of an end.
  ["r1 == 1 && r2 == 1 ?", "is this right?", OF_BOTH, IS_READ],
  ["Can both be 0?", "", OF_TRUE, IS_UNREAD],
  ["What can happen?", "", "exists (0:EAX=0 /\\ 1:EAX=0)", ""],
  ["whose turn is it? (thread 0 or 1)", "", "exists (0:EAX=0 /\\ 1:EAX=0)", ""],
  ["r3 == 0 && r2 == 0 ?", "", OF_TRUE, IS_UNREAD],
  ["Can r1 == 0 and r2 == 0 never happen?", "", OF_TRUE, IS_UNREAD],
  ["Is r1 == 0 or r2 == 0 impossible?", "", OF_TRUE, IS_UNREAD],
  ["Can r1 == 1 unless r2 == 1?", "", OF_TRUE, IS_UNREAD],
  ["It is not forbidden that r1 == 0 && r2 == 0 never holds", "", OF_TRUE, IS_UNREAD],
  ["Thread 2: r1 == 1 ?", "", OF_TRUE, IS_UNREAD],
  ["See https://example.org/?q=1. The store happens before the load.", "", "exists (0:EAX=0 /\\ 1:EAX=0)", ""],
  ["r1 == 1 && r2 == 1", "", "exists (0:EAX=0 /\\ 1:EAX=0)", ""],
];
// A program whose results have the names of registers.
const OF_RESERVED = "volatile int x, y, r1, r2; // r1 == 0 && r2 == 0 ?\nvoid t0() { x = 1; r1 = y; }\nvoid t1() { y = 1; r2 = x; }\n";
// Programs whose comments ask of what a function has there and then.
const ASKED_THERE = [
  ["a location in a function", ASKED.C.replace("/* R */", "/* y == 1 ? */").replace("// Q", "")],
  ["a register that is set twice", ASKED.C.replace("/* R */", "/* r2 == 0 ? */ r2 = 5;").replace("// Q", "")],
  ["a register of two threads", ASKED.C.replace(/r2/g, "r1").replace("// Q", "// r1 == 0 ?").replace("/* R */", "")],
];

/** Compares the changes of programs that are refused. */
function compareChanges({ faults }, compare) {
  for (const [name, text, title, parts] of CHANGES) {
    const { change } = faults.explainFault(makeFault(text), text);
    const isOther = change && !/^(?:Count|Start|Run each|Make \w+(?:, \w+)*(?: and \w+)? volatile|Make (?:the|each) count)/.test(change.title);
    compare(`the button for ${name}`, title, isOther ? null : change?.title ?? null);
    if (title === null) continue;
    const whole = parts.reduce((it, [part, other]) => it.replace(part, () => other), text);
    compare(`the change for ${name}`, whole, change && text.slice(0, change.begin) + change.text + text.slice(change.end));
  }
}

/** Compares which comments become additions, and how many a test has then, with its question. */
function compareSections({ faults }, compare) {
  for (const [name, text, isCounted] of SECTIONS) {
    const { words, change } = faults.explainFault(makeFault(text), text);
    const count = change.text.split("ADD ").length - 1;
    compare(`a section in ${name}`, isCounted, words.includes(" A critical section is an addition to `critical` here: the question is whether one is lost,"));
    compare(`the question of ${name}`, isCounted, change.text.includes("(* threads are in the critical section together: ~critical=2 *)"));
    compare(`the additions of ${name}`, isCounted ? 2 : 0, count);
  }
}

/** Compares the questions that comments ask, and what is said of them. */
function compareQuestions({ faults }, compare) {
  const find = (text) => {
    const { words, change } = faults.explainFault(makeFault(text), text);
    return { words, question: /^(?:locations.*\n)?(?:~?exists|forall).*$/m.exec(change?.text ?? "")?.[0] };
  };
  for (const [language, program] of Object.entries(ASKED)) {
    for (const [before, after, expected, part] of QUESTIONS) {
      const text = program.replace("// Q", before && `// ${before}`).replace("/* R */", after && `/* ${after} */`);
      const { words, question } = find(text);
      const isSaid = part ? words.includes(part) : !/\bcomments?\b/.test(words);
      compare(`the question of the comments ${before} and ${after} in ${language}`, [expected, true], [question, isSaid]);
    }
  }
  const reserved = find(OF_RESERVED);
  compare("the question of a comment on names of registers", ["exists (r1_=0 /\\ r2_=0)", true], [reserved.question, reserved.words.includes(IS_READ)]);
  for (const [name, text] of ASKED_THERE) {
    const { words, question } = find(text);
    compare(`the question of a comment on ${name}`, [true, true], [question?.endsWith("exists (true)"), words.includes(IS_UNREAD)]);
  }
}

/**
 * Compares what the page changes and what it counts, by its own modules.
 * @param {function(string, any, any)} compare
 */
export async function compareChangedPrograms(compare) {
  const page = await loadModules(["faults"]);
  compareChanges(page, compare);
  compareSections(page, compare);
  compareQuestions(page, compare);
}

await runAlone(import.meta.url, compareChangedPrograms);
