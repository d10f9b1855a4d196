// Compares what the page makes of programs in C and C++ that have other terms than atomic variables and mutexes - semaphores, latches, barriers, conditions,
// enumerations, locks of the kernel, `call_once`, and queues that no thread uses - with what is typed in here: the rows of the test and its question, or why there is none.
//
//     node tools/gate/programs_in_terms.mjs      compares; the last line is 'N passed, M failed'
//
// tools/gate/check_site.mjs compares this too. It needs neither a browser nor the module.

import { loadModules } from "./c_programs.mjs";
import { makeFault, runAlone } from "./typed_texts.mjs";

const WAIT = `std::atomic<bool> ready{false};
int data;
void producer() { data = 42; ready.store(true, std::memory_order_release); ready.notify_one(); }
void consumer() { ready.wait(false, std::memory_order_acquire); int r = data; }
`;
const FLAG = `std::atomic_flag f = ATOMIC_FLAG_INIT;
int n;
void work() { while (f.test_and_set(std::memory_order_acquire)) f.wait(true, std::memory_order_relaxed); ++n; f.clear(std::memory_order_release); f.notify_one(); }
int main() { std::thread a(work), b(work); a.join(); b.join(); assert(n == 2); }
`;
const MUTEX = `#include <semaphore.h>
sem_t mutex;
int counter = 0;
void *worker(void *arg) {
    sem_wait(&mutex);
    counter++;
    sem_post(&mutex);
    return NULL;
}
int main() {
    pthread_t a, b;
    sem_init(&mutex, 0, 1);
    pthread_create(&a, NULL, worker, NULL);
    pthread_create(&b, NULL, worker, NULL);
    pthread_join(a, NULL); pthread_join(b, NULL);
    assert(counter == 2);
    sem_destroy(&mutex);
}
`;
const POSTED = `sem_t full;
int data;
void *producer(void *p) { data = 1; sem_post(&full); return NULL; }
void *consumer(void *p) { sem_wait(&full); int r = data; return NULL; }
int main() {
    pthread_t a, b;
    sem_init(&full, 0, 0);
    pthread_create(&a, NULL, producer, NULL);
    pthread_create(&b, NULL, consumer, NULL);
    pthread_join(a, NULL); pthread_join(b, NULL);
}
`;
const BINARY = `std::binary_semaphore ping{1}, pong{0};
int data;
void a() { ping.acquire(); data = 1; pong.release(); }
void b() { pong.acquire(); int r = data; ping.release(); }
`;
const LATCH = `std::latch done{1};
int data;
void worker() { data = 7; done.count_down(); }
void waiter() { done.wait(); int r = data; }
`;
const START = `std::latch start(2);
std::atomic<int> x{0}, y{0};
int r1, r2;
int main() {
  std::thread a([&] { start.arrive_and_wait(); x.store(1, std::memory_order_relaxed); r1 = y.load(std::memory_order_relaxed); });
  std::thread b([&] { start.arrive_and_wait(); y.store(1, std::memory_order_relaxed); r2 = x.load(std::memory_order_relaxed); });
  a.join(); b.join();
  assert(r1 == 1 || r2 == 1);
}
`;
const BARRIER = `pthread_barrier_t barrier;
volatile int x, y;
int r1, r2;
void *t1(void *p) { pthread_barrier_wait(&barrier); x = 1; r1 = y; return NULL; }
void *t2(void *p) { pthread_barrier_wait(&barrier); y = 1; r2 = x; return NULL; }
int main(void) {
  pthread_t a, b;
  pthread_barrier_init(&barrier, NULL, 2);
  pthread_create(&a, NULL, t1, NULL);
  pthread_create(&b, NULL, t2, NULL);
  pthread_join(a, NULL);
  pthread_join(b, NULL);
  if (r1 == 0 && r2 == 0) printf("reordered\\n");
}
`;
const CONDITION = `#include <condition_variable>
#include <mutex>
#include <thread>
std::mutex m;
std::condition_variable cv;
bool ready = false;
int data = 0;
void producer() {
  {
    std::lock_guard<std::mutex> lk(m);
    data = 42;
    ready = true;
  }
  cv.notify_one();
}
void consumer() {
  std::unique_lock<std::mutex> lk(m);
  cv.wait(lk, [] { return ready; });
  assert(data == 42);
}
int main() { std::thread a(producer), b(consumer); a.join(); b.join(); }
`;
const POSIX_CONDITION = `pthread_mutex_t m = PTHREAD_MUTEX_INITIALIZER;
pthread_cond_t c = PTHREAD_COND_INITIALIZER;
int ready, data;
void *producer(void *p) { pthread_mutex_lock(&m); data = 1; ready = 1; pthread_cond_signal(&c); pthread_mutex_unlock(&m); return 0; }
void *consumer(void *p) { pthread_mutex_lock(&m); while (ready == 0) pthread_cond_wait(&c, &m); int r = data; pthread_mutex_unlock(&m); return 0; }
`;
const BOOST = `class spinlock {
private:
  typedef enum {Locked, Unlocked} LockState;
  boost::atomic<LockState> state_;
public:
  spinlock() : state_(Unlocked) {}
  void lock() { while (state_.exchange(Locked, boost::memory_order_acquire) == Locked) { } }
  void unlock() { state_.store(Unlocked, boost::memory_order_release); }
};
`;
const STATE = `enum class State { Idle, Busy = 5, Late };
std::atomic<State> s{State::Idle};
int data;
void a() { data = 1; s.store(State::Late, std::memory_order_release); }
void b() { if (s.load(std::memory_order_acquire) == State::Late) { int r = data; } }
`;
const KERNEL = `static DEFINE_SPINLOCK(lock);
int x, y, r1, r2;
void cpu0(void) { spin_lock(&lock); WRITE_ONCE(x, 1); spin_unlock(&lock); r1 = READ_ONCE(y); }
void cpu1(void) { WRITE_ONCE(y, 1); smp_mb(); r2 = READ_ONCE(x); }
`;
const RING = `template<typename T, size_t Size>
class ringbuffer {
public:
  ringbuffer() : head_(0), tail_(0) {}
  bool push(const T & value)
  {
    size_t head = head_.load(boost::memory_order_relaxed);
    size_t next_head = next(head);
    if (next_head == tail_.load(boost::memory_order_acquire))
      return false;
    ring_[head] = value;
    head_.store(next_head, boost::memory_order_release);
    return true;
  }
  bool pop(T & value)
  {
    size_t tail = tail_.load(boost::memory_order_relaxed);
    if (tail == head_.load(boost::memory_order_acquire))
      return false;
    value = ring_[tail];
    tail_.store(next(tail), boost::memory_order_release);
    return true;
  }
private:
  size_t next(size_t current) { return (current + 1) % Size; }
  T ring_[Size];
  boost::atomic<size_t> head_, tail_;
};
`;
const LONGER = RING.replace("public:", "public:\n  enum { Capacity = Size + 1 };").replace("% Size", "% Capacity").replace("ring_[Size]", "ring_[Capacity]");
const FUNCTIONS = `#define SIZE 1024
int buffer[SIZE];
std::atomic<int> head{0}, tail{0};
bool enqueue(int v) {
  int t = tail.load(std::memory_order_relaxed);
  int next = (t + 1) & (SIZE - 1);
  if (next == head.load(std::memory_order_acquire)) return false;
  buffer[t] = v;
  tail.store(next, std::memory_order_release);
  return true;
}
bool dequeue(int *v) {
  int h = head.load(std::memory_order_relaxed);
  if (h == tail.load(std::memory_order_acquire)) return false;
  *v = buffer[h];
  head.store((h + 1) & (SIZE - 1), std::memory_order_release);
  return true;
}
`;
const PUTTING = "MOV EAX,[queue_head_]; MOV EAX,[queue_tail_]; CMP EAX,$1; JNE L2; JMP L1; L2: MOV [queue_ring__0],$1; MOV [queue_head_],$1; L1:";
const TAKING = "MOV EAX,$0; MOV EDX,[queue_tail_]; MOV EBX,[queue_head_]; CMP EBX,$0; JNE L2; MOV ECX,$0; JMP L1; L2: MOV EAX,[queue_ring__0]; MOV [queue_tail_],$1; MOV ECX,$1; L1:";
const ONCE = `std::once_flag flag;
int config = 0;
void work() { std::call_once(flag, [] { config = 42; }); int r = config; }
int main() { std::thread a(work), b(work); a.join(); b.join(); }
`;
const CALLED = ONCE.replace("void work", "void init() { config = 42; }\nvoid work").replace("[] { config = 42; }", "init");
const ONE_CALL = "MOV ECX,[flag_done]; CMP ECX,$0; JNE L1; MOV EAX,$1; XCHG [flag_mutex],EAX; MOV ECX,[flag_done]; CMP ECX,$0; JNE L2; MOV [config],$42; MOV [flag_done],$1; L2: MOV ECX,$0; XCHG [flag_mutex],ECX; L1: MOV EBX,[config]";
const OF_ONCE = "exists (0:EAX=0 /\\ 1:EAX=0 /\\ (0:EBX=0 \\/ 1:EBX=0))";
const COUNTER = `#include <pthread.h>
int x = 0;
void *inc(void *s) { int i, r; for (i = 0; i < 2; i++) x++; r = x; return 0; }
int main() { pthread_t t[2]; int i; for (i = 0; i < 2; i++) pthread_create(&t[i], 0, inc, 0); for (i = 0; i < 2; i++) pthread_join(t[i], 0); }
`;
const TWICE = "MOV EBX,[x]; ADD EBX,$1; MOV [x],EBX; MOV EBX,[x]; ADD EBX,$1; MOV [x],EBX; MOV EAX,[x]";
const SELF = `volatile int flag[2];
volatile int turn;
void init() { flag[0] = flag[1] = 0; turn = 0; }
void lock() {
    flag[self] = 1;
    turn = 1 - self;
    while ((flag[1-self] == 1) && (turn == 1 - self))
        ;
}
void unlock() { flag[self] = 0; }
`;
const writeSelf = (me, other) =>
  `MOV [flag_${me}],$1; MOV [turn],$${other}; MOV EAX,[flag_${other}]; CMP EAX,$1; JNE L2; MOV EBX,[turn]; ` +
  `L2: MOV ECX,[counter]; ADD ECX,$1; MOV [counter],ECX; MOV [flag_${me}],$0`;
const OF_SELF = "exists ((~0:EAX=1 \\/ ~0:EBX=1) /\\ (~1:EAX=1 \\/ ~1:EBX=0) /\\ ~counter=2)";
const GUARDED = "MOV EAX,$1; XCHG [m],EAX; MOV [data],$42; MOV [ready],$1; MOV EBX,$0; XCHG [m],EBX";
const LOOKING = "MOV EAX,$1; XCHG [m],EAX; MOV EBX,[ready]; MOV ECX,[data]; MOV EDX,$0; XCHG [m],EDX";
const OF_CONDITION = "forall (~0:EAX=0 \\/ ~1:EAX=0 \\/ ~1:EBX=1 \\/ 1:ECX=42)";
const OF_BUFFERING = ["MOV [x],$1; MOV EAX,[y]", "MOV [y],$1; MOV EAX,[x]"];
// A program, the instructions of its threads, and the question.
const MADE = [
  ["a wait of an atomic variable", WAIT, ["MOV [data],$42; MOV [ready],$1", "MOV EAX,[ready]; MOV EBX,[data]"], "exists (1:EAX=1 /\\ 1:EBX=0)"],
  ["a wait for another word", WAIT.replace("wait(false, std::memory_order_acquire)", "wait(0)"), ["MOV [data],$42; MOV [ready],$1", "MOV EAX,[ready]; MOV EBX,[data]"],
    "exists (1:EAX=1 /\\ 1:EBX=0)"],
  ["a wait in a loop that takes a flag", FLAG,
    Array(2).fill("MOV EAX,$1; XCHG [f],EAX; MOV EBX,[n]; ADD EBX,$1; MOV [n],EBX; MOV [f],$0"), "forall (~0:EAX=0 \\/ ~1:EAX=0 \\/ n=2)"],
  ["a semaphore as a mutex", MUTEX,
    Array(2).fill("MOV EAX,$0; XCHG [mutex],EAX; MOV EBX,[counter]; ADD EBX,$1; MOV [counter],EBX; MOV EBX,$1; XCHG [mutex],EBX"),
    "forall (0:EAX=0 \\/ 1:EAX=0 \\/ counter=2)"],
  ["a semaphore that is posted once", POSTED, ["MOV [data],$1; MOV EAX,$1; XCHG [full],EAX", "MOV EAX,$0; XCHG [full],EAX; MOV EBX,[data]"],
    "exists (~1:EAX=0 /\\ 1:EBX=0)"],
  ["two binary semaphores", BINARY,
    ["MOV EAX,$0; XCHG [ping],EAX; MOV [data],$1; MOV EBX,$1; XCHG [pong],EBX", "MOV EAX,$0; XCHG [pong],EAX; MOV EBX,[data]; MOV ECX,$1; XCHG [ping],ECX"],
    "exists (~0:EAX=0 /\\ ~1:EAX=0 /\\ 1:EBX=0)"],
  ["a latch", LATCH, ["MOV [data],$7; MOV EAX,$4294967295; LOCK XADD [done],EAX", "MOV EAX,[done]; MOV EBX,[data]"], "exists (1:EAX=0 /\\ 1:EBX=0)"],
  ["a latch at the start", START, OF_BUFFERING, "forall (0:EAX=1 \\/ 1:EAX=1)"],
  ["a barrier at the start", BARRIER, OF_BUFFERING, "exists (0:EAX=0 /\\ 1:EAX=0)"],
  ["a barrier at the start and at the end", BARRIER.replaceAll(" return NULL;", " pthread_barrier_wait(&barrier); return NULL;"), OF_BUFFERING,
    "exists (0:EAX=0 /\\ 1:EAX=0)"],
  ["a condition with a lambda", CONDITION, [GUARDED, LOOKING], OF_CONDITION],
  ["a condition in a loop", CONDITION.replace("cv.wait(lk, [] { return ready; });", "while (!ready) cv.wait(lk);"), [GUARDED, LOOKING], OF_CONDITION],
  ["a condition of POSIX", POSIX_CONDITION, [GUARDED.replace("42", "1"), LOOKING], "exists (0:EAX=0 /\\ 1:EAX=0 /\\ ~1:EBX=0 /\\ 1:ECX=0)"],
  // What notifies is no statement before another one.
  ["a notification in a branch without a block",
    "std::atomic<int> x{0}, y{0};\nvoid a() { int old = x.exchange(1); if (old == 0) x.notify_one(); int r1 = y.load(); }\nvoid b() { x.wait(0); int r0 = y.load(); y.store(1); }\n",
    ["MOV EAX,$1; XCHG [x],EAX; CMP EAX,$0; JNE L1; L1: MOV EBX,[y]", "MOV EAX,[x]; MOV EBX,[y]; MOV ECX,$1; XCHG [y],ECX"], "exists (true)"],
  ["counters that are declared before their loops", COUNTER, [TWICE, TWICE], "exists (~x=4)"],
  ["a lock whose threads have numbers that nothing declares, and a chain of assignments", SELF, [writeSelf(0, 1), writeSelf(1, 0)], OF_SELF],
  ["a lambda that is called once", ONCE, [ONE_CALL, ONE_CALL], OF_ONCE],
  ["a function that is called once", CALLED, [ONE_CALL, ONE_CALL], OF_ONCE],
  ["an enumeration of Boost's spinlock", BOOST,
    Array(2).fill("MOV EAX,$0; XCHG [the_lock_state_],EAX; MOV EBX,[counter]; ADD EBX,$1; MOV [counter],EBX; MOV [the_lock_state_],$1"),
    "exists (~0:EAX=0 /\\ ~1:EAX=0 /\\ ~counter=2)"],
  ["an enumeration with words", STATE, ["MOV [data],$1; MOV [s],$6", "MOV EAX,[s]; CMP EAX,$6; JNE END; MOV EBX,[data]; END:"], "exists (1:EAX=6 /\\ 1:EBX=0)"],
  ["a lock of the kernel", KERNEL, ["MOV EAX,$1; XCHG [lock],EAX; MOV [x],$1; MOV [lock],$0; MOV EBX,[y]", "MOV [y],$1; MFENCE; MOV EAX,[x]"],
    "exists (0:EAX=0 /\\ 0:EBX=0 /\\ 1:EAX=0)"],
  ["a mutex of the kernel", KERNEL.replace("DEFINE_SPINLOCK", "DEFINE_MUTEX").replace("spin_lock", "mutex_lock").replace("spin_unlock", "mutex_unlock"),
    ["MOV EAX,$1; XCHG [lock],EAX; MOV [x],$1; MOV ECX,$0; XCHG [lock],ECX; MOV EBX,[y]", "MOV [y],$1; MFENCE; MOV EAX,[x]"], "exists (0:EAX=0 /\\ 0:EBX=0 /\\ 1:EAX=0)"],
  ["a queue that no thread uses, with Boost's names", RING, [PUTTING, TAKING], "exists (~1:EBX=0 /\\ 1:EAX=0)"],
  ["a queue of two functions", FUNCTIONS,
    [PUTTING, TAKING].map((it) => it.replaceAll("queue_ring__0", "buffer_0").replaceAll("queue_head_", "HEAD").replaceAll("queue_tail_", "head").replaceAll("HEAD", "tail")),
    "exists (~1:EBX=0 /\\ 1:EAX=0)"],
  ["a queue with a constant of one word more", LONGER, [PUTTING, TAKING], "exists (~1:EBX=0 /\\ 1:EAX=0)"],
];
// A program of which no test is made, and a part of its sentence.
const REFUSED = [
  ["a queue that takes otherwise", RING.replace("bool pop(T & value)", "std::optional<T> pop()"), ""],
  ["a queue beside another class", `struct Node { int value; };\n${RING}`, ""],
  ["a queue with two ways to put", RING.replace("private:", "  bool enqueue(const T & value) { return push(value); }\nprivate:"), ""],
  ["an enumeration with a name that a variable has", STATE.replace("int data", "std::atomic<int> Busy; int data"), ""],
  ["an enumeration with a sum", STATE.replace("= 5", "= 2 + 3"), ""],
  ["a function with an argument that is called once", CALLED.replace("flag, init", "flag, init, 1"), "the page follows `call_once`"],
  ["a lambda that may leave early and is called once", ONCE.replace("config = 42;", "if (config) return; config = 42;"), "the page follows `call_once`"],
  ["a counter that is used after its loop", COUNTER.replace("r = x;", "r = i;"), ""],
  ["a chain of assignments of another constant", SELF.replace("= 0; turn", "= 5; turn"), ""],
  ["a barrier before a load that is returned",
    "std::barrier b(2);\nstd::atomic<int> x{0}, y{0};\nint P0() { x.store(1, std::memory_order_relaxed); b.arrive_and_wait(); return y.load(std::memory_order_relaxed); }\n" +
    "int P1() { y.store(1, std::memory_order_relaxed); b.arrive_and_wait(); return x.load(std::memory_order_relaxed); }\n", ""],
  ["a barrier at the end of threads that hold a mutex",
    "std::barrier b(2);\nstd::mutex m;\nint n;\nvoid f() { std::lock_guard<std::mutex> g(m); n++; b.arrive_and_wait(); }\nint main() { std::thread t(f), u(f); t.join(); u.join(); }\n", ""],
  ["a semaphore of lambdas",
    "sem_t s;\nstd::atomic<int> x{0};\nint main() { sem_init(&s, 0, 1); std::thread a([&] { sem_wait(&s); x.store(1); }), b([&] { sem_post(&s); x.store(2); }); a.join(); b.join(); }\n", ""],
  ["a condition of a copy", CONDITION.replace("[] { return ready; }", "[=] { return ready; }"), ""],
  ["a register that is no queue", "class Register {\n  std::atomic<int> word{0};\npublic:\n  void write(int v) { word.store(v); }\n  int read() { return word.load(); }\n};\n", ""],
  ["an assertion beside a thread that tries a mutex and keeps it",
    "std::mutex m;\nstd::atomic<int> x{0}, y{0};\nvoid a() { int r0 = x.load(); int r1 = y.load(); assert(!(r0 == 1 && r1 == 0)); }\nvoid b() { m.lock(); y.store(1); m.unlock(); }\n" +
    "void c() { if (m.try_lock()) x.store(1); }\n", ""],
  ["a wait for a sum", WAIT.replace("wait(false, std::memory_order_acquire)", "wait(1 - 1)"), "the page follows `wait` of an atomic variable for one word"],
  ["a wait of a variable while a loop looks at another one", WAIT.replace("ready.wait(false, std::memory_order_acquire);", "while (data == 0) ready.wait(false);"), ""],
  ["a barrier of three, for two threads", BARRIER.replace("NULL, 2)", "NULL, 3)"), "the page follows barriers at which"],
  ["a barrier after a store", BARRIER.replace("pthread_barrier_wait(&barrier); x = 1;", "x = 1; pthread_barrier_wait(&barrier);"), "the page follows barriers at which"],
  ["a barrier in a branch", BARRIER.replace("pthread_barrier_wait(&barrier); x = 1;", "if (y) { pthread_barrier_wait(&barrier); } x = 1;"), ""],
  ["a latch that is only tried", LATCH.replace("done.wait();", "while (!done.try_wait()) ;"), ""],
  ["a semaphore that counts", BINARY.replace("std::binary_semaphore", "std::counting_semaphore<2>"), "the page follows semaphores that are"],
  ["a semaphore that is only tried", BINARY.replace("pong.acquire();", "if (pong.try_acquire())"), ""],
  ["a semaphore that two threads post", POSTED.replace("int r = data;", "int r = data; sem_post(&full);"), "the page follows semaphores that are"],
  ["a semaphore that a thread posts which starts twice", POSTED.replace("consumer, NULL", "producer, NULL").replace("&b, NULL, producer", "&b, NULL, producer"), ""],
  ["a semaphore that a loop posts", POSTED.replace("sem_post(&full);", "for (int i = 0; i < 2; i++) sem_post(&full);"), "the page follows semaphores that are"],
  ["a semaphore that counts from 2", MUTEX.replace("0, 1)", "0, 2)"), "the page follows semaphores that are"],
  ["a semaphore that some runs give back", MUTEX.replace("sem_post(&mutex);", "if (counter) sem_post(&mutex);"), ""],
  ["a condition after a store", CONDITION.replace("cv.wait(lk", "data = 1; cv.wait(lk"), "the page follows waits for a condition right after"],
  ["a condition that is looked at once", CONDITION.replace("cv.wait(lk, [] { return ready; });", "if (!ready) cv.wait(lk);"), ""],
  ["a condition with a limit of time", CONDITION.replace("cv.wait(lk, [] { return ready; });", "cv.wait_for(lk, 1s, [] { return ready; });"), ""],
  ["a condition with another lock", CONDITION.replace("cv.wait(lk", "cv.wait(other"), ""],
];

/** Returns the instructions of each thread of a test. */
function listInstructions(test) {
  const rows = test.split("\n").filter((it) => / ;$/.test(it)).map((it) => it.slice(0, -1).split("|").map((cell) => cell.trim()));
  return rows[0].map((_, at) => rows.slice(1).map((it) => it[at]).filter(Boolean).join("; "));
}

/**
 * Compares what the page makes of such programs, by its own modules.
 * @param {function(string, any, any)} compare
 */
export async function compareProgramsInTerms(compare) {
  const { faults } = await loadModules(["faults"]);
  for (const [name, text, threads, question] of MADE) {
    const { change } = faults.explainFault(makeFault(text), text);
    const test = change?.text ?? "";
    compare(`the instructions of ${name}`, threads, test && listInstructions(test));
    compare(`the question of ${name}`, question, test.split("\n").find((it) => /^~?exists|^forall/.test(it))?.replace(/^~/, ""));
  }
  for (const [name, text, part] of REFUSED) {
    const { words, change } = faults.explainFault(makeFault(text), text);
    compare(`${name} is refused`, [true, undefined], [words.startsWith("The page can't make a test of this program") && words.includes(part), change?.text]);
  }
}

await runAlone(import.meta.url, compareProgramsInTerms);
