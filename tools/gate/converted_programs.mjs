// Compares what the page makes of programs in C and C++ with pointers to one object of each type, or whose semaphores begin and end rounds, or with a lock
// that no thread uses, with what is typed in here: the test, or why there is none.
//
//     node tools/gate/converted_programs.mjs      compares; the last line is 'N passed, M failed'
//
// tools/gate/check_site.mjs compares this too. It needs neither a browser nor the module.

import { loadModules } from "./c_programs.mjs";
import { runAlone } from "./typed_texts.mjs";

const HEAD = "#include <atomic>\n#include <thread>\nstruct Data { int x; int y; };\nstd::atomic<Data*> g{nullptr};\n";
const WRITER = "void w() { Data* d = new Data; d->x = 1; d->y = 2; g.store(d, std::memory_order_release); }\n";
const READER = "void r() { Data* d = g.load(std::memory_order_acquire); int a = 9; if (d) { a = d->y; } }\n";
// A program, and the test that is made of it.
const MADE = [
  ["an object that is handed over", HEAD + WRITER.replace("d->x = 1; ", "") + READER,
    "X86 Mine\n(* 0:EAX is d, 1:EAX is d, 1:EBX is a *)\n{ Data_y=0; g=0; }\n P0              | P1               ;\n MOV EAX,$1      | MOV EAX,[g]      ;\n MOV [Data_y],$2 | MOV EBX,$9       ;\n MOV [g],EAX     | CMP EAX,$0       ;\n                 | JE END           ;\n                 | MOV EBX,[Data_y] ;\n                 | END:             ;\nlocations [0:EAX]\nexists (~1:EAX=0 /\\ 1:EBX=0)\n"],
  ["cppreference's example, with a string and two assertions", `#include <thread>
#include <atomic>
#include <cassert>
#include <string>

std::atomic<std::string*> ptr;
int data;

void producer()
{
    std::string* p = new std::string("Hello");
    data = 42;
    ptr.store(p, std::memory_order_release);
}

void consumer()
{
    std::string* p2;
    while (!(p2 = ptr.load(std::memory_order_acquire)))
        ;
    assert(*p2 == "Hello"); // never fires
    assert(data == 42); // never fires
}

int main()
{
    std::thread t1(producer);
    std::thread t2(consumer);
    t1.join(); t2.join();
}
`, "X86 Mine\n(* 0:EAX is p, 1:EAX is p2, 1:EBX is a_string as asserted, 1:ECX is data as asserted *)\n(* every wait ends: ~1:EAX=0 *)\n{ a_string=0; ptr=0; data=0; }\n P0                | P1                 ;\n MOV [a_string],$1 | MOV EAX,[ptr]      ;\n MOV EAX,$1        | MOV EBX,[a_string] ;\n MOV [data],$42    | MOV ECX,[data]     ;\n MOV [ptr],EAX     |                    ;\nforall (1:EAX=0 \\/ 1:EBX=1 /\\ 1:ECX=42)\n"],
  ["a comment of herd after its question", "C MP\n\n{}\n\nP0(int *x, int *y)\n{\n\tWRITE_ONCE(*x, 1);\n\tsmp_wmb();\n\tWRITE_ONCE(*y, 1);\n}\n\nP1(int *x, int *y)\n{\n\tint r0;\n\tint r1;\n\n\tr0 = READ_ONCE(*y);\n\tsmp_rmb();\n\tr1 = READ_ONCE(*x);\n}\n\nexists (1:r0=1 /\\ 1:r1=0) (* Bad outcome. *)\n", "X86 MP\n(* 1:EAX is r0, 1:EBX is r1 *)\n{ x=0; y=0; }\n P0         | P1          ;\n MOV [x],$1 | MOV EAX,[y] ;\n MOV [y],$1 | MOV EBX,[x] ;\nexists (1:EAX=1 /\\ 1:EBX=0)\n"],
  ["comments of herd in several lines after its question", "C MP\n\n{}\n\nP0(int *x, int *y)\n{\n\tWRITE_ONCE(*x, 1);\n\tsmp_wmb();\n\tWRITE_ONCE(*y, 1);\n}\n\nP1(int *x, int *y)\n{\n\tint r0;\n\tint r1;\n\n\tr0 = READ_ONCE(*y);\n\tsmp_rmb();\n\tr1 = READ_ONCE(*x);\n}\n\nexists (1:r0=1 /\\ 1:r1=0) (* Bad\n outcome x=1. *)\n\n(* more *)\n", "X86 MP\n(* 1:EAX is r0, 1:EBX is r1 *)\n{ x=0; y=0; }\n P0         | P1          ;\n MOV [x],$1 | MOV EAX,[y] ;\n MOV [y],$1 | MOV EBX,[x] ;\nexists (1:EAX=1 /\\ 1:EBX=0)\n"],
  ["directives of names that it defines", `#ifndef SB_C
#define SB_C
#include <stdatomic.h>
#define FENCE 1
#define QUICK
atomic_int x, y;
void P0(void) { atomic_store_explicit(&x, 1, memory_order_relaxed);
#if FENCE
  atomic_thread_fence(memory_order_seq_cst);
#endif
  int a = atomic_load_explicit(&y, memory_order_relaxed); }
void P1(void) { atomic_store_explicit(&y, 1, memory_order_relaxed);
#ifndef QUICK
  atomic_thread_fence(memory_order_seq_cst);
#elif FENCE == 2
  x = 2;
#else
  atomic_signal_fence(memory_order_seq_cst);
#endif
  int b = atomic_load_explicit(&x, memory_order_relaxed); }
#endif
`, `X86 Mine
(* 0:EAX is a, 1:EAX is b *)
{ x=0; y=0; }
 P0 | P1 ;
 MOV [x],$1 | MOV [y],$1 ;
 MFENCE | MOV EAX,[x] ;
 MOV EAX,[y] | ;
exists (0:EAX=0 /\\ 1:EAX=0)
`],
  ["conditions of an `if` that are joined by `||`", `std::atomic<int> x{0}, y{0};
void P0() { x = 1; y = 1; }
void P1() { int r = 0; if (y == 1 && x == 0 || x == 2) { r = 1; } else r = 3; int a = x; }
`, `X86 Mine
(* 1:EAX is r, 1:EBX is a *)
{ x=0; y=0; }
 P0           | P1             ;
 MOV EAX,$1   | MOV EAX,$0     ;
 XCHG [x],EAX | MOV ECX,[y]    ;
 MOV EAX,$1   | CMP ECX,$1     ;
 XCHG [y],EAX | JNE L1         ;
              | MOV ECX,[x]    ;
              | CMP ECX,$0     ;
              | JNE L1         ;
              | MOV EAX,$1     ;
              | JMP L2         ;
              | L1: MOV ECX,[x] ;
              | CMP ECX,$2     ;
              | JNE L3         ;
              | MOV EAX,$1     ;
              | JMP L4         ;
              | L3: MOV EAX,$3 ;
              | L4: L2: MOV EBX,[x] ;
locations [1:EAX; 1:EBX]
exists (true)
`],
  // What an atomic member begins with is no atomic access.
  ["initial values, of which one is that of an atomic member", `struct Data { int x; std::atomic<int> n{5}; };
std::atomic<Data*> g;
void w() { g.store(new Data{1}, std::memory_order_release); }
void r() { auto d = g.load(std::memory_order_acquire); if (d == nullptr) return; int a = d->x; int k = d->n.load(); }
`, "X86 Mine\n(* 1:EAX is d, 1:EBX is a, 1:ECX is k *)\n{ Data_x=0; Data_n=0; g=0; }\n P0              | P1                   ;\n MOV [Data_x],$1 | MOV EAX,[g]          ;\n MOV [Data_n],$5 | CMP EAX,$0           ;\n MOV [g],$1      | JNE L1               ;\n                 | JMP END              ;\n                 | L1: MOV EBX,[Data_x] ;\n                 | MOV ECX,[Data_n]     ;\n                 | END:                 ;\nlocations [1:EBX]\nexists (~1:EAX=0 /\\ 1:ECX=0)\n"],
  ["a constructor", `struct Box { int a; int b; Box(int v, int w) : a(w), b(v) {} };
std::atomic<Box*> box{nullptr};
void send() { auto* p = new Box(1, 2); box.store(p, std::memory_order_release); }
void get() { Box* p = box.load(std::memory_order_acquire); int v = -1; if (p != nullptr) v = p->b + p->a; }
`, "`v = p->b + p->a`: load each shared variable into one of the thread first, since compilers choose which is first"],
  ["the kernel's pointers", `struct foo { int a; };
struct foo *gp = NULL;
void writer(void) {
  struct foo *p = kmalloc(sizeof(*p), GFP_KERNEL);
  p->a = 1;
  rcu_assign_pointer(gp, p);
}
void reader(void) {
  rcu_read_lock();
  struct foo *p = rcu_dereference(gp);
  int r1 = 9;
  if (p != NULL) { r1 = p->a; }
  rcu_read_unlock();
}
`, "X86 Mine\n(* 0:EAX is p, 1:EAX is p, 1:EBX is r1 *)\n{ foo_a=0; gp=0; }\n P0             | P1              ;\n MOV EAX,$1     | MOV EAX,[gp]    ;\n MOV [foo_a],$1 | MOV EBX,$9      ;\n MOV [gp],EAX   | CMP EAX,$0      ;\n                | JE END          ;\n                | MOV EBX,[foo_a] ;\n                | END:            ;\nlocations [0:EAX]\nexists (~1:EAX=0 /\\ 1:EBX=0)\n"],
  ["a type with another name, and `malloc`", `typedef struct { int len; int data; } msg_t;
msg_t *volatile mailbox = NULL;
void P0(void) { msg_t *m = (msg_t *)malloc(sizeof(msg_t)); m->data = 5; mailbox = m; }
void P1(void) { msg_t *m = mailbox; int r = -1; if (m) r = m->data; }
`, "X86 Mine\n(* 0:EAX is m, 1:EAX is m, 1:EBX is r *)\n{ msg_t_data=0; mailbox=0; }\n P0                  | P1                   ;\n MOV EAX,$1          | MOV EAX,[mailbox]    ;\n MOV [msg_t_data],$5 | MOV EBX,$4294967295  ;\n MOV [mailbox],EAX   | CMP EAX,$0           ;\n                     | JE END               ;\n                     | MOV EBX,[msg_t_data] ;\n                     | END:                 ;\nlocations [0:EAX]\nexists (~1:EAX=0 /\\ 1:EBX=0)\n"],
  ["an empty string", `std::atomic<std::string*> p;
void w() { std::string* s = new std::string(); p.store(s, std::memory_order_release); }
void r() { std::string* q = p.load(std::memory_order_acquire); if (q) assert(*q == ""); }
`, "X86 Mine\n(* 0:EAX is s, 1:EAX is q, 1:EBX is a_string *)\n{ p=0; }\n P0          | P1          ;\n MOV EAX,$1  | MOV EAX,[p] ;\n MOV [p],EAX | CMP EAX,$0  ;\n             | JE END      ;\n             | END:        ;\nforall (1:EAX=0 \\/ 1:EBX=0)\n"],
  ["a number of the name of a pointer of another function", `struct D { int v; };
std::atomic<D*> g;
volatile int x;
void w() { D* d = new D{1}; g.store(d, std::memory_order_release); }
void r() { int d = x; x = d + 1; D* q = g.load(std::memory_order_acquire); int v = 7; if (q) v = q->v; }
`, "X86 Mine\n(* 0:EAX is d, 1:EAX is d, 1:EBX is q, 1:ECX is v *)\n{ D_v=0; g=0; x=0; }\n P0           | P1            ;\n MOV [D_v],$1 | MOV EAX,[x]   ;\n MOV EAX,$1   | MOV EDX,EAX   ;\n MOV [g],EAX  | ADD EDX,$1    ;\n              | MOV [x],EDX   ;\n              | MOV EBX,[g]   ;\n              | MOV ECX,$7    ;\n              | CMP EBX,$0    ;\n              | JE END        ;\n              | MOV ECX,[D_v] ;\n              | END:          ;\nlocations [0:EAX; 1:EAX]\nexists (~1:EBX=0 /\\ 1:ECX=0)\n"],
  ["a pointer to a number", `std::atomic<int*> p{nullptr};
void w() { int* q = new int(42); p.store(q, std::memory_order_release); }
void r() { int* q; while ((q = p.load(std::memory_order_acquire)) == nullptr) {} int v = *q; }
`, "X86 Mine\n(* 0:EAX is q, 1:EAX is q, 1:EBX is v *)\n(* every wait ends: ~1:EAX=0 *)\n{ a_int=0; p=0; }\n P0              | P1              ;\n MOV [a_int],$42 | MOV EAX,[p]     ;\n MOV EAX,$1      | MOV EBX,[a_int] ;\n MOV [p],EAX     |                 ;\nlocations [0:EAX]\nexists (~1:EAX=0 /\\ 1:EBX=0)\n"],
  ["rounds that semaphores begin and end, with random pauses", `#include <pthread.h>
#include <semaphore.h>

sem_t beginSema1;
sem_t beginSema2;
sem_t endSema;

int X, Y;
int r1, r2;

void *thread1Func(void *param)
{
    MersenneTwister random(1);                // Initialize random number generator
    for (;;)                                  // Loop indefinitely
    {
        sem_wait(&beginSema1);                // Wait for signal from main thread
        while (random.integer() % 8 != 0) {}  // Add a short, random delay

        // ----- THE TRANSACTION! -----
        X = 1;
        asm volatile("" ::: "memory");        // Prevent compiler reordering
        r1 = Y;

        sem_post(&endSema);                   // Notify transaction complete
    }
    return NULL;  // Never returns
};

void *thread2Func(void *param)
{
    MersenneTwister random(2);
    for (;;)
    {
        sem_wait(&beginSema2);
        while (random.integer() % 8 != 0) {}
        Y = 1;
        asm volatile("" ::: "memory");
        r2 = X;
        sem_post(&endSema);
    }
    return NULL;
};

int main()
{
    sem_init(&beginSema1, 0, 0);
    sem_init(&beginSema2, 0, 0);
    sem_init(&endSema, 0, 0);
    pthread_t thread1, thread2;
    pthread_create(&thread1, NULL, thread1Func, NULL);
    pthread_create(&thread2, NULL, thread2Func, NULL);
    int detected = 0;
    for (int iterations = 1; ; iterations++)
    {
        X = 0;
        Y = 0;
        sem_post(&beginSema1);
        sem_post(&beginSema2);
        sem_wait(&endSema);
        sem_wait(&endSema);
        if (r1 == 0 && r2 == 0)
        {
            detected++;
            printf("%d reorders detected after %d iterations\n", detected, iterations);
        }
    }
    return 0;  // Never returns
}
`, "X86 Mine\n(* 0:EAX is r1, 1:EAX is r2 *)\n{ X=0; Y=0; }\n P0          | P1          ;\n MOV [X],$1  | MOV [Y],$1  ;\n MOV EAX,[Y] | MOV EAX,[X] ;\nexists (0:EAX=0 /\\ 1:EAX=0)\n"],
  ["threads that return early", `#include <atomic>
#include <thread>
std::atomic<int> flag0{0}, flag1{0};
int counter = 0;
void t0() { flag0.store(1, std::memory_order_relaxed); if (flag1.load(std::memory_order_relaxed)) return; counter++; }
void t1() { flag1.store(1, std::memory_order_relaxed); if (flag0.load(std::memory_order_relaxed)) return; counter++; }
`,
    "X86 Mine\n(* 0:EAX is flag1 in its condition, 1:EAX is flag0 in its condition *)\n(* both threads get past their if: 0:EAX=0 /\\ 1:EAX=0 *)\n{ flag0=0; flag1=0; counter=0; }\n P0 | P1 ;\n MOV [flag0],$1 | MOV [flag1],$1 ;\n MOV EAX,[flag1] | MOV EAX,[flag0] ;\n CMP EAX,$0 | CMP EAX,$0 ;\n JE L1 | JE L1 ;\n JMP END | JMP END ;\n L1: MOV EBX,[counter] | L1: MOV EBX,[counter] ;\n ADD EBX,$1 | ADD EBX,$1 ;\n MOV [counter],EBX | MOV [counter],EBX ;\n END: | END: ;\nlocations [counter]\n~exists (0:EAX=0 /\\ 1:EAX=0)\n"],
  ["threads that take back a flag and return", `#include <atomic>
#include <thread>
std::atomic<int> flag0{0}, flag1{0};
int counter = 0;
void t0() { flag0.store(1, std::memory_order_relaxed); if (flag1.load(std::memory_order_relaxed)) { flag0.store(0, std::memory_order_relaxed); return; } counter++; flag0.store(0, std::memory_order_release); }
void t1() { flag1.store(1, std::memory_order_relaxed); if (flag0.load(std::memory_order_relaxed)) { flag1.store(0, std::memory_order_relaxed); return; } counter++; flag1.store(0, std::memory_order_release); }
`,
    "X86 Mine\n(* 0:EAX is flag1 in its condition, 1:EAX is flag0 in its condition *)\n(* both threads get past their if: 0:EAX=0 /\\ 1:EAX=0 *)\n(* an addition to counter is lost: ~counter=2 *)\n{ flag0=0; flag1=0; counter=0; }\n P0 | P1 ;\n MOV [flag0],$1 | MOV [flag1],$1 ;\n MOV EAX,[flag1] | MOV EAX,[flag0] ;\n CMP EAX,$0 | CMP EAX,$0 ;\n JE L1 | JE L1 ;\n MOV [flag0],$0 | MOV [flag1],$0 ;\n JMP END | JMP END ;\n L1: MOV EBX,[counter] | L1: MOV EBX,[counter] ;\n ADD EBX,$1 | ADD EBX,$1 ;\n MOV [counter],EBX | MOV [counter],EBX ;\n MOV [flag0],$0 | MOV [flag1],$0 ;\n END: | END: ;\n~exists (0:EAX=0 /\\ 1:EAX=0 /\\ ~counter=2)\n"],
  ["an `else` that takes back a flag", `#include <atomic>
#include <thread>
std::atomic<int> flag0{0}, flag1{0};
int counter = 0;
void t0() { flag0.store(1, std::memory_order_relaxed); if (!flag1.load(std::memory_order_relaxed)) { counter++; flag0.store(0, std::memory_order_release); } else { flag0.store(0, std::memory_order_relaxed); } }
void t1() { flag1.store(1, std::memory_order_relaxed); if (!flag0.load(std::memory_order_relaxed)) { counter++; flag1.store(0, std::memory_order_release); } else { flag1.store(0, std::memory_order_relaxed); } }
`,
    "X86 Mine\n(* 0:EAX is flag1 in its condition, 1:EAX is flag0 in its condition *)\n(* both threads enter their if: 0:EAX=0 /\\ 1:EAX=0 *)\n(* an addition to counter is lost: ~counter=2 *)\n{ flag0=0; flag1=0; counter=0; }\n P0 | P1 ;\n MOV [flag0],$1 | MOV [flag1],$1 ;\n MOV EAX,[flag1] | MOV EAX,[flag0] ;\n CMP EAX,$0 | CMP EAX,$0 ;\n JNE L1 | JNE L1 ;\n MOV EBX,[counter] | MOV EBX,[counter] ;\n ADD EBX,$1 | ADD EBX,$1 ;\n MOV [counter],EBX | MOV [counter],EBX ;\n MOV [flag0],$0 | MOV [flag1],$0 ;\n JMP END | JMP END ;\n L1: MOV [flag0],$0 | L1: MOV [flag1],$0 ;\n END: | END: ;\n~exists (0:EAX=0 /\\ 1:EAX=0 /\\ ~counter=2)\n"],
  ["a variable that is set again after it is compared", `#include <atomic>
std::atomic<int> flag0{0}, flag1{0}, turn{0};
int counter = 0;
void t0() { flag0 = 1; int r = flag1; if (r) return; r = 5; counter++; }
void t1() { flag1 = 1; int r = flag0; if (r) return; counter++; }
`,
    "X86 Mine\n(* 0:EAX is r, 1:EAX is r *)\n{ flag0=0; flag1=0; counter=0; }\n P0 | P1 ;\n MOV EBX,$1 | MOV EBX,$1 ;\n XCHG [flag0],EBX | XCHG [flag1],EBX ;\n MOV EAX,[flag1] | MOV EAX,[flag0] ;\n CMP EAX,$0 | CMP EAX,$0 ;\n JE L1 | JE L1 ;\n JMP END | JMP END ;\n L1: MOV EAX,$5 | L1: MOV EBX,[counter] ;\n MOV EBX,[counter] | ADD EBX,$1 ;\n ADD EBX,$1 | MOV [counter],EBX ;\n MOV [counter],EBX | END: ;\n END: | ;\nlocations [0:EAX; 1:EAX; counter]\nexists (true)\n"],
  ["the entry of Peterson's lock and a `return`", `#include <atomic>
std::atomic<int> flag0{0}, flag1{0}, turn{0};
int counter = 0;
void t0() { flag0 = 1; turn = 1; if (flag1 && turn == 1) return; counter++; flag0 = 0; }
void t1() { flag1 = 1; turn = 0; if (flag0 && turn == 0) return; counter++; flag1 = 0; }
`,
    "X86 Mine\n(* 0:EAX is flag1 in its condition, 0:EBX is turn in its condition, 1:EAX is flag0 in its condition, 1:EBX is turn in its condition *)\n(* both threads get past their if: (0:EAX=0 \\/ ~0:EBX=1) /\\ (1:EAX=0 \\/ ~1:EBX=0) *)\n(* an addition to counter is lost: ~counter=2 *)\n{ flag0=0; flag1=0; turn=0; counter=0; }\n P0 | P1 ;\n MOV ECX,$1 | MOV ECX,$1 ;\n XCHG [flag0],ECX | XCHG [flag1],ECX ;\n MOV ECX,$1 | MOV ECX,$0 ;\n XCHG [turn],ECX | XCHG [turn],ECX ;\n MOV EAX,[flag1] | MOV EAX,[flag0] ;\n CMP EAX,$0 | CMP EAX,$0 ;\n JE L1 | JE L1 ;\n MOV EBX,[turn] | MOV EBX,[turn] ;\n CMP EBX,$1 | CMP EBX,$0 ;\n JNE L1 | JNE L1 ;\n JMP END | JMP END ;\n L1: MOV ECX,[counter] | L1: MOV ECX,[counter] ;\n ADD ECX,$1 | ADD ECX,$1 ;\n MOV [counter],ECX | MOV [counter],ECX ;\n MOV ECX,$0 | MOV ECX,$0 ;\n XCHG [flag0],ECX | XCHG [flag1],ECX ;\n END: | END: ;\nlocations [turn]\n~exists ((0:EAX=0 \\/ ~0:EBX=1) /\\ (1:EAX=0 \\/ ~1:EBX=0) /\\ ~counter=2)\n"],
  ["additions in both branches", `#include <atomic>
std::atomic<int> flag0{0}, flag1{0}, turn{0};
int counter = 0;
void t0() { flag0 = 1; if (flag1) { counter++; return; } counter++; }
void t1() { flag1 = 1; if (flag0) { counter++; return; } counter++; }
`,
    "X86 Mine\n{ flag0=0; flag1=0; counter=0; }\n P0 | P1 ;\n MOV EAX,$1 | MOV EAX,$1 ;\n XCHG [flag0],EAX | XCHG [flag1],EAX ;\n MOV EAX,[flag1] | MOV EAX,[flag0] ;\n CMP EAX,$0 | CMP EAX,$0 ;\n JE L1 | JE L1 ;\n MOV EAX,[counter] | MOV EAX,[counter] ;\n ADD EAX,$1 | ADD EAX,$1 ;\n MOV [counter],EAX | MOV [counter],EAX ;\n JMP END | JMP END ;\n L1: MOV EAX,[counter] | L1: MOV EAX,[counter] ;\n ADD EAX,$1 | ADD EAX,$1 ;\n MOV [counter],EAX | MOV [counter],EAX ;\n END: | END: ;\nlocations [counter]\nexists (true)\n"],
  ["a function that tries to enter", `#include <atomic>
std::atomic<int> flag0{0}, flag1{0}, turn{0};
int counter = 0;
bool enter0() { flag0 = 1; if (flag1) { flag0 = 0; return false; } return true; }
bool enter1() { flag1 = 1; if (flag0) { flag1 = 0; return false; } return true; }
void t0() { if (enter0()) { counter++; flag0 = 0; } }
void t1() { if (enter1()) { counter++; flag1 = 0; } }
`,
    "X86 Mine\n(* 0:EAX is enter0_result, 1:EAX is enter1_result *)\n(* both threads enter their if: ~0:EAX=0 /\\ ~1:EAX=0 *)\n(* an addition to counter is lost: ~counter=2 *)\n{ flag0=0; flag1=0; counter=0; }\n P0 | P1 ;\n MOV EBX,$1 | MOV EBX,$1 ;\n XCHG [flag0],EBX | XCHG [flag1],EBX ;\n MOV EBX,[flag1] | MOV EBX,[flag0] ;\n CMP EBX,$0 | CMP EBX,$0 ;\n JE L2 | JE L2 ;\n MOV EBX,$0 | MOV EBX,$0 ;\n XCHG [flag0],EBX | XCHG [flag1],EBX ;\n MOV EAX,$0 | MOV EAX,$0 ;\n JMP L1 | JMP L1 ;\n L2: MOV EAX,$1 | L2: MOV EAX,$1 ;\n L1: CMP EAX,$0 | L1: CMP EAX,$0 ;\n JE END | JE END ;\n MOV EBX,[counter] | MOV EBX,[counter] ;\n ADD EBX,$1 | ADD EBX,$1 ;\n MOV [counter],EBX | MOV [counter],EBX ;\n MOV EBX,$0 | MOV EBX,$0 ;\n XCHG [flag0],EBX | XCHG [flag1],EBX ;\n END: | END: ;\n~exists (~0:EAX=0 /\\ ~1:EAX=0 /\\ ~counter=2)\n"],
  ["an exchange and a `return`", `#include <atomic>
std::atomic<int> flag0{0}, flag1{0}, turn{0};
int counter = 0;
void t0() { if (turn.exchange(1)) return; counter++; turn = 0; }
void t1() { if (turn.exchange(1)) return; counter++; turn = 0; }
`,
    "X86 Mine\n(* 0:EAX is turn in its condition, 1:EAX is turn in its condition *)\n(* both threads get past their if: 0:EAX=0 /\\ 1:EAX=0 *)\n(* an addition to counter is lost: ~counter=2 *)\n{ turn=0; counter=0; }\n P0 | P1 ;\n MOV EAX,$1 | MOV EAX,$1 ;\n XCHG [turn],EAX | XCHG [turn],EAX ;\n CMP EAX,$0 | CMP EAX,$0 ;\n JE L1 | JE L1 ;\n JMP END | JMP END ;\n L1: MOV EBX,[counter] | L1: MOV EBX,[counter] ;\n ADD EBX,$1 | ADD EBX,$1 ;\n MOV [counter],EBX | MOV [counter],EBX ;\n MOV EBX,$0 | MOV EBX,$0 ;\n XCHG [turn],EBX | XCHG [turn],EBX ;\n END: | END: ;\nlocations [turn]\n~exists (0:EAX=0 /\\ 1:EAX=0 /\\ ~counter=2)\n"],
  ["delays by random numbers, as Preshing's, and a class outside of which its methods are", `#include <pthread.h>
#include <semaphore.h>
#include <stdio.h>

// Set either of these to 1 to prevent CPU reordering
#define USE_CPU_FENCE              0
#define USE_SINGLE_HW_THREAD       0  // Supported on Linux, but not Cygwin or PS3

#if USE_SINGLE_HW_THREAD
#include <sched.h>
#endif


//-------------------------------------
//  MersenneTwister
//  A thread-safe random number generator with good randomness
//  in a small number of instructions. We'll use it to introduce
//  random timing delays.
//-------------------------------------
#define MT_IA  397
#define MT_LEN 624

class MersenneTwister
{
    unsigned int m_buffer[MT_LEN];
    int m_index;

public:
    MersenneTwister(unsigned int seed);
    // Declare noinline so that the function call acts as a compiler barrier:
    unsigned int integer() __attribute__((noinline));
};

MersenneTwister::MersenneTwister(unsigned int seed)
{
    // Initialize by filling with the seed, then iterating
    // the algorithm a bunch of times to shuffle things up.
    for (int i = 0; i < MT_LEN; i++)
        m_buffer[i] = seed;
    m_index = 0;
    for (int i = 0; i < MT_LEN * 100; i++)
        integer();
}

unsigned int MersenneTwister::integer()
{
    // Indices
    int i = m_index;
    int i2 = m_index + 1; if (i2 >= MT_LEN) i2 = 0; // wrap-around
    int j = m_index + MT_IA; if (j >= MT_LEN) j -= MT_LEN; // wrap-around

    // Twist
    unsigned int s = (m_buffer[i] & 0x80000000) | (m_buffer[i2] & 0x7fffffff);
    unsigned int r = m_buffer[j] ^ (s >> 1) ^ ((s & 1) * 0x9908B0DF);
    m_buffer[m_index] = r;
    m_index = i2;

    // Swizzle
    r ^= (r >> 11);
    r ^= (r << 7) & 0x9d2c5680UL;
    r ^= (r << 15) & 0xefc60000UL;
    r ^= (r >> 18);
    return r;
}


//-------------------------------------
//  Main program, as decribed in the post
//-------------------------------------
sem_t beginSema1;
sem_t beginSema2;
sem_t endSema;

int X, Y;
int r1, r2;

void *thread1Func(void *param)
{
    MersenneTwister random(1);
    for (;;)
    {
        sem_wait(&beginSema1);  // Wait for signal
        while (random.integer() % 8 != 0) {}  // Random delay

        // ----- THE TRANSACTION! -----
        X = 1;
#if USE_CPU_FENCE
        asm volatile("mfence" ::: "memory");  // Prevent CPU reordering
#else
        asm volatile("" ::: "memory");  // Prevent compiler reordering
#endif
        r1 = Y;

        sem_post(&endSema);  // Notify transaction complete
    }
    return NULL;  // Never returns
};

void *thread2Func(void *param)
{
    MersenneTwister random(2);
    for (;;)
    {
        sem_wait(&beginSema2);  // Wait for signal
        while (random.integer() % 8 != 0) {}  // Random delay

        // ----- THE TRANSACTION! -----
        Y = 1;
#if USE_CPU_FENCE
        asm volatile("mfence" ::: "memory");  // Prevent CPU reordering
#else
        asm volatile("" ::: "memory");  // Prevent compiler reordering
#endif
        r2 = X;

        sem_post(&endSema);  // Notify transaction complete
    }
    return NULL;  // Never returns
};

int main()
{
    // Initialize the semaphores
    sem_init(&beginSema1, 0, 0);
    sem_init(&beginSema2, 0, 0);
    sem_init(&endSema, 0, 0);

    // Spawn the threads
    pthread_t thread1, thread2;
    pthread_create(&thread1, NULL, thread1Func, NULL);
    pthread_create(&thread2, NULL, thread2Func, NULL);

#if USE_SINGLE_HW_THREAD
    // Force thread affinities to the same cpu core.
    cpu_set_t cpus;
    CPU_ZERO(&cpus);
    CPU_SET(0, &cpus);
    pthread_setaffinity_np(thread1, sizeof(cpu_set_t), &cpus);
    pthread_setaffinity_np(thread2, sizeof(cpu_set_t), &cpus);
#endif

    // Repeat the experiment ad infinitum
    int detected = 0;
    for (int iterations = 1; ; iterations++)
    {
        // Reset X and Y
        X = 0;
        Y = 0;
        // Signal both threads
        sem_post(&beginSema1);
        sem_post(&beginSema2);
        // Wait for both threads
        sem_wait(&endSema);
        sem_wait(&endSema);
        // Check if there was a simultaneous reorder
        if (r1 == 0 && r2 == 0)
        {
            detected++;
            printf("%d reorders detected after %d iterations\\n", detected, iterations);
        }
    }
    return 0;  // Never returns
}
`,
    "X86 Mine\n(* 0:EAX is r1, 1:EAX is r2 *)\n{ X=0; Y=0; }\n P0 | P1 ;\n MOV [X],$1 | MOV [Y],$1 ;\n MOV EAX,[Y] | MOV EAX,[X] ;\nexists (0:EAX=0 /\\ 1:EAX=0)\n"],
  ["methods outside of their class", `#include <atomic>
#include <thread>
class SpinLock {
  std::atomic<bool> locked;
public:
  SpinLock();
  void lock();
  void unlock();
};
SpinLock::SpinLock() : locked(false) {}
void SpinLock::lock() { while (locked.exchange(true, std::memory_order_acquire)) ; }
void SpinLock::unlock() { locked.store(false, std::memory_order_release); }
SpinLock m;
int n = 0;
void f() { m.lock(); n++; m.unlock(); }
int main() { std::thread a(f), b(f); a.join(); b.join(); }
`,
    "X86 Mine\n(* 0:EAX is m_locked at its lock, 1:EAX is m_locked at its lock *)\n(* every wait ends: 0:EAX=0 /\\ 1:EAX=0 *)\n(* an addition to n is lost: ~n=2 *)\n{ m_locked=0; n=0; }\n P0 | P1 ;\n MOV EAX,$1 | MOV EAX,$1 ;\n XCHG [m_locked],EAX | XCHG [m_locked],EAX ;\n MOV EBX,[n] | MOV EBX,[n] ;\n ADD EBX,$1 | ADD EBX,$1 ;\n MOV [n],EBX | MOV [n],EBX ;\n MOV [m_locked],$0 | MOV [m_locked],$0 ;\nlocations [m_locked]\n~exists (0:EAX=0 /\\ 1:EAX=0 /\\ ~n=2)\n"],
  ["a class that no thread uses", `#include <atomic>
#include <thread>
#include <vector>
#include <string>
class Unused { std::vector<int> v; std::string name; public: void add(int x) { v.push_back(x); } virtual ~Unused() {} };
std::atomic<int> x{0}, y{0};
void t1() { x.store(1, std::memory_order_relaxed); int a = y.load(std::memory_order_relaxed); }
void t2() { y.store(1, std::memory_order_relaxed); int a = x.load(std::memory_order_relaxed); }
`,
    "X86 Mine\n(* 0:EAX is a, 1:EAX is a *)\n{ x=0; y=0; }\n P0 | P1 ;\n MOV [x],$1 | MOV [y],$1 ;\n MOV EAX,[y] | MOV EAX,[x] ;\nexists (0:EAX=0 /\\ 1:EAX=0)\n"],
  ["delays by the standard library", `#include <random>
#include <atomic>
#include <thread>
std::atomic<int> x{0}, y{0};
int a, b;
void t1() { std::mt19937 rng(1); std::uniform_int_distribution<int> d(0, 7); while (d(rng) != 0) {} x.store(1, std::memory_order_relaxed); a = y.load(std::memory_order_relaxed); }
void t2() { std::mt19937 rng(2); std::uniform_int_distribution<int> d(0, 7); while (d(rng) != 0) {} y.store(1, std::memory_order_relaxed); b = x.load(std::memory_order_relaxed); }
int main() { std::thread p(t1), q(t2); p.join(); q.join(); if (a == 0 && b == 0) return 1; }
`,
    "X86 Mine\n(* 0:EAX is a, 1:EAX is b *)\n{ x=0; y=0; }\n P0 | P1 ;\n MOV [x],$1 | MOV [y],$1 ;\n MOV EAX,[y] | MOV EAX,[x] ;\nexists (0:EAX=0 /\\ 1:EAX=0)\n"],
  ["loops that only count", `#include <atomic>
std::atomic<int> x{0}, y{0};
void t1() { for (volatile int i = 0; i < 1000; i++) ; x.store(1, std::memory_order_relaxed); int a = y; }
void t2() { for (int i = 0; i < rand() % 100; ++i) { asm volatile("nop"); } y.store(1, std::memory_order_relaxed); int a = x; }
`,
    "X86 Mine\n(* 0:EAX is a, 1:EAX is a *)\n{ x=0; y=0; }\n P0 | P1 ;\n MOV [x],$1 | MOV [y],$1 ;\n MOV EAX,[y] | MOV EAX,[x] ;\nexists (0:EAX=0 /\\ 1:EAX=0)\n"],
  ["a class template", `#include <atomic>
template<typename T>
class SpinLocked {
  std::atomic_flag flag = ATOMIC_FLAG_INIT;
  T value = 0;
public:
  void add(T d) { while (flag.test_and_set(std::memory_order_acquire)) ; value = value + d; flag.clear(std::memory_order_release); }
};
SpinLocked<int> s;
void a() { s.add(1); }
void b() { s.add(2); }
`,
    "X86 Mine\n(* 0:EAX is s_flag at its lock, 1:EAX is s_flag at its lock *)\n(* every wait ends: 0:EAX=0 /\\ 1:EAX=0 *)\n(* an addition to s_value is lost: ~s_value=3 *)\n{ s_flag=0; s_value=0; }\n P0 | P1 ;\n MOV EAX,$1 | MOV EAX,$1 ;\n XCHG [s_flag],EAX | XCHG [s_flag],EAX ;\n MOV EBX,[s_value] | MOV EBX,[s_value] ;\n ADD EBX,$1 | ADD EBX,$2 ;\n MOV [s_value],EBX | MOV [s_value],EBX ;\n MOV [s_flag],$0 | MOV [s_flag],$0 ;\nlocations [s_flag]\n~exists (0:EAX=0 /\\ 1:EAX=0 /\\ ~s_value=3)\n"],
  ["arrays of the standard library", `#include <atomic>
#include <array>
std::array<std::atomic<int>, 2> flag{};
std::array<int, 2> data{{5, 6}};
void a() { flag[0].store(1, std::memory_order_relaxed); int r = flag[1].load(std::memory_order_relaxed); }
void b() { flag[1].store(1, std::memory_order_relaxed); int r = flag[0].load(std::memory_order_relaxed); data[1] = 7; }
`,
    "X86 Mine\n(* 0:EAX is r, 1:EAX is data_1, 1:EBX is r *)\n{ flag_0=0; flag_1=0; }\n P0 | P1 ;\n MOV [flag_0],$1 | MOV EAX,$6 ;\n MOV EAX,[flag_1] | MOV [flag_1],$1 ;\n | MOV EBX,[flag_0] ;\n | MOV EAX,$7 ;\nlocations [1:EAX]\nexists (0:EAX=0 /\\ 1:EBX=0)\n"],
  ["a class template and methods outside of it", `#include <atomic>
template<typename T>
class Cell { std::atomic<T> v; std::atomic<bool> ready; public: Cell(); void set(T x); T get(); };
template<typename T> Cell<T>::Cell() : v(0), ready(false) {}
template<typename T> void Cell<T>::set(T x) { v.store(x, std::memory_order_relaxed); ready.store(true, std::memory_order_release); }
template<typename T> T Cell<T>::get() { while (!ready.load(std::memory_order_acquire)) ; return v.load(std::memory_order_relaxed); }
Cell<int> c;
void a() { c.set(1); }
void b() { int r = c.get(); }
`,
    "X86 Mine\n(* 1:EAX is c_ready after its loop, 1:EBX is r *)\n(* every wait ends: 1:EAX=1 *)\n{ c_v=0; c_ready=0; }\n P0 | P1 ;\n MOV [c_v],$1 | MOV EAX,[c_ready] ;\n MOV [c_ready],$1 | MOV EBX,[c_v] ;\nexists (1:EAX=1 /\\ 1:EBX=0)\n"],
  ["Dekker's lock in its threads", `#include <atomic>
#include <thread>
std::atomic<bool> flag0{false}, flag1{false};
std::atomic<int> turn{0};
int counter = 0;
void p0() {
  flag0.store(true, std::memory_order_relaxed);
  while (flag1.load(std::memory_order_relaxed)) {
    if (turn.load(std::memory_order_relaxed) != 0) {
      flag0.store(false, std::memory_order_relaxed);
      while (turn.load(std::memory_order_relaxed) != 0) ;
      flag0.store(true, std::memory_order_relaxed);
    }
  }
  counter++;
  turn.store(1, std::memory_order_release);
  flag0.store(false, std::memory_order_release);
}
void p1() {
  flag1.store(true, std::memory_order_relaxed);
  while (flag0.load(std::memory_order_relaxed)) {
    if (turn.load(std::memory_order_relaxed) != 1) {
      flag1.store(false, std::memory_order_relaxed);
      while (turn.load(std::memory_order_relaxed) != 1) ;
      flag1.store(true, std::memory_order_relaxed);
    }
  }
  counter++;
  turn.store(0, std::memory_order_release);
  flag1.store(false, std::memory_order_release);
}
int main() { std::thread a(p0), b(p1); a.join(); b.join(); }
`,
    "X86 Mine\n(* 0:EAX is flag1 in its condition, 1:EAX is flag0 in its condition *)\n(* both threads get past their loop at the first try: 0:EAX=0 /\\ 1:EAX=0 *)\n(* an addition to counter is lost: ~counter=2 *)\n{ flag0=0; flag1=0; turn=0; counter=0; }\n P0 | P1 ;\n MOV [flag0],$1 | MOV [flag1],$1 ;\n MOV EAX,[flag1] | MOV EAX,[flag0] ;\n CMP EAX,$0 | CMP EAX,$0 ;\n JE L1 | JE L1 ;\n JMP END | JMP END ;\n L1: MOV EBX,[counter] | L1: MOV EBX,[counter] ;\n ADD EBX,$1 | ADD EBX,$1 ;\n MOV [counter],EBX | MOV [counter],EBX ;\n MOV [turn],$1 | MOV [turn],$0 ;\n MOV [flag0],$0 | MOV [flag1],$0 ;\n END: | END: ;\nlocations [turn]\n~exists (0:EAX=0 /\\ 1:EAX=0 /\\ ~counter=2)\n"],
  ["barriers around locked instructions of the kernel", `atomic_t x = ATOMIC_INIT(0);
int y;
int r0, r1;
void P0(void) { atomic_inc(&x); smp_mb__after_atomic(); r0 = READ_ONCE(y); }
void P1(void) { WRITE_ONCE(y, 1); smp_mb(); r1 = atomic_read(&x); }
`,
    "X86 Mine\n(* 0:EAX is r0, 1:EAX is r1 *)\n{ x=0; y=0; }\n P0 | P1 ;\n MOV EBX,$1 | MOV [y],$1 ;\n LOCK XADD [x],EBX | MFENCE ;\n MOV EAX,[y] | MOV EAX,[x] ;\nexists (0:EAX=0 /\\ 1:EAX=0)\n"],
  ["a lock by a bit", `unsigned long lock;
int n;
void P0(void) { while (test_and_set_bit(0, &lock)) cpu_relax(); n++; clear_bit_unlock(0, &lock); }
void P1(void) { while (test_and_set_bit(0, &lock)) cpu_relax(); n++; clear_bit_unlock(0, &lock); }
`,
    "X86 Mine\n(* 0:EAX is lock at its lock, 0:EBX is lock_before, 1:EAX is lock at its lock, 1:EBX is lock_before *)\n(* every wait ends: 0:EAX=0 /\\ 1:EAX=0 *)\n(* an addition to n is lost: ~n=2 *)\n{ lock=0; n=0; }\n P0 | P1 ;\n MOV EAX,$1 | MOV EAX,$1 ;\n XCHG [lock],EAX | XCHG [lock],EAX ;\n MOV ECX,[n] | MOV ECX,[n] ;\n ADD ECX,$1 | ADD ECX,$1 ;\n MOV [n],ECX | MOV [n],ECX ;\n MOV EBX,$0 | MOV EBX,$0 ;\n XCHG [lock],EBX | XCHG [lock],EBX ;\nlocations [0:EBX; 1:EBX; lock]\n~exists (0:EAX=0 /\\ 1:EAX=0 /\\ ~n=2)\n"],
  ["an exchange and sums of the kernel", `atomic_t x, y;
void P0(void) { atomic_set(&x, 1); smp_mb__before_atomic(); int r0 = atomic_xchg(&y, 1); atomic_dec(&y); }
void P1(void) { smp_store_mb(y, 1); int r1 = atomic_read(&x); atomic_add(2, &x); atomic_sub(1, &x); }
`,
    "X86 Mine\n(* 0:EAX is r0, 1:EAX is r1 *)\n{ x=0; y=0; }\n P0 | P1 ;\n MOV [x],$1 | MOV EBX,$1 ;\n MOV EAX,$1 | XCHG [y],EBX ;\n XCHG [y],EAX | MOV EAX,[x] ;\n MOV EBX,$4294967295 | MOV EBX,$2 ;\n LOCK XADD [y],EBX | LOCK XADD [x],EBX ;\n | MOV EBX,$4294967295 ;\n | LOCK XADD [x],EBX ;\nlocations [0:EAX; x; y]\nexists (1:EAX=0)\n"],
  ["results of locked sums", `atomic_t v = ATOMIC_INIT(2); int x;
void P0(void) { WRITE_ONCE(x, 1); if (atomic_dec_and_test(&v)) { int r0 = READ_ONCE(x); } }
void P1(void) { int a = atomic_inc_return(&v); int c = atomic_fetch_add(1, &v); WRITE_ONCE(x, 2); }
`,
    "X86 Mine\n(* 0:EAX is r0, 1:EAX is a, 1:EBX is c *)\n{ v=2; x=0; }\n P0 | P1 ;\n MOV [x],$1 | MOV EAX,$1 ;\n MOV EBX,$4294967295 | LOCK XADD [v],EAX ;\n LOCK XADD [v],EBX | ADD EAX,$1 ;\n ADD EBX,$4294967295 | MOV EBX,$1 ;\n CMP EBX,$0 | LOCK XADD [v],EBX ;\n JNE END | MOV [x],$2 ;\n MOV EAX,[x] | ;\n END: | ;\nlocations [0:EAX; 1:EAX; 1:EBX; x; v]\nexists (true)\n"],
  ["a test of herd with atomic_inc", `C SB+rmw

{}

P0(atomic_t *x, int *y)
{
	atomic_inc(x);
	smp_mb__after_atomic();
	int r0 = READ_ONCE(*y);
}

P1(atomic_t *x, int *y)
{
	WRITE_ONCE(*y, 1);
	smp_mb();
	int r1 = atomic_read(x);
}

exists (0:r0=0 /\\ 1:r1=0)
`,
    "X86 SB+rmw\n(* 0:EAX is r0, 1:EAX is r1 *)\n{ x=0; y=0; }\n P0 | P1 ;\n MOV EBX,$1 | MOV [y],$1 ;\n LOCK XADD [x],EBX | MFENCE ;\n MOV EAX,[y] | MOV EAX,[x] ;\nexists (0:EAX=0 /\\ 1:EAX=0)\n"],
  ["a bit that is set and tested", `unsigned long w; int n;
void P0(void) { if (!test_and_set_bit(0, &w)) n = 1; }
void P1(void) { int r = test_and_set_bit(0, &w); if (!r) n = 2; }
`,
    "X86 Mine\n(* 0:EAX is w_before, 1:EAX is w_before, 1:EBX is r *)\n(* both threads enter their if: 0:EAX=0 /\\ 1:EBX=0 *)\n{ w=0; n=0; }\n P0 | P1 ;\n MOV EAX,$1 | MOV EAX,$1 ;\n XCHG [w],EAX | XCHG [w],EAX ;\n CMP EAX,$0 | CMP EAX,$0 ;\n JNE END | JE L1 ;\n MOV [n],$1 | MOV EBX,$1 ;\n END: | JMP L2 ;\n | L1: MOV EBX,$0 ;\n | L2: CMP EBX,$0 ;\n | JNE END ;\n | MOV [n],$2 ;\n | END: ;\nlocations [1:EAX; w; n]\n~exists (0:EAX=0 /\\ 1:EBX=0)\n"],
  ["a delay that is all of a branch", `#include <thread>
#include <cstdlib>
volatile int x, y, f; int r1, r2;
void a() { if (f) while (rand() % 8 != 0); x = 1; r1 = y; }
void b() { y = 1; r2 = x; f = 1; }
int main() { std::thread t(a), u(b); t.join(); u.join(); }
`,
    "X86 Mine\n(* 0:EAX is r1, 1:EAX is r2 *)\n{ x=0; y=0; f=0; }\n P0 | P1 ;\n MOV EBX,[f] | MOV [y],$1 ;\n CMP EBX,$0 | MOV EAX,[x] ;\n JE L1 | MOV [f],$1 ;\n L1: MOV [x],$1 | ;\n MOV EAX,[y] | ;\nlocations [0:EAX; 1:EAX]\nexists (true)\n"],
  ["a delay that is all of an `else`", `#include <thread>
#include <cstdlib>
volatile int x, y, f; int r1, r2;
void a() { if (f == 1) x = 2; else while (rand() % 8 != 0); x = 1; r1 = y; }
void b() { y = 1; r2 = x; f = 1; }
int main() { std::thread t(a), u(b); t.join(); u.join(); }
`,
    "X86 Mine\n(* 0:EAX is r1, 1:EAX is r2 *)\n{ x=0; y=0; f=0; }\n P0 | P1 ;\n MOV EBX,[f] | MOV [y],$1 ;\n CMP EBX,$1 | MOV EAX,[x] ;\n JNE L1 | MOV [f],$1 ;\n MOV [x],$2 | ;\n L1: MOV [x],$1 | ;\n MOV EAX,[y] | ;\nlocations [0:EAX; 1:EAX]\nexists (true)\n"],
  ["objects of a function that give numbers", `#include <atomic>
#include <thread>
std::atomic<int> x{0}, y{0}; int r1, r2;
class Gen { int s; public: Gen(int k) { s = k; } int next() { s = s * 5; return s; } };
void a() { Gen g(1); x.store(1, std::memory_order_relaxed); while (g.next() % 8 != 0) {} r1 = y.load(std::memory_order_relaxed); }
void b() { Gen g(2); y.store(1, std::memory_order_relaxed); while (g.next() % 8 != 0) {} r2 = x.load(std::memory_order_relaxed); }
int main() { std::thread t(a), u(b); t.join(); u.join(); }
`,
    "X86 Mine\n(* 0:EAX is r1, 1:EAX is r2 *)\n{ x=0; y=0; }\n P0 | P1 ;\n MOV [x],$1 | MOV [y],$1 ;\n MOV EAX,[y] | MOV EAX,[x] ;\nexists (0:EAX=0 /\\ 1:EAX=0)\n"],
  ["a delay by `std::rand`", `#include <atomic>
#include <thread>
#include <cstdlib>
std::atomic<int> x{0}, y{0}; int r1, r2;
void a() { while (std::rand() % 8 != 0) {} x.store(1, std::memory_order_relaxed); r1 = y.load(std::memory_order_relaxed); }
void b() { while (std::rand() % 8 != 0) {} y.store(1, std::memory_order_relaxed); r2 = x.load(std::memory_order_relaxed); }
int main() { std::thread t(a), u(b); t.join(); u.join(); }
`,
    "X86 Mine\n(* 0:EAX is r1, 1:EAX is r2 *)\n{ x=0; y=0; }\n P0 | P1 ;\n MOV [x],$1 | MOV [y],$1 ;\n MOV EAX,[y] | MOV EAX,[x] ;\nexists (0:EAX=0 /\\ 1:EAX=0)\n"],
  ["a member of an object that has the name of a parameter of a template", `#include <atomic>
#include <thread>
struct P { int N; };
P p; 
template <int N> struct Q { std::atomic<int> flag{0}; void lock() { flag.store(N, std::memory_order_relaxed); p . N = 7; } int get() { return flag.load(std::memory_order_relaxed); } };
Q<3> q;
std::atomic<int> y{0}; int r1, r2;
void a() { q.lock(); r1 = y.load(std::memory_order_relaxed); }
void b() { y.store(1, std::memory_order_relaxed); r2 = q.get(); r2 = p.N; }
int main() { std::thread t(a), u(b); t.join(); u.join(); }
`,
    "X86 Mine\n(* 0:EAX is r1, 1:EAX is r2 *)\n{ p_N=0; q_flag=0; y=0; }\n P0 | P1 ;\n MOV [q_flag],$3 | MOV [y],$1 ;\n MOV [p_N],$7 | MOV EAX,[q_flag] ;\n MOV EAX,[y] | MOV EAX,[p_N] ;\nlocations [0:EAX; 1:EAX]\nexists (true)\n"],
  ["an addition after a `return` in a branch", `#include <atomic>
#include <thread>
std::atomic<int> f1{0}, f2{0}, on{1}; int counter;
void a() { f1.store(1, std::memory_order_relaxed); if (on.load(std::memory_order_relaxed)) { if (f2.load(std::memory_order_relaxed)) return; } counter++; }
void b() { f2.store(1, std::memory_order_relaxed); if (on.load(std::memory_order_relaxed)) { if (f1.load(std::memory_order_relaxed)) return; } counter++; }
int main() { std::thread t(a), u(b); t.join(); u.join(); }
`,
    "X86 Mine\n{ f1=0; f2=0; on=1; counter=0; }\n P0 | P1 ;\n MOV [f1],$1 | MOV [f2],$1 ;\n MOV EAX,[on] | MOV EAX,[on] ;\n CMP EAX,$0 | CMP EAX,$0 ;\n JE L1 | JE L1 ;\n MOV EAX,[f2] | MOV EAX,[f1] ;\n CMP EAX,$0 | CMP EAX,$0 ;\n JE L2 | JE L2 ;\n JMP END | JMP END ;\n L2: L1: MOV EAX,[counter] | L2: L1: MOV EAX,[counter] ;\n ADD EAX,$1 | ADD EAX,$1 ;\n MOV [counter],EAX | MOV [counter],EAX ;\n END: | END: ;\nlocations [counter]\nexists (true)\n"],
  ["an early return by one of two conditions", `#include <atomic>
#include <thread>
std::atomic<int> f1{0}, f2{0}, off{0}; int counter;
void a() { f1.store(1, std::memory_order_relaxed); if (off.load(std::memory_order_relaxed) || f2.load(std::memory_order_relaxed)) return; counter++; }
void b() { f2.store(1, std::memory_order_relaxed); if (off.load(std::memory_order_relaxed) || f1.load(std::memory_order_relaxed)) return; counter++; }
int main() { std::thread t(a), u(b); t.join(); u.join(); }
`,
    "X86 Mine\n{ f1=0; f2=0; off=0; counter=0; }\n P0 | P1 ;\n MOV [f1],$1 | MOV [f2],$1 ;\n MOV EAX,[off] | MOV EAX,[off] ;\n CMP EAX,$0 | CMP EAX,$0 ;\n JE L1 | JE L1 ;\n JMP END | JMP END ;\n L1: MOV EAX,[f2] | L1: MOV EAX,[f1] ;\n CMP EAX,$0 | CMP EAX,$0 ;\n JE L3 | JE L3 ;\n JMP END | JMP END ;\n L3: MOV EAX,[counter] | L3: MOV EAX,[counter] ;\n ADD EAX,$1 | ADD EAX,$1 ;\n MOV [counter],EAX | MOV [counter],EAX ;\n END: | END: ;\nlocations [counter]\nexists (true)\n"],
  ["a branch after a `return` in another branch", `#include <atomic>
#include <thread>
std::atomic<int> f1{0}, f2{0}, g{0}, on{1}; int counter;
void a() { f1.store(1, std::memory_order_relaxed); if (on.load(std::memory_order_relaxed)) { if (f2.load(std::memory_order_relaxed)) return; } if (g.load(std::memory_order_relaxed) == 0) counter++; }
void b() { f2.store(1, std::memory_order_relaxed); if (f1.load(std::memory_order_relaxed) == 0) counter++; g.store(1, std::memory_order_relaxed); }
int main() { std::thread t(a), u(b); t.join(); u.join(); }
`,
    "X86 Mine\n{ f1=0; f2=0; g=0; on=1; counter=0; }\n P0 | P1 ;\n MOV [f1],$1 | MOV [f2],$1 ;\n MOV EAX,[on] | MOV EAX,[f1] ;\n CMP EAX,$0 | CMP EAX,$0 ;\n JE L1 | JNE L1 ;\n MOV EAX,[f2] | MOV EAX,[counter] ;\n CMP EAX,$0 | ADD EAX,$1 ;\n JE L2 | MOV [counter],EAX ;\n JMP END | L1: MOV [g],$1 ;\n L2: L1: MOV EAX,[g] | ;\n CMP EAX,$0 | ;\n JNE END | ;\n MOV EAX,[counter] | ;\n ADD EAX,$1 | ;\n MOV [counter],EAX | ;\n END: | ;\nlocations [counter]\nexists (true)\n"],
  ["generators of the standard library", `#include <atomic>
#include <random>
#include <thread>
std::atomic<int> x{0}, y{0}; int r1, r2;
void a() { std::random_device rd; std::mt19937 g(rd()); std::uniform_int_distribution<int> d(0, 7); while (d(g) != 0) ; x.store(1, std::memory_order_relaxed); r1 = y.load(std::memory_order_relaxed); }
void b() { std::mt19937 g(2); while (g() % 8 != 0) {} y.store(1, std::memory_order_relaxed); r2 = x.load(std::memory_order_relaxed); }
int main() { std::thread t(a), u(b); t.join(); u.join(); }
`,
    "X86 Mine\n(* 0:EAX is r1, 1:EAX is r2 *)\n{ x=0; y=0; }\n P0 | P1 ;\n MOV [x],$1 | MOV [y],$1 ;\n MOV EAX,[y] | MOV EAX,[x] ;\nexists (0:EAX=0 /\\ 1:EAX=0)\n"],
  ["delays of two conditions", `#include <atomic>
#include <random>
#include <thread>
std::atomic<int> x{0}, y{0}; int r1, r2;
void a() { std::mt19937 g(1); while (g() % 8 != 0 && g() % 3 != 0) ; x.store(1, std::memory_order_relaxed); r1 = y.load(std::memory_order_relaxed); }
void b() { std::mt19937 g(2); for (int i = 0; i < g() % 8; ++i) ; y.store(1, std::memory_order_relaxed); r2 = x.load(std::memory_order_relaxed); }
int main() { std::thread t(a), u(b); t.join(); u.join(); }
`,
    "X86 Mine\n(* 0:EAX is r1, 1:EAX is r2 *)\n{ x=0; y=0; }\n P0 | P1 ;\n MOV [x],$1 | MOV [y],$1 ;\n MOV EAX,[y] | MOV EAX,[x] ;\nexists (0:EAX=0 /\\ 1:EAX=0)\n"],
  ["unused classes of which one uses another one", `#include <atomic>
#include <thread>
std::atomic<int> x{0}, y{0}; int r1, r2;
struct A { double d; A() { x = 3; } };
struct B { A a; void f() {} };
void a() { x.store(1, std::memory_order_relaxed); r1 = y.load(std::memory_order_relaxed); }
void b() { y.store(1, std::memory_order_relaxed); r2 = x.load(std::memory_order_relaxed); }
int main() { std::thread t(a), u(b); t.join(); u.join(); }
`,
    "X86 Mine\n(* 0:EAX is r1, 1:EAX is r2 *)\n{ x=0; y=0; }\n P0 | P1 ;\n MOV [x],$1 | MOV [y],$1 ;\n MOV EAX,[y] | MOV EAX,[x] ;\nexists (0:EAX=0 /\\ 1:EAX=0)\n"],
  ["a loop that stores and loads again", `#include <atomic>
#include <thread>
std::atomic<int> x{0}, y{0}; int counter;
void a() { x.store(1); int r = y.load(); while (r) { x.store(0); x.store(1); r = y.load(); } counter++; x.store(0); }
void b() { y.store(1); int r = x.load(); while (r) { y.store(0); y.store(1); r = x.load(); } counter++; y.store(0); }
int main() { std::thread t(a), u(b); t.join(); u.join(); }
`,
    "X86 Mine\n(* 0:EAX is r, 1:EAX is r *)\n(* both threads get past their loop at the first try: 0:EAX=0 /\\ 1:EAX=0 *)\n(* an addition to counter is lost: ~counter=2 *)\n{ x=0; y=0; counter=0; }\n P0 | P1 ;\n MOV EBX,$1 | MOV EBX,$1 ;\n XCHG [x],EBX | XCHG [y],EBX ;\n MOV EAX,[y] | MOV EAX,[x] ;\n CMP EAX,$0 | CMP EAX,$0 ;\n JE L1 | JE L1 ;\n JMP END | JMP END ;\n L1: MOV EBX,[counter] | L1: MOV EBX,[counter] ;\n ADD EBX,$1 | ADD EBX,$1 ;\n MOV [counter],EBX | MOV [counter],EBX ;\n MOV EBX,$0 | MOV EBX,$0 ;\n XCHG [x],EBX | XCHG [y],EBX ;\n END: | END: ;\n~exists (0:EAX=0 /\\ 1:EAX=0 /\\ ~counter=2)\n"],
  ["bits in a test of herd", `C test
{}
P0(unsigned long *x, int *y) { int r0; r0 = test_and_set_bit(0, x); WRITE_ONCE(*y, 1); }
P1(unsigned long *x, int *y) { int r0; r0 = READ_ONCE(*y); clear_bit(0, x); }
exists (0:r0=0 /\\ 1:r0=0)
`,
    "X86 test\n(* 0:EAX is x_before, 0:EBX is r0, 1:EAX is r0, 1:EBX is x_before *)\n{ x=0; y=0; }\n P0 | P1 ;\n MOV EAX,$1 | MOV EAX,[y] ;\n XCHG [x],EAX | MOV EBX,$0 ;\n CMP EAX,$0 | XCHG [x],EBX ;\n JE L1 | ;\n MOV EBX,$1 | ;\n JMP L2 | ;\n L1: MOV EBX,$0 | ;\n L2: MOV [y],$1 | ;\nlocations [x]\nexists (0:EBX=0 /\\ 1:EAX=0)\n"],
  ["compare-exchanges in a test of herd", `C test
{}
P0(atomic_t *x, int *y) { int r0; r0 = atomic_cmpxchg(x, 0, 1); WRITE_ONCE(*y, 1); }
P1(atomic_t *x, int *y) { int r0; r0 = READ_ONCE(*y); r0 = atomic_cmpxchg(x, 0, 1); }
exists (0:r0=0 /\\ 1:r0=0)
`,
    "X86 test\n(* 0:EAX is x_before, 0:EBX is r0, 1:EAX is r0, 1:EBX is x_before *)\n{ x=0; y=0; }\n P0 | P1 ;\n MOV EAX,$1 | MOV EAX,[y] ;\n XCHG [x],EAX | MOV EBX,$1 ;\n MOV EBX,EAX | XCHG [x],EBX ;\n MOV [y],$1 | MOV EAX,EBX ;\nlocations [x]\nexists (0:EBX=0 /\\ 1:EAX=0)\n"],
  ["an `if constexpr`", `#include <atomic>
#include <thread>
template <bool F> struct Q { std::atomic<int> f{0}; void set() { f.store(1, std::memory_order_relaxed); if constexpr (F) std::atomic_thread_fence(std::memory_order_seq_cst); } };
Q<true> q, p; int r1, r2;
void a() { q.set(); r1 = p.f.load(std::memory_order_relaxed); }
void b() { p.set(); r2 = q.f.load(std::memory_order_relaxed); }
int main() { std::thread t(a), u(b); t.join(); u.join(); }
`,
    "X86 Mine\n(* 0:EAX is r1, 1:EAX is r2 *)\n{ q_f=0; p_f=0; }\n P0 | P1 ;\n MOV [q_f],$1 | MOV [p_f],$1 ;\n MOV EBX,$1 | MOV EBX,$1 ;\n CMP EBX,$0 | CMP EBX,$0 ;\n JE L1 | JE L1 ;\n MFENCE | MFENCE ;\n L1: MOV EAX,[p_f] | L1: MOV EAX,[q_f] ;\nlocations [0:EAX; 1:EAX]\nexists (true)\n"],
  ["a loop that stores in one thread, and an `if` in the other one", `#include <atomic>
#include <thread>
std::atomic<int> x{0}, y{0}; int counter;
void a() { x.store(1); while (y.load()) { x.store(0); x.store(1); } counter++; x.store(0); }
void b() { y.store(1); if (x.load()) return; counter++; y.store(0); }
int main() { std::thread t(a), u(b); t.join(); u.join(); }
`,
    "X86 Mine\n(* 0:EAX is y in its condition, 1:EAX is x in its condition *)\n(* both threads get past their if or loop at the first try: 0:EAX=0 /\\ 1:EAX=0 *)\n(* an addition to counter is lost: ~counter=2 *)\n{ x=0; y=0; counter=0; }\n P0 | P1 ;\n MOV EBX,$1 | MOV EBX,$1 ;\n XCHG [x],EBX | XCHG [y],EBX ;\n MOV EAX,[y] | MOV EAX,[x] ;\n CMP EAX,$0 | CMP EAX,$0 ;\n JE L1 | JE L1 ;\n JMP END | JMP END ;\n L1: MOV EBX,[counter] | L1: MOV EBX,[counter] ;\n ADD EBX,$1 | ADD EBX,$1 ;\n MOV [counter],EBX | MOV [counter],EBX ;\n MOV EBX,$0 | MOV EBX,$0 ;\n XCHG [x],EBX | XCHG [y],EBX ;\n END: | END: ;\n~exists (0:EAX=0 /\\ 1:EAX=0 /\\ ~counter=2)\n"],
  ["numbers that the time chooses", `#include <thread>
#include <cstdlib>
#include <ctime>
volatile int x, y; int r1, r2;
void a() { while (rand() % 8 != 0); x = 1; r1 = y; }
void b() { while (rand() % 8 != 0); y = 1; r2 = x; }
int main() { srand(time(NULL)); std::thread t(a), u(b); t.join(); u.join(); }
`,
    "X86 Mine\n(* 0:EAX is r1, 1:EAX is r2 *)\n{ x=0; y=0; }\n P0 | P1 ;\n MOV [x],$1 | MOV [y],$1 ;\n MOV EAX,[y] | MOV EAX,[x] ;\nexists (0:EAX=0 /\\ 1:EAX=0)\n"],
  ["a delay before an `else`", `#include <thread>
#include <cstdlib>
volatile int x, y, f; int r1, r2;
void a() { if (f == 1) while (rand() % 8 != 0) {} else x = 2; r1 = y; }
void b() { y = 1; r2 = x; f = 1; }
int main() { std::thread t(a), u(b); t.join(); u.join(); }
`,
    "X86 Mine\n(* 0:EAX is r1, 1:EAX is r2 *)\n{ x=0; y=0; f=0; }\n P0 | P1 ;\n MOV EBX,[f] | MOV [y],$1 ;\n CMP EBX,$1 | MOV EAX,[x] ;\n JNE L1 | MOV [f],$1 ;\n JMP L2 | ;\n L1: MOV [x],$2 | ;\n L2: MOV EAX,[y] | ;\nlocations [0:EAX; 1:EAX]\nexists (true)\n"],
  ["a ring buffer of two words", `#include <atomic>
#include <array>
#include <cstddef>
template<typename T, size_t N>
class SpscQueue {
  std::array<T, N> buffer;
  std::atomic<size_t> head{0}, tail{0};
public:
  bool push(const T& v) {
    size_t h = head.load(std::memory_order_relaxed);
    size_t next = (h + 1) % N;
    if (next == tail.load(std::memory_order_acquire)) return false;
    buffer[h] = v;
    head.store(next, std::memory_order_release);
    return true;
  }
  bool pop(T& v) {
    size_t t = tail.load(std::memory_order_relaxed);
    if (t == head.load(std::memory_order_acquire)) return false;
    v = buffer[t];
    tail.store((t + 1) % N, std::memory_order_release);
    return true;
  }
};
SpscQueue<int, 2> q;
void producer() { q.push(1); }
void consumer() { int r; q.pop(r); }
`,
    "X86 Mine\n(* 1:EAX is q_head in its condition, 1:EBX is r *)\n{ q_buffer_0=0; q_head=0; q_tail=0; }\n P0 | P1 ;\n MOV EAX,[q_head] | MOV ECX,[q_tail] ;\n MOV EAX,[q_tail] | MOV EAX,[q_head] ;\n CMP EAX,$1 | CMP EAX,$0 ;\n JNE L2 | JNE L2 ;\n JMP L1 | JMP L1 ;\n L2: MOV [q_buffer_0],$1 | L2: MOV EBX,[q_buffer_0] ;\n MOV [q_head],$1 | MOV [q_tail],$1 ;\n L1: | L1: ;\nexists (~1:EAX=0 /\\ 1:EBX=0)\n"],
  ["a ring buffer, and an assertion of what the consumer got", `#include <atomic>
#include <thread>
#include <cassert>
constexpr size_t N = 4;
int buf[N];
std::atomic<size_t> head{0}, tail{0};
bool push(int v) {
  auto h = head.load(std::memory_order_relaxed);
  auto next = (h + 1) % N;
  if (next == tail.load(std::memory_order_acquire)) return false;
  buf[h] = v;
  head.store(next, std::memory_order_release);
  return true;
}
bool pop(int& v) {
  auto t = tail.load(std::memory_order_relaxed);
  if (t == head.load(std::memory_order_acquire)) return false;
  v = buf[t];
  tail.store((t + 1) % N, std::memory_order_release);
  return true;
}
void producer() { push(42); }
void consumer() { int v; if (pop(v)) assert(v == 42); }
int main() { std::thread a(producer), b(consumer); a.join(); b.join(); }
`,
    "X86 Mine\n(* 1:EAX is pop_result, 1:EBX is v *)\n{ buf_0=0; head=0; tail=0; }\n P0 | P1 ;\n MOV EAX,[head] | MOV ECX,[tail] ;\n MOV EAX,[tail] | MOV ECX,[head] ;\n CMP EAX,$1 | CMP ECX,$0 ;\n JNE L2 | JNE L2 ;\n JMP L1 | MOV EAX,$0 ;\n L2: MOV [buf_0],$42 | JMP L1 ;\n MOV [head],$1 | L2: MOV EBX,[buf_0] ;\n L1: | MOV [tail],$1 ;\n | MOV EAX,$1 ;\n | L1: CMP EAX,$0 ;\n | JE END ;\n | END: ;\nforall (1:EAX=0 \\/ 1:EBX=42)\n"],
  ["a ring buffer that is a class template, and two pushes, the first of which may fail", `#include <atomic>
#include <thread>
template <typename T, size_t N>
class SPSC {
  T buf[N];
  std::atomic<size_t> head{0};
  std::atomic<size_t> tail{0};
public:
  bool push(const T& v) {
    size_t h = head.load(std::memory_order_relaxed);
    size_t next = (h + 1) & (N - 1);
    if (next == tail.load(std::memory_order_acquire)) return false;
    buf[h] = v;
    head.store(next, std::memory_order_release);
    return true;
  }
  bool pop(T& out) {
    size_t t = tail.load(std::memory_order_relaxed);
    if (t == head.load(std::memory_order_acquire)) return false;
    out = buf[t];
    tail.store((t + 1) & (N - 1), std::memory_order_release);
    return true;
  }
};
SPSC<int, 4> q;
int r1;
void producer() { q.push(1); q.push(2); }
void consumer() { int v = 0; if (q.pop(v)) r1 = v; }
int main() { std::thread a(producer), b(consumer); a.join(); b.join(); }
`,
    "X86 Mine\n(* 0:EAX is h, 1:EAX is v, 1:EBX is q_head in its condition, 1:ECX is pop_result, 1:EDX is r1 *)\n{ q_buf_0=0; q_buf_1=0; q_head=0; q_tail=0; }\n P0 | P1 ;\n MOV EBX,[q_head] | MOV EAX,$0 ;\n MOV EBX,[q_tail] | MOV ESI,[q_tail] ;\n CMP EBX,$1 | MOV EBX,[q_head] ;\n JNE L2 | CMP EBX,$0 ;\n JMP L1 | JNE L2 ;\n L2: MOV [q_buf_0],$1 | MOV ECX,$0 ;\n MOV [q_head],$1 | JMP L1 ;\n L1: MOV EAX,[q_head] | L2: MOV EAX,[q_buf_0] ;\n CMP EAX,$0 | MOV [q_tail],$1 ;\n JNE L4 | MOV ECX,$1 ;\n MOV EBX,[q_tail] | L1: CMP ECX,$0 ;\n CMP EBX,$1 | JE END ;\n JNE L5 | MOV EDX,EAX ;\n JMP L3 | END: ;\n L5: MOV [q_buf_0],$2 | ;\n MOV [q_head],$1 | ;\n JMP L3 | ;\n L4: MOV EBX,[q_tail] | ;\n CMP EBX,$2 | ;\n JNE L6 | ;\n JMP L3 | ;\n L6: MOV [q_buf_1],$2 | ;\n MOV [q_head],$2 | ;\n L3: | ;\nlocations [0:EAX; 1:ECX; 1:EDX; q_buf_1]\nexists (~1:EBX=0 /\\ 1:EAX=0)\n"],
  ["a ring buffer in C whose next index is counted and set back", `#include <stdatomic.h>
#include <pthread.h>
#define N 8
int buf[N];
atomic_int head, tail;
int push(int v) {
  int h = atomic_load_explicit(&head, memory_order_relaxed);
  int next = h;
  if (++next == N) next = 0;
  if (next == atomic_load_explicit(&tail, memory_order_acquire)) return 0;
  buf[h] = v;
  atomic_store_explicit(&head, next, memory_order_release);
  return 1;
}
int pop(int *v) {
  int t = atomic_load_explicit(&tail, memory_order_relaxed);
  if (t == atomic_load_explicit(&head, memory_order_acquire)) return 0;
  *v = buf[t];
  int n = t + 1;
  if (n == N) n = 0;
  atomic_store_explicit(&tail, n, memory_order_release);
  return 1;
}
void *producer(void *arg) { push(7); return NULL; }
void *consumer(void *arg) { int x; pop(&x); return NULL; }
int main() { pthread_t a, b; pthread_create(&a, NULL, producer, NULL); pthread_create(&b, NULL, consumer, NULL); pthread_join(a, NULL); pthread_join(b, NULL); }
`,
    "X86 Mine\n(* 0:EAX is next, 1:EAX is head in its condition, 1:EBX is x, 1:ECX is n *)\n{ buf_0=0; head=0; tail=0; }\n P0 | P1 ;\n MOV EBX,[head] | MOV EDX,[tail] ;\n MOV EAX,$0 | MOV EAX,[head] ;\n MOV EAX,$1 | CMP EAX,$0 ;\n MOV EBX,[tail] | JNE L2 ;\n CMP EBX,$1 | JMP L1 ;\n JNE L2 | L2: MOV EBX,[buf_0] ;\n JMP L1 | MOV ECX,$1 ;\n L2: MOV [buf_0],$7 | MOV [tail],$1 ;\n MOV [head],$1 | L1: ;\n L1: | ;\nlocations [0:EAX; 1:ECX]\nexists (~1:EAX=0 /\\ 1:EBX=0)\n"],
  ["a ring buffer of volatile variables, which indices are loaded from", `#include <pthread.h>
#define SIZE 16
volatile int buffer[SIZE];
volatile int in = 0, out = 0;
void *producer(void *arg) {
  int i = in;
  while ((i + 1) % SIZE == out) ;
  buffer[i] = 7;
  in = (i + 1) % SIZE;
  return 0;
}
void *consumer(void *arg) {
  int o = out;
  while (in == o) ;
  int item = buffer[o];
  out = (o + 1) % SIZE;
  return 0;
}
int main() { pthread_t a, b; pthread_create(&a, NULL, producer, NULL); pthread_create(&b, NULL, consumer, NULL); pthread_join(a, NULL); pthread_join(b, NULL); }
`,
    "X86 Mine\n(* 0:EAX is out after its loop, 1:EAX is in after its loop, 1:EBX is item *)\n(* every wait ends: ~0:EAX=1 /\\ ~1:EAX=0 *)\n{ buffer_0=0; in=0; out=0; }\n P0 | P1 ;\n MOV EBX,[in] | MOV ECX,[out] ;\n MOV EAX,[out] | MOV EAX,[in] ;\n MOV [buffer_0],$7 | MOV EBX,[buffer_0] ;\n MOV [in],$1 | MOV [out],$1 ;\nexists (~0:EAX=1 /\\ ~1:EAX=0 /\\ 1:EBX=0)\n"],
  ["a ring buffer of volatile variables that are indices", `#include <pthread.h>
#define SIZE 16
volatile int buffer[SIZE];
volatile int in = 0, out = 0;
void *producer(void *arg) {
  while ((in + 1) % SIZE == out) ;
  buffer[in] = 7;
  in = (in + 1) % SIZE;
  return 0;
}
void *consumer(void *arg) {
  while (in == out) ;
  int item = buffer[out];
  out = (out + 1) % SIZE;
  return 0;
}
int main() { pthread_t a, b; pthread_create(&a, NULL, producer, NULL); pthread_create(&b, NULL, consumer, NULL); pthread_join(a, NULL); pthread_join(b, NULL); }
`,
    "X86 Mine\n(* 0:EAX is out after its loop, 1:EAX is in after its loop, 1:EBX is item *)\n(* every wait ends: ~0:EAX=1 /\\ ~1:EAX=0 *)\n{ buffer_0=0; in=0; out=0; }\n P0 | P1 ;\n MOV EBX,[in] | MOV ECX,[out] ;\n MOV EAX,[out] | MOV EAX,[in] ;\n MOV EBX,[in] | MOV ECX,[out] ;\n MOV [buffer_0],$7 | MOV EBX,[buffer_0] ;\n MOV EBX,[in] | MOV ECX,[out] ;\n MOV [in],$1 | MOV [out],$1 ;\nexists (~0:EAX=1 /\\ ~1:EAX=0 /\\ 1:EBX=0)\n"],
  ["a ring buffer whose indices are remainders of counts", `#include <atomic>
#include <thread>
struct Queue {
  int buf[8];
  std::atomic<unsigned> head{0}, tail{0};
  bool push(int v) {
    unsigned h = head.load(std::memory_order_relaxed);
    if (h - tail.load(std::memory_order_acquire) == 8) return false;
    buf[h % 8] = v;
    head.store(h + 1, std::memory_order_release);
    return true;
  }
  bool pop(int& v) {
    unsigned t = tail.load(std::memory_order_relaxed);
    if (head.load(std::memory_order_acquire) == t) return false;
    v = buf[t % 8];
    tail.store(t + 1, std::memory_order_release);
    return true;
  }
};
Queue q;
void producer() { for (int i = 1; i <= 2; i++) while (!q.push(i)) ; }
void consumer() { int v; for (int i = 0; i < 2; i++) { while (!q.pop(v)) ; } }
int main() { std::thread a(producer), b(consumer); a.join(); b.join(); }
`,
    "X86 Mine\n(* 0:EAX is push_result, 0:EBX is push_result_2, 1:EAX is q_head in its condition, 1:EBX is pop_result, 1:ECX is v, 1:EDX is pop_result_2 *)\n(* every wait ends: 0:EAX=1 /\\ 0:EBX=1 /\\ 1:EBX=1 /\\ 1:EDX=1 *)\n{ q_buf_0=0; q_buf_1=0; q_head=0; q_tail=0; }\n P0 | P1 ;\n MOV ECX,[q_head] | MOV ESI,[q_tail] ;\n MOV ECX,[q_tail] | MOV EAX,[q_head] ;\n CMP ECX,$4294967288 | CMP EAX,$0 ;\n JNE L2 | JNE L2 ;\n MOV EAX,$0 | MOV EBX,$0 ;\n JMP L1 | JMP L1 ;\n L2: MOV [q_buf_0],$1 | L2: MOV ECX,[q_buf_0] ;\n MOV [q_head],$1 | MOV [q_tail],$1 ;\n MOV EAX,$1 | MOV EBX,$1 ;\n L1: MOV ECX,[q_head] | L1: MOV ESI,[q_tail] ;\n MOV ECX,[q_tail] | MOV EAX,[q_head] ;\n CMP ECX,$4294967289 | CMP EAX,$1 ;\n JNE L4 | JNE L4 ;\n MOV EBX,$0 | MOV EDX,$0 ;\n JMP L3 | JMP L3 ;\n L4: MOV [q_buf_1],$2 | L4: MOV ECX,[q_buf_1] ;\n MOV [q_head],$2 | MOV [q_tail],$2 ;\n MOV EBX,$1 | MOV EDX,$1 ;\n L3: | L3: ;\nexists (0:EAX=1 /\\ 0:EBX=1 /\\ 1:EBX=1 /\\ 1:EDX=1 /\\ ~1:EAX=1 /\\ 1:ECX=0)\n"],
  ["a ring buffer of 1024 words, which is an argument by default", `#include <atomic>
#include <thread>
#include <array>
template <typename T, size_t N = 1024>
class RingBuffer {
public:
  bool push(const T& v) {
    const auto h = head_.load(std::memory_order_relaxed);
    const auto next = (h + 1 == N) ? 0 : h + 1;
    if (next == tail_.load(std::memory_order_acquire)) return false;
    buf_[h] = v;
    head_.store(next, std::memory_order_release);
    return true;
  }
  bool pop(T& out) {
    const auto t = tail_.load(std::memory_order_relaxed);
    if (t == head_.load(std::memory_order_acquire)) return false;
    out = buf_[t];
    tail_.store(t + 1 == N ? 0 : t + 1, std::memory_order_release);
    return true;
  }
private:
  std::array<T, N> buf_;
  alignas(64) std::atomic<size_t> head_{0};
  alignas(64) std::atomic<size_t> tail_{0};
};
RingBuffer<int> q;
int main() {
  std::thread a([] { q.push(1); });
  std::thread b([] { int x; if (q.pop(x)) { assert(x == 1); } });
  a.join(); b.join();
}
`,
    "X86 Mine\n(* 1:EAX is pop_result, 1:EBX is x *)\n{ q_buf__0=0; q_head_=0; q_tail_=0; }\n P0 | P1 ;\n MOV EAX,[q_head_] | MOV ECX,[q_tail_] ;\n MOV EAX,[q_tail_] | MOV ECX,[q_head_] ;\n CMP EAX,$1 | CMP ECX,$0 ;\n JNE L2 | JNE L2 ;\n JMP L1 | MOV EAX,$0 ;\n L2: MOV [q_buf__0],$1 | JMP L1 ;\n MOV [q_head_],$1 | L2: MOV EBX,[q_buf__0] ;\n L1: | MOV [q_tail_],$1 ;\n | MOV EAX,$1 ;\n | L1: CMP EAX,$0 ;\n | JE END ;\n | END: ;\nforall (1:EAX=0 \\/ 1:EBX=1)\n"],
  ["a ring buffer, in which loops call its functions till they succeed", `#include <atomic>
#include <thread>
#include <iostream>
template<typename T, std::size_t Size>
class SPSCQueue {
public:
    SPSCQueue() : head_(0), tail_(0) {}
    bool enqueue(const T& item) {
        std::size_t tail = tail_.load(std::memory_order_relaxed);
        std::size_t next = (tail + 1) % Size;
        if (next == head_.load(std::memory_order_acquire))
            return false; // full
        buffer_[tail] = item;
        tail_.store(next, std::memory_order_release);
        return true;
    }
    bool dequeue(T& item) {
        std::size_t head = head_.load(std::memory_order_relaxed);
        if (head == tail_.load(std::memory_order_acquire))
            return false; // empty
        item = buffer_[head];
        head_.store((head + 1) % Size, std::memory_order_release);
        return true;
    }
private:
    T buffer_[Size];
    std::atomic<std::size_t> head_;
    std::atomic<std::size_t> tail_;
};
int main() {
    SPSCQueue<int, 8> queue;
    std::thread producer([&] {
        for (int i = 0; i < 2; ++i) {
            while (!queue.enqueue(i)) { std::this_thread::yield(); }
        }
    });
    std::thread consumer([&] {
        for (int i = 0; i < 2; ++i) {
            int value;
            while (!queue.dequeue(value)) { std::this_thread::yield(); }
            std::cout << value << std::endl;
        }
    });
    producer.join();
    consumer.join();
}
`,
    "X86 Mine\n(* 0:EAX is enqueue_result, 0:EBX is enqueue_result_2, 1:EAX is queue_tail_ in its condition, 1:EBX is dequeue_result, 1:ECX is value, 1:EDX is dequeue_result_2 *)\n(* every wait ends: 0:EAX=1 /\\ 0:EBX=1 /\\ 1:EBX=1 /\\ 1:EDX=1 *)\n{ queue_buffer__0=0; queue_buffer__1=0; queue_head_=0; queue_tail_=0; }\n P0 | P1 ;\n MOV ECX,[queue_tail_] | MOV ESI,[queue_head_] ;\n MOV ECX,[queue_head_] | MOV EAX,[queue_tail_] ;\n CMP ECX,$1 | CMP EAX,$0 ;\n JNE L2 | JNE L2 ;\n MOV EAX,$0 | MOV EBX,$0 ;\n JMP L1 | JMP L1 ;\n L2: MOV [queue_buffer__0],$0 | L2: MOV ECX,[queue_buffer__0] ;\n MOV [queue_tail_],$1 | MOV [queue_head_],$1 ;\n MOV EAX,$1 | MOV EBX,$1 ;\n L1: MOV ECX,[queue_tail_] | L1: MOV ESI,[queue_head_] ;\n MOV ECX,[queue_head_] | MOV EAX,[queue_tail_] ;\n CMP ECX,$2 | CMP EAX,$1 ;\n JNE L4 | JNE L4 ;\n MOV EBX,$0 | MOV EDX,$0 ;\n JMP L3 | JMP L3 ;\n L4: MOV [queue_buffer__1],$1 | L4: MOV ECX,[queue_buffer__1] ;\n MOV [queue_tail_],$2 | MOV [queue_head_],$2 ;\n MOV EBX,$1 | MOV EDX,$1 ;\n L3: | L3: ;\nexists (0:EAX=1 /\\ 0:EBX=1 /\\ 1:EBX=1 /\\ 1:EDX=1 /\\ ~1:EAX=1 /\\ 1:ECX=0)\n"],
  ["an index that a condition may have changed", `#include <atomic>
#include <thread>
int buf[4];
std::atomic<int> head{0}, x{0};
void p1() {
  int i = 0;
  if (x.load() == 1 && head.exchange(1) == 0) i = 2;
  int h = head.load();
  buf[h] = 5;
}
void p2() { x = 1; int r = buf[0]; int s = buf[1]; }
int main() { std::thread a(p1), b(p2); a.join(); b.join(); }
`,
    "X86 Mine\n(* 0:EAX is i, 0:EBX is h, 1:EAX is r, 1:EBX is s *)\n{ buf_0=0; buf_1=0; head=0; x=0; }\n P0 | P1 ;\n MOV EAX,$0 | MOV ECX,$1 ;\n MOV ECX,[x] | XCHG [x],ECX ;\n CMP ECX,$1 | MOV EAX,[buf_0] ;\n JNE L1 | MOV EBX,[buf_1] ;\n MOV ECX,$1 | ;\n XCHG [head],ECX | ;\n CMP ECX,$0 | ;\n JNE L1 | ;\n MOV EAX,$2 | ;\n L1: MOV EBX,[head] | ;\n CMP EBX,$0 | ;\n JNE L2 | ;\n MOV [buf_0],$5 | ;\n JMP END | ;\n L2: MOV [buf_1],$5 | ;\n END: | ;\nlocations [0:EAX; 0:EBX]\nexists (~1:EAX=0 /\\ 1:EBX=0)\n"],
  ["an index that a branch may have changed", `#include <atomic>
#include <thread>
int buf[4];
std::atomic<int> head{0}, x{0};
void p1() {
  if (x.load() == 1) { head = 2; }
  int i = head;
  buf[i] = 5;
}
void p2() { x = 1; int r = buf[0]; int s = buf[2]; }
int main() { std::thread a(p1), b(p2); a.join(); b.join(); }
`,
    "X86 Mine\n(* 0:EAX is i, 1:EAX is r, 1:EBX is s *)\n{ buf_0=0; buf_2=0; head=0; x=0; }\n P0 | P1 ;\n MOV EBX,[x] | MOV ECX,$1 ;\n CMP EBX,$1 | XCHG [x],ECX ;\n JNE L1 | MOV EAX,[buf_0] ;\n MOV EBX,$2 | MOV EBX,[buf_2] ;\n XCHG [head],EBX | ;\n L1: MOV EAX,[head] | ;\n CMP EAX,$0 | ;\n JNE L2 | ;\n MOV [buf_0],$5 | ;\n JMP END | ;\n L2: MOV [buf_2],$5 | ;\n END: | ;\nlocations [0:EAX]\nexists (~1:EAX=0 /\\ 1:EBX=0)\n"],
  ["an index that the thread changes", `#include <atomic>
#include <thread>
int buf[4];
std::atomic<int> head{0};
int r;
void p1() { int h = head.load(); h++; buf[h] = 5; int k = h; h = 3; buf[k] = 6; head = k; }
void p2() { if (head.load() == 1) { int a = buf[1]; r = a; } }
int main() { std::thread a(p1), b(p2); a.join(); b.join(); }
`,
    "X86 Mine\n(* 0:EAX is h, 1:EAX is head in its condition, 1:EBX is a, 1:ECX is r *)\n{ buf_1=0; head=0; }\n P0 | P1 ;\n MOV EAX,[head] | MOV EAX,[head] ;\n MOV EAX,$1 | CMP EAX,$1 ;\n MOV [buf_1],$5 | JNE END ;\n MOV EAX,$3 | MOV EBX,[buf_1] ;\n MOV [buf_1],$6 | MOV ECX,EBX ;\n MOV EBX,$1 | END: ;\n XCHG [head],EBX | ;\nlocations [0:EAX; 1:ECX]\nexists (1:EAX=1 /\\ 1:EBX=0)\n"],
  ["a variable that has a value if its function says so", `#include <atomic>
#include <thread>
std::atomic<int> f{0};
int data;
bool take(int& v) { if (f.load(std::memory_order_acquire) == 1) { v = data; return true; } return false; }
void p1() { data = 3; f.store(1, std::memory_order_release); }
void p2() { int v; if (!take(v)) return; assert(v == 3); }
int main() { std::thread a(p1), b(p2); a.join(); b.join(); }
`,
    "X86 Mine\n(* 1:EAX is v, 1:EBX is take_result *)\n{ f=0; data=0; }\n P0 | P1 ;\n MOV [data],$3 | MOV ECX,[f] ;\n MOV [f],$1 | CMP ECX,$1 ;\n | JNE L3 ;\n | MOV EAX,[data] ;\n | MOV EBX,$1 ;\n | JMP L2 ;\n | L3: MOV EBX,$0 ;\n | L2: CMP EBX,$0 ;\n | JNE L1 ;\n | JMP END ;\n | L1: END: ;\nforall (1:EBX=0 \\/ 1:EAX=3)\n"],
  ["a relation of a load in a condition", `#include <atomic>
#include <thread>
std::atomic<int> x{0}, data{0};
int r1, r2;
void p1() { data.store(1, std::memory_order_relaxed); x.store(1, std::memory_order_release); x.store(2, std::memory_order_release); }
void p2() { if (x.load(std::memory_order_acquire) > 0) r1 = data.load(std::memory_order_relaxed); }
int main() { std::thread a(p1), b(p2); a.join(); b.join(); }
`,
    "X86 Mine\n(* 1:EAX is x_compared, 1:EBX is r1 *)\n{ x=0; data=0; }\n P0 | P1 ;\n MOV [data],$1 | MOV EAX,[x] ;\n MOV [x],$1 | CMP EAX,$0 ;\n MOV [x],$2 | JE END ;\n | MOV EBX,[data] ;\n | END: ;\nexists (~1:EAX=0 /\\ 1:EBX=0)\n"],
  ["relations of a variable that has few words", `#include <atomic>
#include <thread>
std::atomic<int> x{0}, data{0};
void p1() { data.store(1, std::memory_order_relaxed); x.store(1, std::memory_order_release); x.store(2, std::memory_order_release); x = 3; }
void p2() { int r = x.load(std::memory_order_acquire); if (r >= 1 && r <= 2) { int d = data.load(std::memory_order_relaxed); assert(d == 1); } }
int main() { std::thread a(p1), b(p2); a.join(); b.join(); }
`,
    "X86 Mine\n(* 1:EAX is r, 1:EBX is d *)\n{ x=0; data=0; }\n P0 | P1 ;\n MOV [data],$1 | MOV EAX,[x] ;\n MOV [x],$1 | CMP EAX,$0 ;\n MOV [x],$2 | JE END ;\n MOV EAX,$3 | CMP EAX,$3 ;\n XCHG [x],EAX | JE END ;\n | MOV EBX,[data] ;\n | END: ;\nforall (1:EAX=0 \\/ 1:EAX=3 \\/ 1:EBX=1)\n"],
  ["relations of variables that sums of one another are stored to", `#include <atomic>
#include <thread>
std::atomic<int> x{0}, y{0};
void p1() { if (y.load() < 1) x = y + 1; }
void p2() { if (x.load() < 2) y = x + 1; }
int main() { std::thread a(p1), b(p2); a.join(); b.join(); }
`,
    "X86 Mine\n(* 0:EAX is y_compared, 1:EAX is x_compared *)\n{ x=0; y=0; }\n P0 | P1 ;\n MOV EAX,[y] | MOV EAX,[x] ;\n CMP EAX,$0 | CMP EAX,$2 ;\n JNE END | JE END ;\n MOV EBX,[y] | MOV EBX,[x] ;\n ADD EBX,$1 | ADD EBX,$1 ;\n XCHG [x],EBX | XCHG [y],EBX ;\n END: | END: ;\nexists (0:EAX=0 /\\ 1:EAX=0)\n"],
  ["a relation of what an addition finds", `#include <atomic>
#include <thread>
std::atomic<int> count{0}; int winners;
void work() { if (count.fetch_add(1) < 1) winners = winners + 1; }
int main() { std::thread a(work), b(work); a.join(); b.join(); assert(winners == 1); }
`,
    "X86 Mine\n(* 0:EAX is count_compared, 1:EAX is count_compared *)\n{ count=0; winners=0; }\n P0 | P1 ;\n MOV EAX,$1 | MOV EAX,$1 ;\n LOCK XADD [count],EAX | LOCK XADD [count],EAX ;\n CMP EAX,$0 | CMP EAX,$0 ;\n JNE END | JNE END ;\n MOV EBX,[winners] | MOV EBX,[winners] ;\n ADD EBX,$1 | ADD EBX,$1 ;\n MOV [winners],EBX | MOV [winners],EBX ;\n END: | END: ;\nlocations [count]\nforall (winners=1)\n"],
  ["relations joined by ||, of a variable that a branch sets", `#include <atomic>
#include <thread>
std::atomic<int> x{0}, y{0};
void p1() { x = 1; y = 3; }
void p2() { int a = 0; if (y > 2) a = 2; if (a > 1 || y < 1) { int s = x; } }
int main() { std::thread a(p1), b(p2); a.join(); b.join(); }
`,
    "X86 Mine\n(* 1:EAX is a, 1:EBX is y_compared, 1:ECX is s, 1:EDX is y_compared_ *)\n{ x=0; y=0; }\n P0 | P1 ;\n MOV EAX,$1 | MOV EAX,$0 ;\n XCHG [x],EAX | MOV EBX,[y] ;\n MOV EAX,$3 | CMP EBX,$3 ;\n XCHG [y],EAX | JNE L1 ;\n | MOV EAX,$2 ;\n | L1: CMP EAX,$2 ;\n | JNE L2 ;\n | MOV ECX,[x] ;\n | JMP END ;\n | L2: MOV EDX,[y] ;\n | CMP EDX,$0 ;\n | JNE END ;\n | MOV ECX,[x] ;\n | END: ;\nlocations [1:EBX]\nexists (~1:EAX=2 /\\ 1:EDX=0 /\\ 1:ECX=0)\n"],
  ["a relation of a variable that is counted, before a return", `#include <atomic>
#include <thread>
std::atomic<int> x{0}, y{0};
void p1() { x = 1; for (int i = 0; i < 3; i++) y++; }
void p2() { int r = y; if (r <= 1) { return; } int s = x; assert(s == 1); }
int main() { std::thread a(p1), b(p2); a.join(); b.join(); }
`,
    "X86 Mine\n(* 1:EAX is r, 1:EBX is s *)\n{ x=0; y=0; }\n P0 | P1 ;\n MOV EAX,$1 | MOV EAX,[y] ;\n XCHG [x],EAX | CMP EAX,$2 ;\n MOV EAX,$1 | JE L1 ;\n LOCK XADD [y],EAX | CMP EAX,$3 ;\n MOV EAX,$1 | JE L1 ;\n LOCK XADD [y],EAX | JMP END ;\n MOV EAX,$1 | L1: MOV EBX,[x] ;\n LOCK XADD [y],EAX | END: ;\nforall (~1:EAX=2 /\\ ~1:EAX=3 \\/ 1:EBX=1)\n"],
  ["a variable that is set again after its relation", `#include <atomic>
#include <thread>
std::atomic<int> x{0}, y{0};
void p1() { x = 1; y = 3; }
void p2() { int a = y; if (!(a > 2)) return; a = 0; if (a < 1) { int s = x; } }
int main() { std::thread a(p1), b(p2); a.join(); b.join(); }
`,
    "X86 Mine\n(* 1:EAX is a, 1:EBX is s *)\n{ x=0; y=0; }\n P0 | P1 ;\n MOV EAX,$1 | MOV EAX,[y] ;\n XCHG [x],EAX | CMP EAX,$0 ;\n MOV EAX,$3 | JNE L1 ;\n XCHG [y],EAX | JMP END ;\n | L1: MOV EAX,$0 ;\n | MOV EBX,[x] ;\n | END: ;\nlocations [1:EAX; 1:EBX]\nexists (true)\n"],
  ["double-checked locking of an object", `#include <atomic>
#include <mutex>
#include <thread>
struct Data { int x; };
std::atomic<Data*> instance{nullptr};
std::mutex m;
Data* get() {
  Data* p = instance.load(std::memory_order_acquire);
  if (!p) {
    std::lock_guard<std::mutex> lock(m);
    p = instance.load(std::memory_order_relaxed);
    if (!p) {
      p = new Data;
      p->x = 42;
      instance.store(p, std::memory_order_release);
    }
  }
  return p;
}
void t1() { Data* d = get(); int r = d->x; }
void t2() { Data* d = get(); int r = d->x; }
int main() { std::thread a(t1), b(t2); a.join(); b.join(); }
`,
    "X86 Mine\n(* 0:EAX is p, 0:EBX is m at its lock, 0:ECX is d, 0:EDX is r, 1:EAX is p, 1:EBX is m at its lock, 1:ECX is d, 1:EDX is r *)\n(* every wait ends: 0:EBX=0 /\\ 1:EBX=0 *)\n(* a thread finds Data_x not yet set: 0:EDX=0 \\/ 1:EDX=0 *)\n{ Data_x=0; instance=0; m=0; }\n P0 | P1 ;\n MOV EAX,[instance] | MOV EAX,[instance] ;\n CMP EAX,$0 | CMP EAX,$0 ;\n JNE L2 | JNE L2 ;\n MOV EBX,$1 | MOV EBX,$1 ;\n XCHG [m],EBX | XCHG [m],EBX ;\n MOV EAX,[instance] | MOV EAX,[instance] ;\n CMP EAX,$0 | CMP EAX,$0 ;\n JNE L3 | JNE L3 ;\n MOV EAX,$1 | MOV EAX,$1 ;\n MOV [Data_x],$42 | MOV [Data_x],$42 ;\n MOV [instance],EAX | MOV [instance],EAX ;\n L3: MOV ESI,$0 | L3: MOV ESI,$0 ;\n XCHG [m],ESI | XCHG [m],ESI ;\n L2: MOV ECX,EAX | L2: MOV ECX,EAX ;\n MOV EDX,[Data_x] | MOV EDX,[Data_x] ;\nlocations [0:EAX; 0:ECX; 1:EAX; 1:ECX; instance; Data_x]\n~exists (0:EBX=0 /\\ 1:EBX=0 /\\ (0:EDX=0 \\/ 1:EDX=0))\n"],
  ["double-checked locking by a lock and an unlock", `#include <atomic>
#include <mutex>
#include <thread>
struct Data { int x; };
std::atomic<Data*> instance{nullptr};
std::mutex m;
Data* get() {
  Data* p = instance.load(std::memory_order_acquire);
  if (!p) {
    m.lock();
    p = instance.load(std::memory_order_relaxed);
    if (!p) {
      p = new Data;
      p->x = 42;
      instance.store(p, std::memory_order_release);
    }
    m.unlock();
  }
  return p;
}
void t1() { Data* d = get(); int r = d->x; }
void t2() { Data* d = get(); int r = d->x; }
int main() { std::thread a(t1), b(t2); a.join(); b.join(); }
`,
    "X86 Mine\n(* 0:EAX is p, 0:EBX is m at its lock, 0:ECX is d, 0:EDX is r, 1:EAX is p, 1:EBX is m at its lock, 1:ECX is d, 1:EDX is r *)\n(* every wait ends: 0:EBX=0 /\\ 1:EBX=0 *)\n(* a thread finds Data_x not yet set: 0:EDX=0 \\/ 1:EDX=0 *)\n{ Data_x=0; instance=0; m=0; }\n P0 | P1 ;\n MOV EAX,[instance] | MOV EAX,[instance] ;\n CMP EAX,$0 | CMP EAX,$0 ;\n JNE L2 | JNE L2 ;\n MOV EBX,$1 | MOV EBX,$1 ;\n XCHG [m],EBX | XCHG [m],EBX ;\n MOV EAX,[instance] | MOV EAX,[instance] ;\n CMP EAX,$0 | CMP EAX,$0 ;\n JNE L3 | JNE L3 ;\n MOV EAX,$1 | MOV EAX,$1 ;\n MOV [Data_x],$42 | MOV [Data_x],$42 ;\n MOV [instance],EAX | MOV [instance],EAX ;\n L3: MOV ESI,$0 | L3: MOV ESI,$0 ;\n XCHG [m],ESI | XCHG [m],ESI ;\n L2: MOV ECX,EAX | L2: MOV ECX,EAX ;\n MOV EDX,[Data_x] | MOV EDX,[Data_x] ;\nlocations [0:EAX; 0:ECX; 1:EAX; 1:ECX; instance; Data_x]\n~exists (0:EBX=0 /\\ 1:EBX=0 /\\ (0:EDX=0 \\/ 1:EDX=0))\n"],
  ["double-checked locking by a flag", `#include <atomic>
#include <mutex>
#include <thread>
struct Data { int x; };
std::atomic<Data*> instance{nullptr};
std::atomic_flag m;
Data* get() {
  Data* p = instance.load(std::memory_order_acquire);
  if (!p) {
    while (m.test_and_set(std::memory_order_acquire)) ;
    p = instance.load(std::memory_order_relaxed);
    if (!p) {
      p = new Data;
      p->x = 42;
      instance.store(p, std::memory_order_release);
    }
    m.clear(std::memory_order_release);
  }
  return p;
}
void t1() { Data* d = get(); int r = d->x; }
void t2() { Data* d = get(); int r = d->x; }
int main() { std::thread a(t1), b(t2); a.join(); b.join(); }
`,
    "X86 Mine\n(* 0:EAX is p, 0:EBX is m at its lock, 0:ECX is d, 0:EDX is r, 1:EAX is p, 1:EBX is m at its lock, 1:ECX is d, 1:EDX is r *)\n(* every wait ends: 0:EBX=0 /\\ 1:EBX=0 *)\n(* a thread finds Data_x not yet set: 0:EDX=0 \\/ 1:EDX=0 *)\n{ Data_x=0; instance=0; m=0; }\n P0 | P1 ;\n MOV EAX,[instance] | MOV EAX,[instance] ;\n CMP EAX,$0 | CMP EAX,$0 ;\n JNE L2 | JNE L2 ;\n MOV EBX,$1 | MOV EBX,$1 ;\n XCHG [m],EBX | XCHG [m],EBX ;\n MOV EAX,[instance] | MOV EAX,[instance] ;\n CMP EAX,$0 | CMP EAX,$0 ;\n JNE L3 | JNE L3 ;\n MOV EAX,$1 | MOV EAX,$1 ;\n MOV [Data_x],$42 | MOV [Data_x],$42 ;\n MOV [instance],EAX | MOV [instance],EAX ;\n L3: MOV [m],$0 | L3: MOV [m],$0 ;\n L2: MOV ECX,EAX | L2: MOV ECX,EAX ;\n MOV EDX,[Data_x] | MOV EDX,[Data_x] ;\nlocations [0:EAX; 0:ECX; 1:EAX; 1:ECX; instance; m; Data_x]\n~exists (0:EBX=0 /\\ 1:EBX=0 /\\ (0:EDX=0 \\/ 1:EDX=0))\n"],
  ["double-checked locking that stores the pointer first", `#include <atomic>
#include <mutex>
#include <thread>
struct Data { int x; };
std::atomic<Data*> instance{nullptr};
std::mutex m;
Data* get() {
  Data* p = instance.load(std::memory_order_acquire);
  if (!p) {
    std::lock_guard<std::mutex> lock(m);
    p = instance.load(std::memory_order_relaxed);
    if (!p) {
      p = new Data;
      instance.store(p, std::memory_order_release);
      p->x = 42;
    }
  }
  return p;
}
void t1() { Data* d = get(); int r = d->x; }
void t2() { Data* d = get(); int r = d->x; }
int main() { std::thread a(t1), b(t2); a.join(); b.join(); }
`,
    "X86 Mine\n(* 0:EAX is p, 0:EBX is m at its lock, 0:ECX is d, 0:EDX is r, 1:EAX is p, 1:EBX is m at its lock, 1:ECX is d, 1:EDX is r *)\n(* every wait ends: 0:EBX=0 /\\ 1:EBX=0 *)\n(* a thread finds Data_x not yet set: 0:EDX=0 \\/ 1:EDX=0 *)\n{ Data_x=0; instance=0; m=0; }\n P0 | P1 ;\n MOV EAX,[instance] | MOV EAX,[instance] ;\n CMP EAX,$0 | CMP EAX,$0 ;\n JNE L2 | JNE L2 ;\n MOV EBX,$1 | MOV EBX,$1 ;\n XCHG [m],EBX | XCHG [m],EBX ;\n MOV EAX,[instance] | MOV EAX,[instance] ;\n CMP EAX,$0 | CMP EAX,$0 ;\n JNE L3 | JNE L3 ;\n MOV EAX,$1 | MOV EAX,$1 ;\n MOV [instance],EAX | MOV [instance],EAX ;\n MOV [Data_x],$42 | MOV [Data_x],$42 ;\n L3: MOV ESI,$0 | L3: MOV ESI,$0 ;\n XCHG [m],ESI | XCHG [m],ESI ;\n L2: MOV ECX,EAX | L2: MOV ECX,EAX ;\n MOV EDX,[Data_x] | MOV EDX,[Data_x] ;\nlocations [0:EAX; 0:ECX; 1:EAX; 1:ECX; instance; Data_x]\n~exists (0:EBX=0 /\\ 1:EBX=0 /\\ (0:EDX=0 \\/ 1:EDX=0))\n"],
  ["double-checked locking by a plain pointer", `#include <mutex>
#include <thread>
struct S { int v; };
S* instance = nullptr;
std::mutex m;
S* get() {
  if (instance == nullptr) {
    std::lock_guard<std::mutex> lock(m);
    if (instance == nullptr) {
      S* p = new S;
      p->v = 1;
      instance = p;
    }
  }
  return instance;
}
void t1() { S* d = get(); int r = d->v; }
void t2() { S* d = get(); int r = d->v; }
int main() { std::thread a(t1), b(t2); a.join(); b.join(); }
`,
    "X86 Mine\n(* 0:EAX is m at its lock, 0:EBX is p, 0:ECX is d, 0:EDX is r, 1:EAX is m at its lock, 1:EBX is p, 1:ECX is d, 1:EDX is r *)\n(* every wait ends: 0:EAX=0 /\\ 1:EAX=0 *)\n(* a thread finds S_v not yet set: 0:EDX=0 \\/ 1:EDX=0 *)\n{ S_v=0; instance=0; m=0; }\n P0 | P1 ;\n MOV ESI,[instance] | MOV ESI,[instance] ;\n CMP ESI,$0 | CMP ESI,$0 ;\n JNE L2 | JNE L2 ;\n MOV EAX,$1 | MOV EAX,$1 ;\n XCHG [m],EAX | XCHG [m],EAX ;\n MOV ESI,[instance] | MOV ESI,[instance] ;\n CMP ESI,$0 | CMP ESI,$0 ;\n JNE L3 | JNE L3 ;\n MOV EBX,$1 | MOV EBX,$1 ;\n MOV [S_v],$1 | MOV [S_v],$1 ;\n MOV [instance],EBX | MOV [instance],EBX ;\n L3: MOV ESI,$0 | L3: MOV ESI,$0 ;\n XCHG [m],ESI | XCHG [m],ESI ;\n L2: MOV ECX,[instance] | L2: MOV ECX,[instance] ;\n MOV EDX,[S_v] | MOV EDX,[S_v] ;\nlocations [0:EBX; 0:ECX; 1:EBX; 1:ECX; instance; S_v]\n~exists (0:EAX=0 /\\ 1:EAX=0 /\\ (0:EDX=0 \\/ 1:EDX=0))\n"],
  ["double-checked locking of a word", `#include <atomic>
#include <mutex>
#include <thread>
std::atomic<bool> initialized{false};
std::mutex m;
int value;
void init() {
  if (!initialized.load(std::memory_order_acquire)) {
    std::lock_guard<std::mutex> lock(m);
    if (!initialized.load(std::memory_order_relaxed)) {
      value = 42;
      initialized.store(true, std::memory_order_release);
    }
  }
}
void t1() { init(); int r = value; }
void t2() { init(); int r = value; }
int main() { std::thread a(t1), b(t2); a.join(); b.join(); }
`,
    "X86 Mine\n(* 0:EAX is m at its lock, 0:EBX is r, 1:EAX is m at its lock, 1:EBX is r *)\n(* every wait ends: 0:EAX=0 /\\ 1:EAX=0 *)\n(* a thread finds value not yet set: 0:EBX=0 \\/ 1:EBX=0 *)\n{ initialized=0; m=0; value=0; }\n P0 | P1 ;\n MOV ECX,[initialized] | MOV ECX,[initialized] ;\n CMP ECX,$0 | CMP ECX,$0 ;\n JNE L1 | JNE L1 ;\n MOV EAX,$1 | MOV EAX,$1 ;\n XCHG [m],EAX | XCHG [m],EAX ;\n MOV ECX,[initialized] | MOV ECX,[initialized] ;\n CMP ECX,$0 | CMP ECX,$0 ;\n JNE L2 | JNE L2 ;\n MOV [value],$42 | MOV [value],$42 ;\n MOV [initialized],$1 | MOV [initialized],$1 ;\n L2: MOV ECX,$0 | L2: MOV ECX,$0 ;\n XCHG [m],ECX | XCHG [m],ECX ;\n L1: MOV EBX,[value] | L1: MOV EBX,[value] ;\nlocations [initialized; value]\n~exists (0:EAX=0 /\\ 1:EAX=0 /\\ (0:EBX=0 \\/ 1:EBX=0))\n"],
  ["a class whose static method makes its object, with fences", `#include <atomic>
#include <mutex>
#include <thread>
class Singleton {
private:
  static std::atomic<Singleton*> instance_;
  static std::mutex mutex_;
  int data;
  Singleton() : data(42) {}
public:
  Singleton(const Singleton&) = delete;
  Singleton& operator=(const Singleton&) = delete;
  static Singleton* getInstance() {
    Singleton* tmp = instance_.load(std::memory_order_relaxed);
    std::atomic_thread_fence(std::memory_order_acquire);
    if (tmp == nullptr) {
      std::lock_guard<std::mutex> lock(mutex_);
      tmp = instance_.load(std::memory_order_relaxed);
      if (tmp == nullptr) {
        tmp = new Singleton;
        std::atomic_thread_fence(std::memory_order_release);
        instance_.store(tmp, std::memory_order_relaxed);
      }
    }
    return tmp;
  }

};
std::atomic<Singleton*> Singleton::instance_;
std::mutex Singleton::mutex_;
void work() { Singleton* s = Singleton::getInstance(); int r = s->data; }
int main() { std::thread a(work), b(work); a.join(); b.join(); }
`,
    "X86 Mine\n(* 0:EAX is tmp, 0:EBX is mutex_ at its lock, 0:ECX is s, 0:EDX is r, 1:EAX is tmp, 1:EBX is mutex_ at its lock, 1:ECX is s, 1:EDX is r *)\n(* every wait ends: 0:EBX=0 /\\ 1:EBX=0 *)\n(* a thread finds Singleton_data not yet set: 0:EDX=0 \\/ 1:EDX=0 *)\n{ Singleton_data=0; instance_=0; mutex_=0; }\n P0 | P1 ;\n MOV EAX,[instance_] | MOV EAX,[instance_] ;\n CMP EAX,$0 | CMP EAX,$0 ;\n JNE L2 | JNE L2 ;\n MOV EBX,$1 | MOV EBX,$1 ;\n XCHG [mutex_],EBX | XCHG [mutex_],EBX ;\n MOV EAX,[instance_] | MOV EAX,[instance_] ;\n CMP EAX,$0 | CMP EAX,$0 ;\n JNE L3 | JNE L3 ;\n MOV [Singleton_data],$42 | MOV [Singleton_data],$42 ;\n MOV EAX,$1 | MOV EAX,$1 ;\n MOV [instance_],EAX | MOV [instance_],EAX ;\n L3: MOV ESI,$0 | L3: MOV ESI,$0 ;\n XCHG [mutex_],ESI | XCHG [mutex_],ESI ;\n L2: MOV ECX,EAX | L2: MOV ECX,EAX ;\n MOV EDX,[Singleton_data] | MOV EDX,[Singleton_data] ;\nlocations [0:EAX; 0:ECX; 1:EAX; 1:ECX; instance_; Singleton_data]\n~exists (0:EBX=0 /\\ 1:EBX=0 /\\ (0:EDX=0 \\/ 1:EDX=0))\n"],
  ["static members of a class", `#include <atomic>
#include <thread>
class Config {
public:
  static std::atomic<bool> ready;
  static int value;
  static void set() { value = 7; ready.store(true, std::memory_order_release); }
  static int get() { if (ready.load(std::memory_order_acquire)) return value; return 7; }
};
std::atomic<bool> Config::ready{false};
int Config::value = 0;
void t1() { Config::set(); }
void t2() { int r = Config::get(); assert(r == 7); }
int main() { std::thread a(t1), b(t2); a.join(); b.join(); }
`,
    "X86 Mine\n(* 1:EAX is r *)\n{ ready=0; value=0; }\n P0 | P1 ;\n MOV [value],$7 | MOV EBX,[ready] ;\n MOV [ready],$1 | CMP EBX,$0 ;\n | JE L2 ;\n | MOV EAX,[value] ;\n | JMP L1 ;\n | L2: MOV EAX,$7 ;\n | L1: ;\nforall (1:EAX=7)\n"],
  ["a loop that counts down from a constant", `#include <stdatomic.h>
#include <pthread.h>
atomic_int x;
void *w(void *a) { int n = 3; while (n--) { atomic_fetch_add(&x, 1); } return 0; }
int main() { pthread_t a, b; pthread_create(&a, NULL, w, NULL); pthread_create(&b, NULL, w, NULL); pthread_join(a, NULL); pthread_join(b, NULL); assert(x == 6); }
`,
    "X86 Mine\n(* 0:EAX is n, 1:EAX is n *)\n{ x=0; }\n P0 | P1 ;\n MOV EAX,$3 | MOV EAX,$3 ;\n MOV EBX,$1 | MOV EBX,$1 ;\n LOCK XADD [x],EBX | LOCK XADD [x],EBX ;\n MOV EBX,$1 | MOV EBX,$1 ;\n LOCK XADD [x],EBX | LOCK XADD [x],EBX ;\n MOV EBX,$1 | MOV EBX,$1 ;\n LOCK XADD [x],EBX | LOCK XADD [x],EBX ;\n MOV EAX,$4294967295 | MOV EAX,$4294967295 ;\nforall (x=6)\n"],
  ["a loop that counts down, and the number after it", `#include <atomic>
#include <thread>
std::atomic<int> x; int r;
void w() { int n = 2; while (n-- > 0) x++; r = n; }
void v() { x = 4; }
int main() { std::thread a(w), b(v); a.join(); b.join(); }
`,
    "X86 Mine\n(* 0:EAX is n, 0:EBX is r *)\n{ x=0; }\n P0 | P1 ;\n MOV EAX,$2 | MOV EAX,$4 ;\n MOV ECX,$1 | XCHG [x],EAX ;\n LOCK XADD [x],ECX | ;\n MOV ECX,$1 | ;\n LOCK XADD [x],ECX | ;\n MOV EAX,$4294967295 | ;\n MOV EBX,EAX | ;\nlocations [0:EAX; 0:EBX; x]\nexists (true)\n"],
  ["the kernel's atomic_set_release", `atomic_t x; int data;
void P0(void) { data = 1; atomic_set_release(&x, 1); }
void P1(void) { int r0 = atomic_read_acquire(&x); int r1 = data; }
`,
    "X86 Mine\n(* 1:EAX is r0, 1:EBX is r1 *)\n{ x=0; data=0; }\n P0 | P1 ;\n MOV [data],$1 | MOV EAX,[x] ;\n MOV [x],$1 | MOV EBX,[data] ;\nexists (~1:EAX=0 /\\ 1:EBX=0)\n"],
  ["delays by rand_r", `#include <pthread.h>
#include <stdlib.h>
int x, y, r1, r2; unsigned seed1 = 1, seed2 = 2;
void *a(void *arg) { while (rand_r(&seed1) % 8 != 0) ; x = 1; r1 = y; return 0; }
void *b(void *arg) { while (rand_r(&seed2) % 8 != 0) ; y = 1; r2 = x; return 0; }
int main() { pthread_t t, u; pthread_create(&t, 0, a, 0); pthread_create(&u, 0, b, 0); pthread_join(t, 0); pthread_join(u, 0); if (r1 == 0 && r2 == 0) printf("reorder\\n"); }
`,
    "X86 Mine\n(* 0:EAX is r1, 1:EAX is r2 *)\n{ x=0; y=0; }\n P0 | P1 ;\n MOV [x],$1 | MOV [y],$1 ;\n MOV EAX,[y] | MOV EAX,[x] ;\nexists (0:EAX=0 /\\ 1:EAX=0)\n"],
  ["at of an array", `#include <atomic>
#include <array>
#include <thread>
std::array<std::atomic<int>, 2> flag;
int counter;
void p0() { flag.at(0).store(1); if (flag.at(1).load() == 0) counter++; }
void p1() { flag[1].store(1); if (flag.at(0).load() == 0) counter++; }
int main() { std::thread a(p0), b(p1); a.join(); b.join(); }
`,
    "X86 Mine\n(* 0:EAX is flag_1 in its condition, 1:EAX is flag_0 in its condition *)\n(* both threads enter their if: 0:EAX=0 /\\ 1:EAX=0 *)\n{ flag_0=0; flag_1=0; counter=0; }\n P0 | P1 ;\n MOV EBX,$1 | MOV EBX,$1 ;\n XCHG [flag_0],EBX | XCHG [flag_1],EBX ;\n MOV EAX,[flag_1] | MOV EAX,[flag_0] ;\n CMP EAX,$0 | CMP EAX,$0 ;\n JNE END | JNE END ;\n MOV EBX,[counter] | MOV EBX,[counter] ;\n ADD EBX,$1 | ADD EBX,$1 ;\n MOV [counter],EBX | MOV [counter],EBX ;\n END: | END: ;\nlocations [counter]\n~exists (0:EAX=0 /\\ 1:EAX=0)\n"],
  ["Peterson's lock as a class", `#include <atomic>
#include <thread>
class Peterson {
  std::atomic<bool> flag[2];
  std::atomic<int> turn{0};
public:
  void lock(int me) {
    int other = 1 - me;
    flag[me].store(true);
    turn.store(other);
    while (flag[other].load() && turn.load() == other) ;
  }
  void unlock(int me) { flag[me].store(false); }
};
Peterson p; int counter;
void a() { p.lock(0); counter++; p.unlock(0); }
void b() { p.lock(1); counter++; p.unlock(1); }
int main() { std::thread x(a), y(b); x.join(); y.join(); }
`,
    "X86 Mine\n(* 0:EAX is p_flag_1 after its loop, 0:EBX is p_turn after its loop, 1:EAX is p_flag_0 after its loop, 1:EBX is p_turn after its loop *)\n(* every wait ends: (0:EAX=0 \\/ ~0:EBX=1) /\\ (1:EAX=0 \\/ ~1:EBX=0) *)\n(* an addition to counter is lost: ~counter=2 *)\n{ p_flag_0=0; p_flag_1=0; p_turn=0; counter=0; }\n P0 | P1 ;\n MOV ECX,$1 | MOV ECX,$1 ;\n XCHG [p_flag_0],ECX | XCHG [p_flag_1],ECX ;\n MOV ECX,$1 | MOV ECX,$0 ;\n XCHG [p_turn],ECX | XCHG [p_turn],ECX ;\n MOV EAX,[p_flag_1] | MOV EAX,[p_flag_0] ;\n CMP EAX,$0 | CMP EAX,$0 ;\n JE L2 | JE L2 ;\n MOV EBX,[p_turn] | MOV EBX,[p_turn] ;\n L2: MOV ECX,[counter] | L2: MOV ECX,[counter] ;\n ADD ECX,$1 | ADD ECX,$1 ;\n MOV [counter],ECX | MOV [counter],ECX ;\n MOV ECX,$0 | MOV ECX,$0 ;\n XCHG [p_flag_0],ECX | XCHG [p_flag_1],ECX ;\nlocations [p_turn]\n~exists ((0:EAX=0 \\/ ~0:EBX=1) /\\ (1:EAX=0 \\/ ~1:EBX=0) /\\ ~counter=2)\n"],
  ["size of an array", `#include <atomic>
#include <thread>
#include <array>
std::array<int, 4> buf;
std::atomic<size_t> head{0}, tail{0};
bool push(int v) {
  auto h = head.load(std::memory_order_relaxed);
  auto next = (h + 1) % buf.size();
  if (next == tail.load(std::memory_order_acquire)) return false;
  buf.at(h) = v;
  head.store(next, std::memory_order_release);
  return true;
}
bool pop(int& v) {
  auto t = tail.load(std::memory_order_relaxed);
  if (head.load(std::memory_order_acquire) == t) return false;
  v = buf.at(t);
  tail.store((t + 1) % buf.size(), std::memory_order_release);
  return true;
}
int got;
int main() { std::thread a([] { push(5); }), b([] { int v = 0; if (pop(v)) got = v; }); a.join(); b.join(); assert(got == 0 || got == 5); }
`,
    "X86 Mine\n(* 1:EAX is v, 1:EBX is pop_result, 1:ECX is got *)\n{ buf_0=0; head=0; tail=0; }\n P0 | P1 ;\n MOV EAX,[head] | MOV EAX,$0 ;\n MOV EAX,[tail] | MOV EDX,[tail] ;\n CMP EAX,$1 | MOV EDX,[head] ;\n JNE L2 | CMP EDX,$0 ;\n JMP L1 | JNE L2 ;\n L2: MOV [buf_0],$5 | MOV EBX,$0 ;\n MOV [head],$1 | JMP L1 ;\n L1: | L2: MOV EAX,[buf_0] ;\n | MOV [tail],$1 ;\n | MOV EBX,$1 ;\n | L1: CMP EBX,$0 ;\n | JE END ;\n | MOV ECX,EAX ;\n | END: ;\nforall (1:ECX=0 \\/ 1:ECX=5)\n"],
  ["an index that an addition to a variable of only one thread changes", `#include <stdatomic.h>
int buf[4]; atomic_int head, x;
void P0(void) { int h = atomic_load(&head); buf[h] = 1; atomic_fetch_add(&head, 1); int g = atomic_load(&head); buf[g] = 2; }
void P1(void) { int r = buf[0]; int s = buf[1]; }
`,
    "X86 Mine\n(* 1:EAX is r, 1:EBX is s *)\n{ buf_0=0; buf_1=0; head=0; }\n P0 | P1 ;\n MOV EAX,[head] | MOV EAX,[buf_0] ;\n MOV [buf_0],$1 | MOV EBX,[buf_1] ;\n MOV EAX,$1 | ;\n LOCK XADD [head],EAX | ;\n MOV EAX,[head] | ;\n MOV [buf_1],$2 | ;\nexists (~1:EAX=0 /\\ 1:EBX=0)\n"],
  ["an index that branches set to a constant", `#include <stdatomic.h>
int buf[4]; atomic_int head, x;
void P0(void) { int h = atomic_load(&head); while (atomic_load(&x) == 0) ; if (h == 0) { h = 2; } else { h = 1; } buf[h] = 1; head = h; }
void P1(void) { int r = buf[2]; atomic_store(&x, 1); }
`,
    "X86 Mine\n(* 0:EAX is h, 0:EBX is x after its loop, 1:EAX is r *)\n(* every wait ends: ~0:EBX=0 *)\n{ buf_2=0; head=0; x=0; }\n P0 | P1 ;\n MOV EAX,[head] | MOV EAX,[buf_2] ;\n MOV EBX,[x] | MOV EBX,$1 ;\n MOV EAX,$2 | XCHG [x],EBX ;\n MOV [buf_2],$1 | ;\n MOV ECX,$2 | ;\n XCHG [head],ECX | ;\nlocations [0:EAX]\nexists (~0:EBX=0 /\\ 1:EAX=0)\n"],
  ["an index that branches on a variable of no thread set to a constant", `#include <stdatomic.h>
int buf[4]; atomic_int head, x;
void P0(void) { int h = atomic_load(&head); if (h == 0) { h = 2; } else { h = 1; } buf[h] = 1; }
void P1(void) { int r = buf[2]; atomic_store(&x, 1); }
`,
    "`buf[h] = 1`: an index is a constant, or comes from a variable that only this thread writes, and that has a known constant then"],
  ["an index that a function computes", `#include <stdatomic.h>
int buf[4]; atomic_int head, x;
int idx(int i) { i = i + 1; return i % 4; }
void P0(void) { int h = atomic_load(&head); int n = idx(h); buf[n] = 1; buf[h] = 2; atomic_store(&head, n); }
void P1(void) { if (atomic_load(&head) == 1) { int r = buf[1]; } }
`,
    "X86 Mine\n(* 0:EAX is i, 0:EBX is n, 1:EAX is head in its condition, 1:EBX is r *)\n{ buf_0=0; buf_1=0; head=0; }\n P0 | P1 ;\n MOV ECX,[head] | MOV EAX,[head] ;\n MOV EAX,$0 | CMP EAX,$1 ;\n MOV EAX,$1 | JNE END ;\n MOV EBX,$1 | MOV EBX,[buf_1] ;\n MOV [buf_1],$1 | END: ;\n MOV [buf_0],$2 | ;\n MOV ECX,$1 | ;\n XCHG [head],ECX | ;\nlocations [0:EAX; 0:EBX; buf_0]\nexists (1:EAX=1 /\\ 1:EBX=0)\n"],
  ["Peterson's algorithm by || in an if", `#include <atomic>
#include <thread>
std::atomic<int> flag0{0}, flag1{0}, turn{0}; int counter;
void a() { flag0 = 1; turn = 1; if (flag1 == 0 || turn == 0) { counter++; } flag0 = 0; }
void b() { flag1 = 1; turn = 0; if (flag0 == 0 || turn == 1) { counter++; } flag1 = 0; }
int main() { std::thread x(a), y(b); x.join(); y.join(); }
`,
    "X86 Mine\n(* 0:EAX is flag1 in its condition, 0:EBX is turn in its condition, 1:EAX is flag0 in its condition, 1:EBX is turn in its condition *)\n(* both threads enter their if: (0:EAX=0 \\/ ~0:EAX=0 /\\ 0:EBX=0) /\\ (1:EAX=0 \\/ ~1:EAX=0 /\\ 1:EBX=1) *)\n(* an addition to counter is lost: ~counter=2 *)\n{ flag0=0; flag1=0; turn=0; counter=0; }\n P0 | P1 ;\n MOV ECX,$1 | MOV ECX,$1 ;\n XCHG [flag0],ECX | XCHG [flag1],ECX ;\n MOV ECX,$1 | MOV ECX,$0 ;\n XCHG [turn],ECX | XCHG [turn],ECX ;\n MOV EAX,[flag1] | MOV EAX,[flag0] ;\n CMP EAX,$0 | CMP EAX,$0 ;\n JNE L1 | JNE L1 ;\n MOV ECX,[counter] | MOV ECX,[counter] ;\n ADD ECX,$1 | ADD ECX,$1 ;\n MOV [counter],ECX | MOV [counter],ECX ;\n JMP L2 | JMP L2 ;\n L1: MOV EBX,[turn] | L1: MOV EBX,[turn] ;\n CMP EBX,$0 | CMP EBX,$1 ;\n JNE L3 | JNE L3 ;\n MOV ECX,[counter] | MOV ECX,[counter] ;\n ADD ECX,$1 | ADD ECX,$1 ;\n MOV [counter],ECX | MOV [counter],ECX ;\n L3: L2: MOV ECX,$0 | L3: L2: MOV ECX,$0 ;\n XCHG [flag0],ECX | XCHG [flag1],ECX ;\nlocations [turn]\n~exists ((0:EAX=0 \\/ ~0:EAX=0 /\\ 0:EBX=0) /\\ (1:EAX=0 \\/ ~1:EAX=0 /\\ 1:EBX=1) /\\ ~counter=2)\n"],
  ["Peterson's algorithm by || in an if, of volatile variables", `#include <atomic>
#include <thread>
volatile int flag0, flag1, turn; int counter;
void a() { flag0 = 1; turn = 1; if (flag1 == 0 || turn == 0) { counter++; } flag0 = 0; }
void b() { flag1 = 1; turn = 0; if (flag0 == 0 || turn == 1) { counter++; } flag1 = 0; }
int main() { std::thread x(a), y(b); x.join(); y.join(); }
`,
    "X86 Mine\n(* 0:EAX is flag1 in its condition, 0:EBX is turn in its condition, 1:EAX is flag0 in its condition, 1:EBX is turn in its condition *)\n(* both threads enter their if: (0:EAX=0 \\/ ~0:EAX=0 /\\ 0:EBX=0) /\\ (1:EAX=0 \\/ ~1:EAX=0 /\\ 1:EBX=1) *)\n(* an addition to counter is lost: ~counter=2 *)\n{ flag0=0; flag1=0; turn=0; counter=0; }\n P0 | P1 ;\n MOV [flag0],$1 | MOV [flag1],$1 ;\n MOV [turn],$1 | MOV [turn],$0 ;\n MOV EAX,[flag1] | MOV EAX,[flag0] ;\n CMP EAX,$0 | CMP EAX,$0 ;\n JNE L1 | JNE L1 ;\n MOV ECX,[counter] | MOV ECX,[counter] ;\n ADD ECX,$1 | ADD ECX,$1 ;\n MOV [counter],ECX | MOV [counter],ECX ;\n JMP L2 | JMP L2 ;\n L1: MOV EBX,[turn] | L1: MOV EBX,[turn] ;\n CMP EBX,$0 | CMP EBX,$1 ;\n JNE L3 | JNE L3 ;\n MOV ECX,[counter] | MOV ECX,[counter] ;\n ADD ECX,$1 | ADD ECX,$1 ;\n MOV [counter],ECX | MOV [counter],ECX ;\n L3: L2: MOV [flag0],$0 | L3: L2: MOV [flag1],$0 ;\nlocations [turn]\n~exists ((0:EAX=0 \\/ ~0:EAX=0 /\\ 0:EBX=0) /\\ (1:EAX=0 \\/ ~1:EAX=0 /\\ 1:EBX=1) /\\ ~counter=2)\n"],
  ["branches joined by || with an else that stores", `#include <atomic>
#include <thread>
std::atomic<int> flag0{0}, flag1{0}, turn{0}; int counter;
void a() { flag0 = 1; turn = 1; if (flag1 == 0 || turn == 0) { counter++; } else { counter = 0; } flag0 = 0; }
void b() { flag1 = 1; turn = 0; if (flag0 == 0 || turn == 1) { counter++; } flag1 = 0; }
int main() { std::thread x(a), y(b); x.join(); y.join(); }
`,
    "X86 Mine\n{ flag0=0; flag1=0; turn=0; counter=0; }\n P0 | P1 ;\n MOV EAX,$1 | MOV EAX,$1 ;\n XCHG [flag0],EAX | XCHG [flag1],EAX ;\n MOV EAX,$1 | MOV EAX,$0 ;\n XCHG [turn],EAX | XCHG [turn],EAX ;\n MOV EAX,[flag1] | MOV EAX,[flag0] ;\n CMP EAX,$0 | CMP EAX,$0 ;\n JNE L1 | JNE L1 ;\n MOV EAX,[counter] | MOV EAX,[counter] ;\n ADD EAX,$1 | ADD EAX,$1 ;\n MOV [counter],EAX | MOV [counter],EAX ;\n JMP L2 | JMP L2 ;\n L1: MOV EAX,[turn] | L1: MOV EAX,[turn] ;\n CMP EAX,$0 | CMP EAX,$1 ;\n JNE L3 | JNE L3 ;\n MOV EAX,[counter] | MOV EAX,[counter] ;\n ADD EAX,$1 | ADD EAX,$1 ;\n MOV [counter],EAX | MOV [counter],EAX ;\n JMP L4 | L3: L2: MOV EAX,$0 ;\n L3: MOV [counter],$0 | XCHG [flag1],EAX ;\n L4: L2: MOV EAX,$0 | ;\n XCHG [flag0],EAX | ;\nlocations [turn; counter]\nexists (true)\n"],
  ["a delay in a function with a reference to a generator", `#include <atomic>
#include <thread>
#include <random>
int x, y, r1, r2;
void delay(std::mt19937& gen) { while (gen() % 8 != 0) ; }
void a() { std::mt19937 g(1); delay(g); x = 1; r1 = y; }
void b() { std::mt19937 g(2); delay(g); y = 1; r2 = x; }
int main() { std::thread t(a), u(b); t.join(); u.join(); if (r1 == 0 && r2 == 0) printf("reorder\\n"); }
`,
    "X86 Mine\n(* 0:EAX is r1, 1:EAX is r2 *)\n{ x=0; y=0; }\n P0 | P1 ;\n MOV [x],$1 | MOV [y],$1 ;\n MOV EAX,[y] | MOV EAX,[x] ;\nexists (0:EAX=0 /\\ 1:EAX=0)\n"],
  ["a result of a function that is changed before its branch", `#include <atomic>
#include <thread>
int buf[4];
std::atomic<int> head{0}, tail{0};
bool pop(int& v) {
  int t = tail.load(std::memory_order_relaxed);
  if (t == head.load(std::memory_order_acquire)) return false;
  v = buf[t];
  tail.store((t + 1) % 4, std::memory_order_release);
  return true;
}
void p() { int h = head.load(std::memory_order_relaxed); buf[h] = 7; head.store(h + 1, std::memory_order_release); }
void c() { int v = 3; bool ok = pop(v); if (head.load() == 1) ok = true; if (ok) { int r = buf[0]; } }
int main() { std::thread a(p), b(c); a.join(); b.join(); }
`,
    "X86 Mine\n(* 1:EAX is v, 1:EBX is ok, 1:ECX is r *)\n{ buf_0=0; head=0; tail=0; }\n P0 | P1 ;\n MOV EAX,[head] | MOV EAX,$3 ;\n MOV [buf_0],$7 | MOV EDX,[tail] ;\n MOV [head],$1 | MOV EDX,[head] ;\n | CMP EDX,$0 ;\n | JNE L2 ;\n | MOV EBX,$0 ;\n | JMP L1 ;\n | L2: MOV EAX,[buf_0] ;\n | MOV [tail],$1 ;\n | MOV EBX,$1 ;\n | L1: MOV EDX,[head] ;\n | CMP EDX,$1 ;\n | JNE L3 ;\n | MOV EBX,$1 ;\n | L3: CMP EBX,$0 ;\n | JE END ;\n | MOV ECX,[buf_0] ;\n | END: ;\nlocations [1:EAX]\nexists (~1:EBX=0 /\\ 1:ECX=0)\n"],
  ["an index that is a sum with the number of a thread", `#include <atomic>
#include <thread>
int buf[4];
std::atomic<int> head{0};
void p(int i) { int h = head.load(); buf[h + i] = 7; head.store(h + 1); }
void c() { if (head.load() == 1) { int r = buf[1]; } }
int main() { std::thread a(p, 1), b(c); a.join(); b.join(); }
`,
    "X86 Mine\n(* 1:EAX is head in its condition, 1:EBX is r *)\n{ buf_1=0; head=0; }\n P0 | P1 ;\n MOV EAX,[head] | MOV EAX,[head] ;\n MOV [buf_1],$7 | CMP EAX,$1 ;\n MOV EAX,$1 | JNE END ;\n XCHG [head],EAX | MOV EBX,[buf_1] ;\n | END: ;\nexists (1:EAX=1 /\\ 1:EBX=0)\n"],
  ["a ring buffer whose next index is chosen by a relation", `#include <atomic>
#include <thread>
class Q {
  static const int N = 4;
  volatile int buf[N];
  std::atomic<int> w{0}, r{0};
public:
  bool enqueue(int v) { int i = w.load(std::memory_order_relaxed); int n = (i + 1 < N) ? i + 1 : 0; if (n == r.load(std::memory_order_acquire)) return false; buf[i] = v; w.store(n, std::memory_order_release); return true; }
  int dequeue() { int i = r.load(std::memory_order_relaxed); if (i == w.load(std::memory_order_acquire)) return -1; int v = buf[i]; r.store(i + 1 < N ? i + 1 : 0, std::memory_order_release); return v; }
};
Q q; int got;
void p() { q.enqueue(9); }
void c() { int v = q.dequeue(); if (v != -1) got = v; }
int main() { std::thread a(p), b(c); a.join(); b.join(); assert(got == 0 || got == 9); }
`,
    "X86 Mine\n(* 1:EAX is v, 1:EBX is v_2, 1:ECX is got *)\n{ q_buf_0=0; q_w=0; q_r=0; }\n P0 | P1 ;\n MOV EAX,[q_w] | MOV EDX,[q_r] ;\n MOV EAX,[q_r] | MOV EDX,[q_w] ;\n CMP EAX,$1 | CMP EDX,$0 ;\n JNE L2 | JNE L2 ;\n JMP L1 | MOV EAX,$4294967295 ;\n L2: MOV [q_buf_0],$9 | JMP L1 ;\n MOV [q_w],$1 | L2: MOV EBX,[q_buf_0] ;\n L1: | MOV [q_r],$1 ;\n | MOV EAX,EBX ;\n | L1: CMP EAX,$4294967295 ;\n | JE END ;\n | MOV ECX,EAX ;\n | END: ;\nforall (1:ECX=0 \\/ 1:ECX=9)\n"],
  ["a ring buffer by a pointer, with a macro of a mask", `#include <stdatomic.h>
#include <stdbool.h>
#include <pthread.h>
#define CAP 8
#define MASK (CAP - 1)
typedef struct { int data[CAP]; _Atomic unsigned head; _Atomic unsigned tail; } ring_t;
static ring_t ring;
static bool ring_push(ring_t *r, int v) {
  unsigned h = atomic_load_explicit(&r->head, memory_order_relaxed);
  unsigned t = atomic_load_explicit(&r->tail, memory_order_acquire);
  if (h - t == CAP) return false;
  r->data[h & MASK] = v;
  atomic_store_explicit(&r->head, h + 1, memory_order_release);
  return true;
}
static bool ring_pop(ring_t *r, int *out) {
  unsigned t = atomic_load_explicit(&r->tail, memory_order_relaxed);
  unsigned h = atomic_load_explicit(&r->head, memory_order_acquire);
  if (h == t) return false;
  *out = r->data[t & MASK];
  atomic_store_explicit(&r->tail, t + 1, memory_order_release);
  return true;
}
static void *producer(void *arg) { ring_push(&ring, 5); return NULL; }
static void *consumer(void *arg) { int v; while (!ring_pop(&ring, &v)) ; return NULL; }
int main(void) { pthread_t a, b; pthread_create(&a, NULL, producer, NULL); pthread_create(&b, NULL, consumer, NULL); pthread_join(a, NULL); pthread_join(b, NULL); return 0; }
`,
    "X86 Mine\n(* 0:EAX is t, 1:EAX is h, 1:EBX is ring_pop_result, 1:ECX is v *)\n(* every wait ends: 1:EBX=1 *)\n{ ring_data_0=0; ring_head=0; ring_tail=0; }\n P0 | P1 ;\n MOV EBX,[ring_head] | MOV EDX,[ring_tail] ;\n MOV EAX,[ring_tail] | MOV EAX,[ring_head] ;\n CMP EAX,$4294967288 | CMP EAX,$0 ;\n JNE L2 | JNE L2 ;\n JMP L1 | MOV EBX,$0 ;\n L2: MOV [ring_data_0],$5 | JMP L1 ;\n MOV [ring_head],$1 | L2: MOV ECX,[ring_data_0] ;\n L1: | MOV [ring_tail],$1 ;\n | MOV EBX,$1 ;\n | L1: ;\nlocations [0:EAX]\nexists (1:EBX=1 /\\ ~1:EAX=0 /\\ 1:ECX=0)\n"],
  ["a ring buffer with a constant that is computed", `#include <atomic>
#include <thread>
constexpr size_t N = 8;
constexpr size_t MASK = N - 1;
int buf[N];
std::atomic<size_t> head{0}, tail{0};
void p() { size_t h = head.load(std::memory_order_relaxed); buf[h & MASK] = 4; head.store(h + 1, std::memory_order_release); }
void c() { size_t t = tail.load(std::memory_order_relaxed); while (head.load(std::memory_order_acquire) == t) ; int r = buf[t & MASK]; tail.store(t + 1, std::memory_order_release); }
int main() { std::thread a(p), b(c); a.join(); b.join(); }
`,
    "X86 Mine\n(* 1:EAX is head after its loop, 1:EBX is r *)\n(* every wait ends: ~1:EAX=0 *)\n{ buf_0=0; head=0; tail=0; }\n P0 | P1 ;\n MOV EAX,[head] | MOV ECX,[tail] ;\n MOV [buf_0],$4 | MOV EAX,[head] ;\n MOV [head],$1 | MOV EBX,[buf_0] ;\n | MOV [tail],$1 ;\nexists (~1:EAX=0 /\\ 1:EBX=0)\n"],
  ["an exchange of a relation in an `if` in another one", `#include <atomic>
#include <thread>
std::atomic<int> x{0}, y{0}; int p;
void t0(){ int r0=y.load(std::memory_order_relaxed); int r1=0; if (r0==1) if (x.exchange(2)>1) r1=1; }
void t1(){ y.store(1,std::memory_order_relaxed); int r2=x.load(std::memory_order_relaxed); }
`,
    "X86 Mine\n(* 0:EAX is r0, 0:EBX is r1, 0:ECX is x_compared, 1:EAX is r2 *)\n{ x=0; y=0; }\n P0 | P1 ;\n MOV EAX,[y] | MOV [y],$1 ;\n MOV EBX,$0 | MOV EAX,[x] ;\n CMP EAX,$1 | ;\n JNE END | ;\n MOV ECX,$2 | ;\n XCHG [x],ECX | ;\n CMP ECX,$2 | ;\n JNE END | ;\n MOV EBX,$1 | ;\n END: | ;\nlocations [0:EAX; 0:EBX; 0:ECX; 1:EAX]\nexists (true)\n"],
  ["an exchange that is compared for equality after a relation", `#include <atomic>
#include <thread>
std::atomic<int> x{0}, y{0}; int p;
void t0(){ int r0=y.load(std::memory_order_relaxed); int r1=0; if (r0>=1 && x.exchange(2)==1) r1=1; }
void t1(){ y.store(1,std::memory_order_relaxed); int r2=x.load(std::memory_order_relaxed); }
`,
    "X86 Mine\n(* 0:EAX is r0, 0:EBX is r1, 1:EAX is r2 *)\n{ x=0; y=0; }\n P0 | P1 ;\n MOV EAX,[y] | MOV [y],$1 ;\n MOV EBX,$0 | MOV EAX,[x] ;\n CMP EAX,$1 | ;\n JNE END | ;\n MOV ECX,$2 | ;\n XCHG [x],ECX | ;\n CMP ECX,$1 | ;\n JNE END | ;\n MOV EBX,$1 | ;\n END: | ;\nlocations [0:EAX; 0:EBX; 1:EAX]\nexists (true)\n"],
  ["a lock and a pointer of one object", `#include <atomic>
#include <mutex>
#include <thread>
struct Data{int x;};
struct Lazy{ std::atomic<Data*> p{nullptr}; std::mutex m; Data* get(){ Data* q=p.load(std::memory_order_acquire); if(q==nullptr){ std::lock_guard<std::mutex> g(m); q=p.load(std::memory_order_relaxed); if(q==nullptr){ q=new Data; q->x=1; p.store(q,std::memory_order_release);} } return q; } };
Lazy l1;
void a(){ Data* d=l1.get(); d->x=5; }
void b(){ Data* d=l1.get(); int r1=d->x; }
`,
    "X86 Mine\n(* 0:EAX is q, 0:EBX is l1_m at its lock, 0:ECX is d, 1:EAX is q, 1:EBX is l1_m at its lock, 1:ECX is d, 1:EDX is r1 *)\n(* every wait ends: 0:EBX=0 /\\ 1:EBX=0 *)\n{ Data_x=0; l1_p=0; l1_m=0; }\n P0 | P1 ;\n MOV EAX,[l1_p] | MOV EAX,[l1_p] ;\n CMP EAX,$0 | CMP EAX,$0 ;\n JNE L2 | JNE L2 ;\n MOV EBX,$1 | MOV EBX,$1 ;\n XCHG [l1_m],EBX | XCHG [l1_m],EBX ;\n MOV EAX,[l1_p] | MOV EAX,[l1_p] ;\n CMP EAX,$0 | CMP EAX,$0 ;\n JNE L3 | JNE L3 ;\n MOV EAX,$1 | MOV EAX,$1 ;\n MOV [Data_x],$1 | MOV [Data_x],$1 ;\n MOV [l1_p],EAX | MOV [l1_p],EAX ;\n L3: MOV EDX,$0 | L3: MOV ESI,$0 ;\n XCHG [l1_m],EDX | XCHG [l1_m],ESI ;\n L2: MOV ECX,EAX | L2: MOV ECX,EAX ;\n MOV [Data_x],$5 | MOV EDX,[Data_x] ;\nlocations [0:EAX; 0:ECX; 1:EAX; 1:ECX; l1_p; Data_x]\nexists (0:EBX=0 /\\ 1:EBX=0 /\\ 1:EDX=0)\n"],
  ["a static lock of two objects, and one pointer", `#include <atomic>
#include <mutex>
#include <thread>
struct Data{int x;}; std::atomic<Data*> p{nullptr};
struct Getter{ static std::mutex m; Data* get(){ Data* q=p.load(std::memory_order_acquire); if(q==nullptr){ std::lock_guard<std::mutex> g(m); q=p.load(std::memory_order_relaxed); if(q==nullptr){ q=new Data; q->x=1; p.store(q,std::memory_order_release);} } return q; } };
std::mutex Getter::m;
Getter g1, g2;
void a(){ Data* d=g1.get(); int r0=d->x; }
void b(){ Data* d=g2.get(); int r1=d->x; }
`,
    "X86 Mine\n(* 0:EAX is q, 0:EBX is m at its lock, 0:ECX is d, 0:EDX is r0, 1:EAX is q, 1:EBX is m at its lock, 1:ECX is d, 1:EDX is r1 *)\n(* every wait ends: 0:EBX=0 /\\ 1:EBX=0 *)\n(* a thread finds Data_x not yet set: 0:EDX=0 \\/ 1:EDX=0 *)\n{ Data_x=0; p=0; m=0; }\n P0 | P1 ;\n MOV EAX,[p] | MOV EAX,[p] ;\n CMP EAX,$0 | CMP EAX,$0 ;\n JNE L2 | JNE L2 ;\n MOV EBX,$1 | MOV EBX,$1 ;\n XCHG [m],EBX | XCHG [m],EBX ;\n MOV EAX,[p] | MOV EAX,[p] ;\n CMP EAX,$0 | CMP EAX,$0 ;\n JNE L3 | JNE L3 ;\n MOV EAX,$1 | MOV EAX,$1 ;\n MOV [Data_x],$1 | MOV [Data_x],$1 ;\n MOV [p],EAX | MOV [p],EAX ;\n L3: MOV ESI,$0 | L3: MOV ESI,$0 ;\n XCHG [m],ESI | XCHG [m],ESI ;\n L2: MOV ECX,EAX | L2: MOV ECX,EAX ;\n MOV EDX,[Data_x] | MOV EDX,[Data_x] ;\nlocations [0:EAX; 0:ECX; 1:EAX; 1:ECX; p; Data_x]\n~exists (0:EBX=0 /\\ 1:EBX=0 /\\ (0:EDX=0 \\/ 1:EDX=0))\n"],
  ["a lock and a pointer outside of two objects", `#include <atomic>
#include <mutex>
#include <thread>
struct Data{int x;}; std::atomic<Data*> p{nullptr}; std::mutex m;
struct Getter{ int k; Data* get(){ Data* q=p.load(std::memory_order_acquire); if(q==nullptr){ std::lock_guard<std::mutex> g(m); q=p.load(std::memory_order_relaxed); if(q==nullptr){ q=new Data; q->x=1; p.store(q,std::memory_order_release);} } return q; } };
Getter g1, g2;
void a(){ Data* d=g1.get(); int r0=d->x; }
void b(){ Data* d=g2.get(); int r1=d->x; }
`,
    "X86 Mine\n(* 0:EAX is q, 0:EBX is m at its lock, 0:ECX is d, 0:EDX is r0, 1:EAX is q, 1:EBX is m at its lock, 1:ECX is d, 1:EDX is r1 *)\n(* every wait ends: 0:EBX=0 /\\ 1:EBX=0 *)\n(* a thread finds Data_x not yet set: 0:EDX=0 \\/ 1:EDX=0 *)\n{ Data_x=0; p=0; m=0; }\n P0 | P1 ;\n MOV EAX,[p] | MOV EAX,[p] ;\n CMP EAX,$0 | CMP EAX,$0 ;\n JNE L2 | JNE L2 ;\n MOV EBX,$1 | MOV EBX,$1 ;\n XCHG [m],EBX | XCHG [m],EBX ;\n MOV EAX,[p] | MOV EAX,[p] ;\n CMP EAX,$0 | CMP EAX,$0 ;\n JNE L3 | JNE L3 ;\n MOV EAX,$1 | MOV EAX,$1 ;\n MOV [Data_x],$1 | MOV [Data_x],$1 ;\n MOV [p],EAX | MOV [p],EAX ;\n L3: MOV ESI,$0 | L3: MOV ESI,$0 ;\n XCHG [m],ESI | XCHG [m],ESI ;\n L2: MOV ECX,EAX | L2: MOV ECX,EAX ;\n MOV EDX,[Data_x] | MOV EDX,[Data_x] ;\nlocations [0:EAX; 0:ECX; 1:EAX; 1:ECX; p; Data_x]\n~exists (0:EBX=0 /\\ 1:EBX=0 /\\ (0:EDX=0 \\/ 1:EDX=0))\n"],
  ["an object that is declared with its class", `#include <atomic>
#include <mutex>
#include <thread>
struct Data{int x;};
struct Lazy{ std::atomic<Data*> p{nullptr}; std::mutex m; Data* get(){ Data* q=p.load(std::memory_order_acquire); if(q==nullptr){ std::lock_guard<std::mutex> g(m); q=p.load(std::memory_order_relaxed); if(q==nullptr){ q=new Data; q->x=1; p.store(q,std::memory_order_release);} } return q; } } l1;
void a(){ Data* d=l1.get(); int r0=d->x; }
void b(){ Data* d=l1.get(); int r1=d->x; }
`,
    "X86 Mine\n(* 0:EAX is q, 0:EBX is l1_m at its lock, 0:ECX is d, 0:EDX is r0, 1:EAX is q, 1:EBX is l1_m at its lock, 1:ECX is d, 1:EDX is r1 *)\n(* every wait ends: 0:EBX=0 /\\ 1:EBX=0 *)\n(* a thread finds Data_x not yet set: 0:EDX=0 \\/ 1:EDX=0 *)\n{ Data_x=0; l1_p=0; l1_m=0; }\n P0 | P1 ;\n MOV EAX,[l1_p] | MOV EAX,[l1_p] ;\n CMP EAX,$0 | CMP EAX,$0 ;\n JNE L2 | JNE L2 ;\n MOV EBX,$1 | MOV EBX,$1 ;\n XCHG [l1_m],EBX | XCHG [l1_m],EBX ;\n MOV EAX,[l1_p] | MOV EAX,[l1_p] ;\n CMP EAX,$0 | CMP EAX,$0 ;\n JNE L3 | JNE L3 ;\n MOV EAX,$1 | MOV EAX,$1 ;\n MOV [Data_x],$1 | MOV [Data_x],$1 ;\n MOV [l1_p],EAX | MOV [l1_p],EAX ;\n L3: MOV ESI,$0 | L3: MOV ESI,$0 ;\n XCHG [l1_m],ESI | XCHG [l1_m],ESI ;\n L2: MOV ECX,EAX | L2: MOV ECX,EAX ;\n MOV EDX,[Data_x] | MOV EDX,[Data_x] ;\nlocations [0:EAX; 0:ECX; 1:EAX; 1:ECX; l1_p; Data_x]\n~exists (0:EBX=0 /\\ 1:EBX=0 /\\ (0:EDX=0 \\/ 1:EDX=0))\n"],
  ["a lock and a pointer of an object that is not copied", `#include <atomic>
#include <mutex>
#include <thread>
struct Data{int x;};
struct Lazy{ std::atomic<Data*> p{nullptr}; std::mutex m; Lazy() = default; Lazy(const Lazy&) = delete; ~Lazy() = default; Data* get(){ Data* q=p.load(std::memory_order_acquire); if(q==nullptr){ std::lock_guard<std::mutex> g(m); q=p.load(std::memory_order_relaxed); if(q==nullptr){ q=new Data; q->x=1; p.store(q,std::memory_order_release);} } return q; } };
static Lazy lazy;
void a(){ Data* d=lazy.get(); int r0=d->x; }
void b(){ Data* d=lazy.get(); int r1=d->x; }
`,
    "X86 Mine\n(* 0:EAX is q, 0:EBX is lazy_m at its lock, 0:ECX is d, 0:EDX is r0, 1:EAX is q, 1:EBX is lazy_m at its lock, 1:ECX is d, 1:EDX is r1 *)\n(* every wait ends: 0:EBX=0 /\\ 1:EBX=0 *)\n(* a thread finds Data_x not yet set: 0:EDX=0 \\/ 1:EDX=0 *)\n{ Data_x=0; lazy_p=0; lazy_m=0; }\n P0 | P1 ;\n MOV EAX,[lazy_p] | MOV EAX,[lazy_p] ;\n CMP EAX,$0 | CMP EAX,$0 ;\n JNE L2 | JNE L2 ;\n MOV EBX,$1 | MOV EBX,$1 ;\n XCHG [lazy_m],EBX | XCHG [lazy_m],EBX ;\n MOV EAX,[lazy_p] | MOV EAX,[lazy_p] ;\n CMP EAX,$0 | CMP EAX,$0 ;\n JNE L3 | JNE L3 ;\n MOV EAX,$1 | MOV EAX,$1 ;\n MOV [Data_x],$1 | MOV [Data_x],$1 ;\n MOV [lazy_p],EAX | MOV [lazy_p],EAX ;\n L3: MOV ESI,$0 | L3: MOV ESI,$0 ;\n XCHG [lazy_m],ESI | XCHG [lazy_m],ESI ;\n L2: MOV ECX,EAX | L2: MOV ECX,EAX ;\n MOV EDX,[Data_x] | MOV EDX,[Data_x] ;\nlocations [0:EAX; 0:ECX; 1:EAX; 1:ECX; lazy_p; Data_x]\n~exists (0:EBX=0 /\\ 1:EBX=0 /\\ (0:EDX=0 \\/ 1:EDX=0))\n"],
  ["an exchange of a relation after `||`", `#include <atomic>
#include <mutex>
#include <thread>
std::atomic<int> x{0}, y{0};
void t0(){ int r1=0; int r0 = y.load(); if (r0<1 || x.exchange(2)>1) r1=1; }
void t1(){ y.store(1); int r2=x.load(); }
`,
    "X86 Mine\n(* 0:EAX is r1, 0:EBX is r0, 0:ECX is x_compared, 1:EAX is r2 *)\n{ x=0; y=0; }\n P0 | P1 ;\n MOV EAX,$0 | MOV EBX,$1 ;\n MOV EBX,[y] | XCHG [y],EBX ;\n CMP EBX,$0 | MOV EAX,[x] ;\n JNE L1 | ;\n MOV EAX,$1 | ;\n JMP END | ;\n L1: MOV ECX,$2 | ;\n XCHG [x],ECX | ;\n CMP ECX,$2 | ;\n JNE END | ;\n MOV EAX,$1 | ;\n END: | ;\nlocations [0:EAX; 0:EBX; 0:ECX; 1:EAX]\nexists (true)\n"],
  ["a static lock of a template of one class", `#include <atomic>
#include <mutex>
#include <thread>
struct Data{int x;};
template<typename T> struct Lazy { inline static std::atomic<Data*> p{nullptr}; inline static std::mutex m; Data* get(){ std::lock_guard<std::mutex> g(m); Data* q = p.load(); if (q == nullptr) { q = new Data; q->x = 1; p.store(q); } return q; } };
Lazy<int> l1;
void a(){ Data* d=l1.get(); int r0=d->x; }
void b(){ Data* d=l1.get(); int r1=d->x; }
`,
    "X86 Mine\n(* 0:EAX is m at its lock, 0:EBX is q, 0:ECX is d, 0:EDX is r0, 1:EAX is m at its lock, 1:EBX is q, 1:ECX is d, 1:EDX is r1 *)\n(* every wait ends: 0:EAX=0 /\\ 1:EAX=0 *)\n(* a thread finds Data_x not yet set: 0:EDX=0 \\/ 1:EDX=0 *)\n{ Data_x=0; p=0; m=0; }\n P0 | P1 ;\n MOV EAX,$1 | MOV EAX,$1 ;\n XCHG [m],EAX | XCHG [m],EAX ;\n MOV EBX,[p] | MOV EBX,[p] ;\n CMP EBX,$0 | CMP EBX,$0 ;\n JNE L2 | JNE L2 ;\n MOV EBX,$1 | MOV EBX,$1 ;\n MOV [Data_x],$1 | MOV [Data_x],$1 ;\n MOV ESI,EBX | MOV ESI,EBX ;\n XCHG [p],ESI | XCHG [p],ESI ;\n L2: MOV ECX,EBX | L2: MOV ECX,EBX ;\n MOV ESI,$0 | MOV ESI,$0 ;\n XCHG [m],ESI | XCHG [m],ESI ;\n MOV EDX,[Data_x] | MOV EDX,[Data_x] ;\nlocations [0:EBX; 0:ECX; 1:EBX; 1:ECX; p; Data_x]\n~exists (0:EAX=0 /\\ 1:EAX=0 /\\ (0:EDX=0 \\/ 1:EDX=0))\n"],
];
// A program of rounds, whose loop does `sets` before the threads run.
const makeRounds = (sets, code) => `#include <semaphore.h>
sem_t go1, go2, done;
volatile int x, y, z;
int a, b;
void first() { while (true) { sem_wait(&go1); ${code} sem_post(&done); } }
void second() { while (1) { sem_wait(&go2); y = 1; b = x; sem_post(&done); } }
int main() {
  sem_init(&go1, 0, 0); sem_init(&go2, 0, 0); sem_init(&done, 0, 0);
  std::thread t1(first), t2(second);
  for (int i = 0; i < 1000; ++i) { ${sets} sem_post(&go1); sem_post(&go2); sem_wait(&done); sem_wait(&done); if (a == 0 && b == 0) puts("reordered"); }
}
`;
const ROUNDS = makeRounds("x = y = 0;", "x = 1; a = y;");
MADE.push(["rounds of threads in C++", ROUNDS,
  "X86 Mine\n(* 0:EAX is a, 1:EAX is b *)\n{ x=0; y=0; }\n P0          | P1          ;\n MOV [x],$1  | MOV [y],$1  ;\n MOV EAX,[y] | MOV EAX,[x] ;\nexists (0:EAX=0 /\\ 1:EAX=0)\n"]);
MADE.push(["what `main` does while a thread runs", `std::atomic<int> x{0}, y{0};
int r1;
int main() {
  std::thread t([] { x.store(1, std::memory_order_release); r1 = y.load(std::memory_order_acquire); });
  y.store(1, std::memory_order_release);
  const int r2 = x.load(std::memory_order_acquire);  // Not { x.join(); }.
  t.join();
  assert(r1 == 1 || r2 == 1);
}
`, "X86 Mine\n(* 0:EAX is r1, 1:EAX is r2 *)\n{ x=0; y=0; }\n P0          | P1          ;\n MOV [x],$1  | MOV [y],$1  ;\n MOV EAX,[y] | MOV EAX,[x] ;\nforall (0:EAX=1 \\/ 1:EAX=1)\n"]);
MADE.push(["a `main` that waits, beside threads of pthreads", `#include <pthread.h>
atomic_int ready; int data;
void *f(void *arg) { data = 42; atomic_store_explicit(&ready, 1, memory_order_release); return NULL; }
int main(void) {
  pthread_t t;
  pthread_create(&t, NULL, f, NULL);
  while (!atomic_load_explicit(&ready, memory_order_acquire)) ;
  int r = data;
  pthread_join(t, NULL);
  assert(r == 42);
}
`, "X86 Mine\n(* 1:EAX is ready after its loop, 1:EBX is r *)\n(* every wait ends: ~1:EAX=0 *)\n{ ready=0; data=0; }\n P0             | P1              ;\n MOV [data],$42 | MOV EAX,[ready] ;\n MOV [ready],$1 | MOV EBX,[data]  ;\nforall (1:EAX=0 \\/ 1:EBX=42)\n"]);
// A lock that no thread uses, or the only function: a program, the test that is made of it, and the sentence on its threads.
const TAKEN = "No thread uses the lock: here each of two threads takes it, adds to `counter`, and gives it back.";
const LOCK = "void lock() { while (locked.exchange(true, std::memory_order_acquire)) ; }\nvoid unlock() { locked.store(false, std::memory_order_release); }\n";
const makeLocked = (name, counter = "counter") => `X86 Mine
(* 0:EAX is ${name} at its lock, 1:EAX is ${name} at its lock *)
(* every wait ends: 0:EAX=0 /\\ 1:EAX=0 *)
(* an addition to ${counter} is lost: ~${counter}=2 *)
{ ${name}=0; ${counter}=0; }
`;
const makeSpin = (name, counter) => `${makeLocked(name, counter)} P0                | P1                ;
 MOV EAX,$1        | MOV EAX,$1        ;
 XCHG [${name}],EAX | XCHG [${name}],EAX ;
 MOV EBX,[${counter}] | MOV EBX,[${counter}] ;
 ADD EBX,$1        | ADD EBX,$1        ;
 MOV [${counter}],EBX | MOV [${counter}],EBX ;
 MOV [${name}],$0   | MOV [${name}],$0   ;
locations [${name}]
~exists (0:EAX=0 /\\ 1:EAX=0 /\\ ~${counter}=2)
`;
const makeFull = (name) => `${makeLocked(name)} P0                    | P1                    ;
 MOV EAX,$1            | MOV EAX,$1            ;
 XCHG [${name}],EAX | XCHG [${name}],EAX ;
 MOV EBX,[counter]     | MOV EBX,[counter]     ;
 ADD EBX,$1            | ADD EBX,$1            ;
 MOV [counter],EBX     | MOV [counter],EBX     ;
 MOV EBX,$0            | MOV EBX,$0            ;
 XCHG [${name}],EBX | XCHG [${name}],EBX ;
locations [${name}]
~exists (0:EAX=0 /\\ 1:EAX=0 /\\ ~counter=2)
`;
const USED = [
  ["two functions of a lock", `std::atomic<bool> locked{false};\n${LOCK}`, makeSpin("locked", "counter"), TAKEN],
  ["a lock beside a variable `counter`", `std::atomic<bool> locked{false};\nint counter2;\n${LOCK}void try_lock() { int counter = 0; }\n`,
    makeSpin("locked", "counter3"), TAKEN.replace("counter", "counter3")],
  ["the only function, which takes a lock", `std::atomic<bool> locked{false};\nint number = 0;\n${LOCK}void inc() { lock(); number++; unlock(); }\n`,
    makeSpin("locked", "number"), "The program starts no threads: here two threads run `inc`."],
  ["a lock by a pointer to a structure", `#include <stdatomic.h>
typedef struct { atomic_flag f; } spinlock_t;
void spin_init(spinlock_t *l) { atomic_flag_clear(&l->f); }
void spin_lock(spinlock_t *l) { while (atomic_flag_test_and_set(&l->f)) ; }
int spin_trylock(spinlock_t *l) { return !atomic_flag_test_and_set(&l->f); }
void spin_unlock(spinlock_t *l) { atomic_flag_clear(&l->f); }
`, makeFull("the_lock_f"), TAKEN],
  ["a lock by a reference", `struct spinlock { std::atomic<int> v{0}; };\nvoid acquire(spinlock& l) { while (l.v.exchange(1)) ; }\nvoid release(spinlock& l) { l.v.store(0); }\n`,
    makeFull("the_lock_v"), TAKEN],
  ["a lock by a pointer to an atomic variable", "#include <stdatomic.h>\natomic_int the_lock12;\nvoid enter(atomic_int *l) { while (atomic_exchange(l, 1)) ; }\nvoid leave(atomic_int *l) { atomic_store(l, 0); }\n",
    makeFull("the_lock12"), TAKEN],
  ["a lock that is a class", `class SpinLock {
  std::atomic_flag held = ATOMIC_FLAG_INIT;
public:
  void lock() { while (held.test_and_set()) {} }
  bool try_lock() { return !held.test_and_set(); }
  void unlock() { held.clear(); }
};
`, makeFull("the_lock_held"), TAKEN],
  ["Peterson's lock", `std::atomic<int> flag[2], turn;
void lock(int me) { int other = 1 - me; flag[me] = 1; turn = other; while (flag[other] == 1 && turn == other) ; }
void unlock(int me) { flag[me] = 0; }
`, `X86 Mine
(* 0:EAX is flag_1 after its loop, 0:EBX is turn after its loop, 1:EAX is flag_0 after its loop, 1:EBX is turn after its loop *)
(* every wait ends: (~0:EAX=1 \\/ ~0:EBX=1) /\\ (~1:EAX=1 \\/ ~1:EBX=0) *)
(* an addition to counter is lost: ~counter=2 *)
{ flag_0=0; flag_1=0; turn=0; counter=0; }
 P0                    | P1                    ;
 MOV ECX,$1            | MOV ECX,$1            ;
 XCHG [flag_0],ECX     | XCHG [flag_1],ECX     ;
 MOV ECX,$1            | MOV ECX,$0            ;
 XCHG [turn],ECX       | XCHG [turn],ECX       ;
 MOV EAX,[flag_1]      | MOV EAX,[flag_0]      ;
 CMP EAX,$1            | CMP EAX,$1            ;
 JNE L2                | JNE L2                ;
 MOV EBX,[turn]        | MOV EBX,[turn]        ;
 L2: MOV ECX,[counter] | L2: MOV ECX,[counter] ;
 ADD ECX,$1            | ADD ECX,$1            ;
 MOV [counter],ECX     | MOV [counter],ECX     ;
 MOV ECX,$0            | MOV ECX,$0            ;
 XCHG [flag_0],ECX     | XCHG [flag_1],ECX     ;
locations [turn]
~exists ((~0:EAX=1 \\/ ~0:EBX=1) /\\ (~1:EAX=1 \\/ ~1:EBX=0) /\\ ~counter=2)
`, `${TAKEN} They are the threads 0 and 1.`],
  // What does not wait takes no lock by these names, and what only loads neither: these are two threads.
  ["a store buffer of threads with names of a lock", "std::atomic<int> x, y;\nvoid enter() { x = 1; int a = y; }\nvoid leave() { y = 1; int b = x; }\n",
    "X86 Mine\n(* 0:EAX is a, 1:EAX is b *)\n{ x=0; y=0; }\n P0 | P1 ;\n MOV EBX,$1 | MOV EBX,$1 ;\n XCHG [x],EBX | XCHG [y],EBX ;\n MOV EAX,[y] | MOV EAX,[x] ;\nexists (0:EAX=0 /\\ 1:EAX=0)\n", undefined],
  ["data that is released and acquired", `std::atomic<int> flag; int data;
void release() { data = 1; flag.store(1, std::memory_order_release); }
void acquire() { while (flag.load(std::memory_order_acquire) == 0) ; int r = data; }
`, `X86 Mine
(* 1:EAX is flag after its loop, 1:EBX is r *)
(* every wait ends: ~1:EAX=0 *)
{ flag=0; data=0; }
 P0            | P1             ;
 MOV [data],$1 | MOV EAX,[flag] ;
 MOV [flag],$1 | MOV EBX,[data] ;
exists (~1:EAX=0 /\\ 1:EBX=0)
`, undefined],
];

const OF_SEVERAL = ": pointers are rewritten if one object of their type is made, by one thread";
const OF_PLACES = ": an object is made in a statement of its own, in no loop and no branch";
const OF_SEMAPHORES = "`sem_t go1, go2, done;`: the page follows semaphores that are 0 or 1 at all times, or begin and end rounds of threads, or write a loop that waits for a variable, as `while (x == 0) ;`";
const OF_USERS = ": no thread uses this lock, so write functions that do, each as `lock(); counter++; unlock();`";
const OF_SHARED = ": load the pointer into a variable of the thread first";
// A program, and why it is refused, with the part of the program at which that is.
const REFUSED = [
  ["a load of a relation after a variable of the thread", `#include <atomic>
#include <mutex>
#include <thread>
std::atomic<int> x{0}, y{0};
void t0(){ int r1=0; int r0 = y.load(); if (r0==1 && x.load()>=1) { r1=1; } else { x.store(3); } }
void t1(){ x.store(1); y.store(1); x.store(2); int r2=x.load(); }
`,
    "`if (r0==1 && x.load()>=1)`: what `<` and its like compare is loaded before the other parts of a condition here, so write two `if`, one in the other", "if (r0==1 && x.load()>=1)"],
  ["two threads that make objects", `${HEAD}${WRITER}${READER}int main() { std::thread a(w), b(w), c(r); a.join(); b.join(); c.join(); }\n`, `\`new Data\`${OF_SEVERAL}`, "new Data"],
  ["threads in a loop", `${HEAD}${WRITER}int main() { std::vector<std::thread> t; for (int i = 0; i < 2; i++) t.emplace_back(w); for (auto& it : t) it.join(); }\n`,
    `\`new Data\`${OF_PLACES}`, "new Data"],
  ["a lambda of two threads", `${HEAD}int main() { auto w = [] { Data* d = new Data; d->x = 1; g.store(d); }; std::thread a(w), b(w); a.join(); b.join(); }\n`,
    `\`new Data\`${OF_SEVERAL}`, "new Data"],
  ["a function that two others call", `${HEAD}void make() { Data* d = new Data; g.store(d); }\nvoid a() { make(); }\nvoid b() { make(); }\n`, `\`new Data\`${OF_SEVERAL}`, "new Data"],
  ["two objects", `${HEAD}void w() { Data* d = new Data; g.store(d); Data* e = new Data{5}; g.store(e); }\n${READER}`, `\`new Data{5}\`${OF_SEVERAL}`, "new Data{5}"],
  ["an object in a branch", `${HEAD}void w() { if (!g.load()) { Data* d = new Data; g.store(d); } }\n${READER}`, `\`new Data\`${OF_PLACES}`, "new Data"],
  ["an object in a branch without braces", `${HEAD}void w() { if (!g.load()) g.store(new Data); }\n${READER}`, `\`new Data\`${OF_PLACES}`, "new Data"],
  ["an object in a loop", `${HEAD}void w() { for (int i = 0; i < 2; i++) { Data* d = new Data; g.store(d); } }\n${READER}`, `\`new Data\`${OF_PLACES}`, "new Data"],
  ["a member by a shared pointer", `${HEAD}${WRITER}void r() { int a = g.load()->x; }\n`, `\`->x\`${OF_SHARED}`, "->x; }\n"],
  ["a member by a shared pointer that is volatile", `struct Data { int x; };\nData* volatile g;\nvoid w() { Data* d = new Data; d->x = 1; g = d; }\nvoid r() { int a = g->x; }\n`,
    `\`g->x\`${OF_SHARED}`, "g->x"],
  ["an array", `${HEAD}void w() { Data* d = new Data[2]; g.store(d); }\n`, "`new Data[`: an object is made with constants and variables", "new Data["],
  ["a sum of a pointer", `${HEAD}${WRITER}void r() { Data* d = g.load(); d++; int a = d->x; }\n`, "`d+`: a pointer is null or of the object here, without sums and indices", "d++"],
  ["an index of a pointer", `${HEAD}${WRITER}void r() { Data* d = g.load(); int a = d[0].x; }\n`, "`d[`: a pointer is null or of the object here, without sums and indices", "d[0]"],
  ["a name that is taken", `int Data_x;\n${HEAD}${WRITER}${READER}`, "`new Data`: its members are variables here, and the program has another `Data_x`", "new Data"],
  ["an object that is freed", `${HEAD}${WRITER}void r() { Data* d = g.exchange(nullptr); if (d) { int a = d->x; delete d; } }\n`,
    "`delete`: what is freed may be made anew, which is not rewritten", "delete"],
  ["a member that is an array", `struct Data { int x[2]; };\nstd::atomic<Data*> g;\nvoid w() { Data* d = new Data; g.store(d); }\n`,
    "`struct Data { int x[2]; };`: an object that pointers are of has integers, `bool` and such pointers", "struct Data"],
  ["a fault elsewhere, at its place", `${HEAD}${WRITER}void r() { Data* d = g.load(); int a = d->x; goto L; }\n`, "`goto L`: `goto` and labels are not rewritten", "goto L"],
  ["rounds that begin with other words", makeRounds("x = y = 0;", "x = 1; a = y; z = z + 1;"), "`main`: its passes begin alike if it sets `z` before the threads",
    "\n  sem_init(&go1"],
  ["a semaphore that is not posted", ROUNDS.replace("sem_post(&go2);", ""), OF_SEMAPHORES, "sem_t go1"],
  ["a semaphore that is posted in a round", makeRounds("x = y = 0;", "x = 1; sem_post(&go2); a = y;"), OF_SEMAPHORES, "sem_t go1"],
  ["a round that ends early", makeRounds("x = y = 0;", "x = 1; if (y) break; a = y;"), OF_SEMAPHORES, "sem_t go1"],
  ["pointers of two types with one name", `${HEAD}struct B { int x; };\nstd::atomic<B*> h;\nvoid w() { Data* n = new Data; n->x = 5; g = n; }\nvoid r() { B* n = new B; n->x = 6; h = n; }\n`,
    "`B*`: give it a name that no pointer of another type has", "B* n"],
  ["an object of a lambda in a loop without braces", `${HEAD}int main() { std::thread t[2]; for (int i = 0; i < 2; ++i) t[i] = std::thread([] { Data* d = new Data{1}; g = d; }); for (auto& it : t) it.join(); }\n`,
    `\`new Data{1}\`${OF_PLACES}`, "new Data{1}"],
  ["a member that a constructor gives from another one", `struct D { int x; int y; D(int a) : x(a), y(x) {} };\nstd::atomic<D*> p;\nvoid w() { p = new D(4); }\nvoid r() { D* q = p; }\n`,
    "`struct D { int x; int y; D(int a) : x(a)..`: a constructor gives members its arguments or constants, and no argument has a value by default", "struct D"],
  ["a member without a sign", `struct D { unsigned x; };\nstd::atomic<D*> p;\nvoid w() { D* d = new D; p = d; d->x = 1; }\nvoid r() { D* q = p; if (q) assert(q->x - 1 < 5); }\n`,
    "`assert(D_x - 1 < 5)`: here words below 0 are compared or computed with, and types without a sign are in the program, so that it is not sure what holds",
    "assert(q->x"],
  ["rounds that keep a number", ROUNDS.replace("{ while (true)", "{ int n = 0; while (true)").replace("a = y;", "n++; x = n; a = y;"), OF_SEMAPHORES, "sem_t go1"],
  ["rounds after which something is asked", ROUNDS.replace('puts("reordered"); }', 'puts("reordered"); } assert(x == 2);'), OF_SEMAPHORES, "sem_t go1"],
  ["a semaphore that ends a round and begins another one", ROUNDS.replaceAll("&done", "&go1"), OF_SEMAPHORES, "sem_t go1"],
  ["a semaphore that begins with 1", ROUNDS.replace("sem_init(&done, 0, 0)", "sem_init(&done, 0, 1)"), OF_SEMAPHORES, "sem_t go1"],
  ["a function of two threads with rounds", ROUNDS.replace("t2(second)", "t2(first)"), OF_SEMAPHORES, "sem_t go1"],
  ["a thread without rounds beside others", ROUNDS.replace("int main", "void third() { z = 1; }\nint main").replace("t2(second)", "t2(second), t3(third)"), OF_SEMAPHORES, "sem_t go1"],
  ["a plain loop beside `main`", "bool stop = false;\nint main() { std::thread t([] { while (!stop) {} }); stop = true; t.join(); }\n",
    "`while (!stop)`: a compiler may load a plain variable only once, so make it atomic or volatile", "while (!stop)"],
  ["a `main` that waits and asserts while a thread may wait", `std::atomic<bool> ready{false}; std::atomic<bool> go{false}; int data = 0, result = 0;
void worker() { while (!go.load(std::memory_order_acquire)) ; result = data; ready.store(true, std::memory_order_release); }
int main() { std::thread t(worker); data = 21; go.store(true, std::memory_order_release);
  while (!ready.load(std::memory_order_acquire)) ; assert(result == 21); t.join(); }
`, "`assert(result == 21)`: another thread may still wait then, in a loop or for a lock, so load it into a variable here, as `int r0 = x;`, and assert that at the end of `main`", "assert(result"],
  ["a `main` that does something before its last thread", "std::atomic<int> x;\nvoid f() { x = 1; }\nint main() { std::thread a(f); x = 2; std::thread b(f); a.join(); b.join(); }\n",
    "`x = 2`: while threads run, `main` only starts others and joins them, so give this to a thread of its own", "x = 2"],
  ["a `main` that returns before it joins", "std::atomic<int> x;\nvoid f() { x = 1; }\nint main() { std::thread a(f); if (x) return 1; a.join(); }\n",
    "`if (x)`: `main` joins all threads before", "if (x)"],
  ["a lock that may not be taken", "std::atomic<bool> held;\nbool acquire() { return !held.exchange(true); }\nvoid release() { held = false; }\n",
    `\`bool acquire() { return !held.exchange(t..\`${OF_USERS}`, "bool acquire"],
  ["a lock by a number that may be that of a lock", "std::atomic<int> locks[2];\nvoid lock(int which_lock) { while (locks[which_lock].exchange(1)) ; }\nvoid unlock(int which_lock) { locks[which_lock] = 0; }\n",
    `\`void lock(int which_lock) { while (locks..\`${OF_USERS}`, "void lock"],
  ["a question of a lock that no thread uses", `std::atomic<bool> locked{false}; int n;\n${LOCK}// lw: exists (n=1)\n`,
    `\`void lock() { while (locked.exchange(tru..\`${OF_USERS}`, "void lock"],
  ["two locks", "std::atomic<int> r, w;\nvoid read_lock() { while (r.exchange(1)) ; }\nvoid read_unlock() { r = 0; }\nvoid write_lock() { while (w.exchange(1)) ; }\nvoid write_unlock() { w = 0; }\n",
    "`void read_lock() { while (r.exchange(1))..`: no thread uses these locks, so write functions that do, each as `lock(); counter++; unlock();`", "void read_lock"],
  ["a directive of a name that it does not define", "std::atomic<int> x;\nvoid P0() {\n#ifdef FENCE\n  x = 1;\n#endif\n}\nvoid P1() { int a = x; }\n",
    "`#ifdef FENCE`: leave out `#if` and its like, with what is not compiled", "#ifdef"],
  ["a directive outside of functions", "#ifdef WIDE\nstd::atomic<long> x;\n#else\nstd::atomic<int> x;\n#endif\nvoid P0() { x = 1; }\nvoid P1() { int a = x; }\n",
    "`#ifdef WIDE`: leave out `#if` and its like, with what is not compiled", "#ifdef"],
  ["Dekker's lock", `std::atomic<bool> flag[2];
std::atomic<int> turn;
void lock(int me) { int other = 1 - me; flag[me] = true; while (flag[other]) { if (turn != me) { flag[me] = false; while (turn != me) ; flag[me] = true; } } }
void unlock(int me) { turn = 1 - me; flag[me] = false; }
`, "`while (flag[other])`: a loop that stores before it looks again is not rewritten, so write only the entry, as `flag[0] = 1; if (flag[1] == 0) { n++; }`", "while (flag[other])"],
  ["a class that no thread uses", "class Counter {\n  std::atomic<int> n{0};\npublic:\n  void inc() { n++; }\n};\n",
    "`class Counter`: no thread uses it, so write functions that do, as `void P0() { .. }`", "class Counter"],
  // Without an object the reason is that of a program without pointers.
  ["no object", `${HEAD}void r() { Data* d = g.load(); }\n`, "`std::atomic<Data*> g{nullptr};`: a pointer is rewritten only if the program makes one object of its type, so write variables in place of pointers, and of what they point to",
    "std::atomic<Data*> g"],
  ["a delay that stores", `#include <atomic>
int X, Y; 
class Rand { int s; public: Rand(int seed) { s = seed; } int next() { X = 2; return s; } };
void t1() { Rand r(1); while (r.next() % 8 != 0) {} X = 1; int a = Y; }
void t2() { Y = 1; int a = X; }
`,
    "`Rand(int seed) { s = seed; }`: a constructor has no parameters, and only sets variables of its object to constants", "Rand(int seed) { s = seed; } i"],
  ["a loop of fences", `#include <atomic>
int X, Y; 
void t1() { for (int i = 0; i < 1000; i++) { asm volatile("mfence"); } X = 1; int a = Y; }
void t2() { Y = 1; int a = X; }
`,
    "`for (int i = 0; i < 1000; i++)`: count to 2 or 3 here, since a thread of a test has 32 instructions at most", "for (int i = 0; i < 1000; i++)"],
  ["a loop that counts to a shared variable", `#include <atomic>
std::atomic<int> X, Y; int n = 5;
void t1() { for (int i = 0; i < X; i++) ; X = 1; int a = Y; }
void t2() { Y = 1; int a = X; for (int i = 0; 1; i++) ; }
`,
    "`for (int i = 0; i < X; i++)`: write out each pass of a loop. `tools/from_c.py` follows loops", "for (int i = 0; i < X; i++) ; "],
  ["a method that stores to a variable that another method hides", `#include <atomic>
std::atomic<int> X, Y;
class Gate { int s; public: Gate() { s = 0; } int f() { int X = 3; return X; } int g() { X = 1; return 0; } };
void t1() { Gate r; while (r.g() != 0) {} int a = Y; }
void t2() { Y = 1; int a = X; }
`,
    "`Gate r`: an object of a class is declared outside of functions", "Gate r; while (r.g() != 0) {} "],
  ["an object that also gives a value", `#include <atomic>
std::atomic<int> X, Y;
class Gate { int s; public: Gate() { s = 0; } int f() { s++; return s; } };
Gate r;
void t1() { while (r.f() != 3) {} X = r.f(); int a = Y; }
void t2() { Y = 1; int a = X; }
`,
    "`while (r.f() != 3)`: write out each pass of a loop. `tools/from_c.py` follows loops", "while (r.f() != 3) {} X = r.f("],
  ["a lock with a name of random numbers", `#include <atomic>
std::atomic<int> X, Y;
void t1() { RandomLock r; while (r.f() != 3) {} r.unlock(); X = 1; int a = Y; }
void t2() { Y = 1; int a = X; }
`,
    "`RandomLock r`: a statement is one load, store, exchange, addition or fence, or an `if`", "RandomLock r; while (r.f() != "],
  ["a delay that fences", `#include <atomic>
std::atomic<int> X, Y;
class Gate { int s; public: Gate() { s = 0; } int f() { Y.store(1); return s; } int g() { std::atomic_thread_fence(std::memory_order_seq_cst); return 0; } };
void t1() { Gate r; while (r.g() != 0) {} X.store(1, std::memory_order_relaxed); int a = Y; }
void t2() { Y = 1; int a = X; }
`,
    "`Gate r`: an object of a class is declared outside of functions", "Gate r; while (r.g() != 0) {} "],
  ["a template of a function", `#include <atomic>
#include <thread>
template<typename T>
T load_relaxed(std::atomic<T>& x) { return x.load(std::memory_order_relaxed); }
std::atomic<int> x{0}, y{0};
void a() { x.store(1, std::memory_order_relaxed); int r = load_relaxed(y); }
void b() { y.store(1, std::memory_order_relaxed); int r = load_relaxed(x); }
`,
    "`template<typename T> T load_relaxed(std:..`: a template of a function is not rewritten, so write the function for its types", "template<typename T>"],
  ["two instances of a template", `#include <atomic>
template<class T> class Box { std::atomic<T> v{0}; public: void set(T x) { v.store(x); } T get() { return v.load(); } };
Box<int> p; Box<long> q;
void a() { p.set(1); int r = q.get(); }
void b() { q.set(1); int r = p.get(); }
`,
    "`Box<long>`: a template is rewritten if all its uses have the same arguments, which are types and constants, as `Queue<int, 2>`", "Box<long> q;"],
  ["a class that makes its own object", `#include <atomic>
#include <mutex>
#include <thread>
class Singleton {
public:
  static Singleton* getInstance() {
    Singleton* tmp = m_instance.load(std::memory_order_relaxed);
    std::atomic_thread_fence(std::memory_order_acquire);
    if (tmp == nullptr) {
      std::lock_guard<std::mutex> lock(m_mutex);
      tmp = m_instance.load(std::memory_order_relaxed);
      if (tmp == nullptr) {
        tmp = new Singleton;
        std::atomic_thread_fence(std::memory_order_release);
        m_instance.store(tmp, std::memory_order_relaxed);
      }
    }
    return tmp;
  }
private:
  static std::atomic<Singleton*> m_instance;
  static std::mutex m_mutex;
};
std::atomic<Singleton*> Singleton::m_instance;
std::mutex Singleton::m_mutex;
`,
    "`class Singleton { public: private: };`: an object that pointers are of has a variable, which a thread may find not yet set", "class Singleton {"],
  ["double-checked locking of a pointer", `#include <atomic>
#include <mutex>
struct Widget { int value; };
std::atomic<Widget*> instance{nullptr};
std::mutex m;
Widget* get() {
  Widget* p = instance.load(std::memory_order_acquire);
  if (p == nullptr) {
    std::lock_guard<std::mutex> lock(m);
    p = instance.load(std::memory_order_relaxed);
    if (p == nullptr) {
      p = new Widget{42};
      instance.store(p, std::memory_order_release);
    }
  }
  return p;
}
void t1() { Widget* w = get(); int a = w->value; }
void t2() { Widget* w = get(); int b = w->value; }
`,
    "`new Widget{42}`: an object is made in a statement of its own, in no loop and no branch", "new Widget{42};"],
  ["an MCS lock", `#include <atomic>
struct QNode { std::atomic<QNode*> next{nullptr}; std::atomic<bool> locked{false}; };
std::atomic<QNode*> tail{nullptr};
void lock(QNode* me) {
  me->next.store(nullptr, std::memory_order_relaxed);
  QNode* prev = tail.exchange(me, std::memory_order_acq_rel);
  if (prev) { me->locked.store(true, std::memory_order_relaxed); prev->next.store(me, std::memory_order_release); while (me->locked.load(std::memory_order_acquire)) ; }
}
void unlock(QNode* me) {
  QNode* next = me->next.load(std::memory_order_acquire);
  if (!next) { QNode* e = me; if (tail.compare_exchange_strong(e, nullptr)) return; while (!(next = me->next.load(std::memory_order_acquire))) ; }
  next->locked.store(false, std::memory_order_release);
}
int n;
void t1() { QNode q; lock(&q); n++; unlock(&q); }
void t2() { QNode q; lock(&q); n++; unlock(&q); }
`,
    "`std::atomic<QNode*> next{nullptr};`: a pointer is rewritten only if the program makes one object of its type, so write variables in place of pointers, and of what they point to", "std::atomic<QNode*> next{nullp"],
  ["Treiber's stack", `#include <atomic>
template<typename T>
class Stack {
  struct Node { T data; Node* next; Node(const T& d) : data(d), next(nullptr) {} };
  std::atomic<Node*> head;
public:
  void push(const T& data) {
    Node* n = new Node(data);
    n->next = head.load(std::memory_order_relaxed);
    while (!head.compare_exchange_weak(n->next, n, std::memory_order_release, std::memory_order_relaxed)) ;
  }
};
int main() { Stack<int> s; s.push(1); s.push(2); s.push(3); }
`,
    "`new Node(data)`: an object is made in a function, not in a method of a class, which others may call, too", "new Node(data);"],
  ["Michael and Scott's queue", `#include <atomic>
struct Node { int value; std::atomic<Node*> next; Node(int v) : value(v), next(nullptr) {} };
std::atomic<Node*> head, tail;
void enqueue(int v) {
  Node* node = new Node(v);
  while (true) {
    Node* last = tail.load();
    Node* next = last->next.load();
    if (last == tail.load()) {
      if (next == nullptr) {
        if (last->next.compare_exchange_weak(next, node)) { tail.compare_exchange_strong(last, node); return; }
      } else tail.compare_exchange_strong(last, next);
    }
  }
}
void t1() { enqueue(1); }
void t2() { enqueue(2); }
`,
    "`new Node(v)`: pointers are rewritten if one object of their type is made, by one thread", "new Node(v);"],
  ["hazard pointers", `#include <atomic>
struct Node { int v; Node* next; };
std::atomic<Node*> head;
std::atomic<void*> hp[2];
void reader() {
  Node* p;
  do { p = head.load(std::memory_order_relaxed); hp[0].store(p); } while (p != head.load());
  int v = p->v;
  hp[0].store(nullptr, std::memory_order_release);
}
void reclaimer() {
  Node* old = head.exchange(nullptr);
  if (hp[0].load() != old) delete old;
}
`,
    "`Node* next;`: a pointer is rewritten only if the program makes one object of its type, so write variables in place of pointers, and of what they point to", "Node* next; };"],
  ["a `;` that is missing in a line", `#include <atomic>
std::atomic<int> x{0}, y{0};
void a() { x.store(1) int r = y.load(); }
void b() { y.store(1); int r = x.load(); }
`,
    "`x.store(1) int r = y.load()`: a `;` is missing in it", "x.store(1) int r = y.load(); }"],
  ["a CLH lock", `#include <atomic>
struct Node { std::atomic<bool> locked; };
std::atomic<Node*> tail;
thread_local Node* my; thread_local Node* pred;
void lock() { my = new Node(); my->locked = true; pred = tail.exchange(my); while (pred->locked) ; }
void unlock() { my->locked = false; my = pred; }
int n;
void t1() { lock(); n++; unlock(); }
void t2() { lock(); n++; unlock(); }
`,
    "`new Node()`: pointers are rewritten if one object of their type is made, by one thread", "new Node(); my->locked = true;"],
  ["Dekker's lock and an assertion", `#include <atomic>
#include <thread>
std::atomic<bool> flag0{false}, flag1{false};
std::atomic<int> turn{0};
int counter = 0;
void p0() {
  flag0.store(true, std::memory_order_relaxed);
  while (flag1.load(std::memory_order_relaxed)) {
    if (turn.load(std::memory_order_relaxed) != 0) {
      flag0.store(false, std::memory_order_relaxed);
      while (turn.load(std::memory_order_relaxed) != 0) ;
      flag0.store(true, std::memory_order_relaxed);
    }
  }
  counter++;
  turn.store(1, std::memory_order_release);
  flag0.store(false, std::memory_order_release);
}
void p1() {
  flag1.store(true, std::memory_order_relaxed);
  while (flag0.load(std::memory_order_relaxed)) {
    if (turn.load(std::memory_order_relaxed) != 1) {
      flag1.store(false, std::memory_order_relaxed);
      while (turn.load(std::memory_order_relaxed) != 1) ;
      flag1.store(true, std::memory_order_relaxed);
    }
  }
  counter++;
  turn.store(0, std::memory_order_release);
  flag1.store(false, std::memory_order_release);
}
int main() { std::thread a(p0), b(p1); a.join(); b.join(); assert(counter == 2); }
`,
    "`while (flag1.load(std::memory_order_rela..`: a loop that stores before it looks again is not rewritten, so write only the entry, as `flag[0] = 1; if (flag[1] == 0) { n++; }`", "while (flag1.load(std::memory_"],
  ["Dekker's lock without an addition", `#include <atomic>
#include <thread>
std::atomic<bool> flag0{false}, flag1{false};
std::atomic<int> turn{0};
int counter = 0;
void p0() {
  flag0.store(true, std::memory_order_relaxed);
  while (flag1.load(std::memory_order_relaxed)) {
    if (turn.load(std::memory_order_relaxed) != 0) {
      flag0.store(false, std::memory_order_relaxed);
      while (turn.load(std::memory_order_relaxed) != 0) ;
      flag0.store(true, std::memory_order_relaxed);
    }
  }
  counter = 1;
  turn.store(1, std::memory_order_release);
  flag0.store(false, std::memory_order_release);
}
void p1() {
  flag1.store(true, std::memory_order_relaxed);
  while (flag0.load(std::memory_order_relaxed)) {
    if (turn.load(std::memory_order_relaxed) != 1) {
      flag1.store(false, std::memory_order_relaxed);
      while (turn.load(std::memory_order_relaxed) != 1) ;
      flag1.store(true, std::memory_order_relaxed);
    }
  }
  counter = 1;
  turn.store(0, std::memory_order_release);
  flag1.store(false, std::memory_order_release);
}
int main() { std::thread a(p0), b(p1); a.join(); b.join(); }
`,
    "`while (flag1.load(std::memory_order_rela..`: a loop that stores before it looks again is not rewritten, so write only the entry, as `flag[0] = 1; if (flag[1] == 0) { n++; }`", "while (flag1.load(std::memory_"],
  ["a bit of a word that has others", `unsigned long w;
int n;
void P0(void) { w = 2; if (!test_and_set_bit(0, &w)) n = 1; }
void P1(void) { if (!test_and_set_bit(0, &w)) n = 2; }
`,
    "`if (!test_and_set_bit(0, &w))`: of bits only bit 0 of a word is set and cleared here, which is only 0 or 1 then", "if (!test_and_set_bit(0, &w)) "],
  ["another bit than the first", `unsigned long w;
int n;
void P0(void) { if (!test_and_set_bit(3, &w)) n = 1; }
void P1(void) { if (!test_and_set_bit(0, &w)) n = 2; }
`,
    "`if (!test_and_set_bit(3, &w))`: of bits only bit 0 of a word is set and cleared here, which is only 0 or 1 then", "if (!test_and_set_bit(3, &w)) "],
  ["a bit that is cleared in a word", `unsigned long w;
void P0(void) { clear_bit(0, &w); int a = READ_ONCE(w); }
void P1(void) { WRITE_ONCE(w, 5); }
`,
    "`clear_bit(0, &w)`: of bits only bit 0 of a word is set and cleared here, which is only 0 or 1 then", "clear_bit(0, &w); int a = READ"],
  ["a macro in place of `rand`", `#include <atomic>
#include <thread>
std::atomic<int> x{0}, y{0};
#define rand() (x.store(2), 0)
int r1, r2;
void a() { while (rand() % 8 != 0); x.store(1, std::memory_order_relaxed); r1 = y.load(std::memory_order_relaxed); }
void b() { y.store(1, std::memory_order_relaxed); r2 = x.load(std::memory_order_relaxed); }
int main() { std::thread t(a), u(b); t.join(); u.join(); }
`,
    "`while (rand() % 8 != 0)`: write out each pass of a loop. `tools/from_c.py` follows loops", "while (rand("],
  ["a function `rand` of its own", `#include <atomic>
#include <thread>
std::atomic<int> x{0}, y{0};
int r1, r2;
int rand() noexcept { x.store(2); return 0; }
void a() { while (rand() % 8 != 0) {} x.store(1, std::memory_order_relaxed); r1 = y.load(std::memory_order_relaxed); }
void b() { y.store(1, std::memory_order_relaxed); r2 = x.load(std::memory_order_relaxed); }
int main() { std::thread t(a), u(b); t.join(); u.join(); }
`,
    "`while (rand() % 8 != 0)`: write out each pass of a loop. `tools/from_c.py` follows loops", "while (rand("],
  ["a generator that is a macro", `#include <atomic>
#include <thread>
std::atomic<int> X{0}, Y{0};
int r1, r2;
struct Base { int next() { X.store(2); return 0; } };
#define MyRandom Base
MyRandom ra;
void a() { while (ra.next() % 8 != 0) {} X.store(1, std::memory_order_relaxed); r1 = Y.load(std::memory_order_relaxed); }
void b() { Y.store(1, std::memory_order_relaxed); r2 = X.load(std::memory_order_relaxed); }
int main() { std::thread t(a), u(b); t.join(); u.join(); }
`,
    "`#define MyRandom Base`: write its text where it is used", "#define MyRa"],
  ["an unused class that sets a variable before the threads", `#include <thread>
volatile int x, y; int r1, r2;
class U { public: static inline int z = (x = 5, 1); std::vector<int> v; };
void a() { x = 1; r1 = y; }
void b() { y = 1; r2 = x; }
int main() { std::thread t(a), u(b); t.join(); u.join(); }
`,
    "`static inline int z = (x = 5, 1);`: a class has integers, `bool`, mutexes, arrays of these, and functions", "static inlin"],
  ["an unused variable whose initial value sets another one", `#include <thread>
volatile int x, y; int r1, r2;
double w = x = 3;
void a() { x = 1; r1 = y; }
void b() { y = 1; r2 = x; }
int main() { std::thread t(a), u(b); t.join(); u.join(); }
`,
    "`double w = x = 3;`: a variable is an integer, as `int r0`", "double w = x"],
  ["an unused variable with a value in braces that sets another one", `#include <thread>
volatile int x, y; int r1, r2;
double w{ x = 4.0 };
void a() { x = x + 1; r1 = y; }
void b() { y = 1; r2 = x; }
int main() { std::thread t(a), u(b); t.join(); u.join(); }
`,
    "`double w{ x = 4.0 };`: a variable is an integer, as `int r0`", "double w{ x "],
  ["an unused class with an object of another class", `#include <atomic>
#include <thread>
std::atomic<int> x{0}, y{0}; int r1, r2;
struct Init { Init() { x = 7; } };
struct Hook { double v; static inline Init self; };
void a() { x.store(1, std::memory_order_relaxed); r1 = y.load(std::memory_order_relaxed); }
void b() { y.store(1, std::memory_order_relaxed); r2 = x.load(std::memory_order_relaxed); }
int main() { std::thread t(a), u(b); t.join(); u.join(); }
`,
    "`Init() { x = 7; }`: a constructor has no parameters, and only sets variables of its object to constants", "Init() { x ="],
  ["a delay that never ends", `#include <atomic>
#include <thread>
#include <cstdlib>
std::atomic<int> x{0}, y{0}; int r1, r2;
void a() { x.store(1, std::memory_order_relaxed); while (rand() >= 0); r1 = y.load(std::memory_order_relaxed); }
void b() { y.store(1, std::memory_order_relaxed); r2 = x.load(std::memory_order_relaxed); }
int main() { std::thread t(a), u(b); t.join(); u.join(); }
`,
    "`while (rand() >= 0)`: write out each pass of a loop. `tools/from_c.py` follows loops", "while (rand("],
  ["a delay that waits for a number that is never drawn", `#include <atomic>
#include <thread>
#include <cstdlib>
std::atomic<int> x{0}, y{0}; int r1, r2;
void a() { x.store(1, std::memory_order_relaxed); while (rand() % 8 != 8); r1 = y.load(std::memory_order_relaxed); }
void b() { y.store(1, std::memory_order_relaxed); r2 = x.load(std::memory_order_relaxed); }
int main() { std::thread t(a), u(b); t.join(); u.join(); }
`,
    "`while (rand() % 8 != 8)`: write out each pass of a loop. `tools/from_c.py` follows loops", "while (rand("],
  ["an object that one thread sets and another one waits for", `#include <atomic>
#include <thread>
std::atomic<int> x{0}, y{0}; int r1, r2;
class Sig { int s; public: Sig() { s = 0; } void post() { s = 1; } int get() { return s; } };
Sig g;
void a() { x.store(1, std::memory_order_relaxed); g.post(); r1 = y.load(std::memory_order_relaxed); }
void b() { y.store(1, std::memory_order_relaxed); while (g.get() == 0) {} r2 = x.load(std::memory_order_relaxed); }
int main() { std::thread t(a), u(b); t.join(); u.join(); }
`,
    "`while (g.get() == 0)`: a compiler may load a plain variable only once, so make it atomic or volatile", "while (g.get"],
  ["an object that counts threads", `#include <atomic>
#include <thread>
int n; std::atomic<int> x{0}, y{0}; int r1, r2;
class Bar { int s = 0; public: void arrive() { s++; } int count() { return s; } };
Bar bar;
void a() { x.store(1, std::memory_order_relaxed); bar.arrive(); while (bar.count() < 2) {} r1 = y.load(std::memory_order_relaxed); }
void b() { y.store(1, std::memory_order_relaxed); bar.arrive(); while (bar.count() < 2) {} r2 = x.load(std::memory_order_relaxed); }
int main() { std::thread t(a), u(b); t.join(); u.join(); }
`,
    "`while (bar.count() < 2)`: a compiler may load a plain variable only once, so make it atomic or volatile", "while (bar.c"],
  ["an object of a function that its lambdas share", `#include <atomic>
#include <thread>
std::atomic<int> x{0}, y{0}; int r1, r2;
class Sig { int s; public: Sig() { s = 0; } void post() { s = 1; } int get() { return s; } };
int main() { Sig g; std::thread t([&] { x.store(1, std::memory_order_relaxed); g.post(); r1 = y.load(std::memory_order_relaxed); }), u([&] { y.store(1, std::memory_order_relaxed); while (g.get() == 0) {} r2 = x.load(std::memory_order_relaxed); }); t.join(); u.join(); }
`,
    "`while (g.get() == 0)`: a compiler may load a plain variable only once, so make it atomic or volatile", "while (g.get"],
  ["a class that sets a variable of its namespace, which has the name of a local one", `#include <atomic>
#include <thread>
namespace all {
std::atomic<int> z{0}, y{0}; int r1, r2;
class Gen { int s; public: int next() { z = 5; return s; } int other() { int z = 1; return z; } };
void a() { Gen g; z.store(1, std::memory_order_relaxed); while (g.next() % 8 != 0) {} r1 = y.load(std::memory_order_relaxed); }
void b() { Gen g; y.store(1, std::memory_order_relaxed); while (g.next() % 8 != 0) {} r2 = z.load(std::memory_order_relaxed); }
}
int main() { std::thread t(all::a), u(all::b); t.join(); u.join(); }
`,
    "`Gen g`: an object of a class is declared outside of functions", "Gen g; z.sto"],
  ["an argument of a template that has the name of a parameter in it", `#include <atomic>
#include <thread>
constexpr int K = 5;
template <int N> struct Q { std::atomic<int> flag{0}; void lock(int K) { flag.store(N, std::memory_order_relaxed); } int get() { return flag.load(std::memory_order_relaxed); } };
Q<K> q;
std::atomic<int> y{0}; int r1, r2;
void a() { q.lock(1); r1 = y.load(std::memory_order_relaxed); }
void b() { y.store(1, std::memory_order_relaxed); r2 = q.get(); }
int main() { std::thread t(a), u(b); t.join(); u.join(); }
`,
    "`K`: a use of the template names it, too, so give it another name here", "K) { flag.st"],
  ["a template for one type", `#include <atomic>
#include <thread>
template <typename T> struct Q { std::atomic<T> flag{0}; void lock() { flag.store(1, std::memory_order_relaxed); } T get() { return flag.load(std::memory_order_relaxed); } };
template <> struct Q<int> { std::atomic<int> flag{0}; void lock() { flag.store(3, std::memory_order_relaxed); } int get() { return flag.load(std::memory_order_relaxed); } };
Q<int> q;
std::atomic<int> y{0}; int r1, r2;
void a() { q.lock(); r1 = y.load(std::memory_order_relaxed); }
void b() { y.store(1, std::memory_order_relaxed); r2 = q.get(); }
int main() { std::thread t(a), u(b); t.join(); u.join(); }
`,
    "`template <> struct Q<int> { std::atomic<..`: a template is rewritten if it is one class, with methods outside of it, so write this for its types", "template <> "],
  ["a constructor that sets a variable outside of its class", `#include <atomic>
#include <thread>
std::atomic<int> z{0};
struct Flag { std::atomic<int> v; Flag(); void set(); };
Flag::Flag() { v = 3; z = 4; }
void Flag::set() { v.store(1, std::memory_order_release); }
Flag f, g; int r1, r2;
void a() { f.set(); r1 = g.v.load(std::memory_order_acquire); }
void b() { g.set(); r2 = z.load(std::memory_order_acquire); }
int main() { std::thread t(a), u(b); t.join(); u.join(); }
`,
    "`Flag() { v = 3; z = 4; }`: a constructor has no parameters, and only sets variables of its object to constants", "Flag() { v ="],
  ["a loop over all words of an array", `#include <atomic>
#include <array>
#include <thread>
constexpr int N = 2;
std::array<std::atomic<int>, N> flag; int n;
void w(int i) { flag[i].store(1, std::memory_order_relaxed); if (!flag[1 - i].load(std::memory_order_relaxed)) n++; }
int main() { for (auto& f : flag) f = 0; std::thread t(w, 0), u(w, 1); t.join(); u.join(); }
`,
    "`for (auto& f : flag)`: set the words of an array by their indices, as `for (int i = 0; i < 2; i++) flag[i] = 0;`", "for (auto& f"],
  ["a bit of a word that begins with others", `unsigned long w = 2; int r1, r2;
void P0(void) { r1 = test_and_set_bit(0, &w); }
void P1(void) { r2 = test_and_set_bit(0, &w); }
`,
    "`r1 = test_and_set_bit(0, &w)`: of bits only bit 0 of a word is set and cleared here, which is only 0 or 1 then", "r1 = test_an"],
  ["a generator that begins with a function of the program", `#include <atomic>
#include <random>
#include <thread>
std::atomic<int> x{0}, y{0}; int r1, r2;
int seed() { x.store(2); return 1; }
void a() { std::mt19937 g(seed()); while (g() % 8 != 0) ; x.store(1, std::memory_order_relaxed); r1 = y.load(std::memory_order_relaxed); }
void b() { y.store(1, std::memory_order_relaxed); r2 = x.load(std::memory_order_relaxed); }
int main() { std::thread t(a), u(b); t.join(); u.join(); }
`,
    "`std::mt19937 g(seed())`: call a function in a statement of its own, as `int r = f();`", "std::mt19937"],
  ["a class that calls a function of the program", `#include <atomic>
#include <thread>
std::atomic<int> x{0}, y{0}; int r1, r2;
void touch(int q) { x.store(q); }
class Gen { unsigned s; public: Gen(int k) { s = k; } unsigned next() { touch(1); s = s * 5; return s; } };
void a() { Gen g(1); while (g.next() % 8 != 0) {} r1 = y.load(std::memory_order_relaxed); }
void b() { Gen g(2); y.store(1, std::memory_order_relaxed); while (g.next() % 8 != 0) {} r2 = x.load(std::memory_order_relaxed); }
int main() { std::thread t(a), u(b); t.join(); u.join(); }
`,
    "`Gen(int k) { s = k; }`: a constructor has no parameters, and only sets variables of its object to constants", "Gen(int k) {"],
  ["a loop that stores again with another order", `#include <atomic>
#include <thread>
std::atomic<int> x{0}, y{0}; int counter;
void a() { x.store(1); while (y.load()) { x.store(0); x.store(1, std::memory_order_relaxed); } counter++; x.store(0); }
void b() { y.store(1); while (x.load()) { y.store(0); y.store(1, std::memory_order_relaxed); } counter++; y.store(0); }
int main() { std::thread t(a), u(b); t.join(); u.join(); }
`,
    "`while (y.load())`: a loop that stores before it looks again is not rewritten, so write only the entry, as `flag[0] = 1; if (flag[1] == 0) { n++; }`", "while (y.loa"],
  ["a loop that stores again without its fence", `#include <atomic>
#include <thread>
std::atomic<int> x{0}, y{0}; int counter;
void a() { x.store(1, std::memory_order_relaxed); std::atomic_thread_fence(std::memory_order_seq_cst); while (y.load()) { x.store(0, std::memory_order_relaxed); x.store(1, std::memory_order_relaxed); } counter++; x.store(0); }
void b() { y.store(1, std::memory_order_relaxed); std::atomic_thread_fence(std::memory_order_seq_cst); while (x.load()) { y.store(0, std::memory_order_relaxed); y.store(1, std::memory_order_relaxed); } counter++; y.store(0); }
int main() { std::thread t(a), u(b); t.join(); u.join(); }
`,
    "`while (y.load())`: a loop that stores before it looks again is not rewritten, so write only the entry, as `flag[0] = 1; if (flag[1] == 0) { n++; }`", "while (y.loa"],
  ["an array in place of its first word", `#include <stdatomic.h>
atomic_int w[2]; int r1, r2;
void P0(void) { atomic_store_explicit(w, 1, memory_order_relaxed); r1 = atomic_load_explicit(w + 1, memory_order_relaxed); }
void P1(void) { atomic_store_explicit(&w[1], 1, memory_order_relaxed); r2 = atomic_load_explicit(w, memory_order_relaxed); }
`,
    "`atomic_store_explicit(w, 1, memory_order..`: an array is shared, and its indices are constants in it, as `a[0]`", "atomic_store"],
  ["a ring buffer that a third thread sets back", `#include <atomic>
#include <thread>
int buf[4];
std::atomic<int> head{0}, tail{0};
bool push(int v) {
  int h = head.load(std::memory_order_relaxed);
  int next = (h + 1) % 4;
  if (next == tail.load(std::memory_order_acquire)) return false;
  buf[h] = v;
  head.store(next, std::memory_order_release);
  return true;
}
bool pop(int& v) {
  int t = tail.load(std::memory_order_relaxed);
  if (t == head.load(std::memory_order_acquire)) return false;
  v = buf[t];
  tail.store((t + 1) % 4, std::memory_order_release);
  return true;
}
void reset() { head = 0; }
void p1() { push(1); }
void p2() { int v; pop(v); }
void p3() { reset(); }
int main() { std::thread a(p1), b(p2), c(p3); a.join(); b.join(); c.join(); }
`,
    "`int next = (h + 1) % 4`: `h` is no known constant here, since another thread may write `head`", "int next = (h + 1) % 4;"],
  ["a ring buffer that a third thread sets back by a reference", `#include <atomic>
#include <thread>
int buf[4];
std::atomic<int> head{0}, tail{0};
bool push(int v) {
  int h = head.load(std::memory_order_relaxed);
  int next = (h + 1) % 4;
  if (next == tail.load(std::memory_order_acquire)) return false;
  buf[h] = v;
  head.store(next, std::memory_order_release);
  return true;
}
bool pop(int& v) {
  int t = tail.load(std::memory_order_relaxed);
  if (t == head.load(std::memory_order_acquire)) return false;
  v = buf[t];
  tail.store((t + 1) % 4, std::memory_order_release);
  return true;
}
void set(std::atomic<int>& x) { x = 0; }
void p1() { push(1); }
void p2() { int v; pop(v); }
void p3() { set(head); }
int main() { std::thread a(p1), b(p2), c(p3); a.join(); b.join(); c.join(); }
`,
    "`int next = (h + 1) % 4`: `h` is no known constant here, since another thread may write `head`", "int next = (h + 1) % 4;"],
  ["a loop whose function counts if it fails", `#include <atomic>
#include <thread>
std::atomic<int> flag{0}, tries{0};
bool ready() { if (flag.load() == 0) { tries++; return false; } return true; }
int data;
void p1() { data = 1; flag.store(1); }
void p2() { while (!ready()) ; int r = data; }
int main() { std::thread a(p1), b(p2); a.join(); b.join(); }
`,
    "`while (!ready())`: a loop that waits by a function calls one that changes nothing if the loop goes on, and returns constants", "while (!ready()) ; int r"],
  ["a loop whose function counts by a reference if it fails", `#include <atomic>
#include <thread>
std::atomic<int> flag{0};
int n;
bool ready(int& c) { if (flag.load() == 0) { c = c + 1; return false; } return true; }
int data;
void p1() { data = 1; flag.store(1); }
void p2() { int c = 0; while (!ready(c)) ; int r = data; }
int main() { std::thread a(p1), b(p2); a.join(); b.join(); }
`,
    "`while (!ready(c))`: a loop that waits by a function calls one that changes nothing if the loop goes on, and returns constants", "while (!ready(c)) ; int "],
  ["an index that is another one in a branch", `#include <atomic>
#include <thread>
int buf[4];
std::atomic<int> head{0}, x{0};
void p1() {
  int i = 0;
  if (x.load() == 1) { i = 1; head = 2; }
  buf[i] = 5;
}
void p2() { x = 1; int r = buf[0]; int s = buf[1]; }
int main() { std::thread a(p1), b(p2); a.join(); b.join(); }
`,
    "`buf[i] = 5`: an index is a constant, or comes from a variable that only this thread writes, and that has a known constant then", "buf[i] = 5;"],
  ["an index that is counted", `#include <atomic>
#include <thread>
int buf[4];
std::atomic<int> head{0};
void p1() { int i = 0; buf[i++] = 5; buf[i] = 6; head = i; }
void p2() { if (head.load() == 1) { int a = buf[1]; } }
int main() { std::thread a(p1), b(p2); a.join(); b.join(); }
`,
    "`buf[i++] = 5`: an index is a constant, or comes from a variable that only this thread writes, and that has a known constant then", "buf[i++] = 5; buf[i] = 6"],
  ["a variable that has a value after one result only", `#include <atomic>
#include <thread>
std::atomic<int> f{0};
int data;
bool take(int& v) { if (f.load(std::memory_order_acquire) == 1) { v = data; return true; } return false; }
void p1() { data = 3; f.store(1, std::memory_order_release); }
void p2() { int v; if (take(v)) { f.store(2); } assert(v == 3); }
int main() { std::thread a(p1), b(p2); a.join(); b.join(); }
`,
    "`assert(v == 3)`: `v` has no value on some path to here", "assert(v == 3); }"],
  ["an index after the first 16", `#include <atomic>
#include <thread>
int a[100];
std::atomic<int> f{40};
void p1() { int i = f.load(); a[i] = 3; }
void p2() { int r = a[40]; int k = 0; for (int i = 0; i < 2; i++) { k = i; a[k] = 1; } }
int main() { std::thread x(p1), b(p2); x.join(); b.join(); }
`,
    "`a[i] = 3`: of an array the first 16 words are read", "a[i] = 3; }"],
  ["a relation of words below 0", `#include <atomic>
#include <thread>
std::atomic<int> x{0}, y{0};
void p1() { x = -1; y = 1; }
void p2() { if (x.load() < 0) y = 2; }
int main() { std::thread a(p1), b(p2); a.join(); b.join(); }
`,
    "`if (x.load() < 0)`: the page writes a condition as equalities, and here the words that are compared are too many, or not known, so compare by `==`", "if (x.load() < 0) y = 2;"],
  ["a relation of a load after an exchange", `#include <atomic>
#include <thread>
std::atomic<int> x{0}, y{0}, l{0};
void p1() { x = 1; y = 3; }
void p2() { if (l.exchange(1) == 0 && y.load() > 1) { int r = x; } }
int main() { std::thread a(p1), b(p2); a.join(); b.join(); }
`,
    "`if (l.exchange(1) == 0 && y.load() > 1)`: what `<` and its like compare is loaded before the other parts of a condition here, so write two `if`, one in the other", "if (l.exchange(1) == 0 &"],
  ["a relation of a sum", `#include <atomic>
#include <thread>
std::atomic<int> x{0}, y{0};
void p1() { x = 1; y = 3; }
void p2() { int r = y; r = r + 1; if (r > 1) { int s = x; } }
int main() { std::thread a(p1), b(p2); a.join(); b.join(); }
`,
    "`if (r > 1)`: the page writes a condition as equalities, and here the words that are compared are too many, or not known, so compare by `==`", "if (r > 1) { int s = x; "],
  ["a relation of words without a sign that are great", `#include <atomic>
#include <thread>
std::atomic<unsigned> x{0}, y{5};
void p1() { x = 1; y = 3; y = 4000000000u; }
void p2() { if (y < 4) { int s = x; } }
int main() { std::thread a(p1), b(p2); a.join(); b.join(); }
`,
    "`if (y < 4)`: the page writes a condition as equalities, and here the words that are compared are too many, or not known, so compare by `==`", "if (y < 4) { int s = x; "],
  ["a relation of two variables", `#include <atomic>
#include <thread>
std::atomic<int> x{0}, y{0};
void p1() { x = 1; y = 3; }
void p2() { int a = x; int b = y; if (a < b) { int s = x; } }
int main() { std::thread a(p1), b(p2); a.join(); b.join(); }
`,
    "`if (a < b)`: the page writes a condition as equalities, and here the words that are compared are too many, or not known, so compare by `==`", "if (a < b) { int s = x; "],
  ["an object that is made without the lock", `#include <atomic>
#include <mutex>
#include <thread>
struct Data { int x; };
std::atomic<Data*> instance{nullptr};
std::mutex m;
Data* get() {
  Data* p = instance.load(std::memory_order_acquire);
  if (!p) {
    p = instance.load(std::memory_order_relaxed);
    if (!p) {
      p = new Data;
      p->x = 42;
      instance.store(p, std::memory_order_release);
    }
  }
  return p;
}
void t1() { Data* d = get(); int r = d->x; }
void t2() { Data* d = get(); int r = d->x; }
int main() { std::thread a(t1), b(t2); a.join(); b.join(); }
`,
    "`new Data`: an object is made in a statement of its own, in no loop and no branch", "new Data;"],
  ["an object whose pointer another thread sets to null", `#include <atomic>
#include <mutex>
#include <thread>
struct Data { int x; };
std::atomic<Data*> instance{nullptr};
std::mutex m;
Data* get() {
  Data* p = instance.load(std::memory_order_acquire);
  if (!p) {
    std::lock_guard<std::mutex> lock(m);
    p = instance.load(std::memory_order_relaxed);
    if (!p) {
      p = new Data;
      p->x = 42;
      instance.store(p, std::memory_order_release);
    }
  }
  return p;
}
void t1() { Data* d = get(); int r = d->x; }
void t2() { Data* d = get(); int r = d->x; instance.store(nullptr); }
int main() { std::thread a(t1), b(t2); a.join(); b.join(); }
`,
    "`new Data`: an object is made in a statement of its own, in no loop and no branch", "new Data;"],
  ["an object whose pointer is stored after the branch", `#include <atomic>
#include <mutex>
#include <thread>
struct Data { int x; };
std::atomic<Data*> instance{nullptr};
std::mutex m;
Data* get() {
  Data* p = instance.load(std::memory_order_acquire);
  if (!p) {
    std::lock_guard<std::mutex> lock(m);
    p = instance.load(std::memory_order_relaxed);
    if (!p) {
      p = new Data;
      p->x = 42;
    }
    instance.store(p, std::memory_order_release);
  }
  return p;
}
void t1() { Data* d = get(); int r = d->x; }
void t2() { Data* d = get(); int r = d->x; }
int main() { std::thread a(t1), b(t2); a.join(); b.join(); }
`,
    "`new Data`: an object is made in a statement of its own, in no loop and no branch", "new Data;"],
  ["an object that is made after the guard's block", `#include <atomic>
#include <mutex>
#include <thread>
struct Data { int x; };
std::atomic<Data*> instance{nullptr};
std::mutex m;
Data* get() {
  Data* p = instance.load(std::memory_order_acquire);
  if (!p) {
    { std::lock_guard<std::mutex> lock(m); }
    p = instance.load(std::memory_order_relaxed);
    if (!p) {
      p = new Data;
      p->x = 42;
      instance.store(p, std::memory_order_release);
    }
  }
  return p;
}
void t1() { Data* d = get(); int r = d->x; }
void t2() { Data* d = get(); int r = d->x; }
int main() { std::thread a(t1), b(t2); a.join(); b.join(); }
`,
    "`new Data`: an object is made in a statement of its own, in no loop and no branch", "new Data;"],
  ["an object whose pointer is loaded again into another variable", `#include <atomic>
#include <mutex>
#include <thread>
struct Data { int x; };
std::atomic<Data*> instance{nullptr};
std::mutex m;
Data* get() {
  Data* p = instance.load(std::memory_order_acquire);
  if (!p) {
    std::lock_guard<std::mutex> lock(m);
    Data* q = instance.load(std::memory_order_relaxed);
    if (!p) {
      p = new Data;
      p->x = 42;
      instance.store(p, std::memory_order_release);
    }
  }
  return p;
}
void t1() { Data* d = get(); int r = d->x; }
void t2() { Data* d = get(); int r = d->x; }
int main() { std::thread a(t1), b(t2); a.join(); b.join(); }
`,
    "`new Data`: an object is made in a statement of its own, in no loop and no branch", "new Data;"],
  ["an object that is made if the pointer is not null", `#include <atomic>
#include <mutex>
#include <thread>
struct Data { int x; };
std::atomic<Data*> instance{nullptr};
std::mutex m;
Data* get() {
  Data* p = instance.load(std::memory_order_acquire);
  if (!p) {
    std::lock_guard<std::mutex> lock(m);
    p = instance.load(std::memory_order_relaxed);
    if (p) {
      p = new Data;
      p->x = 42;
      instance.store(p, std::memory_order_release);
    }
  }
  return p;
}
void t1() { Data* d = get(); int r = d->x; }
void t2() { Data* d = get(); int r = d->x; }
int main() { std::thread a(t1), b(t2); a.join(); b.join(); }
`,
    "`new Data`: an object is made in a statement of its own, in no loop and no branch", "new Data;"],
  ["an object whose lock is given back before the store", `#include <atomic>
#include <mutex>
#include <thread>
struct Data { int x; };
std::atomic<Data*> instance{nullptr};
std::mutex m;
Data* get() {
  Data* p = instance.load(std::memory_order_acquire);
  if (!p) {
    std::lock_guard<std::mutex> lock(m);
    p = instance.load(std::memory_order_relaxed);
    if (!p) {
      p = new Data;
      p->x = 42; m.unlock();
      instance.store(p, std::memory_order_release);
    }
  }
  return p;
}
void t1() { Data* d = get(); int r = d->x; }
void t2() { Data* d = get(); int r = d->x; }
int main() { std::thread a(t1), b(t2); a.join(); b.join(); }
`,
    "`new Data`: an object is made in a statement of its own, in no loop and no branch", "new Data;"],
  ["an object whose pointer is stored in a branch", `#include <atomic>
#include <mutex>
#include <thread>
struct Data { int x; };
std::atomic<Data*> instance{nullptr};
std::mutex m;
Data* get() {
  Data* p = instance.load(std::memory_order_acquire);
  if (!p) {
    std::lock_guard<std::mutex> lock(m);
    p = instance.load(std::memory_order_relaxed);
    if (!p) {
      p = new Data;
      if (p->x == 1)             instance.store(p, std::memory_order_release);
    }
  }
  return p;
}
void t1() { Data* d = get(); int r = d->x; }
void t2() { Data* d = get(); int r = d->x; }
int main() { std::thread a(t1), b(t2); a.join(); b.join(); }
`,
    "`new Data`: an object is made in a statement of its own, in no loop and no branch", "new Data;"],
  ["an object whose lock another function gives back", `#include <atomic>
#include <mutex>
#include <thread>
struct Data { int x; };
std::atomic<Data*> instance{nullptr};
std::mutex m;
Data* get() {
  Data* p = instance.load(std::memory_order_acquire);
  if (!p) {
    std::lock_guard<std::mutex> lock(m);
    p = instance.load(std::memory_order_relaxed);
    if (!p) {
      p = new Data;
      p->x = 42;
      instance.store(p, std::memory_order_release);
    }
  }
  return p;
}
void t1() { Data* d = get(); int r = d->x; }
void t3() { m.unlock(); }
void t2() { t3(); Data* d = get(); int r = d->x; }
int main() { std::thread a(t1), b(t2); a.join(); b.join(); }
`,
    "`new Data`: an object is made in a statement of its own, in no loop and no branch", "new Data;"],
  ["double-checked locking, and assertions before the other thread ends", `#include <atomic>
#include <mutex>
#include <thread>
class Singleton {
public:
  static Singleton* getInstance() {
    Singleton* p = instance.load(std::memory_order_acquire);
    if (p == nullptr) {
      std::lock_guard<std::mutex> lock(m);
      p = instance.load(std::memory_order_relaxed);
      if (p == nullptr) {
        p = new Singleton();
        instance.store(p, std::memory_order_release);
      }
    }
    return p;
  }
  int value;
private:
  Singleton() { value = 42; }
  static std::atomic<Singleton*> instance;
  static std::mutex m;
};
std::atomic<Singleton*> Singleton::instance{nullptr};
std::mutex Singleton::m;
void t1() { Singleton* s = Singleton::getInstance(); assert(s->value == 42); }
void t2() { Singleton* s = Singleton::getInstance(); assert(s->value == 42); }
int main() { std::thread a(t1), b(t2); a.join(); b.join(); }
`,
    "`assert(s->value == 42)`: another thread may still wait then, in a loop or for a lock, so load it into a variable here, as `int r0 = x;`, and assert that at the end of `main`", "assert(s->value == 42); "],
  ["a static member with the name of a variable", `#include <atomic>
#include <thread>
class Config {
public:
  static std::atomic<bool> ready;
  static int value;
  static void set() { value = 7; ready.store(true, std::memory_order_release); }
};
std::atomic<bool> Config::ready{false};
int Config::value = 0;
int value = 3;
void t1() { Config::set(); }
void t2() { int r = value; }
int main() { std::thread a(t1), b(t2); a.join(); b.join(); }
`,
    "`static std::atomic<bool> ready;`: a class has integers, `bool`, mutexes, arrays of these, and functions", "static std::atomic<bool>"],
  ["a loop that counts till it ends", `#include <atomic>
#include <thread>
std::atomic<bool> stop{false};
int i;
void w() { while (!stop) ++i; }
int main() { std::thread a(w); stop = true; a.join(); }
`,
    "`while (!stop)`: how often it counts depends on when it ends, so leave out the counting, or write some passes of it", "while (!stop) ++i; }"],
  ["a loop that counts down from one of two numbers", `#include <atomic>
#include <thread>
std::atomic<int> x; int r;
void w() { unsigned int n = 2; if (x) n = 3; while (n--) x++; }
int main() { std::thread a(w), b(w); a.join(); b.join(); }
`,
    "`while (n--)`: how often it counts depends on when it ends, so leave out the counting, or write some passes of it", "while (n--) x++; }"],
  ["a number for rand_r that is loaded, too", `#include <pthread.h>
#include <stdlib.h>
int x, y, r1, r2; unsigned seed1 = 1;
void *a(void *arg) { while (rand_r(&seed1) % 8 != 0) ; x = 1; r1 = y; return 0; }
void *b(void *arg) { y = 1; r2 = x + seed1; return 0; }
int main() { pthread_t t, u; pthread_create(&t, 0, a, 0); pthread_create(&u, 0, b, 0); pthread_join(t, 0); pthread_join(u, 0); if (r1 == 0 && r2 == 0) printf("reorder\\n"); }
`,
    "`while (rand_r(&seed1) % 8 != 0)`: write out each pass of a loop. `tools/from_c.py` follows loops", "while (rand_r(&seed1) % "],
  ["a loop that counts down a number that is loaded before", `#include <atomic>
#include <thread>
std::atomic<int> x; int r;
void w() { int n = 2; while (n-- > 0) x++; r = n; }
void v() { int n = 2; x = n; while (n--) { x = 4; } }
int main() { std::thread a(w), b(v); a.join(); b.join(); }
`,
    "`while (n--)`: write out each pass of a loop. `tools/from_c.py` follows loops", "while (n--) { x = 4; } }"],
  ["a stack by pointers", `#include <atomic>
#include <thread>
struct Node { int value; Node* next; };
std::atomic<Node*> head{nullptr};
void push(int v) {
  Node* n = new Node;
  n->value = v;
  n->next = head.load(std::memory_order_relaxed);
  while (!head.compare_exchange_weak(n->next, n, std::memory_order_release, std::memory_order_relaxed)) ;
}
void t1() { push(1); }
void t2() { push(2); }
int main() { std::thread a(t1), b(t2); a.join(); b.join(); }
`,
    "`new Node`: pointers are rewritten if one object of their type is made, by one thread", "new Node;"],
  ["a lock of a queue of waiting threads", `#include <atomic>
#include <thread>
struct Node { std::atomic<Node*> next{nullptr}; std::atomic<bool> locked{false}; };
std::atomic<Node*> tail{nullptr};
int counter;
void lock(Node* me) {
  me->next.store(nullptr, std::memory_order_relaxed);
  Node* prev = tail.exchange(me, std::memory_order_acq_rel);
  if (prev) { me->locked.store(true, std::memory_order_relaxed); prev->next.store(me, std::memory_order_release); while (me->locked.load(std::memory_order_acquire)) ; }
}
void unlock(Node* me) {
  Node* next = me->next.load(std::memory_order_acquire);
  if (!next) { Node* e = me; if (tail.compare_exchange_strong(e, nullptr)) return; while (!(next = me->next.load())) ; }
  next->locked.store(false, std::memory_order_release);
}
void work() { Node n; lock(&n); counter++; unlock(&n); }
int main() { std::thread a(work), b(work); a.join(); b.join(); }
`,
    "`std::atomic<Node*> next{nullptr};`: a pointer is rewritten only if the program makes one object of its type, so write variables in place of pointers, and of what they point to", "std::atomic<Node*> next{"],
  ["an index that another function's addition changes", `#include <stdatomic.h>
int buf[4]; atomic_int head;
void bump(atomic_int *p) { atomic_fetch_add(p, 1); }
void P0(void) { int h = atomic_load(&head); buf[h] = 1; atomic_store(&head, h + 1); }
void P1(void) { bump(&head); int r = buf[1]; }
`,
    "`buf[h] = 1`: an index is a constant, or comes from a variable that only this thread writes, and that has a known constant then", "buf[h] = 1; atomic_store"],
  ["a delay in a function that stores, too", `#include <atomic>
#include <thread>
#include <random>
int x, y, r1, r2;
void delay(std::mt19937& gen) { x = 0; while (gen() % 8 != 0) ; }
void a() { std::mt19937 g(1); delay(g); x = 1; r1 = y; }
void b() { std::mt19937 g(2); delay(g); y = 1; r2 = x; }
int main() { std::thread t(a), u(b); t.join(); u.join(); if (r1 == 0 && r2 == 0) printf("reorder\\n"); }
`,
    "`std::mt19937 g(1)`: a statement is one load, store, exchange, addition or fence, or an `if`", "std::mt19937 g(1); delay"],
  ["a generator whose numbers are used, too", `#include <atomic>
#include <thread>
#include <random>
int x, y, r1, r2;
void delay(std::mt19937& gen) { while (gen() % 8 != 0) ; }
void a() { std::mt19937 g(1); delay(g); x = 1 + g(); r1 = y; }
void b() { std::mt19937 g(2); delay(g); y = 1; r2 = x; }
int main() { std::thread t(a), u(b); t.join(); u.join(); if (r1 == 0 && r2 == 0) printf("reorder\\n"); }
`,
    "`std::mt19937 g(1)`: a statement is one load, store, exchange, addition or fence, or an `if`", "std::mt19937 g(1); delay"],
  ["a loop whose function sets a variable if it fails", `#include <atomic>
#include <thread>
int buf[4];
std::atomic<int> head{0}, tail{0};
bool pop(int& v) {
  int t = tail.load(std::memory_order_relaxed);
  if (t == head.load(std::memory_order_acquire)) { v = -1; return false; }
  v = buf[t];
  tail.store((t + 1) % 4, std::memory_order_release);
  return true;
}
void p() { int h = head.load(std::memory_order_relaxed); buf[h] = 7; head.store(h + 1, std::memory_order_release); }
void c() { int v = 3; while (!pop(v)) ; }
int main() { std::thread a(p), b(c); a.join(); b.join(); }
`,
    "`while (!pop(v))`: a loop that waits by a function calls one that changes nothing if the loop goes on, and returns constants", "while (!pop(v)) ; }"],
  ["a variable that has no value after the other result", `#include <atomic>
#include <thread>
std::atomic<int> f{0}; int data;
bool get(int& v) { int s = f.load(); if (s == 0) return false; v = data; return s == 1; }
void p() { data = 7; f.store(1); f.store(2); }
void c() { int v; if (get(v)) { int r = v; } else { int q = v; } }
int main() { std::thread a(p), b(c); a.join(); b.join(); }
`,
    "`int q = v`: `v` has no value on some path to here", "int q = v; } }"],
  ["a loop whose function returns a comparison", `#include <atomic>
#include <thread>
std::atomic<int> f{0}, n{0}; int data;
int get() { return f.load(); }
bool ready() { n.load(); return f.load() == 1; }
void p() { data = 7; f.store(1); }
void c() { while (!ready()) ; int r = data; }
void d() { while (!get()) ; int r = data; }
int main() { std::thread a(p), b(c), e(d); a.join(); b.join(); e.join(); }
`,
    "`while (!ready())`: a loop that waits by a function calls one that changes nothing if the loop goes on, and returns constants", "while (!ready()) ; int r"],
  ["a macro of a sum without parentheses", `#include <atomic>
#include <thread>
constexpr size_t N = 8;
constexpr size_t MASK = N - 1;
#define ONE 2 - 1
int buf[N];
std::atomic<size_t> head{0}, tail{0};
void p() { size_t h = head.load(std::memory_order_relaxed); buf[h & MASK] = 4; head.store(h + 1, std::memory_order_release); }
void c() { size_t t = tail.load(std::memory_order_relaxed); while (head.load(std::memory_order_acquire) == t) ; int r = buf[t & MASK]; tail.store(t + 1, std::memory_order_release); }
int main() { std::thread a(p), b(c); a.join(); b.join(); }
`,
    "`#define ONE 2 - 1`: write its text where it is used", "#define ONE 2 - 1"],
  ["an exchange of a relation after `&&`", `#include <atomic>
#include <thread>
std::atomic<int> x{0}, y{0};
void t0(){ int r0=y.load(std::memory_order_relaxed); int r1=0; if (r0==1 && x.exchange(2)>1) r1=1; }
void t1(){ y.store(1,std::memory_order_relaxed); int r2=x.load(std::memory_order_relaxed); }
`,
    "`if (r0==1 && x.exchange(2)>1)`: what `<` and its like compare is loaded before the other parts of a condition here, so write two `if`, one in the other", "if (r0==1 && x.exchange(2)>1) r1=1; }"],
  ["an addition in a relation after `&&`", `#include <atomic>
#include <thread>
std::atomic<int> x{0}, y{0};
void t0(){ int r0=y.load(std::memory_order_relaxed); int r1=0; if (r0==1 && x.fetch_add(1)>=1) r1=1; }
void t1(){ y.store(1,std::memory_order_relaxed); int r2=x.load(std::memory_order_relaxed); }
`,
    "`if (r0==1 && x.fetch_add(1)>=1)`: what `<` and its like compare is loaded before the other parts of a condition here, so write two `if`, one in the other", "if (r0==1 && x.fetch_add(1)>=1) r1=1; }"],
  ["a lock of each object, and one pointer", `#include <atomic>
#include <mutex>
#include <thread>
struct Data{int x;}; std::atomic<Data*> p{nullptr};
struct Getter{ std::mutex m; Data* get(){ Data* q=p.load(std::memory_order_acquire); if(q==nullptr){ std::lock_guard<std::mutex> g(m); q=p.load(std::memory_order_relaxed); if(q==nullptr){ q=new Data; q->x=1; p.store(q,std::memory_order_release);} } return q; } };
Getter g1,g2;
void a(){ Data* d=g1.get(); d->x=5; int r0=d->x; }
void b(){ Data* d=g2.get(); d->x=6; int r1=d->x; }
`,
    "`new Data`: several threads make one object only if all of them take one and the same lock, and test one and the same pointer", "new Data; q->x=1; p.store(q,std::memory_order_release);} } r"],
  ["a lock and a pointer of each object", `#include <atomic>
#include <mutex>
#include <thread>
struct Data{int x;};
struct Lazy{ std::atomic<Data*> p{nullptr}; std::mutex m; Data* get(){ Data* q=p.load(std::memory_order_acquire); if(q==nullptr){ std::lock_guard<std::mutex> g(m); q=p.load(std::memory_order_relaxed); if(q==nullptr){ q=new Data; q->x=1; p.store(q,std::memory_order_release);} } return q; } };
Lazy l1,l2;
void a(){ Data* d=l1.get(); d->x=5; }
void b(){ Data* d=l2.get(); int r1=d->x; }
`,
    "`new Data`: several threads make one object only if all of them take one and the same lock, and test one and the same pointer", "new Data; q->x=1; p.store(q,std::memory_order_release);} } r"],
  ["a pointer of each object, and one lock", `#include <atomic>
#include <mutex>
#include <thread>
struct Data{int x;}; std::mutex m; std::atomic<Data*> p{nullptr};
struct Lazy{ std::atomic<Data*> q{nullptr}; Data* get(){ Data* d=q.load(std::memory_order_acquire); if(d==nullptr){ std::lock_guard<std::mutex> g(m); d=q.load(std::memory_order_relaxed); if(d==nullptr){ d=new Data; d->x=1; q.store(d,std::memory_order_release);} } return d; } };
Lazy l1,l2;
void a(){ Data* d=l1.get(); d->x=5; int r0=d->x; }
void b(){ Data* d=l2.get(); d->x=6; int r1=d->x; }
`,
    "`new Data`: several threads make one object only if all of them take one and the same lock, and test one and the same pointer", "new Data; d->x=1; q.store(d,std::memory_order_release);} } r"],
  ["a method outside of its class, whose objects have a lock each", `#include <atomic>
#include <mutex>
#include <thread>
struct Data{int x;}; std::atomic<Data*> p{nullptr};
class Getter{ std::mutex m; public: Data* get(); };
Data* Getter::get(){ Data* q=p.load(std::memory_order_acquire); if(q==nullptr){ std::lock_guard<std::mutex> g(m); q=p.load(std::memory_order_relaxed); if(q==nullptr){ q=new Data; q->x=1; p.store(q,std::memory_order_release);} } return q; }
Getter g1; Getter g2;
void a(){ Data* d=g1.get(); d->x=5; int r0=d->x; }
void b(){ Data* d=g2.get(); d->x=6; int r1=d->x; }
`,
    "`new Data`: several threads make one object only if all of them take one and the same lock, and test one and the same pointer", "new Data; q->x=1; p.store(q,std::memory_order_release);} } r"],
  ["two objects that are declared with their class", `#include <atomic>
#include <mutex>
#include <thread>
struct Data{int x;};
struct Lazy{ std::atomic<Data*> p{nullptr}; std::mutex m; Data* get(){ Data* q=p.load(std::memory_order_acquire); if(q==nullptr){ std::lock_guard<std::mutex> g(m); q=p.load(std::memory_order_relaxed); if(q==nullptr){ q=new Data; q->x=1; p.store(q,std::memory_order_release);} } return q; } } l1, l2;
void a(){ Data* d=l1.get(); d->x=5; }
void b(){ Data* d=l2.get(); int r1=d->x; }
`,
    "`new Data`: several threads make one object only if all of them take one and the same lock, and test one and the same pointer", "new Data; q->x=1; p.store(q,std::memory_order_release);} } r"],
  ["a lock of each object of a template", `#include <atomic>
#include <mutex>
#include <thread>
struct Data{int x;};
template<class T> struct Lazy{ std::atomic<Data*> p{nullptr}; std::mutex m; Data* get(){ Data* q=p.load(std::memory_order_acquire); if(q==nullptr){ std::lock_guard<std::mutex> g(m); q=p.load(std::memory_order_relaxed); if(q==nullptr){ q=new Data; q->x=1; p.store(q,std::memory_order_release);} } return q; } };
Lazy<int> l1; Lazy<int> l2;
void a(){ Data* d=l1.get(); d->x=5; }
void b(){ Data* d=l2.get(); int r1=d->x; }
`,
    "`new Data`: several threads make one object only if all of them take one and the same lock, and test one and the same pointer", "new Data; q->x=1; p.store(q,std::memory_order_release);} } r"],
  ["a lock of a base class of two objects", `#include <atomic>
#include <mutex>
#include <thread>
struct Data{int x;};
struct Lazy{ std::atomic<Data*> p{nullptr}; std::mutex m; Data* get(){ Data* q=p.load(std::memory_order_acquire); if(q==nullptr){ std::lock_guard<std::mutex> g(m); q=p.load(std::memory_order_relaxed); if(q==nullptr){ q=new Data; q->x=1; p.store(q,std::memory_order_release);} } return q; } };
struct Other : Lazy {};
Lazy l1; Other l2;
void a(){ Data* d=l1.get(); d->x=5; }
void b(){ Data* d=l2.get(); int r1=d->x; }
`,
    "`new Data`: several threads make one object only if all of them take one and the same lock, and test one and the same pointer", "new Data; q->x=1; p.store(q,std::memory_order_release);} } r"],
  ["a thread's own pointer in a lock", `#include <atomic>
#include <mutex>
#include <thread>
struct Data{int x;}; std::mutex m;
void t(){ Data* p=nullptr; { std::lock_guard<std::mutex> g(m); if (p==nullptr) { Data* q=new Data; q->x=1; p=q; } } p->x = 2; }
int main(){ std::thread a(t), b(t); a.join(); b.join(); }
`,
    "`new Data`: several threads make one object only if all of them take one and the same lock, and test one and the same pointer", "new Data; q->x=1; p=q; } } p->x = 2; }"],
  ["a mutex of the kernel that is tried", `#include <linux/mutex.h>
DEFINE_MUTEX(m); int x;
void t0(void){ if (mutex_trylock(&m)) { x = 1; mutex_unlock(&m); } }
void t1(void){ mutex_lock(&m); x = 2; mutex_unlock(&m); }
`,
    "`if (mutex_trylock(&m))`: of what tries a lock `m.try_lock()`, `spin_trylock`, `pthread_mutex_trylock` and `mtx_trylock` are read", "if (mutex_trylock(&m)) { x = 1; mutex_unlock(&m); } }"],
  ["a semaphore of the kernel that is tried", `#include <linux/semaphore.h>
DEFINE_MUTEX(m); int x;
void t0(void){ if (!down_trylock(&m)) { x = 1; mutex_unlock(&m); } }
void t1(void){ mutex_lock(&m); x = 2; mutex_unlock(&m); }
`,
    "`if (!down_trylock(&m))`: of what tries a lock `m.try_lock()`, `spin_trylock`, `pthread_mutex_trylock` and `mtx_trylock` are read", "if (!down_trylock(&m)) { x = 1; mutex_unlock(&m); } }"],
  ["an exchange of a relation after a load", `#include <atomic>
#include <mutex>
#include <thread>
std::atomic<int> x{0}, y{0};
void t0(){ int r1=0; if (y.load()==1 && x.exchange(2)>1) r1=1; }
void t1(){ y.store(1); int r2=x.load(); }
`,
    "`if (y.load()==1 && x.exchange(2)>1)`: what `<` and its like compare is loaded before the other parts of a condition here, so write two `if`, one in the other", "if (y.load()==1 && x.exchange(2)>1) r1=1; }"],
  ["an object of a class in a function of two threads", `#include <atomic>
#include <mutex>
#include <thread>
struct Data{int x;};
struct Lazy{ std::atomic<Data*> p{nullptr}; std::mutex m; Data* get(){ Data* q=p.load(std::memory_order_acquire); if(q==nullptr){ std::lock_guard<std::mutex> g(m); q=p.load(std::memory_order_relaxed); if(q==nullptr){ q=new Data; q->x=1; p.store(q,std::memory_order_release);} } return q; } };
void a(){ Lazy l; Data* d=l.get(); d->x=5; int r = d->x; }
int main(){ std::thread t(a), u(a); t.join(); u.join(); }
`,
    "`new Data`: several threads make one object only if all of them take one and the same lock, and test one and the same pointer", "new Data; q->x=1; p.store(q,std::memory_order_release);} } r"],
];

/** Returns a test with one blank in place of several, since names have other lengths than those in a form. */
function squeeze(text) {
  return text.replace(/ +/g, " ");
}

/**
 * Compares all that is typed in here.
 * @param {function(string, any, any)} compare
 */
export async function compareConvertedPrograms(compare) {
  const { c_program } = await loadModules(["c_program"]);
  for (const [name, text, expected] of MADE) {
    const { made, why } = c_program.rewriteProgram(text);
    compare(`the test of a program with ${name}`, squeeze(expected), squeeze(made ?? why));
  }
  for (const [name, text, expected, users] of USED) {
    const test = c_program.rewriteProgram(text);
    compare(`the test of a program with ${name}`, [squeeze(expected), users], [squeeze(test.made ?? test.why), test.users?.trim()]);
  }
  for (const [name, text, expected, part] of REFUSED) {
    const { made, why, index } = c_program.rewriteProgram(text);
    compare(`why a program with ${name} is refused`, [expected, text.indexOf(part)], [made ?? why, index]);
  }
}

await runAlone(import.meta.url, compareConvertedPrograms);
