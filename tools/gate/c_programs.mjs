// Compares what the page makes of programs in C with what is typed in here: each kind of statement, both forms, each refusal, and the hint with its
// button.
//
//     node tools/gate/c_programs.mjs               compares; the last line is 'N passed, M failed'
//     node tools/gate/c_programs.mjs --rewrite     prints what it makes of each text of a list in JSON, as `rewriteProgram` returns it
//
// tools/gate/check_site.mjs compares this too, and tools/gate/test_from_c.py rewrites programs by it. The JavaScript is that of web/, which is
// copied, since node takes a file for a module by the folder that it is in.

import fs from "node:fs";
import os from "node:os";
import path from "node:path";
import { fileURLToPath, pathToFileURL } from "node:url";
import { isDeepStrictEqual } from "node:util";
import { SLOWEST, measure } from "./typed_texts.mjs";

const HOME = path.dirname(path.dirname(path.dirname(fileURLToPath(import.meta.url))));
const PARTS = ["aligned", "c_program", "other_tools"];

// Statements of P0 on `atomic_int x, y; volatile int v; int p, q;`, of which no other thread uses p, and one loads q; the instructions that they
// become; and the same statements on pointers, in a test of herd, or null.
const STATEMENTS = [
  // Stores.
  ["atomic_store(&x, 1);", "MOV EAX,$1; XCHG [x],EAX", "atomic_store(x, 1);"],
  ["atomic_store_explicit(&x, 1, memory_order_seq_cst);", "MOV EAX,$1; XCHG [x],EAX", "atomic_store_explicit(x, 1, memory_order_seq_cst);"],
  ["atomic_store_explicit(&x, 1, memory_order_release);", "MOV [x],$1", "atomic_store_explicit(x, 1, memory_order_release);"],
  ["std::atomic_store_explicit ( & x , 0x1F , std::memory_order::relaxed ) ;", "MOV [x],$31",
    "atomic_store_explicit ( x , 0x1F , memory_order_relaxed ) ;"],
  ["x.store(1);", "MOV EAX,$1; XCHG [x],EAX", "x->store(1);"],
  ["x.store(1, std::memory_order_release);", "MOV [x],$1", "x->store(1, std::memory_order_release);"],
  ["x = 1;", "MOV EAX,$1; XCHG [x],EAX", "*x = 1;"],
  ["v = 1u;", "MOV [v],$1", "*v = 1u;"],
  ["WRITE_ONCE(v, 2);", "MOV [v],$2", "WRITE_ONCE(*v, 2);"],
  ["smp_store_release(&x, 1);", "MOV [x],$1", "smp_store_release(x, 1);"],
  ["v = -1;", "MOV [v],$4294967295", "*v = -1;"],
  // Loads.
  ["int r0 = atomic_load(&x);", "MOV EAX,[x]", "int r0 = atomic_load(x);"],
  ["int r0; r0 = atomic_load_explicit(&x, memory_order_acquire);", "MOV EAX,[x]", "int r0; r0 = atomic_load_explicit(x, memory_order_acquire);"],
  ["auto r0 = x.load(std::memory_order_consume);", "MOV EAX,[x]", "auto r0 = x->load(std::memory_order_consume);"],
  ["const unsigned int r0 = x, r1 = y;", "MOV EAX,[x]; MOV EBX,[y]", "const unsigned int r0 = *x, r1 = *y;"],
  ["int r0 = READ_ONCE(v);", "MOV EAX,[v]", "int r0 = READ_ONCE(*v);"],
  ["int r0 = v;", "MOV EAX,[v]", "int r0 = *v;"],
  ["int r0 = smp_load_acquire(&x);", "MOV EAX,[x]", "int r0 = smp_load_acquire(x);"],
  ["x.load();", "MOV EAX,[x]", "x->load();"],
  ["int a = atomic_load_explicit(&x, memory_order_relaxed), b = atomic_load_explicit(&y, memory_order_relaxed);", "MOV EAX,[x]; MOV EBX,[y]",
    "int a = atomic_load_explicit(x, memory_order_relaxed), b = atomic_load_explicit(y, memory_order_relaxed);"],
  // Values.
  ["int r0 = x; atomic_store_explicit(&y, r0, memory_order_relaxed);", "MOV EAX,[x]; MOV [y],EAX",
    "int r0 = *x; atomic_store_explicit(y, r0, memory_order_relaxed);"],
  ["int r0 = x; y.store(r0 + 1, std::memory_order_release);", "MOV EAX,[x]; MOV EBX,EAX; ADD EBX,$1; MOV [y],EBX",
    "int r0 = *x; y->store(r0 + 1, std::memory_order_release);"],
  ["int r0 = x; y = r0;", "MOV EAX,[x]; MOV EBX,EAX; XCHG [y],EBX", "int r0 = *x; *y = r0;"],
  ["int r0 = x; int r1 = r0 - 2; r0 = r1 + 0x10; r1++; --r0; r0 += 3;",
    "MOV EAX,[x]; MOV EBX,EAX; ADD EBX,$4294967294; MOV EAX,EBX; ADD EAX,$16; ADD EBX,$1; ADD EAX,$4294967295; ADD EAX,$3",
    "int r0 = *x; int r1 = r0 - 2; r0 = r1 + 0x10; r1++; --r0; r0 += 3;"],
  ["int r0 = 5; int r1 = r0; r0 = r0;", "MOV EAX,$5; MOV EBX,EAX", "int r0 = 5; int r1 = r0; r0 = r0;"],
  ["v = x.load() + 1;", "MOV EAX,[x]; ADD EAX,$1; MOV [v],EAX", "*v = x->load() + 1;"],
  ["atomic_store(&y, atomic_load_explicit(&x, memory_order_relaxed));", "MOV EAX,[x]; XCHG [y],EAX",
    "atomic_store(y, atomic_load_explicit(x, memory_order_relaxed));"],
  ["x = x + 1;", "MOV EAX,[x]; ADD EAX,$1; XCHG [x],EAX", "*x = *x + 1;"],
  // Values that `?` chooses.
  ["int r0 = y ? 1 : 2;", "MOV EBX,[y]; CMP EBX,$0; JE L1; MOV EAX,$1; JMP L2; L1: MOV EAX,$2; L2:", "int r0 = *y ? 1 : 2;"],
  ["int r0 = x.load() == 3 && v != 0 ? 4 : -1; v = (r0 == 4) ? r0 + 1 : r0;",
    "MOV EBX,[x]; CMP EBX,$3; JNE L1; MOV EBX,[v]; CMP EBX,$0; JE L1; MOV EAX,$4; JMP L2; L1: MOV EAX,$4294967295; " +
      "L2: CMP EAX,$4; JNE L3; MOV EBX,EAX; ADD EBX,$1; JMP L4; L3: MOV EBX,EAX; L4: MOV [v],EBX",
    "int r0 = x->load() == 3 && *v != 0 ? 4 : -1; *v = (r0 == 4) ? r0 + 1 : r0;"],
  ["int r0 = x; r0 = r0 == 1 ? r0 == 2 ? 3 : 4 : !r0 ? 5 : 6;",
    "MOV EAX,[x]; CMP EAX,$1; JNE L1; CMP EAX,$2; JNE L3; MOV EAX,$3; JMP L4; L3: MOV EAX,$4; L4: JMP L2; " +
      "L1: CMP EAX,$0; JNE L5; MOV EAX,$5; JMP L6; L5: MOV EAX,$6; L6: L2:", "int r0 = *x; r0 = r0 == 1 ? r0 == 2 ? 3 : 4 : !r0 ? 5 : 6;"],
  ["bool r0 = x ? true : 0; y += r0 ? 1 : 2;",
    "MOV EBX,[x]; CMP EBX,$0; JE L1; MOV EAX,$1; JMP L2; L1: MOV EAX,$0; L2: CMP EAX,$0; JE L3; MOV EBX,$1; JMP L4; L3: MOV EBX,$2; " +
      "L4: LOCK XADD [y],EBX", "bool r0 = *x ? true : 0; *y += r0 ? 1 : 2;"],
  // Exchanges and additions.
  ["atomic_exchange(&x, 1);", "MOV EAX,$1; XCHG [x],EAX", "atomic_exchange(x, 1);"],
  ["int r0 = atomic_exchange_explicit(&x, 1, memory_order_acq_rel);", "MOV EAX,$1; XCHG [x],EAX",
    "int r0 = atomic_exchange_explicit(x, 1, memory_order_acq_rel);"],
  ["int r0 = 7; r0 = x.exchange(r0);", "MOV EAX,$7; XCHG [x],EAX", "int r0 = 7; r0 = x->exchange(r0);"],
  ["int r0 = 7; int r1 = x.exchange(r0 + 1);", "MOV EAX,$7; MOV EBX,EAX; ADD EBX,$1; XCHG [x],EBX", "int r0 = 7; int r1 = x->exchange(r0 + 1);"],
  ["atomic_fetch_add(&x, 2);", "MOV EAX,$2; LOCK XADD [x],EAX", "atomic_fetch_add(x, 2);"],
  ["int r0 = atomic_fetch_add_explicit(&x, 2, memory_order_relaxed);", "MOV EAX,$2; LOCK XADD [x],EAX",
    "int r0 = atomic_fetch_add_explicit(x, 2, memory_order_relaxed);"],
  ["int r0 = x.fetch_sub(1);", "MOV EAX,$4294967295; LOCK XADD [x],EAX", "int r0 = x->fetch_sub(1);"],
  ["x++; ++x; x += 3; x -= 1; x--;",
    "MOV EAX,$1; LOCK XADD [x],EAX; MOV EAX,$1; LOCK XADD [x],EAX; MOV EAX,$3; LOCK XADD [x],EAX; MOV EAX,$4294967295; LOCK XADD [x],EAX; " +
    "MOV EAX,$4294967295; LOCK XADD [x],EAX", "(*x)++; ++*x; *x += 3; *x -= 1; (*x)--;"],
  ["int r0 = x++;", "MOV EAX,$1; LOCK XADD [x],EAX", "int r0 = (*x)++;"],
  ["int r0 = 3; x.fetch_add(r0);", "MOV EAX,$3; MOV EBX,EAX; LOCK XADD [x],EBX", "int r0 = 3; x->fetch_add(r0);"],
  ["v++; --v;", "MOV EAX,[v]; ADD EAX,$1; MOV [v],EAX; MOV EAX,[v]; ADD EAX,$4294967295; MOV [v],EAX", "(*v)++; --*v;"],
  ["int r0 = x; q += 2; q -= 3; q += r0;",
    "MOV EAX,[x]; MOV EBX,[q]; ADD EBX,$2; MOV [q],EBX; MOV EBX,[q]; ADD EBX,$4294967293; MOV [q],EBX; MOV EBX,[q]; ADD EBX,EAX; MOV [q],EBX",
    "int r0 = *x; *q += 2; *q -= 3; *q += r0;"],
  ["x.fetch_add(0);", "MOV EAX,$0; LOCK XADD [x],EAX", "x->fetch_add(0);"],
  ["xchg(&x, 2);", "MOV EAX,$2; XCHG [x],EAX", "xchg(x, 2);"],
  ["int r0 = xchg(&v, 2);", "MOV EAX,$2; XCHG [v],EAX", "int r0 = xchg(v, 2);"],
  ["int r0 = ++x;", "MOV EAX,$1; LOCK XADD [x],EAX; ADD EAX,$1", "int r0 = ++*x;"],
  ["v = --x;", "MOV EAX,$4294967295; LOCK XADD [x],EAX; ADD EAX,$4294967295; MOV [v],EAX", "*v = --(*x);"],
  ["int r0 = x--;", "MOV EAX,$4294967295; LOCK XADD [x],EAX", "int r0 = (*x)--;"],
  // Sums.
  ["int r0 = x; int r1 = y; int r2 = r0 + r1;", "MOV EAX,[x]; MOV EBX,[y]; MOV ECX,EAX; ADD ECX,EBX", "int r0 = *x; int r1 = *y; int r2 = r0 + r1;"],
  ["int r0 = 1 + x;", "MOV EAX,[x]; ADD EAX,$1", "int r0 = 1 + *x;"],
  ["int r0 = 2; int r1 = r0 + x - 1;", "MOV EAX,$2; MOV EBX,[x]; ADD EBX,EAX; ADD EBX,$4294967295", "int r0 = 2; int r1 = r0 + *x - 1;"],
  ["int r0 = 2; r0 = x + r0;", "MOV EAX,$2; MOV EBX,[x]; ADD EBX,EAX; MOV EAX,EBX", "int r0 = 2; r0 = *x + r0;"],
  ["int r0 = x; int r1 = 1; r0 = r1 + r0; r0 += r1; r0 += r0; r0 += y;",
    "MOV EAX,[x]; MOV EBX,$1; ADD EAX,EBX; ADD EAX,EBX; ADD EAX,EAX; MOV ECX,[y]; ADD ECX,EAX; MOV EAX,ECX",
    "int r0 = *x; int r1 = 1; r0 = r1 + r0; r0 += r1; r0 += r0; r0 += *y;"],
  ["int r0 = x; r0 = r0 + 1 + r0 + r0 - 3;", "MOV EAX,[x]; MOV EBX,EAX; ADD EBX,EAX; ADD EBX,EAX; ADD EBX,$4294967294; MOV EAX,EBX",
    "int r0 = *x; r0 = r0 + 1 + r0 + r0 - 3;"],
  ["int r0 = 1; int r1 = 2; v = r0 + r1; x = (r0 + 1);",
    "MOV EAX,$1; MOV EBX,$2; MOV ECX,EAX; ADD ECX,EBX; MOV [v],ECX; MOV ECX,EAX; ADD ECX,$1; XCHG [x],ECX",
    "int r0 = 1; int r1 = 2; *v = r0 + r1; *x = (r0 + 1);"],
  ["int r0 = x + (-1); int r1 = (r0) - (2);", "MOV EAX,[x]; ADD EAX,$4294967295; MOV EBX,EAX; ADD EBX,$4294967294", null],
  ["x -= -3; x.fetch_sub(-2); int r0 = x--;",
    "MOV EBX,$3; LOCK XADD [x],EBX; MOV EBX,$2; LOCK XADD [x],EBX; MOV EAX,$4294967295; LOCK XADD [x],EAX", null],
  ["int r0 = 5 - 2 + 1; int r1 = r0 - -1;", "MOV EAX,$4; MOV EBX,EAX; ADD EBX,$1", "int r0 = 5 - 2 + 1; int r1 = r0 - -1;"],
  ["int r0 = x++ + 1; int r1 = r0 + ++x;",
    "MOV EAX,$1; LOCK XADD [x],EAX; ADD EAX,$1; MOV EBX,$1; LOCK XADD [x],EBX; ADD EBX,$1; ADD EBX,EAX",
    "int r0 = (*x)++ + 1; int r1 = r0 + ++*x;"],
  ["int r0 = 7; int r1 = r0++; r1 = --r0; v = r0--; r0++;",
    "MOV EAX,$7; MOV EBX,EAX; ADD EAX,$1; ADD EAX,$4294967295; MOV EBX,EAX; MOV ECX,EAX; ADD EAX,$4294967295; MOV [v],ECX; ADD EAX,$1",
    "int r0 = 7; int r1 = r0++; r1 = --r0; *v = r0--; r0++;"],
  // Loops that count.
  ["for (int i = 0; i < 2; i++) v = i;", "MOV [v],$0; MOV [v],$1", "for (int i = 0; i < 2; i++) *v = i;"],
  ["for (int k = 3; k >= 1; k -= 2) { v = k; x++; }", "MOV [v],$3; MOV EAX,$1; LOCK XADD [x],EAX; MOV [v],$1; MOV EAX,$1; LOCK XADD [x],EAX",
    "for (int k = 3; k >= 1; k -= 2) { *v = k; (*x)++; }"],
  ["int r0 = 0; for (int i = 1; i != 3; ++i) { int a = x; r0 += a + i; }",
    "MOV EAX,$0; MOV EBX,[x]; ADD EAX,EBX; ADD EAX,$1; MOV EBX,[x]; ADD EAX,EBX; ADD EAX,$2", "int r0 = 0; for (int i = 1; i != 3; ++i) { int a = *x; r0 += a + i; }"],
  ["for (unsigned k = 3; k > 1; k--) if (x == k) { v = 1; v = k; } else v = 4;",
    "MOV EAX,[x]; CMP EAX,$3; JNE L1; MOV [v],$1; MOV [v],$3; JMP L2; L1: MOV [v],$4; L2: MOV EAX,[x]; CMP EAX,$2; JNE L3; MOV [v],$1; MOV [v],$2; JMP END; " +
    "L3: MOV [v],$4; END:", null],
  ["for (int i = 0; i < 2; i++) for (int k = 0; k < 2; k++) v = k;", "MOV [v],$0; MOV [v],$1; MOV [v],$0; MOV [v],$1", null],
  ["for (int i = 0; i < 2; i++) if (x) for (int k = 0; k < 2; k++) v = k; else if (x) v = 3; v = 4;",
    "MOV EAX,[x]; CMP EAX,$0; JE L1; MOV [v],$0; MOV [v],$1; JMP L2; L1: MOV EAX,[x]; CMP EAX,$0; JE L3; MOV [v],$3; L3: L2: MOV EAX,[x]; CMP EAX,$0; JE L4; " +
    "MOV [v],$0; MOV [v],$1; JMP L5; L4: MOV EAX,[x]; CMP EAX,$0; JE L6; MOV [v],$3; L6: L5: MOV [v],$4", null],
  // Letters, and a comment of two lines.
  ["putchar('\"'); v = 1; putchar('\"'); v = 2; putchar('\\''); v = 3; putchar(';');", "MOV [v],$1; MOV [v],$2; MOV [v],$3", null],
  ["v = 1; // One. \\\n v = 2;\n v = 3;", "MOV [v],$1; MOV [v],$3", null],
  // Branches.
  ["int r0 = x; if (r0) y.store(1, std::memory_order_relaxed);", "MOV EAX,[x]; CMP EAX,$0; JE END; MOV [y],$1; END:",
    "int r0 = *x; if (r0) y->store(1, memory_order_relaxed);"],
  ["if (x == 1) { v = 1; v = 2; } v = 3;", "MOV EAX,[x]; CMP EAX,$1; JNE L1; MOV [v],$1; MOV [v],$2; L1: MOV [v],$3",
    "if (*x == 1) { *v = 1; *v = 2; } *v = 3;"],
  ["int r0 = 4; if (atomic_load_explicit(&x, memory_order_acquire)) r0 = v; else { r0 = y; }",
    "MOV EAX,$4; MOV EBX,[x]; CMP EBX,$0; JE L1; MOV EAX,[v]; JMP END; L1: MOV EAX,[y]; END:",
    "int r0 = 4; if (atomic_load_explicit(x, memory_order_acquire)) r0 = *v; else { r0 = *y; }"],
  ["int r0 = x; if (!r0) v = 1; else if (2 != r0) v = 2; else v = 3; smp_mb();",
    "MOV EAX,[x]; CMP EAX,$0; JNE L1; MOV [v],$1; JMP L2; L1: CMP EAX,$2; JE L3; MOV [v],$2; JMP L4; L3: MOV [v],$3; L4: L2: MFENCE",
    "int r0 = *x; if (!r0) *v = 1; else if (2 != r0) *v = 2; else *v = 3; smp_mb();"],
  ["int r0 = x; int r1 = y; if (r0 == r1 && !(r1 == 0) && x.exchange(1) != 2) if (v) v = 1;",
    "MOV EAX,[x]; MOV EBX,[y]; CMP EAX,EBX; JNE END; CMP EBX,$0; JE END; MOV ECX,$1; XCHG [x],ECX; CMP ECX,$2; JE END; MOV ECX,[v]; CMP ECX,$0; " +
    "JE END; MOV [v],$1; END:", "int r0 = *x; int r1 = *y; if (r0 == r1 && !(r1 == 0) && x->exchange(1) != 2) if (*v) *v = 1;"],
  ["if (!x.load()) return; v = 1; if (y) { v = 2; return; } else v = 3;",
    "MOV EAX,[x]; CMP EAX,$0; JNE L1; JMP END; L1: MOV [v],$1; MOV EAX,[y]; CMP EAX,$0; JE L2; MOV [v],$2; JMP END; L2: MOV [v],$3; END:",
    "if (!x->load()) return; *v = 1; if (*y) { *v = 2; return; } else *v = 3;"],
  ["if (x++ == 1) v = 1; if (2 != --y) v = 2;",
    "MOV EAX,$1; LOCK XADD [x],EAX; CMP EAX,$1; JNE L1; MOV [v],$1; L1: MOV EAX,$4294967295; LOCK XADD [y],EAX; ADD EAX,$4294967295; CMP EAX,$2; " +
    "JE END; MOV [v],$2; END:", "if ((*x)++ == 1) *v = 1; if (2 != --*y) *v = 2;"],
  ["if (x) ; { int r0 = y; v = r0; } if (x + 1 == 2) { } else v = 2; { int r0 = 1; }",
    "MOV EBX,[x]; CMP EBX,$0; JE L1; L1: MOV EAX,[y]; MOV [v],EAX; MOV EBX,[x]; ADD EBX,$1; CMP EBX,$2; JNE L2; JMP L3; L2: MOV [v],$2; " +
    "L3: MOV EAX,$1", "if (*x) ; { int r0 = *y; *v = r0; } if (*x + 1 == 2) { } else *v = 2; { int r0 = 1; }"],
  ["if (x) p = 1; else p = y; if (p == 1) v = p;",
    "MOV EAX,[x]; CMP EAX,$0; JE L1; MOV EBX,$1; JMP L2; L1: MOV EBX,[y]; L2: CMP EBX,$1; JNE END; MOV [v],EBX; END:", null],
  ["int r0 = x; int r1 = y; bool ok = (r0 == r1); v = 1;", "MOV EAX,[x]; MOV EBX,[y]; CMP EAX,EBX; JNE L1; MOV ECX,$1; JMP L2; L1: MOV ECX,$0; L2: MOV [v],$1",
    "int r0 = *x; int r1 = *y; int ok = r0 == r1; *v = 1;"],
  ["int r0 = x; r0 = r0 != 2 && v == 1; if (r0) v = 2;",
    "MOV EAX,[x]; CMP EAX,$2; JE L1; MOV EBX,[v]; CMP EBX,$1; JNE L1; MOV EAX,$1; JMP L2; L1: MOV EAX,$0; L2: CMP EAX,$0; JE END; MOV [v],$2; END:",
    "int r0 = *x; r0 = r0 != 2 && *v == 1; if (r0) *v = 2;"],
  ["bool r0 = !x;", "MOV EBX,[x]; CMP EBX,$0; JNE L1; MOV EAX,$1; JMP L2; L1: MOV EAX,$0; L2:", "int r0 = !*x;"],
  // Fences.
  ["atomic_thread_fence(memory_order_seq_cst);", "MFENCE", "atomic_thread_fence(memory_order_seq_cst);"],
  ["std::atomic_thread_fence(std::memory_order::seq_cst); smp_mb(); __sync_synchronize();", "MFENCE; MFENCE; MFENCE",
    "smp_mb(); smp_mb(); smp_mb();"],
  ["atomic_thread_fence(memory_order_acq_rel); std::atomic_thread_fence(std::memory_order_release); smp_wmb(); smp_rmb();", "", "smp_wmb();"],
  ["asm volatile (\"mfence\" ::: \"memory\"); __asm__ __volatile__(\"\" : : : \"memory\"); _mm_mfence(); std::atomic_signal_fence(std::memory_order_seq_cst);",
    "MFENCE; MFENCE", "asm volatile(\"mfence\":::\"memory\"); barrier(); _mm_mfence();"],
  ["asm volatile(\"lock; addl $0,0(%%rsp)\" ::: \"memory\", \"cc\"); __asm__ __volatile__(\"lock orq $0x0, -8(%%rsp)\" : : : \"memory\");", "MFENCE; MFENCE",
    "asm volatile(\"lock addl $0, (%%esp)\":::\"memory\"); smp_mb();"],
  ["_mm_sfence(); v = 1; _mm_lfence(); _mm_pause(); std::this_thread::yield(); asm volatile(\"pause\" ::: \"memory\"); __asm__ __volatile__(\"sfence\" ::: \"memory\");",
    "MOV [v],$1", "_mm_sfence(); *v = 1; _mm_lfence(); cpu_relax(); sched_yield();"],
  // What gcc and clang have besides.
  ["__atomic_store_n(&x, 1, __ATOMIC_RELEASE); __atomic_store_n(&v, 2, __ATOMIC_SEQ_CST); int r0 = __atomic_load_n(&y, __ATOMIC_ACQUIRE);",
    "MOV [x],$1; MOV EBX,$2; XCHG [v],EBX; MOV EAX,[y]",
    "__atomic_store_n(x, 1, __ATOMIC_RELEASE); __atomic_store_n(v, 2, __ATOMIC_SEQ_CST); int r0 = __atomic_load_n(y, __ATOMIC_ACQUIRE);"],
  ["int r0 = __atomic_exchange_n(&x, 1, __ATOMIC_ACQ_REL); int r1 = __atomic_fetch_add(&y, 2, __ATOMIC_RELAXED); __atomic_fetch_sub(&v, 1, __ATOMIC_SEQ_CST);",
    "MOV EAX,$1; XCHG [x],EAX; MOV EBX,$2; LOCK XADD [y],EBX; MOV ECX,$4294967295; LOCK XADD [v],ECX", null],
  ["__atomic_thread_fence(__ATOMIC_SEQ_CST); __atomic_thread_fence(__ATOMIC_ACQ_REL); __atomic_signal_fence(__ATOMIC_SEQ_CST); __sync_synchronize();",
    "MFENCE; MFENCE", "__atomic_thread_fence(__ATOMIC_SEQ_CST); __sync_synchronize();"],
  ["int r0 = __sync_lock_test_and_set(&v, 1); __sync_lock_release(&v); __sync_fetch_and_add(&x, 3);",
    "MOV EAX,$1; XCHG [v],EAX; MOV [v],$0; MOV EBX,$3; LOCK XADD [x],EBX",
    "int r0 = __sync_lock_test_and_set(v, 1); __sync_lock_release(v); __sync_fetch_and_add(x, 3);"],
  // A return at the end.
  ["x = 1; return;", "MOV EAX,$1; XCHG [x],EAX", "*x = 1; return ; "],
  ["return;", "", "return;"],
  // Variables that no other thread uses.
  ["p = x;", "MOV EAX,[x]", null],
  ["p = x; p += 2; y.store(p, std::memory_order_relaxed);", "MOV EAX,[x]; ADD EAX,$2; MOV [y],EAX", null],
  ["int r0 = q;", "MOV EAX,[q]", "int r0 = *q;"],
];

const GLOBALS = "#include <stdatomic.h>\natomic_int x, y;\nvolatile int v;\nint p, q = 3;\n";
const OTHER = "void P1(void) { int r9 = q; }\n";
const POINTERS = "atomic_int* x, atomic_int *y, volatile int* v, int* q";

// Programs with a `main`: what comes before `main`, what is in it, the instructions of all threads, and the question.
const ATOMICS = "std::atomic<int> x{0}, y{0};\nint r1, r2;\n";
const STORE_THEN_LOAD = ["MOV [x],$1; MOV EAX,[y]", "MOV [y],$1; MOV EAX,[x]"];
const FIRST_LAMBDA = "[&] { x.store(1, std::memory_order_relaxed); r1 = y.load(std::memory_order_relaxed); }";
const SECOND_LAMBDA = "[&]() mutable -> void { y.store(1, std::memory_order_relaxed); r2 = x.load(std::memory_order_relaxed); }";
const TWO_THREADS = `std::thread t1(${FIRST_LAMBDA}); std::thread t2(${SECOND_LAMBDA});`;
const JOINS = "t1.join(); t2.join();";
const FUNCTIONS = `void *writer(void *);
void *writer(void *arg) { (void)arg; x.store(1, std::memory_order_relaxed); r1 = y.load(std::memory_order_relaxed); return NULL; }
static void* reader(void* unused) { y.store(1, std::memory_order_relaxed); r2 = x.load(std::memory_order_relaxed); return 0; }
void left_out(int i) { x = i; }
`;
const FUNCTIONS_OF_C11 = FUNCTIONS.replace(/void ?\* ?(?=writer|reader)/g, "int ").replace("return NULL", "return 0");
const BOTH_0 = "exists (0:EAX=0 /\\ 1:EAX=0)";
const NEVER = `~${BOTH_0}`;
const MAINS = [
  [ATOMICS, `${TWO_THREADS} ${JOINS} printf("r1=%d; x++ // (%d)\\n", r1, r2); return 0;`, STORE_THEN_LOAD, BOTH_0],
  ["", `std::atomic<int> x{0}, y{0}; int r1 = 0, r2 = 0; ${TWO_THREADS} ${JOINS} assert(!(r1 == 0 && r2 == 0));`, STORE_THEN_LOAD, NEVER],
  [ATOMICS, `${TWO_THREADS} ${JOINS} if (r1 == 0 && !r2) { puts("both"); } else puts("no");`, STORE_THEN_LOAD, BOTH_0],
  [ATOMICS, `${TWO_THREADS} ${JOINS} if (r1 == 0) { if (!r2) puts("both"); } exit(0); return 0;`, STORE_THEN_LOAD, BOTH_0],
  [ATOMICS, `${TWO_THREADS} ${JOINS} if (r1 == 0) { if (!r2) puts("both"); else puts("one"); }`, STORE_THEN_LOAD, "exists (0:EAX=0)"],
  [ATOMICS, `${TWO_THREADS} ${JOINS} assert(r1 || 0 != r2);`, STORE_THEN_LOAD, NEVER],
  [ATOMICS, `${TWO_THREADS} ${JOINS} assert(r1 == 1 || r2 == 1);`, STORE_THEN_LOAD, "forall (0:EAX=1 \\/ 1:EAX=1)"],
  [ATOMICS, `${TWO_THREADS} ${JOINS} assert(x.load() == 1); assert((r1 == 1 || r2 == 1) && y == 1);`, STORE_THEN_LOAD,
    "forall (x=1 /\\ (0:EAX=1 \\/ 1:EAX=1) /\\ y=1)"],
  [ATOMICS, `${TWO_THREADS} ${JOINS} assert(r1 != 2); assert(!(r2 == 2 || r2 == 3));`, STORE_THEN_LOAD, "~exists (0:EAX=2 \\/ 1:EAX=2 \\/ 1:EAX=3)"],
  [ATOMICS, `${TWO_THREADS} ${JOINS} assert(!(r1 == 0 && r2 != 0));`, STORE_THEN_LOAD, "forall (~0:EAX=0 \\/ 1:EAX=0)"],
  ["std::atomic<int> x;\n", `constexpr int N = 2; x = N; std::thread a([&] { constexpr auto M = 3; x.store(M, std::memory_order_relaxed); }); a.join(); assert(x != N);`,
    ["MOV [x],$3"], "~exists (x=2)"],
  [ATOMICS, `{ std::jthread a(${FIRST_LAMBDA}), b{${SECOND_LAMBDA}}; } assert(r1 == 1 || r2 == 1);`, STORE_THEN_LOAD, "forall (0:EAX=1 \\/ 1:EAX=1)"],
  [ATOMICS, `std::jthread a(${FIRST_LAMBDA}); auto f = ${SECOND_LAMBDA}; std::jthread b(f);`, STORE_THEN_LOAD, BOTH_0],
  [ATOMICS, `std::thread a, b; b = std::thread(${SECOND_LAMBDA}); a = std::thread(${FIRST_LAMBDA}); a.join(); b.join();`, [...STORE_THEN_LOAD].reverse(), BOTH_0],
  [ATOMICS, `std::vector<std::thread> ts; ts.emplace_back(${FIRST_LAMBDA}); ts.push_back(std::thread(${SECOND_LAMBDA})); for (auto& t : ts) { t.join(); }`,
    STORE_THEN_LOAD, BOTH_0],
  [ATOMICS + FUNCTIONS, `pthread_t a, b; pthread_create(&a, NULL, reader, NULL); pthread_create(&b, NULL, writer, (void *)1); pthread_join(a, NULL);
  pthread_join(b, NULL);`, [...STORE_THEN_LOAD].reverse(), BOTH_0],
  [ATOMICS + FUNCTIONS_OF_C11, `x = 0; y.store(3); thrd_t t[2]; thrd_create(&t[0], writer, NULL); thrd_create(&t[1], &reader, 0);
  for (int i = 0; i < 2; ++i) thrd_join(t[i], NULL); if (y == 3) puts("");`, STORE_THEN_LOAD, "exists (y=3)"],
  ["atomic_int x;\nvoid *f(void *a) { x++; return NULL; }\n", `pthread_t t[2]; for (int i = 0; i < 2; i++) { pthread_create(&t[i], NULL, f, NULL); } for (int i = 0; i < 2; i++)
  pthread_join(t[i], NULL);`, Array(2).fill("MOV EAX,$1; LOCK XADD [x],EAX"), "exists (true)"],
  ["atomic_int x;\nvoid *f(void *a) { x++; pthread_exit(NULL); }\n", `pthread_t a; int status; if (pthread_create(&a, NULL, f, NULL) != 0) return 1;
  status = pthread_join(a, NULL); assert(x == 1 && "once; (1)");`, ["MOV EAX,$1; LOCK XADD [x],EAX"], "forall (x=1)"],
  ["std::atomic<int> x;\n", `std::vector<std::thread> ts; for (int n = 0; n != 3; ++n) ts.emplace_back([&] { x++; }); for (auto& t : ts) t.join();`,
    Array(3).fill("MOV EAX,$1; LOCK XADD [x],EAX"), "exists (true)"],
  ["atomic_int x;\nvoid f() { x++; }\n", `std::thread a(f), b(f); a.join(); b.join(); assert(x == 2);`, Array(2).fill("MOV EAX,$1; LOCK XADD [x],EAX"), "forall (x=2)"],
  [ATOMICS, `int n = 0; for (int i = 0; i < 100000; i++) { x = 0; y.store(0); ${TWO_THREADS} ${JOINS} if (r1 == 0 && r2 == 0) ++n; } printf("%d", n);`,
    STORE_THEN_LOAD, BOTH_0],
  [ATOMICS + FUNCTIONS, `int n = 0; for (size_t i = 1;; ++i) { x = 2; y = 0; r1 = 0; pthread_t a, b; pthread_create(&a, NULL, writer, NULL);
  pthread_create(&b, NULL, reader, NULL); pthread_join(a, NULL); pthread_join(b, NULL); if (!r1 && !r2) { n += 1; printf("%d", i); break; } n++; }`,
    STORE_THEN_LOAD, BOTH_0],
  [ATOMICS, `while (true) { x = 0; y = 0; ${TWO_THREADS} ${JOINS} assert(r1 || r2); }`, STORE_THEN_LOAD, NEVER],
  ["std::mutex m; int n; int r1;\n", `for (;;) { n = 0; std::thread a([&] { m.lock(); n++; m.unlock(); }), b([&] { std::scoped_lock g(m); n++; r1 = 2; }); a.join(); b.join(); }`,
    ["MOV EAX,$1; XCHG [m],EAX; MOV EBX,[n]; ADD EBX,$1; MOV [n],EBX; MOV EBX,$0; XCHG [m],EBX",
      "MOV EAX,$1; XCHG [m],EAX; MOV ECX,[n]; ADD ECX,$1; MOV [n],ECX; MOV EBX,$2; MOV ECX,$0; XCHG [m],ECX"],
    "~exists (0:EAX=0 /\\ 1:EAX=0 /\\ ~n=2)"],
  // Relations of variables, which are 0 or 1.
  [ATOMICS, `${TWO_THREADS} ${JOINS} assert(r1 + r2 >= 1);`, STORE_THEN_LOAD, NEVER],
  [ATOMICS, `${TWO_THREADS} ${JOINS} assert(r1 > 0 || 1 <= r2);`, STORE_THEN_LOAD, NEVER],
  [ATOMICS, `${TWO_THREADS} ${JOINS} assert(!(r1 < r2));`, STORE_THEN_LOAD, "~exists (0:EAX=0 /\\ 1:EAX=1)"],
  [ATOMICS, `${TWO_THREADS} ${JOINS} assert(x.load() == atomic_load_explicit(&y, std::memory_order_relaxed));`, STORE_THEN_LOAD,
    "~exists (x=0 /\\ y=1 \\/ x=1 /\\ y=0)"],
  [ATOMICS, `${TWO_THREADS} ${JOINS} if (r1 == r2 && x > y) puts("");`, STORE_THEN_LOAD,
    "exists ((0:EAX=0 /\\ 1:EAX=0 \\/ 0:EAX=1 /\\ 1:EAX=1) /\\ x=1 /\\ y=0)"],
  [ATOMICS, `${TWO_THREADS} ${JOINS} if (r1 + r2 < 2 * x) puts("");`, STORE_THEN_LOAD, 
    "exists (0:EAX=0 /\\ x=1 \\/ 0:EAX=1 /\\ 1:EAX=0 /\\ x=1)"],
  [ATOMICS, `${TWO_THREADS} ${JOINS} assert(r1 >= 0);`, STORE_THEN_LOAD, "forall (0:EAX=0 \\/ 0:EAX=1)"],
  [ATOMICS, `${TWO_THREADS} ${JOINS} assert(r1 - 1 < 0);`, STORE_THEN_LOAD, "~exists (0:EAX=1)"],
  [ATOMICS, `${TWO_THREADS} ${JOINS} assert(r1 > -1 && r2 != -2);`, STORE_THEN_LOAD, "forall ((0:EAX=0 \\/ 0:EAX=1) /\\ ~1:EAX=4294967294)"],
  // Assertions in branches.
  [ATOMICS, `${TWO_THREADS} ${JOINS} if (r1 == 0) { assert(r2 == 1); }`, STORE_THEN_LOAD, "forall (~0:EAX=0 \\/ 1:EAX=1)"],
  [ATOMICS, `${TWO_THREADS} ${JOINS} if (!r1) assert(r2 != 0 && "a (b"); else if (x == 1) { puts(""); assert(y == 1); }`, STORE_THEN_LOAD,
    "forall ((~0:EAX=0 \\/ ~1:EAX=0) /\\ (0:EAX=0 \\/ ~x=1 \\/ y=1))"],
  [ATOMICS, `${TWO_THREADS} ${JOINS} assert(x == 1); if (r1 < r2) { if (y) { assert(r1 == r2); } return 1; } return 0;`, STORE_THEN_LOAD,
    "forall (x=1 /\\ (~0:EAX=0 \\/ ~1:EAX=1 \\/ y=0 \\/ 0:EAX=0 /\\ 1:EAX=0 \\/ 0:EAX=1 /\\ 1:EAX=1))"],
  [ATOMICS, `${TWO_THREADS} ${JOINS} if (!r1 && !r2) { puts(""); assert(false); }`, STORE_THEN_LOAD, NEVER],
  // Variables of `main` that have values.
  [ATOMICS, `${TWO_THREADS} ${JOINS} bool both = r1 == 0 && r2 == 0; assert(!both);`, STORE_THEN_LOAD, NEVER],
  [ATOMICS, `${TWO_THREADS} ${JOINS} const int sum = r1 + r2; bool some = sum; int twice = sum * 2; if (some != 1 || twice == 0) puts("");`, STORE_THEN_LOAD, BOTH_0],
  [ATOMICS, `${TWO_THREADS} ${JOINS} int a = x.load(); int b = y; assert(a <= b);`, STORE_THEN_LOAD, "~exists (x=1 /\\ y=0)"],
  [`${ATOMICS}// lw: exists (r1=7)\n`, `${TWO_THREADS} ${JOINS} assert(r1 == 0);`, STORE_THEN_LOAD, "exists (0:EAX=7)"],
];
// What is refused in a `main`: a part of the program, what is in its place, and why.
const MAIN = `${ATOMICS}int main() {
  ${TWO_THREADS}
  ${JOINS}
  assert(r1 == 1 || r2 == 1);
}
`;
const OF_LOOPS = ": write out each pass of a loop. `tools/from_c.py` follows loops";
const OF_RUNNING = ": while threads run, `main` only starts others and joins them, so give this to a thread of its own";
const OF_BEFORE = ": before its threads, `main` only declares variables, and sets them to constants, as `x = 0;`";
const OF_RUNS = ": one run is enough, since the page lists all final states";
const OF_FORMULAS = ": what `main` asks compares variables, constants and sums of them, joined by `&&` and `||`";
const OF_LEFT = ": an assertion follows no `return` in a branch";
const OF_WORDS = ": the page writes the words for which this holds, and here these are too many, or not known";
const OF_SIGNS = ": here words below 0 are compared or computed with, and types without a sign are in the program, so that it is not sure what holds";
const makeUnset = (name) => `: its passes begin alike if it sets \`${name}\` before the threads`;
const REFUSED_MAINS = [
  ["  std::thread t1", "  for (int i = 0; i < 9; i++) { puts(\"\"); } std::thread t1", `\`for (int i = 0; i < 9; i++)\`${OF_RUNS}`],
  ["  std::thread t1", "  for (;;) {} std::thread t1", `\`for (;;)\`${OF_RUNS}`],
  ["int main", "void set() { x = 3; return; y = 4; }\nint main", "`y = 4`: no run comes here after a `return`", "  std::thread t1", "  set(); std::thread t1"],
  ["  std::thread t1", "  return 0; std::thread t1", "`std::thread t1([&] { x.store(1, std::mem..`: no run comes here after a `return`"],
  ["  assert", "  r1++; assert", "`r1++`: after the joins, `main` only prints, or asks by an `assert` or an `if`"],
  ["  std::thread t1", "  int i = y; std::thread t1", "`int i = y`: an initial value is one constant, as in `x = 1` or `x{1}`, and of a `bool` 0 or 1"],
  ["  std::thread t1", "  x++; std::thread t1", `\`x++\`${OF_BEFORE}`],
  ["  std::thread t1", "  int r1; std::thread t1", "`int r1`: give it a name that no other variable has"],
  ["  t1.join();", "  printf(\"%d\", x++); t1.join();", `\`printf("%d", x++)\`${OF_RUNNING}`],
  ["  t1.join();", "  t1.join(); std::thread t3([] { x = 2; });", "`std::thread t3([] { x = 2; })`: `main` starts all threads before it joins one"],
  ["int main", "void cpu_relax() { x = 3; }\nint main", `\`while (x == 0)\`${OF_LOOPS}`, "[&] {", "[&] { while (x == 0) { cpu_relax(); }"],
  ["int main", "void barrier() { x = 3; barrier(); }\nint main", "`barrier()`: write what the function does in its place", "[&] {", "[&] { barrier();"],
  ["  t1.join();", "  exit(0); t1.join();", `\`exit(0)\`${OF_RUNNING}`],
  ["  t1.join();", "  t1.join(); t1.join();", "`t1.join()`: no thread that runs has this name"],
  ["  t1.join();", "", "`assert(r1 == 1 || r2 == 1)`: `main` joins all threads before"],
  ["t2.join();\n  assert(r1 == 1 || r2 == 1);", "", "`}`: `main` joins each thread, and not `t2`"],
  ["  std::thread t1([&] {", "  int z = 2; std::thread t1([=] { r1 = z;", "`[=] { r1 = z; x.store(1, std::memory_ord..`: a lambda has its variables by reference, as `[&]`"],
  ["std::thread t2(", "std::thread t2(f, ", "`std::thread t2(f, [&]() mutable -> void ..`: a thread begins with a function or a lambda, and has an argument for each parameter"],
  ["[&] {", "[&](int i) {", "`std::thread t1([&](int i) { x.store(1, s..`: a thread begins with a function or a lambda, and has an argument for each parameter"],
  ["  assert", "  x = 3; assert", "`x = 3`: after the joins, `main` only prints, or asks by an `assert` or an `if`"],
  ["  assert", "  if (r1 == 3) x = 3; assert", "`x = 3`: after the joins, `main` only prints, or asks by an `assert` or an `if`"],
  ["  assert", "  if (r1 == 3) puts(\"\"); assert", "`assert(r1 == 1 || r2 == 1)`: `main` asks only once"],
  ["r1 == 1 ||", "r1 == &r2 ||", `\`assert(r1 == &r2 || r2 == 1)\`${OF_FORMULAS}`],
  ["r1 == 1 ||", "r1++ > 1 ||", `\`assert(r1++ > 1 || r2 == 1)\`${OF_FORMULAS}`],
  ["r1 == 1 ||", "(r1 ? 1 : 2) < 2 ||", `\`assert((r1 ? 1 : 2) < 2 || r2 == 1)\`${OF_FORMULAS}`],
  ["r1 == 1 || r2 == 1", "r1 - r2 < 1", `\`assert(r1 - r2 < 1)\`${OF_SIGNS}`, "int r1", "unsigned r1"],
  ["r1 == 1 || r2 == 1", "r1 < 1", `\`assert(r1 < 1)\`${OF_WORDS}`, "r1 = y", "r1 = 0; x++; x++; x++; x++; x++; x++; x++; x++; x++; r1 = x"],
  ["  assert", "  int n = x++; assert", "`int n = x++`: after the joins, `main` only prints, or asks by an `assert` or an `if`"],
  ["  assert", "  bool n = r1; n = true; assert", "`n = true`: after the joins, `main` only prints, or asks by an `assert` or an `if`"],
  ["  t1.join();", "  bool n = r1 == 0; t1.join();", `\`bool n = r1 == 0\`${OF_RUNNING}`],
  ["  assert", "  if (r1) { return 0; assert(r2); } assert", `\`assert(r2)\`${OF_LEFT}`],
  ["  assert", "  if (r1) { assert(r2); return 0; } assert", `\`assert(r1 == 1 || r2 == 1)\`${OF_LEFT}`],
  ["  assert", "  if (r1) { assert(r2); x = 3; } assert", "`x = 3`: after the joins, `main` only prints, or asks by an `assert` or an `if`"],
  ["r1 == 1 ||", "r1 = 1 ||", `\`assert(r1 = 1 || r2 == 1)\`${OF_FORMULAS}`],
  ["r1 == 1 ||", "r3 == 1 ||", "`r3`, of which the question asks: nothing sets it"],
  ["x.store", "x.exchange", "`x.exchange(1, std::memory_order_relaxed)`, of which compilers make different code"],
];

// What is refused in a loop of runs: the same.
const RUNS = MAIN.replace("  std::thread t1", "  while (1) { x = 0; y = 0; std::thread t1").replace("  assert", "  } assert");
const REFUSED_RUNS = [
  ["y = 0;", "", `\`while (1)\`${makeUnset("y")}`], ["r1 =", "if (x) r1 =", `\`while (1)\`${makeUnset("r1")}`],
  ["r1 =", "r1 +=", `\`while (1)\`${makeUnset("r1")}`], ["r1 =", "x = r1++; r1 =", `\`while (1)\`${makeUnset("r1")}`],
  ["r1 =", "r1 = r1 + 1; r1 =", `\`while (1)\`${makeUnset("r1")}`], ["r2 =", "if (x) return; r2 =", `\`while (1)\`${makeUnset("r2")}`],
  ["while (1)", "for (int i = 0; i < y; i += 2)", `\`for (int i = 0; i < y; i += 2)\`${OF_RUNS}`],
  ["while (1) { x = 0", "for (int i = 0; i < 9; i++) { x = i", `\`x = i\`${OF_BEFORE}`],
];

// What is refused: a part of a program and what is in its place, and why.
const PROGRAM = `atomic_int x, y; int d;
void P0(void) { x = 1; int r0 = y; }
void P1(void) { y = 1; int r0 = x; }
// lw: exists (0:r0=0 /\\ 1:r0=0)
`;
const OF_GLOBALS = ": outside of threads are only declarations of integers and `bool`, as `atomic_int x = 1;`";
const OF_VALUES = ": an initial value is one constant, as in `x = 1` or `x{1}`, and of a `bool` 0 or 1";
const OF_PLAIN_LOOPS = ": a compiler may load a plain variable only once, so make it atomic or volatile";
const OF_BRANCHES = ": a loop that waits is in no branch, and after no `return`";
const OF_FIXED = ": a loop or an assertion has the value of this variable, so set another one";
const OF_OTHERS = ": a statement is one load, store, exchange, addition or fence, or an `if`";
const OF_ORDER = ", of which compilers make different code";
const OF_BOOLS = ": a `bool` is set to `true`, `false`, or another `bool` that is loaded";
const OF_SUBTRACTION = ": the x86 format subtracts constants only";
const OF_COMPARISONS = ": compare in the condition of an `if`";
const OF_NAMES = ": all functions are threads, `P0`, `P1` and so on, in this order";
const UNSET = ", of which the question asks: nothing sets it";
const OF_CONDITIONS = ": a condition compares by `==` or `!=`, and has `&&` or, in an `if`, `||`";
const OF_STEPS = ": write `++` and `--` of a thread's own variable in a statement of its own";
const OF_PLAIN_STEPS = ": write `++` and `--` of a variable that is not atomic in a statement of its own";
const OF_LOADS = ": load each shared variable into one of the thread first, since compilers choose which is first";
const OF_PATHS = ", of which the question asks: declare it outside of blocks, with a value, as `int r0 = 0`";
const OF_SWAPS = ": a compare-exchange is rewritten if its variable is only ever set to the two constants that it names";
const OF_NO_CONSTANTS = ": a compare-exchange is rewritten only from one constant to another";
const OF_CAS = ": the x86 format has no compare-and-swap. `tools/from_c.py` follows it";
const OF_ENDS = ": its `;` is missing";
const OF_SIDES = ": compare with a constant or a variable of the thread";
const OF_VALUE = " has no value on some path to here";
const OF_LONE = ": give it a name that no other variable has";
const OF_FENCES = ": a fence is `atomic_thread_fence(memory_order_seq_cst)`";
const OF_CONSTANTS = ": a constant is decimal, or `0x` and hexadecimal, of 32 bits";
const OF_ASSIGNMENTS = ": write each assignment as a statement of its own";
const OF_PAIRS = ": a loop that exchanges needs a variable that is only set to the constant that it writes, and to the one at which it ends";
const OF_MUTEXES = ": only a mutex, as `std::mutex m`, is locked and unlocked";
const OF_GUARDS = ": a guard is locked and unlocked in no branch";
const OF_RELATIONS = ": the page writes a condition as equalities, and here the words that are compared are too many, or not known, so compare by `==`";
const OF_KNOWN = ": an index is a constant, or comes from a variable that only this thread writes, and that has a known constant then";
const OF_INDICES = ": an array is shared, and its indices are constants in it, as `a[0]`";
const OF_SMALL = ": a variable of 8 or 16 bits is set to a constant from 0 to 127, or to another one that is loaded";
const OF_WIDE = ": the page takes words of 64 bits as words of 32, which sums or constants of this program may exceed";
const OF_REGISTERS = ", which needs more than six registers";
const OF_ENTRIES = ": initial values are entries as `x=1;`";
const OF_BRANCHED = ": an `if` around an assertion compares variables, which keep their words after it";
const OF_RETURNS = ": before an assertion, a `return` is the end of an `if` that is in no other one";
const OF_POINTERS = ": a pointer is rewritten only if the program makes one object of its type, so write variables in place of pointers, and of what they point to";
const OF_WAITS = ", so write a loop that waits for a variable, as `while (x == 0) ;`";
const OR_WAITS = OF_WAITS.replace("so", "or");
const OF_CHOICES = ": what `?` chooses are constants and variables of the thread";
const OF_SUMS = ": give what is added a variable of its own";
const OF_ASSERTIONS = ": an assertion compares variables, constants and sums of them, joined by `&&` and `||`";
const OF_ENDLESS = ": the thread may still wait after this, in a loop or for a lock, so assert it at the end of `main`";
const OF_OTHER_THREADS = ": another thread may still wait then, in a loop or for a lock, so load it into a variable here, as `int r0 = x;`, and assert that at the end of `main`";
const NO_ORDER = ": no order of memory has this name; they are `relaxed`, `consume`, `acquire`, `release`, `acq_rel` and `seq_cst`";
const OF_DIRECTIVES = ": leave out `#if` and its like, with what is not compiled";
const REFUSED = [
  ["int r0 = y;", "int r0 = y; int n = (r0 + 1) & 1;", "`int n = (r0 + 1) & 1`: the x86 format has sums only"],
  ["int r0 = y;", "int r0 = y; int n = r0 &d;", "`int n = r0 &d`: the x86 format has sums only"],
  ["int r0 = y;", "int r0 = y; long n = &d;", "`long n = &d`: threads have no pointers of their own"],
  ["int r0 = y;", "if (y == 1) { int r0 = 1; }", `\`0:r0\`${OF_PATHS}`],
  ["int r0 = y;", "while (y != 1) ;", `\`0:r0\`${UNSET}`],
  ["int r0 = y;", "for (unsigned k = 3; k >= 0; k--) x = k;", `\`for (unsigned k = 3; k >= 0; k--)\`${OF_LOOPS}`],
  ["int r0 = y;", "for (size_t k = 3; k > 0; k -= 2) x = k;", `\`for (size_t k = 3; k > 0; k -= 2)\`${OF_LOOPS}`],
  ["int r0 = y;", "for (int8_t k = 126; k <= 127; k++) x = 1;", `\`for (int8_t k = 126; k <= 127; k++)\`${OF_LOOPS}`],
  ["int r0 = y;", "for (int i = 0; i < 5; i++) { for (int k = 0; k < 5; k++) { x = k; } }",
    "`for (int k = 0; k < 5; k++)`: count to 2 or 3 here, since a thread of a test has 32 instructions at most"],
  ["int d;", "struct { int a; } s; int s_a;", "`int s_a;`: give it a name that no other variable has"],
  ["int r0 = y;", "int r0 = 5; if (y) { while ((r0 = x) != 0) ; }", `\`while ((r0 = x) != 0)\`${OF_BRANCHES}`],
  ["int r0 = y;", "{ int k = 3; if (y) x = k; } if (y) { int k; while ((k = x) != 0) ; }", `\`while ((k = x) != 0)\`${OF_BRANCHES}`],
  ["int r0 = y;", "int e = 1; if (y) { do { e = 0; } while (!x.compare_exchange_weak(e, 1)); }", `\`do { e = 0; } while (!x.compare_exchange..\`${OF_BRANCHES}`],
  ["int r0 = y;", "const int k = 1; { constexpr int n = 2; { constexpr int n = 3; x = n; } } int r0 = y;", `\`constexpr int n = 3\`${OF_LONE}`],
  ["int r0 = y;", "constexpr auto o = std::memory_order_release; { constexpr auto o = std::memory_order_seq_cst; x.store(1, o); } int r0 = y;",
    `\`constexpr auto o = std::memory_order_seq..\`${OF_LONE}`],
  ["int d;", "enum { A, B }; int d;", `\`int B = 2\`${OF_LONE}`, "int r0 = y;", "int B = 2; int r0 = y;"],
  ["int d;", "namespace n { atomic_int z; } atomic_int z;", `\`atomic_int z;\`${OF_LONE}`],
  ["int d;", "namespace n { constexpr int z = 1; } constexpr int z = 2;", `\`constexpr int z = 2;\`${OF_LONE}`],
  ["int d;", "namespace n { struct S { int z; }; } struct S { atomic_int z; };", `\`struct S { atomic_int z; };\`${OF_LONE}`],
  ["int r0 = y;", "int r0 = y; r0 *= 2;", "`r0 *= 2`: the x86 format has sums only"],
  ["int r0 = y;", "while (1) ;", `\`while (1)\`${OF_LOOPS}`],
  ["int r0 = y;", "int r0 = y; while (r0 == 1) ;", `\`while (r0 == 1)\`${OF_LOOPS}`],
  ["int r0 = y;", "while (y || x.exchange(1) || v) ;", `\`while (y || x.exchange(1) || v)\`${OF_LOOPS}`],
  ["int r0 = y;", "while (y || d) ;", `\`while (y || d)\`${OF_PLAIN_LOOPS}`, "y = 1;", "d = 1;"],
  ["int r0 = y;", "int r0 = y; if (r0) while (y && x) ; else while (!y || x) ;", `\`while (!y || x)\`${OF_BRANCHES}`],
  ["0:r0=0", "y=0", `\`while (y.exchange(1))\`${OF_PAIRS}`, "int r0 = y; }\nvoid P1(void) { y = 1;", "while (y.exchange(1)) ; }\nvoid P1(void) { y = 2;"],
  ["0:r0=0", "y=0", `\`while (y.exchange(1))\`${OF_PAIRS}`, "int r0 = y; }\nvoid P1(void) {", "while (y.exchange(1)) ; y--; }\nvoid P1(void) {"],
  ["atomic_int x, y", "atomic_int x, y = 2", `\`while (y.exchange(1))\`${OF_PAIRS}`, "int r0 = y; }\nvoid P1(void) {",
    "int r0 = 0; while (y.exchange(1)) ; }\nvoid P1(void) {"],
  ["int r0 = y;", "while (!x.exchange(1)) ;", `\`while (!x.exchange(1))\`${OF_LOOPS}`],
  ["int r0 = y;", "while (x.exchange(1) == 2) ;", `\`while (x.exchange(1) == 2)\`${OF_LOOPS}`],
  ["int r0 = y;", "while (x.exchange(y)) ;", `\`while (x.exchange(y))\`${OF_LOOPS}`],
  ["int r0 = y;", "while (x.exchange(1, std::memory_order_relaxed)) ;", `\`while (x.exchange(1, std::memory_order_r..\`${OF_ORDER}`],
  ["int r0 = y;", "while (x.exchange(1)) while (y.exchange(1)) ;", `\`while (x.exchange(1))\`${OF_LOOPS}`],
  ["int r0 = y;", "while (x.exchange(1)) while (z) ;", `\`while (x.exchange(1))\`${OF_LOOPS}`],
  ["int r0 = y;", "while (true) { if (!x.exchange(1)) break; y = 2; }", `\`while (true)\`${OF_LOOPS}`],
  ["int r0 = y;", "for (;;) { if (x.exchange(1)) break; }", `\`for (;;) { if (x.exchange(1))\`${OF_LOOPS}`],
  ["int r0 = y;", "y.lock();", `\`y.lock()\`${OF_MUTEXES}`],
  ["int r0 = y;", "std::lock_guard<std::mutex> g(y);", `\`std::lock_guard<std::mutex> g(y)\`${OF_MUTEXES}`],
  ["int d;", "std::mutex d;", "`d = 1`: `d` is a mutex, which is only locked and unlocked", "x = 1;", "d = 1;"],
  ["int d;", "std::mutex d;", `\`g.unlock()\`${OF_GUARDS}`, "x = 1;", "std::unique_lock g(d); if (x) g.unlock();"],
  ["int d;", "std::mutex d;", `\`P0\`${OF_REGISTERS}`, "x = 1;", "d.lock(); d.unlock(); ".repeat(7)],
  ["int d;", "std::mutex d = 1;", `\`std::mutex d = 1;\`${OF_GLOBALS}`],
  ["int r0 = y;", "do x = y; while (x != 1);", `\`do x = y; while (x != 1)\`${OF_LOOPS}`],
  ["int r0 = y;", "int r0; do r0 = y; while (y != 1);", `\`do r0 = y; while (y != 1)\`${OF_LOOPS}`],
  ["int r0 = y;", "int r0; do r0 = y; while (r0 != 1); r0++;", `\`r0++\`${OF_FIXED}`],
  ["int r0 = y;", "int r0; do r0 = y; while (r0 != 1); int r1 = r0++;", `\`int r1 = r0++\`${OF_STEPS}`],
  ["int r0 = y;", "{ int r0; do r0 = y; while (r0 != 1); } int r0 = 2;", `\`int r0 = 2\`${OF_FIXED}`],
  ["int r0 = y;", "int r0 = y; if (r0) while (y != 1) ;", `\`while (y != 1)\`${OF_BRANCHES}`],
  ["int r0 = y;", "int r0 = y; if (r0) return; while (y != 1) ;", `\`while (y != 1)\`${OF_BRANCHES}`],
  ["int r0 = y;", "while (d != 1) ;", `\`while (d != 1)\`${OF_PLAIN_LOOPS}`, "y = 1;", "d = 1;"],
  ["int r0 = y;", "while (!d) { cpu_relax(); }", `\`while (!d)\`${OF_PLAIN_LOOPS}`, "y = 1;", "d = 1;"],
  ["int r0 = y;", "while (!d) ;", `\`while (!d)\`${OF_LOOPS}`],
  ["int r0 = y;", "for (int i = 0; i < 3; i++) { if (x) break; }", `\`for (int i = 0; i < 3; i++)\`${OF_LOOPS}`],
  ["int r0 = y;", "for (int i = 0; i < 3; i++) { x = i; i += x; }", `\`for (int i = 0; i < 3; i++)\`${OF_LOOPS}`],
  ["int r0 = y;", "for (int i = 0; i < n; i++) x = i;", `\`for (int i = 0; i < n; i++)\`${OF_LOOPS}`],
  ["int r0 = y;", "for (int i = 0; i < 1000; i++) x++;",
    "`for (int i = 0; i < 1000; i++)`: count to 2 or 3 here, since a thread of a test has 32 instructions at most"],
  ["int r0 = y;", "int r0 = y; return r0;", "`return r0`: a thread that returns a value is `int P0(void)`"],
  ["x = 1;", "x = 1; return;", "`int r0 = y`: no run comes here after a `return`"],
  ["int r0 = y;", "int r0 = *x++;", `\`int r0 = *x++\`${OF_OTHERS}`],
  ["x = 1;", "x = 1, memory_order_relaxed;", `\`x = 1, memory_order_relaxed\`${OF_OTHERS}`],
  ["int r0 = y;", "int a = y, b = y, c = y, e = y, f = y, g = y, h = y; x = h;", `\`P0\`${OF_REGISTERS}`],
  ["int r0 = y;", "L: int r0 = y;", "`L: int r0 = y`: `goto` and labels are not rewritten"],
  ["int r0 = y;", "int r0 = y * 2;", "`int r0 = y * 2`: the x86 format has sums only"],
  ["int r0 = y;", "int r0 = y + x;", `\`int r0 = y + x\`${OF_LOADS}`],
  ["int r0 = y;", "int r0 = y; r0 -= 2 - 1;", `\`r0 -= 2 - 1\`${OF_SUBTRACTION}`],
  ["int r0 = y;", "y -= 2 - 1;", `\`y -= 2 - 1\`${OF_SUBTRACTION}`],
  ["int r0 = y;", "int r0 = atomic_fetch_sub(&y, 1 + 1);", `\`int r0 = atomic_fetch_sub(&y, 1 + 1)\`${OF_SUBTRACTION}`],
  ["int r0 = y;", "int d = y;", `\`int d = y\`${OF_LONE}`],
  ["int r0 = y;", "x = 1, y = 2;", `\`x = 1, y = 2\`${OF_ASSIGNMENTS}`],
  ["int r0 = y;", "(void) y;", `\`(void) y\`${OF_OTHERS}`],
  ["int r0 = y;", "int r0 = y += 1;", `\`int r0 = y += 1\`${OF_ASSIGNMENTS}`],
  ["int r0 = y;", "int r0 = x = 1;", `\`int r0 = x = 1\`${OF_ASSIGNMENTS}`],
  ["int r0 = y;", "x = y == 1;", `\`x = y == 1\`${OF_COMPARISONS}`],
  ["int r0 = y;", "int r0 = y || x;", `\`int r0 = y || x\`${OF_COMPARISONS}`],
  ["int r0 = y;", "int r0 = y < 1;", `\`int r0 = y < 1\`${OF_COMPARISONS}`],
  ["int r0 = y;", "int r0 = (y == 1) + 1;", `\`int r0 = (y == 1) + 1\`${OF_COMPARISONS}`],
  ["int r0 = y;", "int r0 = x.exchange(y == 1);", `\`int r0 = x.exchange(y == 1)\`${OF_COMPARISONS}`],
  ["int r0 = y;", "int r0 = y; bool r1 = r0 == 2 && !(r0 & 1);", "`bool r1 = r0 == 2 && !(r0 & 1)`: the x86 format has sums only"],
  ["int r0 = y;", "int r0 = y; int r1 = r0 == x;", `\`int r1 = r0 == x\`${OF_SIDES}`],
  ["int r0 = y;", "int r0; int r1 = r0;", `\`int r1 = r0\`: \`r0\`${OF_VALUE}`],
  ["int r0 = y;", "int *r0 = &y;", `\`int *r0 = &y\`${OF_POINTERS}`],
  ["int r0 = y;", "float r0 = y;", "`float r0 = y`: a variable is an integer, as `int r0`"],
  ["int r0 = y;", "char r0 = y;", `\`char r0 = y\`${OF_SMALL}`],
  ["int r0 = y;", "uint8_t r0 = 128;", `\`uint8_t r0 = 128\`${OF_SMALL}`],
  ["int d;", "std::atomic<uint16_t> d;", `\`d++\`${OF_SMALL}`, "x = 1;", "d++;"],
  ["int d;", "atomic_short d;", `\`d = -1\`${OF_SMALL}`, "x = 1;", "d = -1;"],
  ["int d;", "char d;", `\`bool r0 = d\`${OF_BOOLS}`, "void P0(void) { x = 1; int r0 = y;", "void P0(void) { d = 1; bool r0 = d;", "P1(void) { y", "P1(void) { d"],
  ["int d;", "long d;", `\`long\`${OF_WIDE}`, "x = 1;", `int r1 = y; ${"r1 += r1; ".repeat(31)}d = r1;`, "y = 1;", "d = 1;"],
  ["int d;", "std::atomic<uint64_t> d;", `\`uint64_t\`${OF_WIDE}`, "x = 1;", "d += 0x40000000; d += 0x40000000;", "y = 1;", "d = 1;"],
  ["int d;", "size_t d = 4294967295;", `\`size_t\`${OF_WIDE}`, "x = 1;", "d = 1;", "y = 1;", "d = 1;"],
  ["int d;", "atomic_long d; unsigned e;", `\`atomic_long\`${OF_WIDE}`, "x = 1;", "d = -1;", "y = 1;", "d = 1;"],
  ["int d;", "long d = 5000000000;", `\`long d = 5000000000;\`${OF_VALUES}`],
  ["int r0 = y;", "int r0 = 010;", `\`int r0 = 010\`${OF_CONSTANTS}`],
  ["int r0 = y;", "int r0 = 4294967296;", `\`int r0 = 4294967296\`${OF_CONSTANTS}`],
  ["int r0 = y;", "int r0 = f(y);", "`int r0 = f(y)`: write what the function does in its place"],
  ["int r0 = y;", "int r0 = *y;", "`int r0 = *y`: `y` is no pointer, as `&y` is"],
  ["int r0 = y;", "int r0 = atomic_load(y);", "`int r0 = atomic_load(y)`: `y` is no pointer, as `&y` is"],
  ["int r0 = y;", "int r0 = z;", "`int r0 = z`: `z` is not declared"],
  ["int r0 = y;", "int r0 = atomic_fetch_or(&y, 1);",
    "`int r0 = atomic_fetch_or(&y, 1)`: of locked instructions the x86 format has only exchange and addition"],
  ["int r0 = y;", "int e = 0, r0 = atomic_compare_exchange_strong(&y, &e, 2);", `\`int e = 0, r0 = atomic_compare_exchange_..\`${OF_SWAPS}`],
  ["int r0 = y;", "int r0 = atomic_load_explicit(&y, memory_order_relaxd);", `\`int r0 = atomic_load_explicit(&y, memory..\`${NO_ORDER}`],
  ["int r0 = y;", "\n#if FENCE\natomic_thread_fence(memory_order_seq_cst);\n#endif\nint r0 = y;", `\`#if FENCE\`${OF_DIRECTIVES}`],
  ["int r0 = y;", "int e = y, r0 = atomic_compare_exchange_strong(&y, &e, 1);", `\`int e = y, r0 = atomic_compare_exchange_..\`${OF_NO_CONSTANTS}`],
  ["int r0 = y;", "int r0 = y.compare_exchange_strong(1, 1);", `\`int r0 = y.compare_exchange_strong(1, 1)\`${OF_NO_CONSTANTS}`],
  ["int r0 = y;", "int e = 0; y.compare_exchange_strong(e, 1); int r0 = y.compare_exchange_weak(e, 1);", `\`int r0 = y.compare_exchange_weak(e, 1)\`${OF_NO_CONSTANTS}`],
  ["int r0 = y;", "int e = 0, r0 = 1 + atomic_compare_exchange_strong(&y, &e, 1);", `\`int e = 0, r0 = 1 + atomic_compare_excha..\`${OF_CAS}`],
  ["int r0 = y;", "int r0 = y.load(std::memory_order_release);", `\`int r0 = y.load(std::memory_order_releas..\`${OF_ORDER}`],
  ["x = 1;", "x.store(1, std::memory_order_acquire);", `\`x.store(1, std::memory_order_acquire)\`${OF_ORDER}`],
  ["x = 1;", "x.exchange(1, std::memory_order_relaxed);", `\`x.exchange(1, std::memory_order_relaxed)\`${OF_ORDER}`],
  ["x = 1;", "x.fetch_add(0, std::memory_order_acquire);", `\`x.fetch_add(0, std::memory_order_acquire..\`${OF_ORDER}`],
  ["x = 1;", "atomic_thread_fence(seq_cst);", `\`atomic_thread_fence(seq_cst)\`${OF_FENCES}`],
  ["x = 1;", "asm volatile(\"nop\" ::: \"memory\");", `\`asm volatile("nop" ::: "memory")\`${OF_FENCES}`],
  ["x = 1;", "__atomic_store_n(&x, 1, __ATOMIC_ACQUIRE);", `\`__atomic_store_n(&x, 1, __ATOMIC_ACQUIRE..\`${OF_ORDER}`],
  ["x = 1;", "__atomic_exchange_n(&x, 1, __ATOMIC_RELAXED);", `\`__atomic_exchange_n(&x, 1, __ATOMIC_RELA..\`${OF_ORDER}`],
  ["x = 1;", "d -= y;", `\`d -= y\`${OF_SUBTRACTION}`, "y = 1;", "d = 2;"],
  ["x = 1;", "d += y;", `\`d += y\`${OF_LOADS}`, "y = 1;", "d = 2;"],
  ["x = 1;", "x = d++;", `\`x = d++\`${OF_PLAIN_STEPS}`, "y = 1;", "d = 2;"],
  ["int d;", "volatile int d;", `\`int r0 = d++\`${OF_PLAIN_STEPS}`, "int r0 = y;", "int r0 = d++;"],
  ["void P0(void) { x = 1; int r0 = y; }", "void P0(void) { x = 1; int a = y, b = y, c = y, e = y, f = y, g = y, h = y; }", `\`P0\`${OF_REGISTERS}`],
  ["void P0(void) { x = 1; int r0 = y; }", "void P0(void) { int a = y, b = y, c = y, e = y, f = y, g = y; x = 1; }", `\`P0\`${OF_REGISTERS}`],
  ["// lw", "void other(void) { x = 2; }\n// lw", `\`other\`${OF_NAMES}`],
  ["void P0", "void P2", `\`P2\`${OF_NAMES}`],
  ["P1(void)", "P1(int *argument)", "`void P1(int *argument) { y = 1; int r0 =..`: a thread is a function without parameters, or with an unused `void *`"],
  ["void P1(void) { y = 1;", "void *P1(void *argument) { y = argument;", "`y = argument`: `argument` is not declared"],
  ["void P1(void)", "int main(void) { return 0; }\nvoid P1(void)", "`}`: `main` starts no thread, so leave it out"],
  ["x = 1;", "if (y + 1 < 3) x = 1;", `\`if (y + 1 < 3)\`${OF_RELATIONS}`],
  ["x = 1;", "if ((y == 1 || x) && y == 2) x = 1;", `\`if ((y == 1 || x) && y == 2)\`${OF_CONDITIONS}`],
  ["int r0 = y;", "int r0 = 0; if (x == 1 || y ? 0 : 1) x = 2;", `\`if (x == 1 || y ? 0 : 1)\`${OF_CONDITIONS}`],
  ["x = 1;", "if (y == x) x = 1;", `\`if (y == x)\`${OF_SIDES}`],
  ["x = 1;", "if (y = 1) x = 1;", `\`if (y = 1)\`${OF_ASSIGNMENTS}`],
  ["x = 1;", "if (f(y) == 1) x = 1;", "`if (f(y) == 1)`: write what the function does in its place"],
  ["x = 1;", "if (y) x = 1; int r5; else x = 2;", "`else x = 2`: an `else` follows the one statement or block of its `if`"],
  ["x = 1;", "if (!y == 1) x = 1;", `\`if (!y == 1)\`${OF_CONDITIONS}`],
  ["x = 1;", "if (atomic_compare_exchange_strong(&y, &x, 1)) x = 1;", `\`if (atomic_compare_exchange_strong(&y, &..\`${OF_NO_CONSTANTS}`],
  ["x = 1;", "if (y)", `\`0:r0\`${OF_PATHS}`],
  ["x = 1;", "if (y { x = 1; }", "`if (y { x = 1; } int r0 = y;`: its `)` is missing"],
  ["int r0 = y;", "if (y) x = 2", `\`x = 2\`${OF_ENDS}`],
  ["int r0 = y;", "int r0 = y", `\`int r0 = y\`${OF_ENDS}`],
  ["int r0 = y;", "int r0; if (y) r0 = 1;", `\`0:r0\`${OF_PATHS}`],
  ["int r0 = y;", "switch (y) { case 1: x = 2; }", "`switch (y)`: write an `if` for each case"],
  ["int r0 = y;", "int r0; if (y) return; r0 = 1;", `\`0:r0\`${OF_PATHS}`],
  ["int r0 = y;", "int r0; if (y) r0 = 1; x = r0;", `\`x = r0\`: \`r0\`${OF_VALUE}`],
  ["int r0 = y;", "{ int r1 = y; } int r0 = r1;", "`int r0 = r1`: `r1` is not declared"],
  ["int r0 = y;", "int r0 = y; { int r0 = 1; }", `\`int r0 = 1\`${OF_LONE}`],
  ["int r0 = y;", "int r0 = y; if (r0++ == r0) x = 1;", `\`if (r0++ == r0)\`${OF_STEPS}`],
  ["int r0 = y;", "int r0 = y; r0 = r0++;", `\`r0 = r0++\`${OF_STEPS}`],
  ["int r0 = y;", "int r0 = y; int r1 = r0++ + r0;", `\`int r1 = r0++ + r0\`${OF_STEPS}`],
  ["int r0 = y;", "int r0 = y; int r1 = r0 - r0;", `\`int r1 = r0 - r0\`${OF_SUBTRACTION}`],
  ["int r0 = y;", "int r0 = 1 - y;", `\`int r0 = 1 - y\`${OF_SUBTRACTION}`],
  ["int r0 = y;", "x + = 1;", `\`x + = 1\`${OF_OTHERS}`],
  ["int r0 = y;", "int r0 = y; int r1 = (r0 - 1) + 1;", `\`int r1 = (r0 - 1) + 1\`${OF_OTHERS}`],
  ["int r0 = y;", "int r0 = x++ + x;", `\`int r0 = x++ + x\`${OF_LOADS}`],
  ["int r0 = y;", "int r0 = y; y.fetch_add(r0, std::memory_order_relaxed);", `\`y.fetch_add(r0, std::memory_order_relaxe..\`${OF_ORDER}`],
  ["int r0 = y;", "int r0 = y; y.fetch_sub(0, std::memory_order_release);", `\`y.fetch_sub(0, std::memory_order_release..\`${OF_ORDER}`],
  ["int r0 = y;", "atomic_int r0 = y;", "`atomic_int r0 = y`: a thread's own variable is not atomic, as `int r0`"],
  ["int r0 = y;", "int r0 = y ? x : 2;", `\`int r0 = y ? x : 2\`${OF_CHOICES}`],
  ["int r0 = y;", "int r0 = y; r0 = r0 ? r0++ : 2;", "`r0 = r0 ? r0++ : 2`: write an `if`"],
  ["int r0 = y;", "int r0 = (y ? 1 : 2) + 1;", "`int r0 = (y ? 1 : 2) + 1`: write an `if`"],
  ["int r0 = y;", "y ? x = 1 : x = 2;", "`y ? x = 1 : x = 2`: write an `if`"],
  ["int r0 = y;", "if (x == 1 && y ? 0 : 1) x = 2;", `\`if (x == 1 && y ? 0 : 1)\`${OF_CONDITIONS}`],
  ["int r0 = y;", "int r0 = y > 1 ? 1 : 2;", `\`int r0 = y > 1 ? 1 : 2\`${OF_CONDITIONS}`],
  ["int r0 = y;", "int r0 = y; r0 += r0 == 1 ? 1 : 2;", `\`r0 += r0 == 1 ? 1 : 2\`${OF_SUMS}`],
  ["int r0 = y;", "int r0 = y; r0 += r0 == 1;", `\`r0 += r0 == 1\`${OF_SUMS}`],
  ["int r0 = y;", "int r0 = y; d += r0 ? 1 : 2;", `\`d += r0 ? 1 : 2\`${OF_SUMS}`, "y = 1;", "d = 1;"],
  ["int r0 = y;", "bool r0 = y ? 5 : 6;", "`bool r0 = y ? 5 : 6`: a `bool` is set to `true`, `false`, or another `bool` that is loaded"],
  ["int r0 = y;", "lw_see(r0, y);", "`lw_see(r0, y)`: the question names the variable itself, as `0:r0`"],
  ["int r0 = y;", "int r0 = xchg(y, 2);", "`int r0 = xchg(y, 2)`: `y` is no pointer, as `&y` is"],
  ["int r0 = y;", "do x = 1; while (y != 1);", `\`do x = 1; while (y != 1)\`${OF_LOOPS}`],
  ["int r0 = y;", "do { x = 1; y = 2; } while (y != 1);", `\`do\`${OF_LOOPS}`],
  ["int r0 = y;", "while (y != 1) x = 2;", `\`while (y != 1)\`${OF_LOOPS}`],
  ["int r0 = y;", "while (y.load() != 1) { cpu_relax(); x = 1; }", `\`while (y.load() != 1)\`${OF_LOOPS}`],
  ["int r0 = y;", "if (y + 1 == 2) assert(x == 1);", `\`assert(x == 1)\`${OF_BRANCHED}`],
  ["int r0 = y;", "int a = y; if (a) a = 0; else assert(x == 1);", `\`assert(x == 1)\`${OF_BRANCHED}`],
  ["int r0 = y;", "int a = y; if (a) { a++; assert(x == 1); }", `\`assert(x == 1)\`${OF_BRANCHED}`],
  ["int r0 = y;", "int a = y; if (a) { assert(x == 1); a = 0; }", `\`a = 0\`${OF_FIXED}`],
  ["int r0 = y;", "if (y) { if (x) return; } assert(x == 1);", `\`assert(x == 1)\`${OF_RETURNS}`],
  ["int r0 = y;", "abort(); int r0 = y;", "`abort()`: an assertion that never holds is in a branch"],
  ["int r0 = y;", "assert(x < y);", `\`assert(x < y)\`${OF_LOADS}`],
  ["int r0 = y;", "assert((x = 1));", `\`assert((x = 1))\`${OF_ASSERTIONS}`],
  ["// lw: exists (0:r0=0 /\\ 1:r0=0)", "", `\`assert(x < 1)\`${OF_WORDS}`, "int r0 = y;", "assert(x < 1); x++; x++; x++; x++; x++; x++; x++; x++;"],
  ["int r0 = y;", "int r0 = y; assert(r0 == 1);", "`assert(r0 == 1)`: the program asks something else, so leave this out"],
  ["int r0 = y;", "int r0 = y; assert(r0 == 1); r0 = 2;", `\`r0 = 2\`${OF_FIXED}`],
  ["// lw: exists (0:r0=0 /\\ 1:r0=0)", "", `\`assert(r0 == 1)\`${OF_ENDLESS}`, "int r0 = y;", "int r0 = y; assert(r0 == 1); while (x) ;"],
  ["// lw: exists (0:r0=0 /\\ 1:r0=0)", "", `\`assert(r0 == 1)\`${OF_OTHER_THREADS}`, "int r0 = y; }\nvoid P1(void) {",
    "int r0 = y; assert(r0 == 1); }\nvoid P1(void) { while (x) ; "],
  ["int r0 = y;", "printf(\"%d\", x + 1);", "`printf(\"%d\", x + 1)`: a thread prints variables and constants only"],
  ["int r0 = y;", "printf(\"%d %d\", x, y);", `\`printf("%d %d", x, y)\`${OF_LOADS}`],
  ["int r0 = y;", "goto L;", "`goto L`: `goto` and labels are not rewritten"],
  ["// lw", "x = 1;\n// lw", `\`x = 1;\`${OF_GLOBALS}`],
  ["int d;", "double d;", "`double d;`: a variable is an integer, as `int r0`", "int r0 = y;", "int r0 = y; d = 1;"],
  ["int d;", "std::atomic<int*> d;", `\`std::atomic<int*> d;\`${OF_POINTERS}`, "int r0 = y;", "int r0 = y; d = 1;"],
  ["int d;", "struct Node { int v; struct Node *next; };", `\`struct Node *next;\`${OF_POINTERS}`, "int r0 = y;", "int r0 = y; struct Node k;"],
  ["int d;", "std::vector<int> d;", "`std::vector<int> d;`: a test has locations of one word each, so declare a variable for each word", "int r0 = y;", "int r0 = y; d = 1;"],
  ["int d;", "std::shared_mutex d;", "`std::shared_mutex d;`: the page follows locks that only one thread has, as `std::mutex`", "int r0 = y;", "int r0 = y; d = 1;"],
  ["int d;", "std::recursive_mutex d;", "`std::recursive_mutex d;`: the page follows mutexes that no thread locks twice, as `std::mutex`", "int r0 = y;", "int r0 = y; d = 1;"],
  ["int d;", "std::condition_variable d;", `\`std::condition_variable d;\`: the page follows waits for a condition right after the mutex is locked, in a loop or with a lambda that only returns it${OR_WAITS}`, "int r0 = y;", "int r0 = y; d = 1;"],
  ["int d;", "pthread_cond_t d;", `\`pthread_cond_t d;\`: the page follows waits for a condition right after the mutex is locked, in a loop or with a lambda that only returns it${OR_WAITS}`, "int r0 = y;", "int r0 = y; d = 1;"],
  ["int d;", "sem_t d;", `\`sem_t d;\`: the page follows semaphores that are 0 or 1 at all times, or begin and end rounds of threads${OR_WAITS}`, "int r0 = y;", "int r0 = y; d = 1;"],
  ["int d;", "std::barrier d(2);", `\`std::barrier d(2);\`: the page follows barriers at which all threads that use them begin or end, and latches that are counted down and waited for${OR_WAITS}`],
  ["int d;", "std::once_flag d;", "`std::once_flag d;`: the page follows `call_once` of a function or a lambda without arguments, or do this before the threads", "int r0 = y;", "int r0 = y; d = 1;"],
  ["int d;", "std::future<int> d;", "`std::future<int> d;`: the page follows threads, as `std::thread`, and no futures"],
  ["int r0 = y;", "int *r0 = new int(1);", "X86 Mine\n(* 0:EAX is a_int, 0:EBX is r0, 1:EAX is r0 *)\n{ x=0; y=0; }\n P0           | P1           ;\n MOV ECX,$1   | MOV EBX,$1   ;\n XCHG [x],ECX | XCHG [y],EBX ;\n MOV EAX,$1   | MOV EAX,[x]  ;\n MOV EBX,$1   |              ;\nlocations [y]\nexists (0:EBX=0 /\\ 1:EAX=0)\n"],
  ["int r0 = y;", "x.wait(1 + 1);", `\`x.wait(1 + 1)\`: the page follows \`wait\` of an atomic variable for one word, as \`x.wait(0)\`${OR_WAITS}`],
  ["int d;", "int d[N];", `\`int d[N];\`${OF_GLOBALS}`],
  ["int d;", "int d[2] = {1, 2, 3};", `\`int d[2] = {1, 2, 3};\`${OF_VALUES}`],
  ["int d;", "int d_0, d[2];", `\`int d_0, d[2];\`${OF_LONE}`],
  ["int d;", "int d[2]; int d_1;", `\`int d_1;\`${OF_LONE}`],
  ["int d;", "int d[2];", `\`d[2] = 1\`${OF_INDICES}`, "x = 1;", "d[2] = 1;"],
  ["int d;", "int d[2];", `\`d[r0] = 1\`${OF_KNOWN}`, "int r0 = y;", "int r0 = y; d[r0] = 1;"],
  ["int r0 = y;", "int a[2];", `\`int a[2]\`${OF_INDICES}`],
  ["int r0 = y;", "int a[2] = {1, 2};", `\`int a[2] = {1, 2}\`${OF_INDICES}`],
  ["int d;", "int *d;", `\`int *d;\`${OF_POINTERS}`, "int r0 = y;", "int r0 = y; d = 1;"],
  ["int d;", "#define N x + 1\nint d;", "`#define N x + 1`: write its text where it is used"],
  ["int d;", "#define F(a) 1\nint d;", "`#define F(a) 1`: write its text where it is used"],
  ["int r0 = y;", "std::atomic_ref<int> rd(d); rd = 1;", "`rd = 1`: `rd` is not declared"],
  ["int d;", "struct s { float a; } d;", "`float a;`: a variable is an integer, as `int r0`"],
  ["int d;", "struct s { int a = x; } d;", `\`struct s { int a = x; } d;\`${OF_VALUES}`],
  ["int d;", "struct s { int a; }; int d_a; struct s d;", `\`struct s d;\`${OF_LONE}`],
  ["int d;", "int d = x;", `\`int d = x;\`${OF_VALUES}`],
  ["int d;", "atomic_short d = 128;", "`atomic_short d = 128;`: a variable of 8 or 16 bits has a constant from 0 to 127 here"],
  ["int d;", "atomic_bool d = 2;", `\`atomic_bool d = 2;\`${OF_VALUES}`],
  ["int d;", "atomic_bool d;", `\`d = 2\`${OF_BOOLS}`, "x = 1;", "d = 2;"],
  ["int d;", "atomic_bool d;", `\`d++\`${OF_BOOLS}`, "x = 1;", "d++;"],
  ["int d;", "atomic_bool d;", `\`d = x\`${OF_BOOLS}`, "x = 1;", "d = x;"],
  ["int r0 = y;", "bool r0 = y;", `\`bool r0 = y\`${OF_BOOLS}`],
  ["int d;", "atomic_bool d;", `\`bool r0 = d + 1\`${OF_BOOLS}`, "int r0 = y;", "bool r0 = d + 1;"],
  ["int r0 = y;", "_Bool r0 = 2;", `\`_Bool r0 = 2\`${OF_BOOLS}`],
  ["0:r0", "0:r5", `\`0:r5\`${UNSET}`],
  ["0:r0", "2:r0", `\`2:r0\`${UNSET}`],
  ["0:r0=0", "z=0", `\`z\`${UNSET}`],
  ["0:r0=0", "0:r0=0 0", "`exists (0:r0=0 0 /\\ 1:r0=0)`: found 0, expected )"],
];

// Long texts, the places of a program where they are put, as what is before and after them, and the most milliseconds for each.
const LONG = [" ".repeat(60000), "a".repeat(60000), "(".repeat(60000), "int x;\n".repeat(10000), "{".repeat(60000), "(".repeat(30000) + ")".repeat(30000), "while (x) ".repeat(6000),
  "x, ".repeat(20000), "x[0] = ".repeat(8000), "x && ".repeat(12000), "x = x + 1; ".repeat(5000), "for (;;) { if (x) break; ".repeat(2400), "for (int i = 0; i < 3; i++) if (x) { ".repeat(1000),
  "for (int i = 0; i < 9; i++) { ".repeat(40) + "x = i; " + "} ".repeat(40)];
const STARTED = "int main() { std::thread t([&] { x = 1; }); t.join(); ";
const PLACES = [
  ["", ""], ["int main() { ", " }"], ["int main() { std::thread t([&] { ", " }); t.join(); }"], ["int main() { std::thread t([&", "] { x = 1; }); t.join(); }"],
  [`${STARTED}assert(`, "); }"], [`${STARTED}if (`, ") puts(\"\"); }"], ["void f(", ") { x = 1; }"], ["void f() { ", " }"], ["void f() { while (", ") ; }"],
  ["void f() { while (x) { yield(", "); } }"], ["void f() { do ", " while (x == 0); }"], ["void f() { printf(", "); }"], ["using ", ""], ["#define N ", "\n"],
  ["constexpr int N = ", ";\n"], ["struct { ", " } s;\n"], ["void f() { while (x) ; }\nexists (", ""],
  ["void f() { while (x && ", ") ; }"], ["void f() { while (x.exchange(1)) while (", ") ; }"], ["void f() { for (;;) { if (", ") break; } }"],
  ["void f() { while (true) { if (x) break; ", " } }"], ["int a[2] = {", "};\n"], ["std::mutex ", ";\n"], ["void f() { std::scoped_lock g(", "); }"],
  ["void g(", ") { x = 1; }\nvoid f() { g(1); }\n"], ["int g(int a) { return a; }\nvoid f() { x = g(", "); }\n"], ["void g(int i) { x = ", "; }\nvoid f() { g(1); }\n"],
  ["struct S { ", " };\nS s;\nvoid f() { s.g(); }\n"], ["void f(int i) { ", " }\nint main() { std::thread t(f, 1); t.join(); }\n"],
  ["void f() { x[", "] = 1; }"], ["void f() { int r = ", "; }"], ["int main() { for (;;) { ", " std::thread t(f); t.join(); } }"],
];

/** Returns the instructions of a thread of a test, joined by `; `. */
function listInstructions(text, thread) {
  const rows = text.split("\n").filter((it) => /;$/.test(it) && !/^ P0|locations/.test(it));
  return rows.map((it) => it.slice(0, -1).split("|")[thread].trim()).filter(Boolean).join("; ");
}

/** Returns the question of a test. */
function findQuestion(text) {
  return text.trimEnd().split("\n").at(-1);
}

/** Returns the page's modules of some names. */
export async function loadModules(names) {
  const room = fs.mkdtempSync(path.join(os.tmpdir(), "lw-programs-"));
  try {
    fs.writeFileSync(`${room}/package.json`, '{"type": "module"}');
    for (const name of fs.readdirSync(`${HOME}/web`).filter((it) => it.endsWith(".js"))) fs.copyFileSync(`${HOME}/web/${name}`, `${room}/${name}`);
    const loaded = await Promise.all(names.map((name) => import(pathToFileURL(`${room}/${name}.js`).href)));
    return Object.fromEntries(names.map((name, at) => [name, loaded[at]]));
  } finally {
    fs.rmSync(room, { recursive: true });
  }
}

/** Returns the hint on a text that begins as a program does, and the change that it proposes. */
function findHint(page, text) {
  const place = { text, index: text.search(/\S/), token: /\w+|\S/.exec(text)?.[0] ?? "", change: null };
  place.proposeChange = (put, begin, end) => Object.assign(place, { change: { begin, end, text: put } });
  const hint = page.other_tools.findOtherLanguage(place);
  return { ...hint, change: place.change ?? hint?.change ?? null };
}

/** Returns whether the part of a program that is refused is at its index. There is no index if lw refuses the test. */
function isAt(program, { why, index }) {
  const [, part] = /^`(.*?)(?:\.\.)?`/.exec(why) ?? [];
  return part === undefined ? index === undefined : program.slice(index).replace(/\s+/g, " ").startsWith(part);
}

/** Compares programs with a `main`, and what is refused in it. */
function compareMains(page, compare) {
  const { rewriteProgram } = page.c_program;
  for (const [before, code, threads, question] of MAINS) {
    const { made, why } = rewriteProgram(`${before}int main() { ${code} }\n`);
    compare(`main: ${code}`, [...threads, question, true], made ? [...threads.map((_, at) => listInstructions(made, at)), findQuestion(made), page.other_tools.isRead(made)] : [why]);
  }
  const refused = [...REFUSED_MAINS.map((it) => [MAIN, ...it]), ...REFUSED_RUNS.map((it) => [RUNS, ...it])];
  for (const [whole, part, wrong, why, second, third] of refused) {
    const program = whole.replace(part, () => wrong).replace(second ?? "", () => third ?? "");
    const found = rewriteProgram(program);
    compare(`what is refused in main: ${wrong}`, [why, true], [found.why ?? found.made, isAt(program, found)]);
  }
}

/** Compares the time that long texts take, in each place of a program, with what is bearable on a slow machine. */
function compareTimes(page, compare) {
  const begin = "std::atomic<int> x;\nint r;\n";
  for (const [before, after] of PLACES) {
    for (const long of LONG) {
      let why;
      const took = measure(() => ({ why = "" } = page.c_program.rewriteProgram(`${begin}${before}${long}${after}`)));
      compare(`the time of ${long.slice(0, 10)}.. in ${before}`, [true, false], [took < SLOWEST || took, /call stack/.test(why)]);
    }
  }
}

/** Compares statements in both forms, refusals, whole programs, and hints. `compare` takes what is compared, and the expected and the found value. */
function comparePrograms(page, compare) {
  const { rewriteProgram } = page.c_program;
  const isRead = (text) => page.other_tools.isRead(text) && page.aligned.alignCells(text) === text;
  const compareMade = (what, program, expected) => {
    const { made, why } = rewriteProgram(program);
    compare(what, [expected, true], made ? [listInstructions(made, 0), isRead(made)] : [why]);
    // No location is lost, and no constant.
    const [code] = /(?<=P0[^{]*\{)[^}]*/.exec(program);
    const names = [...new Set(code.match(/\b[xyv]\b/g) ?? [])].filter((it) => !new RegExp(`\\[${it}\\]`).test(made));
    compare(`${what}: its locations`, [], names);
  };
  for (const [statements, instructions, ofHerd] of STATEMENTS) {
    compareMade(`C: ${statements}`, `${GLOBALS}void P0(void) { ${statements} }\n${OTHER}`, instructions);
    if (ofHerd) compareMade(`herd: ${ofHerd}`, `C A\n{}\nP0 (${POINTERS}) { ${ofHerd} }\nexists (x=0)\n`, instructions);
  }
  for (const [part, wrong, why, second, third, fourth, fifth] of REFUSED) {
    const program = PROGRAM.replace(part, () => wrong).replace(second ?? "", () => third ?? "").replace(fourth ?? "", () => fifth ?? "");
    const found = rewriteProgram(program);
    compare(`what is refused in ${wrong}`, [why, true], [found.why ?? found.made, isAt(program, found)]);
  }
  compareMains(page, compare);
  compareTimes(page, compare);
  for (const [what, program, expected] of WHOLE) {
    const found = rewriteProgram(program);
    compare(what, expected, found.made ?? found.why);
    if (found.why) compare(`${what}: its place`, true, isAt(program, found));
    else compare(`${what}: its question is a guess, or not`, what.startsWith("no question"), found.isGuess);
    if (expected.startsWith("X86")) compare(`${what}: it is read`, true, isRead(expected));
  }
  for (const [what, text, expected, end, place] of HINTS) {
    const { words, more, command, document, change, at } = findHint(page, text);
    const isCommand = command.startsWith("python3 tools/from_c.py --show ") && more.includes(command);
    compare(`the hint on ${what}`, [expected, end, true, "from-c.html"], [words, more.slice(-end.length), isCommand, document]);
    compare(`the place of ${what}`, place ?? undefined, at && [at.row, at.column]);
    if (at) compare(`the index of ${what}`, at.index, text.split("\n", at.row - 1).join("\n").length + at.column - Number(at.row === 1));
    const made = change && [change.begin, change.end, change.title, isRead(change.text)];
    compare(`the change of ${what}`, place === undefined ? [0, text.length, "Rewrite it as an x86 test", true] : null, made);
  }
  compareSlips(page, compare);
  for (const [language, text] of OTHERS) {
    const { words } = findHint(page, text);
    compare(`the hint on ${language}: ${text}`, `This begins as a program in ${language} does. ${IS_READ}`, words);
  }
  for (const begin of BEGINS) {
    const expected = /std::|namespace/.test(begin) ? BEGIN_OF_CPP : BEGIN;
    compare(`a program begins with ${begin}`, expected, findHint(page, `${begin}\n${PROGRAM}`).words.slice(0, expected.length));
  }
  compare("a text that is no program has another hint", null, page.other_tools.findOtherLanguage({ text: "X86 A", index: 0, token: "X86" }));
}

const BARE = "P0(atomic_int *x) { *x = 1; }\nP1(atomic_int *x) { int r0 = *x; }\nexists (1:r0=0)\n";
const LOOP = PROGRAM.split("//")[0].replace("int r0 = y;", "while (y) ;");
const SB = "exists (0:EAX=0 /\\ 1:EAX=0)\n";
const BLOCK = "{ x=0; y=0; }\n";
const NINE = [..."abcdefghi"];
const WHOLE = [
  ["herd's form", `C SB+a
(* A comment (* in one *). *)
"Quoted" { int x = 0; [y]=2; z=1; }

P0 (atomic_int* x, atomic_int* y) { // lw: nothing
  atomic_store_explicit(x, 1, memory_order_relaxed); /* x */
  int r0 = atomic_load_explicit(y, memory_order_relaxed);
}

P1 (atomic_int* x, volatile int* y) {
  *y = 1;
  smp_mb();
  int r1 = READ_ONCE(*x);
}
locations [x; 0:r0;]
~exists (0:r0=2 && P1:r1==0 || [x]=3 /\\ not z=1)
`, `X86 SB+a
(* 0:EAX is r0, 1:EAX is r1 *)
{ x=0; y=2; z=1; }
 P0          | P1          ;
 MOV [x],$1  | MOV [y],$1  ;
 MOV EAX,[y] | MFENCE      ;
             | MOV EAX,[x] ;
locations [x; 0:EAX;]
~exists (0:EAX=2 /\\ 1:EAX=0 \\/ [x]=3 /\\ not z=1)
`],
  ["C++ with results in variables, and the question in its last line", `#include <atomic>
#include <thread>
using namespace std;
std::atomic<int> x = {0}, y(0);
int r1, r2 = 7;
void first() { x.store(1, memory_order_relaxed); r1 = y.load(memory_order_relaxed); }
static void second() { y.store(1, std::memory_order_relaxed); r2 = x.load(std::memory_order_relaxed); }
exists (r1=0 /\\ r2=0)
`, `X86 Mine
(* 0:EAX is r1, 1:EAX is r2 *)
${BLOCK} P0          | P1          ;
 MOV [x],$1  | MOV EAX,$7  ;
 MOV EAX,[y] | MOV [y],$1  ;
             | MOV EAX,[x] ;
${SB}`],
  ["the first word X86", `X86 SB
{}
P0 (_Atomic int *x, int32_t _Atomic * y) { *x = 1; int r0 = *y; }
P1 (atomic_uint *x, std::atomic<unsigned int> *y) { *y = 1; int r0 = *x; }
exists (0:r0=0 /\\ 1:r0=0)
`, `X86 SB
(* 0:EAX is r0, 1:EAX is r0 *)
${BLOCK} P0           | P1           ;
 MOV EBX,$1   | MOV EBX,$1   ;
 XCHG [x],EBX | XCHG [y],EBX ;
 MOV EAX,[y]  | MOV EAX,[x]  ;
${SB}`],
  ["no question", "atomic_int x, y;\nvoid P0() { x = 1; }\nvoid P1() { int a = x, b = x; }\n", `X86 Mine
(* 1:EAX is a, 1:EBX is b *)
{ x=0; }
 P0           | P1          ;
 MOV EAX,$1   | MOV EAX,[x] ;
 XCHG [x],EAX | MOV EBX,[x] ;
locations [1:EAX; 1:EBX]
exists (true)
`],
  ["no question, in herd's form", `C SB
{}
P0 (int *x, int *y) { WRITE_ONCE(*x, 1); int r0 = READ_ONCE(*y); }
P1 (int *x, int *y) { WRITE_ONCE(*y, 1); int r0 = READ_ONCE(*x); int r1 = 2; }
`, `X86 SB
(* 0:EAX is r0, 1:EAX is r0, 1:EBX is r1 *)
${BLOCK} P0          | P1          ;
 MOV [x],$1  | MOV [y],$1  ;
 MOV EAX,[y] | MOV EAX,[x] ;
             | MOV EBX,$2  ;
locations [1:EBX]
${SB}`],
  ["no question, and a result that is not loaded", "atomic_int x;\nvoid P0() { int r0 = x.exchange(1); }\nvoid P1() { x++; }\n", `X86 Mine
(* 0:EAX is r0 *)
{ x=0; }
 P0           | P1                ;
 MOV EAX,$1   | MOV EAX,$1        ;
 XCHG [x],EAX | LOCK XADD [x],EAX ;
locations [0:EAX; x]
exists (true)
`],
  ["results that threads return", `atomic_int x, y;
int P0(void) { x = 1; return y; }
static unsigned int P1(void) { if (x == 0) return 3; int r0 = y + 1; return r0; }
// lw: exists (0:return=0 && 1:return==3)
`, `X86 Mine
(* 0:EAX is return, 1:EAX is return, 1:EBX is r0 *)
${BLOCK} P0           | P1              ;
 MOV EBX,$1   | MOV ECX,[x]     ;
 XCHG [x],EBX | CMP ECX,$0      ;
 MOV EAX,[y]  | JNE L1          ;
              | MOV EAX,$3      ;
              | JMP END         ;
              | L1: MOV EBX,[y] ;
              | ADD EBX,$1      ;
              | MOV EAX,EBX     ;
              | END:            ;
exists (0:EAX=0 /\\ 1:EAX=3)
`],
  ["variables that are true or false", `#include <atomic>
std::atomic<int> data;
std::atomic<bool> ready{false}, done = true;
bool saw;
void P0() { data.store(42, std::memory_order_relaxed); ready.store(true, std::memory_order_release); bool was = done.exchange(false); }
void P1() { saw = ready.load(std::memory_order_acquire); bool r0 = true; int r1 = data.load(std::memory_order_relaxed); }
exists (saw=1 /\\ 1:r1=0 /\\ 0:was=1)
`, `X86 Mine
(* 0:EAX is was, 1:EAX is saw, 1:EBX is r0, 1:ECX is r1 *)
{ data=0; ready=0; done=1; }
 P0              | P1              ;
 MOV [data],$42  | MOV EAX,[ready] ;
 MOV [ready],$1  | MOV EBX,$1      ;
 MOV EAX,$0      | MOV ECX,[data]  ;
 XCHG [done],EAX |                 ;
exists (1:EAX=1 /\\ 1:ECX=0 /\\ 0:EAX=1)
`],
  ["a question of memory", "atomic_int x; int d = 4, e;\nvoid P0() { x++; }\nvoid P1() { x++; }\n/* lw: forall (x=2 /\\ d=4) */\n", `X86 Mine
{ x=0; d=4; }
 P0                | P1                ;
 MOV EAX,$1        | MOV EAX,$1        ;
 LOCK XADD [x],EAX | LOCK XADD [x],EAX ;
forall (x=2 /\\ d=4)
`],
  ["no question, and no registers", "std::atomic<int> x, y;\nvoid P0() { x++; }\nvoid P1() { y.store(1, std::memory_order_release); }\n", `X86 Mine
{ x=0; y=0; }
 P0                | P1         ;
 MOV EAX,$1        | MOV [y],$1 ;
 LOCK XADD [x],EAX |            ;
locations [x; y]
exists (true)
`],
  ["an end of the program in an `else`", `volatile int x, y; int r1, r2;
void f() { x = 1; r1 = y; }
void g() { y = 1; r2 = x; }
int main() { std::thread a(f), b(g); a.join(); b.join(); if (r1 || r2) printf("ok"); else abort(); }
`, `X86 Mine
(* 0:EAX is r1, 1:EAX is r2 *)
${BLOCK} P0          | P1          ;
 MOV [x],$1  | MOV [y],$1  ;
 MOV EAX,[y] | MOV EAX,[x] ;
~exists (0:EAX=0 /\\ 1:EAX=0)
`],
  ["variables that conditions declare", "std::atomic<int> x, y;\nvoid P0() { if (int r = x.load()) { y.store(2, std::memory_order_release); } else y.store(r + 3, std::memory_order_relaxed); }\n" +
    "void P1() { if (auto r = y.load(); r == 2) { x.store(5, std::memory_order_release); } int k = x.load(); }\n// lw: exists (1:k=5)\n", `X86 Mine
(* 0:EAX is r, 1:EAX is r, 1:EBX is k *)
${BLOCK} P0              | P1              ;
 MOV EAX,[x]     | MOV EAX,[y]     ;
 CMP EAX,$0      | CMP EAX,$2      ;
 JE L1           | JNE L1          ;
 MOV [y],$2      | MOV [x],$5      ;
 JMP END         | L1: MOV EBX,[x] ;
 L1: MOV EBX,EAX |                 ;
 ADD EBX,$3      |                 ;
 MOV [y],EBX     |                 ;
 END:            |                 ;
exists (1:EBX=5)
`],
  ["no question, and a location that two threads write", "volatile int x, y, z;\nvoid P0() { x = 1; y = 1; }\nvoid P1() { y = 2; z = 3; int r0 = x; }\n",
    `X86 Mine
(* 1:EAX is r0 *)
{ x=0; y=0; z=0; }
 P0         | P1          ;
 MOV [x],$1 | MOV [y],$2  ;
 MOV [y],$1 | MOV [z],$3  ;
            | MOV EAX,[x] ;
locations [y; z]
exists (1:EAX=0)
`],
  ["a question that does not name what two threads write", "volatile int x, y;\nvoid P0() { x = 2; y = 1; }\nvoid P1() { int r0 = y; x = 1; }\nexists (1:r0=1)\n",
    `X86 Mine
(* 1:EAX is r0 *)
${BLOCK} P0         | P1          ;
 MOV [x],$2 | MOV EAX,[y] ;
 MOV [y],$1 | MOV [x],$1  ;
locations [x]
exists (1:EAX=1)
`],
  ["no question, and a load in a branch", `std::atomic<bool> flag; int data, r;
void P0() { data = 42; flag.store(true, std::memory_order_release); }
void P1() { if (flag.load(std::memory_order_acquire)) r = data; }
`, `X86 Mine
(* 1:EAX is flag in its condition, 1:EBX is r *)
{ flag=0; data=0; }
 P0             | P1             ;
 MOV [data],$42 | MOV EAX,[flag] ;
 MOV [flag],$1  | CMP EAX,$0     ;
                | JE END         ;
                | MOV EBX,[data] ;
                | END:           ;
exists (~1:EAX=0 /\\ 1:EBX=0)
`],
  ["no question, and a load after a return", `std::atomic<int> flag; int data;
void P0() { data = 42; flag.store(1, std::memory_order_release); }
void P1() { int f = flag; if (f != 1) return; int r = data; }
`, `X86 Mine
(* 1:EAX is f, 1:EBX is r *)
{ flag=0; data=0; }
 P0             | P1                 ;
 MOV [data],$42 | MOV EAX,[flag]     ;
 MOV [flag],$1  | CMP EAX,$1         ;
                | JE L1              ;
                | JMP END            ;
                | L1: MOV EBX,[data] ;
                | END:               ;
exists (1:EAX=1 /\\ 1:EBX=0)
`],
  ["no question, and only stores", "volatile int x, y;\nvoid P0() { x = 1; y = 2; }\nvoid P1() { y = 1; x = 2; }\n", `X86 Mine
${BLOCK} P0         | P1         ;
 MOV [x],$1 | MOV [y],$1 ;
 MOV [y],$2 | MOV [x],$2 ;
locations [x; y]
exists (true)
`],
  ["a question after another comment in its line", "atomic_int x;\nvoid P0() { x++; } // One. // lw: exists (x=1)\n", `X86 Mine
{ x=0; }
 P0                ;
 MOV EAX,$1        ;
 LOCK XADD [x],EAX ;
exists (x=1)
`],
  ["names of constants and orders, and what has no effect here", `#pragma once
#  define ONE (1)
#define ACQUIRE memory_order_acquire
using std::memory_order_relaxed;
constexpr auto rlx = std::memory_order_relaxed;
static const int TWO = 2;
namespace litmus {
alignas(64) std::atomic<int> x{0};
extern "C" { alignas(64) atomic_int y = ATOMIC_VAR_INIT(TWO); }
[[maybe_unused]] int plain;
void P0() noexcept { x.store(ONE, rlx); int r0 = y.load(ACQUIRE); std::atomic_ref<int>(plain).store(TWO, std::memory_order::release); }
[[gnu::noinline]] void P1() { constexpr std::memory_order mine = rlx; std::atomic_ref<int> own(plain); while (y.load(rlx) == TWO) ; own.store(ONE, mine); }
}
exists (0:r0=1)
`, `X86 Mine
(* 0:EAX is r0, 1:EAX is y after its loop *)
(* every wait ends: ~1:EAX=2 *)
{ x=0; y=2; plain=0; }
 P0             | P1             ;
 MOV [x],$1     | MOV EAX,[y]    ;
 MOV EAX,[y]    | MOV [plain],$1 ;
 MOV [plain],$2 |                ;
locations [x; plain]
exists (~1:EAX=2 /\\ 0:EAX=1)
`],
  ["members of structures, and a reference to a variable that is plain in another thread", `struct { atomic_int x, y; int r; } s;
struct alignas(64) Padded { std::atomic<bool> on{true}; };
Padded a, b;
int d, e;
std::atomic_ref<int> rd(d);
void P0() { s.x.store(1, std::memory_order_relaxed); s.r = s.y; a.on = false; rd.store(1, std::memory_order_relaxed); }
void P1() { atomic_store_explicit(&s.y, 1, memory_order_relaxed); int r0 = b.on.load(); e = s.x; d = 2; }
exists (e=0)
`, `X86 Mine
(* 0:EAX is s_r, 1:EAX is r0, 1:EBX is e *)
{ s_x=0; s_y=0; a_on=1; b_on=1; d=0; }
 P0              | P1             ;
 MOV [s_x],$1    | MOV [s_y],$1   ;
 MOV EAX,[s_y]   | MOV EAX,[b_on] ;
 MOV EBX,$0      | MOV EBX,[s_x]  ;
 XCHG [a_on],EBX | MOV [d],$2     ;
 MOV [d],$1      |                ;
locations [a_on; d]
exists (1:EBX=0)
`],
  ["an assertion after a loop that waits, before a new line and a block", `#include <atomic>
int data = 0; std::atomic<bool> ready(false);
void producer() { data = 42; ready.store(true, std::memory_order_release); }
void consumer() {
  while (!ready.load(std::memory_order_acquire))
  {
    std::this_thread::sleep_for(std::chrono::milliseconds(1));
  }
  { int seen = data; assert(seen != 0 && data == 42); }
}
int main() { std::thread a(producer), b(consumer); a.join(); b.join(); }
`, `X86 Mine
(* 1:EAX is ready after its loop, 1:EBX is seen, 1:ECX is data as asserted *)
(* every wait ends: 1:EAX=1 *)
{ data=0; ready=0; }
 P0             | P1              ;
 MOV [data],$42 | MOV EAX,[ready] ;
 MOV [ready],$1 | MOV EBX,[data]  ;
                | MOV ECX,[data]  ;
forall (~1:EAX=1 \\/ ~1:EBX=0 /\\ 1:ECX=42)
`],
  ["no question, and a branch of each thread", `volatile int x, y; int r0, r1;
void P0() { x = 1; if (!y) r0 = 1; }
void P1() { y = 1; if (x == 0) r1 = 1; }
`, `X86 Mine
(* 0:EAX is y in its condition, 0:EBX is r0, 1:EAX is x in its condition, 1:EBX is r1 *)
(* both threads enter their if: 0:EAX=0 /\\ 1:EAX=0 *)
{ x=0; y=0; }
 P0          | P1          ;
 MOV [x],$1  | MOV [y],$1  ;
 MOV EAX,[y] | MOV EAX,[x] ;
 CMP EAX,$0  | CMP EAX,$0  ;
 JNE END     | JNE END     ;
 MOV EBX,$1  | MOV EBX,$1  ;
 END:        | END:        ;
locations [0:EBX; 1:EBX]
~exists (0:EAX=0 /\\ 1:EAX=0)
`],
  ["no question, and branches that take back what keeps others out", `std::atomic<int> x, y; int n;
void P0() { x.store(1, std::memory_order_relaxed); if (y.load() == 0) { n++; x.store(0, std::memory_order_release); } }
void P1() { y.store(1, std::memory_order_relaxed); if (!x.load()) { n += 1; y.store(0, std::memory_order_release); } }
`, `X86 Mine
(* 0:EAX is y in its condition, 1:EAX is x in its condition *)
(* both threads enter their if: 0:EAX=0 /\\ 1:EAX=0 *)
(* an addition to n is lost: ~n=2 *)
{ x=0; y=0; n=0; }
 P0          | P1          ;
 MOV [x],$1  | MOV [y],$1  ;
 MOV EAX,[y] | MOV EAX,[x] ;
 CMP EAX,$0  | CMP EAX,$0  ;
 JNE END     | JNE END     ;
 MOV EBX,[n] | MOV EBX,[n] ;
 ADD EBX,$1  | ADD EBX,$1  ;
 MOV [n],EBX | MOV [n],EBX ;
 MOV [x],$0  | MOV [y],$0  ;
 END:        | END:        ;
~exists (0:EAX=0 /\\ 1:EAX=0 /\\ ~n=2)
`],
  ["no question, and threads that take back after their branches", `std::atomic<bool> a{false}, b{false}; int n = 0;
void f() { a = true; if (!b) { n++; } a = false; }
void g() { b = true; if (!a) { n++; } b = false; }
`, `X86 Mine
(* 0:EAX is b in its condition, 1:EAX is a in its condition *)
(* both threads enter their if: 0:EAX=0 /\\ 1:EAX=0 *)
(* an addition to n is lost: ~n=2 *)
{ a=0; b=0; n=0; }
 P0             | P1             ;
 MOV EBX,$1     | MOV EBX,$1     ;
 XCHG [a],EBX   | XCHG [b],EBX   ;
 MOV EAX,[b]    | MOV EAX,[a]    ;
 CMP EAX,$0     | CMP EAX,$0     ;
 JNE L1         | JNE L1         ;
 MOV EBX,[n]    | MOV EBX,[n]    ;
 ADD EBX,$1     | ADD EBX,$1     ;
 MOV [n],EBX    | MOV [n],EBX    ;
 L1: MOV EBX,$0 | L1: MOV EBX,$0 ;
 XCHG [a],EBX   | XCHG [b],EBX   ;
~exists (0:EAX=0 /\\ 1:EAX=0 /\\ ~n=2)
`],
  ["no question, and branches that only take back", `volatile int x, y;
void P0() { x = 1; if (!y) x = 0; }
void P1() { y = 1; if (!x) y = 0; }
`, `X86 Mine
{ x=0; y=0; }
 P0          | P1          ;
 MOV [x],$1  | MOV [y],$1  ;
 MOV EAX,[y] | MOV EAX,[x] ;
 CMP EAX,$0  | CMP EAX,$0  ;
 JNE END     | JNE END     ;
 MOV [x],$0  | MOV [y],$0  ;
 END:        | END:        ;
locations [x; y]
exists (true)
`],
  ["no question, and branches with an alternative", `volatile int x, y; int r0, r1;
void P0() { x = 1; if (!y) r0 = 1; else r0 = 2; }
void P1() { y = 1; if (!x) r1 = 1; }
`, `X86 Mine
(* 0:EAX is r0, 1:EAX is r1 *)
{ x=0; y=0; }
 P0             | P1          ;
 MOV [x],$1     | MOV [y],$1  ;
 MOV EBX,[y]    | MOV EBX,[x] ;
 CMP EBX,$0     | CMP EBX,$0  ;
 JNE L1         | JNE END     ;
 MOV EAX,$1     | MOV EAX,$1  ;
 JMP END        | END:        ;
 L1: MOV EAX,$2 |             ;
 END:           |             ;
locations [0:EAX; 1:EAX]
exists (true)
`],
  ["no question, and first words", `volatile int x = 1, y = 2; int r0, r1;
void P0() { x = 3; y = 4; }
void P1() { r0 = y; r1 = x; }
`, `X86 Mine
(* 1:EAX is r0, 1:EBX is r1 *)
{ x=1; y=2; }
 P0         | P1          ;
 MOV [x],$3 | MOV EAX,[y] ;
 MOV [y],$4 | MOV EBX,[x] ;
exists (~1:EAX=2 /\\ 1:EBX=1)
`],
  ["no question, and nothing to list", `volatile int x, y;
void P0() { x = y; }
void P1() { y = x; }
`, `X86 Mine
{ x=0; y=0; }
 P0          | P1          ;
 MOV EAX,[y] | MOV EAX,[x] ;
 MOV [x],EAX | MOV [y],EAX ;
locations [x; y]
exists (true)
`],
  ["no question, and output of threads", "volatile int x, y;\nvoid P0() { x = 1; y = 1; }\nvoid P1() { int a = y; std::cout << a << \";\" << x << std::endl; puts(\"x\"); printf(\"(%d)\", x); }\n",
    `X86 Mine
(* 1:EAX is a, 1:EBX is x as printed, 1:ECX is x as printed 2 *)
${BLOCK} P0         | P1          ;
 MOV [x],$1 | MOV EAX,[y] ;
 MOV [y],$1 | MOV EBX,[x] ;
            | MOV ECX,[x] ;
locations [1:EAX; 1:EBX; 1:ECX]
exists (true)
`],
  ["independent reads of independent writes, with loops that wait (cppreference.com)", `#include <thread>
#include <atomic>
#include <cassert>
std::atomic<bool> x = {false};
std::atomic<bool> y = {false};
std::atomic<int> z = {0};
void write_x() { x.store(true, std::memory_order_seq_cst); }
void write_y() { y.store(true, std::memory_order_seq_cst); }
void read_x_then_y() {
  while (!x.load(std::memory_order_seq_cst))
    ;
  if (y.load(std::memory_order_seq_cst)) ++z;
}
void read_y_then_x() {
  while (!y.load(std::memory_order_seq_cst))
    ;
  if (x.load(std::memory_order_seq_cst)) ++z;
}
int main() {
  std::thread a(write_x); std::thread b(write_y);
  std::thread c(read_x_then_y); std::thread d(read_y_then_x);
  a.join(); b.join(); c.join(); d.join();
  assert(z.load() != 0); // will never happen
}
`, `X86 Mine
(* 2:EAX is x after its loop, 3:EAX is y after its loop *)
(* every wait ends: 2:EAX=1 /\\ 3:EAX=1 *)
{ x=0; y=0; z=0; }
 P0           | P1           | P2                | P3                ;
 MOV EAX,$1   | MOV EAX,$1   | MOV EAX,[x]       | MOV EAX,[y]       ;
 XCHG [x],EAX | XCHG [y],EAX | MOV EBX,[y]       | MOV EBX,[x]       ;
              |              | CMP EBX,$0        | CMP EBX,$0        ;
              |              | JE END            | JE END            ;
              |              | MOV EBX,$1        | MOV EBX,$1        ;
              |              | LOCK XADD [z],EBX | LOCK XADD [z],EBX ;
              |              | END:              | END:              ;
~exists (2:EAX=1 /\\ 3:EAX=1 /\\ z=0)
`],
  ["an assertion in a branch", `std::atomic<bool> ready{false}; std::atomic<int> data{0};
void P0() { data.store(42, std::memory_order_relaxed); ready.store(true, std::memory_order_release); }
void P1() { if (ready.load(std::memory_order_acquire)) assert(data.load(std::memory_order_relaxed) == 42); }
`, `X86 Mine
(* 1:EAX is ready in its condition, 1:EBX is data as asserted *)
{ ready=0; data=0; }
 P0             | P1              ;
 MOV [data],$42 | MOV EAX,[ready] ;
 MOV [ready],$1 | CMP EAX,$0      ;
                | JE END          ;
                | MOV EBX,[data]  ;
                | END:            ;
forall (1:EAX=0 \\/ 1:EBX=42)
`],
  ["an assertion after a return, and a relation", `std::atomic<int> x, y; int r1, r2;
void P0() { x.store(1, std::memory_order_relaxed); y.store(1, std::memory_order_relaxed); }
void P1() { r1 = y; if (r1 != 1) return; r2 = x; assert(r2 >= r1); }
`, `X86 Mine
(* 1:EAX is r1, 1:EBX is r2 *)
{ x=0; y=0; }
 P0         | P1              ;
 MOV [x],$1 | MOV EAX,[y]     ;
 MOV [y],$1 | CMP EAX,$1      ;
            | JE L1           ;
            | JMP END         ;
            | L1: MOV EBX,[x] ;
            | END:            ;
~exists (1:EAX=1 /\\ 1:EBX=0)
`],
  ["assertions of variables of one name in two blocks", `std::atomic<int> x, y;
void P0() { if (x == 1) { int r = y; assert(r == 1); } else { int r = y; assert(r <= 1); } }
void P1() { y.store(1, std::memory_order_relaxed); x.store(1, std::memory_order_relaxed); }
`, `X86 Mine
(* 0:EAX is x in its condition, 0:EBX is r, 0:ECX is r_2 *)
{ x=0; y=0; }
 P0              | P1         ;
 MOV EAX,[x]     | MOV [y],$1 ;
 CMP EAX,$1      | MOV [x],$1 ;
 JNE L1          |            ;
 MOV EBX,[y]     |            ;
 JMP END         |            ;
 L1: MOV ECX,[y] |            ;
 END:            |            ;
forall ((~0:EAX=1 \\/ 0:EBX=1) /\\ (0:EAX=1 \\/ 0:ECX=0 \\/ 0:ECX=1))
`],
  ["assertions of threads and of main", `std::atomic<int> n{0}; int r[2];
void w(int i) { r[i] = n.fetch_add(1); if (r[i] == 1) { assert(n == 2); } }
int main() { std::thread a(w, 0), b(w, 1); a.join(); b.join(); assert(r[0] + r[1] == 1); assert(n == 2); }
`, `X86 Mine
(* 0:EAX is r_0, 0:EBX is n as asserted, 1:EAX is r_1, 1:EBX is n as asserted *)
{ n=0; }
 P0                | P1                ;
 MOV EAX,$1        | MOV EAX,$1        ;
 LOCK XADD [n],EAX | LOCK XADD [n],EAX ;
 CMP EAX,$1        | CMP EAX,$1        ;
 JNE END           | JNE END           ;
 MOV EBX,[n]       | MOV EBX,[n]       ;
 END:              | END:              ;
forall ((~0:EAX=1 \\/ 0:EBX=2) /\\ (~1:EAX=1 \\/ 1:EBX=2) /\\ (~0:EAX=0 \\/ ~1:EAX=0) /\\ (~0:EAX=1 \\/ ~1:EAX=1) /\\ n=2)
`],
  ["branches that end the program", `std::atomic<int> x, y;
void P0() { x.store(1, std::memory_order_release); y.store(1, std::memory_order_release); }
void P1() { if (y == 1) { if (x != 1) abort(); } }
void P2() { int r = x; if (r != 0 && y == 3) { puts(""); exit(1); } if (r == 2) assert(!"never"); }
`, `X86 Mine
(* 1:EAX is y in its condition, 1:EBX is x in its condition, 2:EAX is r, 2:EBX is y in its condition *)
{ x=0; y=0; }
 P0         | P1          | P2             ;
 MOV [x],$1 | MOV EAX,[y] | MOV EAX,[x]    ;
 MOV [y],$1 | CMP EAX,$1  | CMP EAX,$0     ;
            | JNE END     | JE L1          ;
            | MOV EBX,[x] | MOV EBX,[y]    ;
            | CMP EBX,$1  | CMP EBX,$3     ;
            | JE END      | JNE L1         ;
            | END:        | L1: CMP EAX,$2 ;
            |             | JNE END        ;
            |             | END:           ;
forall ((~1:EAX=1 \\/ 1:EBX=1) /\\ (2:EAX=0 \\/ ~2:EBX=3) /\\ ~2:EAX=2)
`],
  ["an assertion in the other branch of two comparisons, and one in a branch of two variables", `atomic_int x, y; int r;
void P0() { if (x == 1 && y == 1) { r = 5; } else { int k = y; assert(x >= k); } }
void P1() { int a = x, b = y; if (a == b) assert(b != 1); x.store(1, memory_order_release); y.store(1, memory_order_release); }
`, `X86 Mine
(* 0:EAX is x in its condition, 0:EBX is y in its condition, 0:ECX is r, 0:EDX is k, 0:ESI is x as asserted, 1:EAX is a, 1:EBX is b *)
{ x=0; y=0; }
 P0              | P1             ;
 MOV EAX,[x]     | MOV EAX,[x]    ;
 CMP EAX,$1      | MOV EBX,[y]    ;
 JNE L1          | CMP EAX,EBX    ;
 MOV EBX,[y]     | JNE L1         ;
 CMP EBX,$1      | L1: MOV [x],$1 ;
 JNE L1          | MOV [y],$1     ;
 MOV ECX,$5      |                ;
 JMP END         |                ;
 L1: MOV EDX,[y] |                ;
 MOV ESI,[x]     |                ;
 END:            |                ;
forall ((0:EAX=1 /\\ 0:EBX=1 \\/ ~0:ESI=0 \\/ ~0:EDX=1) /\\ (~1:EAX=0 \\/ ~1:EBX=0 \\/ ~1:EBX=1))
`],
  ["a loop that exchanges, and an assertion of main", `#include <atomic>
#include <thread>
std::atomic<int> lock{0};
int n = 0;
void f() { while (lock.exchange(1)) ; n++; lock.store(0); }
int main() { std::thread a(f), b(f); a.join(); b.join(); assert(n == 2); }
`, `X86 Mine
(* 0:EAX is lock at its lock, 1:EAX is lock at its lock *)
(* every wait ends: 0:EAX=0 /\\ 1:EAX=0 *)
{ lock=0; n=0; }
 P0              | P1              ;
 MOV EAX,$1      | MOV EAX,$1      ;
 XCHG [lock],EAX | XCHG [lock],EAX ;
 MOV EBX,[n]     | MOV EBX,[n]     ;
 ADD EBX,$1      | ADD EBX,$1      ;
 MOV [n],EBX     | MOV [n],EBX     ;
 MOV EBX,$0      | MOV EBX,$0      ;
 XCHG [lock],EBX | XCHG [lock],EBX ;
locations [lock]
forall (~0:EAX=0 \\/ ~1:EAX=0 \\/ n=2)
`],
  ["loops that set a flag", `#include <atomic>
std::atomic_flag f = ATOMIC_FLAG_INIT;
int n;
void P0() { while (f.test_and_set(std::memory_order_acquire)) ; n++; f.clear(std::memory_order_release); }
void P1() { while (f.test_and_set(std::memory_order_acquire)) { _mm_pause(); } n++; f.clear(std::memory_order_release); }
// lw: exists (n=1)
`, `X86 Mine
(* 0:EAX is f at its lock, 1:EAX is f at its lock *)
(* every wait ends: 0:EAX=0 /\\ 1:EAX=0 *)
{ f=0; n=0; }
 P0           | P1           ;
 MOV EAX,$1   | MOV EAX,$1   ;
 XCHG [f],EAX | XCHG [f],EAX ;
 MOV EBX,[n]  | MOV EBX,[n]  ;
 ADD EBX,$1   | ADD EBX,$1   ;
 MOV [n],EBX  | MOV [n],EBX  ;
 MOV [f],$0   | MOV [f],$0   ;
locations [f]
exists (0:EAX=0 /\\ 1:EAX=0 /\\ n=1)
`],
  ["no question, and a mutex with a guard", `#include <mutex>
#include <thread>
#include <iostream>
std::mutex m;
int counter = 0;
void inc() { std::lock_guard<std::mutex> g(m); ++counter; }
int main() { std::thread t1(inc); std::thread t2(inc); t1.join(); t2.join(); std::cout << counter << std::endl; return 0; }
`, `X86 Mine
(* 0:EAX is m at its lock, 1:EAX is m at its lock *)
(* every wait ends: 0:EAX=0 /\\ 1:EAX=0 *)
(* an addition to counter is lost: ~counter=2 *)
{ m=0; counter=0; }
 P0                | P1                ;
 MOV EAX,$1        | MOV EAX,$1        ;
 XCHG [m],EAX      | XCHG [m],EAX      ;
 MOV EBX,[counter] | MOV EBX,[counter] ;
 ADD EBX,$1        | ADD EBX,$1        ;
 MOV [counter],EBX | MOV [counter],EBX ;
 MOV EBX,$0        | MOV EBX,$0        ;
 XCHG [m],EBX      | XCHG [m],EBX      ;
~exists (0:EAX=0 /\\ 1:EAX=0 /\\ ~counter=2)
`],
  ["no question, and a mutex of POSIX", `#include <pthread.h>
pthread_mutex_t m = PTHREAD_MUTEX_INITIALIZER;
int n;
void *f(void *arg) { pthread_mutex_lock(&m); n++; pthread_mutex_unlock(&m); return NULL; }
int main() { pthread_t a, b; pthread_mutex_init(&m, NULL); pthread_create(&a, NULL, f, NULL); pthread_create(&b, NULL, f, NULL); pthread_join(a, NULL); pthread_join(b, NULL); printf("%d\\n", n); pthread_mutex_destroy(&m); return 0; }
`, `X86 Mine
(* 0:EAX is m at its lock, 1:EAX is m at its lock *)
(* every wait ends: 0:EAX=0 /\\ 1:EAX=0 *)
(* an addition to n is lost: ~n=2 *)
{ m=0; n=0; }
 P0           | P1           ;
 MOV EAX,$1   | MOV EAX,$1   ;
 XCHG [m],EAX | XCHG [m],EAX ;
 MOV EBX,[n]  | MOV EBX,[n]  ;
 ADD EBX,$1   | ADD EBX,$1   ;
 MOV [n],EBX  | MOV [n],EBX  ;
 MOV EBX,$0   | MOV EBX,$0   ;
 XCHG [m],EBX | XCHG [m],EBX ;
~exists (0:EAX=0 /\\ 1:EAX=0 /\\ ~n=2)
`],
  ["no question, and Peterson's lock", `#include <stdatomic.h>
atomic_int flag[2];
atomic_int turn;
int n;
void P0(void) { flag[0] = 1; turn = 1; while (flag[1] && turn == 1) ; n++; flag[0] = 0; }
void P1(void) { atomic_store(&flag[1], 1); atomic_store(&turn, 0); while (atomic_load(&flag[0]) == 1 && atomic_load(&turn) == 0) ; n++; atomic_store(&flag[1], 0); }
`, `X86 Mine
(* 0:EAX is flag_1 after its loop, 0:EBX is turn after its loop, 1:EAX is flag_0 after its loop, 1:EBX is turn after its loop *)
(* every wait ends: (0:EAX=0 \\/ ~0:EBX=1) /\\ (~1:EAX=1 \\/ ~1:EBX=0) *)
(* an addition to n is lost: ~n=2 *)
{ flag_0=0; flag_1=0; turn=0; n=0; }
 P0                | P1                ;
 MOV ECX,$1        | MOV ECX,$1        ;
 XCHG [flag_0],ECX | XCHG [flag_1],ECX ;
 MOV ECX,$1        | MOV ECX,$0        ;
 XCHG [turn],ECX   | XCHG [turn],ECX   ;
 MOV EAX,[flag_1]  | MOV EAX,[flag_0]  ;
 CMP EAX,$0        | CMP EAX,$1        ;
 JE L1             | JNE L1            ;
 MOV EBX,[turn]    | MOV EBX,[turn]    ;
 L1: MOV ECX,[n]   | L1: MOV ECX,[n]   ;
 ADD ECX,$1        | ADD ECX,$1        ;
 MOV [n],ECX       | MOV [n],ECX       ;
 MOV ECX,$0        | MOV ECX,$0        ;
 XCHG [flag_0],ECX | XCHG [flag_1],ECX ;
locations [turn]
~exists ((0:EAX=0 \\/ ~0:EBX=1) /\\ (~1:EAX=1 \\/ ~1:EBX=0) /\\ ~n=2)
`],
  ["Peterson's lock, released", `#include <atomic>
#include <thread>
std::atomic<bool> flag[2] = {{false}, {false}};
std::atomic<int> turn{0};
int n;
void p0() { flag[0].store(true, std::memory_order_release); turn.store(1, std::memory_order_release); while (flag[1].load(std::memory_order_acquire) && turn.load(std::memory_order_acquire) == 1) { std::this_thread::yield(); } n++; flag[0].store(false, std::memory_order_release); }
void p1() { flag[1].store(true, std::memory_order_release); turn.store(0, std::memory_order_release); while (flag[0].load(std::memory_order_acquire) && turn.load(std::memory_order_acquire) == 0) { std::this_thread::yield(); } n++; flag[1].store(false, std::memory_order_release); }
int main() { std::thread a(p0), b(p1); a.join(); b.join(); assert(n == 2); }
`, `X86 Mine
(* 0:EAX is flag_1 after its loop, 0:EBX is turn after its loop, 1:EAX is flag_0 after its loop, 1:EBX is turn after its loop *)
(* every wait ends: (0:EAX=0 \\/ ~0:EBX=1) /\\ (1:EAX=0 \\/ ~1:EBX=0) *)
{ flag_0=0; flag_1=0; turn=0; n=0; }
 P0               | P1               ;
 MOV [flag_0],$1  | MOV [flag_1],$1  ;
 MOV [turn],$1    | MOV [turn],$0    ;
 MOV EAX,[flag_1] | MOV EAX,[flag_0] ;
 CMP EAX,$0       | CMP EAX,$0       ;
 JE L1            | JE L1            ;
 MOV EBX,[turn]   | MOV EBX,[turn]   ;
 L1: MOV ECX,[n]  | L1: MOV ECX,[n]  ;
 ADD ECX,$1       | ADD ECX,$1       ;
 MOV [n],ECX      | MOV [n],ECX      ;
 MOV [flag_0],$0  | MOV [flag_1],$0  ;
locations [turn]
forall (~0:EAX=0 /\\ 0:EBX=1 \\/ ~1:EAX=0 /\\ 1:EBX=0 \\/ n=2)
`],
  ["no question, and loops that exchange and look", `#include <atomic>
std::atomic<bool> l{false}; int n;
void P0() { while (true) { if (!l.exchange(true, std::memory_order_acquire)) break; while (l.load(std::memory_order_relaxed)) ; } n = n + 1; l.store(false, std::memory_order_release); }
void P1() { while (l.exchange(true, std::memory_order_acquire)) { while (l.load(std::memory_order_relaxed)) { _mm_pause(); } } n += 1; l.store(false, std::memory_order_release); }
`, `X86 Mine
(* 0:EAX is l at its lock, 1:EAX is l at its lock *)
(* every wait ends: 0:EAX=0 /\\ 1:EAX=0 *)
(* an addition to n is lost: ~n=2 *)
{ l=0; n=0; }
 P0           | P1           ;
 MOV EAX,$1   | MOV EAX,$1   ;
 XCHG [l],EAX | XCHG [l],EAX ;
 MOV EBX,[n]  | MOV EBX,[n]  ;
 ADD EBX,$1   | ADD EBX,$1   ;
 MOV [n],EBX  | MOV [n],EBX  ;
 MOV [l],$0   | MOV [l],$0   ;
locations [l]
~exists (0:EAX=0 /\\ 1:EAX=0 /\\ ~n=2)
`],
  ["no question, and a loop that compares three loads", `#include <stdatomic.h>
atomic_int a, b, d;
void P0(void) { d = 1; a = 1; b = 1; }
void P1(void) { while ((!a || !b) && d != 3) ; int r = d; }
`, `X86 Mine
(* 1:EAX is a after its loop, 1:EBX is b after its loop, 1:ECX is d after its loop, 1:EDX is r *)
(* every wait ends: (~1:EAX=0 /\\ ~1:EBX=0 \\/ 1:ECX=3) *)
{ a=0; b=0; d=0; }
 P0           | P1              ;
 MOV EAX,$1   | MOV EAX,[a]     ;
 XCHG [d],EAX | CMP EAX,$0      ;
 MOV EAX,$1   | JE L3           ;
 XCHG [a],EAX | MOV EBX,[b]     ;
 MOV EAX,$1   | CMP EBX,$0      ;
 XCHG [b],EAX | JNE L1          ;
              | L3: MOV ECX,[d] ;
              | L1: MOV EDX,[d] ;
exists ((~1:EAX=0 /\\ ~1:EBX=0 \\/ 1:ECX=3) /\\ 1:EDX=0)
`],
  ["no question, and guards in a branch and unlocked", `#include <mutex>
std::mutex m; std::atomic<int> x; int n;
void P0() { if (x.load()) { std::scoped_lock g(m); n += 1; return; } n = 5; }
void P1() { std::unique_lock<std::mutex> g(m); x = 1; n++; g.unlock(); x = 2; }
`, `X86 Mine
(* 0:EAX is m at its lock, 1:EAX is m at its lock *)
(* every wait ends: 0:EAX=0 /\\ 1:EAX=0 *)
{ m=0; x=0; n=0; }
 P0             | P1           ;
 MOV EBX,[x]    | MOV EAX,$1   ;
 CMP EBX,$0     | XCHG [m],EAX ;
 JE L1          | MOV EBX,$1   ;
 MOV EAX,$1     | XCHG [x],EBX ;
 XCHG [m],EAX   | MOV EBX,[n]  ;
 MOV EBX,[n]    | ADD EBX,$1   ;
 ADD EBX,$1     | MOV [n],EBX  ;
 MOV [n],EBX    | MOV EBX,$0   ;
 MOV EBX,$0     | XCHG [m],EBX ;
 XCHG [m],EBX   | MOV EBX,$2   ;
 JMP END        | XCHG [x],EBX ;
 L1: MOV [n],$5 |              ;
 END:           |              ;
locations [0:EAX; 1:EAX; n]
exists (true)
`],
  ["no question, and loops that exchange by builtins", `#include <pthread.h>
volatile int lock; int n;
void P0(void) { while (__sync_lock_test_and_set(&lock, 1)) { __asm__ __volatile__("pause" ::: "memory"); } n++; __sync_lock_release(&lock); }
void P1(void) { while (__sync_lock_test_and_set(&lock, 1)) while (lock) continue; n++; __sync_lock_release(&lock); }
`, `X86 Mine
(* 0:EAX is lock at its lock, 1:EAX is lock at its lock *)
(* every wait ends: 0:EAX=0 /\\ 1:EAX=0 *)
(* an addition to n is lost: ~n=2 *)
{ lock=0; n=0; }
 P0              | P1              ;
 MOV EAX,$1      | MOV EAX,$1      ;
 XCHG [lock],EAX | XCHG [lock],EAX ;
 MOV EBX,[n]     | MOV EBX,[n]     ;
 ADD EBX,$1      | ADD EBX,$1      ;
 MOV [n],EBX     | MOV [n],EBX     ;
 MOV [lock],$0   | MOV [lock],$0   ;
locations [lock]
~exists (0:EAX=0 /\\ 1:EAX=0 /\\ ~n=2)
`],
  ["no question, and types of other sizes", `#include <atomic>
std::atomic<long> counter{0}; static volatile unsigned long seq; std::uint8_t on; std::atomic<std::size_t> ready;
void P0() { counter.fetch_add(1L); seq = 2; on = 1; ready.store(1ULL, std::memory_order_release); }
void P1() { while (ready.load(std::memory_order_acquire) != 1) ; long long r = counter; uint8_t o = on; --seq; }
`, `X86 Mine
(* 1:EAX is ready after its loop, 1:EBX is r, 1:ECX is o *)
(* every wait ends: 1:EAX=1 *)
{ counter=0; seq=0; on=0; ready=0; }
 P0                      | P1                  ;
 MOV EAX,$1              | MOV EAX,[ready]     ;
 LOCK XADD [counter],EAX | MOV EBX,[counter]   ;
 MOV [seq],$2            | MOV ECX,[on]        ;
 MOV [on],$1             | MOV EDX,[seq]       ;
 MOV [ready],$1          | ADD EDX,$4294967295 ;
                         | MOV [seq],EDX       ;
locations [seq]
exists (1:EAX=1 /\\ ~1:EBX=0 /\\ 1:ECX=0)
`],
  ["two questions", `${PROGRAM}/* lw: exists (x=1) */\n`, "`/* lw: exists (x=1) */`: a second comment says what is asked"],
  ["a function without an end", PROGRAM.split("}")[0], "`void P0(void) {`: its `}` is missing"],
  ["a pointer that is increased", "C SB\n{}\nP0 (atomic_int *x) { *x++; }\nexists (x=1)\n", `\`*x++\`${OF_OTHERS}`],
  ["a question that is misspelt, in herd's form", "C SB\n{}\nP0 (int *x) { }\nexist (x=1)\n",
    "`exist (x=1)`: after the threads is the question, as `exists (0:r0=0)`"],
  ["a value that a thread returns on one path only", "atomic_int x;\nint P0() { if (x) return 1; x = 2; }\n// lw: exists (0:return=1)\n",
    "`0:return`, of which the question asks: the thread returns a value on some paths only"],
  ["a value that a thread of herd returns", "C SB\n{}\nP0 (atomic_int *x) { return *x; }\nexists (x=1)\n",
    "`return *x`: a thread of herd returns nothing, so set a variable, as `int r0`"],
  ["a function without parameters in herd's form", "C SB\n{}\nP0 () { }\nexists (x=1)\n",
    "`P0 () { }`: a parameter is a pointer to 32 bits, as `atomic_int *x`"],
  ["no thread", "C SB\n{}\n", "`C SB {}`: threads are functions `P0`, `P1` and so on"],
  ["no initial values", "C SB\nP0 (atomic_int *x) { *x = 1; }\nexists (x=1)\n", 
    "`C SB P0 (atomic_int *x) { *x = 1; } exis..`: a test begins with `C`, its name, and its initial values in braces"],
  ["a parameter that is no pointer", "C SB\n{}\nP0 (int x) { }\nexists (x=1)\n", "`int x`: a parameter is a pointer to 32 bits, as `atomic_int *x`"],
  ["two initial values without a mark between", "C SB\n{ x=1 y=2; }\nP0 (int *x) { }\nexists (x=1)\n", `\`x=1 y=2\`${OF_ENTRIES}`],
  ["an initial value that is an address", "C SB\n{ x=y; }\nP0 (int *x) { }\nexists (x=1)\n", `\`x=y\`${OF_ENTRIES}`],
  ["a register in the initial values", "C SB\n{ 0:r0=1; }\nP0 (int *x) { }\nexists (x=1)\n", `\`0:r0=1\`${OF_ENTRIES}`],
  ["a race with a load that is volatile", "C SB\n{}\nP0 (int *x) { *x = 1; }\nP1 (int *x) { int r0 = READ_ONCE(*x); }\nexists (1:r0=1)\n", `X86 SB
(* 1:EAX is r0 *)
{ x=0; }
 P0         | P1          ;
 MOV [x],$1 | MOV EAX,[x] ;
exists (1:EAX=1)
`],
  ["two loops that wait, and plain variables on which threads race", `std::atomic<int> go{0}, done{5};
std::atomic<bool> ready;
int data, more;
void P0() { while (go.load(std::memory_order_acquire) != 2) { std::this_thread::yield(); } data = 1; more = data + 1; while (!ready) { } }
void P1() { go = 2; int last; do last = done; while (last == 5); int seen = data, r1 = more; ready = true; }
~exists (1:seen=0 \\/ 1:r1=0)
`, `X86 Mine
(* 0:EAX is go after its loop, 0:EBX is ready after loop 2, 1:EAX is last, 1:EBX is seen, 1:ECX is r1 *)
(* every wait ends: 0:EAX=2 /\\ 0:EBX=1 /\\ ~1:EAX=5 *)
{ go=0; done=5; ready=0; data=0; more=0; }
 P0              | P1               ;
 MOV EAX,[go]    | MOV EDX,$2       ;
 MOV [data],$1   | XCHG [go],EDX    ;
 MOV ECX,[data]  | MOV EAX,[done]   ;
 ADD ECX,$1      | MOV EBX,[data]   ;
 MOV [more],ECX  | MOV ECX,[more]   ;
 MOV EBX,[ready] | MOV EDX,$1       ;
                 | XCHG [ready],EDX ;
~exists (0:EAX=2 /\\ 0:EBX=1 /\\ ~1:EAX=5 /\\ (1:EBX=0 \\/ 1:ECX=0))
`],
  ["a question that does not close, after a loop", `${LOOP}exists x=1) \\/ (x=2\n`,
    "`exists x=1) \\/ (x=2`: a question is `exists (..)`, `~exists (..)` or `forall (..)`"],
  ["five threads", `atomic_int x;\n${[0, 1, 2, 3, 4].map((it) => `void P${it}() { x = 1; }\n`).join("")}// lw: exists (x=1)\n`,
    "there are more than 4 threads"],
  ["functions that threads call, with `main`", `#include <atomic>
#include <thread>
#include <cassert>
std::atomic<bool> flag{false};
int counter = 0;
void lock() { while (flag.exchange(true, std::memory_order_acquire)) ; }
void unlock() { flag.store(false, std::memory_order_release); }
void worker() { lock(); counter++; unlock(); }
int main() { std::thread a(worker), b(worker); a.join(); b.join(); assert(counter == 2); }
`, `X86 Mine
(* 0:EAX is flag at its lock, 1:EAX is flag at its lock *)
(* every wait ends: 0:EAX=0 /\\ 1:EAX=0 *)
{ flag=0; counter=0; }
 P0                | P1                ;
 MOV EAX,$1        | MOV EAX,$1        ;
 XCHG [flag],EAX   | XCHG [flag],EAX   ;
 MOV EBX,[counter] | MOV EBX,[counter] ;
 ADD EBX,$1        | ADD EBX,$1        ;
 MOV [counter],EBX | MOV [counter],EBX ;
 MOV [flag],$0     | MOV [flag],$0     ;
locations [flag]
forall (~0:EAX=0 \\/ ~1:EAX=0 \\/ counter=2)
`],
  ["functions that return values", `std::atomic<int> x, y;
int read_y() { return y.load(std::memory_order_acquire); }
static inline int read(std::atomic<int> &v, std::memory_order order = std::memory_order_seq_cst) { return v.load(order); }
int sum(int v) { if (x == v) return 5; int t = y; t += v; return t; }
void put(int v, int w) { v++; x.store(v, std::memory_order_relaxed); y.store(w, std::memory_order_relaxed); }
void P0() { int t = read_y(), r = t; int s = sum(r); put(r, t); put(s, 2); }
void P1() { if (read(x) == 1 && !read(y, std::memory_order_relaxed)) y = sum(1); }
// lw: exists (0:r=0 /\\ 0:s=0)
`, `X86 Mine
(* 0:EAX is t, 0:EBX is r, 0:ECX is s, 0:EDX is t_2, 0:ESI is v, 1:EAX is sum_result, 1:EBX is t *)
{ x=0; y=0; }
 P0              | P1              ;
 MOV EAX,[y]     | MOV ECX,[x]     ;
 MOV EBX,EAX     | CMP ECX,$1      ;
 MOV EDI,[x]     | JNE END         ;
 CMP EDI,EBX     | MOV ECX,[y]     ;
 JNE L2          | CMP ECX,$0      ;
 MOV ECX,$5      | JNE END         ;
 JMP L1          | MOV ECX,[x]     ;
 L2: MOV EDX,[y] | CMP ECX,$1      ;
 ADD EDX,EBX     | JNE L2          ;
 MOV ECX,EDX     | MOV EAX,$5      ;
 L1: MOV ESI,EBX | JMP L1          ;
 ADD ESI,$1      | L2: MOV EBX,[y] ;
 MOV [x],ESI     | ADD EBX,$1      ;
 MOV [y],EAX     | MOV EAX,EBX     ;
 MOV ESI,ECX     | L1: MOV ECX,EAX ;
 ADD ESI,$1      | XCHG [y],ECX    ;
 MOV [x],ESI     | END:            ;
 MOV [y],$2      |                 ;
locations [y]
exists (0:EBX=0 /\\ 0:ECX=0)
`],
  ["functions with pointers", `atomic_int l, m; int n; int got0, got1;
bool try_lock(atomic_int *l) { return atomic_exchange_explicit(l, 1, memory_order_acquire) == 0; }
void get(int *out) { *out = m; }
void t1() { if (try_lock(&m)) { n = 1; get(&got0); } }
void t2() { bool ok = try_lock(&m); if (ok) { n = 2; get(&got1); } }
exists (got0=1 /\\ got1=1)
`, `X86 Mine
(* 0:EAX is got0, 1:EAX is ok, 1:EBX is got1 *)
{ m=0; n=0; }
 P0           | P1             ;
 MOV EBX,$1   | MOV ECX,$1     ;
 XCHG [m],EBX | XCHG [m],ECX   ;
 CMP EBX,$0   | CMP ECX,$0     ;
 JNE END      | JNE L1         ;
 MOV [n],$1   | MOV EAX,$1     ;
 MOV EAX,[m]  | JMP L2         ;
 END:         | L1: MOV EAX,$0 ;
              | L2: CMP EAX,$0 ;
              | JE END         ;
              | MOV [n],$2     ;
              | MOV EBX,[m]    ;
              | END:           ;
locations [m; n]
exists (0:EAX=1 /\\ 1:EBX=1)
`],
  ["no question, and locks by a reference", `std::atomic<bool> l1{false}, l2{false}; int n;
void lock(std::atomic<bool>& l) { while (l.exchange(true, std::memory_order_acquire)) { while (l.load(std::memory_order_relaxed)) ; } }
void unlock(std::atomic<bool>& l) { l.store(false, std::memory_order_release); }
void t1() { lock(l1); lock(l2); n++; unlock(l2); unlock(l1); }
void t2() { lock(l1); n++; unlock(l1); }
`, `X86 Mine
(* 0:EAX is l1 at its lock, 0:EBX is l2 at its lock, 1:EAX is l1 at its lock *)
(* every wait ends: 0:EAX=0 /\\ 0:EBX=0 /\\ 1:EAX=0 *)
(* an addition to n is lost: ~n=2 *)
{ l1=0; l2=0; n=0; }
 P0            | P1            ;
 MOV EAX,$1    | MOV EAX,$1    ;
 XCHG [l1],EAX | XCHG [l1],EAX ;
 MOV EBX,$1    | MOV EBX,[n]   ;
 XCHG [l2],EBX | ADD EBX,$1    ;
 MOV ECX,[n]   | MOV [n],EBX   ;
 ADD ECX,$1    | MOV [l1],$0   ;
 MOV [n],ECX   |               ;
 MOV [l2],$0   |               ;
 MOV [l1],$0   |               ;
locations [l1]
~exists (0:EAX=0 /\\ 0:EBX=0 /\\ 1:EAX=0 /\\ ~n=2)
`],
  ["no question, and a function in the condition of a loop", `std::atomic_flag f = ATOMIC_FLAG_INIT; int n;
bool try_lock() { return !f.test_and_set(std::memory_order_acquire); }
void unlock() { f.clear(std::memory_order_release); }
void a() { while (!try_lock()) ; n++; unlock(); }
void b() { while (!try_lock()) { std::this_thread::yield(); } n++; unlock(); }
`, `X86 Mine
(* 0:EAX is f at its lock, 1:EAX is f at its lock *)
(* every wait ends: 0:EAX=0 /\\ 1:EAX=0 *)
(* an addition to n is lost: ~n=2 *)
{ f=0; n=0; }
 P0           | P1           ;
 MOV EAX,$1   | MOV EAX,$1   ;
 XCHG [f],EAX | XCHG [f],EAX ;
 MOV EBX,[n]  | MOV EBX,[n]  ;
 ADD EBX,$1   | ADD EBX,$1   ;
 MOV [n],EBX  | MOV [n],EBX  ;
 MOV [f],$0   | MOV [f],$0   ;
locations [f]
~exists (0:EAX=0 /\\ 1:EAX=0 /\\ ~n=2)
`],
  ["no question, and a structure that locks", `#include <atomic>
struct Spinlock {
  std::atomic<bool> locked{false};
  void lock() { while (locked.exchange(true, std::memory_order_acquire)) ; }
  void unlock() { locked.store(false, std::memory_order_release); }
};
Spinlock l;
int n;
int get() { std::lock_guard<Spinlock> g(l); if (n == 1) return 7; n = 1; return 8; }
void t1() { l.lock(); n++; l.unlock(); }
void t2() { int a = get(); }
`, `X86 Mine
(* 0:EAX is l_locked at its lock, 1:EAX is l_locked at its lock, 1:EBX is a *)
(* every wait ends: 0:EAX=0 /\\ 1:EAX=0 *)
{ l_locked=0; n=0; }
 P0                  | P1                  ;
 MOV EAX,$1          | MOV EAX,$1          ;
 XCHG [l_locked],EAX | XCHG [l_locked],EAX ;
 MOV EBX,[n]         | MOV ECX,[n]         ;
 ADD EBX,$1          | CMP ECX,$1          ;
 MOV [n],EBX         | JNE L3              ;
 MOV [l_locked],$0   | MOV EBX,$7          ;
                     | MOV [l_locked],$0   ;
                     | JMP L1              ;
                     | L3: MOV [n],$1      ;
                     | MOV EBX,$8          ;
                     | MOV [l_locked],$0   ;
                     | L1:                 ;
locations [0:EAX; 1:EAX; 1:EBX; l_locked; n]
exists (true)
`],
  ["a class that locks two threads by their numbers", `class Peterson {
  std::atomic<bool> flag[2] = {false, false};
  std::atomic<int> turn{0};
public:
  Peterson() = default;
  void lock(int me) { int other = 1 - me; flag[me].store(true, std::memory_order_relaxed); turn.store(other, std::memory_order_relaxed); while (flag[other].load(std::memory_order_acquire) && turn.load(std::memory_order_relaxed) == other) ; }
  void unlock(int me) { flag[me].store(false, std::memory_order_release); }
};
Peterson p; int n;
void worker(int id) { p.lock(id); n++; p.unlock(id); }
int main() { std::thread t1(worker, 0), t2{worker, 1}; t1.join(); t2.join(); assert(n == 2); }
`, `X86 Mine
(* 0:EAX is p_flag_1 after its loop, 0:EBX is p_turn after its loop, 1:EAX is p_flag_0 after its loop, 1:EBX is p_turn after its loop *)
(* every wait ends: (0:EAX=0 \\/ ~0:EBX=1) /\\ (1:EAX=0 \\/ ~1:EBX=0) *)
{ p_flag_0=0; p_flag_1=0; p_turn=0; n=0; }
 P0                 | P1                 ;
 MOV [p_flag_0],$1  | MOV [p_flag_1],$1  ;
 MOV [p_turn],$1    | MOV [p_turn],$0    ;
 MOV EAX,[p_flag_1] | MOV EAX,[p_flag_0] ;
 CMP EAX,$0         | CMP EAX,$0         ;
 JE L2              | JE L2              ;
 MOV EBX,[p_turn]   | MOV EBX,[p_turn]   ;
 L2: MOV ECX,[n]    | L2: MOV ECX,[n]    ;
 ADD ECX,$1         | ADD ECX,$1         ;
 MOV [n],ECX        | MOV [n],ECX        ;
 MOV [p_flag_0],$0  | MOV [p_flag_1],$0  ;
locations [p_turn]
forall (~0:EAX=0 /\\ 0:EBX=1 \\/ ~1:EAX=0 /\\ 1:EBX=0 \\/ n=2)
`],
  ["a method whose parameter has the name of a member", `struct A { std::atomic<int> v, w[2]; void set(int v, int w) { this->v = w; this->w[1] = v; v++; } } a;
void P0() { a.set(3, 4); }
void P1() { int r = a.w[1]; }
// lw: exists (a_v=4)
`, `X86 Mine
(* 0:EAX is v, 1:EAX is r *)
{ a_v=0; a_w_1=0; }
 P0               | P1              ;
 MOV EAX,$3       | MOV EAX,[a_w_1] ;
 MOV EBX,$4       |                 ;
 XCHG [a_v],EBX   |                 ;
 MOV EBX,EAX      |                 ;
 XCHG [a_w_1],EBX |                 ;
 ADD EAX,$1       |                 ;
exists (a_v=4)
`],
  ["numbers of blocks, and a reference to a word by a number", `std::atomic<int> a[2];
void set(std::atomic<int>& to, int k) { to = k; }
void f(int i) { for (int n = 0; n < 2; n++) { int k = 1; a[k - i] = n; } set(a[i ^ 1], 5); }
void P0() { f(0); }
void P1() { f(1); }
// lw: exists (a_0=1)
`, `X86 Mine
{ a_0=0; a_1=0; }
 P0             | P1             ;
 MOV EAX,$0     | MOV EAX,$0     ;
 XCHG [a_1],EAX | XCHG [a_0],EAX ;
 MOV EAX,$1     | MOV EAX,$1     ;
 XCHG [a_1],EAX | XCHG [a_0],EAX ;
 MOV EAX,$5     | MOV EAX,$5     ;
 XCHG [a_1],EAX | XCHG [a_0],EAX ;
locations [a_1]
exists (a_0=1)
`],
  ["constant references to variables", `std::atomic<int> x; int n;
void put(const int& k, int& m) { m++; x = k; }
void wait(const std::atomic<int>& v) { while (!v) ; }
void P0() { int r = 3; put(r, r); put(5, r); put(n, r); wait(x); }
void P1() { n = 2; }
// lw: exists (x=-4)
`, `X86 Mine
(* 0:EAX is r, 0:EBX is x after its loop *)
(* every wait ends: ~0:EBX=0 *)
{ x=0; n=0; }
 P0           | P1         ;
 MOV EAX,$3   | MOV [n],$2 ;
 ADD EAX,$1   |            ;
 MOV ECX,EAX  |            ;
 XCHG [x],ECX |            ;
 ADD EAX,$1   |            ;
 MOV ECX,$5   |            ;
 XCHG [x],ECX |            ;
 ADD EAX,$1   |            ;
 MOV ECX,[n]  |            ;
 XCHG [x],ECX |            ;
 MOV EBX,[x]  |            ;
exists (~0:EBX=0 /\\ x=4294967292)
`],
  ["a constant reference to what the start of a thread copies", `std::atomic<int> x; int n;
void f(const int& k) { x = k; }
void g() { n = 2; }
int main() { std::thread t1(f, n), t2(g); t1.join(); t2.join(); }
`, "`std::thread t1(f, n), t2(g)`: its arguments are constants, variables of the thread, and shared variables of the types of its parameters"],
  ["a number that a variable of 8 bits has not", `std::atomic<int> a[2];
void f(int i) { uint8_t k = i - 1; a[i] = k; }
void P0() { f(0); }
`, `\`uint8_t k = i - 1\`${OF_SMALL}`],
  ["signs that end nothing, and an enumeration to the last word", `enum { A = 0xffffffff, B };
std::atomic<int> x;;
void P0() { x = B; };
// lw: exists (x=1)
`, `X86 Mine
{ x=0; }
 P0           ;
 MOV EAX,$0   ;
 XCHG [x],EAX ;
exists (x=1)
`],
  ["casts of constants to a type that has them, and to one that has not", `std::atomic<int> a[2];
void f(int i) { a[i] = static_cast<unsigned long>(300) + (long)i; a[i] = static_cast<unsigned char>(300); }
void P0() { f(1); }
`, "`a[i] = static_cast<unsigned char>(300)`: write the word that the cast results in"],
  ["an index that is no constant", `std::atomic<int> a[2], x;
void P0() { int i = x; int r = std::atomic_load(&a[i]); }
void P1() { x = 1; }
// lw: exists (x=1)
`, "`int r = std::atomic_load(&a[i])`: an index is a constant, or comes from a variable that only this thread writes, and that has a known constant then"],
  ["compare-exchanges in branches", `std::atomic<int> c, x;
bool take() { int e = 0; return c.compare_exchange_strong(e, 1); }
void P0() { int e = 0; if (x) { if (take()) x = 2; } else if (c.compare_exchange_strong(e, 1)) x = 3; }
void P1() { x = 1; c = 1; }
// lw: exists (x=2)
`, `X86 Mine
(* 0:EAX is e, 0:EBX is e_2, 0:ECX is take_result *)
{ c=0; x=0; }
 P0             | P1           ;
 MOV EAX,$0     | MOV EAX,$1   ;
 MOV EDX,[x]    | XCHG [x],EAX ;
 CMP EDX,$0     | MOV EAX,$1   ;
 JE L1          | XCHG [c],EAX ;
 MOV EBX,$0     |              ;
 MOV EBX,$1     |              ;
 XCHG [c],EBX   |              ;
 CMP EBX,$0     |              ;
 JNE L4         |              ;
 MOV ECX,$1     |              ;
 JMP L5         |              ;
 L4: MOV ECX,$0 |              ;
 L5: CMP ECX,$0 |              ;
 JE L2          |              ;
 MOV EDX,$2     |              ;
 XCHG [x],EDX   |              ;
 L2: JMP END    |              ;
 L1: MOV EAX,$1 |              ;
 XCHG [c],EAX   |              ;
 CMP EAX,$0     |              ;
 JNE END        |              ;
 MOV EDX,$3     |              ;
 XCHG [x],EDX   |              ;
 END:           |              ;
locations [c]
exists (x=2)
`],
  ["a class with a constructor, and objects by references", `class Flag { public: Flag() : v(0) { on = true; } Flag(const Flag&) = delete; void set(int k) { this->v.store(k, std::memory_order_release); put(k); }
  int get() const { return v.load(std::memory_order_acquire); } private: void put(int k) { w = k; } std::atomic<int> v; int w; std::atomic<bool> on; };
int main() { Flag a, b; int r1, r2; auto go = [](Flag& one, Flag* two, int& r) { one.set(1); r = two->get(); };
  std::thread s(go, std::ref(a), &b, std::ref(r1)), t([&](int k) { b.set(k); r2 = a.get(); }, 2); s.join(); t.join(); if (!r1 && !r2) puts(""); }
`, `X86 Mine
(* 0:EAX is a_w, 0:EBX is r1, 1:EAX is b_w, 1:EBX is r2 *)
{ a_v=0; b_v=0; }
 P0            | P1            ;
 MOV [a_v],$1  | MOV [b_v],$2  ;
 MOV EAX,$1    | MOV EAX,$2    ;
 MOV EBX,[b_v] | MOV EBX,[a_v] ;
exists (0:EBX=0 /\\ 1:EBX=0)
`],
  ["threads with numbers", `atomic_int flag[2]; atomic_int turn; int r[2];
void *worker(void *arg) { long id = (long)arg; const int other = id ^ 1; flag[id] = 1; if (id == 0) { turn = other; r[id] = flag[other]; return NULL; } turn = id + 1; r[id] = flag[!id]; return NULL; }
int main() { pthread_t t[2]; for (int i = 0; i < 2; i++) pthread_create(&t[i], NULL, worker, (void*)i); for (int i = 0; i < 2; i++) pthread_join(t[i], NULL); assert(r[0] || r[1]); }
`, `X86 Mine
(* 0:EAX is r_0, 1:EAX is r_1 *)
{ flag_0=0; flag_1=0; turn=0; }
 P0                | P1                ;
 MOV EBX,$1        | MOV EBX,$1        ;
 XCHG [flag_0],EBX | XCHG [flag_1],EBX ;
 MOV EBX,$1        | MOV EBX,$2        ;
 XCHG [turn],EBX   | XCHG [turn],EBX   ;
 MOV EAX,[flag_1]  | MOV EAX,[flag_0]  ;
locations [turn]
~exists (0:EAX=0 /\\ 1:EAX=0)
`],
  ["no question, and functions with numbers", `std::atomic<bool> flag[2]; std::atomic<int> turn; int n;
void lock(int me) { int other = 1 - me; flag[me] = true; turn = other; while (flag[other] && turn == other) ; }
void unlock(int me) { flag[me] = false; }
void t0() { lock(0); n++; unlock(0); }
void t1() { int me = 1; lock(me); n++; unlock(me); }
`, `X86 Mine
(* 0:EAX is flag_1 after its loop, 0:EBX is turn after its loop, 1:EAX is flag_0 after its loop, 1:EBX is turn after its loop *)
(* every wait ends: (0:EAX=0 \\/ ~0:EBX=1) /\\ (1:EAX=0 \\/ ~1:EBX=0) *)
(* an addition to n is lost: ~n=2 *)
{ flag_0=0; flag_1=0; turn=0; n=0; }
 P0                | P1                ;
 MOV ECX,$1        | MOV ECX,$1        ;
 XCHG [flag_0],ECX | XCHG [flag_1],ECX ;
 MOV ECX,$1        | MOV ECX,$0        ;
 XCHG [turn],ECX   | XCHG [turn],ECX   ;
 MOV EAX,[flag_1]  | MOV EAX,[flag_0]  ;
 CMP EAX,$0        | CMP EAX,$0        ;
 JE L2             | JE L2             ;
 MOV EBX,[turn]    | MOV EBX,[turn]    ;
 L2: MOV ECX,[n]   | L2: MOV ECX,[n]   ;
 ADD ECX,$1        | ADD ECX,$1        ;
 MOV [n],ECX       | MOV [n],ECX       ;
 MOV ECX,$0        | MOV ECX,$0        ;
 XCHG [flag_0],ECX | XCHG [flag_1],ECX ;
locations [turn]
~exists ((0:EAX=0 \\/ ~0:EBX=1) /\\ (1:EAX=0 \\/ ~1:EBX=0) /\\ ~n=2)
`],
  ["lambdas with numbers", `std::atomic<int> x; int r[2];
int main() { std::vector<std::thread> ts; for (int i = 0; i < 2; ++i) ts.emplace_back([&, i] { r[i] = x.fetch_add(i + 1); }); for (auto& t : ts) t.join(); assert(r[0] != 1 || r[1] != 1); }
`, `X86 Mine
(* 0:EAX is r_0, 1:EAX is r_1 *)
{ x=0; }
 P0                | P1                ;
 MOV EAX,$1        | MOV EAX,$2        ;
 LOCK XADD [x],EAX | LOCK XADD [x],EAX ;
locations [x]
~exists (0:EAX=1 /\\ 1:EAX=1)
`],
  ["no question, and loops that lock by a compare-exchange", `std::atomic<bool> l{false}; int n;
void P0() { bool expected = false; while (!l.compare_exchange_weak(expected, true, std::memory_order_acquire)) expected = false; n++; l.store(false, std::memory_order_release); }
void P1() { bool expected = false; while (!l.compare_exchange_strong(expected, true)) { expected = false; _mm_pause(); } n++; l.store(false, std::memory_order_release); }
`, `X86 Mine
(* 0:EAX is expected, 1:EAX is expected *)
(* every wait ends: 0:EAX=0 /\\ 1:EAX=0 *)
(* an addition to n is lost: ~n=2 *)
{ l=0; n=0; }
 P0           | P1           ;
 MOV EAX,$0   | MOV EAX,$0   ;
 MOV EAX,$1   | MOV EAX,$1   ;
 XCHG [l],EAX | XCHG [l],EAX ;
 MOV EBX,[n]  | MOV EBX,[n]  ;
 ADD EBX,$1   | ADD EBX,$1   ;
 MOV [n],EBX  | MOV [n],EBX  ;
 MOV [l],$0   | MOV [l],$0   ;
locations [l]
~exists (0:EAX=0 /\\ 1:EAX=0 /\\ ~n=2)
`],
  ["no question, and a loop by a compare-exchange that does not lock", `std::atomic<bool> l{false}; int n;
void P0() { bool expected = false; while (!l.compare_exchange_weak(expected, true)) ; n++; l = false; }
void P1() { n = 2; l = true; }
`, `X86 Mine
(* 0:EAX is expected *)
{ l=0; n=0; }
 P0           | P1           ;
 MOV EAX,$0   | MOV [n],$2   ;
 MOV EAX,$1   | MOV EAX,$1   ;
 XCHG [l],EAX | XCHG [l],EAX ;
 MOV EBX,[n]  |              ;
 ADD EBX,$1   |              ;
 MOV [n],EBX  |              ;
 MOV EBX,$0   |              ;
 XCHG [l],EBX |              ;
locations [0:EAX; l; n]
exists (true)
`],
  ["no question, and loops by builtins that compare and swap", `volatile int l; int n;
void P0() { while (!__sync_bool_compare_and_swap(&l, 0, 1)) ; n++; __sync_lock_release(&l); }
void P1() { while (__sync_val_compare_and_swap(&l, 0, 1) != 0) { __asm__ volatile("pause"); } n++; __sync_lock_release(&l); }
`, `X86 Mine
(* 0:EAX is l at its lock, 1:EAX is l at its lock *)
(* every wait ends: 0:EAX=0 /\\ 1:EAX=0 *)
(* an addition to n is lost: ~n=2 *)
{ l=0; n=0; }
 P0           | P1           ;
 MOV EAX,$1   | MOV EAX,$1   ;
 XCHG [l],EAX | XCHG [l],EAX ;
 MOV EBX,[n]  | MOV EBX,[n]  ;
 ADD EBX,$1   | ADD EBX,$1   ;
 MOV [n],EBX  | MOV [n],EBX  ;
 MOV [l],$0   | MOV [l],$0   ;
locations [l]
~exists (0:EAX=0 /\\ 1:EAX=0 /\\ ~n=2)
`],
  ["no question, and a loop that sets what it expects", `atomic_int l; int n;
void lock(atomic_int *l) { int expected; do { expected = 0; } while (!atomic_compare_exchange_weak(l, &expected, 1)); }
void P0() { lock(&l); n++; atomic_store(&l, 0); lock(&l); n++; l = 0; }
void P1() { lock(&l); n++; atomic_store(&l, 0); }
`, `X86 Mine
(* 0:EAX is expected, 0:EBX is expected_2, 1:EAX is expected *)
(* every wait ends: 0:EAX=0 /\\ 0:EBX=0 /\\ 1:EAX=0 *)
(* an addition to n is lost: ~n=3 *)
{ l=0; n=0; }
 P0           | P1           ;
 MOV EAX,$1   | MOV EAX,$1   ;
 XCHG [l],EAX | XCHG [l],EAX ;
 MOV ECX,[n]  | MOV EBX,[n]  ;
 ADD ECX,$1   | ADD EBX,$1   ;
 MOV [n],ECX  | MOV [n],EBX  ;
 MOV ECX,$0   | MOV EBX,$0   ;
 XCHG [l],ECX | XCHG [l],EBX ;
 MOV EBX,$1   |              ;
 XCHG [l],EBX |              ;
 MOV ECX,[n]  |              ;
 ADD ECX,$1   |              ;
 MOV [n],ECX  |              ;
 MOV ECX,$0   |              ;
 XCHG [l],ECX |              ;
locations [l]
~exists (0:EAX=0 /\\ 0:EBX=0 /\\ 1:EAX=0 /\\ ~n=3)
`],
  ["no question, and a loop that declares what it expects", `atomic_int l; int n;
void lock() { for (;;) { int expected = 0; if (atomic_compare_exchange_weak_explicit(&l, &expected, 1, memory_order_acquire, memory_order_relaxed)) break; cpu_relax(); } }
void P0() { lock(); n++; atomic_store(&l, 0); }
void P1() { lock(); n++; atomic_store(&l, 0); }
`, `X86 Mine
(* 0:EAX is l at its lock, 1:EAX is l at its lock *)
(* every wait ends: 0:EAX=0 /\\ 1:EAX=0 *)
(* an addition to n is lost: ~n=2 *)
{ l=0; n=0; }
 P0           | P1           ;
 MOV EAX,$1   | MOV EAX,$1   ;
 XCHG [l],EAX | XCHG [l],EAX ;
 MOV EBX,[n]  | MOV EBX,[n]  ;
 ADD EBX,$1   | ADD EBX,$1   ;
 MOV [n],EBX  | MOV [n],EBX  ;
 MOV EBX,$0   | MOV EBX,$0   ;
 XCHG [l],EBX | XCHG [l],EBX ;
locations [l]
~exists (0:EAX=0 /\\ 1:EAX=0 /\\ ~n=2)
`],
  ["a loop by a compare-exchange of a third word", `atomic_int l; int n;
void P0() { while (!__sync_bool_compare_and_swap(&l, 0, 1)) ; n++; l = 0; }
void P1() { while (!__sync_bool_compare_and_swap(&l, 0, 2)) ; n++; l = 0; }
`, "`while (!__sync_bool_compare_and_swap(&l,..`: a loop that exchanges needs a variable that is only set to the constant that it writes, and to the one at which it ends"],
  ["loops that add by a compare-exchange", `std::atomic<int> x; int n;
void P0() { int old = x.load(); while (!x.compare_exchange_weak(old, old + 1)) ; n = old; }
void P1() { int old = x.load(std::memory_order_relaxed); int next; do { next = old + 2; } while (!x.compare_exchange_weak(old, next, std::memory_order_release, std::memory_order_relaxed)); }
exists (0:old=0 /\\ 1:old=0)
`, `X86 Mine
(* 0:EAX is old, 0:EBX is n, 1:EAX is old, 1:EBX is next *)
{ x=0; }
 P0                | P1                ;
 MOV EAX,[x]       | MOV EAX,[x]       ;
 MOV EAX,$1        | MOV EAX,$2        ;
 LOCK XADD [x],EAX | LOCK XADD [x],EAX ;
 MOV EBX,EAX       | MOV EBX,EAX       ;
                   | ADD EBX,$2        ;
locations [x]
exists (0:EAX=0 /\\ 1:EAX=0)
`],
  ["loops that add by builtins", `volatile int x;
void P0() { int old; do { old = x; } while (!__sync_bool_compare_and_swap(&x, old, old + 1)); }
void P1() { int old = x; while (!__sync_bool_compare_and_swap(&x, old, old - 1)) old = x; }
exists (0:old=0 /\\ 1:old=0)
`, `X86 Mine
(* 0:EAX is old, 1:EAX is old *)
{ x=0; }
 P0                | P1                  ;
 MOV EAX,$1        | MOV EAX,[x]         ;
 LOCK XADD [x],EAX | MOV EAX,$4294967295 ;
                   | LOCK XADD [x],EAX   ;
locations [x]
exists (0:EAX=0 /\\ 1:EAX=0)
`],
  ["loops that exchange by a compare-exchange", `std::atomic<int> x;
void P0() { int old = x.load(); while (!x.compare_exchange_weak(old, 5)) ; }
void P1() { int old = 9; while (!x.compare_exchange_weak(old, 7)) { } }
exists (0:old=0 /\\ 1:old=0)
`, `X86 Mine
(* 0:EAX is old, 1:EAX is old *)
{ x=0; }
 P0           | P1           ;
 MOV EAX,[x]  | MOV EAX,$9   ;
 MOV EAX,$5   | MOV EAX,$7   ;
 XCHG [x],EAX | XCHG [x],EAX ;
locations [x]
exists (0:EAX=0 /\\ 1:EAX=0)
`],
  ["a loop by a compare-exchange that multiplies", `std::atomic<int> x;
void P0() { int old = x.load(); while (!x.compare_exchange_weak(old, old * 2)) ; }
void P1() { x = 1; }
`, "`while (!x.compare_exchange_weak(old, old..`: write out each pass of a loop. `tools/from_c.py` follows loops"],
  ["a loop of loads", `std::atomic<int> seq{0}, d1, d2;
void writer() { seq.store(1, std::memory_order_relaxed); std::atomic_thread_fence(std::memory_order_release); d1.store(1, std::memory_order_relaxed); d2.store(1, std::memory_order_relaxed); seq.store(2, std::memory_order_release); }
void reader() { int s1, s2, a, b; do { s1 = seq.load(std::memory_order_acquire); a = d1.load(std::memory_order_relaxed); b = d2.load(std::memory_order_relaxed); std::atomic_thread_fence(std::memory_order_acquire); s2 = seq.load(std::memory_order_relaxed); } while (s1 != s2 || s1 & 1); }
exists (1:a=1 /\\ 1:b=0)
`, `X86 Mine
(* 1:EAX is s1, 1:EBX is a, 1:ECX is b, 1:EDX is s2 *)
(* every wait ends: (1:EAX=0 /\\ 1:EDX=0 \\/ 1:EAX=2 /\\ 1:EDX=2) *)
{ seq=0; d1=0; d2=0; }
 P0           | P1            ;
 MOV [seq],$1 | MOV EAX,[seq] ;
 MOV [d1],$1  | MOV EBX,[d1]  ;
 MOV [d2],$1  | MOV ECX,[d2]  ;
 MOV [seq],$2 | MOV EDX,[seq] ;
exists ((1:EAX=0 /\\ 1:EDX=0 \\/ 1:EAX=2 /\\ 1:EDX=2) /\\ 1:EBX=1 /\\ 1:ECX=0)
`],
  ["a loop of loads that continues, with `main`", `std::atomic<unsigned> seq{0}; int d1, d2; int a, b;
void write(int v) { unsigned s = seq.load(std::memory_order_relaxed); seq.store(s + 1, std::memory_order_relaxed); std::atomic_thread_fence(std::memory_order_release); d1 = v; d2 = v; seq.store(s + 2, std::memory_order_release); }
void read() { unsigned s; while (true) { s = seq.load(std::memory_order_acquire); if (s & 1) continue; a = d1; b = d2; std::atomic_thread_fence(std::memory_order_acquire); if (seq.load(std::memory_order_relaxed) == s) break; } }
int main() { std::thread w(write, 1), r(read); w.join(); r.join(); assert(!(a == 1 && b == 0)); }
`, `X86 Mine
(* 0:EAX is s, 1:EAX is s, 1:EBX is a, 1:ECX is b, 1:EDX is seq after its loop *)
(* every wait ends: (1:EAX=0 /\\ 1:EDX=0 \\/ 1:EAX=2 /\\ 1:EDX=2) *)
{ seq=0; d1=0; d2=0; }
 P0            | P1            ;
 MOV EAX,[seq] | MOV EAX,[seq] ;
 MOV EBX,EAX   | MOV EBX,[d1]  ;
 ADD EBX,$1    | MOV ECX,[d2]  ;
 MOV [seq],EBX | MOV EDX,[seq] ;
 MOV [d1],$1   |               ;
 MOV [d2],$1   |               ;
 MOV EBX,EAX   |               ;
 ADD EBX,$2    |               ;
 MOV [seq],EBX |               ;
~exists ((1:EAX=0 /\\ 1:EDX=0 \\/ 1:EAX=2 /\\ 1:EDX=2) /\\ 1:EBX=1 /\\ 1:ECX=0)
`],
  ["no question, and a loop in a loop of loads", `std::atomic<unsigned> seq{0}; std::atomic<int> d; 
void w() { seq++; d = 1; seq++; }
void r() { unsigned s; int a; do { do { s = seq.load(std::memory_order_acquire); } while (s % 2); a = d.load(std::memory_order_relaxed); } while (s != seq.load(std::memory_order_acquire)); }
`, `X86 Mine
(* 1:EAX is s, 1:EBX is a, 1:ECX is seq after its loop *)
(* every wait ends: (1:EAX=0 /\\ 1:ECX=0 \\/ 1:EAX=2 /\\ 1:ECX=2) *)
{ seq=0; d=0; }
 P0                  | P1            ;
 MOV EAX,$1          | MOV EAX,[seq] ;
 LOCK XADD [seq],EAX | MOV EBX,[d]   ;
 MOV EAX,$1          | MOV ECX,[seq] ;
 XCHG [d],EAX        |               ;
 MOV EAX,$1          |               ;
 LOCK XADD [seq],EAX |               ;
exists ((1:EAX=0 /\\ 1:ECX=0 \\/ 1:EAX=2 /\\ 1:ECX=2) /\\ 1:EBX=0)
`],
  ["a loop of a load and a store", `std::atomic<int> x, y;
void w() { int s; do { s = x; y = 1; } while (s == 0); }
void r() { x = 1; }
`, "`do`: write out each pass of a loop. `tools/from_c.py` follows loops"],
  ["a loop that adds what it loads", `std::atomic<int> x; 
void w() { int s = 0; do { s += x; } while (s < 3); }
void r() { x = 1; }
`, "`s += x`: a loop of loads only sets variables of the thread to what it loads, each once"],
  ["a loop of a plain load", `int x; std::atomic<int> y; 
void w() { int s, t; do { s = x; t = y; } while (s != t); }
void r() { x = 1; y = 1; }
`, "`do`: a compiler may load a plain variable only once, so make it atomic or volatile"],
  ["no question, and guards of two mutexes", `std::mutex m1, m2; int a, b;
void P0() { std::scoped_lock l(m1, m2); a++; b++; }
void P1() { std::scoped_lock<std::mutex, std::mutex> l(m2, m1); a++; b++; }
`, `X86 Mine
(* 0:EAX is m1 at its lock, 0:EBX is m2 at its lock, 1:EAX is m2 at its lock, 1:EBX is m1 at its lock *)
(* every wait ends: 0:EAX=0 /\\ 0:EBX=0 /\\ 1:EAX=0 /\\ 1:EBX=0 *)
(* an addition to a or b is lost: ~a=2 \\/ ~b=2 *)
{ m1=0; m2=0; a=0; b=0; }
 P0            | P1            ;
 MOV EAX,$1    | MOV EAX,$1    ;
 XCHG [m1],EAX | XCHG [m2],EAX ;
 MOV EBX,$1    | MOV EBX,$1    ;
 XCHG [m2],EBX | XCHG [m1],EBX ;
 MOV ECX,[a]   | MOV ECX,[a]   ;
 ADD ECX,$1    | ADD ECX,$1    ;
 MOV [a],ECX   | MOV [a],ECX   ;
 MOV ECX,[b]   | MOV ECX,[b]   ;
 ADD ECX,$1    | ADD ECX,$1    ;
 MOV [b],ECX   | MOV [b],ECX   ;
 MOV ECX,$0    | MOV ECX,$0    ;
 XCHG [m2],ECX | XCHG [m1],ECX ;
 MOV ECX,$0    | MOV ECX,$0    ;
 XCHG [m1],ECX | XCHG [m2],ECX ;
~exists (0:EAX=0 /\\ 0:EBX=0 /\\ 1:EAX=0 /\\ 1:EBX=0 /\\ (~a=2 \\/ ~b=2))
`],
  ["no question, and locks of two mutexes, and guards of these", `std::mutex m1, m2; int a, b;
void P0() { std::lock(m1, m2); std::lock_guard<std::mutex> g1(m1, std::adopt_lock); std::lock_guard<std::mutex> g2(m2, std::adopt_lock); a++; }
void P1() { std::unique_lock<std::mutex> g1(m2, std::defer_lock); std::unique_lock<std::mutex> g2(m1, std::defer_lock); std::lock(g1, g2); a++; }
`, `X86 Mine
(* 0:EAX is m1 at its lock, 0:EBX is m2 at its lock, 1:EAX is m2 at its lock, 1:EBX is m1 at its lock *)
(* every wait ends: 0:EAX=0 /\\ 0:EBX=0 /\\ 1:EAX=0 /\\ 1:EBX=0 *)
(* an addition to a is lost: ~a=2 *)
{ m1=0; m2=0; a=0; }
 P0            | P1            ;
 MOV EAX,$1    | MOV EAX,$1    ;
 XCHG [m1],EAX | XCHG [m2],EAX ;
 MOV EBX,$1    | MOV EBX,$1    ;
 XCHG [m2],EBX | XCHG [m1],EBX ;
 MOV ECX,[a]   | MOV ECX,[a]   ;
 ADD ECX,$1    | ADD ECX,$1    ;
 MOV [a],ECX   | MOV [a],ECX   ;
 MOV ECX,$0    | MOV ECX,$0    ;
 XCHG [m2],ECX | XCHG [m1],ECX ;
 MOV ECX,$0    | MOV ECX,$0    ;
 XCHG [m1],ECX | XCHG [m2],ECX ;
~exists (0:EAX=0 /\\ 0:EBX=0 /\\ 1:EAX=0 /\\ 1:EBX=0 /\\ ~a=2)
`],
  ["no question, and spin locks of pthreads", `pthread_spinlock_t s; int n; volatile int x, y;
void P0() { pthread_spin_lock(&s); n++; pthread_spin_unlock(&s); int r0 = x; }
void P1() { pthread_spin_lock(&s); n++; pthread_spin_unlock(&s); x = 1; }
`, `X86 Mine
(* 0:EAX is s at its lock, 0:EBX is r0, 1:EAX is s at its lock *)
(* every wait ends: 0:EAX=0 /\\ 1:EAX=0 *)
(* an addition to n is lost: ~n=2 *)
{ s=0; n=0; x=0; }
 P0           | P1           ;
 MOV EAX,$1   | MOV EAX,$1   ;
 XCHG [s],EAX | XCHG [s],EAX ;
 MOV ECX,[n]  | MOV EBX,[n]  ;
 ADD ECX,$1   | ADD EBX,$1   ;
 MOV [n],ECX  | MOV [n],EBX  ;
 MOV [s],$0   | MOV [s],$0   ;
 MOV EBX,[x]  | MOV [x],$1   ;
locations [0:EBX]
~exists (0:EAX=0 /\\ 1:EAX=0 /\\ ~n=2)
`],
  ["a guard of two objects", `struct L { std::atomic<bool> f{false}; void lock() { while (f.exchange(true)); } void unlock() { f = false; } };
L l, k; int n;
void P0() { std::scoped_lock g(l, k); n++; }
void P1() { l.lock(); n++; l.unlock(); }
`, "`std::scoped_lock g(l, k)`: of several locks each is a mutex, as `std::mutex m`"],
  ["no question, and branches on words that no run stores stay", `int x,y;
void P0(void){int r1=READ_ONCE(x); if(r1>0) WRITE_ONCE(y,1);}
void P1(void){int r2=READ_ONCE(y); if(r2>0) WRITE_ONCE(x,1);}
`, `X86 Mine
(* 0:EAX is r1, 1:EAX is r2 *)
{ x=0; y=0; }
 P0          | P1          ;
 MOV EAX,[x] | MOV EAX,[y] ;
 CMP EAX,$1  | CMP EAX,$1  ;
 JNE END     | JNE END     ;
 MOV [y],$1  | MOV [x],$1  ;
 END:        | END:        ;
locations [0:EAX; 1:EAX]
exists (true)
`],
  ["no question, and a branch that none of the words takes, and one that all take", `int x,y,z;
void P0(void){int r1=READ_ONCE(x); WRITE_ONCE(z,2); if(r1>5) WRITE_ONCE(y,1); else WRITE_ONCE(y,2);}
void P1(void){int r2=READ_ONCE(y); WRITE_ONCE(x,2); if (!(r2 >= 10)) WRITE_ONCE(z,1); if (r2 >= 0) WRITE_ONCE(z,3);}
`, `X86 Mine
(* 0:EAX is r1, 1:EAX is r2 *)
{ x=0; y=0; z=0; }
 P0             | P1                      ;
 MOV EAX,[x]    | MOV EAX,[y]             ;
 MOV [z],$2     | MOV [x],$2              ;
 CMP EAX,$0     | CMP EAX,$10             ;
 JE L1          | JE L1                   ;
 CMP EAX,$2     | MOV [z],$1              ;
 JE L1          | L1: CMP EAX,$4294967295 ;
 MOV [y],$1     | JE END                  ;
 JMP END        | MOV [z],$3              ;
 L1: MOV [y],$2 | END:                    ;
 END:           |                         ;
locations [0:EAX; 1:EAX; z]
exists (true)
`],
  ["a call of an unknown function in a branch that none of the words takes", `int x,y;
void P0(void){int r1=READ_ONCE(x); if(r1>5) log_it(r1); WRITE_ONCE(y,1);}
void P1(void){int r2=READ_ONCE(y); WRITE_ONCE(x,1);}
`, "`log_it(r1)`: write what the function does in its place"],
  ["no question, and a branch on a variable that no thread writes", `atomic_int x, y, z; int buf[2];
void P0(void) { int r = x; if (r > 0) buf[r] = 1; if (r == 1) y = 1; }
void P1(void) { int r1 = y; int r2 = buf[0]; if (r1 < 1) z = 1; }
`, `X86 Mine
(* 0:EAX is r, 1:EAX is r1, 1:EBX is r2 *)
{ x=0; y=0; z=0; buf_0=0; }
 P0             | P1              ;
 MOV EAX,[x]    | MOV EAX,[y]     ;
 CMP EAX,$0     | MOV EBX,[buf_0] ;
 JE L1          | CMP EAX,$0      ;
 MOV [buf_0],$1 | JNE END         ;
 L1: CMP EAX,$1 | MOV ECX,$1      ;
 JNE END        | XCHG [z],ECX    ;
 MOV EBX,$1     | END:            ;
 XCHG [y],EBX   |                 ;
 END:           |                 ;
locations [0:EAX; 1:EAX; 1:EBX; z]
exists (true)
`],
  ["no question, and threads of CppMem", `int main() {
  atomic_int x = 0; atomic_int y = 0;
  {{{ { x.store(1, memory_order_relaxed); r1 = y.load(memory_order_relaxed); }
  ||| y.store(1, memory_order_relaxed);
  }}};
  return 0;
}
`, `X86 Mine
(* 0:EAX is r1 *)
{ x=0; y=0; }
 P0          | P1         ;
 MOV [x],$1  | MOV [y],$1 ;
 MOV EAX,[y] |            ;
locations [x]
exists (0:EAX=0)
`],
  ["threads of CppMem, and what they read", `int main() {
  atomic_int x=0;
  int y=0;
  {{{ { y=1; x.store(1,memory_order_release); }
  ||| { r1=x.load(memory_order_acquire).readsvalue(1); r2=y.readsvalue(0); } }}}
  return 0; }
`, `X86 Mine
(* 1:EAX is r1, 1:EBX is r2 *)
{ x=0; y=0; }
 P0         | P1          ;
 MOV [y],$1 | MOV EAX,[x] ;
 MOV [x],$1 | MOV EBX,[y] ;
exists (1:EAX=1 /\\ 1:EBX=0)
`],
  ["a load of CppMem that has no register", `int main() {
  atomic_int x=0;
  {{{ x.store(1, memory_order_relaxed);
  ||| x.load(memory_order_relaxed).readsvalue(1);
  }}}
}
`, "`x.load(memory_order_relaxed).readsvalue(..`: what a load reads is asked of a register, as `r1 = x.load(memory_order_acquire).readsvalue(1)`"],
  ["no question, and references", `std::atomic<int> x{0}, y{0};
auto& shared = x;
void P0() { auto& a = y; shared.store(1, std::memory_order_relaxed); int r1 = a.load(std::memory_order_relaxed); }
void P1() { std::atomic<int> &a = x; y.store(1, std::memory_order_relaxed); int r2 = a.load(std::memory_order_relaxed); }
`, `X86 Mine
(* 0:EAX is r1, 1:EAX is r2 *)
{ x=0; y=0; }
 P0          | P1          ;
 MOV [x],$1  | MOV [y],$1  ;
 MOV EAX,[y] | MOV EAX,[x] ;
exists (0:EAX=0 /\\ 1:EAX=0)
`],
  ["a reference whose name is declared again", `std::atomic<int> x{0}, y{0};
auto& a = x;
void P0() { int a = 1; y = a; }
void P1() { a = 1; int r2 = y; }
`, "`auto& a = x;`: a reference is another name of a variable, and it is not sure of which one here, so write the variable in its place"],
  ["a reference to a name that is declared again", `std::atomic<int> x{0}, y{0};
auto& a = x;
void P0() { int x = 1; a = x; }
void P1() { a = 1; int r2 = y; }
`, "`auto& a = x;`: a reference is another name of a variable, and it is not sure of which one here, so write the variable in its place"],
  ["no question, letters, and orders that are numbers", `int x, y; volatile char c;
void P0(void) { __atomic_store_n(&x, 1, 5); c = 'A'; putchar('B'); int r1 = __atomic_load_n(&y, 5); }
void P1(void) { __atomic_store_n(&y, '\\0', 3); __atomic_thread_fence(5); int r2 = __atomic_load_n(&x, 2); if (c == 'A') c = '\\n'; }
`, `X86 Mine
(* 0:EAX is r1, 1:EAX is r2 *)
{ x=0; y=0; c=0; }
 P0           | P1          ;
 MOV EBX,$1   | MOV [y],$0  ;
 XCHG [x],EBX | MFENCE      ;
 MOV [c],$65  | MOV EAX,[x] ;
 MOV EAX,[y]  | MOV EBX,[c] ;
              | CMP EBX,$65 ;
              | JNE END     ;
              | MOV [c],$10 ;
              | END:        ;
locations [0:EAX; 1:EAX; c]
exists (true)
`],
  ["an order that has no number", `int x;
void P0(void) { __atomic_store_n(&x, 1, 7); }
void P1(void) { int r2 = x; }
`, "`__atomic_store_n(&x, 1, 7)`: write what the function does in its place"],
  ["a variable of each thread", `std::atomic<int> x{0}, y{0};
thread_local int t;
void P0() { t = 1; x = t; }
void P1() { t = 2; y = t; }
`, "`thread_local int t`: each thread has its own variable of this name, so declare it in the functions of the threads, as `int t = 0;`"],
  ["a test of GoogleTest", `TEST(Litmus, SB) {
  std::atomic<int> x{0}, y{0};
  int r1 = 0, r2 = 0;
  std::thread t1([&] { x.store(1, std::memory_order_relaxed); r1 = y.load(std::memory_order_relaxed); });
  std::thread t2([&] { y.store(1, std::memory_order_relaxed); r2 = x.load(std::memory_order_relaxed); });
  t1.join(); t2.join();
  EXPECT_FALSE(r1 == 0 && r2 == 0) << "both are 0";
}
`, `X86 Mine
(* 0:EAX is r1, 1:EAX is r2 *)
{ x=0; y=0; }
 P0          | P1          ;
 MOV [x],$1  | MOV [y],$1  ;
 MOV EAX,[y] | MOV EAX,[x] ;
~exists (0:EAX=0 /\\ 1:EAX=0)
`],
  ["two tests of GoogleTest", `TEST(A, B) { std::atomic<int> x{0}; std::thread t([&] { x = 1; }); t.join(); EXPECT_EQ(x.load(), 1); }
TEST(A, C) { std::atomic<int> x{0}; std::thread t([&] { x = 2; }); t.join(); EXPECT_NE(x.load(), 1); }
`, "`TEST(A, C)`: the page takes one test of several, so leave out the others"],
  ["what is quoted of a function with an object", `struct Node { int value; struct Node *next; };
_Atomic(struct Node *) head;
void push(int v) {
  struct Node *n = malloc(sizeof *n);
  n->value = v; n->next = atomic_load(&head);
  while (!atomic_compare_exchange_weak(&head, &n->next, n)) ;
}
`, "`void push(int v) { struct Node *n = mall..`: a thread is a function without parameters, or with an unused `void *`"],
  ["no question, and variables with names of registers", `volatile int x, y, r1, r2;
void t0() { x = 1; r1 = y; }
void t1() { y = 1; r2 = x; }
`, `X86 Mine
{ x=0; y=0; r1_=0; r2_=0; }
 P0            | P1            ;
 MOV [x],$1    | MOV [y],$1    ;
 MOV EAX,[y]   | MOV EAX,[x]   ;
 MOV [r1_],EAX | MOV [r2_],EAX ;
locations [r1_; r2_]
exists (true)
`],
  ["a question of a variable with the name of a register", `volatile int x, EAX, eax_;
void P0() { x = 1; EAX = 2; }
void P1() { int r1 = EAX; eax_ = x; }
// lw: exists (1:r1=2 /\\ EAX=2 /\\ eax_=0)
`, `X86 Mine
(* 1:EAX is r1 *)
{ x=0; EAX_=0; eax_=0; }
 P0            | P1             ;
 MOV [x],$1    | MOV EAX,[EAX_] ;
 MOV [EAX_],$2 | MOV EBX,[x]    ;
               | MOV [eax_],EBX ;
exists (1:EAX=2 /\\ EAX_=2 /\\ eax_=0)
`],
  ["no question, and loops that look at a lock before they try it", `std::atomic<int> l{0}; int n;
void P0() { for (;;) { if (!l.load() && !l.exchange(1)) break; } n++; l.store(0, std::memory_order_release); }
void P1() { while (true) { while (l.load(std::memory_order_relaxed)) ; if (!l.exchange(1)) { break; } } n++; l.store(0, std::memory_order_release); }
`, `X86 Mine
(* 0:EAX is l after its loop, 0:EBX is l at its lock, 1:EAX is l after its loop, 1:EBX is l at its lock *)
(* every wait ends: 0:EAX=0 /\\ 0:EBX=0 /\\ 1:EAX=0 /\\ 1:EBX=0 *)
(* an addition to n is lost: ~n=2 *)
{ l=0; n=0; }
 P0           | P1           ;
 MOV EAX,[l]  | MOV EAX,[l]  ;
 MOV EBX,$1   | MOV EBX,$1   ;
 XCHG [l],EBX | XCHG [l],EBX ;
 MOV ECX,[n]  | MOV ECX,[n]  ;
 ADD ECX,$1   | ADD ECX,$1   ;
 MOV [n],ECX  | MOV [n],ECX  ;
 MOV [l],$0   | MOV [l],$0   ;
locations [l]
~exists (0:EAX=0 /\\ 0:EBX=0 /\\ 1:EAX=0 /\\ 1:EBX=0 /\\ ~n=2)
`],
  ["conditions that look at a lock before they try it", `atomic_int l; int n;
void P0(void) { while (l || atomic_exchange(&l, 1)) ; n++; atomic_store_explicit(&l, 0, memory_order_release); }
void P1(void) { for (;;) if (l == 0 && atomic_exchange(&l, 1) == 0) break; n++; atomic_store_explicit(&l, 0, memory_order_release); }
`, "`for (;;)`: write out each pass of a loop. `tools/from_c.py` follows loops"],
  ["no question, and a choice of loads", `std::atomic<int> x{0}, y{0};
void P0() { x.store(1, std::memory_order_relaxed); y.store(1, std::memory_order_release); }
void P1() { int r = y.load(std::memory_order_acquire) ? x.load(std::memory_order_relaxed) : -1; }
`, `X86 Mine
(* 1:EAX is y in its condition, 1:EBX is r *)
{ x=0; y=0; }
 P0         | P1                      ;
 MOV [x],$1 | MOV EAX,[y]             ;
 MOV [y],$1 | CMP EAX,$0              ;
            | JE L1                   ;
            | MOV EBX,[x]             ;
            | JMP END                 ;
            | L1: MOV EBX,$4294967295 ;
            | END:                    ;
exists (~1:EAX=0 /\\ 1:EBX=0)
`],
  ["threads that are started outside of functions", `std::atomic<int> x{0}, y{0};
int r1, r2;
std::thread t1([]{ x.store(1, std::memory_order_relaxed); r1 = y.load(std::memory_order_relaxed); });
std::thread t2([]{ y.store(1, std::memory_order_relaxed); r2 = x.load(std::memory_order_relaxed); });
t1.join(); t2.join();
assert(!(r1 == 0 && r2 == 0));
`, `X86 Mine
(* 0:EAX is r1, 1:EAX is r2 *)
{ x=0; y=0; }
 P0          | P1          ;
 MOV [x],$1  | MOV [y],$1  ;
 MOV EAX,[y] | MOV EAX,[x] ;
~exists (0:EAX=0 /\\ 1:EAX=0)
`],
  ["a reader of a sequence lock that looks at a bit", `std::atomic<int> seq{0}; std::atomic<int> a{0}, b{0};
void writer() { seq.store(1, std::memory_order_release); a.store(1, std::memory_order_release); b.store(1, std::memory_order_release); seq.store(2, std::memory_order_release); }
void reader() {
  int s1 = seq.load(); int ra = a.load(); int rb = b.load(); int s2 = seq.load();
  if (s1 == s2 && !(s1 & 1)) assert(ra == rb);
}
int main() { std::thread t(writer), u(reader); t.join(); u.join(); }
`, `X86 Mine
(* 1:EAX is s1, 1:EBX is ra, 1:ECX is rb, 1:EDX is s2 *)
{ seq=0; a=0; b=0; }
 P0           | P1            ;
 MOV [seq],$1 | MOV EAX,[seq] ;
 MOV [a],$1   | MOV EBX,[a]   ;
 MOV [b],$1   | MOV ECX,[b]   ;
 MOV [seq],$2 | MOV EDX,[seq] ;
              | CMP EAX,EDX   ;
              | JNE END       ;
              | CMP EAX,$1    ;
              | JE END        ;
              | END:          ;
forall ((~1:EAX=0 \\/ ~1:EDX=0) /\\ (~1:EAX=1 \\/ ~1:EDX=1) /\\ (~1:EAX=2 \\/ ~1:EDX=2) \\/ 1:EAX=1 \\/ 1:EBX=0 /\\ 1:ECX=0 \\/ 1:EBX=1 /\\ 1:ECX=1)
`],
  ["a bit of a variable that is not known", `std::atomic<int> x{0}, y{0};
void P0() { int r1 = x.fetch_add(1); int r2 = r1; r2 += r1; if (r2 & 1) y = 1; }
void P1() { x.fetch_add(2); int r3 = y; }
`, "`if (r2 & 1)`: the page writes a condition as equalities, and here the words that are compared are too many, or not known, so compare by `==`"],
  ["an assertion in a section on what changes again", `std::atomic<int> l{0}; int in = 0;
void P0() { while (l.exchange(1)) ; in++; assert(in == 1); in--; l.store(0); }
void P1() { while (l.exchange(1)) ; in++; assert(in == 1); in--; l.store(0); }
`, "`assert(in == 1)`: another thread may still wait then, in a loop or for a lock, and this variable changes again, so count in the section, as `n++`, and ask at the end of `main` whether an addition is lost"],
  ["an assertion in a section on what stays", `std::atomic<int> l{0}; int in = 0;
void P0() { while (l.exchange(1)) ; in = 1; assert(in == 1); l.store(0); }
void P1() { while (l.exchange(1)) ; in = 2; l.store(0); }
`, "`assert(in == 1)`: another thread may still wait then, in a loop or for a lock, so load it into a variable here, as `int r0 = x;`, and assert that at the end of `main`"],
  ["a union", `union U { int a; char b[4]; };
std::atomic<int> x{0};
void P0() { x = 1; }
void P1() { int r = x; }
`, "`union U`: its members share their bytes, and here each variable has a word of its own, so declare what the threads access"],
  ["no question, and a choice of loads that is returned", `atomic_int x, y;
int f(void) { return x ? atomic_load(&y) : 2; }
void P0(void) { int r = f(); }
void P1(void) { x = 1; y = 1; }
`, `X86 Mine
(* 0:EAX is x in its condition, 0:EBX is r *)
{ x=0; y=0; }
 P0             | P1           ;
 MOV EAX,[x]    | MOV EAX,$1   ;
 CMP EAX,$0     | XCHG [x],EAX ;
 JE L2          | MOV EAX,$1   ;
 MOV EBX,[y]    | XCHG [y],EAX ;
 JMP L1         |              ;
 L2: MOV EBX,$2 |              ;
 L1:            |              ;
exists (~0:EAX=0 /\\ 0:EBX=0)
`],
  ["a choice of loads in the head of a loop", `atomic_int x, y;
void P0(void) { int r; for (r = 0; r = x ? atomic_load(&y) : 1; r++) ; }
void P1(void) { x = 1; }
`, "`for (r = 0; r = x ? atomic_load(&y) : 1;..`: write out each pass of a loop. `tools/from_c.py` follows loops"],
  ["a load in a relation that only some runs reach", `int x, y, flag;
void P0(void) { WRITE_ONCE(y, 1); WRITE_ONCE(flag, 1); }
void P1(void) { int r1 = READ_ONCE(y); if (r1 > 0 && READ_ONCE(flag) > 0) WRITE_ONCE(x, 1); }
`, "`if (r1 > 0 && READ_ONCE(flag) > 0)`: what `<` and its like compare is loaded before the other parts of a condition here, so write two `if`, one in the other"],
  ["a loop of loads of a word that is not known", `std::atomic<int> seq{0}; std::atomic<int> d;
void w() { int s = seq; s += s; s += 3; seq = s; }
void r() { int a, b; do { a = seq.load(std::memory_order_acquire); b = d; } while (a * a / 3 != b + (a && b ? 1 : 2)); }
`, "`do`: no question of constants says when this loop ends"],
  ["herd's form without its first line", `/* One. */
{ x=0; v=2; }
P0(int *x, int *y, spinlock_t *s)
{
	spin_lock(s);
	WRITE_ONCE(*x, 1);
	spin_unlock(s);
	smp_store_mb(*y, 1);
}

P1(int *x, int *y, spinlock_t *s, atomic_t *v)
{
	int r0;
	int r1;
	atomic_inc(v);
	r1 = smp_load_acquire(y);
	spin_lock(s);
	r0 = READ_ONCE(*x);
	spin_unlock(s);
	r1 = atomic_read(v);
	r1 = xchg_acquire(y, 2);
}

exists (1:r0=0 /\\ 1:r1=1)
`, `X86 Mine
(* 0:EAX is s at its lock, 1:EAX is r1, 1:EBX is s at its lock, 1:ECX is r0 *)
(* every wait ends: 0:EAX=0 /\\ 1:EBX=0 *)
{ x=0; v=2; y=0; s=0; }
 P0           | P1                ;
 MOV EAX,$1   | MOV EDX,$1        ;
 XCHG [s],EAX | LOCK XADD [v],EDX ;
 MOV [x],$1   | MOV EAX,[y]       ;
 MOV [s],$0   | MOV EBX,$1        ;
 MOV EBX,$1   | XCHG [s],EBX      ;
 XCHG [y],EBX | MOV ECX,[x]       ;
              | MOV [s],$0        ;
              | MOV EAX,[v]       ;
              | MOV EAX,$2        ;
              | XCHG [y],EAX      ;
locations [y]
exists (0:EAX=0 /\\ 1:EBX=0 /\\ 1:ECX=0 /\\ 1:EAX=1)
`],
  ["threads with pointers to their numbers", `#define N 2
int ids[N]; atomic_int x[N]; int r[N]; pthread_t t[N];
void init() { x[0] = 0; atomic_init(&x[1], 0); }
void *w(void *arg) { int id = *(int *)arg; x[id] = 1; r[id] = x[1 - id]; return NULL; }
int main() { init(); for (int i = 0; i < N; i++) { ids[i] = i; pthread_create(&t[i], NULL, w, &ids[i]); } for (int i = 0; i < N; i++) pthread_join(t[i], NULL); assert(r[0] || r[1]); }
`, `X86 Mine
(* 0:EAX is r_0, 1:EAX is r_1 *)
{ x_0=0; x_1=0; }
 P0             | P1             ;
 MOV EBX,$1     | MOV EBX,$1     ;
 XCHG [x_0],EBX | XCHG [x_1],EBX ;
 MOV EAX,[x_1]  | MOV EAX,[x_0]  ;
~exists (0:EAX=0 /\\ 1:EAX=0)
`],
  ["a thread that changes its number", `int ids[2]; atomic_int x[2]; int r[2]; pthread_t t[2];
void *w(void *arg) { int id = *(int *)arg; *(int *)arg = 7; id += r[0]; x[id] = 1; r[0] = 1; return NULL; }
int main() { for (int i = 0; i < 2; i++) { ids[i] = i; pthread_create(&t[i], NULL, w, &ids[i]); } for (int i = 0; i < 2; i++) pthread_join(t[i], NULL); assert(x[0] == 1); }
`, "`x[id] = 1`: an index is a constant, or comes from a variable that only this thread writes, and that has a known constant then"],
  ["ten threads", `std::atomic<int> x; void f() { x++; }
int main() { std::vector<std::thread> v; for (int i = 0; i < 10; i++) v.emplace_back(f); for (auto& t : v) t.join(); }
`, "`for (int i = 0; i < 10; i++)`: a test has 4 threads at most, so start fewer"],
  ["no question, and a ticket lock", `struct TicketLock {
  std::atomic<int> next{0}, serving{0};
  void lock() { int t = next.fetch_add(1, std::memory_order_relaxed); while (serving.load(std::memory_order_acquire) != t) ; }
  void unlock() { serving.store(serving.load(std::memory_order_relaxed) + 1, std::memory_order_release); }
};
TicketLock l; int n;
void a() { l.lock(); n++; l.unlock(); }
void b() { l.lock(); n++; l.unlock(); }
`, `X86 Mine
(* 0:EAX is t, 0:EBX is l_serving after its loop, 1:EAX is t, 1:EBX is l_serving after its loop *)
(* every wait ends: (0:EBX=0 /\\ 0:EAX=0 \\/ 0:EBX=1 /\\ 0:EAX=1) /\\ (1:EBX=0 /\\ 1:EAX=0 \\/ 1:EBX=1 /\\ 1:EAX=1) *)
(* an addition to n is lost: ~n=2 *)
{ l_next=0; l_serving=0; n=0; }
 P0                     | P1                     ;
 MOV EAX,$1             | MOV EAX,$1             ;
 LOCK XADD [l_next],EAX | LOCK XADD [l_next],EAX ;
 MOV EBX,[l_serving]    | MOV EBX,[l_serving]    ;
 MOV ECX,[n]            | MOV ECX,[n]            ;
 ADD ECX,$1             | ADD ECX,$1             ;
 MOV [n],ECX            | MOV [n],ECX            ;
 MOV ECX,[l_serving]    | MOV ECX,[l_serving]    ;
 ADD ECX,$1             | ADD ECX,$1             ;
 MOV [l_serving],ECX    | MOV [l_serving],ECX    ;
locations [l_next; l_serving]
~exists ((0:EBX=0 /\\ 0:EAX=0 \\/ 0:EBX=1 /\\ 0:EAX=1) /\\ (1:EBX=0 /\\ 1:EAX=0 \\/ 1:EBX=1 /\\ 1:EAX=1) /\\ ~n=2)
`],
  ["no question, and loops that look and then exchange", `std::atomic<bool> l{false}; int n;
void lock1() { for (;;) { if (!l.exchange(true, std::memory_order_acquire)) return; while (l.load(std::memory_order_relaxed)) { _mm_pause(); } } }
void lock2() { do { while (l.load(std::memory_order_relaxed)) ; } while (l.exchange(true, std::memory_order_acquire)); }
void P0() { lock1(); n++; l = false; }
void P1() { lock2(); n++; l = false; }
`, `X86 Mine
(* 0:EAX is l at its lock, 1:EAX is l at its lock *)
(* every wait ends: 0:EAX=0 /\\ 1:EAX=0 *)
(* an addition to n is lost: ~n=2 *)
{ l=0; n=0; }
 P0           | P1           ;
 MOV EAX,$1   | MOV EAX,$1   ;
 XCHG [l],EAX | XCHG [l],EAX ;
 MOV EBX,[n]  | MOV EBX,[n]  ;
 ADD EBX,$1   | ADD EBX,$1   ;
 MOV [n],EBX  | MOV [n],EBX  ;
 MOV EBX,$0   | MOV EBX,$0   ;
 XCHG [l],EBX | XCHG [l],EBX ;
locations [l]
~exists (0:EAX=0 /\\ 1:EAX=0 /\\ ~n=2)
`],
  ["a loop that looks at another variable and then exchanges", `std::atomic<bool> l{false}, k; int n;
void lock2() { do { while (k.load(std::memory_order_relaxed)) ; } while (l.exchange(true, std::memory_order_acquire)); }
void P0() { lock2(); n++; l = false; }
void P1() { lock2(); n++; l = false; }
`, "`do { while (k.load(std::memory_order_rel..`: write out each pass of a loop. `tools/from_c.py` follows loops"],
  ["a loop that compares by less", `std::atomic<int> flag{0}; int data;
void P0() { data = 42; flag.store(1, std::memory_order_release); }
void P1() { int e = 0; while (flag.load(std::memory_order_acquire) < 1) { } e = data; }
exists (1:e=0)
`, `X86 Mine
(* 1:EAX is e, 1:EBX is flag after its loop *)
(* every wait ends: 1:EBX=1 *)
{ flag=0; data=0; }
 P0             | P1             ;
 MOV [data],$42 | MOV EAX,$0     ;
 MOV [flag],$1  | MOV EBX,[flag] ;
                | MOV EAX,[data] ;
exists (1:EBX=1 /\\ 1:EAX=0)
`],
  ["a loop that compares with a variable of the thread", `std::atomic<int> x, y; 
void P0() { int r = x; while (y != r) ; int s = x; }
void P1() { x = 1; y = 1; }
exists (0:r=1 /\\ 0:s=0)
`, `X86 Mine
(* 0:EAX is r, 0:EBX is y after its loop, 0:ECX is s *)
(* every wait ends: (0:EBX=0 /\\ 0:EAX=0 \\/ 0:EBX=1 /\\ 0:EAX=1) *)
{ x=0; y=0; }
 P0          | P1           ;
 MOV EAX,[x] | MOV EAX,$1   ;
 MOV EBX,[y] | XCHG [x],EAX ;
 MOV ECX,[x] | MOV EAX,$1   ;
             | XCHG [y],EAX ;
exists ((0:EBX=0 /\\ 0:EAX=0 \\/ 0:EBX=1 /\\ 0:EAX=1) /\\ 0:EAX=1 /\\ 0:ECX=0)
`],
  ["a lock in a branch of a function", `#include <atomic>
#include <mutex>
std::atomic<int> instance{0};
std::mutex m;
int data;
int get() {
  int p = instance.load(std::memory_order_acquire);
  if (p == 0) {
    std::lock_guard<std::mutex> g(m);
    p = instance.load(std::memory_order_relaxed);
    if (p == 0) { data = 42; p = 1; instance.store(p, std::memory_order_release); }
  }
  return data;
}
void t1() { int a = get(); }
void t2() { int b = get(); }
// lw: exists (0:a=0 \\/ 1:b=0)
`, `X86 Mine
(* 0:EAX is p, 0:EBX is m at its lock, 0:ECX is a, 1:EAX is p, 1:EBX is m at its lock, 1:ECX is b *)
(* every wait ends: 0:EBX=0 /\\ 1:EBX=0 *)
{ instance=0; m=0; data=0; }
 P0                 | P1                 ;
 MOV EAX,[instance] | MOV EAX,[instance] ;
 CMP EAX,$0         | CMP EAX,$0         ;
 JNE L2             | JNE L2             ;
 MOV EBX,$1         | MOV EBX,$1         ;
 XCHG [m],EBX       | XCHG [m],EBX       ;
 MOV EAX,[instance] | MOV EAX,[instance] ;
 CMP EAX,$0         | CMP EAX,$0         ;
 JNE L3             | JNE L3             ;
 MOV [data],$42     | MOV [data],$42     ;
 MOV EAX,$1         | MOV EAX,$1         ;
 MOV [instance],EAX | MOV [instance],EAX ;
 L3: MOV EDX,$0     | L3: MOV EDX,$0     ;
 XCHG [m],EDX       | XCHG [m],EDX       ;
 L2: MOV ECX,[data] | L2: MOV ECX,[data] ;
locations [instance; data]
exists (0:EBX=0 /\\ 1:EBX=0 /\\ (0:ECX=0 \\/ 1:ECX=0))
`],
  ["a structure by a pointer, with `main`", `typedef struct { atomic_bool interested[2]; atomic_int victim; } peterson_t;
peterson_t L;
int cnt;
static void lock(peterson_t *l, int me) { int other = 1 - me; atomic_store(&l->interested[me], true); atomic_store(&l->victim, me); while (atomic_load(&l->interested[other]) && atomic_load(&l->victim) == me) ; }
static void unlock(peterson_t *l, int me) { atomic_store(&l->interested[me], false); }
int w0(void *a) { lock(&L, 0); cnt++; unlock(&L, 0); return 0; }
int w1(void *a) { lock(&L, 1); cnt++; unlock(&L, 1); return 0; }
int main(void) { thrd_t a, b; thrd_create(&a, w0, NULL); thrd_create(&b, w1, NULL); thrd_join(a, NULL); thrd_join(b, NULL); assert(cnt == 2); return 0; }
`, `X86 Mine
(* 0:EAX is L_interested_1 after its loop, 0:EBX is L_victim after its loop, 1:EAX is L_interested_0 after its loop, 1:EBX is L_victim after its loop *)
(* every wait ends: (0:EAX=0 \\/ ~0:EBX=0) /\\ (1:EAX=0 \\/ ~1:EBX=1) *)
{ L_interested_0=0; L_interested_1=0; L_victim=0; cnt=0; }
 P0                        | P1                        ;
 MOV ECX,$1                | MOV ECX,$1                ;
 XCHG [L_interested_0],ECX | XCHG [L_interested_1],ECX ;
 MOV ECX,$0                | MOV ECX,$1                ;
 XCHG [L_victim],ECX       | XCHG [L_victim],ECX       ;
 MOV EAX,[L_interested_1]  | MOV EAX,[L_interested_0]  ;
 CMP EAX,$0                | CMP EAX,$0                ;
 JE L2                     | JE L2                     ;
 MOV EBX,[L_victim]        | MOV EBX,[L_victim]        ;
 L2: MOV ECX,[cnt]         | L2: MOV ECX,[cnt]         ;
 ADD ECX,$1                | ADD ECX,$1                ;
 MOV [cnt],ECX             | MOV [cnt],ECX             ;
 MOV ECX,$0                | MOV ECX,$0                ;
 XCHG [L_interested_0],ECX | XCHG [L_interested_1],ECX ;
locations [L_victim]
forall (~0:EAX=0 /\\ 0:EBX=0 \\/ ~1:EAX=0 /\\ 1:EBX=1 \\/ cnt=2)
`],
  ["a class with a loop of loads, with `main`", `class SeqLock {
public:
  void write(int a, int b) {
    unsigned s = seq_.load(std::memory_order_relaxed);
    seq_.store(s + 1, std::memory_order_relaxed);
    std::atomic_thread_fence(std::memory_order_release);
    x_.store(a, std::memory_order_relaxed);
    y_.store(b, std::memory_order_relaxed);
    seq_.store(s + 2, std::memory_order_release);
  }
  void read(int& a, int& b) const {
    unsigned s0, s1;
    do {
      s0 = seq_.load(std::memory_order_acquire);
      a = x_.load(std::memory_order_relaxed);
      b = y_.load(std::memory_order_relaxed);
      std::atomic_thread_fence(std::memory_order_acquire);
      s1 = seq_.load(std::memory_order_relaxed);
    } while (s0 != s1 || (s0 & 1));
  }
private:
  std::atomic<unsigned> seq_{0};
  std::atomic<int> x_{0}, y_{0};
};
SeqLock sl;
int ra, rb;
int main() { std::thread w([] { sl.write(1, 1); }); std::thread r([] { sl.read(ra, rb); }); w.join(); r.join(); assert(!(ra == 0 && rb == 1)); assert(!(ra == 1 && rb == 0)); }
`, `X86 Mine
(* 0:EAX is s, 1:EAX is s0, 1:EBX is ra, 1:ECX is rb, 1:EDX is s1 *)
(* every wait ends: (1:EAX=0 /\\ 1:EDX=0 \\/ 1:EAX=2 /\\ 1:EDX=2) *)
{ sl_seq_=0; sl_x_=0; sl_y_=0; }
 P0                | P1                ;
 MOV EAX,[sl_seq_] | MOV EAX,[sl_seq_] ;
 MOV EBX,EAX       | MOV EBX,[sl_x_]   ;
 ADD EBX,$1        | MOV ECX,[sl_y_]   ;
 MOV [sl_seq_],EBX | MOV EDX,[sl_seq_] ;
 MOV [sl_x_],$1    |                   ;
 MOV [sl_y_],$1    |                   ;
 MOV EBX,EAX       |                   ;
 ADD EBX,$2        |                   ;
 MOV [sl_seq_],EBX |                   ;
~exists ((1:EAX=0 /\\ 1:EDX=0 \\/ 1:EAX=2 /\\ 1:EDX=2) /\\ (1:EBX=0 /\\ 1:ECX=1 \\/ 1:EBX=1 /\\ 1:ECX=0))
`],
  ["no question, and a loop that returns", `class TTASLock { std::atomic<bool> locked = ATOMIC_VAR_INIT(false);
public:
 void lock() noexcept { for (;;) { if (!locked.exchange(true, std::memory_order_acquire)) return; while (locked.load(std::memory_order_relaxed)) { __builtin_ia32_pause(); } } }
 bool try_lock() noexcept { return !locked.load(std::memory_order_relaxed) && !locked.exchange(true, std::memory_order_acquire); }
 void unlock() noexcept { locked.store(false, std::memory_order_release); } };
TTASLock l; int n;
void a() { l.lock(); n++; l.unlock(); }
void b() { if (l.try_lock()) { n++; l.unlock(); } }
`, `X86 Mine
(* 0:EAX is l_locked at its lock *)
(* every wait ends: 0:EAX=0 *)
{ l_locked=0; n=0; }
 P0                  | P1                  ;
 MOV EAX,$1          | MOV EAX,[l_locked]  ;
 XCHG [l_locked],EAX | CMP EAX,$0          ;
 MOV EBX,[n]         | JNE END             ;
 ADD EBX,$1          | MOV EAX,$1          ;
 MOV [n],EBX         | XCHG [l_locked],EAX ;
 MOV [l_locked],$0   | CMP EAX,$0          ;
                     | JNE END             ;
                     | MOV EAX,[n]         ;
                     | ADD EAX,$1          ;
                     | MOV [n],EAX         ;
                     | MOV [l_locked],$0   ;
                     | END:                ;
locations [0:EAX; l_locked; n]
exists (true)
`],
  ["no question, and names of numbers", `enum { IDLE, WANT };
volatile int flag[2]; volatile int turn;
void P0() { flag[0] = WANT; turn = 1; while (flag[1] == WANT && turn == 1) ; flag[0] = IDLE; }
void P1() { flag[1] = WANT; turn = 0; while (flag[0] == WANT && turn == 0) ; flag[1] = IDLE; }
`, `X86 Mine
(* 0:EAX is flag_1 after its loop, 0:EBX is turn after its loop, 1:EAX is flag_0 after its loop, 1:EBX is turn after its loop *)
(* every wait ends: (~0:EAX=1 \\/ ~0:EBX=1) /\\ (~1:EAX=1 \\/ ~1:EBX=0) *)
{ flag_0=0; flag_1=0; turn=0; }
 P0                  | P1                  ;
 MOV [flag_0],$1     | MOV [flag_1],$1     ;
 MOV [turn],$1       | MOV [turn],$0       ;
 MOV EAX,[flag_1]    | MOV EAX,[flag_0]    ;
 CMP EAX,$1          | CMP EAX,$1          ;
 JNE L1              | JNE L1              ;
 MOV EBX,[turn]      | MOV EBX,[turn]      ;
 L1: MOV [flag_0],$0 | L1: MOV [flag_1],$0 ;
locations [0:EAX; 0:EBX; 1:EAX; 1:EBX; turn]
exists (true)
`],
  ["numbers by casts, with `main`", `class Peterson { public: Peterson() : turn(0) { flag[0] = false; flag[1] = false; }
 void enter(int id) { const int other = id ^ 1; flag[id].store(true); turn.store(other); while (flag[other].load() && turn.load() == other) { } }
 void exit(int id) { flag[id].store(false); }
 private: std::atomic<bool> flag[2]; std::atomic<int> turn; };
static Peterson lock; static int value = 0;
void *run(void *p) { int id = *((int *)p); lock.enter(id); value += 1; lock.exit(id); return nullptr; }
int main() { pthread_t t[2]; int ids[2] = {0, 1}; for (int i = 0; i < 2; ++i) pthread_create(&t[i], nullptr, run, &ids[i]); for (int i = 0; i < 2; ++i) pthread_join(t[i], nullptr); assert(value == 2); }
`, `X86 Mine
(* 0:EAX is lock_flag_1 after its loop, 0:EBX is lock_turn after its loop, 1:EAX is lock_flag_0 after its loop, 1:EBX is lock_turn after its loop *)
(* every wait ends: (0:EAX=0 \\/ ~0:EBX=1) /\\ (1:EAX=0 \\/ ~1:EBX=0) *)
{ lock_flag_0=0; lock_flag_1=0; lock_turn=0; value=0; }
 P0                     | P1                     ;
 MOV ECX,$1             | MOV ECX,$1             ;
 XCHG [lock_flag_0],ECX | XCHG [lock_flag_1],ECX ;
 MOV ECX,$1             | MOV ECX,$0             ;
 XCHG [lock_turn],ECX   | XCHG [lock_turn],ECX   ;
 MOV EAX,[lock_flag_1]  | MOV EAX,[lock_flag_0]  ;
 CMP EAX,$0             | CMP EAX,$0             ;
 JE L2                  | JE L2                  ;
 MOV EBX,[lock_turn]    | MOV EBX,[lock_turn]    ;
 L2: MOV ECX,[value]    | L2: MOV ECX,[value]    ;
 ADD ECX,$1             | ADD ECX,$1             ;
 MOV [value],ECX        | MOV [value],ECX        ;
 MOV ECX,$0             | MOV ECX,$0             ;
 XCHG [lock_flag_0],ECX | XCHG [lock_flag_1],ECX ;
locations [lock_turn]
forall (~0:EAX=0 /\\ 0:EBX=1 \\/ ~1:EAX=0 /\\ 1:EBX=0 \\/ value=2)
`],
  ["no question, and macros that are called", `#define barrier() asm volatile("" ::: "memory")
#define mb() asm volatile("mfence" ::: "memory")
int x, y, r1, r2;
void P0(void) { x = 1; mb(); r1 = y; }
void P1(void) { y = 1; barrier(); r2 = x; }
`, `X86 Mine
(* 0:EAX is r1, 1:EAX is r2 *)
{ x=0; y=0; }
 P0          | P1          ;
 MOV [x],$1  | MOV [y],$1  ;
 MFENCE      | MOV EAX,[x] ;
 MOV EAX,[y] |             ;
exists (0:EAX=0 /\\ 1:EAX=0)
`],
  ["no question, and macros of the kernel", `#define READ_ONCE(x) (*(volatile int *)&(x))
#define WRITE_ONCE(x, v) (*(volatile int *)&(x) = (v))
int x, y;
void P0(void) { WRITE_ONCE(x, 1); int r0 = READ_ONCE(y); }
void P1(void) { WRITE_ONCE(y, 1); int r0 = READ_ONCE(x); }
`, `X86 Mine
(* 0:EAX is r0, 1:EAX is r0 *)
{ x=0; y=0; }
 P0          | P1          ;
 MOV [x],$1  | MOV [y],$1  ;
 MOV EAX,[y] | MOV EAX,[x] ;
exists (0:EAX=0 /\\ 1:EAX=0)
`],
  ["no question, and a class in a namespace", `namespace sync { class SpinLock { public: void lock() { while (flag.test_and_set(std::memory_order_acquire)) { } } void unlock() { flag.clear(std::memory_order_release); } private: std::atomic_flag flag = ATOMIC_FLAG_INIT; }; }
sync::SpinLock sl; int n;
void P0() { std::lock_guard<sync::SpinLock> g(sl); n++; }
void P1() { std::lock_guard<sync::SpinLock> g(sl); n++; }
`, `X86 Mine
(* 0:EAX is sl_flag at its lock, 1:EAX is sl_flag at its lock *)
(* every wait ends: 0:EAX=0 /\\ 1:EAX=0 *)
(* an addition to n is lost: ~n=2 *)
{ sl_flag=0; n=0; }
 P0                 | P1                 ;
 MOV EAX,$1         | MOV EAX,$1         ;
 XCHG [sl_flag],EAX | XCHG [sl_flag],EAX ;
 MOV EBX,[n]        | MOV EBX,[n]        ;
 ADD EBX,$1         | ADD EBX,$1         ;
 MOV [n],EBX        | MOV [n],EBX        ;
 MOV [sl_flag],$0   | MOV [sl_flag],$0   ;
locations [sl_flag]
~exists (0:EAX=0 /\\ 1:EAX=0 /\\ ~n=2)
`],
  ["no question, and a name of a type", `using Atom = std::atomic<int>; Atom x{0}, y{0};
void P0() { x.store(1, std::memory_order_relaxed); int r0 = y.load(std::memory_order_relaxed); }
void P1() { y.store(1, std::memory_order_relaxed); int r0 = x.load(std::memory_order_relaxed); }
`, `X86 Mine
(* 0:EAX is r0, 1:EAX is r0 *)
{ x=0; y=0; }
 P0          | P1          ;
 MOV [x],$1  | MOV [y],$1  ;
 MOV EAX,[y] | MOV EAX,[x] ;
exists (0:EAX=0 /\\ 1:EAX=0)
`],
  ["no question, and names of types in C", `typedef _Atomic int aint; typedef std::mutex Lock; aint x, y; Lock m; int n;
static void st(aint *p) { *p = 1; }
void P0() { st(&x); std::lock_guard<Lock> g(m); n++; }
void P1() { std::lock_guard<Lock> g(m); n++; }
`, `X86 Mine
(* 0:EAX is m at its lock, 1:EAX is m at its lock *)
(* every wait ends: 0:EAX=0 /\\ 1:EAX=0 *)
(* an addition to n is lost: ~n=2 *)
{ x=0; m=0; n=0; }
 P0           | P1           ;
 MOV EBX,$1   | MOV EAX,$1   ;
 XCHG [x],EBX | XCHG [m],EAX ;
 MOV EAX,$1   | MOV EBX,[n]  ;
 XCHG [m],EAX | ADD EBX,$1   ;
 MOV EBX,[n]  | MOV [n],EBX  ;
 ADD EBX,$1   | MOV EBX,$0   ;
 MOV [n],EBX  | XCHG [m],EBX ;
 MOV EBX,$0   |              ;
 XCHG [m],EBX |              ;
locations [x]
~exists (0:EAX=0 /\\ 1:EAX=0 /\\ ~n=2)
`],
  ["no question, and loops whose conditions assign", `std::atomic<int> x; int d;
void P0() { d = 1; x.store(3, std::memory_order_release); }
void P1() { int r; while ((r = x.load(std::memory_order_acquire)) == 0) ; int s = d; int t; while (!(t = x)) { _mm_pause(); } }
`, `X86 Mine
(* 1:EAX is r, 1:EBX is s, 1:ECX is t *)
(* every wait ends: ~1:EAX=0 /\\ ~1:ECX=0 *)
{ x=0; d=0; }
 P0         | P1          ;
 MOV [d],$1 | MOV EAX,[x] ;
 MOV [x],$3 | MOV EBX,[d] ;
            | MOV ECX,[x] ;
exists (~1:EAX=0 /\\ ~1:ECX=0 /\\ 1:EBX=0)
`],
  ["no question, and a compare-exchange that is tried once", `std::atomic<bool> l{false}; int n;
bool try_lock() { bool e = false; return l.compare_exchange_strong(e, true); }
void P0() { if (try_lock()) { n++; l = false; } }
void P1() { if (try_lock()) { n++; l = false; } }
`, `X86 Mine
(* 0:EAX is e, 0:EBX is try_lock_result, 1:EAX is e, 1:EBX is try_lock_result *)
(* both threads enter their if: ~0:EBX=0 /\\ ~1:EBX=0 *)
(* an addition to n is lost: ~n=2 *)
{ l=0; n=0; }
 P0             | P1             ;
 MOV EAX,$0     | MOV EAX,$0     ;
 MOV EAX,$1     | MOV EAX,$1     ;
 XCHG [l],EAX   | XCHG [l],EAX   ;
 CMP EAX,$0     | CMP EAX,$0     ;
 JNE L2         | JNE L2         ;
 MOV EBX,$1     | MOV EBX,$1     ;
 JMP L3         | JMP L3         ;
 L2: MOV EBX,$0 | L2: MOV EBX,$0 ;
 L3: CMP EBX,$0 | L3: CMP EBX,$0 ;
 JE END         | JE END         ;
 MOV ECX,[n]    | MOV ECX,[n]    ;
 ADD ECX,$1     | ADD ECX,$1     ;
 MOV [n],ECX    | MOV [n],ECX    ;
 MOV ECX,$0     | MOV ECX,$0     ;
 XCHG [l],ECX   | XCHG [l],ECX   ;
 END:           | END:           ;
locations [0:EAX; 1:EAX; l]
~exists (~0:EBX=0 /\\ ~1:EBX=0 /\\ ~n=2)
`],
  ["no question, and compare-exchanges in many forms", `std::atomic<int> x{0}; int r1, r2;
void a() { r1 = __sync_bool_compare_and_swap(&x, 0, 1); }
void b() { int e = 0; bool ok = x.compare_exchange_strong(e, 1); r2 = ok; }
void c() { int e = 0; if (!__atomic_compare_exchange_n(&x, &e, 1, 0, 5, 5)) e = 7; }
`, `X86 Mine
(* 0:EAX is x_before, 0:EBX is r1, 1:EAX is e, 1:EBX is ok, 1:ECX is r2, 2:EAX is e *)
{ x=0; }
 P0             | P1              | P2           ;
 MOV EAX,$1     | MOV EAX,$0      | MOV EAX,$0   ;
 XCHG [x],EAX   | MOV EAX,$1      | MOV EAX,$1   ;
 CMP EAX,$0     | XCHG [x],EAX    | XCHG [x],EAX ;
 JNE L1         | CMP EAX,$0      | CMP EAX,$0   ;
 MOV EBX,$1     | JNE L1          | JE END       ;
 JMP L2         | MOV EBX,$1      | MOV EAX,$7   ;
 L1: MOV EBX,$0 | JMP L2          | END:         ;
 L2:            | L1: MOV EBX,$0  |              ;
                | L2: MOV ECX,EBX |              ;
locations [0:EAX; 0:EBX; 1:EAX; 1:EBX; 1:ECX; 2:EAX; x]
exists (true)
`],
  ["no question, and compare-exchanges in C", `#include <stdatomic.h>
atomic_int lock; int n;
void P0() { int e = 0; if (!atomic_compare_exchange_strong(&lock, &e, 1)) return; n = 1; atomic_store(&lock, 0); }
void P1() { if (__sync_val_compare_and_swap(&lock, 0, 1) == 0) { int r = n; __sync_lock_release(&lock); } }
`, `X86 Mine
(* 0:EAX is e, 1:EAX is lock_before, 1:EBX is r *)
{ lock=0; n=0; }
 P0              | P1              ;
 MOV EAX,$0      | MOV EAX,$1      ;
 MOV EAX,$1      | XCHG [lock],EAX ;
 XCHG [lock],EAX | CMP EAX,$0      ;
 CMP EAX,$0      | JNE END         ;
 JE L1           | MOV EBX,[n]     ;
 JMP END         | MOV [lock],$0   ;
 L1: MOV [n],$1  | END:            ;
 MOV EBX,$0      |                 ;
 XCHG [lock],EBX |                 ;
 END:            |                 ;
locations [0:EAX; lock]
exists (1:EAX=0 /\\ 1:EBX=0)
`],
  ["no question, and a compare-exchange of the kernel", `volatile int lock, n;
void P0() { int old = cmpxchg(&lock, 0, 1); if (old == 0) { WRITE_ONCE(n, 1); smp_store_release(&lock, 0); } }
void P1() { if (cmpxchg(&lock, 0, 1) != 0) return; int r = n; }
`, `X86 Mine
(* 0:EAX is lock_before, 0:EBX is old, 1:EAX is lock_before, 1:EBX is r *)
{ lock=0; n=0; }
 P0              | P1              ;
 MOV EAX,$1      | MOV EAX,$1      ;
 XCHG [lock],EAX | XCHG [lock],EAX ;
 MOV EBX,EAX     | CMP EAX,$0      ;
 CMP EBX,$0      | JE L1           ;
 JNE END         | JMP END         ;
 MOV [n],$1      | L1: MOV EBX,[n] ;
 MOV [lock],$0   | END:            ;
 END:            |                 ;
locations [0:EAX; 0:EBX; lock]
exists (1:EAX=0 /\\ 1:EBX=0)
`],
  ["no question, and the word that a compare-exchange finds", `volatile int x;
void P0() { int a = cmpxchg(&x, 0, 5); }
void P1() { int b = __sync_val_compare_and_swap(&x, 5, 0); if (cmpxchg(&x, 5, 0) == 5) b = 9; if (cmpxchg(&x, 0, 5)) b = 8; }
`, `X86 Mine
(* 0:EAX is x_before, 0:EBX is a, 1:EAX is x_before, 1:EBX is b, 1:ECX is x_before_, 1:EDX is x_before__ *)
{ x=0; }
 P0           | P1             ;
 MOV EAX,$5   | MOV EAX,$0     ;
 XCHG [x],EAX | XCHG [x],EAX   ;
 MOV EBX,EAX  | MOV EBX,EAX    ;
              | MOV ECX,$0     ;
              | XCHG [x],ECX   ;
              | CMP ECX,$5     ;
              | JNE L1         ;
              | MOV EBX,$9     ;
              | L1: MOV EDX,$5 ;
              | XCHG [x],EDX   ;
              | CMP EDX,$0     ;
              | JE END         ;
              | MOV EBX,$8     ;
              | END:           ;
locations [0:EAX; 0:EBX; 1:EAX; 1:EBX; 1:ECX; 1:EDX; x]
exists (true)
`],
  ["no question, and locks that are tried", `std::mutex m; int n;
void P0() { if (m.try_lock()) { n++; m.unlock(); } }
void P1() { if (!m.try_lock()) return; std::lock_guard<std::mutex> g(m, std::adopt_lock); n++; }
`, `X86 Mine
(* 0:EAX is m_tried, 1:EAX is m_tried *)
(* both threads get past their if: 0:EAX=0 /\\ 1:EAX=0 *)
(* an addition to n is lost: ~n=2 *)
{ m=0; n=0; }
 P0           | P1              ;
 MOV EAX,$1   | MOV EAX,$1      ;
 XCHG [m],EAX | XCHG [m],EAX    ;
 CMP EAX,$0   | CMP EAX,$0      ;
 JNE END      | JE L1           ;
 MOV EBX,[n]  | JMP END         ;
 ADD EBX,$1   | L1: MOV EBX,[n] ;
 MOV [n],EBX  | ADD EBX,$1      ;
 MOV EBX,$0   | MOV [n],EBX     ;
 XCHG [m],EBX | MOV EBX,$0      ;
 END:         | XCHG [m],EBX    ;
              | END:            ;
~exists (0:EAX=0 /\\ 1:EAX=0 /\\ ~n=2)
`],
  ["no question, and locks of C that are tried", `pthread_mutex_t m; mtx_t k; int n, r;
void P0() { if (pthread_mutex_trylock(&m) == 0) { n = 1; pthread_mutex_unlock(&m); } else n = 5; }
void P1() { int failed = pthread_mutex_trylock(&m) != 0; if (failed) r = 7; while (mtx_trylock(&k) != thrd_success) { sched_yield(); } n = 2; mtx_unlock(&k); }
`, `X86 Mine
(* 0:EAX is m_tried, 1:EAX is m_tried, 1:EBX is failed, 1:ECX is r, 1:EDX is k at its lock *)
(* every wait ends: 1:EDX=0 *)
{ m=0; k=0; n=0; }
 P0             | P1             ;
 MOV EAX,$1     | MOV EAX,$1     ;
 XCHG [m],EAX   | XCHG [m],EAX   ;
 CMP EAX,$0     | CMP EAX,$0     ;
 JNE L1         | JE L1          ;
 MOV [n],$1     | MOV EBX,$1     ;
 MOV EBX,$0     | JMP L2         ;
 XCHG [m],EBX   | L1: MOV EBX,$0 ;
 JMP END        | L2: CMP EBX,$0 ;
 L1: MOV [n],$5 | JE L3          ;
 END:           | MOV ECX,$7     ;
                | L3: MOV EDX,$1 ;
                | XCHG [k],EDX   ;
                | MOV [n],$2     ;
                | MOV ESI,$0     ;
                | XCHG [k],ESI   ;
locations [0:EAX; 1:EAX; 1:EBX; 1:ECX; 1:EDX; m; n; k]
exists (true)
`],
  ["a lock that is tried beside another condition", "std::mutex m; int n;\nvoid P0() { if (m.try_lock() && n == 0) n = 1; }\n",
    "`if (m.try_lock() && n == 0)`: a lock is tried in a condition of its own, as `if (m.try_lock())`"],
  ["the number that says why a lock is not got", "pthread_mutex_t m; int n;\nvoid P0() { int r = pthread_mutex_trylock(&m); }\n",
    "`int r = pthread_mutex_trylock(&m)`: compare the result with 0, as `int failed = pthread_mutex_trylock(&m) != 0;`"],
  ["a guard that tries", "std::mutex m; int n;\nvoid P0() { std::unique_lock<std::mutex> l(m, std::try_to_lock); n = 1; }\n",
    "`std::unique_lock<std::mutex> l(m, std::t..`: try the mutex itself, as `if (m.try_lock())`"],
  ["a program for Windows", `#include <windows.h>
volatile LONG x = 0, y = 0;
LONG r1, r2;
DWORD WINAPI f(LPVOID p) { x = 1; MemoryBarrier(); r1 = y; return 0; }
DWORD WINAPI g(LPVOID p) { UNREFERENCED_PARAMETER(p); InterlockedExchange(&y, TRUE); _ReadWriteBarrier(); Sleep(0); r2 = x; return 0; }
int main(void) {
  HANDLE t[2];
  DWORD id;
  t[0] = CreateThread(NULL, 0, f, NULL, 0, NULL);
  t[1] = CreateThread(NULL, 0, (LPTHREAD_START_ROUTINE)g, (LPVOID)1, 0, &id);
  WaitForMultipleObjects(2, t, TRUE, INFINITE);
  for (int i = 0; i < 2; i++) CloseHandle(t[i]);
  if (r1 == 0 && r2 == 0) printf("reordered\\n");
  return 0;
}
`, `X86 Mine
(* 0:EAX is r1, 1:EAX is r2 *)
{ x=0; y=0; }
 P0          | P1           ;
 MOV [x],$1  | MOV EBX,$1   ;
 MFENCE      | XCHG [y],EBX ;
 MOV EAX,[y] | MOV EAX,[x]  ;
exists (0:EAX=0 /\\ 1:EAX=0)
`],
  ["a critical section", `#include <windows.h>
CRITICAL_SECTION cs; LONG n;
unsigned __stdcall work(void *arg) { EnterCriticalSection(&cs); n++; LeaveCriticalSection(&cs); return 0; }
int main() {
  InitializeCriticalSection(&cs);
  HANDLE a = (HANDLE)_beginthreadex(NULL, 0, work, NULL, 0, NULL), b = (HANDLE)_beginthreadex(NULL, 0, &work, NULL, 0, NULL);
  HANDLE hs[] = {a, b};
  WaitForMultipleObjects(2, hs, TRUE, INFINITE);
  DeleteCriticalSection(&cs);
  assert(n == 2);
}
`, `X86 Mine
(* 0:EAX is cs at its lock, 1:EAX is cs at its lock *)
(* every wait ends: 0:EAX=0 /\\ 1:EAX=0 *)
{ cs=0; n=0; }
 P0            | P1            ;
 MOV EAX,$1    | MOV EAX,$1    ;
 XCHG [cs],EAX | XCHG [cs],EAX ;
 MOV EBX,[n]   | MOV EBX,[n]   ;
 ADD EBX,$1    | ADD EBX,$1    ;
 MOV [n],EBX   | MOV [n],EBX   ;
 MOV EBX,$0    | MOV EBX,$0    ;
 XCHG [cs],EBX | XCHG [cs],EBX ;
forall (~0:EAX=0 \\/ ~1:EAX=0 \\/ n=2)
`],
  ["interlocked functions", `#include <windows.h>
LONG volatile n = 0, w = 0; LONG r; BOOL seen;
DWORD WINAPI f(LPVOID p) { if (InterlockedIncrement(&n) == 2) r = 1; if (InterlockedCompareExchange(&w, 1, 0) == 0) InterlockedDecrement(&n); return 0; }
DWORD WINAPI g(LPVOID p) { while (w != 1) YieldProcessor(); seen = InterlockedAdd((volatile LONG*)&n, 3); InterlockedExchangeAdd64(&n, 2); return 0; }
int main() {
  HANDLE h[2] = { CreateThread(NULL, 0, f, NULL, 0, NULL), CreateThread(NULL, 0, g, NULL, 0, NULL) };
  WaitForSingleObject(h[0], INFINITE);
  WaitForSingleObject(h[1], INFINITE);
  assert(seen >= 3);
}
`, `X86 Mine
(* 0:EAX is r, 0:EBX is w_before, 1:EAX is w after its loop, 1:EBX is seen *)
(* every wait ends: 1:EAX=1 *)
{ n=0; w=0; }
 P0                  | P1                ;
 MOV ECX,$1          | MOV EAX,[w]       ;
 LOCK XADD [n],ECX   | MOV EBX,$3        ;
 ADD ECX,$1          | LOCK XADD [n],EBX ;
 CMP ECX,$2          | ADD EBX,$3        ;
 JNE L1              | MOV ECX,$2        ;
 MOV EAX,$1          | LOCK XADD [n],ECX ;
 L1: MOV EBX,$1      |                   ;
 XCHG [w],EBX        |                   ;
 CMP EBX,$0          |                   ;
 JNE L2              |                   ;
 MOV ECX,$4294967295 |                   ;
 LOCK XADD [n],ECX   |                   ;
 L2:                 |                   ;
locations [n]
~exists (1:EAX=1 /\\ 1:EBX=2)
`],
  ["a critical section that is entered twice", "CRITICAL_SECTION cs;\nvoid P0() { EnterCriticalSection(&cs); EnterCriticalSection(&cs); }\n",
    "`EnterCriticalSection(&cs)`: a thread locks this only if it has not locked it already"],
  ["a function of Windows that a program defines", "#include <windows.h>\nLONG x;\nLONG InterlockedExchange(LONG *p, LONG v) { return 3; }\nvoid P0() { x = 1; }\n",
    "`InterlockedExchange`: the page knows this function of Windows, so leave it out"],
  ["a macro of the name of a function of Windows", "int x;\n#define YieldProcessor() x = 1\nvoid P0() { YieldProcessor(); }\n",
    "`#define YieldProcessor() x = 1`: the page knows this function of Windows, so leave it out"],
  ["a function of Windows' name", "int x;\nvoid Sleep(int n) { x = n; }\nvoid P0() { Sleep(1); }\n", "`Sleep`: the page knows this function of Windows, so leave it out"],
  ["an operation on bits of Windows", "LONG x; LONG r;\nvoid P0() { r = InterlockedOr(&x, 1); }\n",
    "`r = InterlockedOr(&x, 1)`: of locked instructions the x86 format has only exchange and addition"],
  ["words of 64 bits of Windows", "LONG64 x = 3000000000; DWORD y;\nvoid P0() { x = 1; }\n", `\`LONG64\`${OF_WIDE}`],
  ["words of Windows below 0", "LONG64 x = -1; DWORD y;\nvoid P0() { x = 1; }\n", `\`LONG64\`${OF_WIDE}`],
  ["an event of Windows", "HANDLE e; LONG x;\nvoid P0() { x = 1; SetEvent(e); }\n",
    `\`SetEvent(e)\`: the page follows no events, and of locks a \`CRITICAL_SECTION\`${OF_WAITS}`],
  ["a thread of Windows that starts later", "LONG x;\nDWORD WINAPI f(LPVOID p) { x = 1; return 0; }\nint main() { HANDLE a = CreateThread(NULL, 0, f, NULL, CREATE_SUSPENDED, NULL); }\n",
    "`HANDLE a = CreateThread(NULL, 0, f, NULL..`: a thread starts at once, as by `CreateThread(NULL, 0, f, NULL, 0, NULL)`"],
  ["a wait of Windows that may end early", "LONG x;\nDWORD WINAPI f(LPVOID p) { x = 1; return 0; }\nint main() { HANDLE a = CreateThread(NULL, 0, f, NULL, 0, NULL); WaitForSingleObject(a, 1000); }\n",
    "`WaitForSingleObject(a, 1000)`: `main` waits for all threads, and without an end, as `WaitForSingleObject(t, INFINITE);`"],
  ["no question, and a template that nothing uses", `template <typename L> struct Guard { L& l; Guard(L& x) : l(x) { l.lock(); } ~Guard() { l.unlock(); } };
std::atomic<int> x;
void P0() { x = 1; }
`, "X86 Mine\n{ x=0; }\n P0           ;\n MOV EAX,$1   ;\n XCHG [x],EAX ;\nlocations [x]\nexists (true)\n"],
  ["no question, and functions that are named as those of the kernel", `int x;
static void atomic_inc(int *p) { (*p)++; }
static int smp_load_acquire(int *p) { return *p; }
void P0(void) { atomic_inc(&x); }
void P1(void) { atomic_inc(&x); int r = smp_load_acquire(&x); }
`, `X86 Mine
(* 1:EAX is r *)
(* an addition to x is lost: ~x=2 *)
{ x=0; }
 P0          | P1          ;
 MOV EAX,[x] | MOV EBX,[x] ;
 ADD EAX,$1  | ADD EBX,$1  ;
 MOV [x],EAX | MOV [x],EBX ;
             | MOV EAX,[x] ;
locations [1:EAX]
~exists (~x=2)
`],
  ["two functions of one name", `std::atomic<int> x; void f(int a) { x = a; } void f(bool a) { x = a; } void P0() { f(2); }
`, "`f`: give each function a name of its own"],
  ["a step in an argument", `std::atomic<int> x; void f(int a, int b) { x = a; x = b; } void P0() { int r = 1; f(r++, r); }
`, "`f(r++, r)`: write `++` and `--` of a thread's own variable in a statement of its own"],
  ["a call in a sum", `std::atomic<int> x, y; int f() { int t = x.fetch_add(1); return t; } void P0() { if (f() + y == 3) y = 1; }
`, "`if (f() + y == 3)`: call a function in a statement of its own, as `int r = f();`"],
  ["a method in a loop that waits", `struct S { std::atomic<int> x, y; void relax() { y = 1; } void w() { while (!x) { relax(); } } }; S s; void P0() { s.w(); } void P1() { s.x = 1; }
`, "`while (!x)`: write out each pass of a loop. `tools/from_c.py` follows loops"],
  ["an object whose first variable has a word", `struct S { int a = 5; std::atomic<int> b; }; S s = {0}; void P0() { s.b = 1; } void P1() { int r = s.b; }
`, "`S s = {0};`: an initial value is one constant, as in `x = 1` or `x{1}`, and of a `bool` 0 or 1"],
  ["a macro of two statements", `std::atomic<int> x, y;
#define BOTH() x = 1; y = 1
void P0() { if (x) BOTH(); }
`, "`#define BOTH() x = 1; y = 1`: write its text where it is used"],
  ["functions that call each other", `std::atomic<int> x; void g(); void f() { x++; g(); } void g() { f(); } void P0() { f(); }
`, "`f()`: write what the function does in its place"],
  ["a function without a result", `std::atomic<int> x; void f() { x++; } void P0() { int r = f(); }
`, "`int r = f()`: this function returns no integer"],
  ["a function that returns on one path only", `std::atomic<int> x; int f() { if (x) return 1; } void P0() { int r = f(); x = r; }
`, "`x = r`: `r` has no value on some path to here"],
  ["an argument that is shared", `std::atomic<int> x; void f(int v) { x = v; } int main() { std::thread a(f, x), b(f, 2); a.join(); b.join(); }
`, "`std::thread a(f, x), b(f, 2)`: its arguments are constants, variables of the thread, and shared variables of the types of its parameters"],
  ["too few arguments", `std::atomic<int> x; void f(int v, int w) { x = v; } void P0() { f(1); }
`, "`f(1)`: its arguments are constants, variables of the thread, and shared variables of the types of its parameters"],
  ["a function that ends the thread", `std::atomic<int> x; void f() { pthread_exit(NULL); } void P0() { f(); x = 1; }
`, "`pthread_exit(NULL)`: only the function of the thread itself ends the thread"],
  ["an index below 0", `std::atomic<int> x[2]; void f(int v) { x[v - 1] = 1; } void P0() { f(0); }
`, "`x[v - 1] = 1`: an array is shared, and its indices are constants in it, as `a[0]`"],
  ["a branch of a number, with `main`", `std::atomic<int> x, y; int g;
void f(int id) { if (id) { x = 1; return; } else { y = 1; } g = id; }
int main() { std::thread a(f, 0), b(f, 1); a.join(); b.join(); assert(x == 1 && y == 1); }
`, `X86 Mine
(* 0:EAX is g *)
{ x=0; y=0; }
 P0           | P1           ;
 MOV EBX,$1   | MOV EAX,$1   ;
 XCHG [y],EBX | XCHG [x],EAX ;
 MOV EAX,$0   |              ;
forall (x=1 /\\ y=1)
`],
  ["a static variable of a thread", `std::atomic<int> x;
void P0() { static int n; n++; x = n; }
void P1() { x = 1; }
`, "`static int n`: a static variable is shared, so declare it outside of functions"],
  ["a call in the middle of a condition", `std::atomic<int> x; int n;
int take() { int t = x.fetch_add(1); return t; }
void P0() { if (x == 1 && take() == 1) n = 1; }
void P1() { x = 1; n = 2; }
`, "`if (x == 1 && take() == 1)`: call a function in a statement of its own, as `int r = f();`"],
  ["a pointer of another type", `int d; atomic_int x;
void set(atomic_int *p) { *p = 1; }
void P0() { set(&d); }
void P1() { int a = d; }
`, "`set(&d)`: its arguments are constants, variables of the thread, and shared variables of the types of its parameters"],
  ["a constructor with a parameter", `class C { public: C(int n) : v(n) {} std::atomic<int> v; }; C c(1);
void P0() { c.v = 1; }
`, "`C(int n) : v(n) {}`: a constructor has no parameters, and only sets variables of its object to constants"],
  ["no question, and a thread of a method, with `main`", `struct W { std::atomic<int> x; void run() { x++; } } w;
int main() { std::thread t(&W::run, &w); t.join(); }
`, `X86 Mine
{ w_x=0; }
 P0                  ;
 MOV EAX,$1          ;
 LOCK XADD [w_x],EAX ;
locations [w_x]
exists (true)
`],
  ["several variables in a declaration", `std::atomic<int> x, y;
int f(int v) { int r = x, s = r, t = v; return s + t; }
void P0() { int r = 5; int q = f(r); }
void P1() { x = 1; }
exists (0:q=6)
`, `X86 Mine
(* 0:EAX is r, 0:EBX is s, 0:ECX is q *)
{ x=0; }
 P0          | P1           ;
 MOV EAX,[x] | MOV EAX,$1   ;
 MOV EBX,EAX | XCHG [x],EAX ;
 MOV ECX,EBX |              ;
 ADD ECX,$5  |              ;
exists (0:ECX=6)
`],
  ["an argument that another function changes", `std::atomic<int> x;
void g(int& a) { a++; }
void f(int b) { g(b); x.store(b, std::memory_order_relaxed); }
void P0() { int r = 3; f(r); }
void P1() { int s = x; }
exists (0:r=3)
`, `X86 Mine
(* 0:EAX is r, 0:EBX is b, 1:EAX is s *)
{ x=0; }
 P0          | P1          ;
 MOV EAX,$3  | MOV EAX,[x] ;
 MOV EBX,EAX |             ;
 ADD EBX,$1  |             ;
 MOV [x],EBX |             ;
exists (0:EAX=3)
`],
  ["a function that returns whether", `std::atomic<int> x{2};
bool on() { return x.load(); }
void P0() { int r0 = on(); bool b = on(); if (on()) r0++; }
void P1() { x = 0; }
exists (0:r0=2)
`, `X86 Mine
(* 0:EAX is r0, 0:EBX is b *)
{ x=2; }
 P0              | P1           ;
 MOV ECX,[x]     | MOV EAX,$0   ;
 CMP ECX,$0      | XCHG [x],EAX ;
 JE L1           |              ;
 MOV EAX,$1      |              ;
 JMP L2          |              ;
 L1: MOV EAX,$0  |              ;
 L2: MOV ECX,[x] |              ;
 CMP ECX,$0      |              ;
 JE L3           |              ;
 MOV EBX,$1      |              ;
 JMP L4          |              ;
 L3: MOV EBX,$0  |              ;
 L4: MOV ECX,[x] |              ;
 CMP ECX,$0      |              ;
 JE END          |              ;
 ADD EAX,$1      |              ;
 END:            |              ;
exists (0:EAX=2)
`],
  ["lambdas that copy numbers, with `main`", `std::atomic<int> x[2]; int r[2];
int main() { std::vector<std::thread> ts; for (int i = 0; i < 2; i++) ts.emplace_back([=] { x[i] = 1; r[i] = x[1 - i]; }); for (auto& t : ts) t.join(); assert(r[0] || r[1]); }
`, `X86 Mine
(* 0:EAX is r_0, 1:EAX is r_1 *)
{ x_0=0; x_1=0; }
 P0             | P1             ;
 MOV EBX,$1     | MOV EBX,$1     ;
 XCHG [x_0],EBX | XCHG [x_1],EBX ;
 MOV EAX,[x_1]  | MOV EAX,[x_0]  ;
~exists (0:EAX=0 /\\ 1:EAX=0)
`],
  ["lambdas of numbers, with `main`", `std::atomic<int> x[2]; int r[2];
int main() { std::vector<std::thread> ts; for (int i = 0; i < 2; i++) ts.push_back(std::thread([i]() { x[i].store(1, std::memory_order_relaxed); r[i] = x[!i].load(std::memory_order_relaxed); })); for (auto& t : ts) t.join(); assert(r[0] || r[1]); }
`, `X86 Mine
(* 0:EAX is r_0, 1:EAX is r_1 *)
{ x_0=0; x_1=0; }
 P0            | P1            ;
 MOV [x_0],$1  | MOV [x_1],$1  ;
 MOV EAX,[x_1] | MOV EAX,[x_0] ;
~exists (0:EAX=0 /\\ 1:EAX=0)
`],
  ["a lambda that refers to a number", `std::atomic<int> x[2]; int r[2];
int main() { std::vector<std::thread> ts; for (int i = 0; i < 2; i++) ts.push_back(std::thread([&]() { x[1].store(i, std::memory_order_relaxed); })); for (auto& t : ts) t.join(); assert(r[0] || r[1]); }
`, "`x[1].store(i, std::memory_order_relaxed)`: `i` is not declared"],
  ["33 instructions", `atomic_int x;\nvoid P0() { ${"x++; ".repeat(17)}}\n// lw: exists (x=1)\n`, "a thread has too many statements"],
  ["nine locations", `atomic_int ${NINE.join(", ")};\nvoid P0() { ${NINE.map((it) => `${it} = 1;`).join(" ")} }\n// lw: exists (a=1)\n`,
    "there are more than 8 locations"],
];

const BEGIN = "This begins as a program or a test in C does.";
const BEGIN_OF_CPP = "This begins as a program in C++ does.";
const BUTTON =
  " The button makes an x86 test of it: each access as gcc and clang compile it, in the order of the program. That is not proved, and a compiler may " +
  "also reorder or merge relaxed and plain accesses.";
const GUESS = " The question is a guess: change it to yours.";
const FIRST = "The threads are functions in C: the first word is `C` then.";
const WOULD = "The page can't make a test of this program in C";
const WOULD_IN_CPP = WOULD.replace("in C", "in C++");
const IS_READ = "The page reads C, C++, Rust and x86 assembly.";
const IN_RUST = `This begins as a program in Rust does. ${IS_READ}`;
// Programs in other languages, with the names of these; and how programs in C++ may begin.
const OTHERS = [
  ["Java", "public class A { volatile int x; }\n"], ["Java", "// One.\nimport java.util.*;\n"], ["Java", "class A extends Thread {\n"], ["Go", "package main\n"],
  ["Go", "package main\n\nimport \"sync/atomic\"\n"], ["Go", "func main() {\n"],
  ["C#", "using System.Threading;\nclass A { static volatile int x; }\n"], ["C#", "namespace A.B;\nclass C { }\n"],
  ["Python", "import threading\n\nx = 0\n"], ["Python", "# One.\nfrom threading import Thread\n"], ["Python", "def one(a) -> None:\n    pass\n"],
];
const BEGINS = ["pthread_t a, b;", "mtx_t m;", "thrd_t t;", "LONG a;", "volatile LONG a;", "CRITICAL_SECTION a;", "enum { A, B };", "enum State { A };", "class A { std::atomic<int> a; };", "using namespace std;", "namespace a {}", "alignas(8) int x;", "constexpr int N = 1;", "#pragma once", "bool a;", "extern \"C\" {}", "[[maybe_unused]] int a;"];
const LOCK = PROGRAM.replace("int r0 = y;", "while (y.exchange(d)) ;");
const OF_LOCKS = `\`while (y.exchange(d))\`${OF_LOOPS}`;
const WAITS = " A loop that waits is one pass here: the list hides the states in which it has not ended, and the question leaves them out.";
const LOCKS =
  " A mutex is a word that `XCHG` takes and gives back: the list hides the states in which a thread did not get it, and the question leaves them out.";
const makePlain = (names) => ` ${names} plain: each access is one \`MOV\` here, which a compiler need not keep if threads race on `;
// A text, its words, how the words on the command end, and the place if the text is not rewritten, as its row and its column.
const HINTS = [
  ["a program", `/* Mine. */\n${PROGRAM}`, `${BEGIN}${BUTTON}`, "as `// lw: exists (0:r0=0)` does."],
  ["C++", `std::atomic<int> x;\n${PROGRAM.split("\n").slice(1).join("\n").replace(/y/g, "x")}`, `${BEGIN_OF_CPP}${BUTTON}`, "does."],
  ["no question", PROGRAM.split("//")[0], `${BEGIN}${BUTTON}${GUESS}`, "does."],
  ["no question and no load", "atomic_int x;\nvoid P0() { x++; }\n",
    `${BEGIN}${BUTTON} The question \`true\` asks nothing: look at the list of states, and ask what must not happen.`, "does."],
  ["a test of herd", WHOLE[0][1], `${BEGIN}${BUTTON}`,
    "`python3 tools/from_c.py --show SB+a.c` prints a test for this page. (In place of `READ_ONCE(*x)` it takes " +
    "`atomic_load_explicit(x, memory_order_relaxed)`.)"],
  ["a test of herd without its first lines", BARE, `${BEGIN}${BUTTON}`, "Its first lines are `C mine` and `{}` then."],
  ["a test of herd without its first line", `{ x=1; }\n${BARE}`, `${BEGIN}${BUTTON}`, "Its first line is `C mine` then."],
  ["the first word X86", WHOLE[2][1], `${FIRST}${BUTTON}`,
    "`python3 tools/from_c.py --show SB.cc` prints a test for this page. Its first word is `C` then."],
  ["a loop", LOCK, `${WOULD} because of ${OF_LOCKS}.`, "does.", [2, 24]],
  ["a loop after blank lines and a comment", `\n\n/* One. */ // Two.\n${LOCK}`, `${WOULD} because of ${OF_LOCKS}.`, "does.", [5, 24]],
  ["a loop in C++", LOCK.replace("atomic_int x", "std::atomic<int> x"), `${WOULD_IN_CPP} because of ${OF_LOCKS}.`, "does.", [2, 24]],
  ["a loop in a test that begins with X86", WHOLE[2][1].replace("int r0 = *x;", "while (x->exchange(2) == 1) ;"),
    `${WOULD_IN_CPP} because of \`while (x->exchange(2) == 1)\`${OF_LOOPS}.`, "Its first word is `C` then.", [4, 61]],
  ["a mutex", "std::mutex m; int n;\nvoid P0() { m.lock(); n++; m.unlock(); }\nvoid P1() { m.lock(); n++; m.unlock(); }\n",
    `${BEGIN_OF_CPP}${BUTTON}${makePlain("`n` is")}it.${LOCKS}${GUESS}`, "does."],
  ["a mutex that is tried", "std::mutex m; int n;\nvoid P0() { if (m.try_lock()) { n++; m.unlock(); } }\nvoid P1() { if (m.try_lock()) { n++; m.unlock(); } }\n",
    `${BEGIN_OF_CPP}${BUTTON}${makePlain("`n` is")}it. A mutex is a word here, which \`XCHG\` takes if it is free.${GUESS}`, "does."],
  ["a semaphore at the begin", "sem_t s;\nint x;\nvoid P0() { sem_wait(&s); x = 1; }\n",
    `${WOULD} because of \`sem_t s;\`: the page follows semaphores that are 0 or 1 at all times, or begin and end rounds of threads${OR_WAITS}.`, "does.", [1, 1]],
  ["a lock that no thread uses", "std::atomic<int> held;\nvoid lock() { while (held.exchange(1)) ; }\nvoid unlock() { held = 0; }\n",
    `${BEGIN_OF_CPP}${BUTTON} No thread uses the lock: here each of two threads takes it, adds to \`counter\`, and gives it back.${makePlain("`counter` is")}it.${WAITS}${GUESS}`, "does."],
  ["words of 64 bits", "long x;\nstd::atomic<uint64_t> y{1};\nvoid P0() { y++; long r = y; }\nvoid P1() { y -= 2UL; }\nexists (0:r=1)\n",
    `${BEGIN_OF_CPP}${BUTTON} Words of 64 bits are words of 32 bits here, which no sum of this program exceeds.`, "does."],
  ["a loop of runs", `std::atomic<int> x; int r;\nint main() { int n = 0; while (1) { x = 0; std::thread a([&] { x = 1; }), b([&] { r = x; }); a.join(); b.join(); if (!r) n++; } }\n`,
    `${BEGIN_OF_CPP}${BUTTON} The loop in \`main\` is one run here, which is enough, since the page lists all final states.`, "does."],
  ["a loop that waits, and a plain variable", LOOP.replace("x = 1;", "d = 1;").replace("y = 1;", "y = d;"),
    `${BEGIN}${BUTTON}${makePlain("`d` is")}it.${WAITS}${GUESS}`, "does."],
  ["three plain variables", "int x, y, z;\nvoid P0() { x = 1; y = 1; z = 1; }\nvoid P1() { x = 2; y = 2; z = 2; }\n// lw: exists (x=1)\n",
    `${BEGIN}${BUTTON}${makePlain("`x`, `y` and `z` are")}them.`, "does."],
  ["a question of a register that nothing sets", PROGRAM.replace("1:r0", "1:r1"), `${WOULD} because of \`1:r1\`${UNSET}.`, "does.", [4, 26]],
  ["no thread", "C SB\n{}\n", `${WOULD} because of \`C SB {}\`: threads are functions \`P0\`, \`P1\` and so on.`, "page.", [1, 1]],
  ["nine locations", WHOLE.at(-1)[1], `${WOULD}, since lw refuses it: there are more than 8 locations.`, "does.", null],
  ["Rust", "use std::sync::atomic::*;\n", IN_RUST, "does.", null],
];
// Slips in programs: the program, how the words end, the place of the slip, and what the button is for, with the text that it makes, if there is one.
const SLIPPED = "std::atomic<int> x, data; std::mutex m;\nvoid P0() {\n  x.store(1, std::memory_order_release);\n  int r0 = data.load();\n}\nvoid P1() { data = 1; }\n";
const meanName = (line, word, name) => `line ${line} has \`${word}\`. Did you mean \`${name}\`?`;
const SLIPS = [
  ["x.store", "x.stroe", meanName(3, "stroe", "store"), [3, 5], "Change it to store"],
  ["data.load", "data.laod", meanName(4, "laod", "load"), [4, 17], "Change it to load"],
  ["x.store", "x.Store", meanName(3, "Store", "store"), [3, 5], "Change it to store"],
  ["memory_order_release", "memory_order_relesae", meanName(3, "memory_order_relesae", "memory_order_release"), [3, 19], "Change it to memory_order_release"],
  ["memory_order_release", "memory_order_relased", "line 3 has `memory_order_relased`. Did you mean `memory_order_relaxed` or `memory_order_release`?", [3, 19]],
  ["memory_order_release", "memory_order::relese", meanName(3, "relese", "release"), [3, 33], "Change it to release"],
  ["std::atomic", "std::atomc", meanName(1, "atomc", "atomic"), [1, 6], "Change it to atomic"],
  ["void P0", "viod P0", null],
  ["std::mutex m;\nvoid P0() {\n", "int longs; float q;\nvoid P0() {\n  longs = x;\n  x = longs;\n", null],
  ["int r0 = data.load();", "fork();", null],
  ["int r0", "whlie (x) ; int r0", meanName(4, "whlie", "while"), [4, 3], "Change it to while"],
  ["data = 1", "dtaa = 1", meanName(6, "dtaa", "data"), [6, 13], "Change it to data"],
  ["data = 1", "r3 = 1", null],
  ["data = 1", "pthread_mutex_lokc(&m); data = 1", meanName(6, "pthread_mutex_lokc", "pthread_mutex_lock"), [6, 13], "Change it to pthread_mutex_lock"],
  ["data = 1", "data.fetch_and(1)", null],
  // The kernel's functions return 1 if they get the lock, and C's 0.
  ["data = 1", "if (mutex_trylock(&m)) data = 1", null],
  ["data = 1", "if (down_trylock(&m) == 0) data = 1", null],
  ["data = 1;", "if (mtx_tryloc(&m) == 0) { data = 1; mtx_unlock(&m); }", meanName(6, "mtx_tryloc", "mtx_trylock"), [6, 17], "Change it to mtx_trylock"],
  ["data = 1", "_mm_xfence(); data = 1", null],
  ["release);", "release)", "a `;` is missing at the end of line 3.", [3, 40], "Put in the ;"],
  ["data = 1;", "data = 1", "a `;` is missing in line 6.", [6, 21], "Put in the ;"],
  ["load();\n}", "load();", "a `}` is missing before line 5.", [5, 1], "Put in the }", "load();\n}"],
  ["data = 1; }", "data = 1;", "a `}` is missing at the end.", [7, 1], "Put in the }", "data = 1;\n}"],
  ["data.load()", "data.load(", "a `)` is missing in line 4.", [4, 22], "Put in the )"],
  ["x, data;", "x{0}, data{0}\nint n;", "a `;` is missing at the end of line 1.", [1, 31], "Put in the ;", "x{0}, data{0};\nint n;"],
  // With two slips the name is shown, and with two marks nothing is put in.
  ["x.store(1, std::memory_order_release);", "x.store(1, std::memory_order_relased)", "line 3 has `memory_order_relased`. Did you mean `memory_order_relaxed` or `memory_order_release`?", [3, 19]],
  ["load();\n}\nvoid P1() { data = 1; }", "load()\n\nvoid P1() { data = 1; }", null],
  ["data = 1;", "if (x == 1 { data = 1; }", "a `)` is missing in line 6.", [6, 23], "Put in the )", "if (x == 1) { data = 1; }"],
];

/** Compares the hints on slips, and the programs that their buttons make. */
function compareSlips(page, compare) {
  for (const [part, wrong, words, place, title, right = part] of SLIPS) {
    const text = SLIPPED.replace(part, () => wrong);
    const { change, at, ...hint } = findHint(page, text);
    const isFound = hint.words.startsWith(`${WOULD_IN_CPP}: `) && / line \d| at the end\./.test(hint.words);
    if (words === null) compare(`${wrong} is no slip`, [false, true], [isFound, !change || change.title === "Rewrite it as an x86 test"]);
    else compare(`the slip ${wrong}`, [`${WOULD_IN_CPP}: ${words}`, place, title], [hint.words, [at.row, at.column], change?.title]);
    const mended = title && text.slice(0, change.begin) + change.text + text.slice(change.end);
    const expected = SLIPPED.replace(part, () => (title?.startsWith("Change") ? replaceWord(wrong, words) : right));
    if (title) compare(`the slip ${wrong} is put right`, expected.trimEnd(), mended.trimEnd());
  }
}

/** Returns code with the second one of the names that some words have in place of the first one. */
function replaceWord(code, words) {
  const [first, second] = [...words.matchAll(/`(\w+)`/g)].map(([, it]) => it);
  return code.replace(first, second);
}

/**
 * Compares what the page makes of programs in C, by its own modules.
 * @param {function(string, any, any)} compare
 */
export async function compareCPrograms(compare) {
  comparePrograms(await loadModules(PARTS), compare);
}

if (process.argv[1] === fileURLToPath(import.meta.url)) {
  const counts = [0, 0];
  const compare = (what, expected, found) => {
    const isSame = isDeepStrictEqual(expected, found);
    counts[Number(!isSame)] += 1;
    if (!isSame) console.log(`${what}\n  wanted: ${JSON.stringify(expected)}\n  found:  ${JSON.stringify(found)}`);
  };
  if (process.argv[2] === "--rewrite") {
    const { c_program } = await loadModules(PARTS);
    console.log(JSON.stringify(JSON.parse(fs.readFileSync(0, "utf8")).map(c_program.rewriteProgram)));
  } else {
    await compareCPrograms(compare);
    console.log(`${counts[0]} passed, ${counts[1]} failed`);
    process.exitCode = counts[1] ? 1 : 0;
  }
}
