/* A writer writes data and then a flag, both relaxed. Question: does a reader see the flag and miss the data? C11 allows it. x86-TSO does not,
   and neither gcc nor clang reorders these stores today. */
#include <stdatomic.h>

atomic_int data, flag;

void P0(void) {
    atomic_store_explicit(&data, 1, memory_order_relaxed);
    atomic_store_explicit(&flag, 1, memory_order_relaxed);
}

void P1(void) {
    int sees_flag = atomic_load_explicit(&flag, memory_order_relaxed);
    int sees_data = atomic_load_explicit(&data, memory_order_relaxed);
}

// lw: exists (1:sees_flag=1 /\ 1:sees_data=0)
