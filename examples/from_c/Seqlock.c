/* A sequence lock: the writer makes a counter odd, writes, and makes it even; a reader that finds the same even number before and after its
   reads keeps them.
   Question: does a reader keep values of two different writes? */
#include <stdatomic.h>

atomic_uint counter;
atomic_int x, y;

void P0(void) {
    unsigned it = atomic_load_explicit(&counter, memory_order_relaxed);
    atomic_store_explicit(&counter, it + 1, memory_order_relaxed);
    atomic_thread_fence(memory_order_release);
    atomic_store_explicit(&x, 1, memory_order_relaxed);
    atomic_store_explicit(&y, 1, memory_order_relaxed);
    atomic_store_explicit(&counter, it + 2, memory_order_release);
}

void P1(void) {
    unsigned before = atomic_load_explicit(&counter, memory_order_acquire);
    int a = atomic_load_explicit(&x, memory_order_relaxed), b = atomic_load_explicit(&y, memory_order_relaxed);
    atomic_thread_fence(memory_order_acquire);
    int keeps = !(before & 1) && atomic_load_explicit(&counter, memory_order_relaxed) == before;
}

// lw: ~exists (1:keeps=1 /\ ~(1:a=0 /\ 1:b=0) /\ ~(1:a=1 /\ 1:b=1))
