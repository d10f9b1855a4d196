/* A ring for one producer and one consumer.
   Question: does the consumer get the items out of their order, twice, or before they are written? */
#include <stdatomic.h>

#define SIZE 2
int ring[SIZE];
atomic_uint head, tail;

static inline int put(int value) {
    unsigned at = atomic_load_explicit(&tail, memory_order_relaxed);
    if (at - atomic_load_explicit(&head, memory_order_acquire) == SIZE) return 0;
    ring[at % SIZE] = value;
    atomic_store_explicit(&tail, at + 1, memory_order_release);
    return 1;
}

static inline int get(void) {
    unsigned at = atomic_load_explicit(&head, memory_order_relaxed);
    if (atomic_load_explicit(&tail, memory_order_acquire) == at) return 0;
    int value = ring[at % SIZE];
    atomic_store_explicit(&head, at + 1, memory_order_release);
    return value;
}

void P0(void) { put(1); put(2); }
void P1(void) { int first = get(); int second = get(); }

// lw: ~exists (1:first=2 \/ 1:first=0 /\ 1:second=2 \/ 1:first=1 /\ 1:second=1)
