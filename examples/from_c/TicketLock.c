/* A ticket lock: threads draw numbers and enter in their order.
   Question: are both threads in their critical sections at once, so that an increment is lost? */
#include <stdatomic.h>

atomic_uint next, owner;
int n;

static inline void take(void) {
    unsigned ticket = atomic_fetch_add_explicit(&next, 1, memory_order_relaxed);
    while (atomic_load_explicit(&owner, memory_order_acquire) != ticket) __builtin_ia32_pause();
}

static inline void give(void) {
    unsigned mine = atomic_load_explicit(&owner, memory_order_relaxed);
    atomic_store_explicit(&owner, mine + 1, memory_order_release);
}

void P0(void) { take(); n++; give(); }
void P1(void) { take(); n++; give(); }

// lw: ~exists (n=1)
