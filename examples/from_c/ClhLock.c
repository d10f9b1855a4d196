/* The CLH lock: each thread waits on the node of the one before it in the queue.
   Question: are both threads in their critical sections at once, so that an increment is lost? */
#include <stdatomic.h>

struct node { atomic_int busy; };
struct node dummy, a, b;
_Atomic(struct node *) tail = &dummy;
int n;

static inline void take(struct node *me) {
    atomic_store_explicit(&me->busy, 1, memory_order_relaxed);
    struct node *before = atomic_exchange_explicit(&tail, me, memory_order_acq_rel);
    while (atomic_load_explicit(&before->busy, memory_order_acquire));
}

static inline void give(struct node *me) { atomic_store_explicit(&me->busy, 0, memory_order_release); }

void P0(void) { take(&a); n++; give(&a); }
void P1(void) { take(&b); n++; give(&b); }

// lw: ~exists (n=1)
