/* The MCS lock: each thread waits on its own node, which the one before it in the queue sets free.
   Question: are both threads in their critical sections at once, so that an increment is lost? */
#include <stdatomic.h>
#include <stddef.h>

struct node { _Atomic(struct node *) next; atomic_int waits; };
struct node a, b;
_Atomic(struct node *) tail;
int n;

static inline void take(struct node *me) {
    atomic_store_explicit(&me->next, NULL, memory_order_relaxed);
    struct node *before = atomic_exchange_explicit(&tail, me, memory_order_acq_rel);
    if (before) {
        atomic_store_explicit(&me->waits, 1, memory_order_relaxed);
        atomic_store_explicit(&before->next, me, memory_order_release);
        while (atomic_load_explicit(&me->waits, memory_order_acquire));
    }
}

static inline void give(struct node *me) {
    struct node *after = atomic_load_explicit(&me->next, memory_order_acquire);
    if (!after) {
        struct node *last = me;
        if (atomic_compare_exchange_strong_explicit(&tail, &last, NULL, memory_order_acq_rel, memory_order_relaxed)) return;
        while (!(after = atomic_load_explicit(&me->next, memory_order_acquire)));
    }
    atomic_store_explicit(&after->waits, 0, memory_order_release);
}

void P0(void) { take(&a); n++; give(&a); }
void P1(void) { take(&b); n++; give(&b); }

// lw: ~exists (n=1)
