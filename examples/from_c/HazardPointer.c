/* A hazard pointer: a reader announces the node, looks whether it is still there, and then reads it; a reclaimer takes the node away, looks at
   the announcements, and uses its memory again only if nobody announces it.
   Question: does the reader read memory that is used again? A release store of the announcement is not enough: it may wait in the store
   buffer while the reader looks again. */
#include <stdatomic.h>

struct node { int value; };
struct node a = {1}, b = {2};
_Atomic(struct node *) top = &a;
_Atomic(struct node *) hazard;

void P0(void) {
    int got = 9;
    struct node *it = atomic_load_explicit(&top, memory_order_relaxed);
    atomic_store_explicit(&hazard, it, memory_order_seq_cst);
    if (atomic_load_explicit(&top, memory_order_seq_cst) == it) got = it->value;
}

void P1(void) {
    struct node *old = atomic_load_explicit(&top, memory_order_relaxed);
    atomic_store_explicit(&top, &b, memory_order_seq_cst);
    if (atomic_load_explicit(&hazard, memory_order_seq_cst) != old) old->value = 0;
}

// lw: ~exists (0:got=0)
