/* Treiber's stack: a pusher links its node and swings the top to it by compare-and-swap, a popper swings the top to the next node.
   Question: does a popper that gets the node see what was written into it before the push? */
#include <stdatomic.h>
#include <stddef.h>

struct node { struct node *next; int value; };
struct node n;
_Atomic(struct node *) top;

static void push(struct node *it) {
    struct node *old = atomic_load_explicit(&top, memory_order_relaxed);
    do it->next = old;
    while (!atomic_compare_exchange_weak_explicit(&top, &old, it, memory_order_release, memory_order_relaxed));
}

static struct node *pop(void) {
    struct node *old = atomic_load_explicit(&top, memory_order_acquire);
    while (old && !atomic_compare_exchange_weak_explicit(&top, &old, old->next, memory_order_acquire, memory_order_acquire));
    return old;
}

void P0(void) { n.value = 1; push(&n); }
void P1(void) { int got = 9; struct node *it = pop(); if (it) got = it->value; }

// lw: ~exists (1:got=0)
