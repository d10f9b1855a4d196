/* An event count: a sleeper announces itself, looks once more for work and sleeps; a waker stores its work and wakes whom it sees.
   Question: does the sleeper sleep while there is work, and nobody wakes it? A release store of the work is not enough: it may wait in the
   store buffer while the waker looks for sleepers. */
#include <stdatomic.h>

atomic_int work, sleepers;

void P0(void) {
    int sleeps = 0;
    atomic_fetch_add_explicit(&sleepers, 1, memory_order_seq_cst);
    if (!atomic_load_explicit(&work, memory_order_seq_cst)) sleeps = 1;
}

void P1(void) {
    int wakes = 0;
    atomic_store_explicit(&work, 1, memory_order_seq_cst);
    if (atomic_load_explicit(&sleepers, memory_order_seq_cst)) wakes = 1;
}

// lw: ~exists (0:sleeps=1 /\ 1:wakes=0)
