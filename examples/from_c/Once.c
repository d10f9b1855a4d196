/* What is initialised once: the first thread that comes writes the value, and others wait until it is there.
   Question: does a thread read the value before it is written, or is it written twice? */
#include <stdatomic.h>

enum { NEW, BUSY, DONE };
atomic_int state;
int value, writers;

static inline int get(void) {
    if (atomic_load_explicit(&state, memory_order_acquire) != DONE) {
        int expected = NEW;
        if (atomic_compare_exchange_strong_explicit(&state, &expected, BUSY, memory_order_acquire, memory_order_acquire)) {
            value = 5;
            writers++;
            atomic_store_explicit(&state, DONE, memory_order_release);
        } else {
            while (atomic_load_explicit(&state, memory_order_acquire) != DONE);
        }
    }
    return value;
}

void P0(void) { int got = get(); }
void P1(void) { int got = get(); }

// lw: ~exists (0:got=0 \/ 1:got=0 \/ writers=2)
