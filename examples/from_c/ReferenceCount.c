/* A counter of references: each thread reads the object and gives its reference back, and the last one destroys the object.
   Question: does a thread read an object that is destroyed, or is it destroyed twice, or never? */
#include <stdatomic.h>

atomic_int count = 2;
int object = 1;

static inline int drop(void) {
    if (atomic_fetch_sub_explicit(&count, 1, memory_order_release) != 1) return 0;
    atomic_thread_fence(memory_order_acquire);
    object = 0;
    return 1;
}

void P0(void) { int got = object; int last = drop(); }
void P1(void) { int got = object; int last = drop(); }

// lw: ~exists (0:got=0 \/ 1:got=0 \/ 0:last=1 /\ 1:last=1 \/ 0:last=0 /\ 1:last=0)
