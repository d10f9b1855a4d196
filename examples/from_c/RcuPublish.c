/* A publication as in RCU: a writer fills a new version and publishes its address, a reader follows the address that it finds.
   Question: does a reader see parts of a version that are not written yet? At -O2 compilers store both fields at once, in 8 bytes, so the
   version says that it is aligned. */
#include <stdatomic.h>

struct config { _Alignas(8) int a; int b; };
struct config one = {1, 1}, two;
_Atomic(struct config *) now = &one;

void P0(void) {
    two.a = 2;
    two.b = 2;
    atomic_store_explicit(&now, &two, memory_order_release);
}

void P1(void) {
    struct config *it = atomic_load_explicit(&now, memory_order_acquire);
    int a = it->a, b = it->b;
}

// lw: ~exists (~(1:a=1 /\ 1:b=1) /\ ~(1:a=2 /\ 1:b=2))
