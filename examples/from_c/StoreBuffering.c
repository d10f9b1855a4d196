/* Two threads each store and then load what the other stored. Question: do both loads miss both stores? */
#include <stdatomic.h>

atomic_int x, y;

void P0(void) { atomic_store(&x, 1); int r0 = atomic_load(&y); }
void P1(void) { atomic_store(&y, 1); int r0 = atomic_load(&x); }

// lw: exists (0:r0=0 /\ 1:r0=0)
