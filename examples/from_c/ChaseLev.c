/* Chase and Lev's deque with two items: its owner takes one at the bottom while a thief steals two at the top.
   Question: do both get the last item? The owner compares and swaps only for what it takes for the last one. A fence between its store of the
   bottom and its load of the top keeps it from taking an old top; with acq_rel in place of seq_cst that is no instruction on x86. */
#include <stdatomic.h>

atomic_int top, bottom = 2;
atomic_int items[2] = {1, 2};

static inline int take(void) {
    int b = atomic_load_explicit(&bottom, memory_order_relaxed) - 1, item = 0;
    atomic_store_explicit(&bottom, b, memory_order_relaxed);
    atomic_thread_fence(memory_order_seq_cst);
    int t = atomic_load_explicit(&top, memory_order_relaxed);
    if (t <= b) {
        item = atomic_load_explicit(&items[b & 1], memory_order_relaxed);
        if (t == b) {
            if (!atomic_compare_exchange_strong_explicit(&top, &t, t + 1, memory_order_seq_cst, memory_order_relaxed)) item = 0;
            atomic_store_explicit(&bottom, b + 1, memory_order_relaxed);
        }
    } else {
        atomic_store_explicit(&bottom, b + 1, memory_order_relaxed);
    }
    return item;
}

static inline int steal(void) {
    int t = atomic_load_explicit(&top, memory_order_acquire), item = 0;
    atomic_thread_fence(memory_order_seq_cst);
    int b = atomic_load_explicit(&bottom, memory_order_acquire);
    if (t < b) {
        item = atomic_load_explicit(&items[t & 1], memory_order_relaxed);
        if (!atomic_compare_exchange_strong_explicit(&top, &t, t + 1, memory_order_seq_cst, memory_order_relaxed)) return 0;
    }
    return item;
}

void P0(void) { int taken = take(); }
void P1(void) { int first = steal(); int second = steal(); }

// lw: ~exists (0:taken=2 /\ 1:second=2)
