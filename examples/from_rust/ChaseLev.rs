// Chase and Lev's deque with two items: its owner takes one at the bottom while a thief steals two at the top.
// Question: do both get the last item? The owner compares and swaps only for what it takes for the last one. A fence between its store of the
// bottom and its load of the top keeps it from taking an old top; with AcqRel in place of SeqCst that is no instruction on x86.
use std::sync::atomic::{fence, AtomicI32, Ordering::{Acquire, Relaxed, SeqCst}};

static TOP: AtomicI32 = AtomicI32::new(0);
static BOTTOM: AtomicI32 = AtomicI32::new(2);
static ITEMS: [AtomicI32; 2] = [AtomicI32::new(1), AtomicI32::new(2)];

fn take() -> i32 {
    let b = BOTTOM.load(Relaxed) - 1;
    BOTTOM.store(b, Relaxed);
    fence(SeqCst);
    let t = TOP.load(Relaxed);
    if t > b {
        BOTTOM.store(b + 1, Relaxed);
        return 0;
    }
    let mut item = ITEMS[(b & 1) as usize].load(Relaxed);
    if t == b {
        if TOP.compare_exchange(t, t + 1, SeqCst, Relaxed).is_err() {
            item = 0;
        }
        BOTTOM.store(b + 1, Relaxed);
    }
    item
}

fn steal() -> i32 {
    let t = TOP.load(Acquire);
    fence(SeqCst);
    if t >= BOTTOM.load(Acquire) {
        return 0;
    }
    let item = ITEMS[(t & 1) as usize].load(Relaxed);
    if TOP.compare_exchange(t, t + 1, SeqCst, Relaxed).is_err() {
        return 0;
    }
    item
}

#[no_mangle]
pub fn P0() {
    let taken = take();
}

#[no_mangle]
pub fn P1() {
    let first = steal();
    let second = steal();
}

// lw: ~exists (0:taken=2 /\ 1:second=2)
