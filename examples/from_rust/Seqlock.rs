// A sequence lock: the writer makes a counter odd, writes, and makes it even; a reader that finds the same even number before and after its
// reads keeps them.
// Question: does a reader keep values of two different writes?
use std::sync::atomic::{fence, AtomicU32, Ordering::{Acquire, Relaxed, Release}};

static COUNTER: AtomicU32 = AtomicU32::new(0);
static X: AtomicU32 = AtomicU32::new(0);
static Y: AtomicU32 = AtomicU32::new(0);

#[no_mangle]
pub fn P0() {
    let it = COUNTER.load(Relaxed);
    COUNTER.store(it + 1, Relaxed);
    fence(Release);
    X.store(1, Relaxed);
    Y.store(1, Relaxed);
    COUNTER.store(it + 2, Release);
}

#[no_mangle]
pub fn P1() {
    let before = COUNTER.load(Acquire);
    let a = X.load(Relaxed);
    let b = Y.load(Relaxed);
    fence(Acquire);
    let keeps = before & 1 == 0 && COUNTER.load(Relaxed) == before;
}

// lw: ~exists (1:keeps=1 /\ ~(1:a=0 /\ 1:b=0) /\ ~(1:a=1 /\ 1:b=1))
