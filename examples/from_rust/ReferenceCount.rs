// A counter of references: each thread reads the object and gives its reference back, and the last one destroys the object.
// Question: does a thread read an object that is destroyed, or is it destroyed twice, or never?
use std::sync::atomic::{fence, AtomicUsize, Ordering::{Acquire, Release}};

static COUNT: AtomicUsize = AtomicUsize::new(2);
static mut OBJECT: u32 = 1;

fn release() -> bool {
    if COUNT.fetch_sub(1, Release) != 1 {
        return false;
    }
    fence(Acquire);
    unsafe { OBJECT = 0 }
    true
}

#[no_mangle]
pub fn P0() {
    let got = unsafe { OBJECT };
    let last = release();
}

#[no_mangle]
pub fn P1() {
    let got = unsafe { OBJECT };
    let last = release();
}

// lw: ~exists (0:got=0 \/ 1:got=0 \/ 0:last=1 /\ 1:last=1 \/ 0:last=0 /\ 1:last=0)
