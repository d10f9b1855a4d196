// What is initialised once: the first thread that comes writes the value, and another one that finds it busy goes away with 7.
// Question: does a thread read the value before it is written?
use std::sync::atomic::{AtomicU8, Ordering::{AcqRel, Acquire, Release}};

static STATE: AtomicU8 = AtomicU8::new(0);
static mut VALUE: u32 = 0;

fn get() -> u32 {
    if STATE.load(Acquire) != 2 {
        if STATE.compare_exchange(0, 1, AcqRel, Acquire).is_err() {
            return 7;
        }
        unsafe { VALUE = 5 }
        STATE.store(2, Release);
    }
    unsafe { VALUE }
}

#[no_mangle]
pub fn P0() {
    let got = get();
}

#[no_mangle]
pub fn P1() {
    let got = get();
}

// lw: ~exists (0:got=0 \/ 1:got=0)
