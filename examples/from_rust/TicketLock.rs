// A ticket lock: threads draw numbers and enter in their order.
// Question: are both threads in their critical sections at once, so that an increment is lost?
use std::sync::atomic::{AtomicU32, Ordering::{Acquire, Relaxed, Release}};

static NEXT: AtomicU32 = AtomicU32::new(0);
static OWNER: AtomicU32 = AtomicU32::new(0);
#[no_mangle]
static mut n: u32 = 0;

fn take() {
    let ticket = NEXT.fetch_add(1, Relaxed);
    while OWNER.load(Acquire) != ticket {
        std::hint::spin_loop();
    }
}

fn give() {
    OWNER.store(OWNER.load(Relaxed).wrapping_add(1), Release);
}

#[no_mangle]
pub fn P0() {
    take();
    unsafe { n += 1 }
    give();
}

#[no_mangle]
pub fn P1() {
    take();
    unsafe { n += 1 }
    give();
}

// lw: ~exists (n=1)
