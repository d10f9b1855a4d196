// A hazard pointer: a reader announces the node, looks whether it is still there, and then reads it; a reclaimer takes the node away, looks at
// the announcements, and uses its memory again only if nobody announces it.
// Question: does the reader read memory that is used again? A Release store of the announcement is not enough: it may wait in the store buffer
// while the reader looks again.
use std::ptr::null_mut;
use std::sync::atomic::{AtomicPtr, Ordering::{Relaxed, SeqCst}};

static mut A: u32 = 1;
static mut B: u32 = 2;
static TOP: AtomicPtr<u32> = AtomicPtr::new(&raw mut A);
static HAZARD: AtomicPtr<u32> = AtomicPtr::new(null_mut());

#[no_mangle]
pub fn P0() {
    let mut got = 9;
    let it = TOP.load(Relaxed);
    HAZARD.store(it, SeqCst);
    if TOP.load(SeqCst) == it {
        got = unsafe { *it };
    }
}

#[no_mangle]
pub fn P1() {
    let old = TOP.load(Relaxed);
    TOP.store(&raw mut B, SeqCst);
    if HAZARD.load(SeqCst) != old {
        unsafe { *old = 0 }
    }
}

// lw: ~exists (0:got=0)
