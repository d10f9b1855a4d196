// A ring for one producer and one consumer.
// Question: does the consumer get the items out of their order, twice, or before they are written?
use std::cell::UnsafeCell;
use std::sync::atomic::{AtomicUsize, Ordering::{Acquire, Relaxed, Release}};

struct Ring {
    head: AtomicUsize,
    tail: AtomicUsize,
    slots: [UnsafeCell<u32>; 2],
}
unsafe impl Sync for Ring {}
static RING: Ring = Ring { head: AtomicUsize::new(0), tail: AtomicUsize::new(0), slots: [UnsafeCell::new(0), UnsafeCell::new(0)] };

fn put(value: u32) -> bool {
    let at = RING.tail.load(Relaxed);
    if at.wrapping_sub(RING.head.load(Acquire)) == 2 {
        return false;
    }
    unsafe { *RING.slots[at % 2].get() = value }
    RING.tail.store(at.wrapping_add(1), Release);
    true
}

fn get() -> Option<u32> {
    let at = RING.head.load(Relaxed);
    if RING.tail.load(Acquire) == at {
        return None;
    }
    let value = unsafe { *RING.slots[at % 2].get() };
    RING.head.store(at.wrapping_add(1), Release);
    Some(value)
}

#[no_mangle]
pub fn P0() {
    put(1);
    put(2);
}

#[no_mangle]
pub fn P1() {
    let first = get().unwrap_or(0);
    let second = get().unwrap_or(0);
}

// lw: ~exists (1:first=2 \/ 1:first=0 /\ 1:second=2 \/ 1:first=1 /\ 1:second=1)
