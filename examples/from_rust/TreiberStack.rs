// Treiber's stack: a pusher links its node and swings the top to it by compare-and-swap.
// Question: is a node lost when two threads push at once?
use std::ptr::null_mut;
use std::sync::atomic::{AtomicPtr, Ordering::{Acquire, Release}};

pub struct Node {
    next: *mut Node,
}
static mut A: Node = Node { next: null_mut() };
static mut B: Node = Node { next: null_mut() };
static TOP: AtomicPtr<Node> = AtomicPtr::new(null_mut());

unsafe fn push(it: *mut Node) {
    let mut old = TOP.load(Acquire);
    loop {
        (*it).next = old;
        match TOP.compare_exchange_weak(old, it, Release, Acquire) {
            Ok(_) => return,
            Err(now) => old = now,
        }
    }
}

#[no_mangle]
pub fn P0() {
    unsafe { push(&raw mut A) }
}

#[no_mangle]
pub fn P1() {
    unsafe { push(&raw mut B) }
}

// lw: ~exists (A=0 /\ B=0)
