// The MCS lock: each thread waits on its own node, which the one before it in the queue sets free.
// Question: are both threads in their critical sections at once, so that an increment is lost?
use std::ptr::null_mut;
use std::sync::atomic::{AtomicBool, AtomicPtr, Ordering::{AcqRel, Acquire, Relaxed, Release}};

pub struct Node {
    next: AtomicPtr<Node>,
    waits: AtomicBool,
}
static A: Node = Node { next: AtomicPtr::new(null_mut()), waits: AtomicBool::new(false) };
static B: Node = Node { next: AtomicPtr::new(null_mut()), waits: AtomicBool::new(false) };
static TAIL: AtomicPtr<Node> = AtomicPtr::new(null_mut());
#[no_mangle]
static mut n: u32 = 0;

fn take(me: &Node) {
    me.next.store(null_mut(), Relaxed);
    let before = TAIL.swap(me as *const Node as *mut Node, AcqRel);
    if !before.is_null() {
        me.waits.store(true, Relaxed);
        unsafe { (*before).next.store(me as *const Node as *mut Node, Release) }
        while me.waits.load(Acquire) {}
    }
}

fn give(me: &Node) {
    let mut after = me.next.load(Acquire);
    if after.is_null() {
        if TAIL.compare_exchange(me as *const Node as *mut Node, null_mut(), AcqRel, Relaxed).is_ok() {
            return;
        }
        while after.is_null() {
            after = me.next.load(Acquire);
        }
    }
    unsafe { (*after).waits.store(false, Release) }
}

#[no_mangle]
pub fn P0() {
    take(&A);
    unsafe { n += 1 }
    give(&A);
}

#[no_mangle]
pub fn P1() {
    take(&B);
    unsafe { n += 1 }
    give(&B);
}

// lw: ~exists (n=1)
