// The CLH lock: each thread waits on the node of the one before it in the queue.
// Question: are both threads in their critical sections at once, so that an increment is lost?
use std::sync::atomic::{AtomicBool, AtomicPtr, Ordering::{AcqRel, Acquire, Relaxed, Release}};

pub struct Node {
    busy: AtomicBool,
}
static mut DUMMY: Node = Node { busy: AtomicBool::new(false) };
static A: Node = Node { busy: AtomicBool::new(false) };
static B: Node = Node { busy: AtomicBool::new(false) };
static TAIL: AtomicPtr<Node> = AtomicPtr::new(&raw mut DUMMY);
#[no_mangle]
static mut n: u32 = 0;

fn take(me: &Node) {
    me.busy.store(true, Relaxed);
    let before = TAIL.swap(me as *const Node as *mut Node, AcqRel);
    while unsafe { (*before).busy.load(Acquire) } {}
}

fn give(me: &Node) {
    me.busy.store(false, Release);
}

#[no_mangle]
pub fn P0() {
    take(&A);
    unsafe { n += 1 }
    give(&A);
}

#[no_mangle]
pub fn P1() {
    take(&B);
    unsafe { n += 1 }
    give(&B);
}

// lw: ~exists (n=1)
