// An event count: a sleeper announces itself, looks once more for work and sleeps; a waker stores its work and wakes whom it sees.
// Question: does the sleeper sleep while there is work, and nobody wakes it? A Release store of the work is not enough: it may wait in the
// store buffer while the waker looks for sleepers.
use std::sync::atomic::{AtomicBool, AtomicU32, Ordering::SeqCst};

static WORK: AtomicBool = AtomicBool::new(false);
static SLEEPERS: AtomicU32 = AtomicU32::new(0);

#[no_mangle]
pub fn P0() {
    SLEEPERS.fetch_add(1, SeqCst);
    let sleeps = !WORK.load(SeqCst);
}

#[no_mangle]
pub fn P1() {
    WORK.store(true, SeqCst);
    let wakes = SLEEPERS.load(SeqCst) != 0;
}

// lw: ~exists (0:sleeps=1 /\ 1:wakes=0)
