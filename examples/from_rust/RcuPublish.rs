// A publication as in RCU: a writer fills a new version and publishes its address, a reader follows the address that it finds.
// Question: does a reader see parts of a version that are not written yet? At -O compilers store both fields at once, in 8 bytes, so the version
// says that it is aligned.
use std::sync::atomic::{AtomicPtr, Ordering::{Acquire, Release}};

#[repr(C, align(8))]
pub struct Config {
    a: u32,
    b: u32,
}
static mut ONE: Config = Config { a: 1, b: 1 };
static mut TWO: Config = Config { a: 0, b: 0 };
static NOW: AtomicPtr<Config> = AtomicPtr::new(&raw mut ONE);

#[no_mangle]
pub fn P0() {
    unsafe {
        TWO.a = 2;
        TWO.b = 2;
    }
    NOW.store(&raw mut TWO, Release);
}

#[no_mangle]
pub fn P1() {
    let it = NOW.load(Acquire);
    let a = unsafe { (*it).a };
    let b = unsafe { (*it).b };
}

// lw: ~exists (~(1:a=1 /\ 1:b=1) /\ ~(1:a=2 /\ 1:b=2))
