// For programs in Rust that tools/from_c.py reads: it puts these lines before the program. lw_see!(NAME, VALUE) is lw_see of lw_see.h.
#![allow(dead_code, unused_macros, unused_imports, non_snake_case, non_upper_case_globals, static_mut_refs)]
macro_rules! lw_see { ($name:ident, $value:expr) => { #[allow(unused_unsafe)] unsafe { core::arch::asm!(concat!("#lw see ", stringify!($name), " {0:e}"), in(reg) ($value) as u32, options(nostack, nomem, preserves_flags)) } } }
