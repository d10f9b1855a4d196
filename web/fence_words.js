// Says how a program that a test was made from writes a fence, in the language of that program. Not proved.

const COMMENTS = /\/\/.*|\/\*[^]*?\*\//g;
const RUST = /\bfn\s+\w+\s*[(<]|\b(?:static|const)\s+(?:mut\s+)?\w+\s*:\s*\w/;
const CPP =
  /\bstd::|<(?:atomic|thread|mutex)>|\batomic\s*<|\busing\s|\bnamespace\b|\bmemory_order::|\.(?:load|store|exchange|compare_exchange_\w+|fetch_\w+)\s*\(/;
// What only the kernel has, and what shows that a program is not of the kernel, though it may have functions of the same names.
const KERNEL = /\b(?:READ_ONCE|WRITE_ONCE|smp_\w+|atomic_read|atomic_set|spin_lock|rcu_\w+)\s*\(/;
const NO_KERNEL = /#\s*include\s*<(?!linux\/|asm\/)|\bpthread_|\bmemory_order|\b_Atomic\b|\b__(?:sync|atomic)_|\bint\s+main\s*\(/;
// What is atomic in C and C++: `atomic_int`, but no fence.
const ATOMIC = /\b_Atomic\b|\batomic(?:_ref)?\s*<|\batomic_(?!thread_fence|signal_fence)\w+|\b__atomic_(?:store|load|exchange|fetch|compare)\w*/;
const BUILTIN = /\b__atomic_\w+/;
const OF_STORE = "; or the last store before it becomes seq_cst, if that is an atomic store: it is an `XCHG` on x86 then.";

/** Returns the sentence on a fence, which is the code `fence`; a store may be in its place if the program has atomic ones. */
function formatSentence(fence, hasAtomics) {
  return `In the program this fence is ${fence} at that place${hasAtomics ? OF_STORE : "."}`;
}

/**
 * Returns what a fence of a test is in the program that it was made from; undefined if the program is not known.
 * @param {string | undefined} program
 * @returns {string}
 */
export function describeFence(program) {
  if (!program) {
    const ofC = "`atomic_thread_fence(memory_order_seq_cst)` in C, the same with `std::` in C++";
    return formatSentence(`${ofC}, \`fence(Ordering::SeqCst)\` in Rust, and \`smp_mb()\` in the kernel,`, false);
  }
  const code = program.replace(COMMENTS, " ");
  if (RUST.test(code)) return formatSentence("`fence(Ordering::SeqCst)`", /\bAtomic[A-Z]/.test(code));
  const hasAtomics = ATOMIC.test(code);
  if (CPP.test(code)) return formatSentence("`std::atomic_thread_fence(std::memory_order_seq_cst)`", hasAtomics);
  if (KERNEL.test(code) && !NO_KERNEL.test(code)) return formatSentence("`smp_mb()`", false);
  if (BUILTIN.test(code)) return formatSentence("`__atomic_thread_fence(__ATOMIC_SEQ_CST)`", hasAtomics);
  return formatSentence(`\`atomic_thread_fence(memory_order_seq_cst)\`${/\bstdatomic\.h/.test(code) ? "" : " of `<stdatomic.h>`"}`, hasAtomics);
}
