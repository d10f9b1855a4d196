// Says why a type or a function of a program in C or C++ is refused that the page does not follow. Not proved.

const TEMPLATE =
  "\\b(?:vector|array|deque|(?:priority_)?queue|stack|(?:forward_)?list|(?:unordered_)?(?:multi)?(?:map|set)|pair|tuple|optional|span)\\s*<[^;<>]*>";
const POINTER = new RegExp(
  "\\b(?:unique|shared|weak|hazard)_ptr\\b|<[^<>]*\\*\\s*>|" +
    "^\\s*(?:(?:static|extern|const|volatile|struct|std::)\\s*)*\\w+(?:<[^<>]*>)?\\s*\\*+\\s*(?:const\\s+)?\\w+\\s*(?:[=;,{[]|$)",
);
const OF_WAITS = ", so write a loop that waits for a variable, as `while (x == 0) ;`";
const OR_WAITS = OF_WAITS.replace("so", "or");
// Parts of code, with the ends of sentences that say why they are refused.
const REASONS = [
  [/\b(?:malloc|calloc|realloc|free)\s*\(|\bmake_(?:unique|shared)\b|\bnew\s+[\w:]+\s*[({[]|^delete\b/,
    ": all words of a test have names, so declare variables in place of what is allocated"],
  [/\bcondition_variable(?:_any)?\b|\b(?:pthread_cond_\w+|cnd_\w+|CONDITION_VARIABLE)\b/, `: the page follows waits for a condition right after the mutex is locked, in a loop or with a lambda that only returns it${OR_WAITS}`],
  [/\b(?:counting|binary)_semaphore\b|\bsem_(?:t|wait|post|init|destroy|trywait)\b/, `: the page follows semaphores that are 0 or 1 at all times, or begin and end rounds of threads${OR_WAITS}`],
  [/\b(?:barrier|latch)\b\s*(?:<[^<>]*>\s*|\s)\w+\s*[({]|\bpthread_barrier_\w+/, `: the page follows barriers at which all threads that use them begin or end, and latches that are counted down and waited for${OR_WAITS}`],
  [/\b(?:Create|Set|Reset|Pulse|Open)Event\w?\s*\(|\b(?:Create|Release)(?:Mutex|Semaphore)\w?\s*\(/,
    `: the page follows no events, and of locks a \`CRITICAL_SECTION\`${OF_WAITS}`],
  [/\b_?Interlocked(?:Or|And|Xor)/, ": of locked instructions the x86 format has only exchange and addition"],
  [/\.\s*(?:wait|notify_one|notify_all)\s*\(/, `: the page follows \`wait\` of an atomic variable for one word, as \`x.wait(0)\`${OR_WAITS}`],
  [/\bshared_(?:timed_)?mutex\b|\bshared_lock\b|\bpthread_rwlock_\w+/, ": the page follows locks that only one thread has, as `std::mutex`"],
  [/\brecursive_(?:timed_)?mutex\b/, ": the page follows mutexes that no thread locks twice, as `std::mutex`"],
  [/\b(?:future|promise|packaged_task)\s*<|\basync\s*\(/, ": the page follows threads, as `std::thread`, and no futures"],
  [/\bonce_flag\b|\bcall_once\b/, ": the page follows `call_once` of a function or a lambda without arguments, or do this before the threads"],
  [POINTER, ": a pointer is rewritten only if the program makes one object of its type, so write variables in place of pointers, and of what they point to"],
  [new RegExp(`${TEMPLATE}|\\b(?:w?string|bitset)\\b\\s+\\w`), ": a test has locations of one word each, so declare a variable for each word"],
  [/\b(?:float|double)\b/, ": a variable is an integer, as `int r0`"],
];

/**
 * Returns why a part of a program is refused that has a type or a function which the page does not follow, as the end of a sentence; null if it has
 * none.
 * @param {string} code
 * @returns {string | null}
 */
export function explainType(code) {
  return REASONS.find(([pattern]) => pattern.test(code))?.[1] ?? null;
}
