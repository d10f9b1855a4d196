// Reads what programs for Windows have: their types, and their functions, which are those of C under other names. Not proved.

// What only such programs have; its names of types and constants; and its functions, which a program does not define.
const WINDOWS = /\bwindows\.h\b|\b_?Interlocked[A-Z]|\b(?:WINAPI|LPVOID|LONG|DWORD|HANDLE|CRITICAL_SECTION|SRWLOCK|CreateThread|_beginthreadex)\b/;
const NAMES = {
  LONG: "int", INT: "int", INT32: "int", LONG32: "int", BOOL: "int", DWORD: "unsigned", UINT: "unsigned", ULONG: "unsigned", UINT32: "unsigned",
  DWORD32: "unsigned", ULONG32: "unsigned", LONG64: "long", INT_PTR: "long", LONG_PTR: "long", DWORD_PTR: "size_t", UINT_PTR: "size_t",
  ULONG_PTR: "size_t", SIZE_T: "size_t", LONGLONG: "long", INT64: "long", LPVOID: "void*", PVOID: "void*", TRUE: "1", FALSE: "0",
};
const CALL = new RegExp(
  "^(?:_?Interlocked\\w*|MemoryBarrier|YieldProcessor|SwitchToThread|Sleep|CreateThread|_beginthreadex|ExitThread|_endthreadex|" +
    "UNREFERENCED_PARAMETER|WaitFor\\w*|__faststorefence|_(?:ReadWrite|Read|Write)Barrier|\\w+CriticalSection|\\w+SRWLock\\w*|CloseHandle)$",
);
// What is called in other ways, in squeezed code: the second function does the same.
const CALLS = {
  EnterCriticalSection: "mtx_lock", LeaveCriticalSection: "mtx_unlock", AcquireSRWLockExclusive: "mtx_lock", ReleaseSRWLockExclusive: "mtx_unlock",
};
const SUFFIX = "(?:64)?(?:Acquire|Release|NoFence)?";
const ADDED = new RegExp(`\\b_?Interlocked(?:(Increment|Decrement)${SUFFIX}\\((&?\\w+)\\)|Add${SUFFIX}\\((&?\\w+),(-?\\w+)\\))`, "g");
const SWAPPED = new RegExp(`\\b_?InterlockedCompareExchange${SUFFIX}\\((&?\\w+),([^,()]*),([^,()]*)\\)`, "g");
const EXCHANGED = new RegExp(`\\b_?InterlockedExchange(Add)?${SUFFIX}\\(`, "g");
const CASTS = /\((?:volatile )?(?:LONG|LONG64|int|long|unsigned|unsigned int|unsigned long) ?(?:volatile ?)?\*\)(?=&)/g;
// The start of a thread: the groups are its handle, and the arguments. What declares handles before it, and what separates several ones. A wait for
// one, and one for several: the groups are their number, and the handles.
const STARTED = /^(\w+(?:\[\d+\])?)=(?:\(HANDLE\))?(?:CreateThread|_beginthreadex)\((.*)\)$/;
const DECLARING = /^(?:HANDLE|uintptr_t|auto) /;
const BETWEEN_CALLS = /,(?=(?:\w+=)?(?:\(HANDLE\))?(?:CreateThread|_beginthreadex)\()/;
const AWAITED = /^WaitForSingleObject\((?:\(HANDLE\))?(\w+(?:\[\d+\])?),INFINITE\)$/;
const ALL_AWAITED = /^WaitForMultipleObjects\((\w+),(\w+),(?:1|true),INFINITE\)$/;
const OF_WAITS = ": `main` waits for all threads, and without an end, as `WaitForSingleObject(t, INFINITE);`";
const OF_STARTS = ": a thread starts at once, as by `CreateThread(NULL, 0, f, NULL, 0, NULL)`";
const HANDLES = /^HANDLE (\w+)\[\w*\]=?\{(.*)\}$/;

/**
 * Returns the names of types and constants of a program, with what they are: those of Windows if it is for Windows, and otherwise none.
 * @param {string} text
 * @returns {[string, string][]}
 */
export function listWindowsNames(text) {
  return WINDOWS.test(text) ? Object.entries(NAMES) : [];
}

/**
 * Returns whether a function of a name is one of Windows, which a program does not define.
 * @param {string} name
 * @returns {boolean}
 */
export function isOfWindows(name) {
  return CALL.test(name);
}

/** Returns the addition that a call does, and, if it is not all of a statement, what the call returns: the sum. */
function convertAdded(code, whole, verb, stepped, place, added) {
  const value = added ?? "1";
  const call = verb === "Decrement" ? `atomic_fetch_sub(${stepped},1)` : `atomic_fetch_add(${place ?? stepped},${value})`;
  return whole === code ? call : `(${call}${verb === "Decrement" ? "-" : "+"}@${value})`;
}

/**
 * Returns squeezed code in which functions of C are in place of those of Windows.
 * @param {string} code
 * @returns {string}
 */
export function convertWindows(code) {
  if (!/[A-Z]\w*\(|\b_/.test(code)) return code;
  const plain = code.includes("Interlocked") ? code.replace(CASTS, "") : code;
  return plain
    .replace(ADDED, (whole, ...groups) => convertAdded(plain, whole, ...groups))
    .replace(SWAPPED, "__sync_val_compare_and_swap($1,$3,$2)")
    .replace(EXCHANGED, (_, add) => (add ? "atomic_fetch_add(" : "atomic_exchange("))
    .replace(/\bTryEnterCriticalSection\(&(\w+)\)/g, "$1.try_lock()")
    .replace(/\b(\w+(?:CriticalSection|LockExclusive))\(&/g, (whole, name) => (CALLS[name] ? `${CALLS[name]}(&` : whole))
    .replace(/\b(?:MemoryBarrier|__faststorefence)\(\)/g, "atomic_thread_fence(memory_order_seq_cst)")
    .replace(/\b_(?:ReadWrite|Read|Write)Barrier\(\)/g, "atomic_signal_fence(memory_order_seq_cst)")
    .replace(/\b(?:(?:YieldProcessor|SwitchToThread)\(\)|Sleep\(\d+\))/g, "_mm_pause()")
    .replace(/\b(?:ExitThread|_endthreadex)\(0\)/g, "pthread_exit(0)")
    .replace(/\bUNREFERENCED_PARAMETER\((\w+)\)/g, "(void)$1");
}

/**
 * Returns the threads that squeezed code of `main` starts: their handles, functions and arguments. Null if it starts none.
 * @param {string} code
 * @returns {{handle: string, started: string, argument: string}[] | null}
 */
export function parseWindowsStarts(code) {
  const [, name, handles = ""] = HANDLES.exec(code) ?? [];
  const calls = name ? handles.split(BETWEEN_CALLS).map((it, at) => `${name}[${at}]=${it}`) : code.replace(DECLARING, "").split(BETWEEN_CALLS);
  const starts = calls.map((it) => {
    const [, handle, words = ""] = STARTED.exec(it) ?? [];
    const [, , started, argument, flags, last] = words.replace(/\(\w+\*?\)/g, "").split(",");
    return handle && flags === "0" && last && !/[()]/.test(started + argument) ? { handle, started, argument } : null;
  });
  return starts.includes(null) ? null : starts;
}

/**
 * Returns why squeezed code of `main` is refused that starts a thread or waits for one otherwise, as the end of a sentence; null if it does neither.
 * @param {string} code
 * @returns {string | null}
 */
export function explainWindows(code) {
  if (/^WaitFor\w+\(/.test(code)) return OF_WAITS;
  return /=(?:\(HANDLE\))?(?:CreateThread|_beginthreadex)\(/.test(code) ? OF_STARTS : null;
}

/**
 * Returns what squeezed code of `main` waits for: the handle of a thread, or an array of handles with the number of them; null if for nothing.
 * @param {string} code
 * @returns {{handle?: string, joined?: string, count?: string} | null}
 */
export function parseWindowsWait(code) {
  const [, handle] = AWAITED.exec(code) ?? [];
  const [, count, joined] = ALL_AWAITED.exec(code) ?? [];
  return handle ? { handle } : joined ? { joined, count } : null;
}

/**
 * Returns the name of an array of handles that squeezed code declares, and these; null if it declares none.
 * @param {string} code
 * @returns {{name: string, handles: string[]} | null}
 */
export function parseHandles(code) {
  const [, name, handles = ""] = HANDLES.exec(code) ?? [];
  return name && /^\w+(?:,\w+)*$/.test(handles) ? { name, handles: handles.split(",") } : null;
}
