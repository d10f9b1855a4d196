// Rewrites a program in C or C++ in the terms that the page reads: threads look at variables where they wait by semaphores, latches, conditions, barriers, or
// `wait` of atomic variables; names of enumerations are constants; locks of the kernel are declared as variables are;
// and what is called once is guarded by a mutex. Not proved.

import { listBarriers } from "./c_barriers.js";
import { listOnceCalls } from "./c_call_once.js";
import { blankComments } from "./c_code.js";
import { applyEdits } from "./c_edits.js";
import { listEnumerations } from "./c_enumerations.js";
import { listKernelLocks } from "./c_kernel_locks.js";
import { listBinarySemaphores, listLatches, listPosixSemaphores } from "./c_semaphores.js";
import { listSpellings } from "./c_spellings.js";
import { listAtomicWaits, listConditionWaits } from "./c_waits.js";

const KINDS = [
  listEnumerations, listKernelLocks, listBarriers, listLatches, listBinarySemaphores, listPosixSemaphores, listConditionWaits, listAtomicWaits,
  listOnceCalls, listSpellings,
];
const LONGEST = 20000;

/**
 * Returns the text of a program in the terms that the page reads, a function that returns the index that one of it has in the program, and sentences on what
 * is in place of what; null if it has no other terms.
 * @param {string} text
 * @returns {{text: string, findIndex: function(number): number, words: string} | null}
 */
export function rewriteTerms(text) {
  if (text.length > LONGEST) return null;
  const all = [];
  let words = "";
  // Boost has the names of the standard library.
  const standard = text.replace(/\bboost\s*::/g, (it) => "std::".padStart(it.length));
  const code = blankComments(standard);
  for (const listEdits of KINDS) {
    const found = listEdits(code);
    const isIn = (it) => all.some(({ begin, end }) => it.begin < end && begin < it.end);
    if (!found?.edits.length || found.edits.some(isIn)) continue;
    all.push(...found.edits);
    words += found.words;
  }
  return all.length || standard !== text ? { ...applyEdits(standard, all), words } : null;
}
