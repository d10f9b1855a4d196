// Rewrites locks of the Linux kernel, which macros define, as locks that are declared. Not proved.
//
// The record `Edit` is that of c_edits.js.

import { replaceMatch } from "./c_edits.js";

const DEFINED = /(?<=^|[;{}])(\s*)(?:static\s+)?DEFINE_(SPINLOCK|RAW_SPINLOCK|MUTEX)\s*\(\s*(\w+)\s*\)\s*;/gm;
const CALL = /(?<![\w.])(?:raw_spin_(lock|unlock)|mutex_(lock|unlock))(?=\s*\(\s*&)/g;

/**
 * Returns the edits by which locks that macros define are declared, and are locked as others are.
 * @param {string} code
 * @returns {{edits: Edit[], words: string}}
 */
export function listKernelLocks(code) {
  const declared = [...code.matchAll(DEFINED)].map((it) => replaceMatch(it, `${it[1]}${it[2] === "MUTEX" ? "pthread_mutex_t" : "spinlock_t"} ${it[3]};`));
  if (!declared.length) return { edits: [], words: "" };
  const calls = [...code.matchAll(CALL)].map((it) => replaceMatch(it, it[1] ? `spin_${it[1]}` : `pthread_mutex_${it[2]}`));
  return { edits: [...declared, ...calls], words: "" };
}
