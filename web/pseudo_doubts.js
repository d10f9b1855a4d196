// Says why the page does not read a text that looks like pseudo code: which part of it may have two meanings, or has none that is known. Not proved.

const LONGEST = 48;
// Statements that are not read, each with the reason.
const REASONS = [
  [/\bgoto\b/i, "a jump is not read, so write a branch or a loop"],
  [/(?:^|[\s=(,])[*&]\s*[A-Za-z_]|->/, "pointers are not read, so write variables"],
  [/\b(?:max|min)\s*\(/i, "only sums are computed here, so write what it is for two threads"],
  [/\bfor\b/i, "a loop that counts is not read, so write out its passes"],
  [/[<>]=?(?!-)/, "words are compared by `=` or `≠` here"],
  [/^(?:loop|repeat|forever)\b/i, "an endless loop is read only around a critical section, at the end of its thread"],
  [/^(?:if|else|elif|elsif|while|await|wait|until)\b/i, "it is not sure which statements belong to it, so put them into braces"],
  [/^(?:\/\/|#|--)/, "it may be a fence or a comment, so write `mfence` for a fence"],
  [/^\{.*\}$|^[A-Z]\w*:/, "it may be initial words or an outcome, so begin it with `Initially` or `Can`"],
  [/^[A-Za-z_][\w.]*\s*\(.*\)\s*;?$/, "write what it does to the names that threads share"],
  [/^(?:lock\s+)?(?:mov|add|sub|inc|dec|cmp|xchg|xadd)[lq]?\s/i, "it is no instruction that is read here, as `mov [x], 1`, `mov r1, [x]` and `mfence` are"],
  [/\w\[\s*[A-Za-z_]\w*\s*\]/, "the index of an array is a number here"],
];
const OF_STATEMENTS = "it is no statement that is read here, as `x = 1`, `r1 = x`, `if (r1 == 1)`, `while (x == 0)` and `mfence` are";

/** Thrown for a part of pseudo code that is not read for sure. Its message names the part and says why; it is shown only if nothing else reads the text. */
export class Doubt extends Error {}

/**
 * Returns a doubt about a line, or a part of one.
 * @param {string} line
 * @param {string} why
 * @returns {Doubt}
 */
export function makeDoubt(line, why) {
  const code = line.trim().replace(/\s+/g, " ").replaceAll("`", "'");
  return new Doubt(`\`${code.length > LONGEST ? `${code.slice(0, LONGEST - 2)}..` : code}\`: ${why}`);
}

/**
 * Returns a doubt about a statement that is not read.
 * @param {string} code
 * @returns {Doubt}
 */
export function doubtStatement(code) {
  const [, why] = REASONS.find(([pattern]) => pattern.test(code.replace(/<-|\/\/.*$/g, " "))) ?? [];
  return makeDoubt(code, why ?? OF_STATEMENTS);
}
