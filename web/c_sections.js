// Makes the test of a program in C or C++ in which comments are in place of critical sections, and counts there. Not proved.

import { rewriteProgram } from "./c_program.js";

/** What is said of critical sections. */
export const OF_SECTION = " A critical section is an addition to `critical` here";
/** What is said of a question about them. */
export const OF_LOST = ": the question is whether one is lost, since two threads are in theirs at once.";
/** The words of a verdict on such a question. */
export const IN_SECTION = "threads are in the critical section together";
// What a test says whose question is whether an addition is lost.
const LOST = "(* an addition to critical is lost:";
const COMMENT = /\/\/.*|\/\*[^]*?\*\//g;
const SECTION = /^\W*(?:(?:in(?:side)?|enter|begin|start|this is)\s+)?(?:of\s+)?(?:the\s+)?(?:critical[\s_-](?:section|region)|CS)(?:\s+(?:(?:goes|is)\s+)?here)?\W*$/i;
// What is right before a critical section: a loop that waits, a call that takes a lock, or a branch with a block.
const BEFORE = new RegExp(
  "(?:\\bwhile\\s*\\((?:[^(){};]|\\((?:[^(){};]|\\([^(){};]*\\))*\\))*\\)\\s*(?:;|\\{\\s*(?:[\\w:]*(?:pause|yield|relax)\\w*\\s*\\(\\s*\\)\\s*;\\s*)?\\})|" +
    "(?:^|[;{}.>])\\s*\\w*(?:lock|acquire|enter)\\w*\\s*\\([^;{}]*\\)\\s*;|\\bif\\s*\\([^;{}]*\\)\\s*\\{)\\s*$",
  "i",
);
const LEAVING = /(?:unlock|release|leave|exit)\w*\s*\([^;{}]*\)\s*;\s*$/i;
// What is before the first declaration: comments and directives.
const FRONT = /^(?:\s|\/\/.*|\/\*[^]*?\*\/|#.*)*/;

/** Returns a program in which each comment that is a critical section is an addition to `critical`; null if none is. */
function countSections(text) {
  if (/\bcritical\b/.test(text.replace(COMMENT, ""))) return null;
  let count = 0;
  const code = text.replace(COMMENT, (comment) => comment.replace(/[^\n]/g, " "));
  const counted = text.replace(COMMENT, (comment, index) => {
    const before = code.slice(0, index);
    const isSection = SECTION.test(comment) && BEFORE.test(before) && !LEAVING.test(before);
    count += Number(isSection);
    return isSection ? "critical++;" : comment;
  });
  return count ? counted.replace(FRONT, (front) => `${front}int critical;\n`) : null;
}

/**
 * Returns the x86 test of a program, as `rewriteProgram` does. If there is nothing to ask, but comments are critical sections, it has additions to `critical`
 * in their place, and asks whether one is lost; it has the sentence on them, `sections`, then.
 * @param {string} text
 * @returns {object}
 */
export function rewriteWithSections(text) {
  const test = rewriteProgram(text);
  const counted = test.made?.endsWith("(true)\n") ? countSections(text) : null;
  const other = counted && rewriteProgram(counted);
  if (!other?.made?.includes(LOST)) return test;
  const races = other.races.filter((it) => it !== "critical");
  return { ...other, made: other.made.replace(LOST, `(* ${IN_SECTION}:`), races, isGuess: false, sections: OF_SECTION + OF_LOST };
}
