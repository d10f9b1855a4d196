// The words of tests that are shown in colours. Written by tools/documents/make_grammar.py, from the table of tools/editor/words.py.

const EXACT = /^(?:exists|forall|locations|filter|true|false|not|if|goto|swap|fetchadd)$/;
const IN_ANY_CASE = /^(?:MOV|ADD|CMP|JE|JNE|JMP|MFENCE|XCHG|LOCK|XADD)$/i;
const REGISTER_OF_SOURCE = /^(?:r0|r1|r2|r3|r4|r5)$/;
const REGISTER_OF_X86 = /^(?:EAX|EBX|ECX|EDX|ESI|EDI)$/i;

/** Whether a word is one of a test's own. */
export const KEYWORDS = { test: (word) => EXACT.test(word) || IN_ANY_CASE.test(word) };

/** Whether a word is one of an access that is done at once, or of a fence. */
export const FENCES = { test: (word) => /^(?:swap|fetchadd)$/.test(word) || /^(?:MFENCE|XCHG|LOCK|XADD)$/i.test(word) };

/** Whether a word is a register. */
export const REGISTER = { test: (word) => REGISTER_OF_SOURCE.test(word) || REGISTER_OF_X86.test(word) };
