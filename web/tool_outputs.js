// Says of what other tools print or read, as results of herd and models, why they are no tests; a result may have its test in it. Not proved.

// Results of herd7 or litmus7, the begin of the test in them, and its end.
const RESULT = /^[ \t]*Test[ \t]+\S+[ \t]+(?:Allowed|Forbidden|Required)[ \t]*\r?\n[ \t]*(?:States[ \t]+\d|Histogram\b)/m;
const TEST = /^(?:X86|X86_64)[ \t]+\S[^]*?^[ \t]*P0[ \t]*[|;][^]*?(?:exists|forall)[^]*/m;
const TESTS = /^[ \t]*Test[ \t]+(\S+)[ \t]+(?:Allowed|Forbidden|Required)/gm;
const TEST_END = /^(?:Generated assembler|Test[ \t]+\S+[ \t]+(?:Allowed|Forbidden|Required))/m;
const OF_RESULTS = "This is a result that herd7 or litmus7 printed";
const OF_TEST = ", and the test is in it.";
const OF_FIRST = ", and its first test is in it.";
const OF_NO_TEST = ": the page finds the results of a test itself, so paste the test.";
// Models.
const MODELS = [
  [/^-{4,}\s*MODULE\b|--(?:fair\s+)?algorithm\b/m, "TLA+", "each of its steps is atomic"],
  [/^[ \t]*(?:active\s*(?:\[\s*\w+\s*\]\s*)?)?proctype\s+\w+\s*\(/m, "Promela", "each of its statements is atomic"],
  [/^[ \t]*MODULE[ \t]+main\b[^]*\bASSIGN\b/m, "SMV", "each of its steps is atomic"],
];
const OF_MODELS = "write what its threads do as pseudo code, each thread below its name, as `P0:`, with one access in each statement.";
// Instructions in Go's notation.
const GO_LINE = /\b(?:MOV[BLQ]?|XCHG[LQ]|XADD[LQ]|CMPXCHG[LQ]|TEXT|ADD[LQ]|CMP[LQ])\s.*[\w."·*]\(SB\)/;
const LONGEST = 400;
const OF_GO = "These are instructions in Go's notation, which the page does not read: `objdump -dr` of the compiled program prints them in one that it reads.";

/**
 * Returns a hint on a text that another tool printed, or that is a model or assembly of another one, with the change that takes a test out of it; or null.
 * A model in Promela may be read as pseudo code.
 * @param {string} text
 * @returns {{words: string, change: object | null, document: string, isPromela?: boolean} | null}
 */
export function explainOutput(text) {
  const [model, name, why] = MODELS.find(([pattern]) => pattern.test(text)) ?? [];
  const words = `This is a model in ${name}, in which ${why}: ${OF_MODELS}`;
  if (model) return { isPromela: name === "Promela", words, change: null, document: "your-code.html" };
  if (text.split("\n").filter((it) => it.length < LONGEST && GO_LINE.test(it)).length > 1) return { words: OF_GO, change: null, document: "your-code.html" };
  if (!RESULT.test(text)) return null;
  const front = text.slice(0, TEST_END.exec(text).index);
  const [test] = TEST.exec(front) ?? [];
  const isFirst = new Set([...text.matchAll(TESTS)].map(([, it]) => it)).size > 1;
  const change = test ? { begin: 0, end: text.length, text: `${test.trimEnd()}\n`, title: "Take the test out of it", done: "Taken." } : null;
  return { words: `${OF_RESULTS}${!change ? OF_NO_TEST : isFirst ? OF_FIRST : OF_TEST}`, change, document: "from-herd.html" };
}
