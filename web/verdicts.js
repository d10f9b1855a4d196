// Writes the page's words on a report: by the test's language, its quantifier and the verdict.

// The beginning of the question on the condition itself, for the runs of a language, whatever the test claims of it.
const QUESTIONS = {
  Allowed: (run) => `Can a run${run} end this way`,
  Forbidden: (run) => `Can a run${run} end this way`,
  Required: (run) => `Does every run${run} end this way`,
};
const RUNS = { SRC: " by interleaving, in which the threads take turns,", X86: " on x86-TSO" };
const BOUNDS = {
  SRC:
    "These are all states in which a run by interleaving ends, with the threads taking turns on one memory, and no others; " +
    "and the compiled program, with its fences, ends on the x86-TSO machine in exactly these.",
  X86: "These are all states in which a run of the test on the x86-TSO machine ends, and no others.",
};
// Whether the condition holds in the states that show the verdict, if some do.
const SHOWING = { "Allowed Ok": true, "Forbidden No": true, "Required No": false };

/**
 * Returns the words on a report, and whether the answer to the question is yes; and which state shows what the verdict says, if one does and
 * states are marked.
 * @param {string} language
 * @param {Report} report
 * @returns {{question: string, is_so: boolean, bounds: string, telling: number | null}}
 */
export function describeReport(language, report) {
  const { asked, verdict } = report;
  const shows = SHOWING[`${asked} ${verdict}`];
  const telling = shows === undefined || !report.is_marked ? undefined : report.states.find((it) => it.holds === shows);
  return {
    question: QUESTIONS[asked](RUNS[language]),
    is_so: (verdict === "Ok") !== (asked === "Forbidden"),
    bounds: BOUNDS[language],
    telling: telling?.index ?? null,
  };
}

/**
 * Returns the verdict: its kind, the word for it, and the sentence on what runs do. The kind is `yes` or `wrong` if the test claims something: whether that
 * is so; and `can` or `cannot` if it only asks. The condition may be put into words, as `describeCondition` returns them.
 * @param {string} language
 * @param {Report} report
 * @param {{words: string, premise: string, otherwise: string} | null} [condition]
 * @returns {[string, string, string]}
 */
export function describeVerdict(language, { asked, verdict, positive }, condition = null) {
  const isOk = verdict === "Ok";
  const runs = language === "SRC" ? " by interleaving" : "";
  const { words, premise, otherwise } = condition ?? { words: "the condition holds", premise: "", otherwise: "" };
  const some = `There is a run${runs} in which ${words}.`;
  const none = `There is no run${runs} in which ${words}.`;
  const every = `every run${runs}${premise && ` in which ${premise},`} ${words}.`;
  if (asked === "Required" && isOk) return ["yes", "Always.", `In ${every}`];
  if (asked === "Required" && !positive) return ["wrong", "Never.", `${none.slice(0, -1)}; the test requires that of every run.`];
  const against = `There is a run${runs} in which ${premise && `${premise} and `}${otherwise}.`;
  if (asked === "Required") return ["wrong", "Not always.", otherwise ? against : `Not in ${every}`];
  if (asked === "Forbidden") return isOk ? ["yes", "Forbidden.", none] : ["wrong", "Allowed.", `${some.slice(0, -1)}; the test forbids that.`];
  return isOk ? ["can", "Allowed.", some] : ["cannot", "Forbidden.", none];
}

// Which states a number counts if those in which a wait has not ended are left out.
export const ENDED = " in which every wait ends";

/**
 * Returns a sentence that says in how many states the condition holds. `which` says which final states the report has, if it has not all.
 * @param {Report} report
 * @param {string} [which]
 * @returns {string}
 */
export function describeCount({ positive, number }, which = "") {
  if (number === 1) return `The condition ${positive ? "holds" : "does not hold"} in the only final state${which}.`;
  const formatNumber = (it) => it.toLocaleString("en");
  return `The condition holds in ${positive === number ? "all" : positive ? `${formatNumber(positive)} of` : "none of"} ${formatNumber(number)} final states${which}.`;
}

const NOT_KNOWN = "Which of these states interleaving gives is not known: the list that would say so is refused.";
// The largest number of states that interleaving does not give whose lines a sentence has, and of the letters of these.
const MAX_LINES = 3;
const MAX_LETTERS = 150;

/** Returns whether a report, or another answer with a condition, is of a test that asks nothing. */
export function isUnasked({ condition }) {
  return condition === "exists (true)";
}

/** Returns the words that interleaving gives all of some states, and what this does not mean of a test that asks nothing. */
function describeAll(report, why = "") {
  const all = `Interleaving gives ${report.number === 1 ? "the only state" : `all ${report.number.toLocaleString("en")} states`}, too`;
  return isUnasked(report) ? `${all}. The test asks nothing, and what no list names may still need a fence.` : `${all}${why}.`;
}

/**
 * Returns a sentence that says which states of an x86 test interleaving gives, too, given the lines of these; null if they are not known.
 * @param {Report} report
 * @param {string[] | null} interleaved
 * @returns {string}
 */
export function describeInterleaved(report, interleaved) {
  const { states, number } = report;
  if (!interleaved) return NOT_KNOWN;
  const lines = new Set(interleaved);
  const others = states.filter(({ line }) => !lines.has(line)).map(({ line }) => `\`${line.replace(/;$/, "")}\``);
  if (!others.length) return describeAll(report, ": store buffers add none in what the question names");
  const rest = others.length - MAX_LINES;
  const more = rest > 0 ? ` · and ${rest} other${rest === 1 ? "" : "s"}` : "";
  const listed = `${others.slice(0, MAX_LINES).join(" · ")}${more}`;
  const begin = `Interleaving gives ${lines.size} of the ${number} states.`;
  return listed.length > MAX_LETTERS ? `${begin} Only store buffers give the others (◆).` : `${begin} Only with store buffers (◆): ${listed}.`;
}

/**
 * Returns a sentence that says how many states of an x86 test interleaving does not give, given the lines of those that it gives; null if they are not
 * known.
 * @param {Report} report
 * @param {string[] | null} interleaved
 * @returns {string}
 */
export function describeBuffered(report, interleaved) {
  const { number } = report;
  if (!interleaved) return NOT_KNOWN;
  const others = number - interleaved.length;
  if (others) return `◆ ${others.toLocaleString("en")} of ${number.toLocaleString("en")} only by store buffers.`;
  return describeAll(report);
}
