// The parts of a report that are shown in several places.

import { el } from "./dom.js";
import { makeFileName, save } from "./output.js";
import { parseReportLine } from "./replays.js";

/**
 * Returns the names of what a report shows.
 * @param {Report} report
 * @returns {string[]}
 */
export function listNames({ states }) {
  return states.length ? parseReportLine(states[0].line).map(([name]) => name) : [];
}

/**
 * Returns the proposition of a report's condition, without its quantifier.
 * @param {Report} report
 * @returns {string}
 */
export function parseProposition({ condition }) {
  return condition.slice(condition.indexOf(" ") + 1);
}

/**
 * Says how many states are left out, if some are.
 * @param {Report} report
 * @returns {Element | null}
 */
export function describeLeftOut(report) {
  if (!report.left_out) return null;
  const [number, out, kept] = [report.number, report.left_out, report.most].map((it) => it.toLocaleString("en"));
  const words = `Of ${number} states ${out} are left out here: shown are the first ${kept}, and up to ${kept} in which the condition holds.`;
  return el("p", { class: "notice" }, words);
}

/**
 * Returns a report as lw prints it.
 * @param {Report} report
 * @returns {string}
 */
export function formatReport(report) {
  return [...report.head, ...report.states.map((it) => it.line), ...report.tail].join("\n");
}

/**
 * Saves a report as lw prints it.
 * @param {Report} report
 */
export function saveReport(report) {
  save(makeFileName(report.head[0].split(" ")[1] ?? "test", "states.txt"), "text/plain", `${formatReport(report)}\n`);
}
