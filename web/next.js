// Proposes what to look at next: the same test with fences, or without additions; and what there is to read, and for a class.

import { el, findById, makeButton } from "./dom.js";
import { documents } from "./supplies.js";

// The documents that are named with a test, by their files, with the names of others that belong to them.
const NAMED = [["tutorial.html", "Tutorial", []], ["lab.html", "Lab for a class", ["sheet", "slides", "quiz"]]];

/** Returns the words on the example to which the next step leads. */
function describeNext(examples, name, partner) {
  if (examples.findFenced(name) === partner) return `the same test with ${/\+.*(?:xchg|xadd)/.test(partner) ? "locked instructions" : "fences"}: `;
  if (partner === `${name}-x86`) return "the same test on x86, without the compiler's fences: ";
  return "the same test without what was added: ";
}

/**
 * Shows the next step from an example; `choose` opens one, `compare` sets one beside the test, and `browse` opens the list of all.
 * @param {Examples} examples
 * @param {string} name
 * @param {{choose: function(string): void, compare: function(string): void, browse: function(): void}} actions
 */
export function showNextStep(examples, name, { choose, compare, browse }) {
  const partner = examples.tests.has(name) ? examples.findRelative(name) : undefined;
  const another = ["Next: ", makeButton("another example", browse, { class: "link", id: "next-example" }), ". "];
  const step = !partner ? another : [
    "Next: ", describeNext(examples, name, partner), makeButton(partner, () => choose(partner), { class: "link", id: "next-test" }), ", or ",
    makeButton("compare both", () => compare(partner), { class: "link", id: "next-compare" }), ". ",
  ];
  const isThere = (name) => documents.some(([file]) => file === name);
  const named = NAMED.filter(([name]) => isThere(name));
  const makeLink = ([file, title, others]) => {
    const words = others.filter((it) => isThere(`${it}.html`)).join(", ");
    return el("span", { class: "unbroken" }, el("a", { href: file, target: "reading" }, title), words && `: ${words}`);
  };
  findById("next").replaceChildren(...step, ...named.flatMap((it, index) => [index ? " · " : "", makeLink(it)]));
}
