// The names that registers have in the program from which a test was made. The registers of a compiled program have the numbers of the source's. A test that
// was made of a program in C has a comment with the variable of each register.

import { el } from "./dom.js";
import { REGISTERS } from "./token_reader.js";

/**
 * Says which register of the source each one is that a compiled text names; an empty text if it names none.
 * @param {string} text
 * @returns {string}
 */
export function describeMapping(text) {
  const used = REGISTERS.X86.map((name, index) => [name, REGISTERS.SRC[index]]).filter(([name]) => new RegExp(`\\b${name}\\b`).test(text));
  if (!used.length) return "";
  const pairs = used.map(([name, source]) => `\`${name}\` is \`${source}\``);
  return `In the compiled program ${[pairs.slice(0, -1).join(", "), pairs.at(-1)].filter(Boolean).join(" and ")} of the source.`;
}

// The comment, as in `(* 0:EAX is r0, 1:EBX is ready after its loop *)`, and one of its entries.
const COMMENT = /\(\*((?:\s*\d:E\w\w is [\w ]+,?)+)\*\)/;
const ENTRY = /(\d:E\w\w) is (\w+)/g;

/**
 * Returns the variables of a program in C whose values registers have, by the registers with their threads, as `0:EAX`, as a comment of the test says.
 * @param {string} text
 * @returns {Map<string, string>}
 */
export function listVariables(text) {
  return new Map([...(COMMENT.exec(text)?.[1] ?? "").matchAll(ENTRY)].map(([, register, name]) => [register, name]));
}

/**
 * Returns the name that a register has in the program, as an element to follow its own; "" if there is none.
 * @param {string | undefined} variable
 * @returns {Element | string}
 */
export function makeVariable(variable) {
  return variable ? el("span", { class: "in-source", title: "its name in the program" }, ` ${variable}`) : "";
}
