// Makes elements. Whatever a test says becomes text nodes, and nothing else. The types `Node`, `Element` and `Event` are the browser's.

import { archive } from "./supplies.js";

/**
 * Makes an element with attributes, and children that are elements, texts or lists of them. A function is a listener, `true` is set.
 * @param {string} tag
 * @param {Object<string, string | boolean | null | Function>} [attributes]
 * @param {...((Node | string | null | false)[] | Node | string | null | false)} children
 * @returns {Element}
 */
export function el(tag, attributes = {}, ...children) {
  const made = document.createElement(tag);
  for (const [name, value] of Object.entries(attributes)) {
    if (typeof value === "function") made.addEventListener(name, value);
    else if (value === true) made.setAttribute(name, "");
    else if (value !== false && value !== null && value !== undefined) made.setAttribute(name, value);
  }
  made.append(...children.flat(2).filter((it) => it !== null && it !== undefined && it !== false));
  return made;
}

/**
 * Returns a button that calls `act` if it is clicked.
 * @param {string} text
 * @param {function(Event): void} act
 * @param {Object<string, string | boolean | null>} [attributes]
 * @returns {HTMLButtonElement}
 */
export function makeButton(text, act, attributes = {}) {
  return el("button", { type: "button", click: act, ...attributes }, text);
}

/**
 * Returns a sentence as children for `el`: text between its backquotes becomes code.
 * @param {string} text
 * @returns {(Node | string)[]}
 */
export function renderSentence(text) {
  return text.split("`").map((part, index) => (index % 2 ? makeCode(part) : part));
}

/** Makes an element of code. The name of a tool becomes a link to the archive that has it, if the page is a site that carries one. */
function makeCode(text) {
  const code = el("code", {}, text);
  if (!archive || !text.startsWith("tools/")) return code;
  return el("a", { href: archive.file, download: "", title: `in ${archive.file}, ${archive.size}` }, code);
}

/**
 * Makes the mark of what is not proved, which names it if something that is proved is near.
 * @param {string} [what]
 * @returns {Element}
 */
export function makePlainMark(what = "this") {
  const of = what === "this" ? "" : el("span", { class: "long-by" }, `${what}: `);
  return el("span", { class: "plain", title: `${what} is found by the page's own code, which is not proved` }, of, "not proved");
}

/**
 * Returns the element with an id.
 * @param {string} id
 * @returns {HTMLElement}
 */
export function findById(id) {
  return document.getElementById(id);
}
