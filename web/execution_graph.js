// The execution of a run, drawn as a graph of its events.

import { ask } from "./ask.js";
import { el, makeButton, makePlainMark } from "./dom.js";
import { save } from "./output.js";
import { showError } from "./errors.js";

// The height of a line of a picture, the width of a letter, and what is empty below its events.
const LINE = 19;
const LETTER = 7.9;
const EMPTY = 10;
// The arrows that a graph may have, by how they are drawn: each with its names there, and these in words. In this order they take the fewest lines.
const ARROWS = [
  ["po", { po: "program order" }],
  ["co", { co: "written before" }],
  ["rf", { rf: "reads from", rfi: "reads its own store", init: "reads the initial value" }],
  ["fr", { fr: "read before it is overwritten" }],
];
// The names in words.
const MEANINGS = Object.assign({}, ...ARROWS.map(([, words]) => words));
const WITH_CYCLE = "The bold arrows are a cycle: this run is no interleaving. ";
const WITHOUT_CYCLE = "No cycle: some interleaving is like the run that is shown. ";
// The number of graphs that were shown so far.
let shownGraphs = 0;
const SVG = "http://www.w3.org/2000/svg";

/**
 * Returns a picture for the page, whose style sheet has its colours, since the page's policy takes no style from a picture; and the lines of
 * text below it.
 * @param {string} text
 * @param {Tints} tints
 * @returns {{graph: Element, said: string[]}}
 */
export function makeGraph(text, tints) {
  shownGraphs += 1;
  // The heads of arrows of a graph that is hidden are not drawn in another one, so each graph has its own.
  const bare = text.split(/<\/?style>/).filter((_, index) => index % 2 === 0).join("").replace(/(id="|url\(#)to-/g, `$1to-${shownGraphs}-`);
  const svg = new DOMParser().parseFromString(bare, "image/svg+xml").documentElement;
  svg.setAttribute("class", "graph");
  svg.setAttribute("role", "img");
  for (const it of svg.querySelectorAll("text")) colour(it, tints);
  const lines = [...svg.querySelectorAll("text.faint")];
  const said = lines.map((it) => it.textContent);
  for (const it of lines) it.remove();
  const height = Number(svg.getAttribute("height")) - LINE * lines.length - EMPTY;
  const width = measureWidth(svg);
  for (const [name, value] of [["viewBox", `0 0 ${width} ${height}`], ["width", width], ["height", height]]) svg.setAttribute(name, value);
  for (const it of svg.querySelectorAll("text.relation")) explain(it);
  const shown = document.importNode(svg, true);
  shown.style.setProperty("--graph-width", String(width / 16));
  return { graph: el("div", { class: "graph-scroll" }, shown), said };
}

/** Says what the name of an arrow in a picture means, when it is pointed at: in a title of a group around it, since the name is its whole text. */
function explain(name) {
  const [group, title] = ["g", "title"].map((it) => document.createElementNS(SVG, it));
  title.textContent = `${name.textContent}: ${MEANINGS[name.textContent]}`;
  name.replaceWith(group);
  group.append(title, name);
}

/** Returns how wide a picture's events, arrows and their names are: lines below them may be longer. */
function measureWidth(svg) {
  const named = [...svg.querySelectorAll("text.relation")].map((it) => Number(it.getAttribute("x")) + it.textContent.length * LETTER - 10);
  const rights = [...svg.querySelectorAll("g rect")].map((it) => Number(it.getAttribute("x")) + Number(it.getAttribute("width")));
  const listPoints = (path) => [...path.getAttribute("d").matchAll(/([\d.]+) [\d.]+/g)].map(([, x]) => Number(x));
  const reached = [...svg.querySelectorAll("path[d]")].flatMap(listPoints);
  return Math.ceil(Math.max(100, ...rights, ...reached, ...named)) + 14;
}

/** Gives a text of a picture the colour of its thread or location. */
function colour(text, tints) {
  const thread = /^P(\d)$/.exec(text.textContent)?.[1];
  if (thread !== undefined) text.classList.add("thr", `thr-${thread}`);
  const kind = tints.findClass(/^[a-z]\d*: [RWU] (\w+)=/.exec(text.textContent)?.[1]);
  if (kind) text.classList.add(...kind.split(" "));
}

/** Returns the name of an arrow of a graph: its relation, `rfi` if a thread reads its own store, or `init` if it begins at no event. */
function findArrowName({ dataset: { from, to }, classList }) {
  const kind = ["po", "rf", "co", "fr"].find((it) => classList.contains(it));
  if (!from) return "init";
  return kind === "rf" && from.split(":")[0] === to.split(":")[0] ? "rfi" : kind;
}

/**
 * Returns a legend of the arrows in some graphs, and of no others: how each is drawn, its names, and these in words.
 * @param {...Element} graphs
 * @returns {Element}
 */
export function makeLegend(...graphs) {
  const paths = graphs.flatMap((it) => [...it.querySelectorAll("path[data-to]")]);
  const names = new Set(paths.map(findArrowName));
  const describeArrow = ([kind, words]) => {
    const here = Object.keys(words).filter((it) => names.has(it));
    const inner = here.map((it, index) => [index ? ", " : "", el("b", {}, it), ` ${words[it]}`]);
    return here.length > 0 && el("span", { class: `relation ${kind}` }, drawArrow(), inner);
  };
  const cycle = paths.some((it) => it.classList.contains("marked"));
  const bold = cycle && el("span", { class: "relation cycle" }, drawArrow(), el("b", {}, "bold"), " the cycle");
  const isPale = paths.some((it) => it.classList.contains("pale"));
  const pale = isPale && el("span", { class: "relation pale" }, drawArrow(), el("b", {}, "pale"), " may be reversed");
  return el("p", { class: "legend" }, ARROWS.map(describeArrow), bold, pale);
}

/** Returns a short arrow for the legend. */
function drawArrow() {
  const svg = document.createElementNS(SVG, "svg");
  svg.setAttribute("viewBox", "0 0 28 8");
  svg.setAttribute("aria-hidden", "true");
  const path = document.createElementNS(SVG, "path");
  path.setAttribute("d", "M0 4 H28");
  svg.append(path);
  return svg;
}

/**
 * Asks for the execution of a run and draws it into a place, or says there that the run has not ended, or what the fault is. Does nothing if the
 * question was ended meanwhile: by another question for a graph, or by `endQuestions`. Dispatches `drawn` at the place, by which placing.js lays out the page. `lead` is what is said first, if the run is another
 * than the one that is shown.
 * @param {Editor} editor
 * @param {string} text
 * @param {string} schedule
 * @param {Element} place
 * @param {Tints} tints
 * @param {(string | Element)[] | null} [lead]
 * @returns {Promise<void>}
 */
export async function showGraph(editor, text, schedule, place, tints, lead = null) {
  const answer = await ask(editor, "graph", { text, schedule }, { place });
  if (!answer) return;
  place.replaceChildren();
  if (answer.isUnended) place.append(el("p", { class: "small" }, "The graph is drawn when the run has ended."));
  else if (answer.graph) place.append(...makeGraphParts(answer, tints, lead));
  else showError(answer, place, editor);
  place.dispatchEvent(new Event("drawn"));
}

/**
 * Returns the elements on the execution of a run: the sentence on its graph, the graph with its legend, and the same in words.
 * @param {{graph: string, words: string[], hasCycle: boolean}} answer
 * @param {Tints} tints
 * @param {(string | Element)[] | null} [lead]
 * @returns {Element[]}
 */
export function makeGraphParts(answer, tints, lead = null) {
  const { graph, said } = makeGraph(answer.graph, tints);
  // The places of another run's events are not those of the code that is shown.
  if (lead) for (const it of graph.querySelectorAll("[data-at]")) it.removeAttribute("data-at");
  const words = answer.hasCycle ? WITH_CYCLE : WITHOUT_CYCLE;
  const pairs = said.slice(1).map((it) => it.replace(/^(\w+), then (\w+): no fence between$/, "between $1 and $2"));
  const missing = pairs.length ? `No fence is ${pairs.join(", nor ")}. ` : "";
  const inWords = el("details", {}, el("summary", {}, "In words"), el("pre", {}, answer.words.join("\n")));
  const body = el("div", { class: "graph-body" }, graph, makeLegend(graph));
  const keep = makeButton("Save this graph", () => save("execution.svg", "image/svg+xml", answer.graph));
  return [el("p", { class: "graph-head" }, lead, words, missing, makePlainMark("this graph")), body, el("div", { class: "row" }, inWords, keep)];
}
