// Draws the execution of a run, and describes it in words, as tools/graph.py does. Not proved.

import { findPosition, findThread } from "./executions.js";
import { BASE, GraphLayout } from "./graph_layout.js";
import { Drawing, EDGE, LETTER, LINE, formatNumber } from "./pictures.js";

// If the initial word has more reads, their arrows have no names.
const MAX_NAMED = 4;
const LETTERS = "abcdefghijklmnopqrstuvwxyz";
const NAMES = { po: "program order", rf: "reads-from", co: "coherence order", fr: "from-reads" };
// Relations differ by their names and by how their lines are broken: colours are those of threads and locations.
const STYLE = `
path { fill: none; stroke: #1b1b1b; stroke-width: 1.4 } path.po { stroke: #8a8a8a } path.co { stroke-dasharray: 8 4 } path.fr { stroke-dasharray: 3 3 }
path.marked { stroke: #1b1b1b; stroke-width: 3.2 } path.co.marked { stroke-dasharray: 11 6 } path.fr.marked { stroke-dasharray: 4 5 }
path.pale { stroke-opacity: 0.4 }
marker path[class] { stroke-dasharray: none }
text.relation { font-weight: bold; paint-order: stroke; stroke: #fff; stroke-width: 4 }
@media (prefers-color-scheme: dark) {
path { stroke: #ececec } path.po { stroke: #8d939c } path.marked { stroke: #ececec } text.relation { stroke: #16181c }
}
`;

// Words.

/**
 * Returns a word as text, `?` if it is not known.
 * @param {number | null | undefined} word
 * @returns {string}
 */
export const formatWord = (word) => (word === null || word === undefined ? "?" : String(word));

/** Names an execution's events by letters, and says what each does. */
export class Names {
  constructor(execution) {
    this.execution = execution;
    const makeLetter = (index) => (index < 26 ? LETTERS[index] : `${LETTERS[index % 26]}${Math.floor(index / 26)}`);
    this.letters = new Map(execution.listEvents().map((it, index) => [it, makeLetter(index)]));
  }

  /**
   * Returns the label of an event: R, W or U (a locked instruction) with a location and its words, or MFENCE.
   * @param {number} event
   * @returns {string}
   */
  describeEvent(event) {
    const { kind, location } = this.execution.findInstruction(event);
    if (kind === "mfence") return "MFENCE";
    const name = this.execution.test.locations[location];
    const [read, written] = [formatWord(this.execution.read.get(event)), formatWord(this.execution.written.get(event))];
    if (kind === "load") return `R ${name}=${read}`;
    return kind === "store" ? `W ${name}=${written}` : `U ${name}=${read}→${written}`;
  }

  /**
   * Returns an event with its letter, its thread and what it does.
   * @param {number} event
   * @returns {string}
   */
  formatEvent(event) {
    return `${this.letters.get(event)}: P${findThread(event)} ${this.describeEvent(event)}`;
  }

  /**
   * Returns a cycle in letters: a -fr-> b -po-> a.
   * @param {Edge[]} edges
   * @returns {string}
   */
  formatCycle(edges) {
    return this.letters.get(edges[0].source) + edges.map((it) => ` -${it.kind}-> ${this.letters.get(it.target)}`).join("");
  }
}

/**
 * Returns the edges that do not follow from the others: those without an event between.
 * @param {Edge[]} edges
 * @returns {Edge[]}
 */
function listDirectEdges(edges) {
  const hasEdge = (a, b) => edges.some((it) => it.source === a && it.target === b);
  return edges.filter(({ source, target }) => !edges.some(({ target: mid }) => hasEdge(source, mid) && hasEdge(mid, target)));
}

/** Returns, for each read, the edge to the first write after the one that it reads from. */
function listDirectFrEdges(execution) {
  const edges = new Map();
  for (const it of execution.listFrEdges()) if (!edges.has(it.source)) edges.set(it.source, it);
  return [...edges.values()];
}

/** Returns a function that says whether another edge is the same as one. */
const isSameEdge = (one) => (other) => one.kind === other.kind && one.source === other.source && one.target === other.target;

/** Returns the pairs of program order in a cycle that x86-TSO does not preserve if no fence is between. */
function listUnpreservedPairs(execution, cycle) {
  return (cycle ?? []).filter((it) => it.kind === "po" && !execution.isPreserved(it));
}

/**
 * Returns the pairs of program order in a cycle that x86-TSO may turn round: nothing that waits is between the store and the load.
 * @param {Execution} execution
 * @param {Edge[]} cycle
 * @returns {Edge[]}
 */
function findMissingFences(execution, cycle) {
  return listUnpreservedPairs(execution, cycle).filter((it) => !execution.hasFenceBetween(it));
}

/**
 * Returns the lines of an execution in words, with what the axioms say of it.
 * @param {Execution} execution
 * @returns {string[]}
 */
export function formatExecution(execution) {
  const [names, cycle] = [new Names(execution), execution.findCycle()];
  const findLetter = (event) => names.letters.get(event);
  const lines = execution.listEvents().map((it) => names.formatEvent(it));
  const relations = [["rf", execution.listRfEdges()], ["co", listDirectEdges(execution.listCoEdges())], ["fr", listDirectFrEdges(execution)]];
  for (const [kind, edges] of relations) {
    const pairs = edges.map((it) => `${findLetter(it.source)} -> ${findLetter(it.target)}`).join(", ");
    lines.push(`${NAMES[kind]} (${kind}): ${pairs || "none"}`);
  }
  const starts = [...execution.rf].filter(([, source]) => source === null).map(([read]) => findLetter(read));
  lines.push(`reads of the initial word: ${starts.join(", ") || "none"}`, formatVerdict(execution, names));
  if (!cycle) return [...lines, "A run of interleaving: po, rf, co and fr have no cycle."];
  lines.push(`No run of interleaving: ${names.formatCycle(cycle)}`);
  const formatAdvice = (it) => `An MFENCE between ${findLetter(it.source)} and ${findLetter(it.target)} would keep their order.`;
  return [...lines, ...findMissingFences(execution, cycle).map(formatAdvice)];
}

/**
 * Returns the line that says whether x86-TSO allows an execution.
 * @param {Execution} execution
 * @param {Names} names
 * @returns {string}
 */
function formatVerdict(execution, names) {
  const broken = execution.findBrokenAxiom();
  if (!broken) return "x86-TSO allows it: coherence and global happens-before have no cycle.";
  return `x86-TSO forbids it: ${broken.axiom} has the cycle ${names.formatCycle(broken.cycle)}`;
}

// The picture.

/** Rounds a number to a tenth. */
function roundToTenth(number) {
  return Math.floor(number * 10 + 0.5) / 10;
}

/** Returns a point as a path has it. */
function formatPoint([x, y]) {
  return `${formatNumber(roundToTenth(x))} ${formatNumber(roundToTenth(y))}`;
}

/** Returns the place of an event in its test, as THREAD:POSITION, by which a page finds its instruction. */
function formatEventPlace(event) {
  return `${findThread(event)}:${findPosition(event)}`;
}

/** Returns whether an edge says that a thread reads its own store. */
function isInternal({ kind, source, target }) {
  return kind === "rf" && findThread(source) === findThread(target);
}

/** Draws an arrow along the curves of a route; `look` is how, as a further class, or "". */
function drawEdge(drawing, layout, route, look) {
  const { kind, source, target } = route.edge;
  const [first, ...others] = layout.makePictureCurves(route);
  const formatCurve = ([, ...points]) => `C${points.map(formatPoint).join(" ")}`;
  const path = `M${formatPoint(first[0])} ${[first, ...others].map(formatCurve).join(" ")}`;
  const ends = route.way === "start" ? `data-to="${formatEventPlace(target)}"` : `data-from="${formatEventPlace(source)}" data-to="${formatEventPlace(target)}"`;
  drawing.elements.push(`<path class="${kind ?? "rf"}${look && ` ${look}`}" ${ends} marker-end="url(#to-${kind ?? "rf"})" d="${path}"/>`);
}

/** Writes the name of a relation at its arrow. */
function drawLabel(drawing, layout, route, name) {
  const [x, y] = layout.placeLabel(route, name.length);
  drawing.drawText(roundToTenth(x - (name.length * LETTER) / 2), roundToTenth(y + 4), name, "relation");
}

/** Returns the heads of the arrows, by relation. */
function makeMarkers() {
  const size = 'viewBox="0 0 8 8" refX="7" refY="4" markerWidth="9" markerHeight="9" orient="auto" markerUnits="userSpaceOnUse"';
  const formatHead = (kind) => `<marker id="to-${kind}" ${size}><path class="${kind}" d="M1 1 L7 4 L1 7"/></marker>`;
  return `<defs>${Object.keys(NAMES).map(formatHead).join("")}</defs>`;
}

/** Draws the events, thread by thread, and marks those of a cycle. */
function drawEvents(drawing, layout, execution, texts, inCycle) {
  for (const [thread, events] of layout.threads.entries()) {
    drawing.drawText(...layout.findTitle(thread), `P${thread}`, "title");
    for (const event of events) {
      const [x, y] = layout.findCorner(event);
      const kind = execution.findInstruction(event).kind === "store" ? "entry" : "box";
      drawing.elements.push(`<g data-at="${formatEventPlace(event)}">`);
      drawing.drawBox(x, y, ...layout.box, inCycle.has(event) ? `${kind} marked` : kind);
      drawing.drawText(x + layout.room.beside, y + BASE, texts.get(event));
      drawing.elements.push("</g>");
    }
  }
}

/** Returns the edges of a picture: those of the relations, and those of a marked cycle. */
function listDrawnEdges(execution, cycle) {
  const edges = [...listDirectEdges(execution.listPoEdges()), ...execution.listRfEdges(), ...listDirectEdges(execution.listCoEdges()), ...listDirectFrEdges(execution)];
  return [...edges, ...cycle.filter((it) => !edges.some(isSameEdge(it)))];
}

/** Returns the caption below a picture, line by line. */
function formatCaption(names, cycle, broken, missing) {
  const formatMissingFence = (it) => `${names.letters.get(it.source)}, then ${names.letters.get(it.target)}: no fence between`;
  if (broken) return [`Marked: a cycle, against ${broken.axiom}.`];
  const verdict = cycle.length ? "Marked: a cycle, so no run of interleaving." : "No cycle: a run of interleaving, too.";
  return [verdict, ...missing.map(formatMissingFence)];
}

/**
 * Returns the picture of an execution, with the cycle of the axiom that it breaks if x86-TSO forbids it, or else one of interleaving. If it is forbidden,
 * the arrows that x86-TSO may reverse are pale, unless they are in the cycle.
 * @param {Execution} execution
 * @param {string} title
 * @param {{axiom: string, cycle: Edge[]} | null} [broken]
 * @returns {string}
 */
export function drawExecution(execution, title, broken = null) {
  const [names, cycle] = [new Names(execution), broken?.cycle ?? execution.findCycle() ?? []];
  const missing = broken ? [] : findMissingFences(execution, cycle);
  const texts = new Map(execution.listEvents().map((it) => [it, `${names.letters.get(it)}: ${names.describeEvent(it)}`]));
  const initial = [...execution.rf].filter(([, source]) => source === null).map(([read]) => read);
  const layout = new GraphLayout(execution, texts, listDrawnEdges(execution, broken ? cycle : listUnpreservedPairs(execution, cycle)), initial);
  const drawing = new Drawing();
  drawing.elements.push(`<style>${STYLE}</style>`, makeMarkers());
  const isMarked = ({ edge }) => cycle.some(isSameEdge(edge));
  const isPale = ({ edge }) => broken && (isInternal(edge) || listUnpreservedPairs(execution, [edge]).length > 0);
  const findLook = (it) => (it.way === "start" ? "" : isMarked(it) ? "marked" : isPale(it) ? "pale" : "");
  for (const it of [...layout.routes, ...layout.starts]) drawEdge(drawing, layout, it, findLook(it));
  drawEvents(drawing, layout, execution, texts, new Set(broken ? cycle.map((it) => it.source) : []));
  if (initial.length <= MAX_NAMED) for (const it of layout.starts) drawLabel(drawing, layout, it, "init");
  const named = layout.routes.filter((it) => it.edge.kind !== "po" || isMarked(it));
  for (const it of named) drawLabel(drawing, layout, it, isInternal(it.edge) ? "rfi" : it.edge.kind);
  const lines = formatCaption(names, cycle, broken, missing);
  const [wide, high] = layout.size;
  for (const [at, line] of lines.entries()) drawing.drawText(EDGE, high + LINE * (at + 1) - 5, line, "faint");
  const width = Math.max(wide, ...lines.map((it) => it.length * LETTER + 2 * EDGE));
  return drawing.makeSvg(width, high + LINE * lines.length + EDGE, title);
}
