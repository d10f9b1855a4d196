// Draws the machine as a picture: one state of a film, or a strip of all its states, as an SVG for paper, screens and dark mode.
//
// For each thread the picture shows its code, with an arrow at what comes next, the registers that it uses, its store buffer, with the oldest
// entry nearest to memory, and the cache lines that it holds, with their letters; below them the words that a load finds. What the last
// event has changed or added is bold and underlined, and what it has read is bold and slanted.

import { describeRefusal } from "./effects.js";

// The width of a letter.
export const LETTER = 7.9;
// The height of a line.
export const LINE = 19;
export const EDGE = 10;
export const GAP = 14;
// How many panels a row of a strip has, and a strip at most.
const PANELS = 3;
const MAX_PANELS = 100;
const STYLE = `
text { font: 13px ui-monospace, Menlo, Consolas, "DejaVu Sans Mono", monospace; fill: #1b1b1b; white-space: pre }
.title { font-weight: bold } .faint { fill: #5c5c5c } .changed { font-weight: bold; text-decoration: underline; fill: #8a2c00 }
.read { font-weight: bold; font-style: italic; fill: #1f4e8c }
.ground { fill: #fff } .box { fill: #f7f7f4; stroke: #6b6b6b } .entry { fill: #fff3d6; stroke: #8a6a00 }
.word { fill: #e3eefc; stroke: #34609c } .next { font-weight: bold }
@media (prefers-color-scheme: dark) {
text { fill: #ececec } .faint { fill: #b0b0b0 } .changed { fill: #ffb27a } .read { fill: #9cc3f7 }
.ground { fill: #16181c } .box { fill: #22252b; stroke: #8d939c } .entry { fill: #4a3a10; stroke: #d9b14a }
.word { fill: #1d3350; stroke: #7fb0f0 }
}
`;

/** Returns a text as SVG has it. */
function escapeMarkup(text) {
  return text.replaceAll("&", "&amp;").replaceAll("<", "&lt;").replaceAll(">", "&gt;");
}

/**
 * Writes a number with six digits at most, and without zeros at its end.
 * @param {number} number
 * @returns {string}
 */
export function formatNumber(number) {
  return String(Number(number.toPrecision(6)));
}

/** The elements of a picture. */
export class Drawing {
  constructor() {
    this.elements = [];
  }

  /** Draws a text, whose class is `kind`. */
  drawText(x, y, text, kind = "") {
    const attributes = kind ? ` class="${kind}"` : "";
    this.elements.push(`<text x="${formatNumber(x)}" y="${formatNumber(y)}"${attributes}>${escapeMarkup(text)}</text>`);
  }

  /** Draws a box with round corners, whose class is `kind`. */
  drawBox(x, y, width, height, kind = "box") {
    const attributes = `x="${formatNumber(x)}" y="${formatNumber(y)}" width="${formatNumber(width)}" height="${formatNumber(height)}"`;
    this.elements.push(`<rect ${attributes} rx="4" class="${kind}"/>`);
  }

  /** Draws a text in a box of its own. Returns the end of the box. */
  drawFramedText(x, y, text, kind, textKind) {
    const width = text.length * LETTER + 12;
    this.drawBox(x, y, width, LINE, kind);
    this.drawText(x + 6, y + 14, text, textKind);
    return x + width;
  }

  /** Returns the picture as SVG. */
  makeSvg(width, height, title) {
    const [w, h] = [formatNumber(width), formatNumber(height)];
    const head = `<svg xmlns="http://www.w3.org/2000/svg" width="${w}" height="${h}" viewBox="0 0 ${w} ${h}" role="img">`;
    const named = `<title>${escapeMarkup(title)}</title>\n<style>${STYLE}</style>`;
    return [head, named, `<rect width="${w}" height="${h}" class="ground"/>`, ...this.elements, "</svg>\n"].join("\n");
  }
}

// The parts of a picture.

/** Returns the registers that a thread's code names, or that have a word other than 0 at some time. */
function listUsedRegisters(film, thread) {
  const named = new Set(film.cells[thread].flatMap((it) => it.text.match(/\w+/g) ?? []));
  const rows = film.states.map((state) => state.threads[thread].registers);
  return rows[0].map(([name]) => name).filter((name, index) => named.has(name) || rows.some((row) => row[index][1]));
}

/** Returns the title of a step of a strip: its event, with its code. */
function formatTitle(film, step) {
  if (!step) return "0  at the start";
  const event = film.events[step - 1];
  const thread = Number(event[1]);
  const { at } = film.states[step - 1].threads[thread];
  const next = event[0] === "P" && film.cells[thread].find((it) => it.at === at && !it.text.endsWith(":"));
  return `${step}  ${event}${next ? `: ${next.text}` : ""}`;
}

/** Returns the effect of the event before a step, in lines of at most that number of letters. */
function formatEffect(film, step, letters) {
  const lines = [];
  for (const word of step ? film.effects[step - 1].words.replaceAll("`", "").split(" ") : []) {
    const longer = lines.length ? `${lines.at(-1)} ${word}` : word;
    if (lines.length && longer.length <= letters) lines[lines.length - 1] = longer;
    else lines.push(word);
  }
  return lines;
}

/** Returns the words on the event before which a film ends. */
function formatRefusal({ refused }) {
  return refused ? `Here ${refused.event} is refused: ${describeRefusal(refused.number)}` : "";
}

/** Returns the cache lines that a thread's cache holds, each as `x:M`. */
function listHeldLines(thread) {
  return (thread.lines ?? []).filter(([, letter]) => letter !== "I").map(([name, letter]) => `${name}:${letter}`);
}

/** The room that the threads of a film need, the same for all its states. */
class Measures {
  constructor(film) {
    const threadStates = film.states.flatMap((state) => state.threads);
    this.used = film.cells.map((_, thread) => listUsedRegisters(film, thread));
    this.hasBuffers = "buffer" in film.states[0].threads[0];
    this.entries = this.hasBuffers ? Math.max(1, ...threadStates.map((it) => it.buffer.length)) : 0;
    this.code = Math.max(1, ...film.cells.map((column) => column.length));
    this.registers = Math.max(1, ...this.used.map((it) => it.length));
    this.hasLines = threadStates.some((it) => listHeldLines(it).length > 0);
    this.width = Math.max(...film.cells.map((_, thread) => this.findWidth(film, thread)));
    this.height = LINE * (this.code + this.registers + 2) + EDGE * 2;
    this.height += this.hasBuffers ? (this.entries + 1) * (LINE + 3) : 0;
    this.height += this.hasLines ? LINE : 0;
    const content = film.states.at(-1).content.reduce((sum, [name, word]) => sum + (`${name}=${word}`.length * LETTER + 20), 0);
    this.wholeWidth = Math.max(film.cells.length * (this.width + GAP) - GAP, content + 10 * LETTER);
    this.wholeHeight = this.height + GAP + LINE + 8;
  }

  /** Returns the width that a thread needs for its longest text. */
  findWidth(film, thread) {
    const texts = ["store buffer", ...film.cells[thread].map((it) => `${it.text}  `)];
    for (const state of film.states) {
      const threadState = state.threads[thread];
      texts.push(...[...threadState.registers, ...(threadState.buffer ?? [])].map(([name, word]) => `${name}=${word}`));
      texts.push(`lines ${listHeldLines(threadState).join(" ")}`);
    }
    return Math.max(...texts.map((it) => it.length)) * LETTER + EDGE * 2;
  }
}

// Drawing.

/** Draws a thread: its code, its registers, its store buffer and its cache lines. */
function drawThread(drawing, film, step, thread, left, y, measures) {
  const state = film.states[step].threads[thread];
  const threadBefore = film.states[Math.max(step - 1, 0)].threads[thread];
  const effect = step && film.effects[step - 1].thread === thread ? film.effects[step - 1] : {};
  drawing.drawBox(left, y, measures.width, measures.height);
  const x = left + EDGE;
  let top = y + LINE;
  drawing.drawText(x, top, `P${thread}`, "title");
  drawCode(drawing, film.cells[thread], state.at, x, top);
  top += LINE * (measures.code + 1) + 4;
  const [words, oldWords] = [new Map(state.registers), new Map(threadBefore.registers)];
  for (const [row, name] of measures.used[thread].entries()) {
    const word = words.get(name);
    drawing.drawText(x, top + LINE * row, `${name}=${word}`, word !== oldWords.get(name) || name === effect.register ? "changed" : "");
  }
  top += LINE * measures.registers;
  if (measures.hasLines) {
    const isChanged = JSON.stringify(state.lines) !== JSON.stringify(threadBefore.lines);
    drawing.drawText(x, top, `lines ${listHeldLines(state).join(" ") || "none"}`, isChanged ? "changed" : "faint");
    top += LINE;
  }
  if (measures.hasBuffers) drawBuffer(drawing, state.buffer, threadBefore.buffer, effect.entry, x, top, measures);
}

/** Draws the code of a thread, with an arrow at the next instruction. */
function drawCode(drawing, cells, position, x, top) {
  for (const [row, cell] of cells.entries()) {
    const isNext = cell.at === position;
    const kind = isNext ? "next" : cell.at < position ? "faint" : "";
    drawing.drawText(x, top + LINE * (row + 1), (isNext ? "▸ " : "  ") + cell.text, kind);
  }
}

/** Draws a store buffer as a queue: the oldest entry is lowest, next to memory. */
function drawBuffer(drawing, buffer, bufferBefore, entryRead, x, top, measures) {
  drawing.drawText(x, top, "store buffer", "faint");
  if (!buffer.length) drawing.drawText(x, top + 6 + (measures.entries - 1) * (LINE + 3) + 14, "(empty)", "faint");
  for (const [index, [name, word]] of buffer.entries()) {
    const isNew = buffer.length > bufferBefore.length && index === buffer.length - 1;
    const y = top + 6 + (measures.entries - 1 - index) * (LINE + 3);
    drawing.drawFramedText(x, y, `${name}=${word}`, "entry", isNew ? "changed" : index === entryRead ? "read" : "");
  }
}

/** Draws one state of a film. */
function drawState(drawing, film, step, left, y, measures) {
  for (const thread of film.cells.keys()) drawThread(drawing, film, step, thread, left + thread * (measures.width + GAP), y, measures);
  const before = new Map(film.states[Math.max(step - 1, 0)].content);
  const top = y + measures.height + GAP;
  drawing.drawText(left, top + 14, measures.hasBuffers ? "content" : "memory", "title");
  let x = left + 9 * LETTER;
  for (const [name, word] of film.states[step].content) {
    const isRead = step && film.effects[step - 1].location === name;
    x = drawing.drawFramedText(x, top, `${name}=${word}`, "word", before.get(name) !== word ? "changed" : isRead ? "read" : "") + 8;
  }
}

/**
 * Returns a picture of one state of a film.
 * @param {Film} film
 * @param {number} step
 * @returns {string}
 */
export function drawFilmState(film, step) {
  const drawing = new Drawing();
  const measures = new Measures(film);
  drawState(drawing, film, step, EDGE, EDGE, measures);
  const title = `${film.states[0].name} after ${film.events.slice(0, step).join(" ") || "no event"}`;
  const refusal = step === film.events.length ? formatRefusal(film) : "";
  const width = Math.max(measures.wholeWidth, refusal.length * LETTER);
  const height = measures.wholeHeight + 2 * EDGE + drawRefusal(drawing, refusal, measures.wholeHeight + EDGE);
  return drawing.makeSvg(width + 2 * EDGE, height, title);
}

/** Draws why the event that a film ends before is refused. Returns the height that this takes. */
function drawRefusal(drawing, refusal, y) {
  if (!refusal) return 0;
  drawing.drawText(EDGE, y + 14, refusal, "changed");
  return LINE;
}

/**
 * Returns a strip of all states of a film, each below the event that leads to it and what that does.
 * @param {Film} film
 * @returns {string}
 */
export function drawStrip(film) {
  const drawing = new Drawing();
  const measures = new Measures(film);
  const number = Math.min(film.states.length, MAX_PANELS);
  const titles = Array.from({ length: number }, (_, step) => formatTitle(film, step));
  const width = Math.max(measures.wholeWidth, ...titles.map((it) => it.length * LETTER));
  const captions = titles.map((title, step) => [title, ...formatEffect(film, step, Math.floor(width / LETTER))]);
  const rows = Math.max(...captions.map((it) => it.length));
  const height = measures.wholeHeight + LINE * rows + GAP;
  for (const [step, lines] of captions.entries()) {
    const [x, y] = [EDGE + (step % PANELS) * (width + 2 * GAP), EDGE + Math.floor(step / PANELS) * (height + GAP)];
    for (const [row, line] of lines.entries()) drawing.drawText(x, y + 14 + LINE * row, line, row ? "" : "title");
    drawState(drawing, film, step, x, y + LINE * rows + 4, measures);
  }
  const [across, down] = [Math.min(number, PANELS), Math.ceil(number / PANELS)];
  const refused = drawRefusal(drawing, formatRefusal(film), down * (height + GAP));
  const title = `${film.states[0].name}, event by event: ${film.events.join(" ")}`;
  return drawing.makeSvg(across * (width + 2 * GAP) - 2 * GAP + 2 * EDGE, down * (height + GAP) + EDGE + refused, title);
}
