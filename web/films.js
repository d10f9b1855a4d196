// Films: the code, the state after each number of events of a schedule, each of them a replay by lw, and what each event does. If an
// event is refused, the film ends before it, and `refused` says which and why. The schedule of a source run is found here and not proved;
// the run is shown only if its replay ends in the state.
//
// A `Film` has the `language` and the `text`, the `cells` of each thread, the `events` with their `effects`, the `states`, one more than the events,
// the `protocol`, and `refused`, the event that ends it with its cause, or null. What the program refuses is thrown, as program.js says.

import { formatCanonicalText, listSourceCells, listX86Cells } from "./canonical.js";
import { listStatementStarts } from "./compiling.js";
import { describeEvent } from "./effects.js";
import { insertFences, listFencePlaces } from "./fencing.js";
import { findScheduleOrNull, isTooDeep } from "./lists.js";
import { NoAnswer, Refused, decodeText, encodeText, parseLanguage } from "./program.js";
import { isFinalIn, parseSchedule } from "./replays.js";
import { readTest } from "./tests.js";
import { NoTest } from "./tokens.js";

const MAX_STEPS = 1000;
// The largest number of events by which a run is completed.
const MAX_ADDED = 200;

/**
 * Returns, for each thread, the code that the page shows: of an x86 test that of its canonical text. Throws NoTest if the page's own reader does not read
 * a source test.
 * @param {Program} program
 * @param {Uint8Array} text
 * @returns {Cell[][]}
 */
export function listCells(program, text) {
  return parseLanguage(text) === "X86" ? listX86Cells(program.ask(["compile"], text)) : listSourceCells(readTest(decodeText(text)));
}

/**
 * Returns the film of a schedule. Throws NoAnswer if it has more than `MAX_STEPS` events.
 * @param {Program} program
 * @param {Uint8Array} text
 * @param {string} schedule
 * @param {string} protocol
 * @returns {Film}
 */
export function makeFilm(program, text, schedule, protocol) {
  const scheduled = parseSchedule(schedule);
  if (scheduled.length > MAX_STEPS) {
    throw new NoAnswer(`The schedule has ${scheduled.length} events; a film has at most ${MAX_STEPS}.`);
  }
  const { end } = program.replay(text, scheduled.join(" "), protocol);
  const refused = end.kind === "Stopped" ? { event: scheduled[end.at], at: end.at, number: end.number, cause: end.cause } : null;
  const events = scheduled.slice(0, refused?.at);
  const states = program.listStatesAlong(text, events, protocol);
  const cells = listCells(program, text);
  const effects = events.map((event, index) => describeEvent(event, cells, states[index], states[index + 1]));
  return { language: parseLanguage(text), text: decodeText(text), cells, events, effects, states, refused, protocol };
}

/**
 * Returns a schedule of an x86 test that continues to the end of the run: each thread runs to its end, and its store buffer drains.
 * @param {Program} program
 * @param {Uint8Array} text
 * @param {string} schedule
 * @returns {string}
 */
export function completeSchedule(program, text, schedule) {
  const events = parseSchedule(schedule);
  let { end, threads } = program.replay(text, schedule, "mesi");
  while (end.kind === "NotFinal" && events.length < MAX_ADDED) {
    const options = threads.flatMap(({ buffer }, thread) => [`P${thread}`, ...(buffer.length ? [`D${thread}`] : [])]);
    const next = options.find((it) => program.replay(text, [...events, it].join(" "), "mesi").end.kind !== "Stopped");
    if (next === undefined) break;
    events.push(next);
    ({ end, threads } = program.replay(text, events.join(" "), "mesi"));
  }
  return events.join(" ");
}

/**
 * Returns a schedule of an x86 test to a state in which each store drains at once, as by interleaving; null if none is known. It is that of the test with a
 * fence before each load that may pass a store, without these fences, and with each store put off until it drains. It is shown only if its replay ends in the
 * state.
 * @param {Program} program
 * @param {Uint8Array} text
 * @param {string} state
 * @param {How} how
 * @returns {string | null}
 */
export function findInterleavedSchedule(program, text, state, how) {
  const test = readTest(program.ask(["compile"], text));
  const places = listFencePlaces(test);
  const fenced = encodeText(formatCanonicalText(insertFences(test, places)));
  const events = parseSchedule(findScheduleOrNull(program, fenced, state, how) ?? "");
  if (!events.length || events.length > MAX_STEPS) return null;
  const states = program.listStatesAlong(fenced, events, "mesi");
  // A fence that was put in is at its place, after those before it.
  const isFence = (thread, at) => places.filter(([of]) => of === thread).some(([, position], index) => position + index === at);
  const waiting = states[0].threads.map(() => []);
  const taken = [];
  const takeUpToStore = (thread) => {
    while (waiting[thread].length && !waiting[thread][0].isStore) taken.push(waiting[thread].shift().event);
  };
  for (const [index, event] of events.entries()) {
    const thread = Number(event[1]);
    const [before, after] = [states[index], states[index + 1]].map((it) => it.threads[thread]);
    if (event[0] === "D") {
      taken.push(waiting[thread].shift().event, event);
      takeUpToStore(thread);
    } else if (event[0] === "P" && !isFence(thread, before.at)) {
      waiting[thread].push({ event, isStore: after.buffer.length > before.buffer.length });
      takeUpToStore(thread);
    }
  }
  return [...taken, ...waiting.flat().map((it) => it.event)].join(" ");
}

/**
 * Returns the schedule of a compiled program that follows a source run: the instructions of each statement, and then its store drains. Returns null if an
 * event of it is refused.
 * @param {Program} program
 * @param {Uint8Array} compiled
 * @param {Test} test
 * @param {string} schedule
 * @returns {string | null}
 */
export function compileSchedule(program, compiled, test, schedule) {
  const begins = test.threads.map((statements) => new Set(listStatementStarts(statements)));
  const lengths = listCells(program, compiled).map((cells) => cells.filter(({ text }) => !text.endsWith(":")).length);
  const events = [];
  for (const event of parseSchedule(schedule)) {
    const thread = Number(event[1]);
    let state;
    do {
      events.push(event);
      const { end, threads } = program.replay(compiled, events.join(" "), "mesi");
      if (end.kind === "Stopped") return null;
      state = threads[thread];
    } while (!begins[thread].has(state.at) && state.at < lengths[thread]);
    events.push(...state.buffer.map(() => `D${thread}`));
  }
  return events.join(" ");
}

/**
 * Returns the schedule of the source run that a compiled program's run represents: a step for each instruction that begins a statement.
 * @param {Test} test
 * @param {Film} film
 * @returns {string}
 */
function makeSourceSchedule(test, film) {
  const begins = test.threads.map((statements) => new Set(listStatementStarts(statements)));
  const beginsStatement = (event, at) => {
    const thread = Number(event[1]);
    return event[0] === "P" && begins[thread].has(film.states[at].threads[thread].at);
  };
  return film.events.filter(beginsStatement).join(" ");
}

/**
 * Returns the film of the source run to a state, or null if that run is not known to end there.
 * @param {Program} program
 * @param {Uint8Array} text
 * @param {Film} compiledFilm
 * @param {string} state
 * @returns {Film | null}
 */
export function makeSourceFilm(program, text, compiledFilm, state) {
  try {
    const film = makeFilm(program, text, makeSourceSchedule(readTest(decodeText(text)), compiledFilm), "mesi");
    return isFinalIn(film.states.at(-1), state) ? film : null;
  } catch (error) {
    if (error instanceof NoTest || error instanceof Refused || isTooDeep(error)) return null;
    throw error;
  }
}
