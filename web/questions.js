// Answers the questions of the page: a question with its fields comes in, and the answer goes out. Proved answers come from lw: reports,
// schedules, compiled texts and replays. The page itself finds the rest, and says so where it shows it: the marks on states,
// in which state a run by hand has ended, the rows of statements, texts without fences, and the schedule of a source run.
//
// An answer has `fault` if lw refuses the text, the schedule or the list, and `error` if there is no answer at all; `isBeyond` says that
// the program itself may have one, and `refused` is the event of a schedule that is refused. Within this module the first is thrown as Refused, and
// the second as NoAnswer, or as NoTest if the page's own reader does not read the test; `answerQuestion` catches them.

import { formatCanonicalText, listSourceCells, listX86Cells } from "./canonical.js";
import { makeEndTest, makeEndedFilter, parseQuestion } from "./condition_words.js";
import { describeEvent, describeRefusal } from "./effects.js";
import { findEnoughTogether, makeExchangeTable } from "./exchanges.js";
import { makeExecution } from "./executions.js";
import { compileSchedule, completeSchedule, findInterleavedSchedule, listCells, makeFilm, makeSourceFilm } from "./films.js";
import { findHelpingSets, insertFences, listFencePlaces } from "./fencing.js";
import { drawExecution, formatExecution } from "./graphs.js";
import { describeEnding, findSchedule, isTooDeep, listOrNull, makeReport } from "./lists.js";
import { drawFilmState, drawStrip } from "./pictures.js";
import { NoAnswer, Refused, decodeText, encodeText, parseLanguage } from "./program.js";
import { formatCondition } from "./propositions.js";
import { isFinalIn, parseSchedule } from "./replays.js";
import { listFences, makeFenceTable, removeFences, showEverything } from "./sparing.js";
import { readTest } from "./tests.js";
import { REGISTERS } from "./token_reader.js";
import { NoTest } from "./tokens.js";
import { describeReport } from "./verdicts.js";
import { explainStates, findCandidateState } from "./why_not.js";

// One byte more than a text may have.
const MAX_TEXT = 65537;
// The largest number of events of a run whose written registers are looked for.
const MAX_LOOKED_AT = 100;

/** Returns the report, with `search` by a search; `onProgress` is called with words on how far that is. */
function answerStates(program, text, { search = false }, onProgress) {
  const report = makeReport(program, text, { search, onProgress });
  const language = parseLanguage(text);
  return { report, language, words: describeReport(language, report) };
}

/**
 * Returns a film. It is that of `own`, a schedule of the test's language, if that run ends in the state, or if `state` is null; and otherwise
 * that to the state, or to `otherwise`.
 */
function answerFilm(program, text, { own = null, state, otherwise = null, ...how }, onProgress) {
  const film = own === null ? null : makeOwnFilmOrNull(program, text, own, how);
  return film && (state ?? film.state) === film.state ? film : makeListedFilm(program, text, { state: state ?? otherwise, ...how }, onProgress);
}

/**
 * Returns the film of a schedule that a test has of its own; null also if the schedule is none of the test.
 * @param {Program} program
 * @param {Uint8Array} text
 * @param {string} schedule
 * @param {{protocol: string}} how
 * @returns {object | null}
 */
function makeOwnFilmOrNull(program, text, schedule, how) {
  try {
    return makeOwnFilm(program, text, schedule, how);
  } catch (error) {
    if (error instanceof Refused || error instanceof NoAnswer || error instanceof NoTest) return null;
    throw error;
  }
}

/**
 * Returns the film of a schedule that a test has of its own, of a source test also that of the compiled program, which follows it; null if the
 * schedule is no run to the end.
 */
function makeOwnFilm(program, text, own, { protocol }) {
  const isSource = parseLanguage(text) === "SRC";
  const film = makeFilm(program, text, isSource ? own : completeSchedule(program, text, own), isSource ? "mesi" : protocol);
  const state = describeEnding(text, film.states.at(-1))?.line;
  if (film.refused || state === undefined) return null;
  if (!isSource) return { state, schedule: film.events.join(" "), films: { x86: film }, isOwn: true };
  const compiled = encodeText(program.ask(["compile"], text));
  const schedule = compileSchedule(program, compiled, readTest(decodeText(text)), own);
  const x86 = schedule === null ? null : makeFilm(program, compiled, schedule, protocol);
  return x86 && isFinalIn(x86.states.at(-1), state) ? { state, schedule, films: { x86, source: film }, isOwn: true } : null;
}

/**
 * Returns the film to a state; of a source test that of its compiled program, and that of the source run. With `isByTurns` it is a run of an x86 test
 * by interleaving, if one ends in the state. Throws NoAnswer if no run does, or the film does not.
 */
function makeListedFilm(program, text, { state, protocol, search = false, isByTurns = false }, onProgress) {
  const turns = isByTurns ? makeFilmByTurnsOrNull(program, text, { state, protocol, search, onProgress }) : null;
  if (turns) return turns;
  const schedule = findSchedule(program, text, state, { search, onProgress });
  const isSource = parseLanguage(text) === "SRC";
  const compiled = isSource ? encodeText(program.ask(["compile"], text)) : text;
  const films = { x86: makeFilm(program, compiled, schedule, protocol) };
  if (isSource) films.source = makeSourceFilm(program, text, films.x86, state);
  if (!isFinalIn(films.x86.states.at(-1), state)) throw new NoAnswer("The schedule's replay does not end in that state.");
  return { state, schedule, films };
}

/** Returns the film of a run of an x86 test by interleaving to a state; null if none is known, or the page's own reader reads no x86 test. */
function makeFilmByTurnsOrNull(program, text, { state, protocol, ...how }) {
  try {
    if (parseLanguage(text) === "SRC") return null;
    const schedule = findInterleavedSchedule(program, text, state, how);
    const x86 = schedule === null ? null : makeFilm(program, text, schedule, protocol);
    return x86 && !x86.refused && isFinalIn(x86.states.at(-1), state) ? { state, schedule, films: { x86 }, isByTurns: true } : null;
  } catch (error) {
    if (error instanceof NoTest || isTooDeep(error)) return null;
    throw error;
  }
}

/**
 * Returns a state with what led to it, in what it ends, and what the machine can do next: each event, with its cause if it is refused; with
 * `whole` also of each thread the registers that events have put words into. Throws NoAnswer if an event of the schedule is refused.
 */
function answerMoves(program, text, { schedule, protocol, whole = false }) {
  const state = program.replay(text, schedule, protocol);
  if (state.end.kind === "Stopped") throw makeNoAnswer(state.end, parseSchedule(schedule));
  const language = parseLanguage(text);
  const events = state.threads.flatMap((_, thread) => listThreadEvents(thread, language === "X86" ? state.content : null));
  const moves = events.map((event) => {
    const { end } = program.replay(text, `${schedule} ${event}`, protocol);
    const refused = end.kind === "Stopped" ? { number: end.number, cause: end.cause } : null;
    return { event, thread: Number(event[1]), refused };
  });
  const cells = listCells(program, text);
  const ending = describeEnding(text, state);
  const registers = whole ? listWrittenRegisters(program, text, { schedule, protocol }, cells) : null;
  return { state, ...describeLastEvent(program, text, { schedule, protocol }, cells, state), written: registers, ending, moves, cells, language };
}

/**
 * Returns, for each thread, the registers that the events of a schedule have put words into, or null if there are too many events to look at.
 * @param {Program} program
 * @param {Uint8Array} text
 * @param {{schedule: string, protocol: string}} run
 * @param {Cell[][]} cells
 * @returns {string[][] | null}
 */
function listWrittenRegisters(program, text, { schedule, protocol }, cells) {
  const events = parseSchedule(schedule);
  if (events.length > MAX_LOOKED_AT) return null;
  const states = program.listStatesAlong(text, events, protocol);
  const written = cells.map(() => []);
  for (const [index, event] of events.entries()) {
    const { thread, register } = describeEvent(event, cells, states[index], states[index + 1]);
    if (register !== undefined && !written[thread].includes(register)) written[thread].push(register);
  }
  return written;
}

/**
 * Returns the exception that says which event of a schedule is refused, and why.
 * @param {{at: number, number: number, cause: string}} end
 * @param {string[]} events
 * @returns {NoAnswer}
 */
function makeNoAnswer({ at, number, cause }, events) {
  const refused = { event: events[at], at, number, cause };
  return new NoAnswer(`Event ${at + 1} of the schedule, ${events[at]}, is refused: ${describeRefusal(number)}.`, { refused });
}

/**
 * Returns the state before the last event of a schedule, and what that event does; without an event the state itself, and null. `state` is
 * the state after the schedule.
 * @param {Program} program
 * @param {Uint8Array} text
 * @param {{schedule: string, protocol: string}} run
 * @param {Cell[][]} cells
 * @param {State} state
 * @returns {{before: State, effect: Effect | null}}
 */
function describeLastEvent(program, text, { schedule, protocol }, cells, state) {
  const events = parseSchedule(schedule);
  const last = events.pop();
  if (!last) return { before: state, effect: null };
  const before = program.replay(text, events.join(" "), protocol);
  return { before, effect: describeEvent(last, cells, before, state) };
}

/**
 * Returns the events of a thread; of an x86 test, which has a content, drains and evictions too.
 * @param {number} thread
 * @param {[string, number][] | null} content
 * @returns {string[]}
 */
function listThreadEvents(thread, content) {
  return content ? [`P${thread}`, `D${thread}`, ...content.map(([name]) => `E${thread}:${name}`)] : [`P${thread}`];
}

/** Returns a test beside what it is compiled to, with fences and without. */
function answerCompile(program, text) {
  const compiled = program.ask(["compile"], text);
  const test = readTest(compiled);
  const fences = listFences(test);
  const bare = formatCanonicalText(removeFences(test, fences));
  const language = parseLanguage(text);
  const answer = { language, compiled, bare, cells: listX86Cells(compiled), bare_cells: listX86Cells(bare), fences };
  return language === "SRC" ? { ...answer, cells_of_source: listSourceCells(readTest(decodeText(text))) } : answer;
}

/** Returns the table of fences, with the maker of its lists (with `search` a search), and for each row the text without its fence. */
function answerFences(program, text, { everything, search = false }, onProgress) {
  const test = readTest(program.ask(["compile"], text));
  const leaveOut = makeEndedList(text);
  const listOf = (canonical) => leaveOut(listOrNull(program, encodeText(canonical), { search, onProgress }));
  const compared = everything ? showEverything(test) : test;
  const texts = listFences(compared).map((fence) => formatCanonicalText(removeFences(compared, [fence])));
  return { table: makeFenceTable(compared, listOf), condition: formatCondition(test), texts, language: parseLanguage(text) };
}

/**
 * Returns a function that leaves out of a list of states, or null, those in which a wait has not ended, as a phrase of the text says; unless that
 * would be all.
 * @param {Uint8Array} text
 * @returns {function(({lines: string[], positive: number} | null)): ({lines: string[], positive: number} | null)}
 */
function makeEndedList(text) {
  const decoded = decodeText(text);
  const [leaveOut, { isAsked, isRequired }] = [makeEndedFilter(decoded), parseQuestion(decoded)];
  return (list) => {
    const lines = leaveOut(list?.lines ?? [], (it) => it);
    return lines.length === list?.lines.length ? list : list && { lines, positive: lines.filter((it) => isAsked(it) !== isRequired).length };
  };
}

/**
 * Returns a function that lists the states of a text, as listOrNull does, in which every wait has ended. It throws NoAnswer if more lists are made
 * than a limit has, or later than that.
 */
function makeLister(program, of, { search = false, limit = { lists: Infinity, milliseconds: Infinity } }, onProgress) {
  const leaveOut = makeEndedList(of);
  const end = performance.now() + limit.milliseconds;
  let count = 0;
  return (canonical) => {
    count += 1;
    if (count > limit.lists || performance.now() > end) throw new NoAnswer("This takes longer than it may.");
    return leaveOut(listOrNull(program, encodeText(canonical), { search, onProgress }));
  };
}

/** Returns which exchanges of a test need their lock, by its question or by everything. Throws NoAnswer as answerMoreFences does. */
function answerExchanges(program, text, fields, onProgress) {
  const test = readTest(program.ask(["compile"], text));
  return { exchanges: makeExchangeTable(fields.everything ? showEverything(test) : test, makeLister(program, text, fields, onProgress)) };
}

/** Returns which fences and locks of a test are enough together, by its question or by everything. Throws NoAnswer as answerMoreFences does. */
function answerEnoughTogether(program, text, fields, onProgress) {
  const test = readTest(program.ask(["compile"], text));
  return { together: findEnoughTogether(fields.everything ? showEverything(test) : test, test, makeLister(program, text, fields, onProgress)) };
}

/**
 * Returns where further fences would leave no unwanted state of an x86 test; for a source test, whose compiler adds them, nothing. Throws NoAnswer if
 * the answer needs more lists or milliseconds than the `limit`.
 */
function answerMoreFences(program, text, fields, onProgress) {
  if (parseLanguage(text) === "SRC") return { fenced: null };
  return { fenced: findHelpingSets(readTest(program.ask(["compile"], text)), makeLister(program, text, fields, onProgress)) };
}

/**
 * Returns the lines of the states of an x86 test that interleaving gives, too: those with a fence before each load that may pass a store. They are
 * null if lw refuses that list.
 */
function answerInterleaved(program, text, { search = false }, onProgress) {
  const test = readTest(program.ask(["compile"], text));
  const list = listOrNull(program, encodeText(formatCanonicalText(insertFences(test, listFencePlaces(test)))), { search, onProgress });
  return { interleaved: list && list.lines };
}

/** Returns a picture of the last state of a schedule, or a strip of all its states. */
function answerPicture(program, text, { schedule, protocol, strip }) {
  const film = makeFilm(program, text, schedule, protocol);
  return { picture: strip ? drawStrip(film) : drawFilmState(film, film.events.length) };
}

/**
 * Returns the execution of a run to its end, of a source test one of its compiled program, as a picture and in words. Throws NoAnswer if the schedule
 * is no run to the end.
 */
function answerGraph(program, text, { schedule }) {
  const canonical = program.ask(["compile"], text);
  const film = makeFilm(program, encodeText(canonical), schedule, "mesi");
  const last = film.states.at(-1);
  if (last.end.kind !== "Final") throw new NoAnswer("The schedule is no run to the end.", { isUnended: true });
  const test = readTest(canonical);
  const steps = film.events.map((word, index) => [word, film.states[index + 1].threads[Number(word[1])].at]);
  const execution = makeExecution(test, steps);
  const graph = drawExecution(execution, `${test.name}, the execution of ${schedule}`);
  return { graph, words: formatExecution(execution), hasCycle: Boolean(execution.findCycle()) };
}

/** Returns why a test does not end in a state. A source test's registers are those of its compiled program, by their numbers. */
function answerWhyNot(program, text, { state }) {
  const language = parseLanguage(text);
  const test = readTest(program.ask(["compile"], text));
  if (language === "X86") return { ...explainStates(test, state), language };
  try {
    const { lines, cycles } = explainStates(test, renameRegisters(state, REGISTERS.SRC, REGISTERS.X86));
    return { lines: lines.map(renameToSource), cycles: cycles.map((it) => ({ ...it, words: renameToSource(it.words) })), language };
  } catch (error) {
    if (error instanceof NoAnswer) error.message = renameToSource(error.message);
    throw error;
  }
}

/**
 * Returns a state that the condition asks about, that a list lacks, and that some candidate execution has, in the names of the test, or null if none
 * is found; and whether a cycle of several locations forbids it.
 */
function answerCandidate(program, text, { listed }) {
  const isX86 = parseLanguage(text) === "X86";
  const lines = isX86 ? listed : listed.map((it) => renameRegisters(it, REGISTERS.SRC, REGISTERS.X86));
  const { state, isOfSeveral } = findCandidateState(readTest(program.ask(["compile"], text)), lines, isX86 ? makeEndTest(decodeText(text)) : null);
  return { state: isX86 || state === null ? state : renameToSource(state), isOfSeveral };
}

/** Returns words on a compiled program, in which registers have the names of its source. */
const renameToSource = (words) => renameRegisters(words, REGISTERS.X86, REGISTERS.SRC);

/**
 * Returns words in which registers have their names of another language, by their numbers.
 * @param {string} words
 * @param {string[]} from
 * @param {string[]} to
 * @returns {string}
 */
function renameRegisters(words, from, to) {
  return words.replace(/\b([0-3]):([A-Za-z]\w*)\b/g, (name, thread, register) => {
    const number = from.indexOf(register);
    return number < 0 ? name : `${thread}:${to[number]}`;
  });
}

const QUESTIONS = {
  states: answerStates,
  film: answerFilm,
  moves: answerMoves,
  compile: answerCompile,
  fences: answerFences,
  "more fences": answerMoreFences,
  exchanges: answerExchanges,
  "enough together": answerEnoughTogether,
  interleaved: answerInterleaved,
  picture: answerPicture,
  graph: answerGraph,
  "why not": answerWhyNot,
  candidate: answerCandidate,
};

/**
 * Returns the answer of a program to a question. What takes long calls `onProgress` with words on how far it is.
 * @param {Program} program
 * @param {string} question
 * @param {{text: string}} fields
 * @param {function(string): void} [onProgress]
 * @returns {object}
 */
export function answerQuestion(program, question, { text, ...more }, onProgress = () => null) {
  try {
    return QUESTIONS[question](program, encodeText(text).subarray(0, MAX_TEXT), more, onProgress);
  } catch (error) {
    if (error instanceof Refused) return { fault: error.fault };
    if (error instanceof NoAnswer) return { error: error.message, ...error.more };
    if (!(error instanceof NoTest) && !isTooDeep(error)) throw error;
    return { error: "The page's own reader of tests, which this needs, does not read this test (it may be nested too deeply)." };
  }
}
