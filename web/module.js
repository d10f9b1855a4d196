// The proved workbench as a WebAssembly module: loads it, lays its memory out, and calls it. All that this page knows of the module's
// calls is here, and nothing else is.
//
// The module has no imports. A call gets memory after __heap_base: the text, the schedule, the result, the room for the answer,
// and after them all that it may allocate from. A call leaves nothing allocated, so the instance for calls that need little answers one
// after another; one that has trapped answers nothing more, and another takes its place. Addresses have 64 bits; a module that was
// lowered to memories of 32 bits is called in the same way.

const PAGE = 65536;
const GRAIN = 16;
const MEGABYTE = 2 ** 20;
// How many megabytes a call may allocate, besides an eighth of that as the room for its answer: little first, since most calls need
// little and an instance with little is made fast; and if that was not enough, more, or as much as the browser gives, of an instance
// for only that call.
const LITTLE = [2, 64];
const MUCH = [1024, 512, 256, 128];
const SHORT_OF_MEMORY = "lw: memory";
// The word of `beyond` before the most states that a search may find.
const BUDGET = "--budget";
const MAX_BUDGET = 2n ** 64n - 1n;
const LISTS = ["states", "schedules", "marks"];
// The calls that take a schedule.
const REPLAYS = ["replay", "film"];
// The kinds of results whose bytes are no answer.
const FAULT = 1;
const ROOM_TOO_SMALL = 2;

/** The call ended without an answer: the module has trapped, or the browser has refused memory for it. */
export class Trap extends Error {}

/** The module as a workbench: it answers words as on the command line. */
export class Workbench {
  /** Says that it has films and marks, which the program `lw` has not. */
  hasFilmsAndMarks = true;
  /** Says how much memory a run may take, as the end of a sentence on a run that needed more. */
  room = "the browser gives it";
  kept = null;

  constructor(module) {
    this.module = module;
  }

  /**
   * Returns the answer to words as on the command line of `lw`, or `--budget N states`, `--budget N schedules` and `--budget N marks` as on that of
   * `beyond`: the status, whether it is a fault, and the bytes of the answer or of the fault. `film` takes what `replay` takes, and answers
   * the pages of all prefixes of the schedule. Throws TypeError if the text is no bytes or the words are no command, and calls nothing then; throws Trap if
   * the module traps or the browser refuses memory.
   */
  run(words, text) {
    if (!ArrayBuffer.isView(text)) throw new TypeError("a test has to be bytes, a Uint8Array");
    if (!isCommand(words)) throw new TypeError(`no command of lw: ${words.join(" ")}`);
    try {
      for (const size of words[0] === BUDGET ? LITTLE.slice(1) : LITTLE) {
        const ran = new Call(this.findInstance(size), words, text, size).run();
        if (!isShort(ran)) return ran;
      }
      const ran = makeLargeCall(this.module, words, text).run();
      if (ran.isTooLong) throw new Error("the answer is longer than its room");
      return ran;
    } catch (error) {
      this.kept = null;
      throw new Trap(String(error));
    }
  }

  /** Returns the version of the library that the module is, such as `1.0`. */
  version() {
    const number = this.findInstance(LITTLE[0]).lw_version();
    return `${Math.floor(number / 100)}.${number % 100}`;
  }

  /** Returns the exports of an instance; that for the least memory is kept from one call to the next. */
  findInstance(size) {
    if (size !== LITTLE[0]) return makeInstance(this.module);
    this.kept ??= makeInstance(this.module);
    return this.kept;
  }
}

/** Returns whether words are those that `lw` takes, or a budget with a list. */
function isCommand([task, ...more]) {
  if (task === BUDGET) return more.length === 2 && isBudget(more[0]) && LISTS.includes(more[1]);
  if (!REPLAYS.includes(task)) return ["states", "schedules", "compile"].includes(task) && !more.length;
  const [schedule, option, protocol] = more;
  const isPlain = more.length === 1 || (more.length === 3 && option === "--protocol" && ["mesi", "moesi"].includes(protocol));
  return typeof schedule === "string" && isPlain;
}

/** Returns whether a word is the number of a budget that the module takes. */
function isBudget(word) {
  return typeof word === "string" && /^[0-9]{1,20}$/.test(word) && BigInt(word) <= MAX_BUDGET;
}

/** Returns what a new instance of a module exports. */
function makeInstance(module) {
  return new WebAssembly.Instance(module, {}).exports;
}

/** Returns whether a call with more memory may answer more. */
function isShort({ isFault, isTooLong, out }) {
  return isTooLong || (isFault && new TextDecoder().decode(out) === SHORT_OF_MEMORY);
}

/**
 * Returns the compiled module, or null if the browser takes none of this kind.
 * @param {Uint8Array} bytes
 * @returns {Promise<WebAssembly.Module | null>}
 */
export async function compileModule(bytes) {
  try {
    return bytes.length ? await WebAssembly.compile(bytes) : null;
  } catch {
    return null;
  }
}

/** The name that `compileModule` had: pages that import it go on working. */
export const compiled = compileModule;

/** Makes a call with as much memory as the browser gives. Throws the browser's error if it refuses the least amount. */
function makeLargeCall(module, words, text) {
  for (const size of MUCH) {
    try {
      return new Call(makeInstance(module), words, text, size);
    } catch (error) {
      if (size === MUCH.at(-1)) throw error;
    }
  }
}

/** A call of an instance, which is passed by what it exports. For each part of memory `at` has its address, and `sizes` its bytes. */
class Call {
  constructor(exports, words, text, size) {
    Object.assign(this, { exports, words });
    const schedule = REPLAYS.includes(words[0]) ? words[1] : "";
    this.given = { text, schedule: new TextEncoder().encode(schedule) };
    const heap = size * MEGABYTE;
    this.sizes = { memory: GRAIN, result: GRAIN, text: text.length, schedule: this.given.schedule.length, room: heap / 8, heap };
    this.at = {};
    let at = Number(this.exports.__heap_base.value);
    for (const [name, size] of Object.entries(this.sizes)) {
      this.at[name] = Math.ceil(at / GRAIN) * GRAIN;
      at = this.at[name] + size;
    }
    const missing = Math.ceil((at - this.exports.memory.buffer.byteLength) / PAGE);
    if (missing > 0) this.grow(missing);
  }

  /** Adds pages to the memory of the instance. */
  grow(pages) {
    const { memory } = this.exports;
    try {
      memory.grow(BigInt(pages));
    } catch (error) {
      if (!(error instanceof TypeError)) throw error;
      // A memory of 32 bits, or an engine from before the final form of those of 64.
      memory.grow(pages);
    }
  }

  /** Copies an argument to its place in memory. Returns the place, and the number of bytes. */
  put(name) {
    new Uint8Array(this.exports.memory.buffer).set(this.given[name], this.at[name]);
    return this.findPlace(name);
  }

  /** Returns where a part of the memory is, and how many bytes it has. */
  findPlace(name) {
    return [BigInt(this.at[name]), BigInt(this.sizes[name])];
  }

  /** Calls the export for the command, and returns its result. */
  run() {
    const view = new DataView(this.exports.memory.buffer);
    for (const [number, value] of this.findPlace("heap").entries()) view.setBigUint64(this.at.memory + 8 * number, value, true);
    const front = [BigInt(this.at.memory), ...this.put("text")];
    const behind = [...this.findPlace("room"), BigInt(this.at.result)];
    const [task, argument, output] = this.words;
    if (REPLAYS.includes(task)) this.exports[`lw_${task}`](...front, ...this.put("schedule"), this.words[3] === "moesi" ? 1 : 0, ...behind);
    else if (task === BUDGET) this.exports[`lw_reach_${output}`](...front, BigInt(argument), ...behind);
    else this.exports[`lw_${task}`](...front, ...behind);
    return this.readResult();
  }

  /** Returns the result of the call, copied out of the module's memory. */
  readResult() {
    const { buffer } = this.exports.memory;
    const view = new DataView(buffer);
    const status = view.getUint32(this.at.result, true);
    const kind = view.getUint32(this.at.result + 4, true);
    if (kind === ROOM_TOO_SMALL) return { status, isFault: false, isTooLong: true, out: new Uint8Array() };
    const length = Number(view.getBigUint64(this.at.result + 8, true));
    return { status, isFault: kind === FAULT, isTooLong: false, out: new Uint8Array(buffer, this.at.room, length).slice() };
  }
}
