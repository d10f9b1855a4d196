// Reads the statements of `main` of a program in C or C++, and those of its loops that start threads, join them, or set words. Not proved.
//
// The records `Part` and `Statement` are those of c_reader.js and c_statements.js. A statement that joins all threads of an array has the name of this
// array, `joined`, and the number of them, `count`, if it is a constant. A loop that counts has the code of its `times`, and a function, `repeat`, that
// returns its passes, each with a `number`, the `name` and the `digit` of the index; it `isStarting` threads, or not. A loop whose passes are runs
// `isRepeated`, and has the statements of its `block`.

import { findClosing, parseConstant, refusePart, squeezeCode } from "./c_code.js";
import { StatementReader } from "./c_statements.js";

// A loop that joins all threads of an array: the groups are this array, or the index and its end; and again the array.
const JOIN_LOOP = new RegExp(
  "^for\\((?:(?:const )?auto ?&{0,2}\\w+:(\\w+)|(?:int|size_t|unsigned|auto) (\\w+)=0;\\2(?:<|!=)(\\w+);(?:\\2\\+\\+|\\+\\+\\2))\\)" +
    "\\{?(?:(\\w+)(?:\\[\\2\\])?\\.join\\(\\)|(?:pthread|thrd)_join\\((\\w+)\\[\\2\\],[\\w&]*\\));\\}?$",
);
// The head of a loop that counts: the groups are its index and its end. And what starts threads in a loop, and joins them.
const COUNTING = /^for\((?:int|size_t|unsigned|long|auto) (\w+)=0;\1(?:<|!=)(\w+);(?:\1\+\+|\+\+\1)\)$/;
// The head of a loop whose passes are runs.
const REPEATING = /^(?:for\((?:\w+ )+(\w+)=\d+;(?:\1(?:<=?|!=)[\w']+)?;(?:\1\+\+|\+\+\1|\1\+=1)\)|while\((?:1|true)\)|for\(;;\))$/;
const SETTING = /\[\s*\w+\s*\]\s*=/;
const SETTING_WORD = /^\{?\s*\w+\s*(?:=(?!=)|\.\s*store\b)/;
const STARTING = /\bthread\b|_create\b|_back\b|\bCreateThread\b|\b_beginthreadex\b/;
const JOINING = /\.\s{0,9}join\b|_join\b|\bjthread\b|\bWaitFor\w/;
// The body of a loop that only closes handles.
const CLOSING = /^\{?CloseHandle\(\w+\[\w+\]\);\}?$/;
/** Why a loop is refused, as the end of a sentence. */
export const OF_RUNS = ": one run is enough, since the page lists all final states";
const OF_WORDS = ": set the words of an array by their indices, as `for (int i = 0; i < 2; i++) flag[i] = 0;`";
// The head of a loop over all words of an array.
const OF_ARRAY = /^for\s*\([^;:]*[^:]:(?!:)[^;]*\)/;

/** Reads the statements of `main`. */
export class MainReader extends StatementReader {
  /** Returns the index of the `;` that ends the statement here, which is in no parentheses or braces; -1 if there is none. */
  findEnd() {
    let depth = 0;
    const { rest } = this;
    for (let at = 0; at < rest.length; at += 1) {
      depth += Number("({[".includes(rest[at])) - Number(")}]".includes(rest[at]));
      if (!depth && rest[at] === ";") return at;
    }
    return -1;
  }

  /** Returns the loop here, if it starts threads, or joins those of an array, or both. Throws NoTest if it does not. */
  readLoop() {
    const { rest } = this;
    const close = findClosing(rest, Math.max(rest.indexOf("("), 0));
    const body = close + 1 + rest.slice(close + 1).search(/\S|$/);
    const end = (rest[body] === "{" ? findClosing(rest, body) + 1 : body + new MainReader({ code: rest.slice(body), index: 0 }).findEnd() + 1) || body;
    const head = { code: rest.slice(0, close + 1 || rest.search(/[;{]|$/)), index: this.index + this.at };
    const [found, range, , count, called, other] = JOIN_LOOP.exec(squeezeCode(rest.slice(0, end))) ?? [];
    const [, index, times] = COUNTING.exec(squeezeCode(head.code)) ?? [];
    const code = { code: rest.slice(body, end), index: head.index + body };
    this.takePart(end);
    if (found) return { ...head, joined: range ?? called ?? other, count: parseConstant(count ?? "") };
    if (CLOSING.test(squeezeCode(code.code))) return { ...head, block: [] };
    const isStarting = STARTING.test(code.code);
    if (!isStarting && !(index && SETTING.test(code.code))) refusePart(head, OF_ARRAY.test(head.code) && SETTING_WORD.test(code.code) ? OF_WORDS : OF_RUNS);
    if (index && !JOINING.test(code.code)) return { ...head, repeat: (count) => repeatCode(code, index, count), times, isStarting };
    if (!REPEATING.test(squeezeCode(head.code)) || !JOINING.test(code.code)) refusePart(head, OF_RUNS);
    return { ...head, block: new MainReader(code).readAll(), isRepeated: true };
  }
}

/** Returns the blocks of a loop that runs some times, each with the number that its index has. */
function repeatCode(part, name, times) {
  const makeBlock = (_, digit) => ({ ...part, block: new MainReader(part).readAll(), number: { name, digit: String(digit) } });
  return Array.from({ length: times }, makeBlock);
}
