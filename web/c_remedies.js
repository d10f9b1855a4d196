// Finds what to change in a program in C or C++ that is not rewritten, where one change does: a loop that counts far counts to 2 or 1, one that starts many
// threads starts 2, a plain variable that a loop waits for is volatile, and what an endless loop does is done once. Not proved.

import { makeChange } from "./change.js";
import { blank, findClosing, NO_CODE } from "./c_code.js";
import { OF_PASSES } from "./c_loop_reader.js";
import { OF_MANY } from "./c_main.js";
import { OF_PLAIN_LOOPS } from "./c_thread.js";

// A number in base 10, and a name.
const NUMBER = /(?<![\w.'])\d[\d']*(?:[eE]\d)?(?=[uUlLzZ]{0,3}(?![\w.]))/g;
const NAME = /[A-Za-z_]\w*/g;
// What has a body of declarations. And the words before a name in a declaration of plain integers, after what begins it.
const HOLDER = /\b(?:struct|class|namespace|union)\b[\w\s:]*$/;
const PLAIN_TYPE = "(?:(?:unsigned|signed|long|short)\\s+)*(?:int|_?[Bb]ool|char|long|short|unsigned|s?size_t|u?int\\d+_t)\\b(?![^;{}()=]*[*&<])";
// The head of an endless loop with a block, and what leaves a loop or begins its next pass.
const ENDLESS = /\b(?:while\s*\(\s*(?:1|true)\s*\)|for\s*\(\s*;\s*;\s*\))\s*(?=\{)/g;
const LEAVING = /\b(?:break|continue|return|goto|throw)\b/;
// Why a thread is refused whose loops may have too many passes.
const OF_ROOM = /six registers|too many statements/;
// What asks, up to its parenthesis; the head of a loop whose passes are from 0 on, one by one, or down to 0; what is before the number of threads, besides
// heads of loops; and a name in a declaration.
const ASKING = /\b(?:assert\w*|static_assert|if|while|switch|[A-Z]+_(?:EQ|NE|TRUE|FALSE|GE|GT|LE|LT))\s*\(/g;
const REGULAR =
  /^(?:for\s*\(\s*(?:[\w:]+\s+)*(\w+)\s*=\s*(?:0\s*;\s*\1\s*(?:<|!=)\s*[\w']+\s*;\s*(?:\+\+\s*\1|\1\s*\+\+|\1\s*\+=\s*1)|[\w']+\s*;\s*\1\s*(?:>|!=)\s*0\s*;\s*(?:--\s*\1|\1\s*--))\s*\)|while\s*\(\s*\w+\s*--\s*(?:>\s*0\s*)?\))$/;
const OF_THREADS = /(?:\[\s*|#[ \t]*define[ \t]+\w+[ \t]+\(?|\bconst(?:expr)?\b[^;(){}=]*[={]\s*|\b(?:vector|array)\s*<[^;(){}]*[({,]\s*)$/;
const DECLARED = /\b[A-Za-z_]\w*(?=\s*(?:\[[^\]]*\]\s*)*(?:,|$))/g;
// The counts that are tried; the least number that is a count; the most counts of which another number is a multiple, as the sum that is asked for; and
// what is too long to look into.
const COUNTS = [2, 1];
const LEAST = 4;
const MOST_THREADS = 8;
const LARGE = 10;
const LONGEST = 20000;

/** Returns the head of a loop at an index, up to the parenthesis that closes its condition; "" if there is none. */
function cutHead(code, index) {
  const open = /^(?:do\b[^]*?\bwhile|for|while)\s*(?=\()/.exec(code.slice(index));
  const close = open ? findClosing(code, index + open[0].length) : -1;
  return close < 0 ? "" : code.slice(index, close + 1);
}

/** Returns the number that a loop counts to by its head, if it has one that is large, or has the name of one; or null. */
function findCount(code, head) {
  const parse = (it) => Number(it.replaceAll("'", ""));
  const isCount = (it) => it >= LEAST && Number.isSafeInteger(it);
  const ofNames = (head.match(NAME) ?? []).flatMap((name) => {
    const value = new RegExp(`(?:#[ \\t]*define[ \\t]+${name}[ \\t]+\\(?|\\bconst(?:expr)?\\b[^;(){}=]*\\b${name}\\s*[={]\\s*)(\\d[\\d']*(?:[eE]\\d)?)`).exec(code);
    return value ? [parse(value[1])] : [];
  });
  const counts = [...(head.match(NUMBER) ?? []).map(parse), ...ofNames].filter(isCount);
  return new Set(counts).size === 1 ? counts[0] : null;
}

/** Returns the numbers of a code, each with its place. */
function listNumbers(code) {
  return [...code.matchAll(NUMBER)].map(({ 0: word, index }) => ({ word, index, value: Number(word.replaceAll("'", "")) }));
}

/**
 * Returns whether a program asks about a number that is none of those that are changed, other than 0, 1 and factors: with other counts it would ask something
 * else.
 */
function asksOfOthers(text, code, changed) {
  if (/\blw:|^\s*(?:~?exists|forall)\b/m.test(text)) return true;
  const ranges = [...code.matchAll(ASKING)].map(({ 0: head, index }) => [index, findClosing(code, index + head.length - 1)]);
  const isAsked = ({ index }) => ranges.some(([begin, end]) => begin <= index && index <= end);
  const isFactor = ({ index, word }) => /\*\s*$/.test(code.slice(0, index)) || /^\s*\*/.test(code.slice(index + word.length));
  const isHex = ranges.some(([begin, end]) => /\b0x/i.test(code.slice(begin, end)));
  return isHex || listNumbers(code).some((it) => it.value > 1 && isAsked(it) && !isFactor(it) && !changed.some(({ index }) => index === it.index));
}

/** Returns a text with other words in place of numbers. */
function replaceNumbers(text, numbers, getWord) {
  return [...numbers].reverse().reduce((it, number) => it.slice(0, number.index) + getWord(number) + it.slice(number.index + number.word.length), text);
}

/**
 * Returns a program whose loops with some heads, which have a count, have another one, as all numbers that are a few times that count, such as a sum that is
 * asked for. Returns null if it would ask something else then.
 */
function replaceCount(text, code, heads, count, other) {
  const isMultiple = (it) => it % count === 0 && it <= count * MOST_THREADS && it > 0;
  const numbers = listNumbers(code);
  const found = numbers.filter((it) => isMultiple(it.value));
  // A small number may be something else, too. And a sum needs passes from 0 on, one by one.
  const isUnsure = (count < LARGE && found.length > 1) || numbers.some((it) => it.value > count && !isMultiple(it.value));
  const hasSum = found.some((it) => it.value > count) || /\bassert|\bif\s*\(/.test(code);
  if (isUnsure || asksOfOthers(text, code, found) || (hasSum && !heads.every((it) => REGULAR.test(it)))) return null;
  return replaceNumbers(text, found, ({ value }) => String((value / count) * other));
}

/**
 * Returns a program that starts another number of threads: that of the heads of its loops, of its arrays and of its constants. Returns null if a larger number
 * outside of the heads of loops may be a sum of theirs, or if it would ask something else then.
 */
function replaceThreads(text, code, count, other) {
  const heads = [...code.matchAll(/\bfor\s*\(/g)].map((it) => ({ begin: it.index, end: it.index + cutHead(code, it.index).length }));
  const isInHead = (at) => heads.some(({ begin, end }) => begin <= at && at < end);
  const numbers = listNumbers(code);
  if (numbers.some(({ value, index }) => value > count && value % count === 0 && !isInHead(index))) return null;
  const isOfThreads = ({ value, index }) => value === count && (isInHead(index) || OF_THREADS.test(code.slice(0, index)));
  const found = numbers.filter(isOfThreads);
  return asksOfOthers(text, code, found) ? null : replaceNumbers(text, found, () => other);
}

/** Returns whether an index is outside of all functions: each brace around it is that of a type or a namespace. */
function isOutside(code, index) {
  const open = [];
  for (const { 0: mark, index: at } of code.slice(0, index).matchAll(/[{}]/g)) {
    if (mark === "{") open.push(at);
    else open.pop();
  }
  return open.every((at) => HOLDER.test(code.slice(0, at).split(/[;{}]/).at(-1)));
}

/** Returns a program in which plain variables of some names are volatile, and the names of all variables that are declared with them. */
function makeVolatile(text, code, names) {
  const places = new Map();
  for (const name of new Set(names)) {
    const declaration = new RegExp(`(?:^|[;{}:])\\s*(?:(?:static|extern|inline)\\s+)*(?=(${PLAIN_TYPE}[^;(){}]*?(?:\\{[^{}]*\\}[^;(){}]*?)?\\b${name}\\b))`, "gm");
    const found = new Set([...code.matchAll(declaration)].map((it) => it.index + it[0].length).filter((it) => isOutside(code, it)));
    if (found.size === 1) places.set(name, ...found);
  }
  const indices = [...new Set(places.values())].sort((one, other) => other - one);
  const declared = indices.flatMap((at) => [...code.slice(at, code.indexOf(";", at)).replace(/\{[^{}]*\}|=[^,]*/g, "").matchAll(DECLARED)].map((it) => it[0]));
  return { whole: indices.reduce((it, at) => `${it.slice(0, at)}volatile ${it.slice(at)}`, text), names: [...new Set([...places.keys(), ...declared])] };
}

/** Returns a program in which each endless loop is its block; null if one of them is left, or has a next pass before its end, or if it asserts something. */
function runOnce(text, code) {
  if (/\bassert|\blw:|^\s*(?:~?exists|forall)\b/m.test(text)) return null;
  const heads = [...code.matchAll(ENDLESS)];
  const isWhole = ({ 0: head, index }) => !LEAVING.test(code.slice(index, findClosing(code, index + head.length) + 1));
  return heads.every(isWhole) ? heads.reverse().reduce((whole, { 0: head, index }) => whole.slice(0, index) + whole.slice(index + head.length), text) : null;
}

/** Returns programs that differ from one at the loop because of which it is refused, each with the title of the button that makes it. */
function listRemedies(text, { why, index }) {
  const code = text.replace(NO_CODE, blank);
  const head = index === undefined ? "" : cutHead(code, index);
  if (why.includes(OF_PASSES) || OF_ROOM.test(why)) {
    const heads = head ? [head] : [...code.matchAll(/\bfor\s*\(/g)].map((it) => cutHead(code, it.index));
    const counts = new Set(heads.map((it) => findCount(code, it)).filter(Boolean));
    const [count] = counts.size === 1 ? counts : [null];
    const make = (other) => ({ whole: count && replaceCount(text, code, heads.filter((it) => findCount(code, it)), count, other), title: `Count to ${other}` });
    return COUNTS.map(make).filter((it) => it.whole);
  }
  if (why.includes(OF_MANY)) {
    const count = findCount(code, head);
    const started = count && replaceThreads(text, code, count, String(COUNTS[0]));
    return started ? [{ whole: started, title: `Start ${COUNTS[0]} threads` }] : [];
  }
  if (new RegExp(`^(?:${ENDLESS.source})`).test(code.slice(index))) {
    const once = runOnce(text, code);
    return once ? [{ whole: once, title: "Run each endless loop once" }] : [];
  }
  if (!why.includes(OF_PLAIN_LOOPS)) return [];
  const { whole, names } = makeVolatile(text, code, head.match(NAME) ?? []);
  return names.length ? [{ whole, title: `Make ${names.join(", ").replace(/, (?=[^,]*$)/, " and ")} volatile` }] : [];
}

/**
 * Returns the change of a program because of which it is rewritten, refused later, or for another reason that one more change removes; null if none is known.
 * @param {string} text
 * @param {{why: string, index?: number}} fault
 * @param {function(string): {made?: string, why?: string, index?: number}} rewrite
 * @returns {{begin: number, end: number, text: string, title: string} | null}
 */
export function findRemedy(text, fault, rewrite) {
  if (text.length > LONGEST) return null;
  const helps = ({ whole }) => {
    const next = rewrite(whole);
    if (!next || next.made) return Boolean(next);
    const isLater = next.index > fault.index + Math.max(whole.length - text.length, 0);
    return isLater || (next.why !== fault.why && listRemedies(whole, next).some((it) => rewrite(it.whole)?.made));
  };
  const remedy = listRemedies(text, fault).find(helps);
  return remedy ? { ...makeChange(text, remedy.whole), title: remedy.title } : null;
}
