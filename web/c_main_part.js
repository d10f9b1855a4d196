// Gives what `main` of a program in C or C++ does while its threads run, after it has started all and before it joins one, to a thread of its own. Not proved.

import { blankComments } from "./c_code.js";
import { findMain, listStatements, START } from "./c_outline.js";

const JOIN = /^(?:\w+(?:\[\d+\])?\s*\.\s*join\s*\(|pthread_join\s*\(|for\s*\([^)]*\)[^;]*\bjoin\s*\()/;
// A declaration of one variable with a value: the groups are its type and its name.
const DECLARATION = /^(?:const\s+)?(int|bool|unsigned(?:\s+int)?|auto)\s+([A-Za-z_]\w*)\s*(?==(?!=))/;
// What is not given to a thread.
const LEAVES = /\b(?:return|exit|abort|detach|j?thread|pthread_create)\b/;
// What is before and after that code in its thread.
const HEAD = "std::thread main_itself([&] { ";
const TAIL = "}); main_itself.join(); ";
const MOST_LETTERS = 12000;

/** Returns the index in a program that one of pieces of its text has. */
function findInPieces(pieces, at) {
  let left = at;
  for (const [piece, index] of pieces) {
    if (left < piece.length) return index + (piece === HEAD || piece === TAIL ? 0 : left);
    left -= piece.length;
  }
  return pieces.at(-1)[1];
}

/**
 * Returns the text of a program in which a thread does what `main` does while its threads run, whose variables are declared before all threads; with a function
 * that returns the index that one of it has in the program. Null if `main` does nothing then.
 * @param {string} text
 * @returns {{text: string, findIndex: function(number): number} | null}
 */
export function separateMainPart(text) {
  if (text.length > MOST_LETTERS) return null;
  const code = blankComments(text);
  const main = findMain(code);
  const statements = main ? listStatements(code, main.open + 1, main.close) : [];
  const first = statements.findIndex((it) => START.test(it.code));
  const last = statements.findLastIndex((it) => START.test(it.code));
  const joined = statements.findIndex((it, at) => at > last && JOIN.test(it.code));
  const own = first < 0 || joined < 0 ? [] : statements.slice(last + 1, joined);
  if (!own.length || own.some((it) => LEAVES.test(it.code)) || statements.slice(first, last).some((it) => !START.test(it.code))) return null;
  const declared = own.map((it) => DECLARATION.exec(it.code)).filter(Boolean);
  const cut = ({ code: { length }, index }) => text.slice(index, index + length).replace(DECLARATION, "$2 ");
  const declarations = declared.map(([, type, name]) => `${type === "auto" ? "int" : type} ${name};`).join(" ");
  const [begin, end, join] = [statements[first].index, own[0].index, statements[joined].index];
  // The pieces of the text, each with its index in the program.
  const pieces = [[text.slice(0, begin), 0], [`${declarations} `, begin], [text.slice(begin, end), begin], [HEAD, end]];
  for (const it of own) pieces.push([`${cut(it)} `, it.index]);
  pieces.push([TAIL, join], [text.slice(join), join]);
  return { text: pieces.map(([piece]) => piece).join(""), findIndex: (at) => findInPieces(pieces, at) };
}
