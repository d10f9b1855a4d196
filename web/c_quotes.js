// Quotes a program in the reason why it is not rewritten, if the reason quotes what the page has made of it. Not proved.

const QUOTED = /^`([^`]*)`/;
const CUT = /\.\.$/;
const LONGEST = 40;
const NO_CODE = /\/\/.*|\/\*[^]*?\*\//g;

/** Returns a text with one blank in place of several, and without comments. */
function squeeze(text) {
  return text.replace(NO_CODE, " ").replace(/\s+/g, " ");
}

/**
 * Returns what `rewriteProgram` does of a text, whose reason quotes the text at its index, if it begins with a statement or a function that the text does
 * not have.
 * @param {object} test
 * @param {string} text
 * @returns {object}
 */
export function quoteProgram(test, text) {
  const [, part] = QUOTED.exec(test.why ?? "") ?? [];
  if (part === undefined || test.index === undefined || !/;|\{|=/.test(part)) return test;
  const names = part.replace(CUT, "").match(/[A-Za-z_]\w*/g) ?? [];
  const isOwn = names.slice(0, CUT.test(part) ? -1 : names.length).every((it) => new RegExp(`\\b${it}\\b`).test(text));
  if (isOwn && (!CUT.test(part) || squeeze(text).includes(part.replace(CUT, "")))) return test;
  const rest = squeeze(text.slice(test.index)).trim();
  const [statement] = /^[^;{}]*/.exec(rest);
  const own = CUT.test(part) ? rest : statement;
  const shown = own.length > LONGEST ? `${own.slice(0, LONGEST)}..` : own;
  return shown ? { ...test, why: test.why.replace(QUOTED, () => `\`${shown}\``) } : test;
}
