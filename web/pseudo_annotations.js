// Reads the words that papers write beside loads, as `a := x // 1`, which say what is asked: whether all loads have these words. Not proved.

// A load with a word beside it: the groups are what is before the word, the name, and the word.
const ANNOTATED = new RegExp(
  "((?<![\\w.\\]])([A-Za-z_]\\w*)[ \\t]*(?::=|<-|\\u2190|=)[ \\t]*\\[?(?!true\\b|false\\b)[A-Za-z_]\\w*\\]?[ \\t]*;?)" +
    "([ \\t]*(?://|/\\*|\\(\\*)[ \\t]*(?:reads?[ \\t]+|==?[ \\t]*)?(\\d+)[ \\t]*(?:\\*/|\\*\\))?)(?=[ \\t]*(?:;|\\||\\u2225|\\u2016|\\r?$|[ \\t]{2}\\S))", "gm",
);
const OTHER_NUMBER = /(?:\/\/|\/\*|\(\*)[ \t]*\(?\d/;
const SETTING = "(?<![\\w.\\]])(?:$NAME)[ \\t]*(?::=|<-|\\u2190|=(?!=))";
/** What is said of such words. */
export const OF_ANNOTATIONS = " The question is whether the loads have the words beside them.";
/** What is said of such words if they are not read. */
export const NO_ANNOTATIONS = " The words beside loads are not read, so no question is guessed.";

/**
 * Returns a text with blanks in place of the words beside its loads, and what they ask, as a line (`question`): "" if that is not sure, since a name is set
 * twice, or other statements have numbers, too. Null if it has no such words.
 * @param {string} text
 * @returns {{text: string, question: string, names: string[]} | null}
 */
export function readAnnotations(text) {
  const found = [...text.matchAll(ANNOTATED)].map(([, , name, , word]) => ({ name, word }));
  if (!found.length) return null;
  const blanked = text.replace(ANNOTATED, (_, load, name, word) => load + " ".repeat(word.length));
  const isOnce = ({ name }) => [...blanked.matchAll(new RegExp(SETTING.replace("$NAME", name), "g"))].length === 1;
  // Numbers beside other statements may be those of lines.
  const question = found.every(isOnce) && !OTHER_NUMBER.test(blanked) ? `Can ${found.map(({ name, word }) => `${name} = ${word}`).join(" and ")}?` : "";
  return { text: blanked, question, names: found.map((it) => it.name) };
}
