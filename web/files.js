// Reads a file of a test, whatever encoding it was saved in, and says so if lw would refuse the file itself.

const MARKS = [
  [[0xef, 0xbb, 0xbf], "utf-8", "The file begins with a byte order mark, which lw refuses. It is left out here."],
  [[0xff, 0xfe], "utf-16le", "The file is in UTF-16, which lw refuses. It is read as that here; save it anew for lw."],
  [[0xfe, 0xff], "utf-16be", "The file is in UTF-16, which lw refuses. It is read as that here; save it anew for lw."],
];
const LATIN = "The file is not in UTF-8, and lw refuses it. It is read as Latin-1 here; save it anew for lw.";

/**
 * Returns the text of a file's bytes, and a note on its encoding, or an empty text.
 * @param {Uint8Array} bytes
 * @returns {{text: string, note: string}}
 */
export function decodeFile(bytes) {
  for (const [mark, encoding, note] of MARKS) {
    if (mark.every((it, index) => bytes[index] === it)) return { text: new TextDecoder(encoding).decode(bytes), note };
  }
  try {
    return { text: new TextDecoder("utf-8", { fatal: true }).decode(bytes), note: "" };
  } catch {
    return { text: new TextDecoder("latin1").decode(bytes), note: LATIN };
  }
}
