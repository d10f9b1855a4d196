// Aligns the text of a test for places where it can't be edited: in rows that have a cell for each thread, the cells of a thread are one
// below the other. Only blanks are added.

/**
 * Returns the cells of a line of the table, or null if it is none.
 * @param {string} line
 * @returns {string[] | null}
 */
function splitCells(line) {
  const row = line.trim();
  return row.endsWith(";") ? row.slice(0, -1).split("|").map((cell) => cell.trim()) : null;
}

/**
 * Returns a test whose rows of cells are aligned in columns.
 * @param {string} text
 * @returns {string}
 */
export function alignCells(text) {
  const lines = text.split("\n");
  const begin = lines.findIndex((line) => /^\s*P0\s*[|;]/.test(line));
  const threads = splitCells(lines[begin] ?? "")?.length;
  const isRow = (cells, index) => cells && index >= begin && cells.length === threads;
  const rows = lines.map(splitCells).map((cells, index) => (isRow(cells, index) ? cells : null));
  const widths = Array.from({ length: threads ?? 0 }, (_, thread) => Math.max(...rows.map((cells) => cells?.[thread].length ?? 0)));
  const formatRow = (cells) => ` ${cells.map((cell, thread) => cell.padEnd(widths[thread])).join(" | ")} ;`;
  return lines.map((line, index) => (rows[index] ? formatRow(rows[index]) : line)).join("\n");
}
