// Names the processor whose assembly a text is, if it is none of x86. Not proved.

// What instructions of each processor begin with; a text has at least two of them, and no register of x86.
const PROCESSORS = [
  ["ARM", /^\s*(?:(?:ldr|str|ldp|stp|ldar|stlr|ldapr|ld[ar]?xr|st[lr]?xr|swp|cas|ldadd)[a-z]*\s+\w+\s*,|(?:dmb|dsb|isb|adrp|movw|movt|cbn?z|bx)\s|b\.\w+\s)/i],
  ["RISC-V", /^\s*(?:(?:l[wdbh]u?|s[wdbh]|lui|li|la|auipc|addi|beqz|bnez)\s+(?:[ast]\d+|zero|sp|ra)\s*,|fence\s+[rwio]+\s*,|(?:lr|sc|amo\w+)\.[wd]|amo\w+\.)/i],
  ["POWER", /^\s*(?:(?:stw|stwx|std|stb|lwz|lwzx|lbz|ld|li|addis)\s+r?\d+\s*,|(?:lwsync|isync|blr)\b|lwarx\s|stwcx\.\s)/i],
];
const OF_X86 = /%[er]?[a-ds][xip]l?\b|\b[er](?:[abcd]x|[sd]i|[sb]p|ip)\b/i;

/**
 * Returns a sentence that says of which processor instructions are, if they are none of x86; or "".
 * @param {string} text
 * @returns {string}
 */
export function explainProcessor(text) {
  const lines = OF_X86.test(text) ? [] : text.split("\n");
  const counts = PROCESSORS.map(([name, pattern]) => ({ name, count: lines.filter((it) => pattern.test(it)).length }));
  const { name, count } = counts.reduce((most, it) => (it.count > most.count ? it : most));
  return count < 2 ? "" : `These are instructions of ${name}, and lw's tests are of x86 processors: compile the program for x86-64.`;
}
