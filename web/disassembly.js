// Rewrites what disassemblers print, and listings of Microsoft's compiler, as assembly: addresses and bytes before instructions are left out, variables and
// labels have names. Not proved.

// A line that begins a function: objdump's, or gdb's.
const FUNCTION = /^(?:[\da-f]{4,16}\s+<([^>]+(?:>[^>]*)*)>:|Dump of assembler code for function ([^:]+(?:::[^:]+)*):)\s*$/i;
// An instruction with its address, and perhaps its bytes: the groups are these, and the instruction; and the begin of such a line that is nothing else.
const INSTRUCTION = /^\s*(?:=>\s*)?(?:0x)?([\da-f]+)(?:\s+<\+\d+>)?:(\s+(?:[\da-f]{2}(?=\s|$)\s?)+(?=\s|$))?\s*(.*)$/i;
const LINE = /^\s*(?:=>\s*)?(?:0x)?\d[\da-f]*(?:\s+<\+\d+>:|:\s+(?:[\da-f]{2}\s){2})/i;
// What the linker puts into the instruction before it: a place, a name and a number.
const RELOCATION = /^\s*([\da-f]+):\s+R_X86_64_\w+\s+(\S.*)$/i;
const ADDED = /[+-]0x[\da-f]+$/i;
const REST = /^(?:End of assembler dump\.?|Disassembly of section .*|.*:\s+file format \S+|\s*\.\.\.)\s*$/i;
// An address that the linker computes, in AT&T's notation or in Intel's, and a comment that names it: the groups are the address, the name of what is there,
// and the number of bytes after it.
const ADDRESS = /(?<![\w.])-?0x[\da-f]+\(%rip\)|\[rip ?[+-] ?0x[\da-f]+\]/i;
const SYMBOL = /^\s*(?:0x)?([\da-f]+)(?:\s+<([^>+]+)(?:\+(?:(0x[\da-f]+)|(\d+)))?>)?\s*$/i;
const JUMP = /^((?:(?:bnd|notrack)\s+)?(?:j\w+|callq?)\s+)(?:0x)?([\da-f]+)(?:\s+<([^>+]+(?:>[^>+]*)*)(\+\w+)?>)?\s*$/i;
const MANGLED = /"?\?([A-Za-z_]\w*)((?:@[A-Za-z_]\w*)*)@@[\w@?$]*"?/g;

// Lines of a listing of Microsoft's compiler in which names have their types: those of a procedure, of its end, and of data; and an operand. The groups are
// the names, and what follows them.
const TYPED_PROCEDURE = /^[^\n;]*?([\w:~]+)\([^\n;]*\)[^\n;()]*?\b(PROC|ENDP)\b/gm;
const INITIALIZER = /^[^\n;]*`dynamic (?:initializer|atexit destructor) for '([^']*)''[^\n;]*?\b(PROC|ENDP)\b/gm;
const TYPED_DATA = /^(?=[^\n;]*[\w>*&][ \t]+[\w:]+[ \t]+D[BWDQ]\b)[A-Za-z_][^\n;]*?([\w:]+)([ \t]+D[BWDQ][ \t])/gm;
const TYPED_OPERAND = new RegExp(
  "\\b((?:BYTE|[DQ]?WORD)[ \\t]+PTR[ \\t]+|OFFSET[ \\t]+FLAT:[ \\t]*)[A-Za-z_][\\w:<>, *&]*?[>*&\\w][ \\t]+([\\w:]+(?:\\+\\d+)?)" +
    "(?=[ \\t]*(?:$|[;,[]))",
  "gm",
);

/** Returns a listing in which the names of procedures and variables have no types. */
function dropTypes(text) {
  if (!/\bPROC\b/.test(text)) return text;
  const bare = text.replace(INITIALIZER, "_GLOBAL__sub_I_$1 $2").replace(TYPED_PROCEDURE, "$1 $2");
  return bare.replace(TYPED_DATA, "$1$2").replace(TYPED_OPERAND, "$1$2");
}

/** Returns the lines of a text, each with the index at which it begins. */
function listLines(text) {
  let end = 0;
  return text.split("\n").map((line) => {
    const begin = end;
    end += line.length + 1;
    return [line, begin];
  });
}

/** Returns an instruction in which a variable has its name, if a comment or a relocation says it. What is no variable is one of the `functions`. */
function nameVariable(code, relocation, functions) {
  const comment = code.indexOf("#");
  const [, end, name, hexadecimal, decimal = "0"] = SYMBOL.exec(comment < 0 ? "" : code.slice(comment + 1)) ?? [];
  const symbol = relocation?.name ?? name;
  const [address] = ADDRESS.exec(code) ?? [];
  if (!end || !symbol || !address || functions.has(symbol)) return code;
  // A number of a relocation counts from its place, and the processor's from the end of the instruction.
  const offset = relocation ? relocation.added + parseInt(end, 16) - relocation.at : Number(hexadecimal ?? decimal);
  const place = symbol.replace(/^\./, "") + (offset ? `+${offset}` : "");
  return code.slice(0, comment).replace(ADDRESS, `${place}${address.startsWith("[") ? "[rip]" : "(%rip)"}`);
}

/**
 * Returns the lines of a disassembly, each with the index at which its code is in the text (`begin`), and what it has: its `address`, its `code`, the `name`
 * of the function that it begins, and its `relocation`.
 */
function readLines(text) {
  const lines = [];
  for (const [line, begin] of listLines(text)) {
    const [, at, symbol = ""] = RELOCATION.exec(line) ?? [];
    const [, name, other] = FUNCTION.exec(line) ?? [];
    const [, address, bytes, code] = INSTRUCTION.exec(line) ?? [];
    if (symbol && lines.length) {
      const [added = "+0"] = ADDED.exec(symbol.trim()) ?? [];
      lines.at(-1).relocation = { at: parseInt(at, 16), name: symbol.trim().replace(ADDED, ""), added: Number(added.slice(1)) * (added[0] === "-" ? -1 : 1) };
    } else if (name ?? other) lines.push({ begin, name: name ?? other });
    else if (address && code) lines.push({ begin: begin + line.length - code.length, address: address.replace(/^0+(?=.)/, "").toLowerCase(), code });
    else if (!bytes && line.trim() && !REST.test(line)) lines.push({ begin, code: line });
  }
  return lines;
}

/** Returns an instruction with the name or the label to which it jumps or that it calls, in a function, and this label; null if it does neither. */
function nameTarget({ code, relocation }, current) {
  const [, jump, target, symbol, offset] = JUMP.exec(code) ?? [];
  if (!jump) return null;
  const name = relocation?.name ?? (symbol && !offset && (symbol !== current || jump.startsWith("call")) ? symbol : null);
  return { code: jump + (name ?? `L${target.toLowerCase()}`), label: name ? null : target.toLowerCase() };
}

/** Returns assembly that is the lines of a disassembly, as a `text`, and the index in that for the begin of each line (`begins`). */
function formatLines(lines) {
  const functions = new Set(lines.flatMap(({ name }) => name ?? []));
  let current = "";
  const written = lines.map((line) => {
    current = line.name ?? current;
    return { ...line, ...(line.name ? {} : (nameTarget(line, current) ?? { code: nameVariable(line.code, line.relocation, functions) })) };
  });
  const labels = new Set(written.map((it) => it.label));
  const formatted = written.flatMap(({ begin, name, address, code }) => {
    if (name) return [`.globl ${name}`, `${name}:`].map((it) => ({ begin, code: it }));
    const label = labels.has(address) ? `L${address}: ` : "";
    return [{ begin: begin - label.length, code: label + code }];
  });
  return { text: formatted.map((it) => it.code).join("\n"), begins: formatted.map((it) => it.begin) };
}

/**
 * Returns a text in which a disassembly is assembly, and names of Microsoft's compiler are those of the program; whether it is a disassembly; and for the
 * begin of each line of the returned text the index in the other one (`begins`).
 * @param {string} text
 * @returns {{text: string, isDisassembly: boolean, begins: number[]}}
 */
export function rewriteListing(text) {
  const isDisassembly = text.split("\n").some((it) => FUNCTION.test(it) || LINE.test(it) || (it.includes("#") && ADDRESS.test(it)));
  const { text: plain, begins } = isDisassembly ? formatLines(readLines(text)) : { text: dropTypes(text), begins: listLines(text).map(([, begin]) => begin) };
  const rename = (_, name, classes) => [...classes.split("@").slice(1).reverse(), name].join("::");
  return { text: plain.includes("?") ? plain.replace(MANGLED, rename) : plain, isDisassembly, begins };
}
