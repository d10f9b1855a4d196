// Reads one instruction as compilers and disassemblers print it, in AT&T's order or in Intel's, with the width of each operand. Not proved.
//
// An `Operation` has its `name`, whether it is locked (`isLocked`), its `width` in bits, the width that it extends (`from`), if it does, its `condition` and
// its `label`, if it has one, and its `operands`, with the destination first. A `Part` is an operand: { register, width }, in which `register` is the name
// of the whole register of 64 bits, { number }, { location }, { address }, which is a list of terms, or { isStack }.

const LETTERS = { a: "RAX", b: "RBX", c: "RCX", d: "RDX", si: "RSI", di: "RDI", bp: "RBP", sp: "RSP" };
const REGISTER = /^%?(?:(r|e)?([abcd])x|(r|e)?([sd]i|[bs]p)|([abcd])l|([sd]i|[bs]p)l|r(8|9|1[0-5])([dwb]?))$/i;
const BITS = { b: 8, w: 16, l: 32, q: 64, d: 32, byte: 8, word: 16, dword: 32, qword: 64 };
const NUMBER = /^(-?)\s*(?:(0x[\da-f]+|\d+)|(\d[\da-f]*)h)$/i;
const SIZE = /^(byte|[dq]?word)(?:\s+ptr)?(?=[\s[])\s*/i;
// A location: relative to the next instruction, in brackets, or only its name.
const LOCATION = /^(?:\[\s*(?:rip\s*\+\s*|rel\s+)?([A-Za-z_]\w*)(?:\s*\+\s*rip)?\s*\]|([A-Za-z_]\w*)(?:\[rip\]|\(%[re]ip\)))$/i;
const NAME = /^[A-Za-z_]\w*$/;
const PLAIN = "mov|add|sub|adc|sbb|cmp|test|and|or|xor|xchg|xadd|cmpxchg|inc|dec|neg|not|lea|push|pop";
const SUFFIXED = new RegExp(`^(${PLAIN})([bwlq])?$`);
const IDLE = /^(?:pause|nop\w*|lfence|sfence|endbr\d*|cld)$/;
const EXTENSION = /^mov([sz])(?:([bwl])([wlq])|xd?)$/;
const CONDITION = /^(j|set|cmov)(n?(?:ae|be|[ablgcesz]|ge|le))[lqw]?$/;
const CONDITIONS = { z: "e", nz: "ne", c: "b", nc: "ae", nb: "ae", na: "be", nae: "b", nbe: "a", nl: "ge", ng: "le", nge: "l", nle: "g" };
// Instructions that extend the sign of a part of EAX, with the widths of the part and of what is written.
const WIDENINGS = { cltq: [32, 64], cdqe: [32, 64], cwtl: [16, 32], cwde: [16, 32], cbtw: [8, 16], cbw: [8, 16] };

/**
 * Returns the register of 64 bits of which a register is a part, and the width of the part; null if it is none.
 * @param {string} name
 * @returns {{register: string, width: number} | null}
 */
export function parseRegister(name) {
  const [whole, wide, letter, wide2, pair, low, low2, number, size] = REGISTER.exec(name) ?? [];
  if (whole === undefined) return null;
  if (number) return { register: `R${number}`, width: BITS[size.toLowerCase()] ?? 64 };
  const register = LETTERS[(letter ?? pair ?? low ?? low2).toLowerCase()];
  return { register, width: low ?? low2 ? 8 : { r: 64, e: 32 }[(wide ?? wide2)?.toLowerCase()] ?? 16 };
}

/** Returns the number that a text is, without `$`; null if it is none. */
function parseNumber(text) {
  const [, sign, digits, hexadecimal] = NUMBER.exec(text) ?? [];
  const written = digits ?? (hexadecimal && `0x${hexadecimal}`);
  return written === undefined ? null : sign ? -Number(written) : Number(written);
}

/**
 * Returns the terms of an address in brackets, perhaps with a number before them, or in parentheses, each a register with a scale, or a number; null if it
 * is none.
 */
function parseAddress(text) {
  const [, number = "", base = "", index = "", scale = "1"] = /^(-?\w+)?\((%\w+)?(?:,\s*(%\w+)(?:,\s*([1248]))?)?\)$/.exec(text) ?? [];
  const [, before, inside] = /^(-?\w+)?\[([^\][]*)\]$/.exec(text) ?? [];
  const inner = inside?.replace(/\s/g, "").replace(/-/g, "+-").replace(/^\+/, "").split("+");
  // What gcc prints before the brackets is added.
  const isAdded = before !== undefined && parseNumber(before) !== null;
  if (before !== undefined && !isAdded) return null;
  const parts = inner ? [...inner, ...(isAdded ? [before] : [])] : [number, base, index && `${index}*${scale}`].filter(Boolean);
  const terms = parts.map((it) => {
    const [name, factor = "1"] = /^[1248]\*/.test(it) ? it.split("*").reverse() : it.split("*");
    const register = parseRegister(name)?.register;
    return register && /^[1248]$/.test(factor) ? { register, scale: Number(factor) } : { number: parseNumber(it) };
  });
  return terms.some((it) => it.register) && terms.every((it) => it.register || it.number !== null) ? terms : null;
}

/** Returns the part that an operand is, in AT&T's notation or in Intel's; null if it is none. */
function parsePart(operand, isAtt) {
  const [front, size] = SIZE.exec(operand) ?? [""];
  const text = operand.slice(front.length).replace(/^(?:ds|flat):/i, "");
  const width = size && BITS[size.toLowerCase()];
  const register = !size && (!isAtt || text.startsWith("%")) ? parseRegister(text) : null;
  if (register) return register;
  const isConstant = !isAtt || text.startsWith("$");
  const number = isConstant ? parseNumber(text.replace(/^\$/, "")) : null;
  if (number !== null) return { number };
  const [, bare, relative] = LOCATION.exec(text) ?? [];
  const location = bare && parseRegister(bare) ? undefined : bare ?? relative ?? ((isAtt || size) && NAME.test(text) ? text : undefined);
  if (location) return { location, width };
  const terms = parseAddress(text);
  return terms && (terms.some((it) => it.register === "RSP") ? { isStack: true, width } : { address: terms, width });
}

/** Returns the operands that a text has, with commas between them; null if one is none. */
function parseParts(text, isAtt) {
  const parts = text ? text.split(/,(?![^(]*\))/).map((it) => parsePart(it.trim(), isAtt)) : [];
  return parts.includes(null) ? null : isAtt ? parts.reverse() : parts;
}

/** Returns the operation of a name with its operands, whose order is that of Intel; null if it is not known. */
function makeOperation(name, operands) {
  if (IDLE.test(name)) return { name: "nop", operands: [] };
  if (name === "mfence") return { name, operands };
  if (WIDENINGS[name]) {
    const [from, width] = WIDENINGS[name];
    return { name: "movs", from, width, operands: [{ register: "RAX", width }, { register: "RAX", width: from }] };
  }
  const [, sign, narrow, wide] = EXTENSION.exec(name) ?? [];
  if (sign) {
    const [to, source] = operands;
    const from = BITS[narrow] ?? source?.width ?? (name.endsWith("d") ? 32 : undefined);
    return from && to?.register ? { name: `mov${sign}`, from, width: BITS[wide] ?? to.width, operands } : null;
  }
  const [, plain, suffix] = SUFFIXED.exec(name) ?? [];
  const width = BITS[suffix] ?? operands.find((it) => it.register)?.width ?? operands.find((it) => it.width)?.width ?? 32;
  return plain ? { name: plain, width, operands } : null;
}

/** Returns the least number of operands of an operation. */
function countOperands(name) {
  if (/^(?:mov|add|sub|adc|sbb|and|x?or|cmp|test|xchg|xadd|lea)/.test(name)) return 2;
  return /^(?:inc|dec|neg|not|set|cmov)$/.test(name) ? 1 : 0;
}

/**
 * Returns the operation that code is, without labels; null if it is not known.
 * @param {string} code
 * @param {boolean} isAtt
 * @returns {Operation | null}
 */
export function parseOperation(code, isAtt) {
  const [, lock, word = "", rest = ""] = /^(?:(lock)\s+|(?:rep|repz|bnd|notrack|data16)\s+)?([a-z]\w*)(?:\s+(.*))?$/i.exec(code) ?? [];
  const name = word.toLowerCase();
  if (/^jmpq?$/.test(name)) return NAME.test(rest) ? { name: "j", condition: "mp", label: rest, operands: [] } : null;
  const [, kind, letters] = SUFFIXED.test(name) ? [] : CONDITION.exec(name) ?? [];
  const condition = letters && (CONDITIONS[letters] ?? letters);
  const label = rest.replace(/^short\s+/i, "");
  if (kind === "j") return NAME.test(label) ? { name: "j", condition, label, operands: [] } : null;
  const operands = IDLE.test(name) ? [] : parseParts(rest, isAtt);
  if (!operands) return null;
  const width = operands.find((it) => it.register)?.width ?? 8;
  const operation = kind ? { name: kind, condition, width, operands } : makeOperation(name, operands);
  const isNarrow = operation?.from || kind === "set";
  // Registers of another width than the operation's are a fault.
  if (!operation || operation.operands.length < countOperands(operation.name)) return null;
  if (!isNarrow && operands.some((it) => it.register && it.width !== operation.width)) return null;
  return { ...operation, isLocked: Boolean(lock) };
}

const SETS_FLAGS = /^(?:add|sub|adc|sbb|cmp|test|and|or|xor|inc|dec|neg|xadd|cmpxchg)$/;

/** Returns the parts of 8, of 16 and of 64 bits of a register that an access of some width has. */
const listParts = ({ register, width }) => ["b", "w", "h"].slice(0, { 8: 1, 16: 2 }[width] ?? 3).map((it) => register + it);

/** Returns whether an operation sets a register to 0, whatever is in it. */
export function isClearing({ name, operands: [to, from] }) {
  return /^(?:xor|sub)$/.test(name) && Boolean(to.register) && to.register === from?.register;
}

/**
 * Returns the parts of registers that an operation reads and those that it writes; `F` are the flags.
 * @param {Operation} operation
 * @returns {{reads: string[], writes: string[]}}
 */
export function listAccesses(operation) {
  const { name, condition, width, from: narrow, operands } = operation;
  const [to, from] = operands;
  const isRead = !/^(?:mov[zs]?|set|lea|pop|push)$/.test(name) && !isClearing(operation);
  const read = [isRead && to, !isClearing(operation) && from && { ...from, width: narrow ?? from.width }, name === "cmpxchg" && { register: "RAX", width }];
  const terms = operands.flatMap((it) => it.address ?? []).map((it) => ({ ...it, width: 64 }));
  const written = [!/^(?:cmp|test|push|cmpxchg)$/.test(name) && to, /^x(?:chg|add)$/.test(name) && from, name === "cmpxchg" && { register: "RAX", width }];
  const isRegister = (it) => it?.register;
  const isFlagRead = (condition && condition !== "mp") || /^(?:adc|sbb)$/.test(name);
  return {
    reads: [...[...read, ...terms].filter(isRegister).flatMap(listParts), ...(isFlagRead ? ["F"] : [])],
    writes: [...written.filter(isRegister).flatMap(listParts), ...(SETS_FLAGS.test(name) ? ["F"] : [])],
  };
}
