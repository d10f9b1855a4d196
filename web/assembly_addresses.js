// Gives variables their names in instructions whose registers have the addresses of variables, as code of libraries loads them from a table. Not proved.
//
// The record `Line` is that of assembly_reader.js.

// What loads the address of a variable: from a table, or computes it; in Intel's and in AT&T's notation. The groups are the register and the variable, or
// the reverse in AT&T's notation.
const NAME = "([A-Za-z_.$][\\w.$]*(?:::[\\w.$]+)*)";
const LOADS = [
  new RegExp(`^mov ([a-z]\\w+), ?(?:qword ptr )?(?:${NAME}@GOTPCREL\\[rip\\]|\\[rip ?\\+ ?${NAME}@GOTPCREL\\])$`, "i"),
  new RegExp(`^lea ([a-z]\\w+), ?(?:${NAME}\\[rip\\]|\\[rip ?\\+ ?${NAME}\\]|offset (?:flat: ?)?${NAME})$`, "i"),
  new RegExp(`^mov ([a-z]\\w+), ?offset (?:flat: ?)?${NAME}$`, "i"),
];
const ATT_LOADS = [
  new RegExp(`^movq ${NAME}@GOTPCREL\\(%rip\\), ?%([a-z]\\w+)$`, "i"),
  new RegExp(`^leaq? ${NAME}\\(%rip\\), ?%([a-z]\\w+)$`, "i"),
];
// An operand in memory at an address in a register, perhaps with a number: the groups are the register and the number.
const OPERAND = /(?<![\w:\]])\[([a-z]\w+)(?: ?\+ ?(\d+))?\]/gi;
const ATT_OPERAND = /(?<![\w)%.:+-])(\d+)?\(%([a-z]\w+)\)/gi;
// What sets the whole register that it names; what reads or sets registers that it does not name; and what may leave others in registers.
const SETS = /^(?:mov(?:zx|abs|[lq]|z[bw][lq])?|lea[lq]?|set\w+) /i;
const COMPARES = /^(?:lock )?cmpxchg/i;
const HAS_HIDDEN = /^(?:i?mul|i?div|cdq|cqo|cltd|cltq|cwtl|cdqe|rep|movs[bwdq]?$|stos|leave|push|pop)/i;
const JUMP = /^(?:bnd )?j\w+ /i;
const CALL = /^(?:call|syscall|int )/i;
const PARTS = [
  ...["a", "b", "c", "d"].map((it) => [`r${it}x`, `e${it}x`, `${it}x`, `${it}l`, `${it}h`]),
  ...["si", "di"].map((it) => [`r${it}`, `e${it}`, it, `${it}l`]),
];

/** Returns the whole register that one is a part of. */
function findWhole(register) {
  const name = register.toLowerCase();
  return PARTS.find((it) => it.includes(name))?.[0] ?? name.replace(/^(r\d+)[dwb]$/, "$1");
}

/** Returns the register to which an instruction loads the address of a variable, and this; null if it is something else. */
function parseLoad(code) {
  const [found, ...groups] = LOADS.map((it) => it.exec(code)).find(Boolean) ?? [];
  const [attFound, variable, register] = ATT_LOADS.map((it) => it.exec(code)).find(Boolean) ?? [];
  if (attFound) return { register: findWhole(register), variable };
  return found ? { register: findWhole(groups[0]), variable: groups.slice(1).find(Boolean) } : null;
}

/** Returns the registers that code names, as whole ones. */
function listRegisters(code) {
  return (code.match(/(?<![\w.$])[a-z]\w{1,3}(?![\w.$:(])/gi) ?? []).map(findWhole).filter((it) => /^r(?:[a-d]x|[sd]i|\d+)$/.test(it));
}

/** Returns the register that an instruction sets and does not read; null if there is none. */
function findSet(code) {
  const isAtt = code.includes("%");
  const operands = code.slice(code.indexOf(" ") + 1).split(/,(?![^(]*\))/).map((it) => it.trim());
  const target = operands[isAtt ? operands.length - 1 : 0];
  const isCleared = /^xor[lq]? /i.test(code) && operands[0] === operands[1];
  return (SETS.test(code) || isCleared) && /^%?[a-z]\w+$/i.test(target) ? findWhole(target.replace("%", "")) : null;
}

/** Reads the lines of a function, from first to last. */
class AddressReader {
  constructor(lines) {
    // The variables whose addresses registers have, and how often each register is set.
    this.bound = new Map();
    this.lines = lines;
    this.isBranched = false;
    const sets = lines.map(({ code }) => parseLoad(code)?.register ?? findSet(code)).filter(Boolean);
    this.isSetOnce = (register) => sets.filter((it) => it === register).length === 1;
    this.lasting = new Set();
    // The number of loads of addresses, that of the last one of each register, and the loads whose address an instruction uses.
    this.loads = 0;
    this.lastLoads = new Map();
    this.uses = new Set();
  }

  /** Returns a line with names in place of addresses; null if it only loads an address, and undefined if it uses one otherwise. */
  readLine(line) {
    const { code } = line;
    if (code.endsWith(":")) return this.passLabel(line);
    const load = parseLoad(code);
    if (load) {
      this.loads += 1;
      this.lastLoads.set(load.register, this.loads);
      this.bound.set(load.register, load.variable);
      if (!this.isBranched && this.isSetOnce(load.register)) this.lasting.add(load.register);
      return null;
    }
    if (CALL.test(code)) this.bound.clear();
    // What follows a jump is not on each way.
    this.isBranched ||= JUMP.test(code);
    const name = (whole, register, number) => {
      const variable = this.bound.get(findWhole(register));
      if (variable) this.uses.add(this.lastLoads.get(findWhole(register)));
      return variable ? `${variable}${Number(number) ? `+${number}` : ""}` : null;
    };
    const intel = code.replace(OPERAND, (whole, register, number) => (name(whole, register, number) ?? whole).replace(/^[^[].*$/, "$&[rip]"));
    const written = intel.replace(ATT_OPERAND, (whole, number, register) => (name(whole, register, number) ?? whole).replace(/^[^\d(].*$/, "$&(%rip)"));
    const set = findSet(written);
    const used = listRegisters(written.replace(/[^\s,]*(?:\[rip\]|\(%rip\))/g, ""));
    const isRead = (register) => used.filter((it) => it === register).length > (set === register ? (/^xor/i.test(code) ? 2 : 1) : 0);
    const isHidden = (it) => (COMPARES.test(code) && it === "rax") || (HAS_HIDDEN.test(code) && /^r(?:[acd]x|[sd]i)$/.test(it));
    if ([...this.bound.keys()].some((it) => isRead(it) || isHidden(it))) return undefined;
    if (set) this.bound.delete(set);
    return { ...line, code: written };
  }

  /** Returns the line of a label, after which only registers have addresses that the function sets once, before all labels and jumps. */
  passLabel(line) {
    this.isBranched = true;
    for (const it of [...this.bound.keys()].filter((register) => !this.lasting.has(register))) this.bound.delete(it);
    return line;
  }
}

/**
 * Returns the lines of a function in which variables have names where registers have their addresses; the lines themselves, if an address is used otherwise.
 * @param {Line[]} lines
 * @returns {Line[]}
 */
export function nameAddresses(lines) {
  if (!lines.some(({ code }) => parseLoad(code))) return lines;
  const reader = new AddressReader(lines);
  const read = lines.map((it) => reader.readLine(it));
  return read.includes(undefined) || reader.uses.size < reader.loads ? lines : read.filter((it) => it !== null);
}
