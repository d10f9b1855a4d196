"""Which registers and flags may still be read, before each instruction of a file.

What cannot be read any more is forgotten on the paths through a thread, so that paths that continue in the same way are equal. If a register
were forgotten too early, it would be one that nothing has set, and reading it is refused.
"""
from __future__ import annotations


from c.assembly import Assembly, Instruction
from c.operands import Label, Memory, Operand, Register, Through, VECTOR, WHOLE_REGISTERS

FLAGS = "flags"
ALL = frozenset(WHOLE_REGISTERS)
# Prefixes of mnemonics that preserve the flags.
LEAVE_FLAGS = (
    "mov", "lea", "not", "push", "pop", "nop", "pause", "cmov", "set", "see", "cbt", "cbw", "clt", "cwt", "cwd", "cqt", "cdq", "cqo", "leave",
    "mfence", "lfence", "sfence", "endbr", "bswap", "prefetch", "xchg",
)
# Prefixes of mnemonics that read the carry.
READ_CARRY = ("adc", "sbb")


def list_registers(operand: Operand) -> set[str]:
    """Returns the registers that an operand names."""
    if isinstance(operand, Register):
        return {operand.name}
    if isinstance(operand, Memory):
        return {it for it in (operand.base, operand.index) if it}
    return list_registers(operand.operand) if isinstance(operand, Through) else set()


def list_overwritten(instruction: Instruction) -> set[str]:
    """Returns the registers that an instruction overwrites completely, and the flags if it sets them."""
    name, last = instruction.mnemonic, instruction.operands[-1] if instruction.operands else None
    is_vector = any(isinstance(operand, Register) and operand.size == VECTOR for operand in instruction.operands)
    written = set() if name.startswith(LEAVE_FLAGS) or name[0] == "j" or is_vector else {FLAGS}
    if name.startswith(READ_CARRY) or not instruction.operands or name.startswith(("call", "ret", "inc", "dec", "sh", "sa", "ro")):
        written = set()
    is_pure = name.startswith(("mov", "lea", "pop"))
    if isinstance(last, Register) and last.size >= 4 and (is_pure or sets_to_zero(instruction)):
        written.add(last.name)
    return written


def sets_to_zero(instruction: Instruction) -> bool:
    """Returns whether an instruction sets a register to 0 whatever its content."""
    operands = instruction.operands
    return instruction.mnemonic.startswith(("xor", "sub")) and len(operands) == 2 and operands[0] == operands[1]


def list_reads_and_writes(instruction: Instruction) -> tuple[set[str], set[str]]:
    """Returns the registers and flags that an instruction reads, and those that it overwrites. There may be too many reads and too few writes: then
    more is kept than is needed.
    """
    name, writes = instruction.mnemonic, list_overwritten(instruction)
    if name.startswith("call"):
        return set(ALL), set()
    used = set().union(*map(list_registers, instruction.operands))
    if isinstance(instruction.operands[-1] if instruction.operands else None, Register) and writes - {FLAGS}:
        used = set().union(*map(list_registers, instruction.operands[:-1])) if not sets_to_zero(instruction) else set()
    if name.startswith(("push", "pop", "ret", "leave")):
        used |= {"rsp", "rbp"}
    if name[0] == "j" and not name.startswith("jmp") or name.startswith(("cmov", "set", *READ_CARRY)):
        used.add(FLAGS)
    if name.startswith(("cbt", "cbw", "clt", "cwt", "cwd", "cqt", "cdq", "cqo", "div", "idiv", "mul", "imul", "cmpxchg")):
        used |= {"rax", "rdx"}
    if name.startswith(("sh", "sa", "ro")):
        used.add("rcx")
    return used, writes


def list_successors(assembly: Assembly, index: int, after_calls: list[int]) -> list[int]:
    """Returns the indices of the instructions that may be next; `after_calls` may be after a return. The index past the last represents any
    other place, where everything is read.
    """
    instruction, end = assembly.code[index], len(assembly.code)
    if instruction.mnemonic.startswith("ret"):
        return after_calls
    followers = [] if instruction.mnemonic.startswith("jmp") else [index + 1]
    if instruction.mnemonic[0] == "j":
        target = instruction.operands[0]
        followers.append(assembly.labels.get(assembly.resolve_alias(target.name), end) if isinstance(target, Label) else end)
    return followers


def compute_live_sets(assembly: Assembly) -> list[frozenset[str]]:
    """Returns the registers and flags that may still be read before each instruction, and after the last. A return may continue after any call."""
    code = assembly.code
    facts = [list_reads_and_writes(it) for it in code]
    after_calls = [index + 1 for index, it in enumerate(code) if it.mnemonic.startswith("call")]
    followers = [list_successors(assembly, index, after_calls) for index in range(len(code))]
    live: list[frozenset[str]] = [frozenset()] * len(code) + [ALL | {FLAGS}]
    has_changed = True
    while has_changed:
        has_changed = False
        for index in range(len(code) - 1, -1, -1):
            after = set().union(*(live[it] for it in followers[index])) if followers[index] else set()
            if code[index].mnemonic.startswith("ret"):
                after |= {"rax"}
            used, writes = facts[index]
            live_before = frozenset(used | after - writes)
            has_changed |= live_before != live[index]
            live[index] = live_before
    return live
