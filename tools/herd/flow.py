"""The ways through a thread's instructions: flags that later branches read, and registers that hold addresses."""
from __future__ import annotations


from herd.cells import AddressOf, InMemory, Instruction, Operand
from plain import Register

# The target of a jump that abandons a run.
GIVE_UP = -1
READS_FLAG = ("JE", "JNE", "CMOVE", "CMOVNE")
SETS_FLAG = ("ADD", "SUB", "INC", "DEC", "XOR", "AND", "OR", "CMP", "TEST", "XADD", "CMPXCHG")
# In place of a location: of a register that holds no address, and of one that holds an address on some paths only.
NUMBER, EITHER = "a number", "either"


def list_successors(instruction: Instruction, index: int) -> list[int]:
    """Returns the indices of the instructions that may follow the one at an index; GIVE_UP is among them if a jump abandons the run."""
    if instruction.target is None:
        return [index + 1]
    return [instruction.target] if instruction.mnemonic == "JMP" else [index + 1, instruction.target]


# Flags.


def find_read_flags(code: list[Instruction]) -> list[bool]:
    """Returns, for each instruction, whether the zero flag that it leaves may be read by a later branch. Jumps go forward."""
    is_needed, is_read = [False] * (len(code) + 1), [False] * len(code)
    for index in range(len(code) - 1, -1, -1):
        instruction = code[index]
        is_read[index] = any(follower != GIVE_UP and is_needed[follower] for follower in list_successors(instruction, index))
        is_needed[index] = instruction.mnemonic in READS_FLAG or is_read[index] and instruction.mnemonic not in SETS_FLAG
    return is_read


def find_unset_flag_read(code: list[Instruction]) -> Instruction | None:
    """Returns the first instruction that may read the zero flag before an instruction has set it. `None` if there is none. Jumps go forward."""
    unset = [True] + [False] * len(code)
    for index, instruction in enumerate(code):
        if unset[index] and instruction.mnemonic in READS_FLAG:
            return instruction
        if unset[index] and instruction.mnemonic not in SETS_FLAG:
            for follower in list_successors(instruction, index):
                if follower != GIVE_UP:
                    unset[follower] = True
    return None


# Addresses.


def find_address(operand: Operand, addresses: dict[str, str]) -> str | None:
    """Returns the location whose address an operand of MOV or LEA is; `None` if it is none. `addresses` says which registers hold which."""
    if isinstance(operand, AddressOf):
        return operand.location
    if isinstance(operand, Register):
        held_address = addresses.get(operand.register, NUMBER)
        return None if held_address in (NUMBER, EITHER) else held_address
    return None


def find_location(operand: InMemory, addresses: dict[str, str]) -> str | None:
    """Returns the location of an operand in memory. `None` if its address is computed, or not known."""
    if operand.number or len(operand.registers) + bool(operand.location) != 1:
        return None
    return operand.location or find_address(Register(operand.registers[0]), addresses)


def list_written_registers(instruction: Instruction) -> list[str]:
    """Returns the registers that an instruction may write."""
    if instruction.mnemonic in ("CMP", "TEST") or not instruction.operands:
        return []
    both = instruction.operands if instruction.mnemonic in ("XCHG", "XADD") else instruction.operands[:1]
    written = [operand.register for operand in both if isinstance(operand, Register)]
    return written + ["EAX"] if instruction.mnemonic == "CMPXCHG" else written


def update_held(instruction: Instruction, addresses: dict[str, str]) -> dict[str, str]:
    """Returns the locations whose addresses registers hold after an instruction, by the registers' names; `addresses` has those before it."""
    written, after, location = list_written_registers(instruction), dict(addresses), None
    source = instruction.operands[1] if len(instruction.operands) > 1 else None
    for register in written:
        after.pop(register, None)
    if instruction.mnemonic == "MOV" and written and source:
        location = find_address(source, addresses)
    elif instruction.mnemonic == "LEA" and isinstance(source, InMemory):
        location = find_location(source, addresses) if source.location or source.registers else None
    if location:
        after[written[0]] = location
    return after


def intersect_held(first: dict[str, str] | None, second: dict[str, str]) -> dict[str, str]:
    """Returns the addresses that registers hold where two paths meet: EITHER if they differ. `first` is `None` if only the second path is known so
    far.
    """
    if first is None:
        return dict(second)
    names = {*first, *second}
    return {name: first.get(name, NUMBER) if first.get(name) == second.get(name) else EITHER for name in names}


def compute_held_addresses(code: list[Instruction], initial: dict[str, str]) -> list[dict[str, str]]:
    """Returns, before each instruction and at the end, the registers that hold the address of a location. Jumps go forward."""
    addresses: list[dict[str, str] | None] = [None] * (len(code) + 1)
    addresses[0] = dict(initial)
    for index, instruction in enumerate(code):
        before = addresses[index]
        if before is not None:
            after = update_held(instruction, before)
            for follower in list_successors(instruction, index):
                if follower != GIVE_UP:
                    addresses[follower] = intersect_held(addresses[follower], after)
    return [it or {} for it in addresses]
