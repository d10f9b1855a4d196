"""The registers of x86 by all their names: a register is known by the name of its 32 bits, or R8 to R15."""
from __future__ import annotations


# The register of each name, and its bits.
NAMES: dict[str, tuple[str, int]] = {}
for letter in "ABCD":
    for name, bits in ((f"R{letter}X", 64), (f"E{letter}X", 32), (f"{letter}X", 16), (f"{letter}L", 8), (f"{letter}H", 8)):
        NAMES[name] = (f"E{letter}X", bits)
for letters in ("SI", "DI", "BP", "SP"):
    for name, bits in ((f"R{letters}", 64), (f"E{letters}", 32), (letters, 16), (f"{letters}L", 8)):
        NAMES[name] = (f"E{letters}", bits)
for number in range(8, 16):
    for ending, bits in (("", 64), ("D", 32), ("W", 16), ("B", 8)):
        NAMES[f"R{number}{ending}"] = (f"R{number}", bits)
INSTRUCTION_POINTERS = ("RIP", "EIP")


def parse_register(text: str) -> tuple[str, int] | None:
    """Returns the register that a name means, by its name of 32 bits, and the bits of the name; `None` if it means none."""
    return NAMES.get(text.upper())


def widen_register_name(name: str) -> str:
    """Returns the name of a register of 32 bits, in lower case, as one of 64 bits."""
    return "r" + name[1:].lower()
