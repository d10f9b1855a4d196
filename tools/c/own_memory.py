"""Memory that is a thread's own: its stack, and what no other thread accesses. An entry has a place, a number of bytes and a value."""
from __future__ import annotations


from c.layout import Layout
from c.values import Value
from c.execution_path import ExecutionPath


def find_overlapping_entries(path: ExecutionPath, address: int, size: int) -> list[int]:
    """Returns the entries that contain some of these bytes."""
    return [it for it, (has, _) in path.memory.items() if it < address + size and address < it + has]


def load_own(path: ExecutionPath, layout: Layout, address: int, size: int) -> Value:
    """Returns the value of some bytes. Bytes of the stack that were not stored are unset."""
    entries = find_overlapping_entries(path, address, size)
    if len(entries) == 1:
        begin, (length, value) = entries[0], path.memory[entries[0]]
        if begin <= address and address + size <= begin + length:
            return path.extract_bytes(value, size, address - begin)
    is_stack, missing = layout.is_stack(address), size
    word = 0 if is_stack else layout.find_initial_word(address, size)
    for area in entries:
        length, value = path.memory[area]
        if value is None:
            return None
        low, high = max(address, area), min(address + size, area + length)
        mask = (1 << 8 * (high - low)) - 1
        word = word & ~(mask << 8 * (low - address)) | (path.require_number(value) >> 8 * (low - area) & mask) << 8 * (low - address)
        missing -= high - low
    return None if is_stack and missing else word


def store_own(path: ExecutionPath, address: int, size: int, value: Value) -> None:
    """Stores some bytes. Entries that contain other bytes too keep those."""
    for area in find_overlapping_entries(path, address, size):
        length, old = path.memory.pop(area)
        for low, high in ((area, address), (address + size, area + length)):
            if low < high:
                rest = None if old is None else path.require_number(old) >> 8 * (low - area) & (1 << 8 * (high - low)) - 1
                path.memory[low] = (high - low, rest)
    path.memory[address] = (size, value)
