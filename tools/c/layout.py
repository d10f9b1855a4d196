"""The addresses of objects, stacks, the heap and code, all below 2 to the 31, and the names by which they are known."""
from __future__ import annotations


from c.assembly import Assembly, DataObject, Datum
from c.refused import Refused
from c.values import MASK

OBJECTS, HEAP, CODE, STACKS = 0x5A5A0000, 0x5C000000, 0x40000000, 0x7FFF0000
# The address to which a thread returns at its end.
LEAVE = CODE - 1
HEAP_OF_THREAD, STACK_OF_THREAD, LARGEST_BLOCK = 0x100000, 0x10000, 0x1000
# The gap between two objects, so that an access past the end of one meets no other.
GAP = 64


class Layout:
    """The addresses of a file."""

    def __init__(self, assembly: Assembly) -> None:
        """Gives each object of the data sections an address."""
        self.assembly = assembly
        self.addresses: dict[str, int] = {}
        address = OBJECTS
        for name, data_object in sorted(assembly.objects.items()):
            self.addresses[name] = address
            address += (data_object.length + 2 * GAP - 1) // GAP * GAP

    def find_address(self, symbol: str | None, number: int) -> int:
        """Returns the address of a symbol, also of a function, plus a number. Raises Refused if it is defined elsewhere."""
        if symbol is None:
            return number
        symbol = self.assembly.resolve_alias(symbol)
        if symbol in self.addresses:
            return self.addresses[symbol] + number
        if symbol in self.assembly.labels and not number:
            return CODE + self.assembly.labels[symbol]
        raise Refused(f"'{symbol}' is defined elsewhere")

    def find_object(self, address: int) -> tuple[str, DataObject, int] | None:
        """Returns the object that contains a byte: its name, the object, and the byte's offset. `None` if no object does."""
        for name, begin in self.addresses.items():
            if begin <= address < begin + self.assembly.objects[name].length:
                return name, self.assembly.objects[name], address - begin
        return None

    @staticmethod
    def is_heap(address: int) -> bool:
        """Returns whether a byte is in memory that a thread has allocated."""
        return HEAP <= address < HEAP + 4 * HEAP_OF_THREAD

    @staticmethod
    def is_stack(address: int) -> bool:
        """Returns whether a byte is on some thread's stack."""
        return STACKS - 4 * STACK_OF_THREAD < address <= STACKS + GAP

    def find_initial_word(self, address: int, size: int) -> int:
        """Returns the word that `size` bytes from an address on have at first: 0 in allocated memory. Raises Refused unless a variable has all of
        them, or if its data name what is defined elsewhere.
        """
        if self.is_heap(address):
            return 0
        containing_object = self.find_object(address)
        if not containing_object or containing_object[2] + size > containing_object[1].length:
            raise Refused(f"{size} bytes at {address:#x} are accessed, which no variable has")
        word = 0
        for datum in containing_object[1].data:
            word |= self.extract_datum_bytes(datum, containing_object[2], size)
        return word

    def extract_datum_bytes(self, datum: Datum, begin: int, size: int) -> int:
        """Returns what a datum contributes to the word of `size` bytes of its object from the offset `begin` on."""
        low, high = max(datum.offset, begin), min(datum.offset + datum.size, begin + size)
        if low >= high:
            return 0
        whole = self.find_address(datum.symbol, datum.number) & MASK[datum.size]
        return (whole >> 8 * (low - datum.offset) & (1 << 8 * (high - low)) - 1) << 8 * (low - begin)

    def compute_alignment(self, address: int) -> int:
        """Returns the alignment that a byte certainly has."""
        containing_object = self.find_object(address)
        alignment, offset = (16, address - HEAP) if containing_object is None else (containing_object[1].alignment, containing_object[2])
        while offset % alignment:
            alignment //= 2
        return alignment

    def name_address(self, address: int) -> str:
        """Returns the name of a byte: `x`, `x+8`, `new0_1+4`."""
        containing_object = self.find_object(address)
        if containing_object:
            return containing_object[0] + (f"+{containing_object[2]}" if containing_object[2] else "")
        if not self.is_heap(address):
            return hex(address)
        thread, offset = divmod(address - HEAP, HEAP_OF_THREAD)
        block, offset = divmod(offset, LARGEST_BLOCK)
        return f"new{thread}_{block}" + (f"+{offset}" if offset else "")

    def find_area(self, address: int) -> str | None:
        """Returns the object, the allocated block or the stack that contains an address or ends at it; `None` if there is none."""
        if not OBJECTS <= address < STACKS + GAP:
            return None
        containing_object = self.find_object(address) or self.find_object(address - 1)
        if containing_object:
            return containing_object[0]
        if self.is_heap(address):
            return f"block {(address - HEAP) // LARGEST_BLOCK}"
        return f"stack {(STACKS - address) // STACK_OF_THREAD}" if self.is_stack(address) else None

    def check_comparable(self, left: int, right: int) -> None:
        """Raises Refused for an order or a difference of addresses of two objects: it depends on where a linker puts them."""
        areas = self.find_area(left), self.find_area(right)
        if None not in areas and areas[0] != areas[1]:
            raise Refused(f"the order or the difference of addresses of two objects is used, '{areas[0]}' and '{areas[1]}': a linker chooses it")

    def list_objects(self) -> list[tuple[int, str]]:
        """Returns the addresses of all objects, each with its name."""
        return [(address, name) for name, address in self.addresses.items()]
