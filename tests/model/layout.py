"""Trees of tables, texts and vectors as flatbuffers: the layout that the streams use.

Written by hand from the format's description: a table has its vtable right before it and begins at a multiple of 8,
inline values in slot order each at its own alignment, children behind the table in slot order, each whole before the next.
"""
import struct

WIDTHS = {1: "<b", 2: "<h", 4: "<i", 8: "<q"}


class Out:
    def __init__(self):
        self.data = bytearray(4)  # the root's place comes first

    def at(self):
        return len(self.data)

    def pad(self, n):
        while len(self.data) % n:
            self.data.append(0)


class Text:
    def __init__(self, text):
        self.text = text.encode() if isinstance(text, str) else text

    def lay(self, out):
        out.pad(4)
        place = out.at()
        out.data += struct.pack("<I", len(self.text)) + self.text + b"\0"
        return place


class Structs:
    """So many structs of 8 byte alignment."""

    def __init__(self, items):
        self.items = items

    def lay(self, out):
        while out.at() % 8 != 4:
            out.data.append(0)
        place = out.at()
        out.data += struct.pack("<I", len(self.items)) + b"".join(self.items)
        return place


class Numbers64(Structs):
    def __init__(self, numbers):
        super().__init__([struct.pack("<q", n) for n in numbers])


class Numbers32:
    def __init__(self, numbers):
        self.numbers = numbers

    def lay(self, out):
        out.pad(4)
        place = out.at()
        out.data += struct.pack(f"<I{len(self.numbers)}i", len(self.numbers), *self.numbers)
        return place


class Tables:
    def __init__(self, tables):
        self.tables = tables

    def lay(self, out):
        out.pad(4)
        place = out.at()
        out.data += struct.pack("<I", len(self.tables)) + bytes(4 * len(self.tables))
        for i, table in enumerate(self.tables):
            slot = place + 4 + 4 * i
            struct.pack_into("<I", out.data, slot, table.lay(out) - slot)
        return place


class Value:
    def __init__(self, width, number):
        self.width = width
        self.number = number


class Table:
    """Slots are None where absent, a Value, or a node."""

    def __init__(self, *slots):
        self.slots = list(slots)
        while self.slots and self.slots[-1] is None:
            self.slots.pop()

    def lay(self, out):
        vtable_size = 4 + 2 * len(self.slots)
        while (out.at() + vtable_size) % 8:
            out.data.append(0)
        vtable = out.at()
        place = vtable + vtable_size
        out.data += bytes(vtable_size) + struct.pack("<i", place - vtable)
        children = []
        entries = []
        for slot in self.slots:
            if slot is None:
                entries.append(0)
                continue
            width = slot.width if isinstance(slot, Value) else 4
            out.pad(width)
            entries.append(out.at() - place)
            if isinstance(slot, Value):
                out.data += struct.pack(WIDTHS[width], slot.number)
            else:
                children.append((out.at(), slot))
                out.data += bytes(4)
        struct.pack_into("<HH", out.data, vtable, vtable_size, out.at() - place)
        for i, entry in enumerate(entries):
            struct.pack_into("<H", out.data, vtable + 4 + 2 * i, entry)
        for at, child in children:
            struct.pack_into("<I", out.data, at, child.lay(out) - at)
        return place


def lay(table):
    out = Out()
    struct.pack_into("<I", out.data, 0, table.lay(out))
    return bytes(out.data)


def number(width, value):
    """A scalar is left out where it is 0."""
    return Value(width, value) if value else None
