"""FlatBuffers, read where they lie: each table by its vtable, and nothing outside the bytes.

Written from the format's description: a table begins with how far back its vtable stands, a vtable has its own size, the table's,
and for each slot its place in the table, 0 where it is absent; what is no number is pointed at, forwards."""
import struct


class Damaged(Exception):
    """Bytes that do not say what the format asks for."""


def demand(holds, what):
    if not holds:
        raise Damaged(what)


def unpack(pattern, data, at):
    """Numbers at a place, at a multiple of their width from the front."""
    size = struct.calcsize(pattern)
    demand(0 <= at and at + size <= len(data), f"{size} bytes at {at} of {len(data)}")
    return struct.unpack_from(pattern, data, at)


class Table:
    """A table of a flatbuffer."""

    def __init__(self, data, at):
        self.data, self.at = data, at
        demand(at % 4 == 0, f"a table at {at}")
        self.vtable = at - unpack("<i", data, at)[0]
        self.vtable_size, self.size = unpack("<HH", data, self.vtable)
        demand(self.vtable_size >= 4 and self.vtable_size % 2 == 0, f"a vtable of {self.vtable_size} bytes")
        demand(self.vtable + self.vtable_size <= len(data) and at + self.size <= len(data), "a table past the end")

    def place(self, slot, width):
        """Where the bytes of a slot stand, or None where it is absent."""
        entry = 4 + 2 * slot
        if entry >= self.vtable_size:
            return None
        inside, = unpack("<H", self.data, self.vtable + entry)
        if inside == 0:
            return None
        demand(4 <= inside and inside + width <= self.size, f"slot {slot} outside its table")
        demand((self.at + inside) % width == 0, f"slot {slot} at {self.at + inside}")
        return self.at + inside

    def number(self, slot, pattern, default=0):
        at = self.place(slot, struct.calcsize(pattern))
        return default if at is None else unpack(pattern, self.data, at)[0]

    def flag(self, slot):
        number = self.number(slot, "<B")
        demand(number < 2, f"a truth value of {number}")
        return number == 1

    def target(self, slot):
        """The place that a slot points at, or None."""
        at = self.place(slot, 4)
        return None if at is None else at + unpack("<I", self.data, at)[0]

    def table(self, slot):
        at = self.target(slot)
        return None if at is None else Table(self.data, at)

    def items(self, slot, width):
        """Where the items of a vector begin, and how many they are."""
        at = self.target(slot)
        if at is None:
            return 0, 0
        demand(at % 4 == 0 and (at + 4) % min(width, 8) == 0, f"a vector at {at}")
        count, = unpack("<I", self.data, at)
        demand(at + 4 + width * count <= len(self.data), f"{count} items at {at}")
        return at + 4, count

    def text(self, slot):
        begin, count = self.items(slot, 1)
        if begin == 0:
            return None
        demand(unpack("<B", self.data, begin + count) == (0,), "a text without its end")
        try:
            return bytes(self.data[begin:begin + count]).decode()
        except UnicodeDecodeError as fault:
            raise Damaged("a text that is not UTF-8") from fault

    def tables(self, slot):
        begin, count = self.items(slot, 4)
        places = [begin + 4 * i for i in range(count)]
        return [Table(self.data, at + unpack("<I", self.data, at)[0]) for at in places]

    def structs(self, slot, pattern):
        """Structs, each as a tuple of its numbers."""
        width = struct.calcsize(pattern)
        begin, count = self.items(slot, width)
        return [unpack(pattern, self.data, begin + width * i) for i in range(count)]

    def numbers(self, slot, pattern):
        return [number for number, in self.structs(slot, pattern)]


def root(data):
    """The table that the bytes begin with."""
    return Table(data, unpack("<I", data, 0)[0])
