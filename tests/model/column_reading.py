"""Columns of a record batch, read from its nodes and buffers into Python values, cell by cell (Arrow Columnar Format, "Buffer Listing
for Each Layout").

A cell is None where its row is null. Else it is a number, a truth value, bytes, a text, a list of cells, a tuple of cells for a struct,
the numbers of an interval, the id and the cell for a union, and for a dictionary the value that its key leads to. What stands below a row
that is null is not looked at."""
import struct
from collections import namedtuple

from flat_reading import Damaged, demand
from schema_reading import fields_below

# how many rows there are, and what gives the cell of one
Column = namedtuple("Column", "rows cell")

PATTERNS = {"int8": "b", "int16": "h", "int32": "i", "int64": "q", "uint8": "B", "uint16": "H", "uint32": "I", "uint64": "Q",
            "float16": "e", "float32": "f", "float64": "d", "date32": "i", "date64": "q", "time32": "i", "time64": "q",
            "timestamp": "q", "duration": "q"}
INTERVALS = {"year_month": "i", "day_time": "ii", "month_day_nano": "iiq"}


class Body:
    """The nodes, buffers and view counts of a record batch, which columns take in turn, with the values of dictionaries that it is read
    under, and whether the nulls that its nodes state are counted."""

    def __init__(self, batch, message, order, dictionaries, is_exact):
        demand(batch.table(3) is None, "compressed buffers")
        self.nodes, self.places = iter(batch.structs(1, "<qq")), iter(batch.structs(2, "<qq"))
        self.views, self.bytes, self.version = iter(batch.numbers(4, "<q")), message.body, message.version
        self.mark, self.dictionaries, self.is_exact = {"little": "<", "big": ">"}[order], dictionaries, is_exact

    def take(self, queue, what):
        found = next(queue, None)
        demand(found is not None, f"no {what} left")
        return found

    def node(self):
        rows, nulls = self.take(self.nodes, "node")
        demand(rows >= 0 and nulls >= 0, f"a node of {rows} rows and {nulls} nulls")
        return rows, nulls

    def buffer(self, least=0):
        """The bytes of a buffer, which has to have so many at least."""
        at, length = self.take(self.places, "buffer")
        demand(at >= 0 and at % 8 == 0 and least <= length, f"a buffer of {length} bytes at {at}, where {least} are needed")
        demand(at + length <= len(self.bytes), f"a buffer to {at + length} in a body of {len(self.bytes)}")
        return self.bytes[at:at + length]

    def numbers(self, pattern, count):
        width = struct.calcsize("<" + pattern)
        return list(struct.iter_unpack(self.mark + pattern, self.buffer(width * count)[:width * count]))

    def flags(self, rows):
        held = self.buffer((rows + 7) // 8)
        return lambda i: held[i // 8] >> i % 8 & 1 == 1

    def validity(self, rows, nulls):
        """Which rows are valid: where the node counts no null, all are, and the bits are not looked at."""
        if nulls == 0:
            self.buffer()
            return lambda i: True
        valid = self.flags(rows)
        demand(not self.is_exact or nulls == sum(not valid(i) for i in range(rows)), f"{nulls} nulls are stated")
        return valid

    def offsets(self, pattern, rows):
        """Offsets that rise from 0 or above. Of no rows there may be none."""
        held = self.buffer(0 if rows == 0 else struct.calcsize("<" + pattern) * (rows + 1))
        if rows == 0:
            return [0]
        offsets = [o for o, in struct.iter_unpack(self.mark + pattern, held[:struct.calcsize("<" + pattern) * (rows + 1)])]
        demand(offsets[0] >= 0 and all(a <= b for a, b in zip(offsets, offsets[1:])), "offsets that fall")
        return offsets

    def end(self):
        """Nothing is left that no column took."""
        for queue in (self.nodes, self.places, self.views):
            demand(next(queue, None) is None, "more than the columns need")


def cells(column):
    return [column.cell(i) for i in range(column.rows)]


def child(column, rows):
    """A child, which has to have so many rows at least."""
    demand(column.rows >= rows, f"a child of {column.rows} rows, where {rows} are needed")
    return column


def text(value):
    try:
        return bytes(value).decode()
    except UnicodeDecodeError as fault:
        raise Damaged("a text that is not UTF-8") from fault


# ── layouts: what gives the cells of rows that are valid, behind the validity ──


def plain(kind, rows, body):
    numbers = body.numbers(PATTERNS[kind[0]], rows)
    return lambda i: numbers[i][0]


def interval(kind, rows, body):
    numbers = body.numbers(INTERVALS[kind[1]], rows)
    return lambda i: numbers[i]


def decimal(kind, rows, body):
    width = 16 if kind[0] == "decimal" else 32
    held, order = body.buffer(width * rows), {"<": "little", ">": "big"}[body.mark]
    return lambda i: int.from_bytes(held[width * i:width * (i + 1)], order, signed=True)


def boolean(kind, rows, body):
    return body.flags(rows)


def fixed(kind, rows, body):
    width = kind[1]
    demand(width > 0, f"byte strings of {width}")
    held = body.buffer(width * rows)
    return lambda i: bytes(held[width * i:width * (i + 1)])


def variable(kind, rows, body):
    offsets = body.offsets("q" if kind[0].startswith("large") else "i", rows)
    held, made = body.buffer(offsets[-1]), text if "utf8" in kind[0] else bytes
    return lambda i: made(held[offsets[i]:offsets[i + 1]])


def viewed(view, buffers):
    """The bytes of a view: its own where they are 12 at most, else those of a buffer, which begin with its four."""
    length, = struct.unpack_from("<i", view)
    demand(length >= 0, f"a view of {length} bytes")
    if length <= 12:
        demand(not any(view[4 + length:]), "a view with more than its bytes")
        return view[4:4 + length]
    number, at = struct.unpack_from("<ii", view, 8)
    demand(0 <= number < len(buffers) and 0 <= at <= len(buffers[number]) - length, "a view outside its buffers")
    found = buffers[number][at:at + length]
    demand(found[:4] == view[4:8], "a view that begins otherwise")
    return found


def views(kind, rows, body):
    held, count = body.buffer(16 * rows), body.take(body.views, "number of buffers")
    demand(count >= 0, f"{count} buffers")
    buffers, made = [body.buffer() for _ in range(count)], text if kind[0] == "utf8_view" else bytes
    return lambda i: made(viewed(held[16 * i:16 * (i + 1)], buffers))


def variable_list(kind, rows, body):
    offsets = body.offsets("q" if kind[0] == "large_list" else "i", rows)
    items = child(read(fields_below(kind)[0][1], body), offsets[-1])
    return lambda i: [items.cell(j) for j in range(offsets[i], offsets[i + 1])]


def fixed_list(kind, rows, body):
    size = kind[1]
    demand(size > 0, f"lists of {size}")
    items = child(read(kind[2][1], body), size * rows)
    return lambda i: [items.cell(j) for j in range(size * i, size * (i + 1))]


def struct_of(kind, rows, body):
    parts = [child(read(field[1], body), rows) for field in kind[1]]
    return lambda i: tuple(part.cell(i) for part in parts)


def dictionary(kind, rows, body):
    keys, values = body.numbers(PATTERNS[kind[1]], rows), body.dictionaries.get(kind[3], [])

    def cell(i):
        key, = keys[i]
        demand(0 <= key < len(values), f"key {key} of {len(values)} values")
        return values[key]

    return cell


def union(kind, rows, body):
    """Behind the ids of the rows and, where it is dense, their places in the children stand the children."""
    _, mode, ids, fields = kind
    types = body.numbers("b", rows)
    places = body.numbers("i", rows) if mode == "dense" else None
    parts = [child(read(field[1], body), 0 if places else rows) for field in fields]

    def cell(i):
        demand(types[i][0] in ids, f"a row of the id {types[i][0]}")
        part, at = parts[ids.index(types[i][0])], places[i][0] if places else i
        demand(0 <= at < part.rows, f"row {at} of {part.rows}")
        return types[i][0], part.cell(at)

    return cell


LAYOUTS = {"interval": interval, "decimal": decimal, "decimal256": decimal, "boolean": boolean, "fixed": fixed,
           "binary": variable, "utf8": variable, "large_binary": variable, "large_utf8": variable, "binary_view": views,
           "utf8_view": views, "list": variable_list, "large_list": variable_list, "map": variable_list, "fixed_list": fixed_list,
           "struct": struct_of, "dictionary": dictionary, "union": union}


def read(kind, body):
    """The next column. A null column has no buffer, and a union a validity up to version V4 alone."""
    if kind[0] == "extension":
        return read(kind[3], body)
    rows, nulls = body.node()
    if kind[0] == "null":
        return Column(rows, lambda i: None)
    has_validity = kind[0] != "union" or body.version < 4
    valid = body.validity(rows, nulls) if has_validity else lambda i: True
    cell = LAYOUTS.get(kind[0], plain)(kind, rows, body)
    return Column(rows, lambda i: cell(i) if valid(i) else None)
