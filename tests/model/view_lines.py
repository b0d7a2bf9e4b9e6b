"""The lines that `run_views` prints of a file, from the format's description: of each row what it holds, and where the bytes of its value stand
in the file. Columns are read as column_reading.py reads them, but into what stands where."""
import struct

import schema_reading
from column_reading import INTERVALS, PATTERNS, Body
from flat_reading import demand, root
from reading import DICTIONARY, RECORD, block_message, blocks_of, footer_of
from schema_reading import fields_below


class PlacedBody(Body):
    """A body that tells where the last buffer that was taken begins in the file, and has views as the values of dictionaries."""

    def __init__(self, table, message, order, dictionaries):
        super().__init__(table, message, order, dictionaries, False)
        self.front = message.at + message.front

    def take(self, queue, what):
        found = super().take(queue, what)
        if what == "buffer":
            self.place = self.front + found[0]
        return found


class View:
    """How many rows there are, which are valid, and the lines of one that is."""

    def __init__(self, rows, valid, lines):
        self.rows, self.valid, self.valid_lines = rows, valid, lines

    def lines(self, path, row):
        demand(row < self.rows, f"row {row} of {self.rows}")
        if not self.valid(row):
            return [f"{path} {row} null"]
        return self.valid_lines(path, row)


def spans(child, word="rows"):
    """The lines of a row that leads to rows of a child, by a call that gives its number, the first row and how many; the child by its number."""

    def made(span):
        def lines(path, row):
            front, number, first, count = span(row)
            found = [f"{path} {row} {word}{front} {number} {first} {count}"]
            for i in range(first, first + count):
                found += child(number).lines(f"{path}.{number}", i)
            return found

        return lines

    return made


# ── layouts: the lines of rows that are valid, behind the validity ──


def plain(kind, rows, body):
    numbers, width = body.numbers(PATTERNS[kind[0]], rows), struct.calcsize("<" + PATTERNS[kind[0]])
    at = body.place
    return lambda path, row: [f"{path} {row} num {numbers[row][0]} @{at + width * row}"]


def interval(kind, rows, body):
    numbers, width = body.numbers(INTERVALS[kind[1]], rows), struct.calcsize("<" + INTERVALS[kind[1]])
    at = body.place
    if kind[1] == "year_month":
        return lambda path, row: [f"{path} {row} num {numbers[row][0]} @{at + width * row}"]

    def lines(path, row):
        first, second, third = (*numbers[row], 0)[:3]
        return [f"{path} {row} ival {first} {second} {third} @{at + width * row}"]

    return lines


def decimal(kind, rows, body):
    held, order = body.buffer(16 * rows), {"<": "little", ">": "big"}[body.mark]
    at = body.place
    return lambda path, row: [f"{path} {row} num {int.from_bytes(held[16 * row:16 * (row + 1)], order, signed=True)} @{at + 16 * row}"]


def boolean(kind, rows, body):
    flags = body.flags(rows)
    at = body.place
    return lambda path, row: [f"{path} {row} bool {'true' if flags(row) else 'false'} @{at + row // 8}"]


def bytes_line(kind, path, row, value, place):
    word = "text" if "utf8" in kind[0] else "bytes"
    return [f"{path} {row} {word} {bytes(value).hex()} @{place}"]


def fixed(kind, rows, body):
    width = kind[1]
    held = body.buffer(width * rows)
    at = body.place
    return lambda path, row: bytes_line(kind, path, row, held[width * row:width * (row + 1)], at + width * row)


def variable(kind, rows, body):
    offsets = body.offsets("q" if kind[0].startswith("large") else "i", rows)
    held = body.buffer(offsets[-1])
    at = body.place
    return lambda path, row: bytes_line(kind, path, row, held[offsets[row]:offsets[row + 1]], at + offsets[row])


def views(kind, rows, body):
    held = body.buffer(16 * rows)
    at, buffers = body.place, []
    for _ in range(body.take(body.views, "number of buffers")):
        bytes_of = body.buffer()
        buffers.append((bytes_of, body.place))

    def lines(path, row):
        view = held[16 * row:16 * (row + 1)]
        length, = struct.unpack_from("<i", view)
        if length <= 12:
            return bytes_line(kind, path, row, view[4:4 + length], at + 16 * row + 4)
        number, begin = struct.unpack_from("<ii", view, 8)
        data, place = buffers[number]
        return bytes_line(kind, path, row, data[begin:begin + length], place + begin)

    return lines


def variable_list(kind, rows, body):
    offsets = body.offsets("q" if kind[0] == "large_list" else "i", rows)
    items = view(fields_below(kind)[0][1], body)
    return spans(lambda number: items)(lambda row: ("", 0, offsets[row], offsets[row + 1] - offsets[row]))


def fixed_list(kind, rows, body):
    size, items = kind[1], view(kind[2][1], body)
    return spans(lambda number: items)(lambda row: ("", 0, size * row, size))


def struct_of(kind, rows, body):
    parts = [view(field[1], body) for field in kind[1]]

    def lines(path, row):
        found = [f"{path} {row} struct"]
        for i, part in enumerate(parts):
            found += part.lines(f"{path}.{i}", row)
        return found

    return lines


def dictionary(kind, rows, body):
    keys, parts = body.numbers(PATTERNS[kind[1]], rows), list(body.dictionaries.get(kind[3], []))

    def span(row):
        key, = keys[row]
        for number, part in enumerate(parts):
            if 0 <= key < part.rows:
                return "", number, key, 1
            key -= part.rows
        demand(False, "a key past the values")

    return spans(lambda number: parts[number])(span)


def union(kind, rows, body):
    _, mode, ids, fields = kind
    types = body.numbers("b", rows)
    places = body.numbers("i", rows) if mode == "dense" else None
    parts = [view(field[1], body) for field in fields]

    def span(row):
        tag, = types[row]
        return f" {tag}", ids.index(tag), places[row][0] if places else row, 1

    return spans(lambda number: parts[number], "tag")(span)


LAYOUTS = {"interval": interval, "decimal": decimal, "boolean": boolean, "fixed": fixed, "binary": variable, "utf8": variable,
           "large_binary": variable, "large_utf8": variable, "binary_view": views, "utf8_view": views, "list": variable_list,
           "large_list": variable_list, "map": variable_list, "fixed_list": fixed_list, "struct": struct_of, "dictionary": dictionary,
           "union": union}


def view(kind, body):
    """The next column."""
    if kind[0] == "extension":
        return view(kind[3], body)
    rows, nulls = body.node()
    if kind[0] == "null":
        return View(rows, lambda row: False, None)
    has_validity = kind[0] != "union" or body.version < 4
    valid = body.validity(rows, nulls) if has_validity else lambda row: True
    return View(rows, valid, LAYOUTS.get(kind[0], plain)(kind, rows, body))


# ── files ──


def columns_of(kinds, table, message, order, dictionaries):
    body = PlacedBody(table, message, order, dictionaries)
    return [view(kind, body) for kind in kinds]


def held_dictionaries(data, footer, end, order, kinds):
    """The parts under each id, in the order of their blocks."""
    parts, values = {}, schema_reading.dictionaries(kinds)
    for block in blocks_of(footer, 2):
        message = block_message(data, block, DICTIONARY, end)
        id = message.header.number(0, "<q")
        part, = columns_of([values[id]], message.header.table(1), message, order, parts)
        parts.setdefault(id, []).append(part)
    return parts


def lines_of(data):
    """The lines of all batches of a file with which nothing is wrong."""
    footer, end = footer_of(data)
    order, fields, _ = schema_reading.schema(footer.table(1))
    kinds = [kind for _, kind, _, _ in fields]
    dictionaries, found = held_dictionaries(data, footer, end, order, kinds), []
    for i, block in enumerate(blocks_of(footer, 3)):
        message = block_message(data, block, RECORD, end)
        columns, rows = columns_of(kinds, message.header, message, order, dictionaries), message.header.number(0, "<q")
        found.append(f"batch {i} {rows} {len(columns)}")
        for number, column in enumerate(columns):
            for row in range(rows):
                found += column.lines(str(number), row)
    return found
