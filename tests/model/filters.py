"""Filters of rows, as the command `scan` has them: what they keep of a file's contents, and which places of the file it has to fetch."""
import operator
from collections import namedtuple

import schema_reading
from cells import Rows
from reading import RECORD, block_message, blocks_of, footer_of

SIGNS = {"=": operator.eq, "!=": operator.ne, "<": operator.lt, "<=": operator.le, ">": operator.gt, ">=": operator.ge}
# the number of a column, a sign, and the number that those of the rows are compared with
Filter = namedtuple("Filter", "column sign number")
NUMBERS = ("int8", "int16", "int32", "int64", "uint8", "uint16", "uint32", "uint64", "date32", "date64", "time32", "time64", "timestamp",
           "duration", "decimal")


def word_of(wanted):
    return f"{wanted.column}{wanted.sign}{wanted.number}"


def is_of_numbers(kind):
    """Extensions are looked through, and a dictionary counts by its values."""
    if kind[0] in ("dictionary", "extension"):
        return is_of_numbers(kind[-1])
    return kind[0] in NUMBERS or kind[:2] == ("interval", "year_month")


def number_in(cell):
    """The number of a cell, of which months have a tuple of one, or None."""
    return cell[0] if isinstance(cell, tuple) else cell


def refusal(fields, wanted, columns):
    """What is noted where the columns cannot be asked for so, or None."""
    if wanted.column >= len(fields):
        return 5, b"refused 5 Projection\n"
    chosen = range(len(fields)) if columns is None else columns
    if len(set(chosen)) < len(chosen) or any(column >= len(fields) for column in chosen):
        return 5, b"refused 5 Projection\n"
    return None if is_of_numbers(fields[wanted.column][1]) else (2, b"refused 2 Predicate\n")


def rows_that_meet(contents, wanted):
    """The rows of each batch that meet a filter, or None where none does."""
    rows = []
    for batch in contents.batches:
        numbers = map(number_in, batch.columns[wanted.column])
        found = [row for row, number in enumerate(numbers) if number is not None and SIGNS[wanted.sign](number, wanted.number)]
        rows.append(Rows(batch.rows, found) if found else None)
    return rows


# ── places ──

OWN_BUFFERS = {"null": 0, "struct": 1, "fixed_list": 1, "binary": 3, "utf8": 3, "large_binary": 3, "large_utf8": 3}


def buffers_of(kind, version, views):
    """How many buffers a column has, with those of its children; of views the batch tells it."""
    if kind[0] == "extension":
        return buffers_of(kind[3], version, views)
    own = OWN_BUFFERS.get(kind[0], 2)
    if kind[0] == "union":
        own = (2 if kind[1] == "dense" else 1) + (version < 4)
    if "view" in kind[0]:
        own = 2 + next(views)
    return own + sum(buffers_of(field[1], version, views) for field in schema_reading.fields_below(kind))


def column_places(kinds, message):
    """The places of the buffers of each column of a batch, as begin and length."""
    at, places, found = message.at + message.front, iter(message.header.structs(2, "<qq")), []
    views = iter(message.header.numbers(4, "<q"))
    for kind in kinds:
        own = [next(places) for _ in range(buffers_of(kind, message.version, views))]
        found.append([(at + begin, length) for begin, length in own])
    return found


def places_of(data, wanted, columns, rows):
    """The places of a file that a scan may fetch, each as often as it may: the end, the footer, where there is a batch all of the
    dictionaries, and of each batch what stands before its body, the filter's column, and where a row meets it the columns asked for."""
    footer, end = footer_of(data)
    found = [(len(data) - 10, 10), (end, len(data) - 10 - end)]
    kinds = [kind for _, kind, _, _ in schema_reading.schema(footer.table(1))[1]]
    blocks = blocks_of(footer, 3)
    for at, front, body in blocks_of(footer, 2) if blocks else []:
        found += [(at, front), (at + front, body)]
    for block, kept in zip(blocks, rows):
        own = column_places(kinds, block_message(data, block, RECORD, end))
        found += [block[:2], *own[wanted.column]]
        if kept is not None:
            found += [place for i in (range(len(kinds)) if columns is None else columns) for place in own[i]]
    return found


def fetched_elsewhere(reads, places):
    """The reads outside of the places, or None; more bytes than all places have are outside too."""
    outside = [(at, count) for at, count in reads if not any(begin <= at and at + count <= begin + length for begin, length in places)]
    total, most = sum(count for _, count in reads), sum(length for _, length in places)
    return outside or (total > most and [f"{total} bytes in the place of {most}"]) or None
