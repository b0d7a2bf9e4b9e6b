"""Files of a column of dictionaries whose values are structs of a dictionary of texts, with their blocks in several orders, and the stream
of the one in order."""
import struct

import arrow
import schemas
from layout import Structs, Table, Value, lay, number

OUTER, INNER = 0, 1
TEXTS = ("dictionary", "int8", False, INNER, ("utf8",))
COLUMN = ("dictionary", "int32", False, OUTER, ("struct", [schemas.field("d", TEXTS)]))
SCHEMA = schemas.schema_table([schemas.field("o", COLUMN)], {})


def header_and_body(rows, columns, step):
    """The table of a record batch, its buffers at multiples of step, and its body, which ends at one."""
    body, buffers = b"", []
    for column in columns:
        for piece in column.pieces:
            buffers.append(struct.pack("<qq", len(body), len(piece)))
            body += piece.ljust(arrow.up_to(step, len(piece)), b"\0")
    nodes = [struct.pack("<qq", c.rows, c.nulls) for c in columns]
    return Table(number(8, rows), Structs(nodes), Structs(buffers)), body


def held(id, is_delta, rows, columns):
    """A dictionary's message and its body (Message.fbs, DictionaryBatch), with its buffers at multiples of a step."""

    def at(step):
        values, body = header_and_body(rows, columns, step)
        return arrow.message(2, Table(number(8, id), values, number(1, is_delta)), len(body)), body

    return at


def rows_of(rows, columns):
    def at(step):
        header, body = header_and_body(rows, columns, step)
        return arrow.message(3, header, len(body)), body

    return at


def keys(pattern, values):
    return arrow.Column(len(values), 0, [b"", struct.pack(f"<{len(values)}{pattern}", *values)])


def texts(*values):
    ends = [sum(map(len, values[:i])) for i in range(len(values) + 1)]
    return arrow.Column(len(values), 0, [b"", struct.pack(f"<{len(ends)}i", *ends), b"".join(values)])


BASE = held(INNER, False, 2, [texts(b"x", b"y")])
DELTA = held(INNER, True, 1, [texts(b"z")])
VALUES = held(OUTER, False, 2, [arrow.Column(2, 0, [b""]), keys("b", [2, 0])])
BATCH = rows_of(2, [keys("i", [0, 1])])
TURNED = rows_of(3, [keys("i", [1, 0, 1])])

# the inner dictionary, a delta of it and the outer one; a delta of the inner dictionary before what is none; the outer one before the inner one
ORDERS = {"in_order": [BASE, DELTA, VALUES], "delta_first": [DELTA, BASE, VALUES], "outer_first": [VALUES, BASE, DELTA]}


def file_of(dictionaries):
    parts = [arrow.MAGIC, arrow.message(1, SCHEMA, 0)]
    lists = []
    for messages in (dictionaries, [BATCH, TURNED]):
        blocks = []
        for head, body in (message(8) for message in messages):
            blocks.append(struct.pack("<qiiq", sum(map(len, parts)), len(head), 0, len(body)))
            parts += [head, body]
        lists.append(Structs(blocks))
    footer = lay(Table(Value(2, 4), SCHEMA, *lists))
    return b"".join(parts + [arrow.END, footer + struct.pack("<i", len(footer)) + b"ARROW1"])


def stream_of(dictionaries):
    """Inner parts stand before the outer ones that were read under them, each as it stands in the file."""
    parts = [part for message in [*dictionaries, BATCH, TURNED] for part in message(64)]
    return b"".join([arrow.message(1, SCHEMA, 0), *parts, arrow.END])


BLOCKS = {name: file_of(dictionaries) for name, dictionaries in ORDERS.items()}
STREAM = stream_of(ORDERS["in_order"])
