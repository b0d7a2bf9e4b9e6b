"""Files and streams of record batches of columns without children, from values."""
import struct

from layout import Numbers64, Structs, Table, Tables, Text, Value, lay, number

# ── types: tag and table (Schema.fbs) ──

UNITS = {"s": 0, "ms": 1, "us": 2, "ns": 3}


def integer(bits, signed):
    return 2, Table(Value(4, bits), Value(1, 1) if signed else None)


def unit(u):
    return None if u == "ms" else Value(2, UNITS[u])


def type_of(name, *more):
    if name.startswith("uint"):
        return integer(int(name[4:]), False)
    if name.startswith("int") and name[3:].isdigit():
        return integer(int(name[3:]), True)
    plain = {"null": 1, "binary": 4, "utf8": 5, "boolean": 6, "large_binary": 19, "large_utf8": 20,
             "binary_view": 23, "utf8_view": 24}
    if name in plain:
        return plain[name], Table()
    if name == "float64":
        return 3, Table(Value(2, 2))
    if name == "decimal":
        return 7, Table(number(4, more[0]), number(4, more[1]))
    if name == "date32":
        return 8, Table(Value(2, 0))
    if name == "date64":
        return 8, Table()
    if name == "time32":
        return 9, Table(unit(more[0]))
    if name == "time64":
        return 9, Table(unit(more[0]), Value(4, 64))
    if name == "timestamp":
        return 10, Table(number(2, UNITS[more[0]]), Text(more[1]) if more[1] is not None else None)
    if name == "interval":
        return 11, Table(number(2, {"year_month": 0, "day_time": 1, "month_day_nano": 2}[more[0]]))
    if name == "fixed":
        return 15, Table(number(4, more[0]))
    if name == "duration":
        return 18, Table(unit(more[0]))
    raise ValueError(name)


def pair(key, value):
    return Table(Text(key), Text(value))


def pair_list(pairs):
    """Pairs by their keys, or none at all."""
    return None if pairs is None else Tables([pair(key, pairs[key]) for key in sorted(pairs)])


def field(name, kind, nullable):
    """A kind is a tuple, or ("extension", name, metadata, kind)."""
    pairs = []
    if kind[0] == "extension":
        _, extension, metadata, kind = kind
        if metadata is not None:
            pairs.append(pair("ARROW:extension:metadata", metadata))
        pairs.append(pair("ARROW:extension:name", extension))
    tag, table = type_of(*kind)
    return Table(Text(name), Value(1, 1) if nullable else None, Value(1, tag), table, None, Tables([]),
                 Tables(pairs) if pairs else None)


def schema(fields):
    return Table(None, Tables([field(*f) for f in fields]))


# ── messages ──


def up_to(n, at):
    return (at + n - 1) // n * n


def message(tag, header, body, version=4, pairs=None):
    metadata = lay(Table(Value(2, version), Value(1, tag), header, number(8, body), pair_list(pairs)))
    metadata = metadata.ljust(up_to(8, len(metadata)), b"\0")
    return b"\xff\xff\xff\xff" + struct.pack("<I", len(metadata)) + metadata


class Column:
    """A node, the bytes of the buffers, and the number of data buffers of a view column."""

    def __init__(self, rows, nulls, pieces, views=None):
        self.rows, self.nulls, self.pieces, self.views = rows, nulls, pieces, views


def batch_tables(rows, columns, step=64):
    """The tables of a batch and its body, whose buffers each begin at a multiple of step; the body has whole 64s."""
    body = bytearray()
    buffers = []
    for column in columns:
        for piece in column.pieces:
            buffers.append(struct.pack("<qq", len(body), len(piece)))
            body += piece
            body += bytes(up_to(step, len(body)) - len(body))
    body += bytes(up_to(64, len(body)) - len(body))
    nodes = [struct.pack("<qq", c.rows, c.nulls) for c in columns]
    views = [c.views for c in columns if c.views is not None]
    return Table(number(8, rows), Structs(nodes), Structs(buffers), None, Numbers64(views) if views else None), bytes(body)


def batch(rows, columns, step=64, pairs=None):
    """The message and the body of a batch."""
    header, body = batch_tables(rows, columns, step)
    return message(3, header, len(body), pairs=pairs), body


MAGIC = b"ARROW1\0\0"
END = b"\xff\xff\xff\xff\0\0\0\0"


def file_parts(fields, batches):
    """Magic, schema message, each batch's message and body, end mark, footer with its length and the magic."""
    table = schema(fields)
    parts = [MAGIC, message(1, table, 0)]
    blocks = []
    for head, body in batches:
        blocks.append(struct.pack("<qiiq", sum(map(len, parts)), len(head), 0, len(body)))
        parts += [head, body]
    footer = lay(Table(Value(2, 4), schema(fields), Structs([]), Structs(blocks)))
    parts += [END, footer + struct.pack("<i", len(footer)) + b"ARROW1"]
    return parts


def stream_parts(fields, batches):
    parts = [message(1, schema(fields), 0)]
    for head, body in batches:
        parts += [head, body]
    return parts + [END]


# ── columns from values; None is null ──


def bits(flags):
    out = bytearray((len(flags) + 7) // 8)
    for i, flag in enumerate(flags):
        if flag:
            out[i // 8] |= 1 << i % 8
    return bytes(out)


def validity(values):
    return bits([v is not None for v in values]) if None in values else b""


def of(values, *pieces, views=None):
    return Column(len(values), values.count(None), [validity(values), *pieces], views)


def numbers(pattern, values, held=0):
    """Under null rows stands `held`."""
    return of(values, b"".join(struct.pack(pattern, held if v is None else v) for v in values))


def wide(values, held=0):
    return of(values, b"".join((held if v is None else v).to_bytes(16, "little", signed=True) for v in values))


def tuples(pattern, values):
    zero = tuple(0 for c in pattern if c in "iq")
    return of(values, b"".join(struct.pack(pattern, *(zero if v is None else v)) for v in values))


def booleans(values):
    return of(values, bits([bool(v) for v in values]))


def fixed(values, size):
    return of(values, b"".join(bytes(size) if v is None else v for v in values))


def variable(pattern, values, held=None, before=b"", behind=b""):
    """Offsets begin behind `before`. `held` maps a null row to the bytes under it."""
    held = held or {}
    offsets, data = [len(before)], before
    for i, v in enumerate(values):
        data += held.get(i, b"") if v is None else v
        offsets.append(len(data))
    return of(values, b"".join(struct.pack(pattern, o) for o in offsets), data + behind)


def view(value, number, at):
    if len(value) <= 12:
        return struct.pack("<I", len(value)) + value.ljust(12, b"\0")
    return struct.pack("<I", len(value)) + value[:4] + struct.pack("<II", number, at)


def views(values, places, buffers, null=bytes(16)):
    """Long values stand at places (buffer, place) in order."""
    places = iter(places)
    out = b""
    for v in values:
        if v is None:
            out += null
        elif len(v) <= 12:
            out += view(v, 0, 0)
        else:
            n, at = next(places)
            assert buffers[n][at:at + len(v)] == v
            out += view(v, n, at)
    return of(values, out, *buffers, views=len(buffers))
