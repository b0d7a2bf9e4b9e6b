"""Random files with their streams, as cases for `rt try --cases FOLDER -- stream`: python3 fuzz.py FOLDER COUNT SEED."""
import os
import random
import struct
import sys

import arrow
from arrow import Column, bits, up_to
from layout import Numbers64, Structs, Table, number

MIXED = ["", "a", "é", "abcdefghijkl", "abcdefghijklm", "twenty characters ....", "日本語テキスト", "x" * 40]


class Held:
    """A column as the file has it and as its stream has it."""

    def __init__(self, kind, file, sent):
        self.kind, self.file, self.sent = kind, file, sent


def garbage(r, n):
    return bytes(r.randrange(256) for _ in range(n))


def with_validity(r, rows, kind, pieces_held, pieces_sent, flags, views=None, sent_views=None):
    """flags are None where the node counts no null."""
    if flags is None:
        stray = garbage(r, r.choice([0, 0, 0, (rows + 7) // 8]))
        file = Column(rows, 0, [stray, *pieces_held], views)
        sent = Column(rows, 0, [b"", *pieces_sent], sent_views)
        return Held(kind, file, sent)
    packed = bits(flags)
    held = bytearray(packed)
    for i in range(rows, 8 * len(held)):
        if r.random() < 0.5:
            held[i // 8] |= 1 << i % 8
    stated = flags.count(False) if r.random() < 0.7 else r.randint(1, max(1, rows))
    stated = max(1, stated)
    more = garbage(r, r.choice([0, 0, 3, 56]))
    file = Column(rows, stated, [bytes(held) + more, *pieces_held], views)
    sent = Column(rows, flags.count(False), [packed if rows else b"", *pieces_sent], sent_views)
    return Held(kind, file, sent)


def flags_of(r, rows):
    if rows == 0 or r.random() < 0.4:
        return None
    return [r.random() < 0.7 for _ in range(rows)]


FIXED = [(("int8",), 1), (("int16",), 2), (("int32",), 4), (("int64",), 8), (("uint8",), 1), (("uint16",), 2),
         (("uint32",), 4), (("uint64",), 8), (("decimal", 38, 10), 16), (("decimal", 9, 0), 16), (("date32",), 4),
         (("date64",), 8), (("time32", "s"), 4), (("time32", "ms"), 4), (("time64", "us"), 8), (("time64", "ns"), 8),
         (("timestamp", "s", None), 8), (("timestamp", "us", ""), 8), (("timestamp", "ns", "Europe/Zurich"), 8),
         (("duration", "s"), 8), (("duration", "ms"), 8), (("interval", "year_month"), 4), (("interval", "day_time"), 8),
         (("interval", "month_day_nano"), 16), (("fixed", 1), 1), (("fixed", 3), 3), (("fixed", 17), 17)]


def fixed(r, rows):
    kind, width = r.choice(FIXED)
    data = garbage(r, width * rows)
    return with_validity(r, rows, kind, [data + garbage(r, r.choice([0, 0, 5]))], [data], flags_of(r, rows))


def boolean(r, rows):
    values = [r.random() < 0.5 for _ in range(rows)]
    held = bytearray(bits(values))
    for i in range(rows, 8 * len(held)):
        if r.random() < 0.5:
            held[i // 8] |= 1 << i % 8
    return with_validity(r, rows, ("boolean",), [bytes(held) + garbage(r, r.choice([0, 2]))], [bits(values)], flags_of(r, rows))


def null(r, rows):
    return Held(("null",), Column(rows, rows, []), Column(rows, rows, []))


def variable(r, rows):
    name, pattern = r.choice([("binary", "<i"), ("utf8", "<i"), ("large_binary", "<q"), ("large_utf8", "<q")])
    is_text = "utf8" in name
    flags = flags_of(r, rows)
    before = garbage(r, r.choice([0, 0, 1, 9])) if rows else b""
    data, offsets = before, [len(before)]
    for i in range(rows):
        if is_text and (flags is None or flags[i]):
            data += r.choice(MIXED).encode()
        else:
            data += garbage(r, r.choice([0, 1, 4, 20]))
        offsets.append(len(data))
    sent_offsets = [o - offsets[0] for o in offsets]
    sent = [b"".join(struct.pack(pattern, o) for o in sent_offsets), data[len(before):]]
    held = b"".join(struct.pack(pattern, o) for o in offsets) + garbage(r, r.choice([0, 0, 4, 8]))
    if rows == 0 and r.random() < 0.5:
        held = b""  # no rows may be written without offsets
    return with_validity(r, rows, (name,), [held, data + garbage(r, r.choice([0, 0, 7]))], sent, flags)


def placed(r, values, flags):
    """Views of values, and their buffers, in which other bytes may stand too."""
    buffers = [bytearray() for _ in range(r.choice([0, 1, 1, 2, 3]))]
    views = []
    for i, value in enumerate(values):
        if flags is not None and not flags[i]:
            views.append(garbage(r, 16))
            continue
        if len(value) > 12:
            if not buffers:
                buffers.append(bytearray())
            n = r.randrange(len(buffers))
            at = buffers[n].find(value) if r.random() < 0.3 else -1
            if at < 0:
                buffers[n] += garbage(r, r.choice([0, 0, 0, 1, 25]))
                at = len(buffers[n])
                buffers[n] += value
            views.append(arrow.view(value, n, at))
        else:
            views.append(arrow.view(value, 0, 0))
    for b in buffers:
        b += garbage(r, r.choice([0, 0, 0, 13, 300, 1100]))
    return views, [bytes(b) for b in buffers]


def laid_anew(values, flags, held_views):
    out, buffer = b"", b""
    for i, value in enumerate(values):
        if flags is not None and not flags[i]:
            out += bytes(16)
        elif len(value) <= 12:
            out += held_views[i]
        else:
            out += arrow.view(value, 0, len(buffer))
            buffer += value
    return out, [buffer] if buffer else []


def sent_views(values, flags, views, buffers):
    """The views and the buffers of a top column as they are sent: laid anew where much of the buffers is unused."""
    used = sum(len(v) for i, v in enumerate(values) if flags is None or flags[i])
    unused = max(0, sum(map(len, buffers)) - used)
    if not values:
        return b"", []
    if min(used, 1024) <= unused:
        return laid_anew(values, flags, views)
    return b"".join(views), buffers


def view(r, rows):
    name = r.choice(["binary_view", "utf8_view"])
    flags = flags_of(r, rows)
    values = [r.choice(MIXED).encode() if name == "utf8_view" else garbage(r, r.choice([0, 3, 12, 13, 30])) for _ in range(rows)]
    views, held = placed(r, values, flags)
    views_sent, buffers_sent = sent_views(values, flags, views, held)
    return with_validity(r, rows, (name,), [b"".join(views) + garbage(r, r.choice([0, 0, 16, 5])), *held],
                         [views_sent, *buffers_sent], flags, len(held), len(buffers_sent))


def column(r, kind_of, rows):
    """A column of the same kind again, where one is given."""
    while True:
        held = r.choice([fixed, fixed, boolean, null, variable, variable, view, view])(r, rows)
        if kind_of is None or held.kind == kind_of:
            return held


def held_tables(r, rows, columns):
    """The tables of a batch and its body, with buffers at multiples of 8 in any order, with gaps."""
    pieces = [(c, p, piece) for c, held in enumerate(columns) for p, piece in enumerate(held.pieces)]
    r.shuffle(pieces)
    body, places = b"", {}
    for c, p, piece in pieces:
        body += garbage(r, 8 * r.choice([0, 0, 1, 3]))
        places[c, p] = len(body)
        body += piece + bytes(up_to(8, len(piece)) - len(piece))
    buffers = [struct.pack("<qq", places[c, p], len(piece)) for c, held in enumerate(columns) for p, piece in enumerate(held.pieces)]
    nodes = [struct.pack("<qq", c.rows, c.nulls) for c in columns]
    views = [c.views for c in columns if c.views is not None]
    return Table(number(8, rows), Structs(nodes), Structs(buffers), None, Numbers64(views) if views else None), body


def file_batch(r, rows, columns):
    header, body = held_tables(r, rows, [held.file for held in columns])
    return arrow.message(3, header, len(body)), body


def case(r):
    first = [column(r, None, 1) for _ in range(r.choice([0, 1, 1, 2, 3, 5]))]
    fields = [(f"c{i}" if r.random() < 0.9 else f"ü{i}", h.kind, r.random() < 0.8) for i, h in enumerate(first)]
    fields = [(n, ("extension", "own", r.choice([None, "", "m"]), k) if r.random() < 0.15 else k, x) for n, k, x in fields]
    kinds = [h.kind for h in first]
    batches = []
    for _ in range(r.choice([0, 1, 1, 2, 4])):
        rows = r.choice([0, 1, 2, 3, 7, 8, 9, 20])
        columns = [column(r, k, rows) for k in kinds]
        batches.append((file_batch(r, rows, columns), arrow.batch(rows, [h.sent for h in columns])))
    file = b"".join(arrow.file_parts(fields, [b for b, _ in batches]))
    stream = b"".join(arrow.stream_parts(fields, [b for _, b in batches]))
    return file, stream


def write_cases(folder, count, seed, case):
    """Random files as hex text, each with what is expected of it."""
    os.makedirs(folder, exist_ok=True)
    for i in range(count):
        file, stream = case(random.Random(seed * 100000 + i))[:2]
        with open(os.path.join(folder, f"case{i:04}"), "w") as out:
            out.write(file.hex())
        with open(os.path.join(folder, f"case{i:04}.stdout"), "w") as out:
            out.write(stream.hex() + "\n")


if __name__ == "__main__":
    write_cases(sys.argv[1], int(sys.argv[2]), int(sys.argv[3]), case)
