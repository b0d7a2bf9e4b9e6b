"""Columns of any kind, with their children: what a file holds of them, and what its stream does.

A kind is a tuple as in arrow.py, or ("list", kind), ("large_list", kind), ("fixed_list", size, kind),
("map", key kind, value kind), ("struct", kind, ..), ("union", mode, ids, kind, ..), whose ids may be None, or
("dictionary", index, is ordered, id, kind), whose values stand in messages of their own.
"""
import struct

from arrow import Column, bits
from fuzz import FIXED, garbage, placed, sent_views


def layout_of(kind):
    """The kind below an extension."""
    return layout_of(kind[3]) if kind[0] == "extension" else kind


def ids_of(kind):
    """The ids of a union, which count from 0 where there are none."""
    return range(len(kind) - 3) if kind[2] is None else kind[2]


def children_of(kind):
    if kind[0] in ("list", "large_list"):
        return [kind[1]]
    if kind[0] == "fixed_list":
        return [kind[2]]
    if kind[0] == "map":
        return [("struct", kind[1], kind[2])]
    if kind[0] == "struct":
        return list(kind[1:])
    if kind[0] == "union":
        return list(kind[3:])
    if kind[0] == "extension":
        return children_of(kind[3])
    return []


def turned(data, widths, order):
    """Bytes of numbers that are little-endian, in an order; each row has numbers of these widths."""
    if order == "little":
        return data
    out, at = b"", 0
    while at < len(data):
        for width in widths:
            out += data[at:at + width][::-1]
            at += width
    return out


WIDTHS = {"int8": [1], "int16": [2], "int32": [4], "int64": [8], "uint8": [1], "uint16": [2], "uint32": [4], "uint64": [8],
          "decimal": [16], "date32": [4], "date64": [8], "time32": [4], "time64": [8], "timestamp": [8], "duration": [8]}
INTERVALS = {"year_month": [4], "day_time": [4, 4], "month_day_nano": [4, 4, 8]}


def widths_of(kind):
    if kind[0] == "interval":
        return INTERVALS[kind[1]]
    if kind[0] == "dictionary":
        return WIDTHS[kind[1]]
    return WIDTHS.get(kind[0])


class Array:
    """An array of so many rows: which rows are valid, where that is told, and what its layout has."""

    def __init__(self, kind, rows, flags, **parts):
        self.kind, self.rows, self.flags, self.parts = kind, rows, flags, parts
        self.children = parts.get("children", [])

    # ── as the file has it ──

    def held(self, r, order, version=4):
        """Its columns in preorder, as messages of a metadata version have them: 4 is V5, and 3 V4, in which unions have a validity."""
        pieces = self.held_pieces(order)
        if self.kind[0] == "union" and version < 4:
            pieces = [garbage(r, r.choice([0, 1, 8]))] + pieces
        own = Column(self.rows, self.stated(r), pieces, self.views())
        return [own] + [c for child in self.children for c in child.held(r, order, version)]

    def stated(self, r):
        if self.kind[0] == "null":
            return self.rows
        if self.flags is None:
            return 0
        count = self.flags.count(False)
        return max(1, count if r.random() < 0.7 else r.randint(1, max(1, self.rows)))

    def views(self):
        return len(self.parts["buffers"]) if "buffers" in self.parts else None

    def held_pieces(self, order):
        name = self.kind[0]
        if name == "null":
            return []
        if name == "union":
            places = self.parts["places"]
            types = [bytes(self.parts["types"])]
            return types + ([turned(pack("<i", places), [4], order)] if places is not None else [])
        first = [bits(self.flags) if self.flags is not None else b""]
        if name in ("list", "map"):
            return first + [turned(pack("<i", self.parts["offsets"]), [4], order)]
        if name == "large_list":
            return first + [turned(pack("<q", self.parts["offsets"]), [8], order)]
        if name in ("fixed_list", "struct"):
            return first
        if "offsets" in self.parts:
            pattern, width = ("<q", [8]) if name.startswith("large") else ("<i", [4])
            return first + [turned(pack(pattern, self.parts["offsets"]), width, order), self.parts["data"]]
        if "buffers" in self.parts:
            return first + [b"".join(self.parts["views"])] + self.parts["buffers"]
        if name == "boolean":
            return first + [bits(self.parts["values"])]
        widths = widths_of(self.kind)
        data = self.parts["data"]
        return first + [turned(data, widths, order) if widths else data]

    # ── as the stream has it ──

    def sent(self, read, begin, count, is_top=False):
        """The columns of count rows from one on, of an array that was read for so many rows."""
        return self.taken(read, range(begin, begin + count)).written(is_top)

    def taken(self, read, rows):
        """The array of some rows, in their order, of one that was read for so many: their values as they are held, null or not."""
        flags = None if read == 0 or self.flags is None else [self.flags[i] for i in rows]
        return Array(self.kind, len(rows), flags, **self.taken_parts(read, rows))

    def taken_parts(self, read, rows):
        name, parts = self.kind[0], self.parts
        if name == "union":
            return self.taken_union(read, rows)
        if name == "struct":
            return {"children": [child.taken(read, rows) for child in self.children]}
        if name == "fixed_list":
            size = self.kind[1]
            return {"children": [self.children[0].taken(size * read, [size * i + j for i in rows for j in range(size)])]}
        if "offsets" in parts:
            return self.taken_runs(read, rows)
        if "buffers" in parts:
            return {"views": [parts["views"][i] for i in rows], "buffers": parts["buffers"] if read else []}
        if name == "boolean":
            return {"values": [parts["values"][i] for i in rows]}
        if name == "null":
            return {}
        width = parts["width"]
        return {"data": b"".join(parts["data"][width * i:width * (i + 1)] for i in rows), "width": width}

    def taken_runs(self, read, rows):
        """What stands between offsets, of lists and of byte strings, from 0 on."""
        held, offsets = self.parts["offsets"] if read else [0], [0]
        for i in rows:
            offsets.append(offsets[-1] + held[i + 1] - held[i])
        if self.children:
            items = [j for i in rows for j in range(held[i], held[i + 1])]
            return {"offsets": offsets, "children": [self.children[0].taken(held[read], items)]}
        return {"offsets": offsets, "data": b"".join(self.parts["data"][held[i]:held[i + 1]] for i in rows)}

    def taken_union(self, read, rows):
        """The children of a dense union stay whole, as they were read."""
        types, places = [self.parts["types"][i] for i in rows], self.parts["places"]
        if places is None:
            return {"types": types, "places": None, "children": [child.taken(read, rows) for child in self.children]}
        whole = [child.rows if read else 0 for child in self.children]
        children = [child.taken(count, range(count)) for child, count in zip(self.children, whole)]
        return {"types": types, "places": [places[i] for i in rows], "children": children}

    def written(self, is_top=False):
        """The columns of an array that is held in memory, as they are sent."""
        nulls = self.rows if self.kind[0] == "null" else 0 if self.flags is None else self.flags.count(False)
        pieces = self.held_pieces("little")
        if is_top and "buffers" in self.parts:
            pieces[1:] = self.laid_pieces()
        views = len(pieces) - 2 if "buffers" in self.parts else None
        return [Column(self.rows, nulls, pieces, views)] + [c for child in self.children for c in child.written()]

    def viewed(self, row):
        """The bytes that a view tells."""
        view, buffers = self.parts["views"][row], self.parts["buffers"]
        length, = struct.unpack_from("<I", view)
        if length <= 12:
            return view[4:4 + length]
        number, at = struct.unpack_from("<II", view, 8)
        return buffers[number][at:at + length]

    def laid_pieces(self):
        """Views that are a column of the batch, and their buffers."""
        flags = self.flags
        values = [self.viewed(i) if flags is None or flags[i] else b"" for i in range(self.rows)]
        views, buffers = sent_views(values, flags, self.parts["views"], self.parts["buffers"])
        return [views, *buffers]


def part_of(array, begin, count):
    """So many rows of an array, from one on."""
    name, parts, end = array.kind[0], dict(array.parts), begin + count
    if name == "fixed_list":
        parts["children"] = [part_of(child, array.kind[1] * begin, array.kind[1] * count) for child in array.children]
    elif name == "struct" or name == "union" and parts["places"] is None:
        parts["children"] = [part_of(child, begin, count) for child in array.children]
    if "offsets" in parts:
        parts["offsets"] = parts["offsets"][begin:end + 1]
    elif "width" in parts:
        parts["data"] = parts["data"][parts["width"] * begin:parts["width"] * end]
    for key in ("types", "places", "views", "values"):
        if parts.get(key) is not None:
            parts[key] = parts[key][begin:end]
    flags = array.flags[begin:end] if array.flags is not None and count > 0 else None
    return Array(array.kind, count, flags, **parts)


def pack(pattern, numbers):
    return b"".join(struct.pack(pattern, n) for n in numbers)


# ── random arrays ──


LEAVES = [*[kind for kind, _ in FIXED], ("timestamp", "ms", None), ("duration", "us"), ("duration", "ns"), ("boolean",), ("null",), ("boolean",), ("null",),
          *[(name,) for name in ("utf8", "large_utf8", "binary", "large_binary", "utf8_view", "binary_view")] * 2]
TEXTS = ["", "a", "é", "abcdefghijkl", "abcdefghijklm", "日本語テキスト"]


def random_kind(r, depth, unions=False, views=True):
    """A kind, or an extension of one."""
    kind = plain_kind(r, depth, unions, views)
    return ("extension", r.choice(["own", "é"]), r.choice([None, "", "m"]), kind) if r.random() < 0.1 else kind


def plain_kind(r, depth, unions, views):
    leaves = [k for k in LEAVES if views or "view" not in k[0]]
    if depth == 0 or r.random() < 0.3:
        return r.choice(leaves)

    def below():
        return random_kind(r, depth - 1, unions, views)

    name = r.choice(["list", "large_list", "fixed_list", "map", "struct"] + (["union"] if unions else []))
    if name == "fixed_list":
        return (name, r.choice([1, 2, 5]), below())
    if name == "map":
        return (name, below(), below())
    if name == "struct":
        return (name, *[below() for _ in range(r.choice([0, 1, 2, 3]))])
    if name == "union":
        count = r.choice([1, 2, 3])
        ids = r.choice([None, tuple(r.sample(range(128), count))])
        return (name, r.choice(["sparse", "dense"]), ids, *[below() for _ in range(count)])
    return (name, below())


def flags_of(r, rows):
    if rows == 0 or r.random() < 0.4:
        return None
    return [r.random() < 0.7 for _ in range(rows)]


def more(r):
    return r.choice([0, 0, 0, 1, 2])


def rising(r, rows, step):
    offsets = [r.choice([0, 0, 1, 3]) if rows else 0]
    for _ in range(rows):
        offsets.append(offsets[-1] + r.choice([0, 1, 2, step]))
    return offsets


def random_array(r, kind, rows):
    kind = layout_of(kind)
    name = kind[0]
    flags = None if name in ("null", "union") else flags_of(r, rows)
    if name in ("list", "large_list", "map"):
        offsets = rising(r, rows, 4)
        return Array(kind, rows, flags, offsets=offsets, children=[random_array(r, children_of(kind)[0], offsets[-1] + more(r))])
    if name == "fixed_list":
        return Array(kind, rows, flags, children=[random_array(r, kind[2], kind[1] * rows + more(r))])
    if name == "struct":
        return Array(kind, rows, flags, children=[random_array(r, k, rows + more(r)) for k in kind[1:]])
    if name == "union":
        return random_union(r, kind, rows)
    if name == "null":
        return Array(kind, rows, None)
    if name == "dictionary":
        return random_keys(r, kind, rows, flags)
    if name == "boolean":
        return Array(kind, rows, flags, values=[r.random() < 0.5 for _ in range(rows)])
    if name in ("utf8", "large_utf8", "binary", "large_binary"):
        return random_variable(r, kind, rows, flags)
    if name in ("utf8_view", "binary_view"):
        return random_views(r, kind, rows, flags)
    width = kind[1] if name == "fixed" else sum(widths_of(kind))
    return Array(kind, rows, flags, data=garbage(r, width * rows), width=width)


def random_keys(r, kind, rows, flags):
    """Keys of the values that stand under the id, whose number r.cells tells; where there are none, all rows are null."""
    cells, (width,) = r.cells[kind[3]], widths_of(kind)
    if cells == 0:
        flags = [False] * rows
    keys = b""
    for i in range(rows):
        if flags is None or flags[i]:
            keys += r.randrange(cells).to_bytes(width, "little")
        else:
            keys += garbage(r, width)
    return Array(kind, rows, flags, data=keys, width=width)


def random_union(r, kind, rows):
    mode, ids, kinds = kind[1], ids_of(kind), children_of(kind)
    types = [r.choice(ids) for _ in range(rows)]
    if mode == "sparse":
        return Array(kind, rows, None, types=types, places=None, children=[random_array(r, k, rows + more(r)) for k in kinds])
    children = [random_array(r, k, r.choice([1, 2, 5])) for k in kinds]
    places = [r.randrange(children[ids.index(t)].rows) for t in types]
    return Array(kind, rows, None, types=types, places=places, children=children)


def random_variable(r, kind, rows, flags):
    data = garbage(r, r.choice([0, 0, 1, 9])) if rows else b""
    offsets = [len(data)]
    for i in range(rows):
        if "utf8" in kind[0] and (flags is None or flags[i]):
            data += r.choice(TEXTS).encode()
        else:
            data += garbage(r, r.choice([0, 1, 4, 20]))
        offsets.append(len(data))
    return Array(kind, rows, flags, offsets=offsets, data=data)


def random_views(r, kind, rows, flags):
    is_text = kind[0] == "utf8_view"
    values = [r.choice(TEXTS).encode() if is_text else garbage(r, r.choice([0, 3, 12, 13, 30])) for _ in range(rows)]
    views, buffers = placed(r, values, flags)
    return Array(kind, rows, flags, views=views, buffers=buffers)
