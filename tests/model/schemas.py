"""Schemas of every type: their tables, and their texts as the command `schema` prints them.

A kind is a tuple that begins with its name, a field is (name, kind, nullable, pairs)."""
import itertools

import arrow
from arrow import pair, pair_list
from layout import Numbers32, Table, Tables, Text, Value, lay, number

EXTENSION = "ARROW:extension:"


def field(name, kind, nullable=True, pairs=None):
    return name, kind, nullable, pairs or {}


def values_of(kind):
    """The kind whose table is written: that of a dictionary's values, and of an extension's type."""
    if kind[0] == "dictionary":
        return values_of(kind[4])
    if kind[0] == "extension":
        return values_of(kind[3])
    return kind


def type_table(kind):
    name, *more = kind
    floats = {"float16": 0, "float32": 1, "float64": 2}
    if name in floats:
        return 3, Table(number(2, floats[name]))
    if name == "decimal256":
        return 7, Table(number(4, more[0]), number(4, more[1]), Value(4, 256))
    if name == "list":
        return 12, Table()
    if name == "large_list":
        return 21, Table()
    if name == "struct":
        return 13, Table()
    if name == "fixed_list":
        return 16, Table(number(4, more[0]))
    if name == "map":
        return 17, Table(number(1, more[0]))
    if name == "union":
        mode, ids, _ = more
        return 14, Table(number(2, {"sparse": 0, "dense": 1}[mode]), None if ids is None else Numbers32(ids))
    return arrow.type_of(*kind)


def children(kind):
    if kind[0] in ("list", "large_list"):
        return [kind[1]]
    if kind[0] in ("fixed_list", "map"):
        return [kind[2]]
    if kind[0] == "struct":
        return kind[1]
    if kind[0] == "union":
        return kind[3]
    return []


def pair_tables(kind, pairs):
    if kind[0] == "dictionary":
        kind = kind[4]
    tables = []
    if kind[0] == "extension":
        _, name, metadata, _ = kind
        if metadata is not None:
            tables.append(pair(EXTENSION + "metadata", metadata))
        tables.append(pair(EXTENSION + "name", name))
    tables += [pair(key, pairs[key]) for key in sorted(pairs)]
    return Tables(tables) if tables else None


def encoding(kind):
    if kind[0] == "extension":
        return encoding(kind[3])
    if kind[0] != "dictionary":
        return None
    _, index, ordered, id, _ = kind
    return Table(number(8, id), arrow.type_of(index)[1], number(1, ordered))


def field_table(field):
    name, kind, nullable, pairs = field
    tag, table = type_table(values_of(kind))
    below = Tables([field_table(child) for child in children(values_of(kind))])
    return Table(Text(name), number(1, nullable), Value(1, tag), table, encoding(kind), below, pair_tables(kind, pairs))


def schema_table(fields, pairs, order="little"):
    own = pair_list(pairs) if pairs else None
    return Table(number(2, {"little": 0, "big": 1}[order]), Tables([field_table(f) for f in fields]), own)


def message(table):
    """The metadata of a schema's message."""
    return lay(Table(Value(2, 4), Value(1, 1), table))


def numbered_kind(kind, ids):
    name = kind[0]
    if name in ("list", "large_list"):
        return name, numbered_field(kind[1], ids)
    if name in ("fixed_list", "map"):
        return name, kind[1], numbered_field(kind[2], ids)
    if name in ("struct", "union"):
        return (*kind[:-1], [numbered_field(f, ids) for f in kind[-1]])
    if name == "dictionary":
        id = ids(kind[3])
        return (*kind[:3], id, numbered_kind(kind[4], ids))
    if name == "extension":
        return (*kind[:3], numbered_kind(kind[3], ids))
    return kind


def numbered_field(field, ids):
    """A field whose dictionaries have the ids that a function gives of theirs."""
    name, kind, nullable, pairs = field
    return name, numbered_kind(kind, ids), nullable, pairs


def numbered(fields):
    """Fields whose dictionaries are numbered in preorder from 0 on."""
    numbers = itertools.count()
    return [numbered_field(f, lambda id: next(numbers)) for f in fields]


# ── texts ──


def quoted(text):
    out = ""
    for c in text:
        if c in '"\\':
            out += "\\" + c
        elif ord(c) < 32 or ord(c) == 127:
            out += f"\\x{ord(c):02x}"
        else:
            out += c
    return f'"{out}"'


def kind_text(kind):
    name, *more = kind
    short = {"boolean": "bool", "list": "list", "large_list": "large_list", "struct": "struct"}
    if name in short:
        return short[name]
    if name == "fixed":
        return f"fixed_binary({more[0]})"
    if name == "fixed_list":
        return f"fixed_list({more[0]})"
    if name in ("decimal", "decimal256"):
        return f"{name}({more[0]},{more[1]})"
    if name == "timestamp" and more[1] is not None:
        return f"timestamp({more[0]},{quoted(more[1])})"
    if name in ("time32", "time64", "timestamp", "duration"):
        return f"{name}({more[0]})"
    if name == "interval":
        return "interval(" + {"year_month": "ym", "day_time": "dt", "month_day_nano": "mdn"}[more[0]] + ")"
    if name == "map":
        return "map(sorted)" if more[0] else "map"
    if name == "union":
        mode, ids, fields = more
        ids = range(len(fields)) if ids is None else ids
        return f"union({mode}:{','.join(map(str, ids))})"
    if name == "dictionary":
        index, ordered, id, values = more
        return f"dictionary({index},{id}{',ordered' if ordered else ''}) {kind_text(values)}"
    if name == "extension":
        own, metadata, values = more
        return f"extension({quoted(own)}{'' if metadata is None else ',' + quoted(metadata)}) {kind_text(values)}"
    return name


def pair_lines(level, pairs):
    return "".join(f"{'  ' * level}@ {quoted(key)} {quoted(pairs[key])}\n" for key in sorted(pairs))


def field_lines(level, field):
    name, kind, nullable, pairs = field
    line = f"{'  ' * level}{quoted(name)} {kind_text(kind)}{' nullable' if nullable else ''}\n"
    below = "".join(field_lines(level + 1, child) for child in children(values_of(kind)))
    return line + pair_lines(level + 1, pairs) + below


def schema_text(fields, pairs, order="little"):
    return order + "\n" + pair_lines(0, pairs) + "".join(field_lines(0, f) for f in fields)


# ── the worked schemas ──

KEY_AND_VALUE = [field("key", ("utf8",), False), field("value", ("int64",))]
ENTRIES = field("entries", ("struct", KEY_AND_VALUE), False)
A_AND_B = [field("a", ("int32",)), field("b", ("utf8",))]
TYPES = [
    ("null",), ("boolean",), ("int8",), ("int16",), ("int32",), ("int64",), ("int128",), ("uint8",), ("uint16",), ("uint32",),
    ("uint64",), ("float16",), ("float32",), ("float64",), ("date32",), ("date64",), ("time32", "s"), ("time32", "ms"),
    ("time64", "us"), ("time64", "ns"), ("timestamp", "s", None), ("timestamp", "ms", ""), ("timestamp", "us", "Europe/Zurich"),
    ("timestamp", "ns", None), ("duration", "s"), ("duration", "ms"), ("duration", "us"), ("duration", "ns"),
    ("interval", "year_month"), ("interval", "day_time"), ("interval", "month_day_nano"), ("binary",), ("large_binary",),
    ("utf8",), ("large_utf8",), ("binary_view",), ("utf8_view",), ("fixed", 3), ("decimal", 38, 10), ("decimal256", 76, 5),
    ("list", field("item", ("int32",))), ("large_list", field("item", ("utf8",))), ("fixed_list", 4, field("item", ("boolean",))),
    ("map", False, ENTRIES), ("map", True, ENTRIES),
    ("struct", [field("a", ("int8",), True, {"k": "v"}), field("b", ("utf8",), False)]), ("struct", []),
    ("union", "sparse", None, A_AND_B), ("union", "dense", [5, 127], A_AND_B),
    ("dictionary", "int8", False, 0, ("utf8",)),
    ("dictionary", "uint64", True, 1, ("list", field("item", ("dictionary", "int16", False, 2, ("utf8",))))),
    ("extension", "own", "m", ("int64",)), ("extension", "own", None, ("list", field("item", ("int32",)))),
    ("dictionary", "int32", False, 3, ("extension", "own", "", ("utf8",))),
]
EVERY = [field(str(i), kind, i != 1, {"k": "v"} if i == 51 else {}) for i, kind in enumerate(TYPES)]
EVERY_PAIRS = {"author": "é", "about": ""}

NESTED = [
    field('q"\\\n', ("struct", [
        field("l", ("list", field("item", ("dictionary", "int8", False, -3, ("utf8",)))), True, {"k": "v", "a": ""}),
    ]), False),
    field("d", ("dictionary", "uint16", True, 12, ("extension", "own", "m\x7f", ("float64",))), False),
    field("m", ("map", True, field("entries", ("struct", [
        field("key", ("large_utf8",), False), field("value", ("fixed", 16)),
    ]), False))),
    field("u", ("union", "dense", [5, 7], [
        field("t", ("timestamp", "us", "UTC")), field("p", ("decimal", 9, 2), False),
    ]), False),
    field("v", ("union", "sparse", None, [
        field("f", ("fixed_list", 3, field("item", ("interval", "day_time")))), field("t", ("timestamp", "s", None)),
    ])),
    field("", ("dictionary", "int64", False, 0, ("date32",))),
]
NESTED_PAIRS = {"owner": "é b", "by": '\t"'}
ONE = [field("a", ("int32",))]
