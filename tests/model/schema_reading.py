"""Schemas, read from their tables (Schema.fbs): fields as schemas.py has them, each with its kind and its pairs."""
from flat_reading import demand

EXTENSION = "ARROW:extension:"
PLAIN = {1: "null", 4: "binary", 5: "utf8", 6: "boolean", 19: "large_binary", 20: "large_utf8", 23: "binary_view", 24: "utf8_view"}
UNITS = ["s", "ms", "us", "ns"]
INTERVALS = ["year_month", "day_time", "month_day_nano"]


def of(names, number):
    """The name of a choice."""
    demand(0 <= number < len(names), f"a choice of {number}")
    return names[number]


def integer(table):
    """The type of integers. Those of 128 bits, which the crate polars-arrow has, are named, and no column of them is read."""
    bits, signed = table.number(0, "<i"), table.flag(1)
    demand(bits in (8, 16, 32, 64) or (bits, signed) == (128, True), f"integers of {bits} bits")
    return f"{'' if signed else 'u'}int{bits}"


def number_kind(tag, table):
    if tag == 2:
        return (integer(table),)
    if tag == 3:
        return (of(["float16", "float32", "float64"], table.number(0, "<h")),)
    precision, scale, bits = table.number(0, "<i"), table.number(1, "<i"), table.number(2, "<i", 128)
    demand(bits in (128, 256), f"decimals of {bits} bits")
    return "decimal" if bits == 128 else "decimal256", precision, scale


def time_kind(tag, table):
    """Dates and durations are of milliseconds where nothing is said, times too, and timestamps of seconds."""
    if tag == 8:
        return (of(["date32", "date64"], table.number(0, "<h", 1)),)
    if tag == 9:
        unit, bits = of(UNITS, table.number(0, "<h", 1)), table.number(1, "<i", 32)
        demand(bits == (32 if unit in ("s", "ms") else 64), f"a time in {unit} of {bits} bits")
        return f"time{bits}", unit
    if tag == 10:
        return "timestamp", of(UNITS, table.number(0, "<h")), table.text(1)
    if tag == 11:
        return "interval", of(INTERVALS, table.number(0, "<h"))
    return "duration", of(UNITS, table.number(0, "<h", 1))


def only(children):
    demand(len(children) == 1, f"{len(children)} children in the place of one")
    return children[0]


def nested_kind(tag, table, children):
    if tag == 12:
        return "list", only(children)
    if tag == 21:
        return "large_list", only(children)
    if tag == 16:
        return "fixed_list", table.number(0, "<i"), only(children)
    if tag == 17:
        entries = only(children)
        demand(entries[1][0] == "struct" and len(entries[1][1]) == 2, "a map whose entries are no keys and values")
        return "map", table.flag(0), entries
    if tag == 13:
        return "struct", children
    ids = table.numbers(1, "<i") if table.target(1) is not None else list(range(len(children)))
    demand(len(ids) == len(children) == len(set(ids)), f"{len(ids)} ids of {len(children)} children")
    return "union", of(["sparse", "dense"], table.number(0, "<h")), ids, children


def kind(tag, table, children):
    """The kind of a type, without its dictionary and extension."""
    if tag in (12, 13, 14, 16, 17, 21):
        return nested_kind(tag, table, children)
    demand(not children, "children of a type that has none")
    if tag in PLAIN:
        return (PLAIN[tag],)
    if tag == 15:
        return "fixed", table.number(0, "<i")
    demand(tag in (2, 3, 7, 8, 9, 10, 11, 18), f"a type of the number {tag}")
    return number_kind(tag, table) if tag in (2, 3, 7) else time_kind(tag, table)


def pairs(table, slot):
    """The pairs under their keys. One without a key or a value is none, and of one key the last stands."""
    found = [(pair.text(0), pair.text(1)) for pair in table.tables(slot)]
    return {key: value for key, value in found if key is not None and value is not None}


def encoded(table, values):
    """The kind of a field whose values stand in a dictionary."""
    if table is None:
        return values
    index = table.table(1)
    demand(table.number(3, "<h") == 0, "a dictionary of another kind")
    return "dictionary", "int32" if index is None else integer(index), table.flag(2), table.number(0, "<q"), values


def field(table):
    type_table = table.table(3)
    demand(type_table is not None, "a field without its type")
    found = kind(table.number(2, "<B"), type_table, [field(child) for child in table.tables(5)])
    own = pairs(table, 6)
    if EXTENSION + "name" in own:
        found = "extension", own.pop(EXTENSION + "name"), own.pop(EXTENSION + "metadata", None), found
    return table.text(0) or "", encoded(table.table(4), found), table.flag(1), own


def schema(table):
    """Byte order, fields and pairs."""
    return of(["little", "big"], table.number(0, "<h")), [field(f) for f in table.tables(1)], pairs(table, 2)


def fields_below(kind):
    """The fields that a kind has."""
    name = kind[0]
    if name in ("list", "large_list"):
        return [kind[1]]
    if name in ("fixed_list", "map"):
        return [kind[2]]
    if name in ("struct", "union"):
        return kind[-1]
    return []


def dictionaries(kinds, found=None):
    """The kinds of values by their ids, each behind those that stand in it."""
    found = {} if found is None else found
    for kind in kinds:
        below = [kind[-1]] if kind[0] in ("dictionary", "extension") else [child[1] for child in fields_below(kind)]
        dictionaries(below, found)
        if kind[0] == "dictionary":
            found.setdefault(kind[3], kind[4])
    return found
