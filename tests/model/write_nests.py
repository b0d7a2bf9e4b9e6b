"""Writes crates/run_cases/data/values/nests.cases: an array of each layout, and each kind with children alone and over each other one, written and
read back."""
from pathlib import Path

OUT = Path(__file__).parents[2] / "crates/run_cases/data/values/nests.cases"
VIEWS = "0c000000" + b"abcdefghijkl".hex() + "02000000c3a9" + 10 * "00" + 16 * "ff" + "0d000000" + b"abcd".hex() + "00000000" + "01000000"
LEAVES = [
    ("numbers of one byte", "int8", "i8 1,-2,3,-128", True),
    ("numbers of sixteen bytes", "decimal(38,10)", f"i128 1,-2,3,{-2 ** 127}", True),
    ("numbers of three integers", "interval(mdn)", f"months {0x01020304}/-2/{0x0102030405060708}*4", True),
    ("truth values", "bool", "bits 0101", True),
    ("texts", "utf8", "texts 1,2,4,5,6 " + "abé-c".encode().hex(), True),
    ("texts by views, under an extension", "extension(own) utf8_view", f"text_views {VIEWS} " + b"-abcdefghijklm".hex(), False),
]
KINDS = ["list", "large list", "list of one size", "map", "struct", "sparse union", "dense union"]


def rounds(has_alone):
    """In a message, and where it has no views without one in both orders."""
    return ["round => same"] + (["round_alone little => same", "round_alone big => same"] if has_alone else [])


def leaf(title, dtype, parts, has_alone):
    return [f"== {title}", f"array {dtype} | {parts} valid 1101 => 4 rows, 1 null", *rounds(has_alone),
            "part 1 3 => 3 rows, 1 null", *rounds(has_alone), ""]


def over(kind, dtype, rows):
    """The calls that make an array of a kind over the one of a type that was made last, and its type and rows."""
    def made(outer, parts, count):
        return f"array {outer} | {parts} => {count} rows, 0 null", outer, count
    if kind == "list":
        line, *array = made(f"list {dtype}", f"lists 0,0,{rows}", 2)
        return [line], *array
    if kind == "large list":
        line, *array = made(f"large_list {dtype}", f"large_lists 0,0,{rows}", 2)
        return [line], *array
    if kind == "list of one size":
        line, *array = made(f"fixed_list(1) {dtype}", f"fixed_lists {rows}", rows)
        return [line], *array
    ones = f"array int8 | i8 1*{rows} => {rows} rows, 0 null"
    if kind == "sparse union":
        line, *array = made(f"union(sparse:7,5) {dtype} int8", f"unions 7*{rows} none 2", rows)
        return [ones, line], *array
    if kind == "dense union":
        places = ",".join(map(str, range(rows)))
        line, *array = made(f"union(dense:7,5) {dtype} int8", f"unions 7*{rows} {places} 2", rows)
        return [ones, line], *array
    line, struct, _ = made(f"struct(2) {dtype} int8", f"structs {rows} 2", rows)
    if kind == "struct":
        return [ones, line], struct, rows
    last, *array = made(f"map {struct}", f"maps 0,0,{rows}", 2)
    return [ones, line, last], *array


ITEMS = "array int8 | i8 1,-2,3,-128 valid 1101 => 4 rows, 1 null"


def alone(kind):
    calls, dtype, _ = over(kind, "int8", 4)
    return [f"== {kind}, by its own calls too", ITEMS, *calls, "round => same", "round_by_kind => same",
            f"skip 0 kind {dtype} => 0 nodes, 0 buffers, 0 views left", ""]


def nested(outer, inner):
    calls, dtype, rows = over(inner, "int8", 4)
    others, _, _ = over(outer, dtype, rows)
    return [f"== {outer} over {inner}", ITEMS, *calls, *others, "round => same", ""]


LINES = ["# Written by tests/model/write_nests.py: not to be changed by hand.",
         "# Arrays of one kind of each layout, and each kind with children alone and over each other one, written and read back.", ""]
for row in LEAVES:
    LINES += leaf(*row)
for kind in KINDS:
    LINES += alone(kind)
for outer in KINDS:
    for inner in KINDS:
        LINES += nested(outer, inner)
OUT.write_text("\n".join(LINES).rstrip("\n") + "\n")
