"""Writes crates/run_cases/data/made.cases: files and streams under the names by which the other files of cases say them, and prints the
numbers of their places."""
import struct

import arrow
import schemas
from arrow import Column
from case_lines import DATA, bytes_lines
from cases import ALL, KEPT, LONG, NUMBERS, SLICED, THREE
from dictionary_files import BLOCKS, STREAM
from layout import Structs, Table, Tables, Text, Value, lay, number
from nested import Array, pack

OUT = DATA / "made.cases"

TITLES = {
    "THREE": "Columns `a` of 32-bit integers 1, 2, `b` of texts \"x\", \"yz\" and `c` of 64-bit integers 10, 20.",
    "KEPT": "A view of 13 bytes over a buffer of 25.",
    "ANEW": "The same over a buffer of 26; its stream's buffer has 13.",
    "VIEWS": "Views of texts, short ones and long ones over two buffers, and sixteen FF in the null row.",
    "WASTE": "Views of byte strings over buffers of which more than half is unused; its stream has one of 33 bytes.",
    "NULLS": "A column of 2^62 nulls, without a buffer.",
    "SLICED": "Texts and long byte strings whose offsets begin behind 0, with bits set past the validities' ends, and no text under the null row.",
    "FLOATS": "A column of 64-bit floats.",
    "NUMBERS": "Nulls, truth values, integers and decimals, three rows of which the second is null.",
    "TIMES": "Dates, times, timestamps, durations and intervals, the same rows.",
    "STRINGS": "Byte strings and texts of each layout, and two extensions, the same rows.",
}


class Lines:
    def __init__(self):
        self.lines = ["# Written by tests/model/write_made.py: not to be changed by hand.", "# Files and streams, whole or in parts."]

    def add(self, title, *named):
        """Bytes, or the names of bytes before, under names."""
        self.lines += ["", f"# {title}"]
        for name, data in named:
            self.lines.append(bytes_lines(name, data) if isinstance(data, bytes) else f"bytes {name} {data}")


# ── columns without children ──


def add_kinds(out):
    for case in ALL:
        name, head, sent = case.name.lower(), b"".join(case.file_batch), b"".join(case.sent_batch)
        batches = [(f"{name}_batch", head)] + ([] if head == sent else [(f"{name}_sent", sent)])
        file = f"magic {name}_schema {name}_batch end_mark {name}_footer"
        stream = f"{name}_schema {batches[-1][0]} end_mark"
        out.add(TITLES[case.name], (f"{name}_schema", case.file[1]), *batches, (f"{name}_footer", case.file[-1]), (f"{name}_file", file),
                (f"{name}_stream", stream))


# ── columns and rows that are asked for ──


A = [("a", ("int32",), True)]
FIRST = arrow.batch(3, [arrow.numbers("<i", [1, 2, 3])])
CUT = arrow.batch(2, [arrow.numbers("<i", [4, 5])])
NONE_LEFT = arrow.batch(0, [arrow.numbers("<i", [])])
VIEW_FIELDS = [("v", ("utf8_view",), True), ("n", ("int64",), True)]
SEVEN = arrow.numbers("<q", [7, 8])
BUFFERS = [LONG, b"thirteen more"]
VIEW_COLUMN = arrow.views(BUFFERS, [(0, 0), (1, 0)], BUFFERS)
FLOAT_FIELDS = [("f", ("float64",), True), ("n", ("int32",), True)]
NUMBER = arrow.numbers("<i", [5])
TEXT_FIELDS = [("t", ("utf8",), True)]
FALLING = Column(3, 0, [b"", struct.pack("<4i", 0, 1, 2, 1), b"xy"])
BELOW = [schemas.field("l", ("list", schemas.field("item", ("float64",)))), schemas.field("s", ("struct", [schemas.field("d", ("decimal256", 40, 2))]))]


def file(fields, *batches):
    return b"".join(arrow.file_parts(fields, batches))


def stream(fields, *batches):
    return b"".join(arrow.stream_parts(fields, batches))


def laid_file(table, *batches, dictionaries=()):
    """A file of a schema's table."""
    parts, lists = [arrow.MAGIC, arrow.message(1, table, 0)], []
    for messages in (dictionaries, batches):
        blocks = []
        for head, body in messages:
            blocks.append(struct.pack("<qiiq", sum(map(len, parts)), len(head), 0, len(body)))
            parts += [head, body]
        lists.append(Structs(blocks))
    footer = lay(Table(Value(2, 4), table, *lists))
    return b"".join(parts + [arrow.END, footer + struct.pack("<i", len(footer)) + b"ARROW1"])


def laid_stream(table, *messages):
    return b"".join([arrow.message(1, table, 0), *[part for message in messages for part in message], arrow.END])


def add_selections(out):
    out.add("A column of long views over two buffers, and one of 64-bit integers 7, 8; and the second alone.",
            ("views_and_numbers", file(VIEW_FIELDS, arrow.batch(2, [VIEW_COLUMN, SEVEN]))),
            ("seven_and_eight", stream([VIEW_FIELDS[1]], arrow.batch(2, [SEVEN]))))
    out.add("A column of 64-bit floats, and one of 32-bit integers; and the second alone.",
            ("floats_and_numbers", file(FLOAT_FIELDS, arrow.batch(1, [arrow.numbers("<d", [1.5]), NUMBER]))),
            ("five", stream([FLOAT_FIELDS[1]], arrow.batch(1, [NUMBER]))))
    out.add("Three texts, of which the last one's offset falls; and \"x\" and \"y\".", ("falling", file(TEXT_FIELDS, arrow.batch(3, [FALLING]))),
            ("two_texts", stream(TEXT_FIELDS, arrow.batch(2, [arrow.variable("<i", [b"x", b"y"])]))))
    out.add("Lists of 64-bit floats, and structs of decimals of 256 bits, without a batch.",
            ("floats_below", laid_file(schemas.schema_table(BELOW, {}))))
    out.add("The third and the first of three columns.",
            ("last_and_first", stream([THREE.fields[2], THREE.fields[0]], arrow.batch(2, [THREE.held[2], THREE.held[0]]))))
    out.add("Batches of three and of four rows, without columns, and a file of the first.", ("no_columns", stream([], arrow.batch(3, []), arrow.batch(4, []))),
            ("no_columns_file", file([], arrow.batch(3, []))))
    out.add("A batch of three rows, and one of two, or of none; two of none.", ("five_rows", stream(A, FIRST, CUT)),
            ("three_rows", stream(A, FIRST, NONE_LEFT)), ("no_rows", stream(A, NONE_LEFT, NONE_LEFT)))
    out.add("A batch of the row 5, and the footer of a file whose second block it is.",
            ("five_of_a", stream(A, arrow.batch(1, [NUMBER]))), ("row_of_five", b"".join(arrow.batch(1, [NUMBER]))),
            ("blocks_with_five", struct.pack("<I", 2) + struct.pack("<qiiq", 144, 152, 0, 128) + struct.pack("<qiiq", 424, 152, 0, 64)
             + struct.pack("<i", 200) + b"ARROW1"))


# ── dictionaries ──


def add_dictionaries(out):
    out.add("Dictionaries whose values are structs of dictionaries: an inner one, a delta of it, the outer one and two batches, as a file and as a stream.",
            ("dictionaries_in_order", BLOCKS["in_order"]), ("dictionaries_stream", STREAM))
    out.add("The same with the delta before what is none; with the outer one before the inner one.",
            ("delta_first", BLOCKS["delta_first"]), ("outer_first", BLOCKS["outer_first"]))


def held(id, is_delta, rows, column):
    """A dictionary's message and its body."""
    header, body = arrow.batch_tables(rows, [column])
    return arrow.message(2, Table(number(8, id), header, number(1, is_delta)), len(body)), body


def texts(*values):
    return arrow.variable("<i", list(values))


def keyed(id):
    return schemas.schema_table([schemas.field("d", ("dictionary", "int8", False, id, ("utf8",)))], {})


def keys(*values):
    return arrow.batch(len(values), [arrow.numbers("<b", list(values))])


def add_keys(out):
    base, delta = [(False, 2, texts(b"x", b"y")), (True, 1, texts(b"z"))]
    both = keys(2, 0)
    out.add("Keys of the texts \"x\", \"y\" and, in a delta, \"z\", under the id 7 as a file; under the id 0 as a stream; and as a file whose delta stands first.",
            ("with_delta", laid_file(keyed(7), both, dictionaries=[held(7, *base), held(7, *delta)])),
            ("with_delta_stream", laid_stream(keyed(0), held(0, *base), held(0, *delta), both)),
            ("with_delta_first", laid_file(keyed(7), both, dictionaries=[held(7, *delta), held(7, *base)])))
    none = keys(None, None)
    out.add("Two nulls without a dictionary: a file, its stream, which has an empty one, and a file whose first key is valid.",
            ("no_dictionary", laid_file(keyed(0), none)), ("no_dictionary_stream", laid_stream(keyed(0), held(0, False, 0, texts()), none)),
            ("key_of_none", laid_file(keyed(0), keys(0, None))))


def add_schemas(out):
    three = [schemas.field("x", ("dictionary", "int32", False, 9, ("utf8",))), schemas.field("y", ("int32",)),
             schemas.field("z", ("dictionary", "int8", False, 4, ("utf8",)))]
    out.add("A dictionary of the id 9, a 32-bit integer and a dictionary of the id 4, without a batch; the stream counts its ids from 0.",
            ("ids_of_a_file", laid_file(schemas.schema_table(three, {}))),
            ("ids_from_0", laid_stream(schemas.schema_table(schemas.numbered(three), {}))))

    def plain(name, tag, encoding=None):
        return Table(Text(name), None, Value(1, tag), Table(), encoding, Tables([]))

    defaults = Table(None, Tables([plain("d", 8), plain("t", 9), plain("k", 5, Table())]))
    out.add("A date and a time whose tables say nothing, and a dictionary of texts without the type of its keys.", ("defaults", laid_file(defaults)))


# ── lists, unions and views ──


def laid(kind, *messages):
    return laid_file(schemas.schema_table([schemas.field("c", kind)], {}), *messages)


def sent(kind, *messages):
    return laid_stream(schemas.schema_table([schemas.field("c", kind)], {}), *messages)


def add_lists(out):
    kind = ("list", schemas.field("item", ("int8",)))
    items = Array(("int8",), 4, None, data=bytes([7, 8, 9, 10]), width=1)
    held_list = [Column(1, 0, [b"", struct.pack("<2i", 1, 3)]), Column(4, 0, [b"", bytes([7, 8, 9, 10])])]
    lists = Array(("list", ("int8",)), 1, None, offsets=[1, 3], children=[items])
    out.add("The list [8, 9], whose offsets are 1 and 3 over 7, 8, 9 and 10.", ("offsets_1_and_3", laid(kind, arrow.batch(1, held_list))),
            ("list_of_8_and_9", sent(kind, arrow.batch(1, lists.sent(1, 0, 1)))))
    items = Array(("int8",), 3, None, data=bytes([1, 2, 3]), width=1)
    lists = Array(("list", ("int8",)), 4, [True, True, False, True], offsets=[0, 2, 2, 2, 3], children=[items])
    batch = arrow.batch(4, lists.sent(4, 0, 4))
    out.add("The lists [1, 2], [], null and [3].", ("four_lists", laid(kind, batch)), ("four_lists_stream", sent(kind, batch)))


SPARSE = ("union", "sparse", [5, 7], [schemas.field("n", ("int32",)), schemas.field("t", ("utf8",))])
DENSE = ("union", "dense", [5, 7], [schemas.field("n", ("int32",)), schemas.field("t", ("utf8",))])


def union(rows, types, *more):
    """A union's column, and those of its children."""
    return [Column(rows, 0, [bytes(types), *more]), arrow.numbers("<i", [1, 2][:rows]), arrow.variable("<i", [b"x", b"y"][:rows])]


def older(rows, columns):
    header, body = arrow.batch_tables(rows, columns)
    return arrow.message(3, header, len(body), 3), body


def add_unions(out):
    out.add("A sparse union of the ids 5 and 7: a number and a text; its first row alone; and with the type 6 in its second.",
            ("sparse", laid(SPARSE, arrow.batch(2, union(2, [5, 7])))), ("first_of_sparse", sent(SPARSE, arrow.batch(1, union(1, [5])))),
            ("sparse_of_6", laid(SPARSE, arrow.batch(2, union(2, [5, 6])))))
    whole, places = union(2, [5, 7], struct.pack("<2i", 1, 0)), struct.pack("<2i", 1, 0)
    front = Column(2, 0, [b"", bytes([5, 7]), places])
    nulls = Column(2, 1, [b"\x01", bytes([5, 7]), places])
    out.add("A dense union, as messages of V5 and of V4 have it, the stream of both, and one of V4 with a null.",
            ("dense", laid(DENSE, arrow.batch(2, whole))), ("dense_of_4", laid(DENSE, older(2, [front, *whole[1:]]))),
            ("dense_stream", sent(DENSE, arrow.batch(2, whole))), ("dense_with_null", laid(DENSE, older(2, [nulls, *whole[1:]]))))


def add_views(out):
    kind = ("utf8_view",)
    values = [b"abcdefghijkl", b"abcdefghijklm", None]
    column = arrow.views(values, [(0, 0)], [values[1]], null=b"\xff" * 16)
    wrong = Column(3, 1, [column.pieces[0], column.pieces[1].replace(b"abcd\0\0\0\0", b"abce\0\0\0\0"), *column.pieces[2:]], 1)
    assert wrong.pieces != column.pieces
    out.add("The texts of 12 and of 13 bytes, and sixteen FF in a null row; and the same with another prefix.",
            ("twelve_and_thirteen", laid(kind, arrow.batch(3, [column]))), ("twelve_and_thirteen_stream", sent(kind, arrow.batch(3, [column]))),
            ("other_prefix", laid(kind, arrow.batch(3, [wrong]))))
    child = Column(1 << 62, 1 << 62, [])
    size = ("fixed_list", 2147483647, schemas.field("item", ("null",)))
    out.add("2^62 lists of 2147483647 nulls each, and a child of 2^62.", ("lists_of_nulls", laid(size, arrow.batch(1 << 62, [Column(1 << 62, 0, [b""]), child]))))


# ── fields below fields ──


class Shared:
    """A table that stands once and is pointed at from several places before it."""

    def __init__(self, table):
        self.table, self.at = table, None

    def lay(self, out):
        if self.at is None:
            self.at = self.table.lay(out)
        return self.at


def leaf(name):
    tag, table = arrow.type_of("int8")
    return Table(Text(name), None, Value(1, tag), table, None, Tables([]))


def in_structs(field, levels):
    """Structs of two fields, of which both are the one below."""
    for _ in range(levels):
        below = Shared(field)
        field = Table(Text("s"), None, Value(1, 13), Table(), None, Tables([below, below]))
    return field


def in_lists(field, levels):
    for _ in range(levels):
        field = Table(Text("l"), None, Value(1, 12), Table(), None, Tables([field]))
    return field


def fields_file(*fields):
    """A file without a batch, whose schema stands in its footer alone."""
    footer = lay(Table(Value(2, 4), Table(None, Tables(fields)), Structs([]), Structs([])))
    return arrow.MAGIC + arrow.END + footer + struct.pack("<i", len(footer)) + b"ARROW1"


def add_fields(out):
    out.add("A number in 63 lists, and in 64.", ("levels_64", fields_file(in_lists(leaf("a"), 63))), ("levels_65", fields_file(in_lists(leaf("a"), 64))))
    out.add("Structs of two fields that are one table, in 16 levels and in 17: 65,535 fields, and 131,071.",
            ("fields_65535", fields_file(in_structs(leaf("a"), 15))), ("fields_131071", fields_file(in_structs(leaf("a"), 16))))
    out.add("65,536 fields and 65,537.", ("fields_65536", fields_file(in_structs(leaf("a"), 15), leaf("b"))),
            ("fields_65537", fields_file(in_structs(leaf("a"), 15), leaf("b"), leaf("c"))))


# ── much ──


EIGHT = struct.pack("<8q", *range(1, 9))
TEXT = ("Ünwiderruflich " * 4).encode()
assert len(EIGHT) == 64 and len(TEXT) == 64


def add_repeated(out, title, name, fields, rows, column, front, piece, times):
    """A file of one batch, whose body is a front and the piece so many times, and its stream."""
    head, body = arrow.batch(rows, [column])
    assert body == front + piece * times
    _, schema, _, _, _, back = arrow.file_parts(fields, [(head, body)])
    out.add(title, (f"{name}_front", schema + head + front), (f"{name}_piece", piece), (f"{name}_back", back),
            (f"{name}_stream", f"{name}_front {name}_piece*{times} end_mark"), (f"{name}_file", f"magic {name}_stream {name}_back"))
    print(name, "stream", len(schema + head + body) + 8)


def add_much(out):
    times = 16_400
    add_repeated(out, "131,200 integers of 64 bits.", "many", [("n", ("int64",), True)], 8 * times, Column(8 * times, 0, [b"", EIGHT * times]), b"", EIGHT, times)
    times = 1_025
    offsets = struct.pack("<ii", 0, 64 * times)
    add_repeated(out, "A text of 65,600 bytes.", "long", [("t", ("utf8",), True)], 1, Column(1, 0, [b"", offsets, TEXT * times]), offsets + bytes(56), TEXT, times)
    times = 1_000
    head, body = FIRST
    schema = arrow.message(1, arrow.schema(A), 0)
    block = struct.pack("<qiiq", 8 + len(schema), len(head), 0, len(body))
    footer = lay(Table(Value(2, 4), arrow.schema(A), Structs([]), Structs([block] * times)))
    assert footer.endswith(block * times)
    out.add("A batch that the footer names a thousand times.", ("named_front", footer[:-len(block) * times]), ("named_block", block),
            ("named_back", struct.pack("<i", len(footer)) + b"ARROW1"),
            ("named_file", f"magic schema no_null first_body end_mark named_front named_block*{times} named_back"),
            ("named_batch", "no_null first_body"), ("named_stream", f"schema named_batch*{times} end_mark"))


def main():
    out = Lines()
    add_kinds(out)
    add_selections(out)
    add_dictionaries(out)
    add_keys(out)
    add_schemas(out)
    add_lists(out)
    add_unions(out)
    add_views(out)
    add_fields(out)
    add_much(out)
    OUT.write_text("\n".join(out.lines) + "\n")
    for case in ALL:
        print(case.name, "length", len(b"".join(case.file)), "stream", len(b"".join(case.stream)), "schema", len(case.stream[0]))
    print("THREE offsets", THREE.place(1, 1), "text", THREE.place(1, 2), "KEPT views", KEPT.place(0, 1))
    print("SLICED text offsets", SLICED.place(0, 1), "values", SLICED.place(0, 2), "NUMBERS validity of int8", NUMBERS.place(2, 0), "boolean values", NUMBERS.place(1, 1))


if __name__ == "__main__":
    main()
