"""The model gives the worked files and streams of crates/run_cases/data/worked.cases, byte by byte, and its reader reads the worked ones
of the crates of tests as what they say, those of other writers too, and refuses damaged ones."""
import re
import struct
from pathlib import Path

import arrow
import laid_by_hand
import schema_reading
import schemas
import write_cat
from arrow import Column
from case_lines import bytes_in
from cases import ALL
from cells import Message, difference, plain
from flat_reading import Damaged, root
from fuzz_dictionaries import Sending
from layout import Structs, Table, Value, lay, number
from nested import Array
from reading import Batch, Contents, read_file, read_stream
from written import read_written_file, read_written_stream

CRATES = Path(__file__).parents[2] / "crates"


def names_in(name):
    """The bytes of a file of cases by their names."""
    lines = [line.split() for line in (CRATES / name).read_text().splitlines() if line.startswith("name ")]
    return {line[1]: bytes.fromhex(line[2]) for line in lines if re.fullmatch("[0-9a-f]+", line[2]) and line[3] == "=>"}


PARTS = {name.title().replace("_", ""): data for name, data in bytes_in("worked.cases", "made.cases").items()}
A = [("a", ("int32",), True)]


def known(*names):
    return b"".join(PARTS[n] for n in names)


one = [arrow.batch(3, [arrow.numbers("<i", [1, None, 3])])]
assert b"".join(arrow.file_parts(A, one)) == known("Magic", "Schema", "OneNull", "OneNullBody", "EndMark", "OneBlock")
assert b"".join(arrow.stream_parts(A, one)) == known("Schema", "OneNull", "OneNullBody", "EndMark")
two = [arrow.batch(3, [arrow.numbers("<i", [1, 2, 3])]), arrow.batch(4, [arrow.numbers("<i", [4, 5, 6, 7])])]
assert b"".join(arrow.file_parts(A, two)) == known("Magic", "Schema", "NoNull", "FirstBody", "FourRows", "SecondBody", "EndMark", "TwoBlocks")
assert b"".join(arrow.stream_parts(A, two)) == known("Schema", "NoNull", "FirstBody", "FourRows", "SecondBody", "EndMark")
assert b"".join(arrow.file_parts(A, [])) == known("Magic", "Schema", "EndMark", "NoBlock")

# ── pairs of a footer and of a message themselves, and compressed buffers ──


def footer(fields, head, body, pairs=None):
    schema = arrow.message(1, arrow.schema(fields), 0)
    block = struct.pack("<qiiq", 8 + len(schema), len(head), 0, len(body))
    table = lay(Table(Value(2, 4), arrow.schema(fields), Structs([]), Structs([block]), arrow.pair_list(pairs)))
    return table + struct.pack("<i", len(table)) + b"ARROW1"


PAIR = {"k": "v"}
head, body = one[0]
batch = (number(8, 3), Structs([struct.pack("<qq", 3, 1)]), Structs([struct.pack("<qq", 0, 1), struct.pack("<qq", 64, 12)]))
assert arrow.message(3, Table(*batch), len(body)) == head
assert footer(A, head, body, PAIR) == known("OneBlockWithPair")
paired = arrow.message(3, Table(*batch), len(body), pairs=PAIR)
assert paired == known("OneNullWithPair") and footer(A, paired, body) == known("BlockOfPair")
compressed = arrow.message(3, Table(*batch, Table()), len(body))
assert compressed == known("Compressed") and footer(A, compressed, body) == known("BlockOfCompressed")

# ── no texts, over buffers of no bytes ──

T = [("t", ("utf8",), True)]
held = arrow.batch(0, [Column(0, 0, [b"", b"", b""])])
assert b"".join(arrow.file_parts(T, [held])) == known("Magic", "TextSchema", "NoTexts", "EndMark", "BlockOfNoTexts")
sent = [arrow.batch(0, [arrow.variable("<i", [])])]
assert b"".join(arrow.stream_parts(T, sent)) == known("TextSchema", "NoTextsSent", "EndMark")

# ── lists of 1, 2; none; null; 3, and those behind the first ──

items = Array(("int8",), 3, None, data=bytes([1, 2, 3]), width=1)
lists = Array(("list", ("int8",)), 4, [True, True, False, True], offsets=[0, 2, 2, 2, 3], children=[items])


def written(begin, count):
    columns = lists.sent(4, begin, count)
    return [(c.rows, c.nulls) for c in columns], [p.hex() for c in columns for p in c.pieces], len(arrow.batch(count, columns)[1])


assert written(0, 4) == ([(4, 1), (3, 0)], ["0b", "0000000002000000020000000200000003000000", "", "010203"], 192)
assert written(1, 3) == ([(3, 1), (1, 0)], ["05", "00000000000000000000000001000000", "", "03"], 192)
print("the worked files and streams are the model's")

# ── what worked files and streams say ──

COLUMN = [schemas.field("a", ("int32",))]
ROWS = [1, None, 3]
FILE = ("Magic", "Schema", "OneNull", "OneNullBody", "EndMark")


def saying(*columns, pairs={}, own={}, order="little", fields=COLUMN):
    """Contents of one column, of these rows in each batch."""
    return Contents(order, fields, pairs, own, [Batch(len(rows), {}, [rows]) for rows in columns])


assert difference(read_written_file(known(*FILE, "OneBlock")), saying(ROWS)) is None
assert difference(read_written_stream(known(*FILE[1:])), saying(ROWS)) is None
assert difference(read_written_file(known(*FILE, "OneBlockWithPair")), saying(ROWS, own=PAIR)) is None
assert difference(read_file(known(*FILE[:2], "OneNullWithPair", *FILE[3:], "BlockOfPair")),
                  saying()._replace(batches=[Batch(3, PAIR, [ROWS])])) is None
assert difference(read_written_file(known("Magic", "Schema", "NoNull", "FirstBody", "FourRows", "SecondBody", "EndMark", "TwoBlocks")),
                  saying([1, 2, 3], [4, 5, 6, 7])) is None
assert difference(read_file(known("Magic", "TextSchema", "NoTexts", "EndMark", "BlockOfNoTexts")),
                  saying([], fields=[schemas.field("t", ("utf8",))])) is None
assert difference(read_file(known(*FILE, "OtherWriter")), saying(ROWS)) is None
assert difference(read_file(known(*FILE, "BigEndian")), saying([1 << 24, None, 3 << 24], order="big")) is None
column_with_pairs = [schemas.field("a", ("int32",), True, {"unit": "cm", "about": "x"})]
assert difference(read_file(known(*FILE, "WithPairs")),
                  saying(ROWS, pairs={"writer": "another", "by": ""}, fields=column_with_pairs)) is None

for case in ALL:
    if case.name != "NULLS":
        file, stream = read_file(b"".join(case.file)), read_stream(b"".join(case.stream))
        assert file.batches == stream.batches and file.fields == stream.fields, case.name
[strings] = [case for case in ALL if case.name == "STRINGS"]
BYTES, TEXTS = [b"\xff", None, b"\0\1"], ["é", None, "z"]
assert read_file(b"".join(strings.file)).batches[0].columns[:6] == [
    BYTES, BYTES, TEXTS, TEXTS, [b"abc", None, b"def"], [b"\xff" * 13, None, b"\xfe"]]

# ── streams with pairs, and dictionaries in dictionaries, in the order of their blocks and out of it ──

STREAMS = names_in("run_cases/data/messages/readers.cases")


def stream_of(*names):
    return b"".join(STREAMS[name] for name in names)


assert difference(read_stream(stream_of("OLDER_SCHEMA", "OLDER_ONE_NULL", "OLDER_END")), saying(ROWS)) is None
paired = read_stream(stream_of("SCHEMA_WITH_PAIR", "ONE_NULL_WITH_PAIR", "ONE_NULL", "END"))
assert (paired.own, paired.batches) == (PAIR, [Batch(3, PAIR, [ROWS]), Batch(3, {}, [ROWS])])
assert read_stream(stream_of("THREE_SCHEMA", "THREE", "END")).batches == [Batch(2, {}, [[1, 2], ["x", "yz"], [10, 20]])]
X, Z, Q = ("x",), ("z",), ("q",)
BOTH = [Batch(2, {}, [[Z, X]]), Batch(3, {}, [[X, Z, X]])]
replaced = stream_of("NESTED", "INNER_X_Y", "INNER_MORE_Z", "OUTER", "KEYS_0_1", "INNER_Q_R", "KEYS_1_0_1", "INNER_MORE_Z", "OUTER",
                     "KEYS_1_0_1", "END")
assert read_stream(replaced).batches == [*BOTH, Batch(3, {}, [[Q, Z, Q]])]
in_order, outer_first = known("DictionariesInOrder"), known("OuterFirst")
assert read_file(in_order).batches == read_file(outer_first).batches == read_stream(known("DictionariesStream")).batches == BOTH

# ── schemas of other writers ──

order, fields, pairs = schema_reading.schema(root(laid_by_hand.OTHER_WRITER).table(2))
assert (order, [plain(f) for f in fields], pairs) == ("little", [plain(f) for f in schemas.EVERY], schemas.EVERY_PAIRS)
DEFAULTS = [schemas.field("d", ("date64",), False), schemas.field("t", ("time32", "ms"), False),
            schemas.field("k", ("dictionary", "int32", False, 7, ("utf8",)))]
assert schema_reading.schema(root(laid_by_hand.DEFAULTS)) == ("little", DEFAULTS, {})
EXTENDED = schemas.field("x", ("extension", "e", None, ("boolean",)), False, {"k": "2"})
assert schema_reading.schema(root(laid_by_hand.PAIRS)) == ("big", [EXTENDED], {"a": "b"})
print("the model reads the worked files and streams")

# ── what is refused: places of a file at which a byte is changed, files and streams that are cut, and others ──


def is_refused(read, data):
    try:
        read(data)
    except Damaged:
        return True
    return False


def changed(data, at, mask):
    return data[:at] + bytes([data[at] ^ mask]) + data[at + 1:]


file, stream = known(*FILE, "OneBlock"), known(*FILE[1:])
assert all(is_refused(read_file, file[:n]) for n in range(len(file))), "a file that is cut"
assert all(is_refused(read_stream, stream[:n]) for n in range(len(stream))), "a stream that is cut"
assert is_refused(read_file, file + b"\0") and is_refused(read_stream, stream + b"\0"), "a byte behind"
PLACES = {"magic": 0, "front": 6, "last byte": len(file) - 1, "length of the footer": len(file) - 10, "root of the footer": len(file) - 186}
for what, at in PLACES.items():
    assert is_refused(read_file, changed(file, at, 1)), what
for at in range(len(file)):
    for mask in (1, 0x80, 0xff):
        is_refused(read_file, changed(file, at, mask))  # or read, and no other fault
REFUSED = [known("Magic", "Schema", "Compressed", "OneNullBody", "EndMark", "BlockOfCompressed"),
           known("Magic", "Schema", "EndMark", "FarDictionary"), known("DeltaFirst")]
assert all(is_refused(read_file, data) for data in REFUSED)
REFUSED = [STREAMS["LONG_BODY"], STREAMS["LONG_METADATA"], known("Schema", "NegativeRows", "FirstBody", "EndMark"),
           known("Schema", "ManyRows", "FirstBody", "EndMark"), known("Schema", "NoNull", "NoValidityBody", "Schema", "EndMark"),
           known("NoNull", "FirstBody", "EndMark"), stream_of("NESTED", "OUTER", "INNER_X_Y", "KEYS_0_1", "END")]
assert all(is_refused(read_stream, data) for data in REFUSED)
assert all(is_refused(lambda data: schema_reading.schema(root(data)), data) for data in (laid_by_hand.SAME_IDS, laid_by_hand.WIDE_MAP))
print("the model refuses damaged ones")

# ── what is read, and is not as a writer has to leave it ──

at_eights = b"".join(arrow.file_parts(A, [arrow.batch(3, [arrow.numbers("<i", [1, None, 3])], 8)]))
batches = known("Magic", "Schema", "NoNull", "FirstBody", "FourRows", "SecondBody", "EndMark")
back = known("TwoBlocks")
turned = batches + back[:-58] + back[-34:-10] + back[-58:-34] + back[-10:]
nulls = file.index(struct.pack("<qq", 3, 1)) + 8
older = arrow.message(3, Table(*batch), len(body), 3)
LEFT = {"buffers at multiples of 8": at_eights, "blocks out of order": turned, "a gap before the footer": known(*FILE) + bytes(64) + known("OneBlock"),
        "a wrong number of nulls": changed(file, nulls, 3), "no zero behind a buffer": changed(file, len(known("Magic", "Schema", "OneNull")) + 9, 1),
        "version V4": known("Magic", "Schema") + older + body + known("EndMark", "OneBlock"), "other fields in the footer": known(*FILE, "WithPairs")}
for what, data in LEFT.items():
    assert not is_refused(read_file, data) and is_refused(read_written_file, data), what
assert is_refused(read_written_stream, stream_of("OLDER_SCHEMA", "OLDER_ONE_NULL", "OLDER_END")), "prefixes of four bytes"
print("and those that no writer here leaves")

# ── what is sent of dictionaries behind those that were sent: messages by hand ──


def array(kind, parts):
    """Parts of texts, of lists of bytes, or of keys."""
    ends = [[sum(map(len, part[:i])) for i in range(len(part) + 1)] for part in parts]
    if kind == ("utf8",):
        return [Array(kind, len(part), None, offsets=of, data=b"".join(part)) for part, of in zip(parts, ends)]
    bytes_ = [Array(("int8",), of[-1], None, data=b"".join(part), width=1) for part, of in zip(parts, ends)]
    return [Array(kind, len(part), None, offsets=of, children=[child]) for part, of, child in zip(parts, ends, bytes_)]


def messages_of(id, arrays):
    return [Message(id, i > 0, values) for i, values in enumerate(arrays)]


def sent_behind(kind, held, found):
    """What is sent of the values of keys behind others, as one dictionary each."""
    sending, column = Sending(), ("dictionary", "int8", False, 7, kind)
    sending.send(messages_of(7, held), [column])
    return sending.send(messages_of(7, found), [column])


def put(*messages):
    return [part for message in messages for part in message]


X, Y, Z = b"x", b"y", b"z"
TEXTS, XY, values = ("utf8",), [[X, Y]], write_cat.values
SENT = [(XY, XY, []), (XY, [[X], [Y]], []), ([[X], [Y]], XY, []), ([], [[]], []),
        (XY, [[X, Y], [Z]], [values(0, [Z], True)]), ([[X]], [[X, Y], [], [Z]], [values(0, [Y], True), values(0, [Z], True)]),
        ([[]], XY, [values(0, [X, Y], True)]), ([], [[X], [Y]], [values(0, [X], True), values(0, [Y], True)]),
        (XY, [[X]], [values(0, [X])]), (XY, [], [values(0, [])]), (XY, [[], [Y], [], [X]], [values(0, []), values(0, [Y], True), values(0, [X], True)])]
for held, found, wanted in SENT:
    assert sent_behind(TEXTS, array(TEXTS, held), array(TEXTS, found)) == put(*wanted), (held, found)


def delta(*columns):
    header, body = arrow.batch_tables(columns[0].rows, columns)
    return arrow.message(2, Table(None, header, number(1, True)), len(body)), body


LISTS, LONG = ("list", ("int8",)), [b"the first long text", b"the second long text"]
wanted = delta(Column(2, 0, [b"", struct.pack("<3i", 0, 1, 3)]), Column(3, 0, [b"", b"xyz"]))
assert sent_behind(LISTS, array(LISTS, [[b"ab"]]), array(LISTS, [[b"ab", b"x", b"yz"]])) == put(wanted)
views = [arrow.view(LONG[0], 0, 0), arrow.view(LONG[1], 0, len(LONG[0]))]
held, found = [Array(("utf8_view",), n, None, views=views[:n], buffers=[b"".join(LONG)]) for n in (1, 2)]
assert sent_behind(("utf8_view",), [held], [found]) == put(delta(Column(1, 0, [b"", views[1], b"".join(LONG)], 1)))
held, found = [Array(("int8",), n, [True, False, True][:n], data=b"\1\2\3"[:n], width=1) for n in (2, 3)]
assert sent_behind(("int8",), [held], [found]) == put(delta(Column(1, 0, [b"\1", b"\3"])))

INNER = ("dictionary", "int8", False, 9, TEXTS)
OUTER = ("dictionary", "int8", False, 5, ("struct", INNER))


def nested(texts, *keys):
    """Structs of keys, a part each, behind texts."""
    parts = [Array(("struct", INNER), len(of), None, children=[Array(INNER, len(of), None, data=bytes(of), width=1)]) for of in keys]
    return [*messages_of(9, array(TEXTS, texts)), *messages_of(5, parts)]


def structs(keys, is_delta=False):
    header, body = arrow.batch_tables(len(keys), [Column(len(keys), 0, [b""]), arrow.numbers("<b", keys)])
    return arrow.message(2, Table(None, header, number(1, is_delta)), len(body)), body


sending = Sending()
NEXT = [(nested(XY, [1, 0]), [values(1, [X, Y]), structs([1, 0])]), (nested([[Y, X]], [0, 1]), []),
        (nested([[X, Y, Z]], [1, 0, 2]), [values(1, [Z], True), structs([2], True)]),
        (nested([[Z]], [0], [0]), [values(1, [Z]), structs([0]), structs([0], True)]),
        ([], [values(1, []), structs([])]), (nested(XY, [0], [1]), [values(1, [X, Y], True), structs([0], True), structs([1], True)])]
for messages, wanted in NEXT:
    assert sending.send(messages, [OUTER]) == put(*wanted), wanted
print("and sends of dictionaries what is new")
