"""Writes crates/run_cases/data/scan.cases: small files with the stream of the rows that meet a filter, of which the messages stand here by
hand; each kind of numbers by each sign, at its least number, its greatest and between; and each kind of column beside the one of a filter.
Places of a file that a scan does not need cannot be read."""
import random
import struct

import arrow
import cells
import filters
import schemas
from arrow import Column
from case_lines import DATA, bytes_in, bytes_lines, sum_of
from cells import Message
from filters import Filter
from fuzz_dictionaries import Sending, held_message, random_messages
from fuzz_fields import Heading
from fuzz_nested import file_of, held_batch
from nested import Array, random_array
from reading import Contents, read_stream
from write_nested import INNER, OUTER, field_kind, is_kind, taken_in

OUT = DATA / "scan.cases"


# ── files and their streams ──


class Scanned:
    """A file of columns of some kinds, under dictionaries of some messages, with its batches as arrays."""

    def __init__(self, kinds, batches, messages=(), seed=0, order="little", version=4):
        r = random.Random(seed)
        self.kinds, self.batches, self.messages = kinds, batches, list(messages)
        self.fields = [schemas.field(name, field_kind(kind)) for name, kind in zip("nc", kinds)]
        held = [held_message(r, message, order, version)[:2] for message in self.messages]
        blocks = [held_batch(r, arrays[0].rows, [c for a in arrays for c in a.held(r, order, version)], version, None) for arrays in batches]
        self.file = file_of(Heading(order, version, self.fields, {}, None, None), blocks, held)
        said = [cells.batch_of(arrays[0].rows, None, arrays, self.messages) for arrays in batches]
        self.contents = Contents(order, self.fields, {}, {}, said)

    def stream(self, wanted, columns):
        """The stream of a scan, and the rows of each batch that it has."""
        rows, chosen = filters.rows_that_meet(self.contents, wanted), range(len(self.kinds)) if columns is None else columns
        sent = cells.kept(self.contents, columns, rows)
        parts = [arrow.message(1, schemas.schema_table(sent.fields, {}), 0)]
        if sent.batches:
            parts += Sending().send(self.messages, [self.kinds[i] for i in chosen])
        for arrays, of in zip(self.batches, rows):
            if of is not None:
                parts += arrow.batch(len(of.sent), [c for i in chosen for c in arrays[i].taken(of.read, of.sent).written(True)])
        stream = b"".join([*parts, arrow.END])
        assert cells.difference(read_stream(stream, 0), sent) is None
        return stream, rows

    def run_lines(self, wanted, columns=None):
        """A run, and the sum of what it puts."""
        words = [filters.word_of(wanted), *([] if columns is None else ["--columns", ",".join(map(str, columns)) or "''"])]
        yield f"run scan {' '.join(words)} --raw a => 0"
        yield f"sum => {sum_of(self.stream(wanted, columns)[0])}"

    def unreadable_lines(self, wanted, columns=None):
        """All places that such a run has no need of."""
        return lines_between(self.file, filters.places_of(self.file, wanted, columns, self.stream(wanted, columns)[1]))


def lines_between(data, places):
    at = 0
    for begin, length in [*sorted(places), (len(data), 0)]:
        if at < begin:
            yield f"unreadable {at} {begin} =>"
        at = max(at, begin + length)


def numbers_array(kind, width, numbers):
    """An array of numbers, under whose nulls all bits are set."""
    data = b"".join((-1 if number is None else number).to_bytes(width, "little", signed=(number or -1) < 0) for number in numbers)
    flags = None if None not in numbers else [number is not None for number in numbers]
    return Array(kind, len(numbers), flags, data=data, width=width)


# ── kinds of numbers ──

SIGNED = {"whole numbers of 8 bits": (("int8",), 1), "whole numbers of 16 bits": (("int16",), 2), "whole numbers of 32 bits": (("int32",), 4),
          "whole numbers of 64 bits": (("int64",), 8), "decimals": (("decimal", 38, 10), 16), "days": (("date32",), 4), "dates in milliseconds": (("date64",), 8),
          "times in seconds": (("time32", "s"), 4), "times in nanoseconds": (("time64", "ns"), 8), "timestamps": (("timestamp", "us", "Europe/Zurich"), 8),
          "durations": (("duration", "ms"), 8), "months": (("interval", "year_month"), 4), "an extension": (("extension", "own", "more", ("int16",)), 2)}
UNSIGNED = {"whole numbers of 8 bits above 0": (("uint8",), 1), "whole numbers of 16 bits above 0": (("uint16",), 2),
            "whole numbers of 32 bits above 0": (("uint32",), 4), "whole numbers of 64 bits above 0": (("uint64",), 8)}


def each_kind():
    """A title, a kind, its width, and its least and its greatest number."""
    for title, (kind, width) in SIGNED.items():
        yield title, kind, width, -(1 << 8 * width - 1), (1 << 8 * width - 1) - 1
    for title, (kind, width) in UNSIGNED.items():
        yield title, kind, width, 0, (1 << 8 * width) - 1


def each_filter(numbers):
    for number in numbers:
        for sign in filters.SIGNS:
            yield Filter(0, sign, number)


def number_lines():
    for i, (title, kind, width, least, greatest) in enumerate(each_kind()):
        inner = kind[3] if kind[0] == "extension" else kind
        batches = [[numbers_array(inner, width, [least, None, 100])], [numbers_array(inner, width, [greatest, 99])]]
        scanned = Scanned([kind], batches, seed=i, order="big" if i % 3 == 1 else "little", version=3 if i % 4 == 2 else 4)
        yield from ["", f"== {title}", bytes_lines("scan_numbers", scanned.file), "file a scan_numbers =>"]
        for wanted in each_filter([least, 100, greatest]):
            yield from scanned.run_lines(wanted)


def dictionary_lines():
    """The keys are of a part each, and none is the number that it leads to."""
    for title, values, width, least, greatest in (("a dictionary of numbers in two parts", ("int32",), 4, -(1 << 31), (1 << 31) - 1),
                                                  ("a dictionary of decimals in two parts", ("decimal", 38, 0), 16, -(1 << 127), (1 << 127) - 1)):
        kind = ("dictionary", "int8", False, 4, values)
        messages = [Message(4, False, numbers_array(values, width, [5, least])), Message(4, True, numbers_array(values, width, [greatest, None, 0]))]
        batches = [[numbers_array(kind, 1, [1, None, 0])], [numbers_array(kind, 1, [3, 4])], [numbers_array(kind, 1, [2])]]
        scanned = Scanned([kind], batches, messages)
        yield from ["", f"== {title}", bytes_lines("scan_numbers", scanned.file), "file a scan_numbers =>"]
        for wanted in each_filter([least, 0, 2, greatest]):
            yield from scanned.run_lines(wanted)


def refused_lines():
    """Kinds whose cells are no numbers."""
    for title, kind in (("nulls", ("null",)), ("truth values", ("boolean",)), ("texts", ("utf8",)), ("byte strings", ("large_binary",)), ("views", ("utf8_view",)),
                        ("byte strings of one size", ("fixed", 4)), ("days and milliseconds", ("interval", "day_time")),
                        ("months, days and nanoseconds", ("interval", "month_day_nano")), ("floats", ("float64",)), ("decimals of 256 bits", ("decimal256", 38, 0)),
                        ("lists of numbers", ("list", ("int32",))), ("structs of a number", ("struct", ("int32",))),
                        ("maps of numbers", ("map", ("int32",), ("int32",))), ("unions of numbers", ("union", "sparse", None, ("int32",))),
                        ("a dictionary of texts", ("dictionary", "int32", False, 0, ("utf8",))), ("an extension over texts", ("extension", "own", None, ("utf8",)))):
        scanned = Scanned([("int32",), kind], [])
        yield from ["", f"== {title} are no numbers", bytes_lines("scan_others", scanned.file), "file a scan_others =>",
                    "run scan 1=0 --columns 0 a => 2 refused 2 Predicate", "output => same"]


# ── columns beside the filter's ──


def kinds_beside():
    yield from INNER.items()
    for outer, around in OUTER.items():
        for inner in ("numbers", "views", "lists of one size", "dense unions", "dictionaries"):
            if is_kind(around(INNER[inner])):
                yield f"{inner} in {outer}", around(INNER[inner])


def made(kind, seed, order, version):
    """Two batches of a column beside numbers; of the first some rows are above 0, of the second none."""
    r = random.Random(seed)
    messages = random_messages(r, taken_in(kind))
    batches = [[numbers_array(("int32",), 4, numbers), random_array(r, kind, len(numbers))] for numbers in ([1, None, 0, 7], [0, -1])]
    return Scanned([("int32",), kind], batches, messages, seed, order, version)


def is_telling(scanned):
    return any(cell is not None for cell in (scanned.contents.batches[0].columns[1][row] for row in (0, 3)))


def beside_lines():
    wanted = Filter(0, ">", 0)
    for number, (title, kind) in enumerate(kinds_beside()):
        order = "big" if number % 3 == 1 and "view" not in str(kind) else "little"
        tried = [made(kind, 1000 * number + i, order, 3 if number % 4 == 2 else 4) for i in range(12)]
        scanned = min([s for s in tried if is_telling(s)] or tried, key=lambda s: len(s.file))
        yield from ["", f"== {title} beside a number", bytes_lines("scan_columns", scanned.file), "file a scan_columns =>"]
        yield from scanned.unreadable_lines(wanted)
        yield from scanned.run_lines(wanted)
        yield from scanned.run_lines(wanted, [1])
        yield from scanned.run_lines(wanted, [1, 0])
        yield from scanned.run_lines(Filter(0, ">", 7))
    yield from ["", "== the filter's column alone, and no column"]
    yield "file a scan_columns =>"
    yield from scanned.unreadable_lines(wanted, [0])
    yield from scanned.run_lines(wanted, [0])
    yield from scanned.run_lines(wanted, [])


# ── by hand ──


def rows_of(*columns, pairs=None):
    head, body = arrow.batch(columns[0].rows, list(columns), pairs=pairs)
    return head + body


FIRST_ROW = rows_of(Column(1, 0, [b"\1", struct.pack("<i", 1)]))
FIRST_WITH_PAIR = rows_of(Column(1, 0, [b"\1", struct.pack("<i", 1)]), pairs={"k": "v"})
YZ = rows_of(arrow.numbers("<q", [20]), arrow.variable("<i", [b"yz"]))

HEAD = """# Written by tests/model/write_scan.py: not to be changed by hand.
# The rows of a file that meet a filter, as one stream.

== rows of the second batch alone
file a two_batches =>
run scan 0>=4 --raw a => 0
sum => {second_batch}
output schema four_rows second_body end_mark => same
run scan 0>=4 a => 0
output @schema @four_rows @second_body @end_mark 0a => same
input @two_batches =>
run scan --raw 0>=4 => 0
output schema four_rows second_body end_mark => same
run scan 0>=4 --raw - => 0
output schema four_rows second_body end_mark => same

== no row of one column, and what stands in another is not read
file a three_file =>
{unreadable}
{last_schema}
run scan 0>=5 --columns 2 --raw a => 0
sum => {no_batch}
output scan_last_schema end_mark => same
run scan 0>=2 --columns 2 --raw a => 11 refused 11 ReadFault
output scan_last_schema => same

== a row behind which a null stands, with a validity as before
file a one_column =>
{first_row}
run scan 0<3 --raw a => 0
sum => {one_row}
output schema scan_first_row end_mark => same

== no such column
file a one_column =>
run scan 1=0 a => 5 refused 5 Projection
output => same
run scan 7=0 --columns 9 a => 5 refused 5 Projection
output => same
run scan 18446744073709551615=0 a => 5 refused 5 Projection
output => same
run scan 0=0 --columns 1 a => 5 refused 5 Projection
output => same

== a column of texts
file a three_file =>
run scan 1=0 a => 2 refused 2 Predicate
output => same
run scan 1=0 --columns 1,1 a => 5 refused 5 Projection
output => same
run scan 1=0 --columns 3 a => 5 refused 5 Projection
output => same

== every row, and no row
file a two_batches =>
run scan 0!=0 --raw a => 0
output two_batches_stream => same
run scan 0>7 --raw a => 0
output no_batch_stream => same
run scan 0=-170141183460469231731687303715884105728 --raw a => 0
output no_batch_stream => same

== rows of both batches
file a two_batches =>
run scan 0!=7 --raw a => 0
sum => {not_seven}
run scan 0<=3 --raw a => 0
output schema no_null first_body end_mark => same

== files without a batch
file a no_batch =>
run scan 0=0 --raw a => 0
output no_batch_stream => same
run scan 1=0 a => 5 refused 5 Projection
output => same

== columns in another order, with the filter's and without it
file a three_file =>
{turned_schema}
{yz}
run scan 0=2 --columns 2,1 --raw a => 0
output scan_turned_schema scan_yz end_mark => same

== -0 is the number 0, and zeros stand before a number
file a two_batches =>
run scan 0>-0 --raw a => 0
output two_batches_stream => same
run scan 000>=004 --raw a => 0
output schema four_rows second_body end_mark => same

== pairs of the file, and of a batch
file a pair_of_footer =>
run scan 0<3 --columns 0 --raw a => 0
output schema_with_pair scan_first_row end_mark => same
file a pair_of_message =>
{first_with_pair}
run scan 0=1 --raw a => 0
output schema scan_first_with_pair end_mark => same

== a float beside the filter's column
file a floats_and_numbers =>
run scan 0=0 --columns 1 --raw a => 2 refused 2 Predicate
output => same
run scan 1=5 a => 2 refused 2 Float
output => same
run scan 1=5 --columns 0 a => 2 refused 2 Float
output => same
run scan 1=5 --columns 1 --raw a => 0
output five => same

== a column that is wrong where no row meets the filter
file a three_file 673=ff =>
{texts_schema}
run scan 0>=5 --columns 1 --raw a => 0
output scan_texts_schema end_mark => same
run scan 0>=2 --columns 1 --raw a => 1 refused 1 InvalidUtf8
output scan_texts_schema => same
run scan 0>=2 --columns 0,2 --raw a => 0
sum => {numbers_of_three}

== a filter's column that is wrong, before a column that is asked for
file a magic schema compressed one_null_body end_mark block_of_compressed =>
run scan 0=0 --raw a => 2 refused 2 Compression
output schema => same

== metadata before columns
file a one_column cut=617 =>
run scan 7=0 a => 1 refused 1 InvalidFooter
output => same
file a floats_file cut=9 =>
run scan 0=0 a => 1 refused 1 Truncated
output => same

== the input, and names
file a two_batches =>
run scan 0=0 b => 17 refused 17 NoName
output => same
input 'xyz =>
run scan 0=0 => 15 refused 15 NotHex
output => same
input '4 =>
run scan 0=0 - => 15 refused 15 NotHex
output => same
fails input 1 =>
run scan 0=0 => 11 refused 11 ReadFault
output => same
run scan 0>=4 --raw a => 0
output schema four_rows second_body end_mark => same

== words that are no request
file a two_batches =>
run scan => 14 refused 14 Words
run scan a => 14 refused 14 Words
run scan '' => 14 refused 14 Words
run scan 0 => 14 refused 14 Words
run scan 0= => 14 refused 14 Words
run scan =4 => 14 refused 14 Words
run scan <4 => 14 refused 14 Words
run scan >=4 => 14 refused 14 Words
run scan 0<= => 14 refused 14 Words
run scan 0!4 => 14 refused 14 Words
run scan 0!! => 14 refused 14 Words
run scan 0==4 => 14 refused 14 Words
run scan 0=<4 => 14 refused 14 Words
run scan 0=>4 => 14 refused 14 Words
run scan 0<>4 => 14 refused 14 Words
run scan 0=!4 => 14 refused 14 Words
run scan 0>=+4 => 14 refused 14 Words
run scan 0>=--4 => 14 refused 14 Words
run scan 0>=- => 14 refused 14 Words
run scan 0>=4- => 14 refused 14 Words
run scan 0>=4.0 => 14 refused 14 Words
run scan 0>=4a => 14 refused 14 Words
run scan 0>=0x4 => 14 refused 14 Words
run scan 0>=4,5 => 14 refused 14 Words
run scan -1>=4 => 14 refused 14 Words
run scan +0>=4 => 14 refused 14 Words
run scan a>=4 => 14 refused 14 Words
run scan 0.0>=4 => 14 refused 14 Words
run scan 0 >= 4 => 14 refused 14 Words
run scan 0>= 4 => 14 refused 14 Words
run scan 18446744073709551616=0 => 14 refused 14 Words
run scan 0=170141183460469231731687303715884105728 => 14 refused 14 Words
run scan 0=-170141183460469231731687303715884105729 => 14 refused 14 Words
run scan 0=999999999999999999999999999999999999999999 => 14 refused 14 Words
run scan 0>=4 a a => 14 refused 14 Words
run scan 0>=4 --limit 1 a => 14 refused 14 Words
run scan 0>=4 --append a => 14 refused 14 Words
run scan 0>=4 --raw --raw a => 14 refused 14 Words
run scan 0>=4 --columns a => 14 refused 14 Words
run scan 0>=4 --columns 0,a a => 14 refused 14 Words
run scan 0>=4 --columns 0 --columns 0 a => 14 refused 14 Words
run scan 0>=4 a --columns => 14 refused 14 Words
run scans 0>=4 a => 14 refused 14 Words
output => same

== a file that fails at each of its calls
file a two_batches =>
each file scan 0>=4 --raw a
= 11 refused 11 ReadFault, 0 put, {size} kept
= 11 refused 11 ReadFault, 136 put, {size} kept
= 0, 360 put, {size} kept
each file scan 0!=0 --raw a
= 11 refused 11 ReadFault, 0 put, {size} kept
= 11 refused 11 ReadFault, 136 put, {size} kept
= 11 refused 11 ReadFault, 352 put, {size} kept
= 0, 576 put, {size} kept

== an input, a shelf and an output that fail at each of their calls
file a two_batches =>
input @two_batches =>
each input scan 0>=4
= 11 refused 11 ReadFault, 0 put, {size} kept
= 0, 721 put, {size} kept
each shelf scan 0>=4 a
= 11 refused 11 ReadFault, 0 put, {size} kept
= 0, 721 put, {size} kept
each output scan 0>=4 a
= 12 refused 12 WriteFault, a front, {size} kept
= 0, a front, {size} kept

== memory that is wanting at the first put
file a two_batches =>
fails memory 1 =>
run scan 0>=4 a => 13 refused 13 Memory
output => same
run scan 1=0 a => 5 refused 5 Projection
output => same

== no room for the line feed, for the batch, and for the schema
file a two_batches =>
room output 720 =>
run scan 0>=4 a => 12 refused 12 WriteFault
output @schema @four_rows @second_body @end_mark => same
room output 200 =>
run scan 0>=4 --raw a => 12 refused 12 WriteFault
output schema four_rows second_body end_mark cut=200 => same
room output 5 =>
run scan 0>=4 --raw a => 12 refused 12 WriteFault
output schema cut=5 => same
"""


def schema_of(*fields):
    return arrow.message(1, schemas.schema_table([schemas.field(name, kind, False) for name, kind in fields], {}), 0)


def head():
    known = bytes_in("worked.cases", "made.cases")
    three, schema, end = known["three_file"], known["schema"], arrow.END
    texts, last, turned = schema_of(("b", ("utf8",))), schema_of(("c", ("int64",))), schema_of(("c", ("int64",)), ("b", ("utf8",)))
    numbers = schema_of(("a", ("int32",)), ("c", ("int64",))) + rows_of(arrow.numbers("<i", [2]), arrow.numbers("<q", [20])) + end
    return HEAD.format(
        second_batch=sum_of(schema + known["four_rows"] + known["second_body"] + end),
        unreadable="\n".join(lines_between(three, filters.places_of(three, Filter(0, ">=", 5), [2], [None]))),
        last_schema=bytes_lines("scan_last_schema", last),
        no_batch=sum_of(last + end),
        first_row=bytes_lines("scan_first_row", FIRST_ROW),
        one_row=sum_of(schema + FIRST_ROW + end),
        not_seven=sum_of(schema + known["no_null"] + known["first_body"] + rows_of(arrow.numbers("<i", [4, 5, 6])) + end),
        turned_schema=bytes_lines("scan_turned_schema", turned),
        yz=bytes_lines("scan_yz", YZ),
        first_with_pair=bytes_lines("scan_first_with_pair", FIRST_WITH_PAIR),
        texts_schema=bytes_lines("scan_texts_schema", texts),
        numbers_of_three=sum_of(numbers),
        size=len(known["two_batches"])).rstrip("\n")


def main():
    lines = [head(), *number_lines(), *dictionary_lines(), *refused_lines(), *beside_lines()]
    OUT.write_text("\n".join(lines) + "\n")


if __name__ == "__main__":
    main()
