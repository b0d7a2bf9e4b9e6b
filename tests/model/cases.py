"""The files and streams of the worked examples over columns without children."""
import arrow
from arrow import Column


class Case:
    """A file and its stream; places in the file by name."""

    def __init__(self, name, fields, rows, held, sent=None, step=64):
        self.name, self.fields, self.rows = name, fields, rows
        self.file_batch = arrow.batch(rows, held, step)
        self.sent_batch = arrow.batch(rows, sent or held)
        self.file = arrow.file_parts(fields, [self.file_batch])
        self.stream = arrow.stream_parts(fields, [self.sent_batch])
        self.body_at = len(self.file[0]) + len(self.file[1]) + len(self.file[2])
        self.held, self.step = held, step

    def place(self, column, piece):
        """Where a buffer of the file begins."""
        at = self.body_at
        for c, held in enumerate(self.held):
            for p, bytes_ in enumerate(held.pieces):
                if (c, p) == (column, piece):
                    return at
                at = self.body_at + arrow.up_to(self.step, at - self.body_at + len(bytes_))
        raise IndexError


LONG = b"and thirteen."
TWENTY = b"of twenty characters"
assert len(LONG) == 13 and len(TWENTY) == 20

THREE = Case("THREE", [("a", ("int32",), False), ("b", ("utf8",), False), ("c", ("int64",), False)], 2, [
    arrow.numbers("<i", [1, 2]),
    arrow.variable("<i", [b"x", b"yz"]),
    arrow.numbers("<q", [10, 20]),
])


def one_view(held):
    buffer = b"0123456789abcdef"[:2] + LONG + bytes(held - 15)
    return [arrow.views([LONG], [(0, 2)], [buffer])]


V = [("v", ("utf8_view",), True)]
KEPT = Case("KEPT", V, 1, one_view(25))
ANEW = Case("ANEW", V, 1, one_view(26), [arrow.views([LONG], [(0, 0)], [LONG])])

ROWS = [b"short", LONG, None, TWENTY, b""]
VIEWS = Case("VIEWS", V, 5,
             [arrow.views(ROWS, [(1, 1), (0, 0)], [TWENTY, b"-" + LONG], null=b"\xff" * 16)])
W = [("w", ("binary_view",), True)]
WASTE = Case("WASTE", W, 5,
             [arrow.views(ROWS, [(1, 40), (0, 9)], [b"-" * 9 + TWENTY, b"-" * 40 + LONG], null=b"\xff" * 16)],
             [arrow.views(ROWS, [(0, 0), (0, 13)], [LONG + TWENTY])])

MANY = 1 << 62
NULLS = Case("NULLS", [("n", ("null",), True)], MANY, [Column(MANY, MANY, [])])


def past_the_end(column):
    """All bits set behind those of the rows."""
    first = bytearray(column.pieces[0])
    for bit in range(column.rows, 8 * len(first)):
        first[bit // 8] |= 1 << bit % 8
    return Column(column.rows, column.nulls, [bytes(first), *column.pieces[1:]], column.views)


# a part of other columns: offsets begin behind 0, bytes stand before and behind, and under the null row is no text
TEXTS = [b"ab", None, b"", b"c"]
SLICED = Case("SLICED", [("s", ("utf8",), True), ("t", ("large_binary",), True)], 4, [
    past_the_end(arrow.variable("<i", TEXTS, {1: b"\xff\xfe"}, b"\xff--", b"\xc3")),
    past_the_end(arrow.variable("<q", TEXTS, {1: b"?"}, b"-----", b"")),
], [
    arrow.variable("<i", TEXTS, {1: b"\xff\xfe"}),
    arrow.variable("<q", TEXTS, {1: b"?"}),
], step=8)

FLOATS = Case("FLOATS", [("f", ("float64",), True)], 1, [arrow.numbers("<d", [1.5])])


def column(name, kind, held):
    return (name, kind, True), held


NUMBER_COLUMNS = [
    column("null", ("null",), Column(3, 3, [])),
    column("boolean", ("boolean",), arrow.booleans([True, None, True])),
    column("int8", ("int8",), arrow.numbers("<b", [-1, None, 2])),
    column("int16", ("int16",), arrow.numbers("<h", [-2, None, 3])),
    column("int32", ("int32",), arrow.numbers("<i", [-3, None, 4], 77)),
    column("int64", ("int64",), arrow.numbers("<q", [-4, None, 5])),
    column("uint8", ("uint8",), arrow.numbers("<B", [255, None, 6])),
    column("uint16", ("uint16",), arrow.numbers("<H", [65535, None, 7])),
    column("uint32", ("uint32",), arrow.numbers("<I", [4294967295, None, 8])),
    column("uint64", ("uint64",), arrow.numbers("<Q", [18446744073709551615, None, 9])),
    column("decimal", ("decimal", 38, 10), arrow.wide([-(10 ** 37), None, 12345])),
]

TIME_COLUMNS = [
    column("date32", ("date32",), arrow.numbers("<i", [-1, None, 20000])),
    column("date64", ("date64",), arrow.numbers("<q", [86400000, None, 0])),
    column("seconds", ("time32", "s"), arrow.numbers("<i", [1, None, 86399])),
    column("milliseconds", ("time32", "ms"), arrow.numbers("<i", [1, None, 2])),
    column("microseconds", ("time64", "us"), arrow.numbers("<q", [1, None, 2])),
    column("nanoseconds", ("time64", "ns"), arrow.numbers("<q", [1, None, 2])),
    column("timestamp", ("timestamp", "ms", None), arrow.numbers("<q", [1, None, -2])),
    column("zoned", ("timestamp", "ns", "Europe/Zurich"), arrow.numbers("<q", [1, None, -2])),
    column("duration", ("duration", "us"), arrow.numbers("<q", [1, None, -2])),
    column("months", ("interval", "year_month"), arrow.numbers("<i", [1, None, -2])),
    column("days", ("interval", "day_time"), arrow.tuples("<ii", [(1, 2), None, (-3, -4)])),
    column("nanos", ("interval", "month_day_nano"), arrow.tuples("<iiq", [(1, 2, 3), None, (-4, -5, -6)])),
]

STRING_COLUMNS = [
    column("binary", ("binary",), arrow.variable("<i", [b"\xff", None, b"\0\1"])),
    column("large_binary", ("large_binary",), arrow.variable("<q", [b"\xff", None, b"\0\1"])),
    column("utf8", ("utf8",), arrow.variable("<i", ["é".encode(), None, b"z"])),
    column("large_utf8", ("large_utf8",), arrow.variable("<q", ["é".encode(), None, b"z"])),
    column("fixed", ("fixed", 3), arrow.fixed([b"abc", None, b"def"], 3)),
    column("binary_view", ("binary_view",), arrow.views([b"\xff" * 13, None, b"\xfe"], [(0, 0)], [b"\xff" * 13])),
    column("utf8_view", ("utf8_view",), arrow.views([LONG, None, b"short"], [(0, 0)], [LONG])),
    column("own", ("extension", "own", "more", ("int32",)), arrow.numbers("<i", [10, None, 20])),
    column("texts", ("extension", "texts", None, ("utf8_view",)), arrow.views([b"a", None, LONG], [(0, 0)], [LONG])),
]


def every(name, columns):
    return Case(name, [f for f, _ in columns], 3, [c for _, c in columns])


NUMBERS = every("NUMBERS", NUMBER_COLUMNS)
TIMES = every("TIMES", TIME_COLUMNS)
STRINGS = every("STRINGS", STRING_COLUMNS)

ALL = [THREE, KEPT, ANEW, VIEWS, WASTE, NULLS, SLICED, FLOATS, NUMBERS, TIMES, STRINGS]

if __name__ == "__main__":
    for c in ALL:
        print(c.name, "file", len(b"".join(c.file)), "stream", len(b"".join(c.stream)),
              "schema", len(c.file[1]), "body at", c.body_at, "body", len(c.file_batch[1]), len(c.sent_batch[1]))
