"""Writes crates/run_cases/data/csv.cases: small files with the text of their tables, which stands here by hand."""
import struct

import arrow
import schemas
from arrow import Column
from case_lines import DATA, bytes_lines
from layout import Structs, Table, Value, lay, number

OUT = DATA / "csv.cases"
LEAST = -(1 << 127)


def file_of(fields, batches, dictionaries=()):
    """A file of these fields, whose dictionaries stand before its batches."""
    table = schemas.schema_table(fields, {})
    parts, lists = [arrow.MAGIC, arrow.message(1, table, 0)], []
    for messages in (dictionaries, batches):
        blocks = []
        for head, body in messages:
            blocks.append(struct.pack("<qiiq", sum(map(len, parts)), len(head), 0, len(body)))
            parts += [head, body]
        lists.append(Structs(blocks))
    footer = lay(Table(Value(2, 4), table, *lists))
    return b"".join([*parts, arrow.END, footer, struct.pack("<i", len(footer)), b"ARROW1"])


def file(columns, rows):
    """A file of one batch: the name, the kind and what is held of each column."""
    fields = [schemas.field(name, kind) for name, kind, _ in columns]
    return file_of(fields, [arrow.batch(rows, [held for _, _, held in columns])])


CASES = []


def case(title, name, data, words, status, lines):
    """What a run says of a file: a status with what is noted, and the lines that are printed."""
    CASES.append((title, f"csv_{name}", data, words, status, lines))


def add_numbers():
    data = file([("d", ("decimal", 5, 2), arrow.wide([-5, 12345, 0])), ("t", ("utf8",), arrow.variable("<i", [b"q", b"", b"a,b"]))], 3)
    case("decimals of scale 2 beside texts", "scale_two", data, "", "0", ["d,t", "-0.05,q", "123.45,", '0.00,"a,b"'])
    data = file([("z", ("decimal", 38, 0), arrow.wide([-7, 10])), ("p", ("decimal", 38, 38), arrow.wide([-1, LEAST])), ("e", ("decimal", 38, 39), arrow.wide([5, LEAST]))], 2)
    case("decimals of scale 0, 38 and 39, and the least number of 128 bits", "scales", data, "", "0",
         ["z,p,e", "-7,-0.00000000000000000000000000000000000001,5E-39",
          "10,-1.70141183460469231731687303715884105728,-170141183460469231731687303715884105728E-39"])
    data = file([("a", ("int8",), arrow.numbers("<b", [-128, 127])), ("b", ("uint64",), arrow.numbers("<Q", [0, (1 << 64) - 1])),
                 ("c", ("int64",), arrow.numbers("<q", [-(1 << 63), (1 << 63) - 1]))], 2)
    case("the least and the greatest whole numbers", "ends", data, "", "0", ["a,b,c", "-128,0,-9223372036854775808", "127,18446744073709551615,9223372036854775807"])
    data = file([("d", ("date32",), arrow.numbers("<i", [-1])), ("t", ("time64", "us"), arrow.numbers("<q", [5])), ("s", ("timestamp", "ns", "Europe/Zurich"), arrow.numbers("<q", [-6])),
                 ("u", ("duration", "s"), arrow.numbers("<q", [7])), ("y", ("interval", "year_month"), arrow.numbers("<i", [-8])),
                 ("i", ("interval", "day_time"), Column(1, 0, [b"", struct.pack("<ii", 9, -10)])),
                 ("m", ("interval", "month_day_nano"), Column(1, 0, [b"", struct.pack("<iiq", -11, 12, 13)])),
                 ("x", ("extension", "own", "m", ("date32",)), arrow.numbers("<i", [14]))], 1)
    case("dates, times, intervals, and an extension over a date", "times_shown", data, "", "0", ["d,t,s,u,y,i,m,x", "-1,5,-6,7,-8,9 -10,-11 12 13,14"])


def add_texts():
    data = file([('say "x"', ("utf8",), arrow.variable("<i", [b"one\ntwo", b'"', "é".encode()])), ("a,b", ("boolean",), Column(3, 1, [b"\5", b"\4"])),
                 ("two\nlines", ("binary",), arrow.variable("<i", [b"", b"\xab\xcd\xef", b"\0"]))], 3)
    case("names and texts that stand in quotes, truth values and bytes", "quoted", data, "", "0",
         ['"say ""x""","a,b","two', 'lines"', '"one', 'two",false,', '"""",,abcdef', 'é,true,00'])
    data = file([("n", ("null",), Column(2, 2, []))], 2)
    case("a column of nulls alone", "nulls_alone", data, "", "0", ["n", '""', '""'])
    data = file([("", ("int8",), arrow.numbers("<b", [1]))], 1)
    case("a column of no name", "no_name", data, "", "0", ['""', "1"])
    data = file_of([schemas.field("a", ("int32",)), schemas.field("b", ("utf8",))], [])
    case("no batch", "without_batch", data, "", "0", ["a,b"])


def add_dictionary():
    kind = ("dictionary", "int8", False, 7, ("decimal", 5, 1))
    header, body = arrow.batch_tables(2, [arrow.wide([15, -25])])
    values = arrow.message(2, Table(number(8, 7), header), len(body)), body
    data = file_of([schemas.field("d", kind)], [arrow.batch(3, [arrow.numbers("<b", [1, None, 0])])], [values])
    case("the decimals of a dictionary", "keyed_decimals", data, "", "0", ["d", "-2.5", '""', "1.5"])


def add_asked():
    batches = [arrow.batch(3, [arrow.numbers("<i", [1, 2, 3]), arrow.numbers("<i", [4, 5, 6])]), arrow.batch(2, [arrow.numbers("<i", [7, 8]), arrow.numbers("<i", [9, 10])])]
    data = file_of([schemas.field("a", ("int32",)), schemas.field("b", ("int32",))], batches)
    case("columns and rows that are asked for", "two_batches", data, "--columns 1,0 --limit 4", "0", ["b,a", "4,1", "5,2", "6,3", "9,7"])
    case("no rows", "two_batches", None, "--limit 0", "0", ["a,b"])
    case("no columns", "two_batches", None, "--columns ''", "0", [])
    case("a column that is none", "two_batches", None, "--columns 2", "5 refused 5 Projection", [])


def add_nested():
    item = schemas.field("item", ("int32",))
    outer = Column(1, 0, [b"", struct.pack("<ii", 0, 1)])
    fields = [schemas.field("a", ("int32",)), schemas.field("l", ("list", item))]
    data = file_of(fields, [arrow.batch(1, [arrow.numbers("<i", [1]), outer, arrow.numbers("<i", [2])])])
    case("a list is not printed", "lists_shown", data, "", "2 refused 2 Nested", [])
    case("a column beside a list is", "lists_shown", None, "--columns 0", "0", ["a", "1"])


def lines():
    yield "# Written by tests/model/write_csv.py: not to be changed by hand."
    yield "# Tables as text of comma-separated fields."
    yield from ["", "== the file of three columns", "file a three_file =>", "run csv a => 0", "text", "= a,b,c", "= 1,x,10", "= 2,yz,20"]
    for title, name, data, words, status, printed in CASES:
        yield from ["", f"== {title}"]
        if data is not None:
            yield bytes_lines(name, data)
        yield f"file a {name} =>"
        yield f"run csv{' ' + words if words else ''} a => {status}"
        if printed:
            yield "text"
            yield from (f"= {line}" for line in printed)
        else:
            yield "output => same"


def main():
    add_numbers()
    add_texts()
    add_dictionary()
    add_asked()
    add_nested()
    OUT.write_text("\n".join(lines()) + "\n")


if __name__ == "__main__":
    main()
