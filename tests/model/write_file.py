"""Writes crates/run_cases/data/file.cases: small streams with the file that each becomes, of which the messages stand here by hand."""
import arrow
import schemas
from case_lines import DATA, bytes_lines
from layout import Table, number
from write_csv import file_of

OUT = DATA / "file.cases"


def texts_under(id):
    return [schemas.field("d", ("dictionary", "int8", False, id, ("utf8",)))]


def values(id, texts, is_delta=False):
    """The message of texts under an id, or of those behind them."""
    header, body = arrow.batch_tables(len(texts), [arrow.variable("<i", texts)])
    return arrow.message(2, Table(number(8, id), header, number(1, is_delta)), len(body)), body


def keys(*held):
    return arrow.batch(len(held), [arrow.numbers("<b", held)])


def stream_of(fields, messages):
    return b"".join([arrow.message(1, schemas.schema_table(fields, {}), 0), *(part for message in messages for part in message), arrow.END])


CASES = []


def case(title, name, stream, file):
    """A stream, and the file that it becomes, or the status and the name of its refusal."""
    CASES.append((title, f"made_{name}", stream, file))


X_Y = [b"x", b"y"]


def add_dictionaries():
    replaced = [values(7, X_Y), keys(1, 0), values(7, [b"z"]), keys(0), values(7, [b"y", b"z"]), keys(0, 1)]
    parts = [values(0, X_Y), values(0, [b"z"], True)]
    case("a dictionary that is replaced, and again", "of_replaced", stream_of(texts_under(7), replaced), file_of(texts_under(0), [keys(1, 0), keys(2), keys(1, 2)], parts))
    longer = [values(7, X_Y), keys(1, 0), values(7, [b"z"], True), keys(2)]
    case("a dictionary that goes on", "of_longer", stream_of(texts_under(7), longer), file_of(texts_under(0), [keys(1, 0), keys(2)], parts))
    fewer = [values(7, X_Y), keys(1, None), values(7, [b"y"]), keys(0)]
    case("a dictionary of fewer values, and a null", "of_fewer", stream_of(texts_under(7), fewer), file_of(texts_under(0), [keys(1, None), keys(1)], [values(0, X_Y)]))
    none = [keys(None, None)]
    case("no dictionary", "of_none", stream_of(texts_under(7), none), file_of(texts_under(0), none, [values(0, [])]))


def add_large_keys():
    many = [b"%d" % n for n in range(128)]
    most = [values(7, many[:127]), keys(126), values(7, [b"x"]), keys(0)]
    case("as many texts as keys of 8 bits have numbers", "of_most", stream_of(texts_under(7), most),
         file_of(texts_under(0), [keys(126), keys(127)], [values(0, many[:127]), values(0, [b"x"], True)]))
    large = [values(7, many), keys(127), values(7, [b"x"]), keys(0)]
    case("a text more", "of_large", stream_of(texts_under(7), large), "9 refused 9 NotRepresentable")


def add_kinds():
    floats = [schemas.field("f", ("float64",))]
    case("a column of a kind that is never read, and no batch", "of_floats", stream_of(floats, []), "2 refused 2 Float")


HEAD = """# Written by tests/model/write_file.py: not to be changed by hand.
# Streams as files.

== a stream of one batch
input @one_column_stream =>
run file => 0
output @one_column 0a => same
run file --raw => 0
output one_column => same
file a one_column_stream =>
run file --raw a => 0
output one_column => same
run file b => 17 refused 17 NoName
output => same

== two batches, and none
file a two_batches_stream =>
run file --raw a => 0
output two_batches => same
file a no_batch_stream =>
run file --raw a => 0
output no_batch => same

== a stream without an end mark
file a schema one_null one_null_body =>
run file --raw a => 0
output one_column => same

== streams that are not as the format says
file a end_mark =>
run file a => 1 refused 1 {missing}
output => same
file a schema one_null =>
run file a => 1 refused 1 {short}
output => same

== words
run file a b => 14 refused 14 Words
run file --limit 1 a => 14 refused 14 Words"""


def lines():
    out = [HEAD.format(missing="MissingSchema", short="Truncated")]
    for title, name, stream, file in CASES:
        out += ["", f"== {title}", bytes_lines(f"{name}_stream", stream), f"file a {name}_stream =>"]
        if isinstance(file, str):
            out += [f"run file --raw a => {file}", "output => same"]
        else:
            out += ["run file --raw a => 0", bytes_lines(f"{name}_file", file), f"output {name}_file => same"]
    return out


def main():
    add_dictionaries()
    add_large_keys()
    add_kinds()
    OUT.write_text("\n".join(lines()) + "\n")


if __name__ == "__main__":
    main()
