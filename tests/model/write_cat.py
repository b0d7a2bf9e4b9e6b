"""Writes crates/run_cases/data/cat.cases: small files of the same fields, or of others, with the stream that they are put into, of which the
messages stand here by hand."""
import arrow
import schemas
from arrow import Column
from case_lines import DATA, bytes_in, bytes_lines, sum_of
from layout import Table, number
from write_csv import file_of

OUT = DATA / "cat.cases"


def texts_under(id):
    return [schemas.field("d", ("dictionary", "int8", False, id, ("utf8",)))]


def values(id, texts, is_delta=False):
    """The message of texts under an id, or of those behind them."""
    header, body = arrow.batch_tables(len(texts), [arrow.variable("<i", texts)])
    return arrow.message(2, Table(number(8, id), header, number(1, is_delta)), len(body)), body


def keys(*held):
    return arrow.batch(len(held), [arrow.numbers("<b", held)])


def stream_of(fields, messages):
    return b"".join([arrow.message(1, schemas.schema_table(fields, {}), 0), *(part for message in messages for part in message), arrow.END])


CASES = []


def case(title, name, files, fields, messages):
    """Files, and what they are put into: the fields with the stream's ids, and the messages behind the schema's."""
    CASES.append((title, f"cat_{name}", files, stream_of(fields, messages), len(messages)))


X_Y, FIRST, SECOND = [b"x", b"y"], keys(0, 1), keys(1, None, 0)


def of_texts(id, texts, *batches):
    """A file of keys into texts, which stand in one message, or none do."""
    return file_of(texts_under(id), batches, [values(id, texts)] if texts is not None else [])


def add_dictionaries():
    first = of_texts(7, X_Y, FIRST)
    case("the same dictionary under another id", "same_values", [first, of_texts(2, X_Y, SECOND)], texts_under(0), [values(0, X_Y), FIRST, SECOND])
    case("a dictionary that goes on", "more_values", [first, of_texts(2, [*X_Y, b"z"], keys(2, 0))], texts_under(0), [values(0, X_Y), FIRST, values(0, [b"z"], True), keys(2, 0)])
    case("a dictionary of other values", "other_values", [first, of_texts(2, [b"y", b"x"], SECOND)], texts_under(0), [values(0, X_Y), FIRST, values(0, [b"y", b"x"]), SECOND])
    case("a dictionary of fewer values", "fewer_values", [first, of_texts(7, [b"x"], keys(0))], texts_under(0), [values(0, X_Y), FIRST, values(0, [b"x"]), keys(0)])
    case("a dictionary of which no batch has a key", "values_unused", [first, of_texts(7, [b"z"]), of_texts(7, X_Y, SECOND)], texts_under(0), [values(0, X_Y), FIRST, SECOND])
    none = keys(None, None)
    case("no dictionary behind one", "values_gone", [first, of_texts(7, None, none)], texts_under(0), [values(0, X_Y), FIRST, values(0, []), none])
    parts = file_of(texts_under(3), [keys(2, 1)], [values(3, X_Y), values(3, [b"z"], True)])
    case("a dictionary in two parts behind its first", "values_in_parts", [first, parts], texts_under(0), [values(0, X_Y), FIRST, values(0, [b"z"], True), keys(2, 1)])
    case("the first file's values in two parts", "values_in_parts_first", [parts, first], texts_under(0), [values(0, X_Y), values(0, [b"z"], True), keys(2, 1), values(0, X_Y), FIRST])


def structs_under(outer, inner):
    """Keys of structs of keys of texts."""
    return [schemas.field("o", ("dictionary", "int8", False, outer, ("struct", [schemas.field("d", ("dictionary", "int8", False, inner, ("utf8",)))])))]


def outer_values(id, *held):
    header, body = arrow.batch_tables(len(held), [Column(len(held), 0, [b""]), arrow.numbers("<b", held)])
    return arrow.message(2, Table(number(8, id), header), len(body)), body


def of_structs(outer, inner, texts, held, batch):
    return file_of(structs_under(outer, inner), [batch], [values(inner, texts), outer_values(outer, *held)])


def add_nested():
    first = of_structs(5, 9, X_Y, [1, 0], FIRST)
    case("dictionaries in dictionaries that are the same", "same_nested", [first, of_structs(1, 0, X_Y, [1, 0], SECOND)], structs_under(0, 1), [values(1, X_Y), outer_values(0, 1, 0), FIRST, SECOND])
    case("an inner dictionary of other values", "other_nested", [first, of_structs(5, 9, [b"z"], [0, 0], FIRST)], structs_under(0, 1),
         [values(1, X_Y), outer_values(0, 1, 0), FIRST, values(1, [b"z"]), outer_values(0, 0, 0), FIRST])


def unions(ids):
    """Sparse unions of integers and truth values, whose ids are stated or not."""
    return [schemas.field("u", ("union", "sparse", ids, [schemas.field("i", ("int32",)), schemas.field("b", ("boolean",))]))]


def union_rows(*types):
    return arrow.batch(len(types), [Column(len(types), 0, [bytes(types)]), arrow.numbers("<i", [7] * len(types)), arrow.booleans([True] * len(types))])


def add_unions():
    case("unions whose ids the first file states", "ids_stated", [file_of(unions([0, 1]), [union_rows(0, 1)]), file_of(unions(None), [union_rows(1)])], unions([0, 1]), [union_rows(0, 1), union_rows(1)])
    case("unions whose ids the second file states", "ids_unstated", [file_of(unions(None), [union_rows(1)]), file_of(unions([0, 1]), [union_rows(0, 1)])], unions(None), [union_rows(1), union_rows(0, 1)])


HEAD = """# Written by tests/model/write_cat.py: not to be changed by hand.
# Several files as one stream.

== files of one column
file a one_column =>
file b two_batches =>
run cat --raw a b => 0
sum => {one_and_two}
output schema one_null one_null_body no_null first_body four_rows second_body end_mark => same
run cat b a --raw => 0
output schema no_null first_body four_rows second_body one_null one_null_body end_mark => same
run cat a b => 0
output @schema @one_null @one_null_body @no_null @first_body @four_rows @second_body @end_mark 0a => same

== the same file twice
file a one_column =>
run cat --raw a a => 0
sum => {one_twice}
output schema one_null one_null_body one_null one_null_body end_mark => same

== one file
file a one_column =>
run cat --raw a => 0
output one_column_stream => same
run cat a => 0
output @one_column_stream 0a => same

== other fields
file a one_column =>
file b three_file =>
run cat a b => 7 refused 7 SchemaMismatch
output => same
run cat a a b => 7 refused 7 SchemaMismatch
output => same
run cat a b c => 17 refused 17 NoName
output => same

== files without a batch
file a no_batch =>
file b one_column =>
run cat --raw a a => 0
output no_batch_stream => same
run cat --raw a b a => 0
output one_column_stream => same

== pairs of the first file, and of each batch
file a pair_of_footer =>
file b pair_of_message =>
run cat --raw a b => 0
output schema_with_pair one_null one_null_body one_null_with_pair one_null_body end_mark => same
run cat --raw b a => 0
output schema one_null_with_pair one_null_body one_null one_null_body end_mark => same

== numbers in big-endian order behind others, and before them
file a one_column =>
file b magic schema one_null one_null_body end_mark big_endian =>
run cat --raw a b => 0
output schema one_null one_null_body one_null 05 00*63 000000010000000000000003 00*52 end_mark => same
run cat --raw b a => 0
output schema one_null 05 00*63 000000010000000000000003 00*52 one_null one_null_body end_mark => same

== the first files are told before those behind them, and metadata before batches
file a one_column =>
file b one_column cut=617 =>
file c three_file =>
file d magic schema compressed one_null_body end_mark block_of_compressed =>
run cat a b c => 1 refused 1 InvalidFooter
output => same
run cat a c b => 7 refused 7 SchemaMismatch
output => same
run cat d b => 1 refused 1 InvalidFooter
output => same
run cat d c => 7 refused 7 SchemaMismatch
output => same

== the kinds behind all metadata, and nothing was put
file a floats_file =>
file b floats_file cut=9 =>
file c one_column =>
run cat a a => 2 refused 2 Float
output => same
run cat a b => 1 refused 1 Truncated
output => same
run cat a c => 7 refused 7 SchemaMismatch
output => same

== a block that is refused, behind whole files
file a one_column =>
file b magic schema compressed one_null_body end_mark block_of_compressed =>
run cat --raw a b a => 2 refused 2 Compression
output schema one_null one_null_body => same
run cat b a => 2 refused 2 Compression
output @schema => same

== names
file a one_column =>
file - two_batches =>
file --raw one_column =>
run cat --raw - a => 0
output schema no_null first_body four_rows second_body one_null one_null_body end_mark => same
run cat --raw -- --raw => 0
output one_column_stream => same
run cat a b => 17 refused 17 NoName
output => same
run cat b a => 17 refused 17 NoName
output => same
run cat '' => 17 refused 17 NoName
output => same

== words that are no request
file a one_column =>
run cat => 14 refused 14 Words
run cat --raw => 14 refused 14 Words
run cat --raw a --raw => 14 refused 14 Words
run cat --limit 1 a => 14 refused 14 Words
run cat --columns 0 a => 14 refused 14 Words
output => same

== the input is not read
file a one_column =>
input '4G =>
fails input 1 =>
run cat --raw a => 0
output one_column_stream => same

== the shelf
file a one_column =>
file b two_batches =>
fails shelf 2 =>
run cat a b => 11 refused 11 ReadFault
output => same

== no room for the line feed, and for the second batch
file a one_column =>
room output 1408 =>
run cat a a => 12 refused 12 WriteFault
output @schema @one_null @one_null_body @one_null @one_null_body @end_mark => same
room output 1000 =>
run cat a a => 12 refused 12 WriteFault
output @schema @one_null @one_null_body @one_null @one_null_body @end_mark cut=1000 => same
"""


def sum_of_parts(*names):
    known = bytes_in("worked.cases")
    return sum_of(b"".join(known[name] for name in names))


def lines():
    one = ["one_null", "one_null_body"]
    one_and_two = sum_of_parts("schema", *one, "no_null", "first_body", "four_rows", "second_body", "end_mark")
    one_twice = sum_of_parts("schema", *one, *one, "end_mark")
    yield HEAD.format(one_and_two=one_and_two, one_twice=one_twice).rstrip("\n")
    held = {}
    for title, name, files, stream, count in CASES:
        yield from ["", f"== {title}"]
        words = []
        for letter, data in zip("abc", files):
            if data not in held:
                held[data] = f"{name}_{letter}"
                yield bytes_lines(held[data], data)
            yield f"file {letter} {held[data]} =>"
            words.append(letter)
        yield bytes_lines(f"{name}_stream", stream)
        yield f"run cat --raw {' '.join(words)} => 0"
        yield f"output {name}_stream => same"


def main():
    add_dictionaries()
    add_nested()
    add_unions()
    OUT.write_text("\n".join(lines()) + "\n")


if __name__ == "__main__":
    main()
