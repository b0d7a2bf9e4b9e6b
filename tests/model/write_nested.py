"""Writes crates/run_cases/data/nested.cases: for each kind inside each kind with children, and inside dictionaries and extensions, a file
of one column of it and the stream that means the same. What the file and the stream say, as the reader here tells it, is the same too."""
import random

import arrow
import schemas
from case_lines import DATA, bytes_lines
from fuzz_dictionaries import Sending, held_message, random_messages
from fuzz_fields import Heading
from fuzz_nested import file_of, held_batch
from nested import random_array
from reading import message_at, read_file, read_stream

OUT = DATA / "nested.cases"
ROWS = 3

INNER = {
    "nulls": ("null",),
    "truth values": ("boolean",),
    "numbers": ("int32",),
    "decimals": ("decimal", 38, 10),
    "intervals": ("interval", "month_day_nano"),
    "byte strings of one size": ("fixed", 3),
    "texts": ("utf8",),
    "long byte strings": ("large_binary",),
    "views": ("utf8_view",),
    "lists": ("list", ("int8",)),
    "long lists": ("large_list", ("int8",)),
    "lists of one size": ("fixed_list", 2, ("int8",)),
    "maps": ("map", ("int8",), ("int16",)),
    "structs": ("struct", ("int8",), ("utf8",)),
    "sparse unions": ("union", "sparse", (5, 7), ("int8",), ("int16",)),
    "dense unions": ("union", "dense", None, ("int8",), ("int16",)),
    "dictionaries": ("dictionary", "int8", False, 4, ("utf8",)),
    "extensions": ("extension", "own", "more", ("int8",)),
}
OUTER = {
    "lists": lambda kind: ("list", kind),
    "long lists": lambda kind: ("large_list", kind),
    "lists of one size": lambda kind: ("fixed_list", 2, kind),
    "maps": lambda kind: ("map", ("utf8",), kind),
    "structs": lambda kind: ("struct", kind, ("int8",)),
    "sparse unions": lambda kind: ("union", "sparse", None, kind, ("boolean",)),
    "dense unions": lambda kind: ("union", "dense", (3, 1), kind, ("boolean",)),
    "dictionaries": lambda kind: ("dictionary", "int16", False, 9, kind),
    "extensions": lambda kind: ("extension", "own", None, kind),
}


def is_kind(kind):
    """No dictionary stands right in a dictionary or in an extension."""
    return kind[0] not in ("dictionary", "extension") or kind[-1][0] != "dictionary"


def field_kind(kind):
    """The kind as schemas.py has it."""
    name = kind[0]

    def field(at, child):
        return schemas.field(at, field_kind(child))

    if name in ("list", "large_list"):
        return name, field("item", kind[1])
    if name == "fixed_list":
        return name, kind[1], field("item", kind[2])
    if name == "map":
        entry = ("struct", [schemas.field("key", field_kind(kind[1]), False), field("value", kind[2])])
        return name, False, schemas.field("entries", entry, False)
    if name == "struct":
        return name, [field(f"f{i}", child) for i, child in enumerate(kind[1:])]
    if name == "union":
        ids = None if kind[2] is None else list(kind[2])
        return name, kind[1], ids, [field(f"u{i}", child) for i, child in enumerate(kind[3:])]
    if name in ("dictionary", "extension"):
        return (*kind[:-1], field_kind(kind[-1]))
    return kind


def taken_in(kind):
    """The kinds of the values of the dictionaries in a kind by their ids, inner ones first."""
    if kind[0] == "dictionary":
        return {**taken_in(kind[4]), kind[3]: kind[4]}
    below = kind[3:] if kind[0] in ("union", "extension") else kind[1:]
    return {id: values for child in below if isinstance(child, tuple) for id, values in taken_in(child).items()}


def made(kind, seed, order, version):
    """A file of a column of a kind, and its stream."""
    r = random.Random(seed)
    field = schemas.field("c", field_kind(kind))
    messages = random_messages(r, taken_in(kind))
    array = random_array(r, kind, ROWS)
    held = [held_message(r, message, order, version)[:2] for message in messages]
    batch = held_batch(r, ROWS, array.held(r, order, version), version, None)
    file = file_of(Heading(order, version, [field], {}, None, None), [batch], held)
    sent = arrow.batch(ROWS, array.sent(ROWS, 0, ROWS, True))
    table = schemas.schema_table(schemas.numbered([field]), {})
    stream = [arrow.message(1, table, 0), *Sending().send(messages, [kind]), *sent, arrow.END]
    return file, b"".join(stream)


def is_telling(file):
    """Whether a row has something in it."""
    return any(cell is not None for cell in read_file(file).batches[0].columns[0])


def case(kind, number):
    """Of some random files that tell something, where there are any, one that is short."""
    order = "big" if number % 3 == 1 and "view" not in str(kind) else "little"
    version = 3 if number % 4 == 2 else 4
    found = [made(kind, 1000 * number + i, order, version) for i in range(12)]
    return min([pair for pair in found if is_telling(pair[0])] or found, key=lambda pair: len(pair[0]))


def case_lines(file, stream):
    """The bytes of both, of which the schema's message stands once where it is the same."""
    front, schema = len(arrow.MAGIC), message_at(stream, 0).front
    if file[front:front + schema] != stream[:schema]:
        return [bytes_lines("nested_file", file), bytes_lines("nested_stream", stream)]
    return [bytes_lines("nested_schema", stream[:schema]), bytes_lines("nested_file magic nested_schema", file[front + schema:]),
            bytes_lines("nested_stream nested_schema", stream[schema:])]


def main():
    lines = ["# Written by tests/model/write_nested.py: not to be changed by hand.",
             "# Each kind inside each kind: files in either byte order and of either version, and the streams that mean the same.", ""]
    number = 0
    for outer, around in OUTER.items():
        for inner, kind in INNER.items():
            kind = around(kind)
            if not is_kind(kind):
                continue
            file, stream = case(kind, number)
            assert read_file(file).batches == read_stream(stream).batches, (outer, inner)
            lines += [f"== {inner} in {outer}", *case_lines(file, stream),
                      f"transcode nested_file => 1 batches, {ROWS} rows, {len(stream)} bytes", "output nested_stream => same", ""]
            number += 1
    OUT.write_text("\n".join(lines))
    print(number, "kinds in kinds", len("\n".join(lines)), "bytes")


if __name__ == "__main__":
    main()
