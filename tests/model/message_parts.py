"""The bytes that the cases of crates/run_cases/data/messages name, and whether the cases' files have these: `python3 message_parts.py FILE ..`.
Without a file it prints the lines `name NAME HEX` that a case begins with."""
import struct
import sys

import arrow
import schemas
from layout import Structs, Table, Value, lay, number

NUMBERS = schemas.schema_table([schemas.field("a", ("int32",))], {})
TEXTS = schemas.schema_table([schemas.field("a", ("dictionary", "int32", False, 0, ("utf8",)))], {})
INNER = ("dictionary", "int8", False, 1, ("utf8",))
OUTER = ("dictionary", "int32", False, 0, ("struct", [schemas.field("d", INNER)]))
NESTED = schemas.schema_table([schemas.field("o", OUTER)], {})
KINDS = {"a": "int32", "b": "utf8", "c": "int64"}
THREE = schemas.schema_table([schemas.field(name, (kind,), False) for name, kind in KINDS.items()], {})
PAIR = {"k": "v"}


def schema(table, pairs=None):
    return arrow.message(1, table, 0, pairs=pairs)


def batch(rows, *columns, pairs=None):
    return b"".join(arrow.batch(rows, columns, pairs=pairs))


def held(id, rows, column, is_delta=False):
    """A dictionary's message (Message.fbs, DictionaryBatch)."""
    values, body = arrow.batch_tables(rows, [column])
    return arrow.message(2, Table(number(8, id), values, number(1, is_delta)), len(body)) + body


def numbers(*values):
    return batch(len(values), arrow.numbers("<i", list(values)))


def texts(id, values, is_delta=False):
    return held(id, len(values), arrow.variable("<i", [bytes([value]) for value in values]), is_delta)


def keys(*values):
    return batch(len(values), arrow.numbers("<i", list(values)))


def structs(*inner_keys):
    """Structs of the id 0, by the keys of their column."""
    rows = len(inner_keys)
    values, body = arrow.batch_tables(rows, [arrow.Column(rows, 0, [b""]), arrow.numbers("b", list(inner_keys))])
    return arrow.message(2, Table(None, values, None), len(body)) + body


def footer(table, dictionaries, batches, pairs=None):
    """A footer with blocks of a place, the length of the metadata and that of the body, its length and the magic."""
    lists = [Structs([struct.pack("<qiiq", at, head, 0, body) for at, head, body in blocks]) for blocks in (dictionaries, batches)]
    own = arrow.pair_list(pairs) if pairs else None
    bytes_ = lay(Table(Value(2, 4), table, *lists, own))
    return bytes_ + struct.pack("<i", len(bytes_)) + b"ARROW1"


def older(message):
    """A message with a prefix of four bytes."""
    return message[4:]


ONE_NULL = numbers(1, None, 3)
STREAM = schema(NUMBERS) + ONE_NULL + arrow.END
COLUMNS = arrow.numbers("<i", [1, 2]), arrow.variable("<i", [b"x", b"yz"]), arrow.numbers("<q", [10, 20])
KEYED = schemas.schema_table([schemas.field("a", ("dictionary", "int8", False, 0, ("utf8",)))], {})
X_Y, MORE_Z, STRUCTS = (304, 192, 128), (624, 200, 128), (952, 200, 64)
BATCHES = [(1216, 152, 64), (1432, 152, 64)]

PARTS = {
    "MAGIC": arrow.MAGIC,
    "END": arrow.END,
    "SCHEMA": schema(NUMBERS),
    "SCHEMA_WITH_PAIR": schema(NUMBERS, PAIR),
    # The rows 1, null and 3, and the message's metadata and body alone.
    "ONE_NULL": ONE_NULL,
    "ONE_NULL_MESSAGE": ONE_NULL[8:152],
    "ONE_NULL_BODY": ONE_NULL[152:228],
    "ONE_NULL_WITH_PAIR": batch(3, arrow.numbers("<i", [1, None, 3]), pairs=PAIR),
    "THREE_ROWS": numbers(1, 2, 3),
    "FOUR_ROWS": numbers(4, 5, 6, 7),
    "FIVE": numbers(5),
    "NO_BLOCK": footer(NUMBERS, [], []),
    "ONE_BLOCK": footer(NUMBERS, [], [(144, 152, 128)]),
    "ONE_BLOCK_WITH_PAIR": footer(NUMBERS, [], [(144, 152, 128)], PAIR),
    "TWO_BLOCKS": footer(NUMBERS, [], [(144, 152, 64), (360, 152, 64)]),
    "BLOCKS_WITH_FIVE": footer(NUMBERS, [], [(144, 152, 128), (424, 152, 64)]),
    "BLOCKS_TWICE": footer(NUMBERS, [], [(144, 152, 128), (424, 152, 128)]),
    "OLDER_SCHEMA": older(schema(NUMBERS)),
    "OLDER_ONE_NULL": older(ONE_NULL),
    "OLDER_END": older(arrow.END),
    "OLDER_BLOCK": footer(NUMBERS, [], [(140, 148, 128)]),
    "OLDER_BLOCKS": footer(NUMBERS, [], [(140, 148, 128), (416, 152, 128)]),
    # The stream with a body of 2^62 bytes, and with a message of 2^31 - 1, as they are stated.
    "LONG_BODY": STREAM[:176] + struct.pack("<q", 1 << 62) + STREAM[184:],
    "LONG_METADATA": b"\xff\xff\xff\xff\xff\xff\xff\x7f" + STREAM[8:],
    # The columns a, b and c of 1, 2; "x", "yz"; 10, 20.
    "THREE_SCHEMA": schema(THREE),
    "THREE": batch(2, *COLUMNS),
    "THREE_BLOCK": footer(THREE, [], [(280, 264, 256)]),
    # The texts of the id 0 by keys of 32 bits, and batches of so many rows of the first key.
    "TEXTS": schema(TEXTS),
    "X": texts(0, b"x"),
    "Y": texts(0, b"y"),
    "MORE_Y": texts(0, b"y", True),
    "ONE_KEY": keys(0),
    "TWO_KEYS": keys(0, 0),
    "DICTIONARY_BLOCKS": footer(TEXTS, [(176, 184, 128), (704, 192, 128)], [(488, 152, 64), (1024, 152, 64)]),
    # Structs of a dictionary of texts: the texts have the id 1, the structs the id 0, with the inner keys 2 and 0.
    "NESTED": schema(NESTED),
    "INNER_X_Y": texts(1, b"xy"),
    "INNER_Q_R": texts(1, b"qr"),
    "INNER_MORE_Z": texts(1, b"z", True),
    "OUTER": structs(2, 0),
    "KEYS_0_1": keys(0, 1),
    "KEYS_1_0_1": keys(1, 0, 1),
    # Behind the schema and these in order; the delta first; the structs first.
    "NESTED_BLOCKS": footer(NESTED, [X_Y, MORE_Z, STRUCTS], BATCHES),
    "NESTED_DELTA_FIRST": footer(NESTED, [MORE_Z, X_Y, STRUCTS], BATCHES),
    "NESTED_OUTER_FIRST": footer(NESTED, [STRUCTS, X_Y, MORE_Z], BATCHES),
    # Without the delta, with the inner keys 0 and 1.
    "OUTER_0_1": structs(0, 1),
    "KEYS_1_0": keys(1, 0),
    "INNER_FIRST": footer(NESTED, [X_Y, (624, 200, 64)], [(888, 152, 64)]),
    "OUTER_FIRST": footer(NESTED, [(624, 200, 64), X_Y], [(888, 152, 64)]),
    # Texts by keys of 8 bits, without a dictionary.
    "KEYED": schema(KEYED),
    "TWO_NULLS": batch(2, arrow.numbers("b", [None, None])),
    "KEY_AND_NULL": batch(2, arrow.numbers("b", [0, None])),
    "KEYED_BLOCK": footer(KEYED, [], [(8 + len(schema(KEYED)), 152, 128)]),
}


def check(file):
    """Whether each name of a file stands before the bytes of the part."""
    wrong = 0
    for at, line in enumerate(open(file), 1):
        words = line.split()
        if len(words) < 3 or words[0] != "name":
            continue
        part = PARTS.get(words[1])
        if part is not None and words[2] == part.hex() or part is None and words[2] in PARTS:
            continue
        print(f"{file}:{at}: {words[1]} has other bytes")
        wrong += 1
    return wrong


if __name__ == "__main__":
    if sys.argv[1:]:
        sys.exit(sum(map(check, sys.argv[1:])) > 0)
    for name, part in PARTS.items():
        print(f"name {name} {part.hex()} => {len(part)} bytes")
