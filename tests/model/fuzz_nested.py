"""Random files of columns with children, in either byte order and of metadata versions V4 and V5, with pairs, and their streams, as cases
for `rt try --cases FOLDER -- stream WORDS`: python3 fuzz_nested.py FOLDER COUNT SEED [--unions] WORDS, where WORDS may be
`--columns LIST` and `--limit N`."""
import argparse
import struct
from collections import namedtuple

import arrow
import cells
import schemas
from fuzz import held_tables, write_cases
from fuzz_fields import random_heading, random_pairs
from layout import Structs, Table, Value, lay
from nested import random_array, random_kind
from reading import Contents

# a file, its stream, and what the file says
Case = namedtuple("Case", "file stream contents")


def held_batch(r, rows, columns, version, pairs):
    header, body = held_tables(r, rows, columns)
    return arrow.message(3, header, len(body), version, pairs), body


def file_of(heading, batches, dictionaries=()):
    """The dictionary messages stand before the batches, and both in the footer in this order."""
    order, version, fields, pairs, own, front = heading
    table = schemas.schema_table(fields, pairs, order)
    parts = [arrow.MAGIC, arrow.message(1, table, 0, version, front)]
    lists = []
    for messages in (dictionaries, batches):
        blocks = []
        for head, body in messages:
            blocks.append(struct.pack("<qiiq", sum(map(len, parts)), len(head), 0, len(body)))
            parts += [head, body]
        lists.append(Structs(blocks))
    footer = lay(Table(Value(2, version), table, *lists, arrow.pair_list(own)))
    return b"".join(parts + [arrow.END, footer + struct.pack("<i", len(footer)) + b"ARROW1"])


class Batches:
    """Random batches of columns of some kinds, as a file has them, and what they say."""

    def __init__(self, r, kinds, order, version):
        self.r, self.kinds, self.order, self.version = r, kinds, order, version
        self.held, self.arrays, self.said = [], [], []

    def add(self, messages):
        """A batch more, under the dictionaries of some messages."""
        r, rows, pairs = self.r, self.r.choice([0, 1, 2, 3, 9]), random_pairs(self.r)
        arrays = [random_array(r, kind, rows) for kind in self.kinds]
        held = [column for array in arrays for column in array.held(r, self.order, self.version)]
        self.held.append(held_batch(r, rows, held, self.version, pairs))
        self.arrays.append(arrays)
        self.said.append(cells.batch_of(rows, pairs, arrays, messages))

    def sent(self, chosen, rows):
        """The messages of some columns and rows of each batch, or of none of it."""
        parts = []
        for arrays, said, of in zip(self.arrays, self.said, rows):
            if of is not None:
                columns = [c for i in chosen for c in arrays[i].taken(of.read, of.sent).written(True)]
                parts += arrow.batch(len(of.sent), columns, pairs=said.pairs or None)
        return parts


def asked_columns(asked):
    return None if asked.columns is None else [int(n) for n in asked.columns.split(",") if n]


def made(r, asked, kinds, heading, messages, held_messages, sent_dictionaries):
    """The case of a file of these kinds and messages, of which the messages before the stream's first batch are given. What is asked tells
    the rows of each batch by a call of its own, or up to a limit."""
    columns = asked_columns(asked)
    chosen = range(len(kinds)) if columns is None else columns
    batches = Batches(r, kinds, heading.order, heading.version)
    for _ in range(r.choice([0, 1, 1, 2, 3])):
        batches.add(messages)
    contents = Contents(heading.order, heading.fields, heading.pairs, heading.own or {}, batches.said)
    rows = asked.rows(contents) if "rows" in asked else cells.rows_up_to(contents, asked.limit)
    sent = cells.kept(contents, columns, rows)
    head = arrow.message(1, schemas.schema_table(sent.fields, sent.pairs), 0, pairs=sent.own or None)
    stream = [head, *(sent_dictionaries(chosen) if sent.batches else []), *batches.sent(chosen, rows), arrow.END]
    return Case(file_of(heading, batches.held, held_messages), b"".join(stream), contents)


def random_order(r):
    """A byte order and a version."""
    return r.choice(["little", "little", "big"]), r.choice([4, 4, 3])


def order_of(r, kinds):
    """A byte order of some kinds, which is little-endian where a view is among them."""
    return r.choice(["little", "little", "big"]) if "view" not in repr(kinds) else "little"


def case(r, asked):
    order, version = random_order(r)
    count = max(asked_columns(asked) or [0]) + 1 + r.choice([0, 0, 1, 2])
    kinds = [random_kind(r, getattr(asked, "levels", 3), asked.unions, order == "little") for _ in range(count)]
    heading = random_heading(r, kinds, order, version)
    return made(r, asked, kinds, heading, [], [], lambda chosen: [])


def main(case):
    words = argparse.ArgumentParser()
    words.add_argument("folder")
    words.add_argument("count", type=int)
    words.add_argument("seed", type=int)
    words.add_argument("--unions", action="store_true")
    words.add_argument("--columns")
    words.add_argument("--limit", type=int)
    asked = words.parse_args()
    write_cases(asked.folder, asked.count, asked.seed, lambda r: case(r, asked))


if __name__ == "__main__":
    main(case)
