"""Random files of the same fields, and the stream that they are put into. Their dictionaries have ids of each file's own, and values that are
those of the file before: the same, in the same parts or in others, the first of them, more, or others behind some of them or in the place
of all; also in the values of other dictionaries."""
from argparse import Namespace
from collections import Counter, namedtuple
from itertools import accumulate

import arrow
import cells
import fuzz_nested
import schemas
from cells import Message
from fuzz_appends import other_fields, random_ids, renamed, renamed_array
from fuzz_dictionaries import Sending, dictionaries_in, held_message, random_kinds
from fuzz_fields import Fields, Heading, random_pairs
from nested import part_of, random_array
from reading import Contents, messages_from

# a file, its stream without dictionaries and what it says, the messages of its dictionaries, and the kinds of its columns
File = namedtuple("File", "made messages kinds")
# files, whether one is of other fields, the stream that they are put into, what it says, and how its dictionaries stood to those before
Case = namedtuple("Case", "files is_refused stream contents seen")

ALL = Namespace(unions=True, columns=None, limit=None)


# ── parts of dictionaries ──


def cut(r, array, count):
    """So many rows of an array in parts: the first ones, of which others may stand in the last part. No part, or an empty one, has no rows."""
    if count == 0 and r.random() < 0.5:
        return []
    places = [0, *sorted(r.choices(range(count + 1), k=r.choice([0, 0, 1, 1, 2]))), count]
    parts = [part_of(array, begin, end - begin) for begin, end in zip(places, places[1:])]
    if r.random() < 0.15:
        rows = parts[-1].rows
        parts[-1] = part_of(array, r.randint(0, array.rows - rows), rows)
    return [part.taken(part.rows, range(part.rows)) if r.random() < 0.5 else part for part in parts]


def needs(array):
    """How many cells of each dictionary the keys in an array need."""
    found = Counter()
    if array.kind[0] == "dictionary":
        valid = [row for row in range(array.rows) if array.flags is None or array.flags[row]]
        keys = [cells.numbers(array.kind, row, array.parts["data"], array.parts["width"]) for row in valid]
        found[array.kind[3]] = max(keys, default=-1) + 1
    for child in array.children:
        found |= needs(child)
    return found


def messages_of(r, parts):
    """Messages of the parts of dictionaries, in an order in which each finds the cells that its keys need."""
    messages, read, left = [], Counter(), {id: list(of) for id, of in parts.items()}
    while any(left.values()):
        id = r.choice([id for id, of in left.items() if of and needs(of[0]) <= read])
        part = left[id].pop(0)
        messages.append(Message(id, any(m.id == id for m in messages) or r.random() < 0.1, part))
        read[id] += part.rows
    return messages


# ── files ──


class Family:
    """Files of the same fields. Of each dictionary there are some values, of which a file has so many."""

    def __init__(self, r):
        self.r = r
        self.kinds, self.taken = random_kinds(r, r.choice([0, 1, 2, 2, 3]), True, r.choice(["little", "big"]), r.choice([True, False]))
        self.fields = Fields(r).top(self.kinds)
        self.rows = {id: r.choice([0, 1, 3, 5, 9]) for id in self.taken}
        self.counts, self.values = {id: r.randint(0, rows) for id, rows in self.rows.items()}, {}
        for id in self.taken:
            self.renew(id)

    def renew(self, id):
        self.r.cells = self.rows
        self.values[id] = random_array(self.r, self.taken[id], self.rows[id])

    def parts(self):
        """The parts of each dictionary of a file. The numbers of cells are known of outer dictionaries before inner ones."""
        r, parts, needed = self.r, {}, Counter()
        for id in reversed(self.taken):
            before, rows = self.counts[id], self.rows[id]
            self.counts[id] = max(needed[id], r.choice([before, before, rows, r.randint(0, rows), r.randint(before, rows)]))
            parts[id] = cut(r, self.values[id], self.counts[id])
            for part in parts[id]:
                needed |= needs(part)
        return parts

    def file(self, fields):
        r, ids = self.r, random_ids(self.r, self.taken)
        for id in self.taken:
            if r.random() < 0.1:
                self.renew(id)
        messages = [Message(ids[m.id], m.is_delta, renamed_array(m.values, ids)) for m in messages_of(r, self.parts())]
        r.cells = {ids[id]: count for id, count in self.counts.items()}
        order, version, fields = fuzz_nested.order_of(r, self.kinds), r.choice([4, 4, 3]), [schemas.numbered_field(f, ids.get) for f in fields]
        heading = Heading(order, version, fields, random_pairs(r) or {}, random_pairs(r), random_pairs(r))
        held, kinds = [held_message(r, message, order, version) for message in messages], [renamed(kind, ids) for kind in self.kinds]
        return File(fuzz_nested.made(r, ALL, kinds, heading, messages, held, lambda chosen: []), messages, kinds)


def plain(fields):
    """Fields, ids of dictionaries aside."""
    return [cells.plain(field) for field in schemas.numbered(fields)]


def other_file(r, family):
    """A file of other fields."""
    if family.fields and r.random() < 0.5:
        return family.file(other_fields(r, family.fields))
    other = Family(r)
    return other.file(other.fields) if plain(other.fields) != plain(family.fields) else other_file(r, family)


# ── the stream ──


def standing(held, parts):
    """How the cells of parts stand to those of parts that are held."""
    old, new = sum(held, []), sum(parts, [])
    if old == new:
        return "the same" if [len(p) for p in held if p] == [len(p) for p in parts if p] else "in other parts"
    if new[:len(old)] == old:
        return "more" if len(old) in [0, *accumulate(map(len, parts))] else "more in a part"
    return "fewer" if old[:len(new)] == new else "others"


class Joining(Sending):
    """Counts how the dictionaries of a file stand to those that were sent."""

    def __init__(self):
        super().__init__()
        self.seen = Counter()

    def begun(self, id, kind, parts):
        if id in self.parts:
            found = standing(self.parts[id], parts)
            self.seen.update([found, f"{found} over others"] if dictionaries_in(kind) else [found])
        return super().begun(id, kind, parts)


def joined(files):
    """The stream that files are put into, and how its dictionaries stood to those before."""
    joining, parts = Joining(), []
    for file in files:
        messages, end = messages_from(file.made.stream, 0)
        front = messages[0].front
        parts += [] if parts else [file.made.stream[:front]]
        if file.made.contents.batches:
            parts += joining.send(file.messages, file.kinds)
        parts.append(file.made.stream[front:end])
    return b"".join([*parts, arrow.END]), joining.seen


def contents_of(files):
    said = [cells.cut(file.made.contents, None, None) for file in files]
    return Contents("little", said[0].fields, said[0].pairs, said[0].own, [batch for each in said for batch in each.batches])


def case(r):
    family = Family(r)
    files = [family.file(family.fields) for _ in range(r.choice([1, 2, 3, 4, 5]))]
    if r.random() < 0.2:
        files.insert(r.randint(0, len(files)), r.choice(files))
    stream, seen = joined(files)
    contents, is_refused = contents_of(files), r.random() < 0.2
    if is_refused:
        files.insert(r.randint(1, len(files)), other_file(r, family))
    return Case([file.made.file for file in files], is_refused, stream, contents, seen)
