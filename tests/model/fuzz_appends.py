"""Random files, and streams of the same fields to be appended to them, whose dictionaries have ids of their own: with the values of the
file's, in other parts too, with more behind them, which have to be written as deltas, or with others, which are refused."""
from collections import namedtuple

import arrow
import fuzz_nested
import schemas
from cells import Message, batch_of, cells_of, parts_of
from fuzz_dictionaries import Sending, dictionaries_in, held_message, random_kinds, random_messages, with_children
from fuzz_fields import random_heading, random_pairs
from fuzz_nested import file_of, held_batch
from nested import Array, children_of, part_of, random_array
from reading import Contents

# a file, how many messages it has beside the schema, a stream, the status of appending it, what the file says behind that, how many batches
# it has got then, and such a file of the model's
Case = namedtuple("Case", "file begun stream status contents added whole")

SAME_FIELDS, OTHER_FIELDS, OTHER_VALUES = 0, 7, 8


# ── arrays under other ids ──


def renamed(kind, ids):
    if kind[0] == "dictionary":
        return (*kind[:3], ids[kind[3]], renamed(kind[4], ids))
    return with_children(kind, [renamed(child, ids) for child in children_of(kind)])


def renamed_array(array, ids):
    parts = dict(array.parts, children=[renamed_array(child, ids) for child in array.children])
    return Array(renamed(array.kind, ids), array.rows, array.flags, **parts)


# ── what is written of dictionaries behind a file's ──


class Replaced(Exception):
    """Other values under an id of the file."""


class Held(Sending):
    """The cells that stand under the file's ids, and the messages that are written behind its own."""

    def __init__(self, messages):
        super().__init__()
        self.parts = {message.id: [cells_of(*part) for part in parts_of(messages, message.id)] for message in messages}

    def begun(self, id, kind, parts):
        count = super().begun(id, kind, parts)
        if count is None and id in self.parts:
            raise Replaced
        return count


# ── streams ──

# what a batch says, the messages before it, and its message and body as a little-endian file has them
Sent = namedtuple("Sent", "said behind held")


class Stream:
    """The messages of a stream, and what each batch says, under the dictionaries that were read by then."""

    def __init__(self, r, kinds, order, version):
        self.r, self.kinds, self.order, self.version = r, kinds, order, version
        self.messages, self.parts, self.batches, self.is_replaced = [], [], [], False

    def say(self, id, is_delta, values):
        cells = self.r.cells
        cells[id] = (cells.get(id, 0) if is_delta else 0) + values.rows
        self.messages.append(Message(id, is_delta, values))
        self.parts += held_message(self.r, self.messages[-1], self.order, self.version)

    def say_again(self, message, id, ids):
        """The values of a file's message, in one part or in two."""
        values = renamed_array(message.values, ids)
        first = self.r.choice([values.rows, values.rows, self.r.randint(0, values.rows)])
        is_delta = message.is_delta and any(m.id == id for m in self.messages)
        self.say(id, is_delta, part_of(values, 0, first))
        if first < values.rows:
            self.say(id, True, part_of(values, first, values.rows - first))

    def add(self):
        r, rows, pairs = self.r, self.r.choice([0, 1, 2, 3, 9]), random_pairs(self.r)
        arrays = [random_array(r, kind, rows) for kind in self.kinds]
        self.parts += self.held(rows, arrays, self.order, pairs)
        said, held = batch_of(rows, pairs, arrays, self.messages), self.held(rows, arrays, "little", pairs)
        self.batches.append(Sent(said, list(self.messages), held))

    def held(self, rows, arrays, order, pairs):
        columns = [column for array in arrays for column in array.held(self.r, order, self.version)]
        return held_batch(self.r, rows, columns, self.version, pairs)

    def bytes(self, fields):
        table = schemas.schema_table(fields, random_pairs(self.r) or {}, self.order)
        head = arrow.message(1, table, 0, self.version, random_pairs(self.r))
        return b"".join([head, *self.parts, arrow.END])


def ids_below(kind):
    return [id for d in dictionaries_in(kind) for id in [d[3], *ids_below(d[4])]]


def others_in(r, taken):
    """The ids under which the stream has other values, with those in whose values they stand. Mostly none."""
    others = {id for id in taken if r.random() < 0.4} if r.random() < 0.4 else set()
    return {id for id in taken if id in others or others & set(ids_below(taken[id]))}


def say_values(stream, messages, taken, ids):
    """The dictionaries of a file once more under other ids, but for some that are others."""
    r = stream.r
    others = others_in(r, taken)
    for message in messages:
        if message.id not in others:
            stream.say_again(message, ids[message.id], ids)
    for id in taken:
        if id in others:
            stream.say(ids[id], False, random_array(r, renamed(taken[id], ids), r.choice([0, 1, 2, 5])))


def say_more(stream, taken, ids):
    """Deltas of some dictionaries, inner ones first, the same values of others in their place, and seldom other ones."""
    for id in taken:
        name, kind, chance = ids[id], renamed(taken[id], ids), stream.r.random()
        if chance < 0.35:
            stream.say(name, True, random_array(stream.r, kind, stream.r.choice([0, 1, 2])))
        elif chance < 0.45 and not stream.is_replaced:
            for i, (part, _) in enumerate(parts_of(stream.messages, name)):
                stream.say(name, i > 0, part)
        elif chance > 0.97:
            stream.say(name, False, random_array(stream.r, kind, stream.r.choice([0, 1, 2])))
            stream.is_replaced = True


def random_ids(r, taken):
    """For each id another one or the same."""
    names = r.sample(sorted({*taken, *range(5), -2, 2**33}), len(taken)) if r.random() < 0.6 else list(taken)
    return dict(zip(taken, names))


def random_stream(r, kinds, taken, messages, version):
    """A stream of a file's kinds, under ids of its own or the same."""
    ids = random_ids(r, taken)
    stream = Stream(r, [renamed(kind, ids) for kind in kinds], fuzz_nested.order_of(r, kinds), version)
    r.cells = dict.fromkeys(ids.values(), 0)
    say_values(stream, messages, taken, ids)
    for _ in range(r.choice([0, 1, 1, 2])):
        say_more(stream, taken, ids)
        stream.add()
    return stream, ids


def other_fields(r, fields):
    """The fields of a file, but for one."""
    (name, kind, nullable, pairs), *more = fields
    changed = r.choice([(name + "2", kind, nullable, pairs), (name, kind, not nullable, pairs), (name, kind, nullable, {**pairs, "k3": ""})])
    return [changed, *more]


# ── cases ──


def random_file(r, version):
    """What a file has, as Heading, kinds, the kinds of its dictionaries' values, their messages, and its batches."""
    kinds, taken = random_kinds(r, r.choice([1, 2, 3]), True, "little", False)
    heading, messages = random_heading(r, kinds, "little", version), random_messages(r, taken)
    batches = fuzz_nested.Batches(r, kinds, "little", version)
    for _ in range(r.choice([1, 1, 2])):
        batches.add(messages)
    return heading, kinds, taken, messages, batches


def outcome(stream, heading, kinds, messages, given):
    """The status, and what is written of dictionaries."""
    held = Held(messages)
    if given != heading.fields:
        return OTHER_FIELDS, held
    try:
        for batch in stream.batches:
            for own, filed in zip(stream.kinds, kinds):
                held.take(batch.behind, own, filed)
    except Replaced:
        return OTHER_VALUES, held
    return SAME_FIELDS, held


def case(r):
    version = r.choice([4, 4, 3])
    heading, kinds, taken, messages, batches = random_file(r, version)
    stream, ids = random_stream(r, kinds, taken, messages, r.choice([version, 4]))
    given = other_fields(r, heading.fields) if r.random() < 0.1 else heading.fields
    status, held = outcome(stream, heading, kinds, messages, given)
    dictionaries = [held_message(r, message, "little", version) for message in messages]
    more = [held_message(r, message, "little", version) for message in held.messages]
    said = [*batches.said, *[batch.said for batch in stream.batches]]
    contents = Contents("little", heading.fields, heading.pairs, heading.own or {}, said)
    whole = file_of(heading, [*batches.held, *[batch.held for batch in stream.batches]], [*dictionaries, *more])
    sent = stream.bytes([schemas.numbered_field(field, ids.get) for field in given])
    begun = len(dictionaries) + len(batches.held)
    return Case(file_of(heading, batches.held, dictionaries), begun, sent, status, contents, len(stream.batches), whole)
