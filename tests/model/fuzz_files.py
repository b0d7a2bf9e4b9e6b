"""Random streams whose dictionaries are said anew, go on, or are replaced between their batches, also where two columns share an id, with what
they say, and the parts that a file of them has of each dictionary, by its number in the schema's preorder."""
from collections import namedtuple

import arrow
import fuzz_appends
import fuzz_nested
import schemas
from cells import cells_of, parts_of
from fuzz_dictionaries import count_of, dictionaries_in, random_kinds
from fuzz_fields import random_heading
from nested import part_of, random_array
from reading import Contents

# a stream, what it says as a file, and the cells of the parts of each dictionary of the file, in order
Case = namedtuple("Case", "stream contents parts")

SMALLEST = 127


def may_be_large(case):
    """Whether a dictionary has more values than keys of any type can tell."""
    return any(sum(map(len, parts)) > SMALLEST + 1 for parts in case.parts)


# ── one list for each dictionary ──


def fit(taken, values):
    """The least place of a list from which on it and some values agree."""
    return next(at for at in range(len(taken) + 1) if all(a == b for a, b in zip(taken[at:], values)))


class Lists:
    """The parts of each dictionary's list, as cells, by its number."""

    def __init__(self, count):
        self.parts = [[] for _ in range(count)]

    def take(self, messages, kind, at):
        """Takes the dictionaries that stand in a kind, the first of which has a number, as they are behind some messages."""
        for own in dictionaries_in(kind):
            self.take_one(messages, own, at)
            at += 1 + count_of(own[4])

    def take_one(self, messages, own, at):
        read = parts_of(messages, own[3])
        cells = [cells_of(part, before) for part, before in read]
        taken, whole = sum(self.parts[at], []), sum(cells, [])
        left = len(taken) - fit(taken, whole)
        for part, (_, before) in zip(cells, read):
            if len(part) > left:
                self.take(before, own[4], at + 1)
                self.parts[at].append(part[left:])
            left = max(left - len(part), 0)


def lists_of(stream, kinds):
    lists = Lists(sum(map(count_of, kinds)))
    for batch in stream.batches:
        at = 0
        for kind in kinds:
            lists.take(batch.behind, kind, at)
            at += count_of(kind)
    return [parts or [[]] for parts in lists.parts]


# ── streams ──


def say_some(stream, taken, chance):
    """Values of some dictionaries, inner ones first: others, the same once more, more of them, or such as begin as those before."""
    r = stream.r
    for id in taken:
        if r.random() > chance:
            continue
        held = parts_of(stream.messages, id)
        if held and not dictionaries_in(taken[id]) and r.random() < 0.4:
            for i, (part, _) in enumerate(held):
                stream.say(id, i > 0, part_of(part, 0, r.choice([part.rows, part.rows, r.randint(0, part.rows)])))
        else:
            stream.say(id, bool(held) and r.random() < 0.5, random_array(r, taken[id], r.choice([0, 1, 1, 2, 5])))


def case(r):
    kinds, taken = random_kinds(r, r.choice([1, 1, 2, 3]), True, "little", r.choice([True, False]), r.choice([1, 2]))
    order = fuzz_nested.order_of(r, kinds)
    heading = random_heading(r, kinds, order, r.choice([4, 4, 3]))
    stream = fuzz_appends.Stream(r, kinds, order, heading.version)
    r.cells = dict.fromkeys(taken, 0)
    say_some(stream, taken, 0.9)
    for _ in range(r.choice([0, 1, 2, 3, 5])):
        stream.add()
        say_some(stream, taken, 0.4)
    table = schemas.schema_table(heading.fields, heading.pairs, order)
    data = b"".join([arrow.message(1, table, 0, heading.version, heading.own), *stream.parts, arrow.END])
    said = [batch.said for batch in stream.batches]
    contents = Contents("little", schemas.numbered(heading.fields), heading.pairs, heading.own or {}, said)
    return Case(data, contents, lists_of(stream, kinds))
