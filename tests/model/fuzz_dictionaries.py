"""Random files of columns with dictionaries at any depth, also in the values of others, in one part or in several, in either byte
order, with their streams, as cases for `rt try --cases FOLDER -- stream WORDS`: python3 fuzz_dictionaries.py FOLDER COUNT SEED WORDS,
as for fuzz_nested.py."""
import arrow
import fuzz_nested
from cells import Message, cells_of, parts_of
from fuzz import held_tables
from fuzz_fields import random_heading, random_pairs
from layout import Table, number
from nested import Array, children_of, layout_of, part_of, random_array, random_kind

INDEXES = ["int8", "int16", "int32", "int64", "uint8", "uint16", "uint32", "uint64"]


# ── kinds ──


def with_children(kind, children):
    name = kind[0]
    if name in ("list", "large_list"):
        return (name, *children)
    if name == "fixed_list":
        return (name, kind[1], *children)
    if name == "map":
        return (name, *children[0][1:])
    if name == "struct":
        return (name, *children)
    if name == "union":
        return (*kind[:3], *children)
    if name == "extension":
        return (*kind[:3], with_children(kind[3], children))
    return kind


def with_dictionaries(r, kind, taken, shares):
    """Some of the kinds in a kind are those of a dictionary's values, under ids of their own or, where it may be, one that is taken already."""
    is_dictionary, index, ordered = r.random() < 0.4, r.choice(INDEXES), r.choice([False, False, True])
    if is_dictionary and shares and taken and r.random() < 0.2:
        id = r.choice(list(taken))
        return ("dictionary", index, ordered, id, taken[id])
    below = children_of(kind)
    if layout_of(kind)[0] == "map":
        below = [("struct", *[with_dictionaries(r, k, taken, shares) for k in below[0][1:]])]
    else:
        below = [with_dictionaries(r, k, taken, shares) for k in below]
    kind = with_children(kind, below)
    if not is_dictionary:
        return kind
    id = r.choice([n for n in (0, 1, 2, 3, 7, -1, 2**40, r.randrange(100, 1000)) if n not in taken])
    taken[id] = kind
    return ("dictionary", index, ordered, id, kind)


def dictionaries_in(kind):
    """The kinds of dictionaries that stand in a kind, outermost alone."""
    if kind[0] == "dictionary":
        return [kind]
    return [d for k in children_of(kind) for d in dictionaries_in(k)]


def count_of(kind):
    """How many ids a kind takes."""
    return sum(1 + count_of(d[4]) for d in dictionaries_in(kind))


def numbered(kind, at):
    """The kind with its dictionaries numbered in preorder from a number on."""
    if kind[0] == "dictionary":
        return (*kind[:3], at, numbered(kind[4], at + 1))
    children = []
    for k in children_of(kind):
        children.append(numbered(k, at))
        at += count_of(k)
    return with_children(kind, children)


# ── the file's messages ──


def random_messages(r, taken):
    """Messages of values, inner ones first, each of rows whose keys have values by then; some ids have none."""
    messages = []
    r.cells = dict.fromkeys(taken, 0)

    def more(id, is_delta):
        values = random_array(r, taken[id], r.choice([0, 1, 1, 2, 5]))
        r.cells[id] += values.rows
        messages.append(Message(id, is_delta, values))

    # An inner dictionary was taken before the one that it stands in.
    for id in taken:
        if r.random() < 0.9:
            more(id, r.random() < 0.1)
    for _ in range(r.choice([0, 0, 1, 3]) if taken else 0):
        more(r.choice(list(taken)), True)
    return messages


def held_message(r, message, order, version):
    """A message of values, whose pairs are passed over."""
    header, body = held_tables(r, message.values.rows, message.values.held(r, order, version))
    table = Table(number(8, message.id), header, number(1, message.is_delta))
    return arrow.message(2, table, len(body), version, random_pairs(r)), body


# ── the stream's messages ──


class Sending:
    """The cells of the parts that stand under each id, and the messages that are written of dictionaries: what goes on with them as deltas,
    and what does not anew."""

    def __init__(self):
        self.parts, self.messages = {}, []

    def send(self, messages, kinds):
        """The bytes of what is written of some columns' dictionaries, behind some messages, under ids that count from 0."""
        begun, at = len(self.messages), 0
        for kind in kinds:
            self.take(messages, kind, numbered(kind, at))
            at += count_of(kind)
        return [part for message in self.messages[begun:] for part in sent_message(message)]

    def take(self, messages, kind, under):
        """Takes the dictionaries of a kind, as they are behind some messages, under the ids of another."""
        for own, other in zip(dictionaries_in(kind), dictionaries_in(under)):
            self.take_one(messages, own, other)

    def take_one(self, messages, own, under):
        id, read = under[3], parts_of(messages, own[3]) or [(no_rows(own[4]), [])]
        parts = [cells_of(*part) for part in read]
        count = self.begun(id, own[4], parts)
        is_delta, left = count is not None, count or 0
        for part, before in read:
            first = min(left, part.rows)
            left -= first
            if first < part.rows or not is_delta:
                self.take(before, own[4], under[4])
                self.messages.append(Message(id, is_delta, part_of(part, first, part.rows - first)))
                is_delta = True
        self.parts[id] = parts

    def begun(self, id, kind, parts):
        """How many cells stand under an id that the parts of a dictionary go on with, or None where these are written anew."""
        held = sum(self.parts[id], []) if id in self.parts else None
        return len(held) if held is not None and sum(parts, [])[:len(held)] == held else None


def sent_message(message):
    """A message of values, and its body, as it is sent."""
    values = message.values
    header, body = arrow.batch_tables(values.rows, values.sent(values.rows, 0, values.rows))
    return arrow.message(2, Table(number(8, message.id), header, number(1, message.is_delta)), len(body)), body


def no_rows(kind):
    """An array of a kind without rows, as nothing was read of it."""
    kind = layout_of(kind)
    name = kind[0]
    parts = {"children": [no_rows(k) for k in children_of(kind)]}
    if name in ("list", "large_list", "map", "utf8", "large_utf8", "binary", "large_binary"):
        parts["offsets"] = [0]
    if name in ("utf8", "large_utf8", "binary", "large_binary"):
        parts["data"] = b""
    if "view" in name:
        parts.update(views=[], buffers=[])
    if name == "union":
        parts.update(types=[], places=[] if kind[1] == "dense" else None)
    if name == "boolean":
        parts["values"] = []
    parts.setdefault("data", b"")
    parts.setdefault("width", 1)
    return Array(kind, 0, None, **parts)


# ── cases ──


def random_kinds(r, count, unions, order, shares, levels=2):
    """Kinds of columns, and those of the values of their dictionaries by the ids. No view stands in big-endian order, where it is refused."""
    kinds, taken = [], {}
    for _ in range(count):
        kind = random_kind(r, levels, unions, order == "little")
        kinds.append(with_dictionaries(r, kind, taken, shares))
    return kinds, taken


def case(r, asked):
    order, version = fuzz_nested.random_order(r)
    count = max(fuzz_nested.asked_columns(asked) or [0]) + 1 + r.choice([0, 1, 2])
    kinds, taken = random_kinds(r, count, asked.unions, order, getattr(asked, "shares", True), getattr(asked, "levels", 2))
    heading, messages = random_heading(r, kinds, order, version), random_messages(r, taken)

    held = [held_message(r, message, order, version) for message in messages]
    return fuzz_nested.made(r, asked, kinds, heading, messages, held, lambda chosen: Sending().send(messages, [kinds[i] for i in chosen]))


if __name__ == "__main__":
    fuzz_nested.main(case)
