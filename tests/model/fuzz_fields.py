"""Random fields over kinds, with names, nullability and pairs, and the headings of files."""
from collections import namedtuple

import schemas

# byte order, version, fields, the pairs of the schema, those of the footer, and those of the schema's message in a file
Heading = namedtuple("Heading", "order version fields pairs own front")

KEYS = ["k", "", "é", "author", "ARROW:other", "k2"]
VALUES = ["", "v", "日本語", "a longer value", '"\\\n']


def random_pairs(r, share=0.3):
    """Some pairs, an empty list of them, or none."""
    if r.random() > share:
        return r.choice([None, None, {}])
    return {key: r.choice(VALUES) for key in r.sample(KEYS, r.choice([1, 1, 2, 3]))}


class Fields:
    """Random fields. A dictionary's values have the same names wherever their id stands."""

    def __init__(self, r):
        self.r, self.values = r, {}

    def field(self, name, kind):
        r = self.r
        return schemas.field(name, self.kind(kind), r.random() < 0.8, random_pairs(r, 0.15))

    def kind(self, kind):
        """The kind as schemas.py has it."""
        r, name = self.r, kind[0]
        if name in ("list", "large_list"):
            return name, self.field(r.choice(["item", "item", ""]), kind[1])
        if name == "fixed_list":
            return name, kind[1], self.field("item", kind[2])
        if name == "map":
            key = schemas.field("key", self.kind(kind[1]), False, random_pairs(r, 0.1))
            entry = ("struct", [key, self.field("value", kind[2])])
            return name, r.choice([False, True]), schemas.field("entries", entry, False, random_pairs(r, 0.1))
        if name == "struct":
            return name, [self.field(f"f{i}", k) for i, k in enumerate(kind[1:])]
        if name == "union":
            ids = None if kind[2] is None else list(kind[2])
            return name, kind[1], ids, [self.field(f"u{i}", k) for i, k in enumerate(kind[3:])]
        if name == "extension":
            return (*kind[:3], self.kind(kind[3]))
        if name == "dictionary":
            if kind[3] not in self.values:
                self.values[kind[3]] = self.kind(kind[4])
            return (*kind[:4], self.values[kind[3]])
        return kind

    def top(self, kinds):
        return [self.field(self.r.choice(["c{}", "c{}", "ü{}", 'q"\\\n{}']).format(i), kind) for i, kind in enumerate(kinds)]


def random_heading(r, kinds, order, version):
    return Heading(order, version, Fields(r).top(kinds), random_pairs(r) or {}, random_pairs(r), random_pairs(r))
