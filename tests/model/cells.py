"""What the model's own arrays and files mean, by their values alone: cells as column_reading.py gives them."""
from collections import namedtuple

import schemas
from nested import ids_of, widths_of
from reading import Batch, Contents

# a message of a dictionary's values, whether it goes on with those before it, and its values
Message = namedtuple("Message", "id is_delta values")
# how many rows of a batch are read, and which of them are sent
Rows = namedtuple("Rows", "read sent")

SIGNED = ("int", "decimal", "date", "time", "timestamp", "duration")


def numbers(kind, row, data, width):
    """The numbers of a row, or the one that it has."""
    at, found = width * row, []
    for size in widths_of(kind):
        is_signed = kind[0] in ("interval", "dictionary") and not kind[1].startswith("uint") or kind[0].startswith(SIGNED)
        found.append(int.from_bytes(data[at:at + size], "little", signed=is_signed))
        at += size
    return tuple(found) if kind[0] == "interval" else found[0]


def parts_of(messages, id):
    """The parts of a dictionary behind some messages, each with the messages that were before it."""
    parts = []
    for i, message in enumerate(messages):
        if message.id == id:
            parts = (parts if message.is_delta else []) + [(message.values, messages[:i])]
    return parts


def values_of(messages, id):
    """The cells of a dictionary behind some messages."""
    return [cell for part, before in parts_of(messages, id) for cell in cells_of(part, before)]


def cells_of(array, messages=()):
    """The cells of an array that was read behind some messages."""
    values = values_of(messages, array.kind[3]) if array.kind[0] == "dictionary" else None
    below = [cells_of(child, messages) for child in array.children]
    return [cell_of(array, row, values, below) for row in range(array.rows)]


def cell_of(array, row, values, below):
    kind, parts = array.kind, array.parts
    name = kind[0]
    if name == "null" or array.flags is not None and not array.flags[row]:
        return None
    if name == "dictionary":
        return values[numbers(kind, row, parts["data"], parts["width"])]
    if name in ("list", "large_list", "map"):
        return below[0][parts["offsets"][row]:parts["offsets"][row + 1]]
    if name == "fixed_list":
        return below[0][kind[1] * row:kind[1] * (row + 1)]
    if name == "struct":
        return tuple(cells[row] for cells in below)
    if name == "union":
        type_id = parts["types"][row]
        at = row if parts["places"] is None else parts["places"][row]
        return type_id, below[list(ids_of(kind)).index(type_id)][at]
    if name == "boolean":
        return parts["values"][row]
    return leaf_of(array, row)


def leaf_of(array, row):
    kind, parts = array.kind, array.parts
    if "views" in parts:
        value = array.viewed(row)
    elif "offsets" in parts:
        value = parts["data"][parts["offsets"][row]:parts["offsets"][row + 1]]
    elif kind[0] == "fixed":
        value = parts["data"][kind[1] * row:kind[1] * (row + 1)]
    else:
        return numbers(kind, row, parts["data"], parts["width"])
    return value.decode() if "utf8" in kind[0] else value


def batch_of(rows, pairs, arrays, messages):
    return Batch(rows, pairs or {}, [cells_of(array, messages) for array in arrays])


def rows_up_to(contents, limit):
    """The rows of each batch up to a limit."""
    rows, left = [], limit
    for batch in contents.batches:
        read = batch.rows if left is None else min(batch.rows, left)
        rows.append(Rows(read, range(read)))
        left = None if left is None else left - read
    return rows


def kept(contents, columns, rows):
    """What is sent of a file's contents in the columns asked for, of each batch in some rows, or none of it, with ids that count from 0."""
    chosen = range(len(contents.fields)) if columns is None else columns
    batches = [Batch(len(of.sent), batch.pairs, [[batch.columns[i][row] for row in of.sent] for i in chosen])
               for batch, of in zip(contents.batches, rows) if of is not None]
    return Contents("little", schemas.numbered([contents.fields[i] for i in chosen]), contents.pairs, contents.own, batches)


def cut(contents, columns, limit):
    """What is sent in the columns asked for and up to a limit of rows."""
    return kept(contents, columns, rows_up_to(contents, limit))


# ── what differs ──


def plain(field):
    """A field as it is compared: ids of a union that are not told are those that count from 0."""
    name, kind, nullable, pairs = field
    return name, plain_kind(kind), bool(nullable), dict(pairs)


def plain_kind(kind):
    name = kind[0]
    if name in ("list", "large_list"):
        return name, plain(kind[1])
    if name in ("fixed_list", "map"):
        return name, kind[1], plain(kind[2])
    if name == "struct":
        return name, [plain(f) for f in kind[1]]
    if name == "union":
        ids = range(len(kind[3])) if kind[2] is None else kind[2]
        return name, kind[1], list(ids), [plain(f) for f in kind[3]]
    if name in ("dictionary", "extension"):
        return (*kind[:-1], plain_kind(kind[-1]))
    return kind


def difference(found, wanted):
    """In what two contents differ, or None."""
    for what in ("order", "pairs", "own"):
        if getattr(found, what) != getattr(wanted, what):
            return f"{what}: {getattr(found, what)} in the place of {getattr(wanted, what)}"
    if [plain(f) for f in found.fields] != [plain(f) for f in wanted.fields]:
        return f"fields: {found.fields} in the place of {wanted.fields}"
    if len(found.batches) != len(wanted.batches):
        return f"{len(found.batches)} batches in the place of {len(wanted.batches)}"
    for i, (batch, other) in enumerate(zip(found.batches, wanted.batches)):
        if batch != other:
            return f"batch {i}: {batch} in the place of {other}"
    return None
