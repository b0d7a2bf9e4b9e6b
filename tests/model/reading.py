"""An independent reader of Arrow streams and files, from the format's description alone: what they say, as a table of Python values.

What is not as the format says is refused as `Damaged`, of a written table also what a writer has to keep beyond what a reader needs."""
import struct
from collections import namedtuple

import schema_reading
from column_reading import Body, cells, read
from flat_reading import demand, root, unpack

# its byte order, its fields as schemas.py has them, the pairs of the schema, those of the footer or of the schema's message, and its batches
Contents = namedtuple("Contents", "order fields pairs own batches")
# how many rows it has, the pairs of its message, and the cells of its columns
Batch = namedtuple("Batch", "rows pairs columns")
# its place, the length of its prefix and metadata, its version, the number of its header's type, its header, its pairs and its body
Message = namedtuple("Message", "at front version tag header pairs body")

SCHEMA, DICTIONARY, RECORD = 1, 2, 3
MAGIC = b"ARROW1"


# ── messages ──


def front_of(data, at):
    """Where a message's metadata begins and how long it is, behind either form of prefix. None where the bytes end."""
    if at == len(data):
        return None
    length, = unpack("<i", data, at)
    if length == -1:
        return at + 8, unpack("<i", data, at + 4)[0]
    return at + 4, length


def message_at(data, at):
    """The message at a place, or None where an end mark stands there, or the bytes end."""
    found = front_of(data, at)
    if found is None or found[1] == 0:
        return None
    begin, length = found
    demand(length > 0 and begin + length <= len(data), f"metadata of {length} bytes at {begin}")
    table = root(data[begin:begin + length])
    version, body = table.number(0, "<h"), table.number(3, "<q")
    demand(version in (3, 4), f"version {version}")
    demand(0 <= body <= len(data) - begin - length, f"a body of {body} bytes")
    header = table.table(2)
    demand(header is not None, "a message without its header")
    behind = begin + length
    return Message(at, behind - at, version, table.number(1, "<B"), header, schema_reading.pairs(table, 4), data[behind:behind + body])


def messages_from(data, at):
    """The messages that stand one behind another, up to the end mark, and its place."""
    found = []
    while (message := message_at(data, at)) is not None:
        found.append(message)
        at += message.front + len(message.body)
    return found, at


# ── what messages say ──


class Reader:
    """What is known of fields and of dictionaries, whose values are cells."""

    def __init__(self, order, fields, exact_from):
        self.order, self.kinds, self.exact_from = order, [kind for _, kind, _, _ in fields], exact_from
        self.values = schema_reading.dictionaries(self.kinds)
        self.dictionaries = {}

    def columns(self, kinds, table, message):
        is_exact = self.exact_from is not None and message.at >= self.exact_from
        rows, body = table.number(0, "<q"), Body(table, message, self.order, self.dictionaries, is_exact)
        columns = [read(kind, body) for kind in kinds]
        body.end()
        demand(rows >= 0 and all(column.rows == rows for column in columns), f"columns of other numbers of rows than {rows}")
        return rows, [cells(column) for column in columns]

    def batch(self, message):
        rows, columns = self.columns(self.kinds, message.header, message)
        return Batch(rows, message.pairs, columns)

    def take(self, message):
        """Takes the values of a dictionary, which go on with those before them or stand in their place."""
        id, is_delta = message.header.number(0, "<q"), message.header.flag(2)
        values = message.header.table(1)
        demand(id in self.values and values is not None, f"values of dictionary {id}")
        _, (more,) = self.columns([self.values[id]], values, message)
        self.dictionaries[id] = (self.dictionaries.get(id, []) if is_delta else []) + more


# ── streams ──


def read_stream(data, exact_from=None):
    """What a stream says, which ends with an end mark and nothing behind it. From a place on the nulls that nodes state are counted."""
    messages, at = messages_from(data, 0)
    demand(data[at:] in (struct.pack("<ii", -1, 0), bytes(4)), f"{len(data) - at} bytes where the end mark stands")
    demand(messages and messages[0].tag == SCHEMA, "a stream without a schema")
    order, fields, pairs = schema_reading.schema(messages[0].header)
    reader, batches = Reader(order, fields, exact_from), []
    for message in messages[1:]:
        demand(message.tag in (DICTIONARY, RECORD), f"a message of the type {message.tag}")
        if message.tag == DICTIONARY:
            reader.take(message)
        else:
            batches.append(reader.batch(message))
    return Contents(order, fields, pairs, messages[0].pairs, batches)


# ── files ──


def footer_of(data):
    """The footer's table, and where it begins."""
    demand(data[:8] == MAGIC + bytes(2), "no magic at the front")
    demand(data[-6:] == MAGIC and len(data) >= 18, "no magic at the end")
    length, = unpack("<i", data, len(data) - 10)
    at = len(data) - 10 - length
    demand(length > 0 and at >= 8, f"a footer of {length} bytes")
    return root(data[at:-10]), at


def blocks_of(footer, slot):
    """Each block as its place, the length of prefix and metadata, and that of its body."""
    return [(at, front, body) for at, front, body in footer.structs(slot, "<qi4xq")]


def block_message(data, block, tag, end):
    """The message of a block, which stands behind the magic and before the footer."""
    at, front, body = block
    demand(at >= 8, f"a block at {at}")
    message = message_at(data[:end], at)
    demand(message is not None and message.tag == tag, f"no message of the type {tag} at {at}")
    demand((message.front, len(message.body)) == (front, body), f"a block of {front} and {body} bytes")
    return message


def file_dictionaries(reader, messages):
    """Reads the dictionaries of a file, inner ones first in whatever order their blocks stand: of one id the first alone may be no delta."""
    for id in reader.values:
        own = [m for m in messages if m.header.number(0, "<q") == id]
        demand(all(m.header.flag(2) for m in own[1:]), f"dictionary {id} twice")
        for message in own:
            reader.take(message)
    demand(all(m.header.number(0, "<q") in reader.values for m in messages), "a dictionary of no field")


def read_file(data, exact_from=None):
    """What a file says, by its footer. From a place on the nulls that nodes state are counted."""
    footer, end = footer_of(data)
    demand(footer.number(0, "<h") in (3, 4) and footer.table(1) is not None, "a footer without its version or its schema")
    order, fields, pairs = schema_reading.schema(footer.table(1))
    reader = Reader(order, fields, exact_from)
    held = [[block_message(data, block, tag, end) for block in blocks_of(footer, slot)] for slot, tag in ((2, DICTIONARY), (3, RECORD))]
    file_dictionaries(reader, held[0])
    return Contents(order, fields, pairs, schema_reading.pairs(footer, 4), [reader.batch(message) for message in held[1]])
