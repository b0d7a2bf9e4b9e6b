"""Whole streams and files as a writer has to leave them: what they say, and that nothing is anywhere else in them.

Beyond what a reader needs, the nulls that a node states are counted, messages and their bodies stand at multiples of 8 behind prefixes of
eight bytes, the buffers of a body stand one behind another at multiples of 64 up to its end with zeros between them, a file's messages
stand one behind another from its front to an end mark right before the footer, and the footer has their blocks in this order and the
fields of the first message."""
import schema_reading
from flat_reading import demand
from reading import DICTIONARY, MAGIC, RECORD, SCHEMA, blocks_of, footer_of, messages_from, read_file, read_stream

END = b"\xff\xff\xff\xff\0\0\0\0"
V5 = 4


def up_to_64(n):
    return (n + 63) // 64 * 64


def check_body(message):
    """The buffers of a record batch or of a dictionary's values."""
    table = message.header if message.tag == RECORD else message.header.table(1)
    demand(table is not None, "a dictionary without its values")
    end = 0
    for at, length in table.structs(2, "<qq"):
        demand(at == up_to_64(end), f"a buffer at {at} behind one that ends at {end}")
        demand(not any(message.body[end:at]), f"no zeros up to {at}")
        end = at + length
    demand(len(message.body) == up_to_64(end) and not any(message.body[end:]), f"a body of {len(message.body)} bytes up to {end}")


def check_places(data, messages):
    for message in messages:
        demand(data[message.at:message.at + 4] == END[:4], "a message without its mark")
        demand(message.at % 8 == message.front % 8 == len(message.body) % 8 == 0, f"a message at {message.at}")


def check_messages(messages):
    """Messages of dictionaries and of batches that were written."""
    for message in messages:
        demand(message.version == V5, f"version {message.version}")
        check_body(message)


def read_written_stream(data):
    """What a stream says that was written whole."""
    messages, at = messages_from(data, 0)
    demand(data[at:] == END, "no end mark at the end")
    check_places(data, messages)
    check_messages(messages[1:])
    return read_stream(data, 0)


def check_front(messages, footer):
    """The first message has the byte order and the fields of the footer, and its pairs or none, since the footer has them."""
    demand(messages and messages[0].tag == SCHEMA, "a file whose first message is no schema")
    *front, pairs = schema_reading.schema(messages[0].header)
    *back, all_pairs = schema_reading.schema(footer.table(1))
    demand(front == back, "other fields in the footer")
    demand(pairs in ({}, all_pairs), "other pairs in the footer")


def check_blocks(messages, footer):
    for slot, tag in ((2, DICTIONARY), (3, RECORD)):
        places = [(m.at, m.front, len(m.body)) for m in messages if m.tag == tag]
        demand(blocks_of(footer, slot) == places, f"other blocks than the messages of the type {tag}")


def check_file(data, begun):
    """The whole file. Answers where the messages behind the begun ones stand."""
    footer, end = footer_of(data)
    messages, at = messages_from(data, len(MAGIC) + 2)
    demand(data[at:end] == END, "no end mark right before the footer")
    demand(footer.number(0, "<h") == V5, "a footer of another version")
    check_front(messages, footer)
    check_blocks(messages, footer)
    check_places(data, messages)
    check_messages(messages[1 + begun:])
    return messages[1 + begun].at if len(messages) > 1 + begun else end


def read_written_file(data, begun=0):
    """What a file says that was written whole, or gone on with behind so many messages beside the schema."""
    return read_file(data, check_file(data, begun))
