"""Writes crates/run_cases/data/values/schemas.cases: schemas in hex text, their texts, and as they are written (Schema.fbs)."""
from pathlib import Path

import laid_by_hand
from layout import lay
from schemas import EVERY, EVERY_PAIRS, NESTED, NESTED_PAIRS, ONE, field, message, schema_table, schema_text

OUT = Path(__file__).parents[2] / "crates/run_cases/data/values/schemas.cases"
LINE = 64


def chunks(data):
    return [data[i:i + LINE].hex() for i in range(0, len(data), LINE)]


def given(data):
    """The calls that give the bytes."""
    first, *others = chunks(data)
    return [f"bytes {first} =>", *(f"more 1 {line} =>" for line in others)]


def answered(call, lines):
    return [call, *(f"= {line}" for line in lines)]


def case(title, read, kind, text, written):
    """A schema as some writer laid it out, its text, and as it is written."""
    return [f"== {title}", *given(read), *answered(f"{kind}_text", text.rstrip("\n").split("\n")),
            *answered(f"{kind}_again", chunks(written)), ""]


def table_case(title, read, fields, pairs, order="little"):
    """A table, which is written again in little-endian order."""
    return case(title, read, "table", schema_text(fields, pairs, order), lay(schema_table(fields, pairs)))


every, one = message(schema_table(EVERY, EVERY_PAIRS)), message(schema_table(ONE, {}))
nested = message(schema_table(NESTED, NESTED_PAIRS, "big"))
every_text = schema_text(EVERY, EVERY_PAIRS)
DEFAULTS = [field("d", ("date64",), False), field("t", ("time32", "ms"), False), field("k", ("dictionary", "int32", False, 7, ("utf8",)))]
PAIRS = [field("x", ("extension", "e", None, ("boolean",)), False, {"k": "2"})]

LINES = [
    "# Written by tests/model/write_schemas.py: not to be changed by hand.",
    "# Schemas in hex text, their texts, and as they are written (Schema.fbs).",
    "",
    *case("the message of one column", one, "message", schema_text(ONE, {}), one),
    *case("a field of every type, whose dictionaries are numbered 0, 1 and so on", every, "message", every_text, every),
    *answered("message_numbered", chunks(every)),
    "message_copy => copy true, empty false",
    "",
    *case("the same as another writer lays it out: last things first, vtables shared, children from the last to the first",
          laid_by_hand.OTHER_WRITER, "message", every_text, every),
    *case("big-endian, with children and ids of its own", nested, "message", schema_text(NESTED, NESTED_PAIRS, "big"), nested),
    *table_case("absent slots have their defaults: a date, a time, and a dictionary without index type", laid_by_hand.DEFAULTS, DEFAULTS, {}),
    "table_ids 2 => copy true true, dictionary true",
    "table_ids 0 => copy true true, dictionary false",
    "",
    *table_case("the last value of a key stands, and a reserved key makes an extension", laid_by_hand.PAIRS, PAIRS, {"a": "b"}, "big"),
]
OUT.write_text("\n".join(LINES).rstrip("\n") + "\n")
