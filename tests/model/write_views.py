"""Writes crates/run_views/stdin and stdout: files as hex text, each behind its title, and the lines of their views as view_lines.py finds
them, or the name of the refusal. What damaged files are refused with stands here or in crates/run_cases/data/damage.cases, by hand."""
import re
from pathlib import Path

import arrow
import cases
import dictionary_files
from case_lines import DATA, bytes_in
from dictionary_files import BASE, BLOCKS, DELTA, INNER, OUTER, held, keys, texts
from reading import RECORD, block_message, blocks_of, footer_of
from view_lines import lines_of
from write_nested import INNER as INNER_KINDS, OUTER as OUTER_KINDS, case, is_kind

OUT = Path(__file__).parents[2] / "crates/run_views"

WIDTH = 140


def edited(data, *edits):
    """The bytes with others from some places on."""
    for at, more in edits:
        data = data[:at] + more + data[at + len(more):]
    return data


# ── files with which nothing is wrong ──


def structs(*numbers):
    """Structs of keys of texts."""
    return [arrow.Column(len(numbers), 0, [b""]), keys("b", numbers)]


# an outer dictionary in two parts, the second behind a delta of the inner dictionary to which its keys lead
PARTS = [BASE, held(OUTER, False, 2, structs(1, 0)), DELTA, held(OUTER, True, 1, structs(2))]


def dictionary_files_of():
    yield "a dictionary in the structs of a dictionary", dictionary_files.file_of([held(INNER, False, 2, [texts(b"x", b"y")]),
                                                                                   held(OUTER, False, 2, structs(0, 1))])
    yield "the same with a delta of the inner one", BLOCKS["in_order"]
    yield "deltas of both", dictionary_files.file_of(PARTS)


def whole_files():
    worked = bytes_in("worked.cases", "made.cases")
    yield "one nullable column of 1, null and 3", worked["one_column"]
    yield "two batches", worked["two_batches"]
    yield "no batch", worked["no_batch"]
    yield "three columns", worked["three_file"]
    for found in (cases.NUMBERS, cases.TIMES, cases.STRINGS, cases.VIEWS, cases.KEPT, cases.WASTE, cases.SLICED):
        yield found.name.lower(), b"".join(found.file)
    yield from dictionary_files_of()
    number = 0
    for outer, around in OUTER_KINDS.items():
        for inner, kind in INNER_KINDS.items():
            if is_kind(around(kind)):
                yield f"{inner} in {outer}", case(around(kind), number)[0]
                number += 1


# ── damaged files ──


def damaged_columns():
    """One file of the worked ones with bytes changed, and its refusal."""
    known = bytes_in("worked.cases")
    for line in (DATA / "damage.cases").read_text().splitlines():
        found = re.fullmatch(r"transcode one_column (\d+)=([0-9a-f]+) => (?:out of specification|unsupported): (\w+).*", line)
        if found:
            at, more, name = found.groups()
            yield f"one_column {at}={more}", edited(known["one_column"], (int(at), bytes.fromhex(more))), name
    yield "2^62 lists of 2147483647 nulls each", bytes_in("worked.cases", "made.cases")["lists_of_nulls"], "NodeLength"


def damaged_values():
    three, views = cases.THREE, cases.VIEWS
    file, shown = b"".join(three.file), b"".join(views.file)
    ends, text, view = three.place(1, 1), three.place(1, 2), views.place(0, 1)
    yield "an offset that falls", edited(file, (ends + 4, b"\x04")), "InvalidOffsets"
    yield "an offset below 0", edited(file, (ends, b"\xff\xff\xff\xff")), "InvalidOffsets"
    yield "a text that is not UTF-8", edited(file, (text, b"\xff")), "InvalidUtf8"
    yield "a short view with a byte behind its own", edited(shown, (view + 15, b"x")), "InvalidView"
    yield "a view of another prefix", edited(shown, (view + 16 + 4, b"X")), "InvalidView"
    yield "a view of a third buffer", edited(shown, (view + 16 + 8, b"\x02")), "InvalidView"
    yield "a view past its buffer", edited(shown, (view + 16 + 12, b"\x02")), "InvalidView"
    yield "floats", b"".join(cases.FLOATS.file), "Float"


def damaged_dictionaries():
    file = BLOCKS["in_order"]
    footer, end = footer_of(file)
    batch = block_message(file, blocks_of(footer, 3)[0], RECORD, end)
    at = batch.at + batch.front
    yield "a key behind the last value", edited(file, (at, b"\x02")), "InvalidKey"
    yield "a key below 0", edited(file, (at, b"\xff\xff\xff\xff")), "InvalidKey"
    yield "an outer dictionary before its inner one", BLOCKS["outer_first"], "InvalidId"
    yield "a second dictionary under an id", dictionary_files.file_of([BASE, BASE, *PARTS[1:]]), "DuplicateDictionary"
    yield "no dictionary", dictionary_files.file_of([]), "InvalidId"


def damaged_files():
    yield from damaged_columns()
    yield from damaged_values()
    yield from damaged_dictionaries()


# ── the text and its lines ──


def title_lines(title, data):
    digits = data.hex()
    return [f"== {title}", *[digits[at:at + WIDTH] for at in range(0, len(digits), WIDTH)]]


def main():
    text, lines = [], []
    for title, data in whole_files():
        text += title_lines(title, data)
        lines += [f"== {title}", *lines_of(data)]
    for title, data, name in damaged_files():
        text += title_lines(title, data)
        lines += [f"== {title}", f"refused {name}"]
    (OUT / "stdin").write_text("\n".join(text) + "\n")
    (OUT / "stdout").write_text("\n".join(lines) + "\n")
    print(sum(line.startswith("==") for line in lines), "files", len(lines), "lines")


if __name__ == "__main__":
    main()
