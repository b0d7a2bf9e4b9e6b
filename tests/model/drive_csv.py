"""Runs `csv` of the built program on random files of all kinds, half of them with dictionaries, by their names and as hex text, in random
columns and up to random limits. Python's `csv` module reads from what it prints, cell for cell, what the model says of the file, and writes the
same bytes of it; where a nested column is asked for it is refused, and nothing is printed: python3 drive_csv.py PROGRAM COUNT SEED. Prints
what differs, and how many files were refused; the status is 0 where nothing does."""
import csv
import io
import subprocess
import sys
import tempfile
from collections import Counter
from pathlib import Path

import fuzz_dictionaries
import fuzz_nested
import nested
from cells import cut
from drive import request_of
from driving import drive

NESTED = ("list", "large_list", "map", "fixed_list", "struct", "union")
REFUSED = b"refused 2 Nested\n"
nested.TEXTS += ["a,b", 'say "x"', "two\nlines", "\\"]


def shown_kind(kind):
    """The kind whose cells are printed: that of a dictionary's values, or of what is extended."""
    return shown_kind(kind[-1]) if kind[0] in ("dictionary", "extension") else kind


def decimal_text(number, scale):
    """Digits with a point among them; of a scale above 38 the number and the scale."""
    if scale == 0:
        return str(number)
    if scale > 38:
        return f"{number}E-{scale}"
    digits = str(abs(number)).rjust(scale + 1, "0")
    return f"{'-' if number < 0 else ''}{digits[:-scale]}.{digits[-scale:]}"


def cell_text(kind, cell):
    if cell is None:
        return ""
    if isinstance(cell, bool):
        return "true" if cell else "false"
    if isinstance(cell, tuple):
        return " ".join(map(str, cell))
    if isinstance(cell, bytes):
        return cell.hex()
    return decimal_text(cell, kind[2]) if kind[0] == "decimal" else str(cell)


def rows_of(contents):
    """The names, and the texts of all rows; nothing where there is no column."""
    if not contents.fields:
        return []
    kinds = [shown_kind(field[1]) for field in contents.fields]
    rows = [[field[0] for field in contents.fields]]
    for batch in contents.batches:
        rows += [[cell_text(kind, cells[i]) for kind, cells in zip(kinds, batch.columns)] for i in range(batch.rows)]
    return rows


def written(rows):
    text = io.StringIO()
    csv.writer(text, lineterminator="\n").writerows(rows)
    return text.getvalue().encode()


def words_of(asked):
    words = ["csv"]
    if asked.columns is not None:
        words += ["--columns", asked.columns]
    if asked.limit is not None:
        words += ["--limit", str(asked.limit)]
    return words


def differs(program, folder, kinds_met, r):
    asked = request_of(r)
    asked.levels = r.choice([0, 0, 0, 1])
    case = r.choice([fuzz_nested, fuzz_dictionaries]).case(r, asked)
    file, contents = case[0], cut(case[2], fuzz_nested.asked_columns(asked), asked.limit)
    words, given = words_of(asked), b""
    if r.choice([True, False]):
        (Path(folder) / "file.arrow").write_bytes(file)
        words.append("file.arrow")
    else:
        given = file.hex().encode()
    done = subprocess.run([program, *words], input=given, capture_output=True, cwd=folder)
    found = done.returncode, done.stdout, done.stderr
    kinds = [shown_kind(field[1])[0] for field in contents.fields]
    if any(kind in NESTED for kind in kinds):
        kinds_met["refused"] += 1
        return found != (2, b"", REFUSED) and (words, found, file.hex())
    kinds_met.update(kinds)
    rows = rows_of(contents)
    if found[0] != 0 or found[2]:
        return words, found[0], found[2].decode(), file.hex()
    if list(csv.reader(io.StringIO(found[1].decode(), newline=""))) != rows:
        return words, "read back as other cells", found[1].decode(), file.hex()
    return found[1] != written(rows) and (words, "other bytes", found[1].decode(), written(rows).decode(), file.hex())


def main():
    program, count, seed = str(Path(sys.argv[1]).resolve()), int(sys.argv[2]), int(sys.argv[3])
    kinds_met = Counter()
    with tempfile.TemporaryDirectory() as folder:
        status = drive(lambda r: differs(program, folder, kinds_met, r), count, seed)
    print(*[f"{kind}: {number}" for kind, number in sorted(kinds_met.items())])
    sys.exit(status)


if __name__ == "__main__":
    main()
