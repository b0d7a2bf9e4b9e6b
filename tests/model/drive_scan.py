"""Runs `scan` of the built program on random files of all kinds, half of them with dictionaries, by their names and as hex text, by filters of
all signs whose numbers stand in the column, or beside those, or are the least and the greatest, in random columns. What it prints is the
model's stream, which the model reads as the rows that meet the filter; a file that is given by its name is fetched at no place but those
that the scan needs, which `strace` (Debian's package) tells; and columns that cannot be asked for so are refused, and nothing is printed:
python3 drive_scan.py PROGRAM COUNT SEED. Prints what differs, how many batches were sent and left out, and how many files were refused; the
status is 0 where nothing does."""
import re
import subprocess
import sys
import tempfile
from argparse import Namespace
from collections import Counter
from pathlib import Path

import cells
import filters
import fuzz_dictionaries
import fuzz_nested
from driving import drive, misread
from filters import Filter
from reading import read_stream

READ = re.compile(r"pread64\(\d+, .*, (\d+), (\d+)\) += (\d+)")
LIMITS = [0, -1, 127, -128, 2**31 - 1, -2**31, 2**63 - 1, -2**63, 2**64 - 1, 2**127 - 1, -2**127]


def random_filter(r, contents):
    """A filter of a column that is of numbers, where there is one, or now and then of another."""
    count = len(contents.fields)
    of_numbers = [i for i, field in enumerate(contents.fields) if filters.is_of_numbers(field[1])]
    column = r.choice(of_numbers) if of_numbers and r.random() < 0.9 else r.randrange(count + 1)
    held = [filters.number_in(cell) for batch in contents.batches for cell in batch.columns[column]] if column in of_numbers else []
    held = [number for number in held if number is not None]
    number = r.choice(held) + r.choice([-1, 0, 0, 0, 1]) if held and r.random() < 0.8 else r.choice(LIMITS)
    return Filter(column, r.choice(list(filters.SIGNS)), max(-2**127, min(number, 2**127 - 1)))


class Asked(Namespace):
    """What a scan asks for: columns at once, and a filter once the contents are known."""

    def __init__(self, r):
        super().__init__(unions=True, columns=r.choice([None, None, "0", "1,0", "2,0,1", "", "0,0"]), limit=None, levels=r.choice([0, 0, 0, 1, 2]))
        self.rows, self.r = self.rows_of, r

    def rows_of(self, contents):
        self.filter = random_filter(self.r, contents)
        self.refusal = filters.refusal(contents.fields, self.filter, fuzz_nested.asked_columns(self))
        self.kept = [None for _ in contents.batches] if self.refusal else filters.rows_that_meet(contents, self.filter)
        return self.kept

    def words(self, raw):
        words = [[filters.word_of(self.filter)], ["--raw"] if raw else [], [] if self.columns is None else ["--columns", self.columns]]
        self.r.shuffle(words)
        return ["scan", *[word for words in words for word in words]]


def traced(program, words, folder):
    """A run, and which places of its file it fetched since it was opened."""
    trace = Path(folder) / "trace"
    done = subprocess.run(["strace", "-f", "-s", "0", "-e", "trace=openat,pread64", "-o", str(trace), program, *words], capture_output=True, cwd=folder)
    _, opened, reads = trace.read_text().partition('"file.arrow"')
    assert opened, "the file is not seen to be opened"
    return done, [(int(at), int(count)) for count, at, _ in READ.findall(reads)]


def differs(program, folder, counted, r):
    asked = Asked(r)
    file, stream, contents = r.choice([fuzz_nested, fuzz_dictionaries]).case(r, asked)
    raw, by_name, columns, reads = r.choice([True, False]), r.choice([True, False]), fuzz_nested.asked_columns(asked), []
    words = asked.words(raw)
    if by_name:
        (Path(folder) / "file.arrow").write_bytes(file)
        done, reads = traced(program, [*words, "file.arrow"], folder)
    else:
        done = subprocess.run([program, *words], input=file.hex().encode(), capture_output=True, cwd=folder)
    found = done.returncode, done.stdout, done.stderr
    if asked.refusal:
        counted["refused"] += 1
        status, note = asked.refusal
        return found != (status, b"", note) and (words, found, file.hex())
    counted["sent"] += sum(of is not None for of in asked.kept)
    counted["left out"] += sum(of is None for of in asked.kept)
    if found != (0, stream if raw else stream.hex().encode() + b"\n", b""):
        return words, found[0], found[2].decode(), file.hex()
    outside = by_name and filters.fetched_elsewhere(reads, filters.places_of(file, asked.filter, columns, asked.kept))
    if outside:
        return words, "fetched", outside, file.hex()
    reason = misread(read_stream, stream, cells.kept(contents, columns, asked.kept))
    return reason and (words, reason, file.hex())


def main():
    program, count, seed = str(Path(sys.argv[1]).resolve()), int(sys.argv[2]), int(sys.argv[3])
    counted = Counter()
    with tempfile.TemporaryDirectory() as folder:
        status = drive(lambda r: differs(program, folder, counted, r), count, seed)
    print(*[f"{what}: {number}" for what, number in sorted(counted.items())])
    sys.exit(status)


if __name__ == "__main__":
    main()
