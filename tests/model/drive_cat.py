"""Runs `cat` of the built program on random files of the same fields, without dictionaries or each with its own. What it prints is the model's
stream, which the model reads as the first file's pairs and the batches of all; where a file of other fields stands among them nothing is
printed: python3 drive_cat.py PROGRAM COUNT SEED. Prints what differs, how the dictionaries of later files stood to what was sent of those
before, and how many runs were refused; the status is 0 where nothing differs."""
import subprocess
import sys
import tempfile
from collections import Counter
from pathlib import Path

import fuzz_cat
from driving import drive, misread
from written import read_written_stream

OTHER_FIELDS = 7, b"", b"refused 7 SchemaMismatch\n"


def words_of(r, folder, files, raw):
    """The words that ask for some files in order, of which one may stand there twice."""
    names = [f"file{files.index(file)}.arrow" for file in files]
    for name, file in zip(names, files):
        (Path(folder) / name).write_bytes(file)
    if raw:
        names.insert(r.randint(0, len(names)), "--raw")
    return ["cat", *names]


def differs(program, folder, counted, r):
    case, raw = fuzz_cat.case(r), r.choice([True, False])
    words = words_of(r, folder, case.files, raw)
    done = subprocess.run([program, *words], capture_output=True, cwd=folder)
    found = done.returncode, done.stdout, done.stderr
    files = [file.hex() for file in case.files]
    if case.is_refused:
        counted["refused"] += 1
        return found != OTHER_FIELDS and (words, *found, *files)
    counted.update(case.seen)
    if found != (0, case.stream if raw else case.stream.hex().encode() + b"\n", b""):
        return words, found[0], found[2].decode(), *files
    reason = misread(read_written_stream, case.stream, case.contents)
    return reason and (reason, *files)


def main():
    program, count, seed = str(Path(sys.argv[1]).resolve()), int(sys.argv[2]), int(sys.argv[3])
    counted = Counter()
    with tempfile.TemporaryDirectory() as folder:
        status = drive(lambda r: differs(program, folder, counted, r), count, seed)
    print(", ".join(f"{what}: {number}" for what, number in sorted(counted.items())))
    sys.exit(status)


if __name__ == "__main__":
    main()
