"""Runs the built program on random files of all kinds, half of them with dictionaries, by their names and as hex text, in random columns and up
to random limits, as bytes and as hex text. What it prints is the model's stream, and the model reads it as what was asked for of the file:
python3 drive.py PROGRAM COUNT SEED. Prints what differs; the status is 0 where nothing does."""
import subprocess
import sys
import tempfile
from argparse import Namespace
from pathlib import Path

import fuzz_dictionaries
import fuzz_nested
from cells import cut
from driving import drive, misread
from reading import read_stream


def request_of(r):
    """The columns and the limit that are asked for, as words have them."""
    columns = r.choice([None, None, "0", "1,0", "2,0,1", ""])
    limit = r.choice([None, None, 0, 1, 4, 12])
    return Namespace(unions=True, columns=columns, limit=limit)


def words_of(asked):
    words = ["stream"]
    if asked.columns is not None:
        words += ["--columns", asked.columns]
    if asked.limit is not None:
        words += ["--limit", str(asked.limit)]
    return words


def differs(program, folder, r):
    asked = request_of(r)
    file, stream, contents = r.choice([fuzz_nested, fuzz_dictionaries]).case(r, asked)
    words = words_of(asked)
    by_name, raw = r.choice([True, False]), r.choice([True, False])
    given = b""
    if raw:
        words.append("--raw")
    if by_name:
        (Path(folder) / "file.arrow").write_bytes(file)
        words.append("file.arrow")
    else:
        given = file.hex().encode()
    done = subprocess.run([program, *words], input=given, capture_output=True, cwd=folder)
    expected = stream if raw else stream.hex().encode() + b"\n"
    if (done.returncode, done.stdout, done.stderr) != (0, expected, b""):
        return words, done.returncode, done.stderr.decode(), file.hex()
    reason = misread(read_stream, stream, cut(contents, fuzz_nested.asked_columns(asked), asked.limit))
    return reason and (reason, file.hex())


def main():
    program, count, seed = str(Path(sys.argv[1]).resolve()), int(sys.argv[2]), int(sys.argv[3])
    with tempfile.TemporaryDirectory() as folder:
        sys.exit(drive(lambda r: differs(program, folder, r), count, seed))


if __name__ == "__main__":
    main()
