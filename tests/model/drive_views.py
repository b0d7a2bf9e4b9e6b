"""Runs the built `run_views` on random files of all kinds, half of them with dictionaries, in either byte order, as hex text. What it prints of
each row, and where the bytes of its value stand, is what the model reads there: python3 drive_views.py RUN_VIEWS COUNT SEED. Prints what
differs, and how many rows of each sort were met; the status is 0 where nothing does."""
import subprocess
import sys
from argparse import Namespace
from collections import Counter
from pathlib import Path

import fuzz_dictionaries
import fuzz_nested
from driving import drive
from view_lines import lines_of


def first_difference(found, wanted):
    for i, (a, b) in enumerate(zip(found, wanted)):
        if a != b:
            return f"line {i}: {a} in the place of {b}"
    return f"{len(found)} lines in the place of {len(wanted)}"


def differs(program, met, r):
    asked = Namespace(unions=True, columns=None, limit=None)
    file = r.choice([fuzz_nested, fuzz_dictionaries]).case(r, asked)[0]
    wanted = lines_of(file)
    met.update(line.split()[0 if line.startswith("batch") else 2] for line in wanted)
    done = subprocess.run([program], input=file.hex().encode(), capture_output=True)
    found = done.stdout.decode().splitlines()
    if (done.returncode, found, done.stderr) != (0, wanted, b""):
        return done.returncode, done.stderr.decode(), first_difference(found, wanted), file.hex()
    return None


def main():
    program, count, seed = str(Path(sys.argv[1]).resolve()), int(sys.argv[2]), int(sys.argv[3])
    met = Counter()
    status = drive(lambda r: differs(program, met, r), count, seed)
    print(*[f"{word}: {number}" for word, number in sorted(met.items())])
    sys.exit(status)


if __name__ == "__main__":
    main()
