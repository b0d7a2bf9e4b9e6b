"""Runs the program for each of its statuses, 0 to 6 and 11 to 17: statuses.py PROGRAM

Each run has its words, its standard input, the files of the folder that it runs in, what it must print and its status. The
run of status 4 has a schema whose structs share their children, that of 6 one with a long name besides, and needs 3 GiB of
memory; that of 13 is held to 40 MiB.
"""
import os
import resource
import struct
import subprocess
import sys
import tempfile
from pathlib import Path

sys.path.append(str(Path(__file__).parents[1] / "model"))

import arrow  # noqa: E402
from cases import THREE  # noqa: E402
from layout import Structs, Table, Tables, Text, Value, lay  # noqa: E402

STORED = Path(__file__).parents[2] / "crates/vokdrim"
MIB = 1 << 20
INTEGERS = [("n", ("int64",), False)]


class Shared:
    """A table that stands once and is pointed at from several places before it."""

    def __init__(self, table):
        self.table, self.at = table, None

    def lay(self, out):
        if self.at is None:
            self.at = self.table.lay(out)
        return self.at


def in_structs(field, levels):
    """Structs of two fields, of which both are the one below."""
    for _ in range(levels):
        below = Shared(field)
        field = Table(Text("s"), None, Value(1, 13), Table(), None, Tables([below, below]))
    return field


def in_lists(field, levels):
    for _ in range(levels):
        field = Table(Text("l"), None, Value(1, 12), Table(), None, Tables([field]))
    return field


def leaf(name):
    tag, table = arrow.type_of("int8")
    return Table(Text(name), None, Value(1, tag), table, None, Tables([]))


def file_of(field):
    """A file without a batch, with one field."""
    schema = Table(None, Tables([field]))
    parts = [arrow.MAGIC, arrow.message(1, Table(None, Tables([leaf("a")])), 0), arrow.END]
    footer = lay(Table(Value(2, 4), schema, Structs([]), Structs([])))
    return b"".join(parts) + footer + struct.pack("<i", len(footer)) + b"ARROW1"


def one_column(count):
    """One batch of 64-bit integers."""
    return b"".join(arrow.file_parts(INTEGERS, [arrow.batch(count, [arrow.numbers("<q", [7] * count)])]))


class Run:
    def __init__(self, status, words, notes="", given=b"", output=b"", file=None, memory=None, full=False):
        self.status, self.words, self.notes, self.given, self.output = status, words, notes, given, output
        self.file, self.memory, self.full = file, memory, full

    def holds(self, program):
        with tempfile.TemporaryDirectory() as folder:
            os.mkfifo(Path(folder) / "pipe")
            if self.file is not None:
                (Path(folder) / "file.arrow").write_bytes(self.file)
            out = open("/dev/full", "wb") if self.full else subprocess.PIPE
            limit = None
            if self.memory is not None:
                def limit():
                    resource.setrlimit(resource.RLIMIT_AS, (self.memory, self.memory))
            done = subprocess.run([program, *self.words], input=self.given, stdout=out, stderr=subprocess.PIPE, cwd=folder, preexec_fn=limit)
        found = (done.returncode, done.stderr.decode(), b"" if self.full else done.stdout)
        if found != (self.status, self.notes, self.output):
            print("expected", (self.status, self.notes, self.output[:80]), "found", (found[0], found[1], found[2][:80]))
            return False
        return True


def refused(status, name):
    return f"refused {status} {name}\n"


def runs():
    first = (STORED / "stdin").read_bytes()
    stream = (STORED / "stdout").read_bytes()
    three = b"".join(THREE.file)
    yield Run(0, ["stream"], given=first, output=stream)
    yield Run(0, ["stream", "--raw", "file.arrow"], file=bytes.fromhex(first.decode()), output=bytes.fromhex(stream.decode()))
    yield Run(0, ["rows", "file.arrow"], output=b"300\n", file=one_column(300))
    yield Run(1, ["stream"], refused(1, "Truncated"))
    yield Run(1, ["stream", "file.arrow"], refused(1, "InvalidFooter"), file=three[:-1])
    yield Run(1, ["rows", "file.arrow"], refused(1, "InvalidFooter"), file=three[:-1])
    yield Run(2, ["stream"], refused(2, "FeatherV1"), given=(bytes(6) + b"FEA1").hex().encode())
    yield Run(2, ["scan", "1=0", "file.arrow"], refused(2, "Predicate"), file=three)
    yield Run(3, ["schema", "file.arrow"], refused(3, "TooDeep"), file=file_of(in_lists(leaf("a"), 64)))
    yield Run(4, ["schema", "file.arrow"], refused(4, "TooMany"), file=file_of(in_structs(leaf("a"), 16)))
    yield Run(5, ["stream", "--columns", "1,1", "file.arrow"], refused(5, "Projection"), file=three)
    yield Run(5, ["scan", "3=0", "file.arrow"], refused(5, "Projection"), file=three)
    yield Run(6, ["stream", "file.arrow"], refused(6, "TooLarge"), file=file_of(in_structs(leaf("n" * 70000), 15)))
    for name in (".", "pipe", "/dev/null", "/dev/stdin"):
        yield Run(11, ["stream", name], refused(11, "ReadFault"))
        yield Run(11, ["append", name], refused(11, "ReadFault"), given=stream)
    yield Run(12, ["stream", "file.arrow"], refused(12, "WriteFault"), file=three, full=True)
    begun = arrow.stream_parts(INTEGERS, [])[0].hex().encode()
    yield Run(13, ["stream", "file.arrow"], refused(13, "Memory"), file=one_column(64 * MIB // 8), output=begun, memory=40 * MIB)
    yield Run(14, ["stream", "--limit", "x"], refused(14, "Words"))
    yield Run(14, ["scan", "0==1", "file.arrow"], refused(14, "Words"), file=three)
    yield Run(15, ["stream"], refused(15, "NotHex"), given=b"4G")
    yield Run(16, ["stream"], refused(16, "InputTooLong"), given=b" " * (128 * MIB + 1))
    yield Run(17, ["stream", "none.arrow"], refused(17, "NoName"))


def main():
    program = str(Path(sys.argv[1]).resolve())
    wrong = 0
    for run in runs():
        good = run.holds(program)
        wrong += not good
        print(run.status, " ".join(run.words), "as expected" if good else "NOT as expected", flush=True)
    sys.exit(1 if wrong else 0)


if __name__ == "__main__":
    main()
