"""What the programs share that run the built ones on random files."""
import random
import subprocess
from pathlib import Path

from cells import difference
from flat_reading import Damaged


class Programs:
    """The program and the uses of its library, run in a folder."""

    def __init__(self, program, uses, folder):
        self.program, self.uses, self.folder = program, uses, Path(folder)

    def again(self, word, source, target):
        done = subprocess.run([self.uses, word, source, target], capture_output=True, cwd=self.folder)
        return done.stderr.decode() or None

    def append(self, name, stream):
        return subprocess.run([self.program, "append", name], input=stream.hex().encode(), capture_output=True, cwd=self.folder)

    def stream_of(self, name):
        return subprocess.run([self.program, "stream", "--raw", name], capture_output=True, cwd=self.folder).stdout

    def bytes_of(self, name):
        return (self.folder / name).read_bytes()


def misread(read, data, contents):
    """In what it differs from some contents that bytes say by a reader, or why it refuses them, or None."""
    try:
        return difference(read(data), contents)
    except Damaged as fault:
        return f"refused: {fault}"


def drive(differs, count, seed):
    """Prints what differs among so many random cases, and how many do. Answers the status: 0 where none does."""
    wrong = 0
    for i in range(count):
        found = differs(random.Random(seed * 100000 + i))
        if found:
            wrong += 1
            print(i, *found)
    print(count, "files,", wrong, "differ")
    return 1 if wrong else 0
