"""Refuses each allocation that the real program asks for, one after the other: refused_memory.py PROGRAM

A library that is loaded before the program's answers the allocation with a number by nothing, and counts all. For each command over the
worked files, until a run asks for fewer: the status is 13 with its note, or the answer is that of a run with memory (an allocation that
is done without); standard output has a part of what it has otherwise; behind `append` the bytes of the target below its last block's end
stand. Prints what is not so, and how many runs there were; the status is 0 where all is.
"""
import os
import subprocess
import sys
import tempfile
from pathlib import Path

sys.path.append(str(Path(__file__).parents[1] / "model"))

import cases  # noqa: E402

LIBRARY = r"""
#define _GNU_SOURCE
#include <dlfcn.h>
#include <stdlib.h>
#include <stdio.h>
static long count, refused = -1;
static int begun;
static void begin(void) {
    const char *number = getenv("REFUSED");
    begun = 1;
    refused = number ? atol(number) : 0;
}
static int is_refused(void) {
    if (!begun) begin();
    return ++count == refused;
}
void *malloc(size_t size) {
    static void *(*real)(size_t);
    if (!real) real = dlsym(RTLD_NEXT, "malloc");
    return is_refused() ? NULL : real(size);
}
void *realloc(void *old, size_t size) {
    static void *(*real)(void *, size_t);
    if (!real) real = dlsym(RTLD_NEXT, "realloc");
    return is_refused() ? NULL : real(old, size);
}
__attribute__((destructor)) static void end(void) {
    const char *name = getenv("COUNTED");
    char text[32];
    FILE *file;
    refused = -1;
    if (!name || !(file = fopen(name, "w"))) return;
    fprintf(file, "%ld", count);
    fclose(file);
}
"""
TARGET = "table.arrow"
WANTED = b"refused 13 Memory\n"


def file_of(case):
    return b"".join(case.file)


def hex_line(case):
    return b"".join(case.stream).hex().encode() + b"\n"


class Runs:
    def __init__(self, program, library):
        self.program, self.library, self.count, self.refused, self.wrong = program, library, 0, 0, 0

    def run(self, words, given, target, number):
        """The answer, the target behind it, and how many allocations were asked for."""
        with tempfile.TemporaryDirectory() as folder:
            (Path(folder) / TARGET).write_bytes(target)
            counted = Path(folder) / "counted"
            done = subprocess.run([self.program, *words], input=given, stdout=subprocess.PIPE, stderr=subprocess.PIPE, cwd=folder,
                                  env={**os.environ, "LD_PRELOAD": self.library, "REFUSED": str(number), "COUNTED": str(counted)})
            self.count += 1
            return (done.returncode, done.stdout, done.stderr), (Path(folder) / TARGET).read_bytes(), int(counted.read_text())

    def refuse_each(self, words, given, target, kept):
        """Refuses each allocation of a run, which keeps so many bytes of the target."""
        whole, changed, all_asked = self.run(words, given, target, 0)
        if whole[0] != 0 or all_asked == 0:
            self.tell(words, "with memory:", whole, all_asked)
        number = 1
        while number <= all_asked:
            (status, output, note), behind, _ = self.run(words, given, target, number)
            at = f"{' '.join(words)}, allocation {number}:"
            if status == 13:
                self.refused += 1
                if note != WANTED or not whole[1].startswith(output) or behind[:kept] != target[:kept]:
                    self.tell(at, output[:80], note)
            elif ((status, output, note), behind) != (whole, changed):
                self.tell(at, status, output[:80], note)
            number += 1

    def tell(self, *words):
        self.wrong += 1
        print(*words, flush=True)


def run_all(runs):
    for case in (cases.THREE, cases.VIEWS, cases.WASTE, cases.SLICED, cases.STRINGS):
        content = file_of(case)
        runs.refuse_each(["stream"], content.hex().encode(), content, len(content))
        runs.refuse_each(["stream", "--raw", TARGET], b"", content, len(content))
        runs.refuse_each(["schema", TARGET], b"", content, len(content))
        runs.refuse_each(["rows", TARGET], b"", content, len(content))
        runs.refuse_each(["csv", TARGET], b"", content, len(content))
        runs.refuse_each(["cat", TARGET, TARGET], b"", content, len(content))
        below = len(b"".join(case.file[:-2]))
        runs.refuse_each(["append", TARGET], hex_line(case), content, below)
    for case, wanted in ((cases.THREE, "0>=2"), (cases.NUMBERS, "4!=0"), (cases.STRINGS, "7>10")):
        content = file_of(case)
        runs.refuse_each(["scan", wanted, TARGET], b"", content, len(content))
    runs.refuse_each(["gen", "0"], b"", b"", 0)


def main():
    with tempfile.TemporaryDirectory() as folder:
        library = Path(folder) / "refuse.so"
        subprocess.run(["cc", "-shared", "-fPIC", "-O1", "-x", "c", "-", "-o", str(library), "-ldl"], input=LIBRARY.encode(), check=True)
        runs = Runs(str(Path(sys.argv[1]).resolve()), str(library))
        run_all(runs)
    print(runs.count, "runs,", runs.refused, "of them refused,", runs.wrong, "not as they should be")
    sys.exit(1 if runs.wrong or not runs.refused else 0)


if __name__ == "__main__":
    main()
