"""Fails each call that the real program makes of the system, one after the other, and kills it at each: system_faults.py PROGRAM

`strace` (Debian's package) makes a call fail, or kills the program in it. For `stream`, `scan`, `schema` and `rows` of a named file, `stream` of
standard input, and `append`: whatever call fails, the status is that of its device or 0, its note is the one line, and standard output has a
part of what it has otherwise. Behind every run of `append`, failed or killed, the bytes of the target below its last block's end stand, and
until it is cut all of them; a disk that fills up behind the cut (a limit on the file's size) is status 12. Standard input that comes byte by
byte says the same. Prints what is not so, and how many runs there were; the status is 0 where all is.
"""
import os
import re
import resource
import signal
import subprocess
import sys
import tempfile
from collections import Counter
from pathlib import Path

sys.path.append(str(Path(__file__).parents[1] / "model"))

import arrow  # noqa: E402
from cases import THREE  # noqa: E402

FILE = b"".join(THREE.file)
SECOND_ROW = [arrow.numbers("<i", [2]), arrow.variable("<i", [b"yz"]), arrow.numbers("<q", [20])]
STREAM = b"".join(THREE.stream).hex().encode() + b"\n"
NOTES = {0: b"", 11: b"refused 11 ReadFault\n", 12: b"refused 12 WriteFault\n", 13: b"refused 13 Memory\n", 17: b"refused 17 NoName\n"}
CALL = re.compile(r"^(?:\d+ +)?(\w+)\(")
TARGET = "table.arrow"
# What makes no sense to fail: the program's start and end, and memory, which the toolchain refuses by `rt try --fail-alloc`.
NOT_FAILED = {"execve", "brk", "mmap", "munmap", "exit_group", "exit", "arch_prctl", "set_tid_address", "set_robust_list", "rseq", "prlimit64", "mprotect", "rt_sigaction", "rt_sigprocmask", "sigaltstack", "poll", "getrandom", "madvise", "mremap"}


class Runs:
    """Runs of the program in a folder of their own, with the target as it was before each."""

    def __init__(self, program):
        self.program, self.count, self.wrong, self.statuses = program, 0, 0, Counter()

    def run(self, words, given, options=(), limit=None):
        """The answer: status, output, notes, the target, and the trace."""
        with tempfile.TemporaryDirectory() as folder:
            target, trace = Path(folder) / TARGET, Path(folder) / "trace"
            target.write_bytes(FILE)
            before = ["strace", "-f", "-o", str(trace), *options] if options is not None else []
            done = subprocess.run([*before, self.program, *words], input=given, stdout=subprocess.PIPE, stderr=subprocess.PIPE, cwd=folder,
                                  preexec_fn=limit)
            self.count += 1
            return done.returncode, done.stdout, done.stderr, target.read_bytes(), trace.read_text() if before else ""

    def tell(self, *words):
        self.wrong += 1
        print(*words, flush=True)


def calls_of(trace):
    """The calls from the first that is of the target or of a standard stream on, each by its name and how many of this name it is."""
    lines = [line for line in trace.splitlines() if CALL.match(line) and "execve(" not in line]
    names = [CALL.match(line).group(1) for line in lines]
    first = next(at for at, line in enumerate(lines) if f'"{TARGET}"' in line or re.search(r"\b(read|write)v?\([012],", line))
    return [(names[at], 1 + names[:at].count(names[at])) for at in range(first, len(names)) if names[at] not in NOT_FAILED]


def kept_below():
    """Where the last block of the target ends, before the end mark and the footer."""
    return len(b"".join(THREE.file[:-2]))


def is_cut(found):
    return found != FILE


def fail_each(runs, words, given, wanted, appended):
    """Each call fails, in runs of their own."""
    status, output, notes, target, trace = runs.run(words, given, ())
    if (status, output, notes, target) != (0, wanted, b"", appended):
        runs.tell(words, "without a fault:", status, output[:80], notes)
        return []
    for name, number in calls_of(trace):
        status, output, notes, target, _ = runs.run(words, given, ["-e", f"inject={name}:error=EIO:when={number}"])
        runs.statuses[words[0], status] += 1
        at = f"{' '.join(words)}: {name} {number} fails:"
        if notes != NOTES.get(status):
            runs.tell(at, "status", status, "notes", notes)
        if status == 0 and (output, target) != (wanted, appended):
            runs.tell(at, "status 0 with another answer")
        if not wanted.startswith(output):
            runs.tell(at, "output", output)
        if target[:kept_below()] != FILE[:kept_below()] or (status == 11 and is_cut(target)):
            runs.tell(at, "the target has changed")
    return calls_of(trace)


def kill_at_each(runs, words, given, calls, appended):
    for name, number in calls:
        _, _, _, target, _ = runs.run(words, given, ["-e", f"inject={name}:signal=KILL:when={number}"])
        if target[:kept_below()] != FILE[:kept_below()]:
            runs.tell(f"{' '.join(words)}: killed at {name} {number}:", "the target has changed")


def fill_up(runs, words, given, appended):
    """The file may not grow past each of some lengths behind the cut."""
    for length in range(kept_below(), len(appended), 7):
        def limit():
            signal.signal(signal.SIGXFSZ, signal.SIG_IGN)
            resource.setrlimit(resource.RLIMIT_FSIZE, (length, length))
        status, output, notes, target, _ = runs.run(words, given, None, limit)
        if (status, output, notes) != (12, b"", NOTES[12]) or target[:kept_below()] != FILE[:kept_below()]:
            runs.tell(f"{' '.join(words)}: no more than {length} bytes:", status, output, notes)


def byte_by_byte(runs, program, words, given, wanted):
    """Standard input comes in reads of one byte."""
    reading, writing = os.pipe()
    child = subprocess.Popen([program, *words], stdin=reading, stdout=subprocess.PIPE, stderr=subprocess.PIPE)
    os.close(reading)
    for byte in given:
        os.write(writing, bytes([byte]))
        os.sched_yield()
    os.close(writing)
    output, notes = child.communicate()
    runs.count += 1
    if (child.returncode, output, notes) != (0, wanted, b""):
        runs.tell(words, "byte by byte:", child.returncode, output[:80], notes)


def main():
    program = str(Path(sys.argv[1]).resolve())
    runs = Runs(program)
    raw = b"".join(THREE.stream)
    appended = runs.run(["append", TARGET], STREAM, None)[3]
    fail_each(runs, ["stream", TARGET], b"", STREAM, FILE)
    fail_each(runs, ["stream", "--raw", TARGET], b"", raw, FILE)
    fail_each(runs, ["scan", "0>=2", "--raw", TARGET], b"", b"".join(arrow.stream_parts(THREE.fields, [arrow.batch(1, SECOND_ROW)])), FILE)
    fail_each(runs, ["rows", TARGET], b"", b"2\n", FILE)
    fail_each(runs, ["schema", TARGET], b"", b'little\n"a" int32\n"b" utf8\n"c" int64\n', FILE)
    fail_each(runs, ["stream"], FILE.hex().encode(), STREAM, FILE)
    calls = fail_each(runs, ["append", TARGET], STREAM, b"1\n", appended)
    kill_at_each(runs, ["append", TARGET], STREAM, calls, appended)
    fill_up(runs, ["append", TARGET], STREAM, appended)
    byte_by_byte(runs, program, ["stream"], FILE.hex().encode(), STREAM)
    for (command, status), count in sorted(runs.statuses.items()):
        print(f"{command}: status {status} {count} times")
    print(runs.count, "runs,", runs.wrong, "not as they should be")
    sys.exit(1 if runs.wrong or not calls else 0)


if __name__ == "__main__":
    main()
