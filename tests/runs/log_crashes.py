"""Kills the real program in each system call of `log --append`, and plays a disk that loses what is not synced: log_crashes.py PROGRAM

`strace` (Debian's package) makes a call fail, or kills the program in it. Each time the log is opened again by `log --raw`, which has to give
the batches that were there, those whose second sync had succeeded, and at most one more, whole. Where a call fails the status is that of its
device, its note is the one line, and nothing is put.

Then the writes and syncs of one run are played on the log as it was, up to each of them: every subset of the writes since the last sync, each
in whole, cut off at any byte, or with its range filled with 0, 1 or 255. Each file that this leaves is opened again likewise, and is appended
to. Prints what is not so, and how many runs there were; the status is 0 where all is.
"""
import itertools
import re
import subprocess
import sys
import tempfile
from pathlib import Path

sys.path.append(str(Path(__file__).parents[1] / "model"))

import arrow  # noqa: E402
from cases import THREE  # noqa: E402
from system_faults import NOTES, NOT_FAILED  # noqa: E402

FIELDS = [("a", ("int32",), False), ("b", ("utf8",), False)]
BATCHES = [arrow.batch(len(texts), [arrow.numbers("<i", range(len(texts))), arrow.variable("<i", texts)])
           for texts in ([b"x", b"yz"], [b""], [b"and", b"a", b"third"])]
TARGET = "batches.log"
CALL = re.compile(r"^(?:\d+ +)?(\w+)\(")
WRITE = re.compile(r'pwrite64\(\d+, "((?:\\x[0-9a-f]{2})*)"(?:\.\.\.)?, (\d+), (\d+)\) += (\d+)')
MOST_WRITES = 8


def stream(batches, fields=FIELDS):
    return b"".join(arrow.stream_parts(fields, batches))


def record(gate, batches):
    bytes_ = stream(batches)
    return bytes([gate]) + bytes(7) + len(bytes_).to_bytes(8, "little") + bytes_


def log(batches):
    """The log of some batches, and the closed gate behind it."""
    return b"ARTBLOG1" + record(1, []) + b"".join(record(1, [batch]) for batch in batches) + b"\0"


class Runs:
    """Runs of the program in a folder of their own."""

    def __init__(self, program):
        self.program, self.count, self.wrong = program, 0, 0

    def run(self, words, given, target, options=None):
        """The answer: status, output, notes, the target, and the trace."""
        with tempfile.TemporaryDirectory() as folder:
            path, trace = Path(folder) / TARGET, Path(folder) / "trace"
            path.write_bytes(target)
            before = ["strace", "-f", "-o", str(trace), *options] if options is not None else []
            done = subprocess.run([*before, self.program, *words], input=given, stdout=subprocess.PIPE, stderr=subprocess.PIPE, cwd=folder)
            self.count += 1
            return done.returncode, done.stdout, done.stderr, path.read_bytes(), trace.read_text() if before else ""

    def tell(self, *words):
        self.wrong += 1
        print(*words, flush=True)

    def batches_of(self, target, at):
        """How many of the batches a log has, whole and in their order; none where it has others, or cannot be opened."""
        status, output, notes, _, _ = self.run(["log", "--raw", TARGET], b"", target)
        if (status, notes) != (0, b""):
            self.tell(at, "cannot be opened again:", status, notes)
            return None
        for count in range(len(BATCHES) + 1):
            if output == stream(BATCHES[:count]):
                return count
        self.tell(at, "has other batches")
        return None

    def reopen(self, target, least, at):
        """A log that a crash left has the batches that were acknowledged, and at most one more, and goes on."""
        found = self.batches_of(target, at)
        if found is None:
            return
        if not least <= found <= least + 1:
            self.tell(at, "has", found, "batches, of which", least, "were acknowledged")
        rest = BATCHES[found:]
        status, output, notes, grown, _ = self.run(["log", "--append", TARGET], stream(rest).hex().encode(), target)
        if (status, output, notes) != (0, b"%d\n" % len(rest), b"") or grown[:len(log(BATCHES))] != log(BATCHES):
            self.tell(at, "does not go on:", status, output, notes)


def calls_of(trace):
    """The calls from the first that is of the target or of a standard stream on, each by its name and how many of this name it is."""
    lines = [line for line in trace.splitlines() if CALL.match(line) and "execve(" not in line]
    names = [CALL.match(line).group(1) for line in lines]
    first = next(at for at, line in enumerate(lines) if f'"{TARGET}"' in line or re.search(r"\b(read|write)v?\([012],", line))
    return [(names[at], 1 + names[:at].count(names[at])) for at in range(first, len(names)) if names[at] not in NOT_FAILED]


def syncs_in(trace):
    """How many syncs have succeeded."""
    return len(re.findall(r"\b(?:fsync|fdatasync)\(\d+\) += 0", trace))


def acknowledged(syncs, before):
    """One sync opens the log, and two append a batch."""
    return before + max(0, syncs - 1) // 2


def fail_and_kill_each(runs, before):
    target, given = log(BATCHES[:before]), stream(BATCHES[before:]).hex().encode()
    words = ["log", "--append", TARGET]
    status, output, notes, grown, trace = runs.run(words, given, target, [])
    wanted = b"%d\n" % (len(BATCHES) - before)
    if (status, output, notes, grown) != (0, wanted, b"", log(BATCHES)):
        runs.tell("without a fault:", status, output, notes)
        return
    for name, number in calls_of(trace):
        at = f"{before} batches: {name} {number} fails:"
        status, output, notes, left, told = runs.run(words, given, target, ["-e", f"inject={name}:error=EIO:when={number}"])
        if notes != NOTES.get(status) or not wanted.startswith(output):
            runs.tell(at, "status", status, "output", output, "notes", notes)
        if status == 0 and (output, left) != (wanted, log(BATCHES)):
            runs.tell(at, "status 0 with another answer")
        runs.reopen(left, acknowledged(syncs_in(told), before), at)
        at = f"{before} batches: killed at {name} {number}:"
        _, _, _, left, told = runs.run(words, given, target, ["-e", f"inject={name}:signal=KILL:when={number}"])
        runs.reopen(left, acknowledged(syncs_in(told), before), at)


def changes_of(trace):
    """The writes, each with its place, and the syncs, in order."""
    changes = []
    for line in trace.splitlines():
        found = WRITE.search(line)
        if found:
            bytes_ = bytes.fromhex(found.group(1).replace("\\x", ""))
            if not len(bytes_) == int(found.group(2)) == int(found.group(4)):
                sys.exit(f"a write is not told whole: {line[:120]}")
            changes.append((int(found.group(3)), bytes_))
        elif re.search(r"\b(?:fsync|fdatasync)\(\d+\) += 0", line):
            changes.append(None)
    return changes


def written(target, change):
    at, bytes_ = change
    return target[:at] + bytes(max(0, at - len(target))) + bytes_ + target[at + len(bytes_):]


def left_of(change):
    """What may be left of a write that was not synced: all, a front, or any bytes in its range."""
    at, bytes_ = change
    yield change
    for length in range(1, len(bytes_)):
        yield at, bytes_[:length]
    for fill in (0, 1, 255):
        yield at, bytes([fill]) * len(bytes_)


def play(runs, before):
    target, given = log(BATCHES[:before]), stream(BATCHES[before:]).hex().encode()
    _, _, _, _, trace = runs.run(["log", "--append", TARGET], given, target, ["-xx", "-s", "1000000", "-e", "trace=pwrite64,fsync,fdatasync"])
    changes = changes_of(trace)
    if len(changes) != 1 + 4 * (len(BATCHES) - before):
        runs.tell(f"{before} batches: {len(changes)} writes and syncs")
    synced, pending, syncs, seen = target, [], 0, set()
    for change in changes:
        if change is None:
            for write in pending:
                synced = written(synced, write)
            pending, syncs = [], syncs + 1
        else:
            pending.append(change)
        if len(pending) > MOST_WRITES:
            sys.exit("too many writes without a sync")
        for size in range(len(pending) + 1):
            for some in itertools.combinations(pending, size):
                for left in itertools.product(*map(left_of, some)):
                    image = synced
                    for write in left:
                        image = written(image, write)
                    if (image, syncs) not in seen:
                        seen.add((image, syncs))
                        runs.reopen(image, acknowledged(syncs, before), f"{before} batches, {syncs} syncs, {len(image)} bytes:")


def main():
    runs = Runs(str(Path(sys.argv[1]).resolve()))
    for before in range(len(BATCHES)):
        fail_and_kill_each(runs, before)
        play(runs, before)
    status, output, notes, begun, _ = runs.run(["log", "--append", TARGET], stream(BATCHES).hex().encode(), b"")
    if (status, output, notes, begun) != (0, b"%d\n" % len(BATCHES), b"", log(BATCHES)):
        runs.tell("a log that is begun:", status, output, notes)
    other = b"".join(THREE.stream).hex().encode()
    status, output, notes, kept, _ = runs.run(["log", "--append", TARGET], other, log(BATCHES))
    if (status, output, notes, kept) != (7, b"", b"refused 7 SchemaMismatch\n", log(BATCHES)):
        runs.tell("other fields:", status, output, notes)
    print(runs.count, "runs,", runs.wrong, "not as they should be")
    sys.exit(1 if runs.wrong else 0)


if __name__ == "__main__":
    main()
