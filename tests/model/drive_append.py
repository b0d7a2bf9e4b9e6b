"""Appends random streams to random files by the program. What is appended to says what it said and what the stream's batches say, as the model
reads it, below its last block it stays as it was, and nothing else stands in it; and it says the same as a file of the model's that has
the batches and dictionaries of both, where each is written again by `crates/uses` first, which leaves out a validity that tells of no
nulls, and then made a stream of. A stream of other fields, or of other values of dictionaries, is refused, and the file stays as it was:
python3 drive_append.py PROGRAM USES COUNT SEED. Prints what differs, and how many cases had which status; the status is 0 where nothing
does."""
import sys
import tempfile
from collections import Counter
from pathlib import Path

import fuzz_appends
from driving import Programs, drive, misread
from reading import messages_from
from written import read_written_file

REFUSED = {7: b"refused 7 SchemaMismatch\n", 8: b"refused 8 DictionaryReplaced\n"}


def answer_of(case):
    """The status, and what is printed and noted."""
    if case.status == 0:
        return 0, f"{case.added}\n".encode(), b""
    return case.status, b"", REFUSED[case.status]


def appended_differs(programs, case):
    """What is not so of a file that was appended to."""
    data, kept = programs.bytes_of("file"), messages_from(case.file, 8)[1]
    if data[:kept] != case.file[:kept]:
        return ("what stood in the file",)
    reason = misread(lambda data: read_written_file(data, case.begun), data, case.contents)
    if reason:
        return "what is read", reason
    for name in ("file", "whole"):
        reason = programs.again("file-again", name, name + "2")
        if reason:
            return name, reason
    if programs.stream_of("file2") != programs.stream_of("whole2"):
        return ("the model's file with both",)
    return None


def differs(programs, statuses, r):
    case = fuzz_appends.case(r)
    statuses[case.status] += 1
    (programs.folder / "file").write_bytes(case.file)
    (programs.folder / "whole").write_bytes(case.whole)
    done = programs.append("file", case.stream)
    found = None
    if (done.returncode, done.stdout, done.stderr) != answer_of(case):
        found = f"status {case.status} is wanted", done.returncode, done.stdout, done.stderr
    elif case.status == 0:
        found = appended_differs(programs, case)
    elif programs.bytes_of("file") != case.file:
        found = ("a refused file has changed",)
    return found and (*found, case.file.hex(), case.stream.hex())


def main():
    program, uses = [str(Path(p).resolve()) for p in sys.argv[1:3]]
    statuses = Counter()
    with tempfile.TemporaryDirectory() as folder:
        programs = Programs(program, uses, folder)
        status = drive(lambda r: differs(programs, statuses, r), int(sys.argv[3]), int(sys.argv[4]))
    print("statuses", *[f"{wanted}: {count}" for wanted, count in sorted(statuses.items())])
    sys.exit(status)


if __name__ == "__main__":
    main()
