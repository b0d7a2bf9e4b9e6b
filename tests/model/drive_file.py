"""Makes files of random streams by the program: each says what its stream says, as the model reads both, and its dictionaries have the parts
that the model finds for them; made a stream again it means that too, and so does the file of that stream: python3 drive_file.py
PROGRAM COUNT SEED. Prints what differs, and how many cases had which status; the status is 0 where nothing does."""
import subprocess
import sys
import tempfile
from collections import Counter
from pathlib import Path

import fuzz_files
import schema_reading
from driving import drive, misread
from reading import DICTIONARY, Reader, block_message, blocks_of, footer_of
from written import read_written_file, read_written_stream

LARGE_KEY = b"refused 9 NotRepresentable\n"


def run(program, folder, *words):
    return subprocess.run([program, *words], capture_output=True, cwd=folder)


def parts_in(data):
    """The cells of each part of each dictionary of a file, by its id."""
    footer, end = footer_of(data)
    order, fields, _ = schema_reading.schema(footer.table(1))
    reader, found = Reader(order, fields, None), {}
    for block in blocks_of(footer, 2):
        message = block_message(data, block, DICTIONARY, end)
        id = message.header.number(0, "<q")
        before = len(reader.dictionaries.get(id, []))
        reader.take(message)
        found.setdefault(id, []).append(reader.dictionaries[id][before:])
    return found


def file_differs(data, case):
    """What is not so of a file that was made."""
    reason = misread(read_written_file, data, case.contents)
    if reason:
        return "what is read", reason
    if case.contents.batches and parts_in(data) != dict(enumerate(case.parts)):
        return "the parts", parts_in(data), case.parts
    return None


def again_differs(program, folder, case):
    """What is not so of the file's stream, and of the file of that."""
    (folder / "stream2").write_bytes(run(program, folder, "stream", "--raw", "file").stdout)
    reason = misread(read_written_stream, (folder / "stream2").read_bytes(), case.contents)
    if reason:
        return "the stream of the file", reason
    once_more = file_differs(run(program, folder, "file", "--raw", "stream2").stdout, case)
    return once_more and ("the file once more", *once_more)


def differs(program, folder, statuses, r):
    case = fuzz_files.case(r)
    (folder / "stream").write_bytes(case.stream)
    done = run(program, folder, "file", "--raw", "stream")
    statuses[done.returncode] += 1
    found = None
    if done.returncode == 0:
        (folder / "file").write_bytes(done.stdout)
        found = file_differs(done.stdout, case) or again_differs(program, folder, case)
    elif (done.returncode, done.stdout, done.stderr) != (9, b"", LARGE_KEY) or not fuzz_files.may_be_large(case):
        found = "refused", done.returncode, done.stderr
    return found and (*found, case.stream.hex())


def main():
    program, statuses = str(Path(sys.argv[1]).resolve()), Counter()
    with tempfile.TemporaryDirectory() as folder:
        status = drive(lambda r: differs(program, Path(folder), statuses, r), int(sys.argv[2]), int(sys.argv[3]))
    print("statuses", *[f"{wanted}: {count}" for wanted, count in sorted(statuses.items())])
    sys.exit(status)


if __name__ == "__main__":
    main()
