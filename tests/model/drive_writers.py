"""Has `crates/uses` read and write again random files of all kinds, half of them with dictionaries: the stream
that it writes of a file is the model's; written once more it stays as it is, and so does the stream of a file that it writes. A validity
that tells of no nulls is left out where what was written is read. Each stream and file that it writes is read by the model too, and says
what the file says that was written again: python3 drive_writers.py PROGRAM USES COUNT SEED. Prints what differs; the status is 0 where
nothing does."""
import sys
import tempfile
from argparse import Namespace
from pathlib import Path

import fuzz_dictionaries
import fuzz_nested
from cells import cut
from driving import Programs, drive, misread
from written import read_written_file, read_written_stream


def asked(shares):
    """All columns and rows, of dictionaries that share their ids or do not."""
    return Namespace(unions=True, columns=None, limit=None, shares=shares)


STREAMS = [("send", "file", "stream1"), ("stream-again", "stream1", "stream2"), ("stream-again", "stream2", "stream3")]


def misread_ones(programs, contents, has_file):
    """What the model reads otherwise of what was written. A file is written in little-endian order."""
    sent = cut(contents, None, None)
    for name in ("stream1", "stream2", "stream3"):
        reason = misread(read_written_stream, programs.bytes_of(name), sent)
        if reason:
            return name, reason
    if has_file:
        reason = misread(read_written_file, programs.bytes_of("file2"), contents._replace(order="little"))
        if reason:
            return "file2", reason
    return None


def differs(programs, r):
    """What is not so, for a random file. It is not written as a file where two columns share an id, of which each may have been read under
    other values."""
    shares = r.choice([True, False])
    file, stream, contents = r.choice([fuzz_nested, fuzz_dictionaries]).case(r, asked(shares))
    (programs.folder / "file").write_bytes(file)
    for word, source, target in STREAMS if shares else [*STREAMS, ("file-again", "file", "file2")]:
        reason = programs.again(word, source, target)
        if reason:
            return word, reason, file.hex()
    if programs.bytes_of("stream1") != stream:
        return "the stream of the file", file.hex()
    if programs.bytes_of("stream3") != programs.bytes_of("stream2"):
        return "the stream once more", file.hex()
    if not shares and programs.stream_of("file2") != programs.bytes_of("stream2"):
        return "the file", file.hex()
    found = misread_ones(programs, contents, not shares)
    return found and (*found, file.hex())


def main():
    program, uses = [str(Path(p).resolve()) for p in sys.argv[1:3]]
    with tempfile.TemporaryDirectory() as folder:
        programs = Programs(program, uses, folder)
        sys.exit(drive(lambda r: differs(programs, r), int(sys.argv[3]), int(sys.argv[4])))


if __name__ == "__main__":
    main()
