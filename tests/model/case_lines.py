"""Lines of files of cases: bytes under names, as crates/run_cases reads them."""
from pathlib import Path

DATA = Path(__file__).parents[2] / "crates/run_cases/data"

WIDTH = 140


def words_of(data):
    """Hex digits, in which twelve zeros or more stand as their number."""
    words, plain, at = [], "", 0
    while at < len(data):
        end = at
        while end < len(data) and data[end] == 0:
            end += 1
        if end - at >= 12:
            words += [plain] if plain else []
            words.append(f"00*{end - at}")
            plain, at = "", end
        else:
            end = max(end, at + 1)
            plain += data[at:end].hex()
            at = end
    return words + ([plain] if plain else [])


def lines_of(front, words):
    """A call in lines of at most so many characters, each behind the first with a plus sign."""
    lines, line = [], front
    for word in words:
        while word:
            room = WIDTH - len(line) - 1
            if len(word) <= room:
                line, word = f"{line} {word}", ""
            elif "*" in word or room < 34:
                lines.append(line)
                line = "+"
            else:
                room -= room % 2
                lines.append(f"{line} {word[:room]}")
                line, word = "+", word[room:]
    return lines + [line]


def bytes_lines(name, data):
    return "\n".join(lines_of(f"bytes {name}", words_of(data)))


def sum_of(data):
    """The sum that the call `sum` tells (FNV-1a, 64 bits)."""
    found = 14695981039346656037
    for byte in data:
        found = (found ^ byte) * 1099511628211 % 2**64
    return f"{len(data)} bytes, {found:016x}"


def added(known, data, word):
    """The bytes so far with what a word says behind them, or with others in their place."""
    if word.startswith("'"):
        return data + word[1:].encode()
    if "=" in word:
        place, _, more = word.partition("=")
        if place == "cut":
            return data[:int(more)]
        at, more = int(place), bytes.fromhex(more)
        return data[:at] + more + data[at + len(more):]
    piece, _, times = word.partition("*")
    name = piece.removeprefix("@")
    found = known[name] if name in known else bytes.fromhex(name)
    return data + (found.hex().encode() if piece != name else found) * int(times or 1)


def bytes_in(*names):
    """The bytes under each name of these files."""
    known, calls = {}, []
    for name in names:
        for line in (DATA / name).read_text().splitlines():
            if line.startswith("+ "):
                calls[-1] += line[1:]
            elif line.startswith("bytes "):
                calls.append(line)
    for call in calls:
        _, name, *words = call.split()
        data = b""
        for word in words:
            data = added(known, data, word)
        known[name] = data
    return known
