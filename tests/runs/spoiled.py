"""Spoils every tenth answer of a program's files of cases, and sees that the program tells these and no others: spoiled.py PROGRAM CRATE

PROGRAM is the program as it was built, CRATE the folder of its crate, which has args and data."""
import re
import shutil
import subprocess
import sys
import tempfile
from pathlib import Path

TOLD = re.compile(r"line (\d+):")


def calls_in(lines):
    """The place of each call, and that of the line on which its answer stands: its own, or the first of several."""
    calls = []
    for at, line in enumerate(lines):
        if line.startswith("= "):
            if calls[-1][0] == calls[-1][1]:
                calls[-1] = (calls[-1][0], at)
        elif line and not line.startswith(("#", "== ", "+ ")):
            calls.append((at, at))
    return calls


def spoil(lines, first):
    """Other answers of every tenth call. Answers at which lines they stand."""
    spoiled = []
    for call, answer in calls_in(lines)[first::10]:
        lines[answer] += " spoiled" if answer > call or " =>" in lines[answer] else " => spoiled"
        spoiled.append(call + 1)
    return spoiled


def told_by(output, name):
    """The lines that the program tells of a file."""
    _, _, rest = f"\n{output}".partition(f"\n{name}: ")
    told = []
    for line in rest.splitlines()[1:]:
        if re.fullmatch(r"\S+\.cases: \d+ calls", line):
            break
        if TOLD.fullmatch(line):
            told.append(int(TOLD.fullmatch(line)[1]))
    return told


def main():
    program, crate = Path(sys.argv[1]).resolve(), Path(sys.argv[2])
    names = (crate / "args").read_text().split()
    wrong = 0
    with tempfile.TemporaryDirectory() as folder:
        shutil.copytree(crate / "data", folder, dirs_exist_ok=True)
        spoiled = {}
        for name in names:
            lines = (crate / "data" / name).read_text().splitlines()
            spoiled[name] = spoil(lines, sum(map(ord, name)) % 10)
            (Path(folder) / name).write_text("\n".join(lines) + "\n")
        done = subprocess.run([program, *names], cwd=folder, stdout=subprocess.PIPE, stdin=subprocess.DEVNULL)
        for name in names:
            told = told_by(done.stdout.decode(), name)
            is_right = told == spoiled[name]
            wrong += not is_right
            print(name, len(spoiled[name]), "spoiled,", "told" if is_right else f"but told are {told}, and spoiled {spoiled[name]}")
    print("status", done.returncode)
    sys.exit(1 if wrong or done.returncode != 1 else 0)


if __name__ == "__main__":
    main()
