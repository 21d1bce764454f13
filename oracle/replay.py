#!/usr/bin/env python3
"""Holds a port's answers against the stored ones, and prints what the program `replay` prints of its own.

    python3 oracle/replay.py PORT crates/replay/data | diff - crates/replay/stdout

PORT is the program `worlds`; it is run on each NAME.in of the folder. Its answers are held against NAME.answers, line by line,
and against NAME.rustc, if there is one. The folder's README.md says how these are written. The status is 1 where a line is not as
written.
"""
import collections
import itertools
import pathlib
import subprocess
import sys

# A verdict: alike, a difference's name, or not as written.
ALIKE, NEITHER = "", None


def hold(stored, answer):
    parts = stored.split("|") if stored is not None else []
    if len(parts) == 1 and parts[0] == answer:
        return ALIKE
    if len(parts) == 3 and parts[1] == answer != parts[2]:
        return parts[0]
    return NEITHER


def hold_rustc(line, answers):
    *name, words = line.split("|")
    at, *said = words.split(" ")
    answer = answers[int(at) - 1].split(" ")
    if answer[0] != "ask":
        return NEITHER
    defs = [entry.split(",")[0] for entry in answer[1:4]] if answer[5] == "-" else ["-"] * 3
    agrees = all(one in ("*", other) for one, other in zip(said, defs))
    if name:
        return NEITHER if agrees else name[0]
    return ALIKE if agrees else NEITHER


def tell(file, verdicts):
    counts = collections.Counter(verdicts)
    print(f"{file}, {len(verdicts)} lines")
    print(f"{counts.pop(ALIKE, 0):>8} alike")
    wrong = counts.pop(NEITHER, 0)
    for name, count in sorted(counts.items()):
        print(f"{count:>8} {name}")
    print(f"{wrong:>8} not as written")
    for at, verdict in enumerate(verdicts, 1):
        if verdict is NEITHER:
            print(f"{file}, line {at}: not as written")
    return wrong == 0


def main():
    if len(sys.argv) != 3:
        sys.exit(__doc__)
    is_as_written = True
    for path in sorted(pathlib.Path(sys.argv[2]).glob("*.in"), reverse=True):
        answers = subprocess.run([sys.argv[1]], input=path.read_bytes(), stdout=subprocess.PIPE).stdout.decode().splitlines()
        stored = path.with_suffix(".answers")
        verdicts = [hold(*pair) for pair in itertools.zip_longest(stored.read_text().splitlines(), answers)]
        is_as_written &= tell(stored.name, verdicts)
        said = path.with_suffix(".rustc")
        if said.exists():
            is_as_written &= tell(said.name, [hold_rustc(line, answers) for line in said.read_text().splitlines()])
    sys.exit(not is_as_written)


main()
