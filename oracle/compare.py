#!/usr/bin/env python3
"""Runs the Rust and the port on the same worlds, and explains every difference by its name, or fails.

    python3 oracle/compare.py RUST PORT WORLDS..

RUST is the program that oracle/build.py made. PORT is the program `worlds`, or the word `try` for `rt try` in crates/worlds,
which needs no proof. Each of WORLDS is a file with worlds, or KIND:SEED:COUNT for worlds that oracle/worlds.py makes (KIND
being random, short or limits).

Every answer of the port must be that of the written rules (oracle/rules.py without a switch), and every answer of the Rust
that of the rules with all switches on. Where the two answers differ, the smallest set of switches that turns the port's
answer into the Rust's is its explanation. Panics of the Rust, questions that it does not end, and what the port refuses are
counted apart. The first unexplained line is cut down to a small world and printed, and the status is 1.
"""
import collections
import itertools
import os
import pathlib
import subprocess
import sys

sys.path.insert(0, os.path.dirname(__file__))
import rules
import worlds

HERE = pathlib.Path(__file__).resolve().parent
SETS = [frozenset(some) for size in range(len(rules.SWITCHES) + 1)
        for some in itertools.combinations(rules.SWITCHES, size)]
ROWS = "refused-for-rows"
NOTHING = "refused-for-nothing-filled"
LONG = "refused-for-its-length"
NUMBER = "refused-for-a-number"
ENDLESS = "exponential-asking"
CHUNK = 1 << 20
ANSWERED = ("world", "deliver", "ask", "place", "sight")
REMOVABLE = {"deliver", "extern", "macrouse", "prelude", "legacy", "variant", "make", "rows"}


def run(program, text):
    if program == "try":
        done = subprocess.run(["rt", "try", "--seconds", "900"], cwd=HERE.parent / "crates/worlds", input=text.encode(),
                              capture_output=True)
    else:
        done = subprocess.run([program], input=text.encode(), capture_output=True)
    if done.returncode:
        sys.exit(f"{program} ended with status {done.returncode}: {done.stderr.decode()[-2000:]}")
    return done.stdout.decode().split("\n")[:-1]


class Ways:
    """The port's and the Rust's models of one world, which differ in what was refused."""

    def __init__(self):
        self.port, self.rust = rules.World(), rules.World()
        self.apart = False

    def row(self, words):
        self.port.row(words)
        self.rust.row(words)

    def go(self):
        self.port.go()
        self.rust.go()


def explain(ways, line, port, rust):
    """The name of what makes the answers differ, an empty one where they are the same, or None with what is wrong."""
    words = line.split(" ")
    command = words[0]
    if command == "deliver":
        try:
            said = ways.port.deliver(words)
        except rules.Refused as refusal:
            said = str(refusal)
        if said != port:
            return None, f"the rules: {said}"
        if port.startswith(("refused index 1", "refused index 4", "refused index 6")):
            return (NUMBER, "") if rust == "outside" else (None, "the Rust was asked")
        said = ways.rust.deliver(words, rust=True)
        if said != rust:
            return None, f"the rules with all differences: {said}"
        if port.startswith("refused index 7"):
            ways.apart = True
            return ROWS, ""
        if port.startswith("refused index 5"):
            return NOTHING, ""
        if port != rust:
            return (ROWS, "") if ways.apart else (None, "no rule")
        return "", ""
    if command == "place":
        key = int(words[1]), int(words[2])
        said = ["place " + " ".join(",".join(entry) if entry else "-" for entry in way.places.get(key, rules.NO_ENTRIES))
                for way in (ways.port, ways.rust)]
        if port.startswith("refused"):
            return (NUMBER, "") if rust == "outside" else (None, "the Rust was asked")
        if said != [port, rust]:
            return None, f"the rules: {said[0]}; with all differences: {said[1]}"
        return (ROWS if port != rust else ""), ""
    if command not in ("ask", "sight"):
        return None, "no command that is compared"
    tell = ways.port.sight if command == "sight" else ways.port.ask
    try:
        said = tell(words, rules.NONE)
    except rules.Refused as refusal:
        if str(refusal) != port:
            return None, f"the rules: {refusal}"
        if port == "refused path 2 64":
            try:
                said = ways.rust.ask(words, rules.ALL, panics=True, long=True)
            except rules.Panic as panic:
                said = "panic"
            return (LONG, "") if rust in (said, "endless") else (None, f"the rules with all differences: {said}")
        if port == "refused path 2 255":
            return (LONG, "") if rust == "outside" else (None, "the Rust was asked")
        return (NUMBER, "") if rust == "outside" else (None, "the Rust was asked")
    if said != port:
        return None, f"the rules: {said}"
    if rust == "endless":
        return ENDLESS, ""
    if command == "ask":
        try:
            said = ways.rust.ask(words, rules.ALL, panics=True)
        except rules.Panic as panic:
            return (str(panic), "") if rust == "panic" else (None, f"the rules with all differences: {panic}")
    else:
        said = ways.rust.sight(words, rules.ALL)
    if said != rust:
        return None, f"the rules with all differences: {said}"
    if port == rust:
        return "", ""
    for on in SETS:
        if tell(words, on) == rust:
            return " + ".join(name for name in rules.SWITCHES if name in on), ""
    if ways.apart:
        tell = ways.rust.sight if command == "sight" else ways.rust.ask
        for on in SETS:
            if tell(words, on) == rust:
                return " + ".join([ROWS] + [name for name in rules.SWITCHES if name in on]), ""
    return None, "no set of differences"


def split(lines):
    """The worlds of an input: a list of lines each."""
    one = []
    for line in lines:
        if not line or line.startswith("#"):
            continue
        if line.startswith("world") and one:
            yield one
            one = []
        one.append(line)
    if one:
        yield one


class Comparison:
    def __init__(self, rust, port):
        self.rust, self.port = rust, port
        self.counts = collections.Counter()
        self.lines = collections.Counter()
        self.kinds = collections.Counter()
        self.found = {}

    def world(self, lines, port, rust):
        """Compares one world's answers; the first line that is unexplained, or None."""
        ways, loaded = Ways(), False
        port, rust = iter(port), iter(rust)
        for at, line in enumerate(lines):
            if line.startswith("world"):
                next(port), next(rust)
            elif not loaded:
                if line == "go":
                    ways.go()
                    loaded = True
                else:
                    ways.row(line.split(" "))
            else:
                one, other = next(port), next(rust)
                name, why = explain(ways, line, one, other)
                if name is None:
                    return at, one, other, why
                self.count(ways, line, one, name)
        return None

    def count(self, ways, line, answer, name):
        words = line.split(" ")
        self.lines[words[0]] += 1
        if answer.startswith("refused"):
            self.lines[words[0] + " refused"] += 1
        if name:
            self.counts[words[0], name] += 1
            self.found.setdefault((words[0], name), line)
        if words[0] == "ask" and int(words[2]) < len(ways.port.modules):
            edition = ways.port.editions[ways.port.modules[int(words[2])][0]]
            self.kinds[words[3].split(":")[0], words[1], edition] += 1
            self.kinds["shadow", words[5], words[6]] += 1

    def compare(self, batch):
        text = "\n".join("\n".join(lines) for lines in batch) + "\n"
        port, rust = run(self.port, text), run(self.rust, text)
        if len(port) != len(rust):
            sys.exit(f"the port prints {len(port)} lines, the Rust {len(rust)}")
        at = 0
        for lines in batch:
            answers = sum(1 for line in lines if line.startswith(ANSWERED))
            bad = self.world(lines, port[at:at + answers], rust[at:at + answers])
            at += answers
            if bad:
                return lines, bad
        if at != len(port):
            sys.exit("the port or the Rust refuses a load, or a line is bad")
        return None

    def smaller(self, lines, bad):
        """The world cut down: the one unexplained question, and no line that is not needed for that."""
        go = lines.index("go")
        lines = lines[:go + 1] + [line for line in lines[go + 1:bad[0]] if line.startswith("deliver")] + [lines[bad[0]]]
        known, size = bad, len(lines) // 2
        while size:
            cut = [at for at in range(len(lines) - 1) if lines[at].split()[0] in REMOVABLE]
            tries = []
            for start in range(0, len(cut), size):
                gone = set(cut[start:start + size])
                tries.append([line for at, line in enumerate(lines) if at not in gone])
            text = "".join("\n".join(one) + "\n" for one in tries)
            port, rust = run(self.port, text), run(self.rust, text)
            at = 0
            for one in tries:
                answers = sum(1 for line in one if line.startswith(ANSWERED))
                found = Comparison(None, None).world(one, port[at:at + answers], rust[at:at + answers])
                at += answers
                if found and found[0] == len(one) - 1:
                    lines, known = one, found
                    break
            else:
                size //= 2
        return lines, known

    def print(self):
        print("lines compared")
        for name, count in sorted(self.lines.items()):
            print(f"    {count:>9,} {name}")
        print("questions by kind, mode and edition")
        for key, count in sorted(self.kinds.items()):
            print(f"    {count:>9,} {' '.join(key)}")
        print("differences")
        for (command, name), count in sorted(self.counts.items(), key=lambda it: (it[0][0], -it[1])):
            print(f"    {count:>9,} {command}: {name}")


def main():
    if len(sys.argv) < 4:
        sys.exit(__doc__)
    entries = (HERE.parent / "docs/DIFFERENCES.md").read_text()
    for name in (*rules.SWITCHES, rules.PANIC_PRELUDE, rules.PANIC_LAST, ROWS, NOTHING, LONG, NUMBER, ENDLESS):
        if f"## {name}\n" not in entries and f"*{name}.*" not in entries:
            sys.exit(f"docs/DIFFERENCES.md has no entry {name}")
    comparison = Comparison(sys.argv[1], sys.argv[2])
    batch, size = [], 0

    def inputs():
        for word in sys.argv[3:]:
            parts = word.split(":")
            if len(parts) == 3 and parts[0] in ("random", "short", "limits"):
                yield from worlds.worlds(int(parts[1]), int(parts[2]), parts[0])
            else:
                yield from split(pathlib.Path(word).read_text().split("\n"))

    def done(batch):
        found = comparison.compare(batch)
        if found:
            lines, bad = found
            print(f"unexplained in {lines[0]}: {lines[bad[0]]}", file=sys.stderr)
            lines, bad = comparison.smaller(lines, bad)
            print("\n".join(lines))
            print(f"# the port: {bad[1]}\n# the Rust: {bad[2]}\n# {bad[3]}")
            sys.exit(1)

    for lines in inputs():
        batch.append(lines)
        size += sum(map(len, lines)) + len(lines)
        if size > CHUNK:
            done(batch)
            batch, size = [], 0
    if batch:
        done(batch)
    comparison.print()


if __name__ == "__main__":
    main()
