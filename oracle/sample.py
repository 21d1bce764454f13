#!/usr/bin/env python3
"""Makes the sample of the Rust's answers that the gate replays: sample.in and sample.answers of crates/replay/data.

    python3 oracle/sample.py RUST SEED FOLDER

RUST is the program that oracle/build.py made. The worlds are those of oracle/worlds.py by SEED, cut down to some of their
questions, so that each kind of path, mode, edition, shadow mode and macro kind comes in each combination, each refusal and
each named difference often. Written to FOLDER are

    sample.in       the worlds in the lines of the program `worlds`
    sample.answers  a line for each that `worlds` prints: ANSWER, or NAME|ANSWER|ANSWER where the rules (first) and the Rust
                    answer otherwise than each other, by the difference of that name; the rules' are those of oracle/rules.py
"""
import collections
import os
import pathlib
import random
import sys

sys.path.insert(0, os.path.dirname(__file__))
import compare
import rules
import worlds

ENOUGH = 4500
OF_A_NAME = 20
OF_A_COMBINATION = 6


def by_rules(ways, line):
    words = line.split(" ")
    try:
        if words[0] == "deliver":
            return ways.deliver(words)
        if words[0] == "place":
            entries = ways.places.get((int(words[1]), int(words[2])), rules.NO_ENTRIES)
            return "place " + " ".join(",".join(entry) if entry else "-" for entry in entries)
        return (ways.ask if words[0] == "ask" else ways.sight)(words, rules.NONE)
    except rules.Refused as refusal:
        return str(refusal)


class Sample:
    def __init__(self, rust):
        self.rust = rust
        self.combinations, self.names = collections.Counter(), collections.Counter()
        self.input, self.stored, self.answers, self.otherwise = [], [], 0, 0

    def new(self, words, name, answer, edition):
        """Whether a question's answer is still wanted."""
        if name and self.names[name] < OF_A_NAME or answer.startswith("refused") and self.names[answer] < OF_A_NAME:
            return True
        return words[0] == "ask" and self.combinations[self.combination(words, edition)] < OF_A_COMBINATION

    def combination(self, words, edition):
        return words[3].split(":")[0], words[1], edition, words[5], words[6]

    def take(self, lines, fill):
        rust = iter(compare.run(self.rust, "\n".join(lines) + "\n"))
        port, ways, loaded = rules.World(), compare.Ways(), False
        chosen, fresh = [], 0
        for line in lines:
            words = line.split(" ")
            if words[0] == "world":
                next(rust)
                chosen.append((line, None, None, None))
            elif not loaded:
                chosen.append((line, None, None, None))
                port.row(words)
                ways.row(words)
                if line == "go":
                    port.go()
                    ways.go()
                    loaded = True
            else:
                answer, other = by_rules(port, line), next(rust)
                name, why = compare.explain(ways, line, answer, other)
                if name is None:
                    sys.exit(f"{lines[0]}: {line}: {answer}; the Rust: {other}; {why}")
                module = int(words[2]) if words[0] == "ask" else 0
                edition = port.editions[port.modules[module][0]] if module < len(port.modules) else "-"
                if words[0] != "deliver":
                    if name.startswith(compare.ROWS):
                        continue
                    if self.new(words, name, answer, edition):
                        fresh += 1
                    elif fill <= 0 or name or answer.startswith("refused") or " - - - " in answer:
                        continue
                    else:
                        fill -= 1
                    if words[0] == "ask":
                        self.combinations[self.combination(words, edition)] += 1
                if name:
                    self.names[name] += 1
                if answer.startswith("refused"):
                    self.names[answer] += 1
                chosen.append((line, name, other, answer))
        if fresh < 3:
            return
        for line, name, other, answer in chosen:
            self.input.append(line)
            if line.startswith("world "):
                self.stored.append(line)
            if name is not None:
                self.answers += 1
                self.stored.append(f"{name}|{answer}|{other}" if name else other)
                if name:
                    self.otherwise += 1


def main():
    if len(sys.argv) != 4:
        sys.exit(__doc__)
    sample, seed, folder = Sample(sys.argv[1]), int(sys.argv[2]), pathlib.Path(sys.argv[3])
    for lines in worlds.worlds(seed, 15, "limits"):
        sample.take(lines, 0)
    for lines in worlds.worlds(seed, 400, "random"):
        sample.take(lines, 15 if sample.answers < ENOUGH else 0)
    folder.mkdir(parents=True, exist_ok=True)
    (folder / "sample.in").write_text("\n".join(sample.input) + "\n")
    (folder / "sample.answers").write_text("\n".join(sample.stored) + "\n")
    lines = len(sample.stored)
    print(f"{lines} lines: {lines - sample.otherwise} alike, {sample.otherwise} otherwise as named; {sample.answers} answers")
    print(f"{len(sample.combinations)} combinations, the rarest {min(sample.combinations.values())} times")
    for name, count in sorted(sample.names.items()):
        print(f"    {count:>5} {name}")


if __name__ == "__main__":
    main()
