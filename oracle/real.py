#!/usr/bin/env python3
"""Runs the worlds of real crates and tells where rustc answers otherwise, each place by its name.

    python3 oracle/real.py PORT FOLDER [RUST]

PORT is the program `worlds`. FOLDER has, for each world NAME, NAME.in.txt.gz (the world), NAME.want.txt.gz (what the rules
answer, line by line), NAME.rustc.txt.gz (LINE T V M: what rustc says, a def, `-` for nothing, `*` for not told; LINE counts
the answers from 1), NAME.names.txt.gz (the names) and NAME.rust.txt.gz (LINE ANSWER, where the Rust answers otherwise).
RUST is the program that oracle/build.py made; without it the Rust's answers are not compared.

Where an answer is not the rules' or the Rust's, or where rustc says otherwise for none of the reasons below, the place is
printed and the status is 1.
"""
import collections
import gzip
import pathlib
import subprocess
import sys

# Names that macros 2.0 write and that their own hygiene resolves where the macro stands: `const_eval_select!` of core, and
# `weak!` and `dlsym!` of std.
HYGIENE = {"const_eval_select", "ExternWeak", "DlsymWeak"}
# Crates that a world leaves out.
LEFT_OUT = {"libc"}


def lines(folder, name, kind):
    path = folder / f"{name}.{kind}.txt.gz"
    return gzip.open(path, "rt").read().split("\n")[:-1] if path.exists() else []


def reason(world, words, answer, said):
    """Why rustc says otherwise, or None."""
    module, names = int(words[2]), [world.names[int(name)] for name in words[4].split(".") if name != "-"]
    number = words[4].split(".")[-1]
    nothing = answer[1:4] == ["-", "-", "-"]
    if len(names) == 1 and said[0] == f"builtin:{number}" and world.blocks[module] != "-":
        if nothing:
            return "no-built-in-type-inside-a-block"
        if answer[1].startswith("mod:"):
            return "no-built-in-type-inside-a-block, of a module that the block imports"
    if nothing and len(names) == 1 and names[0] in HYGIENE and any((number, one) in world.named for one in said):
        return "left-to-hygiene"
    if nothing and names[0] in LEFT_OUT:
        return "in-a-crate-left-out"
    if nothing and len(names) == 1 and any((out, number) in world.unfound for out in world.outward(module)):
        return "imported-from-a-crate-left-out"
    return None


class World:
    def __init__(self, commands, names):
        self.names, self.blocks, self.parents, self.outside = names, [], [], {}
        # The names and defs that stand in some module.
        self.named = set()
        # The modules and last names of imports from crates that are left out.
        self.unfound = set()
        for line in commands:
            words = line.split(" ")
            if words[0] == "module":
                self.blocks.append(words[2])
                self.parents.append(words[3])
            elif words[0] == "block":
                self.outside[int(words[1])] = int(words[2])
            elif words[0] == "deliver":
                self.named.update((words[2], entry.split(",")[0]) for entry in words[3:6])
            elif words[0] == "ask" and words[1] == "import" and words[4] != "-":
                path = words[4].split(".")
                if names[int(path[0])] in LEFT_OUT:
                    self.unfound.add((int(words[2]), path[-1]))

    def outward(self, module):
        while module is not None:
            yield module
            parent = self.parents[module]
            module = int(parent) if parent != "-" else self.outside.get(module)


def told(answer):
    """What an answer says beside rustc's: three defs; with an index it says nothing."""
    entries = answer[1:4] if answer[5] == "-" else ["-"] * 3
    return [entry.split(",")[0] for entry in entries]


def main():
    if len(sys.argv) not in (3, 4):
        sys.exit(__doc__)
    folder = pathlib.Path(sys.argv[2])
    reasons, total, failed = collections.Counter(), collections.Counter(), False
    for path in sorted(folder.glob("*.in.txt.gz"), key=lambda path: path.stat().st_size):
        name = path.name.split(".")[0]
        text = gzip.open(path).read()
        want = lines(folder, name, "want")
        commands = [line for line in text.decode().split("\n") if line.split(" ")[0] in ("world", "deliver", "ask", "place", "sight")]
        runs = [("port", sys.argv[1], want)]
        if len(sys.argv) == 4:
            rust = list(want)
            for line in lines(folder, name, "rust"):
                at, answer = line.split(" ", 1)
                rust[int(at) - 1] = answer
            runs.append(("Rust", sys.argv[3], rust))
        for who, program, wanted in runs:
            answers = subprocess.run([program], input=text, stdout=subprocess.PIPE).stdout.decode().split("\n")[:-1]
            bad = [at for at, (one, other) in enumerate(zip(answers, wanted)) if one != other]
            if bad or len(answers) != len(wanted):
                failed = True
                print(f"{name}: the {who} gives {len(answers)} answers, {len(wanted)} are wanted, {len(bad)} differ")
                for at in bad[:5]:
                    print(f"    {commands[at]}: {answers[at]}; wanted {wanted[at]}")
            total[who] += len(answers)
        world = World(text.decode().split("\n"), lines(folder, name, "names"))
        counts = collections.Counter()
        for line in lines(folder, name, "rustc"):
            at, *said = line.split(" ")
            words, answer = commands[int(at) - 1].split(" "), want[int(at) - 1].split(" ")
            counts["told"] += 1
            if all(one in ("*", other) for one, other in zip(said, told(answer))):
                counts["alike"] += 1
                continue
            counts["otherwise"] += 1
            why = reason(world, words, answer, said)
            if why is None:
                failed = True
                print(f"{name}: {commands[int(at) - 1]}: {want[int(at) - 1]}; rustc says {' '.join(said)}")
            else:
                reasons[name, why] += 1
        total.update(counts)
        print(f"{name}: {len(want):,} answers; told by rustc {counts['told']:,}, alike {counts['alike']:,}, otherwise {counts['otherwise']:,}")
    print(f"all: {dict(total)}")
    for (name, why), count in sorted(reasons.items()):
        print(f"    {count:>4} {name}: {why}")
    sys.exit(failed)


if __name__ == "__main__":
    main()
