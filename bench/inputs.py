#!/usr/bin/env python3
"""Makes large inputs of the programs `feqhazo` and `worlds`, and tells how long each takes and what it holds.

    python3 bench/inputs.py FEQHAZO WORLDS

A file of 150,000 places and 100,000 paths, and one of half of both. Standard output is not kept. WORLDS may be `-`.
"""
import os
import random
import sys
import tempfile


def firmware(places, paths):
    """A firmware tree of one crate with 2,000 modules, whose items are functions."""
    rng = random.Random(7)
    modules = [f"card::m{at}" for at in range(2000)]
    pool = [f"f{at}" for at in range(20_000)]
    lines = ["crate card 2021"] + [f"module {module}" for module in modules]
    held = []
    for at in range(places - len(modules)):
        module, name = modules[at % len(modules)], pool[at * 7 % len(pool)]
        held.append((module, name))
        lines.append(f"fn {name} in {module} {rng.choice(['pub', 'pub(crate)', 'private'])}")
    for _ in range(paths):
        module, name = rng.choice(held)
        lines.append(f"path crate::{module.removeprefix('card::')}::{name} from {rng.choice(modules)}")
    return "\n".join(lines) + "\n"


def world(places, paths):
    """The same as lines of `worlds`."""
    rng = random.Random(7)
    modules = range(1, 2001)
    lines = ["world", "crate 2021", "module 0 - -"] + ["module 0 - 0" for _ in modules]
    lines += ["names 30000", f"rows {places}", "go"]
    held = []
    for module in modules:
        lines.append(f"deliver 0 {25_000 + module} mod:{module},crate:0,- - - -")
    for at in range(places - len(modules)):
        module, name = modules[at % len(modules)], 19 + at * 7 % 20_000
        held.append((module, name))
        lines.append(f"deliver {module} {name} - fn:{at},{rng.choice(['pub', 'crate:0'])},- - -")
    for _ in range(paths):
        module, name = rng.choice(held)
        lines.append(f"ask other {rng.choice(modules)} crate {25_000 + module}.{name} module -")
    return "\n".join(lines) + "\n"


def run(words, path):
    """How many seconds of a processor a run takes, and how many megabytes it holds at most; its output goes nowhere."""
    child = os.fork()
    if child == 0:
        os.dup2(os.open(path, os.O_RDONLY), 0)
        os.dup2(os.open(os.devnull, os.O_WRONLY), 1)
        os.execv(words[0], words)
    _, status, usage = os.wait4(child, 0)
    if status:
        sys.exit(f"{words}: status {status}")
    return usage.ru_utime + usage.ru_stime, usage.ru_maxrss / 1024


def main():
    if len(sys.argv) != 3:
        sys.exit(__doc__)
    feqhazo, worlds = sys.argv[1:]
    print("| program | places | paths | file | processor seconds | memory |\n|---|---|---|---|---|---|")
    for name, program, make in (("feqhazo", [feqhazo, "-"], firmware), ("worlds", [worlds], world)):
        if program[0] == "-":
            continue
        for places, paths in ((75_000, 50_000), (150_000, 100_000)):
            with tempfile.NamedTemporaryFile("w") as file:
                file.write(make(places, paths))
                file.flush()
                size = os.path.getsize(file.name) / 1e6
                seconds, memory = min(run(program, file.name) for _ in range(2))
                print(f"| `{name}` | {places:,} | {paths:,} | {size:.1f} MB | {seconds:.2f} | {memory:,.0f} MB |", flush=True)


main()
