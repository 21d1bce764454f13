#!/usr/bin/env python3
"""Times the port beside the Rust's own text, on the same worlds and the same questions, in one run.

    python3 bench/run.py SOURCES BUILD [REAL]

SOURCES has the crate's files and BUILD lies outside the repository, as for oracle/build.py. REAL is a folder with worlds of real
crates, NAME.in.txt.gz. The port is proved and built by `rt run` in crates/bench, if that is needed. Written are docs/BENCHMARKS.md and
docs/growth.svg.

Both programs read a world before any clock starts. They run five times each, or twice on a real world, in turns; in a run a group of questions is timed forty
times, and the shortest time of all counts. Memory is the most that a run held, less what a run held that only read the input.
"""
import gzip
import os
import pathlib
import platform
import shutil
import subprocess
import sys
import tempfile

import world as worlds

HERE = pathlib.Path(__file__).resolve().parent
ROOT = HERE.parent
# How often a made world is run, and a real one.
RUNS, REAL_RUNS = 5, 2


def build_rust(sources, build):
    subprocess.run([sys.executable, ROOT / "oracle/build.py", sources, build], check=True, stdout=subprocess.DEVNULL)
    shutil.copyfile(HERE / "driver.rs", build / "driver.rs")
    subprocess.run(
        ["rustc", "--edition", "2024", "--cap-lints", "allow", "-O", "--crate-name", "rust_bench", "--extern", "tracing=libmarks.so",
         "--extern", "salsa=libmarks.so", "around.rs"], cwd=build, check=True)
    return build / "rust_bench"


def build_port():
    crate = ROOT / "crates/bench"
    subprocess.run(["rt", "run", "--", "counts", crate / "data/tiny.txt"], cwd=crate, check=True, stdout=subprocess.DEVNULL, stderr=subprocess.DEVNULL)
    return crate / "out/bench"


def run_alone(program, what, path):
    """Runs a program, and prints how many kilobytes it held at most. The process that waits is a small one, since a child's share
    counts what its parent held."""
    child = os.fork()
    if child == 0:
        os.execv(program, [program, what, path])
    _, status, usage = os.wait4(child, 0)
    print(usage.ru_maxrss)
    sys.exit(bool(status))


def run(program, what, path):
    """The lines that a program prints, and how many kilobytes it held at most."""
    words = [sys.executable, __file__, "--alone", program, what, path]
    lines = subprocess.run(words, check=True, stdout=subprocess.PIPE, text=True).stdout.splitlines()
    return [line.split(" ") for line in lines[:-1]], int(lines[-1])


def lines_of(program, path):
    """For each line its name, its two counts and its time in ns; and the memory."""
    lines, held = run(program, "times", path)
    lines = [(what, int(of), int(outcome), int(time)) for what, of, outcome, time in lines]
    groups = lines[2:]
    return lines[:2] + [min(groups[at:at + worlds.COPIES], key=lambda one: one[3]) for at in range(0, len(groups), worlds.COPIES)], held


def shortest(best, lines):
    return lines if best is None else [(*one[:3], min(one[3], other[3])) for one, other in zip(best, lines)]


def timed(port, rust, path, path_rust, runs):
    """The shortest times of both, whose runs take turns, and the memory of both beside the input's."""
    of_port, of_rust, held_port, held_rust = None, None, 0, 0
    for _ in range(runs):
        lines, held = lines_of(port, path)
        of_port, held_port = shortest(of_port, lines), max(held_port, held)
        lines, held = lines_of(rust, path_rust)
        of_rust, held_rust = shortest(of_rust, lines), max(held_rust, held)
    return of_port, of_rust, held_port - run(port, "input", path)[1], held_rust - run(rust, "input", path_rust)[1]


class Row:
    """A time of both, in nanoseconds; without the Rust's, the ratio is none."""

    def __init__(self, what, port, rust, note=""):
        self.what, self.port, self.rust, self.note = what, port, rust, note

    def cells(self, unit):
        rust = unit(self.rust) if self.rust is not None else self.note
        ratio = f"{self.port / self.rust:.2f}" if self.rust else ""
        return f"| {self.what} | {unit(self.port)} | {rust} | {ratio} |"


def ns(time):
    return f"{time:,.0f} ns" if time < 100_000 else ms(time)


def ms(time):
    return f"{time / 1e6:,.1f} ms"


def mb(kilobytes):
    return f"{kilobytes / 1024:,.1f} MB"


def measure(rust, port, world, folder):
    path, path_rust = folder / "world.txt", folder / "rust.txt"
    path.write_text(world.numbers(False))
    path_rust.write_text(world.numbers(True))
    of_port, of_rust, port_memory, rust_memory = timed(port, rust, path, path_rust, REAL_RUNS if world.name.startswith("real ") else RUNS)
    rows = [
        Row("load, in all", of_port[0][3], of_rust[0][3]),
        Row("a delivery", of_port[1][3] / of_port[1][1], of_rust[1][3] / of_rust[1][1]),
    ]
    differing = []
    if of_port[1][2] != of_rust[1][2]:
        differing.append(f"deliveries that changed a place: {of_port[1][2]:,}, the Rust {of_rust[1][2]:,}")
    asked, piled = of_port[2:2 + len(world.groups)], of_port[2 + len(world.groups):]
    rest = iter(of_rust[2:])
    for (kind, questions, rounds, ends), one, pile in zip(world.groups, asked, piled):
        count = len(questions) * rounds
        other = next(rest) if ends else None
        rows.append(Row(kind, one[3] / count, other[3] / count if ends else None, "does not end"))
        rows.append(Row(f"{kind}, through three variants", pile[3] / count, None))
        if ends and one[2] != other[2]:
            differing.append(f"{kind}: {one[2]:,} entries, the Rust {other[2]:,}")
    return rows, Row("memory", port_memory, rust_memory), differing


def shape(world):
    blocks = len(world.blocks)
    return f"{len(world.crates)} crates, {len(world.modules):,} modules ({blocks:,} blocks), {len(world.deliveries):,} deliveries"


def table(world, rows, memory, differing):
    lines = [f"### {world.name}", "", shape(world) + ".", "", "| | port | Rust | port / Rust |", "|---|---|---|---|"]
    lines += [row.cells(ns) for row in rows] + [memory.cells(mb)]
    if differing:
        lines += ["", "Answered otherwise by a named difference: " + "; ".join(differing) + "."]
    return lines + [""]


def plot(path, sizes, series):
    """Time per thing against the number of places, both by powers of two."""
    import math

    width, height, left, top = 640, 380, 70, 30
    xs = [math.log2(size) for size in sizes]
    all_ = [value for _, values, _ in series for value in values if value]
    low, high = math.floor(math.log2(min(all_))), math.ceil(math.log2(max(all_)))
    x = lambda size: left + (math.log2(size) - xs[0]) / (xs[-1] - xs[0]) * (width - left - 190)
    y = lambda value: top + (high - math.log2(value)) / (high - low) * (height - top - 50)
    colours = ["#1f77b4", "#d62728", "#2ca02c", "#9467bd", "#8c564b", "#e377c2"]
    out = [f'<svg xmlns="http://www.w3.org/2000/svg" width="{width}" height="{height}" font-family="sans-serif" font-size="12">',
           f'<rect width="{width}" height="{height}" fill="white"/>']
    for power in range(low, high + 1):
        out.append(f'<line x1="{left}" x2="{width - 190}" y1="{y(2 ** power):.1f}" y2="{y(2 ** power):.1f}" stroke="#ddd"/>')
        out.append(f'<text x="{left - 8}" y="{y(2 ** power) + 4:.1f}" text-anchor="end">{2 ** power:,} ns</text>')
    for size in sizes:
        out.append(f'<text x="{x(size):.1f}" y="{height - 28}" text-anchor="middle">{size:,}</text>')
    out.append(f'<text x="{(left + width - 190) / 2}" y="{height - 8}" text-anchor="middle">places</text>')
    for at, (what, values, dashed) in enumerate(series):
        colour = colours[at // 2 % len(colours)]
        dash = ' stroke-dasharray="5 4"' if dashed else ""
        points = " ".join(f"{x(size):.1f},{y(value):.1f}" for size, value in zip(sizes, values))
        out.append(f'<polyline points="{points}" fill="none" stroke="{colour}" stroke-width="2"{dash}/>')
        out.append(f'<line x1="{width - 180}" x2="{width - 150}" y1="{top + 18 * at}" y2="{top + 18 * at}" stroke="{colour}" stroke-width="2"{dash}/>')
        out.append(f'<text x="{width - 145}" y="{top + 4 + 18 * at}">{what}</text>')
    path.write_text("\n".join(out + ["</svg>"]) + "\n")


KINDS = ["a delivery", "one name", "long paths", "foreign paths", "deep blocks", "to and fro, 12 names"]
GROWING = KINDS[:5]
MADE = ("small", "middle", "large")
# The same worlds with fewer questions, which are asked again and again.
AGAIN = ("middle, asked again", "large, asked again")


def ratios(measured):
    """The port's time as a part of the Rust's, for each kind and each made world."""
    lines = ["| port / Rust | " + " | ".join(MADE) + " |", "|---" * (len(MADE) + 1) + "|"]
    for what in ["load, in all", *KINDS, "memory"]:
        cells = [measured[name][what] for name in MADE]
        lines.append(f"| {what} | " + " | ".join(f"{one.port / one.rust:.2f}" if one.rust > 0 else "" for one in cells) + " |")
    return lines + [""]


def names_in(world):
    """How many names a path of each kind has on the average."""
    return {kind: sum(len(one[6]) for one in questions) / len(questions) for kind, questions, _, _ in world.groups}


def growth(measured, sizes):
    lines = [f"From middle to large, {sizes[1]:,} to {sizes[2]:,} places, a time grows by", "", "| | port | port, for each name of a path | Rust |",
             "|---|---|---|---|"]
    middle, large = measured["middle"], measured["large"]
    for what in GROWING:
        lines.append(f"| {what} | " + " | ".join(grown(what, middle, large)) + " |")
        piled = f"{what}, through three variants"
        if piled in large:
            lines.append(f"| {piled} | " + " | ".join(grown(piled, middle, large)) + " |")
    lines += ["", "and where 250 questions of each kind are asked again and again, so that what they read lies near the processor by then, by", "",
              "| | port | port, for each name of a path | Rust |", "|---|---|---|---|"]
    middle, large = (measured[name] for name in AGAIN)
    lines += [f"| {what} | " + " | ".join(grown(what, middle, large)) + " |" for what in GROWING[1:]]
    per_row = [measured[name]["load, in all"].port / measured[name]["rows"] for name in MADE[1:]]
    return lines + ["", f"Load takes {per_row[0]:.1f} ns for each row lent in the middle world and {per_row[1]:.1f} ns in the large one.", ""]


def grown(what, middle, large):
    """By how much the port's time grows, the same for each name of a path, and the Rust's."""
    kind = what.split(", through")[0]
    port, names = large[what].port / middle[what].port, large["names"].get(kind, 1) / middle["names"].get(kind, 1)
    rust = f"{large[what].rust / middle[what].rust:.2f}" if large[what].rust else ""
    return f"{port:.2f}", f"{port / names:.2f}", rust


def main():
    if sys.argv[1:2] == ["--alone"]:
        run_alone(*sys.argv[2:])
    if len(sys.argv) not in (3, 4):
        sys.exit(__doc__)
    sources, build = pathlib.Path(sys.argv[1]), pathlib.Path(sys.argv[2])
    rust, port = build_rust(sources, build), build_port()
    made = [
        worlds.make("small", 2, 10, 3, 60, 40, 50, 1),
        worlds.make("middle", 4, 500, 120, 10_000, 2000, 1, 2),
        worlds.make("large", 8, 4096, 1000, 150_000, 4000, 1, 3),
        worlds.make(AGAIN[0], 4, 500, 120, 10_000, 250, 8, 2),
        worlds.make(AGAIN[1], 8, 4096, 1000, 150_000, 250, 16, 3),
    ]
    real = sorted(pathlib.Path(sys.argv[3]).glob("*.in.txt.gz"), key=lambda path: path.stat().st_size) if len(sys.argv) == 4 else []
    for path in real:
        text = gzip.open(path, "rt").read()
        made.append(worlds.read("real " + path.name.split(".")[0], text, max(1, 4000 // text.count("\nask "))))
    load, said, measured = os.getloadavg()[0], [], {}
    with tempfile.TemporaryDirectory() as folder:
        for world in made:
            rows, memory, differing = measure(rust, port, world, pathlib.Path(folder))
            measured[world.name] = {row.what: row for row in [*rows, memory]} | {"rows": world.rows, "names": names_in(world)}
            lines = table(world, rows, memory, differing)
            print("\n".join(lines), flush=True)
            said += lines
    sizes = [len({one[:2] for one in world.deliveries}) for world in made[:3]]
    series = []
    for what in GROWING:
        series.append((f"{what}, port", [measured[name][what].port for name in MADE], False))
        series.append((f"{what}, Rust", [measured[name][what].rust for name in MADE], True))
    plot(ROOT / "docs/growth.svg", sizes, series)
    kit = subprocess.run(["rt", "version"], stdout=subprocess.PIPE, text=True).stdout.strip()
    rustc = subprocess.run(["rustc", "--version"], stdout=subprocess.PIPE, text=True).stdout.strip()
    machine = next((line.split(":")[1].strip() for line in open("/proc/cpuinfo") if line.startswith("model name")), platform.machine())
    page = [(HERE / "head.md").read_text()]
    page.append(f"The figures are of one run: {kit}; {rustc}; {machine}, {os.cpu_count()} processors; load average {load:.1f} at the start and {os.getloadavg()[0]:.1f} at the end.\n")
    page.append("\n".join(["## Ratios", "", *ratios(measured), "## Growth", "", *growth(measured, sizes), "![time against places](growth.svg)", ""]))
    page.append((HERE / "profile.md").read_text())
    page.append("\n".join(["## The worlds one by one", "", *said]))
    (ROOT / "docs/BENCHMARKS.md").write_text("\n".join(page).rstrip("\n") + "\n")


main()
