#!/usr/bin/env python3
"""Plants bugs by hand, one to a function, in a copy of the repository, and tells who catches each.

    python3 tools/planted.py COPY [--edits] [--crate NAME] [--bug NAME,NAME..] [--alone] [--tests] [--log FOLDER]

COPY is a clone whose crates have been checked once (`rt check` in each, lowest first), so that a check costs what was turned.
`planted_bugs.txt` beside this script has the bugs: `CRATE FILE NAME`, then pairs of lines `- OLD` and `+ NEW`, where OLD stands
once in the file. A line `@ IMPL` after the first names the impl whose law judges a bug of a type; a line `! fact` or `! shape` says of a
refusal in a proof file what was read there.

A function is proved from its own text, from contracts and from definitions, and from no other function's text. So bugs of one crate
that stand in different functions are planted together and checked at once, and each is judged by its own function. A bug that turns
no function (a type, a constant), and each that is not refused in its own function, is planted alone; so is one whose function calls one
that has no proof then, since that is not looked at. A second bug of the same function comes in the next round. `--alone` plants every bug alone.
With `--edits` the bugs are what the must-fail edits that turn several functions do to each of these, so that it is seen of each whether it
is refused.

For each bug one line is printed: the crate, the name, and

    clause      the prover refuses it at what the turned function promises or owes, or at a law or an invariant of the code
    proof       it refuses it in a file of proofs/: by a fact that fails there, or since the file no longer fits (read by hand)
    compiler    the text does not compile, so it shows nothing
    test        every proof of the crate stands, and a test or a program's output tells
    survived    nothing tells

and where. Tests and programs are tried unproved (`rt try`), those of the crates above the bug's, and only with `--tests`; without
it the last two are `stands`.
"""
import pathlib
import re
import shutil
import subprocess
import sys
import time

HERE = pathlib.Path(__file__).resolve().parent


class Bug:
    def __init__(self, lines):
        self.crate, self.file, self.name = lines[0].split()
        self.law = self.read = None
        while lines[1][:2] in ("@ ", "! "):
            line = lines.pop(1)
            if line.startswith("@ "):
                self.law = line[2:]
            else:
                self.read = line[2:]
        self.pairs = [(lines[i][2:], lines[i + 1][2:]) for i in range(1, len(lines), 2)]

    def turn(self, text):
        for old, new in self.pairs:
            if text.count(old) != 1:
                raise ValueError(f"{self.crate} {self.name}: stands {text.count(old)} times in {self.file}: {old}")
            text = text.replace(old, new)
        return text

    # The function that is turned: its name and its lines, or None where it is no function, or more than one.
    def find(self, text):
        lines = text.split("\n")
        found = set()
        for old, _ in self.pairs:
            at = text[: text.index(old)].count("\n")
            found.add(function_at(lines, at))
        self.function = found.pop() if len(found) == 1 else None

    # What it turns: no two bugs of one function, or of one law, are planted together.
    def turns(self):
        return self.law or (self.file, self.function[1])


def function_at(lines, at):
    for start in range(at, -1, -1):
        head = re.match(r"( *)(?:pub(?:\(crate\))? )?(?:const )?fn (\w+)", lines[start])
        if not head:
            continue
        for end in range(start, len(lines)):
            if lines[end] == head[1] + "}" or (end == start and lines[end].endswith(";")):
                return (head[2], start + 1, end + 1, owner_at(lines, start)) if end >= at else None
    return None


# The type whose impl a line stands in, if it stands in one.
def owner_at(lines, at):
    for line in reversed(lines[:at]):
        if line == "}":
            return None
        head = re.match(r"impl(?:<.*?>)? (?:.* for )?&?(?:'\w+ )?(?:mut )?(\w+)", line)
        if head:
            return head[1]
    return None


def bugs():
    for block in (HERE / "planted_bugs.txt").read_text().split("\n\n"):
        lines = [line for line in block.split("\n") if line and not line.startswith("#")]
        if lines:
            yield Bug(lines)


# What the must-fail edits that turn several functions do to each of them.
def parts_of_edits(copy):
    for edit in sorted(copy.glob("crates/*/must-fail/*.edit")):
        crate, parts, file, old = edit.parts[-3], {}, None, None
        for line in edit.read_text().split("\n"):
            if line.startswith("file: "):
                file = line[6:]
            elif line.startswith("old: "):
                old = line[5:]
            elif line.startswith("new:"):
                text = (copy / "crates" / crate / file).read_text()
                function = function_at(text.split("\n"), text[: text.index(old)].count("\n"))
                parts.setdefault((file, function), []).extend([f"- {old}", f"+ {line[5:]}"])
        if len(parts) > 1:
            for number, ((file, _), pairs) in enumerate(parts.items(), 1):
                yield Bug([f"{crate} {file} {edit.stem}.{number}", *pairs])


def run(folder, *words, stdin=None):
    done = subprocess.run(words, cwd=folder, stdin=stdin, stdout=subprocess.PIPE, stderr=subprocess.STDOUT)
    return done.returncode, done.stdout.decode(errors="replace")


# The crates that stand on it, also through others.
def crates_above(copy, crate):
    below = {}
    for line in (copy / "crates.txt").read_text().split("\n"):
        name, colon, rest = line.partition(":")
        if colon:
            below[name] = rest.split()

    def stands_on(name):
        return any(it == crate or stands_on(it) for it in below.get(name, []))

    return [name for name in below if stands_on(name)]


# Which test or program tells, of those above the crate.
def told_by_tests(copy, crate):
    for name in [crate] + crates_above(copy, crate):
        folder = copy / "crates" / name
        if name.endswith("_tests"):
            status, _ = run(folder, "rt", "try", "--test")
            if status:
                return name
        elif (folder / "src" / "main.rt").exists() and (folder / "stdout").exists():
            words = (folder / "args").read_text().split("\n") if (folder / "args").exists() else []
            stdin = (folder / "stdin").open("rb") if (folder / "stdin").exists() else subprocess.DEVNULL
            # Its files lie where it runs, as in the gate.
            lent = [shutil.copy(file, folder) for file in (folder / "data").glob("*")]
            done = subprocess.run(["rt", "try", "--", *filter(None, words)], cwd=folder, stdin=stdin,
                                  stdout=subprocess.PIPE, stderr=subprocess.DEVNULL)
            for file in lent:
                pathlib.Path(file).unlink()
            if (folder / "stdout").read_bytes() not in done.stdout:
                return name
    return None


# What the check said of a bug: (kind, where), None where it stands, by the bug's own function or, alone, by anything.
def judge(bug, said, alone):
    if is_proved(said):
        return None
    module = pathlib.Path(bug.file).stem
    if bug.law:
        for path, told in re.findall(r"^impl (\S+): (.*)$", said, re.M):
            if path.split("::")[-1] == bug.law and refused_itself(path, told):
                return refused_itself(path, told)
    elif bug.function:
        name, first, last, owner = bug.function
        for line, what in re.findall(rf"^note: {re.escape(bug.file)}:(\d+):\d+: (.*)$", said, re.M):
            if first <= int(line) <= last:
                return "clause", f"{bug.file}:{line} {what}"
        for path, told in re.findall(r"^fn (\S+): (.*)$", said, re.M):
            if path.split("::")[-1] == name and module_of(path, bug) and (path.split("::")[-2].startswith(owner or "")):
                own = refused_itself(path, told)
                if own:
                    return own
    if alone:
        for kind, path, told in re.findall(r"^(fn|impl|struct|enum|trait) (\S+): (.*)$", said, re.M):
            own = refused_itself(path, told)
            if own:
                return own
        unfit = re.search(r"^(\./proofs/\S+?\.antt):\d+:\d+: error", said, re.M)
        if unfit:
            return "proof", unfit[1]
        error = re.search(r"^error.*$", said, re.M)
        return "compiler", error[0] if error else said[-200:].replace("\n", " ")
    return None


# Of one line on a function or an impl: what of its own is refused, if anything is. That it calls what is not proved is no refusal.
def refused_itself(path, told):
    goal = re.search(r"(?:did not prove|not proved; antt refuses) `([^`]*)`", told)
    if goal:
        return "clause", f"{path} {goal[1]}"
    parts = path.split("::")
    own = ".".join(["Rattle", parts[0], "proofs", *parts[1:], ""])
    for answer in re.findall(r"`([^`]*)`", told):
        if answer.startswith(own):
            return "proof", f"{path} {answer[len(own):]}"
    return None


def module_of(path, bug):
    parts = path.split("::")
    stem = pathlib.Path(bug.file).stem
    return stem in ("lib", "main") or stem in parts


def check(copy, crate):
    return run(copy / "crates" / crate, "rt", "check", "--allow-holes", "--jobs", "1")[1]


# Whether an error of the compiler stands in the function that the bug turns.
def does_not_compile(bug, said):
    lines = [int(line) for line in re.findall(rf"^{re.escape(bug.file)}:(\d+):\d+: error", said, re.M)]
    return bug.function and any(bug.function[1] <= line <= bug.function[2] for line in lines)


# Whether nothing of the crate is refused. A check past open goals says so item by item.
def is_proved(said):
    items = re.findall(r"^(?:fn|impl|struct|enum|trait) \S+: (.*)$", said, re.M)
    whole = items and all(told in ("no holes", "proved") for told in items) and not re.search(r"^\S+: error", said, re.M)
    return "logic=proved" in said or (whole and re.search(r"^holes=0$", said, re.M))


# Whether the check came as far as proofs.
def is_read(said):
    return is_proved(said) or re.search(r"^fn \S+: ", said, re.M)


# Whether what the bug turns stands once in its file beside what the group brings there.
def fits(copy, group, bug):
    text = (copy / "crates" / bug.crate / bug.file).read_text()
    for other in group:
        if other.file == bug.file:
            text = other.turn(text)
    return all(text.count(old) == 1 for old, _ in bug.pairs)


# Plants bugs of one crate at once, and gives each one's verdict, or None where it is to be planted alone; where some do not compile, of
# these alone.
def plant(copy, group, log, alone):
    texts = {}
    for bug in group:
        path = copy / "crates" / bug.crate / bug.file
        texts.setdefault(path, path.read_text())
    began = time.time()
    try:
        for path, text in texts.items():
            for bug in group:
                if copy / "crates" / bug.crate / bug.file == path:
                    text = bug.turn(text)
            path.write_text(text)
        said = check(copy, group[0].crate)
        if log:
            (log / f"{group[0].crate}-{group[0].name}.log").write_text(said)
        if not is_read(said) and not alone:
            wrong = [bug for bug in group if does_not_compile(bug, said)] or group
            return {bug.name: None for bug in wrong}, time.time() - began
        verdicts = {bug.name: judge(bug, said, alone) for bug in group}
        if alone and verdicts[group[0].name] is None and "--tests" in sys.argv:
            by = told_by_tests(copy, group[0].crate)
            verdicts[group[0].name] = ("test", by) if by else ("survived", "")
        elif alone and verdicts[group[0].name] is None:
            verdicts[group[0].name] = ("stands", "")
        return verdicts, time.time() - began
    finally:
        for path, text in texts.items():
            path.write_text(text)


def told(bug, verdict, seconds, how):
    kind, where = verdict
    if kind == "proof" and bug.read:
        kind = f"proof ({bug.read})"
    print(f"{bug.crate} {bug.name}: {kind} {where} ({how}, {seconds:.0f} s)", flush=True)


def main():
    words = sys.argv[1:]
    if not words:
        sys.exit(__doc__)
    copy = pathlib.Path(words[0]).resolve()
    option = lambda name: words[words.index(name) + 1] if name in words else None
    log = pathlib.Path(option("--log")) if option("--log") else None
    if log:
        log.mkdir(parents=True, exist_ok=True)
    names = (option("--bug") or "").split(",") if option("--bug") else []
    listed = parts_of_edits(copy) if "--edits" in words else bugs()
    wanted = [b for b in listed if option("--crate") in (None, b.crate) and (not names or b.name in names)]
    by_crate = {}
    for bug in wanted:
        text = (copy / "crates" / bug.crate / bug.file).read_text()
        bug.turn(text)
        bug.find(text)
        by_crate.setdefault(bug.crate, []).append(bug)
    for crate, of_crate in by_crate.items():
        left = [] if "--alone" in words else [b for b in of_crate if b.function or b.law]
        lone = [b for b in of_crate if b not in left]
        while left:
            group, later = [], []
            for bug in left:
                taken = any(bug.turns() == other.turns() for other in group)
                (group if not taken and fits(copy, group, bug) else later).append(bug)
            left = later
            if len(group) == 1:
                lone += group
                continue
            verdicts, seconds = plant(copy, group, log, False)
            left = [bug for bug in group if bug.name not in verdicts] + left
            for bug in group:
                if bug.name not in verdicts:
                    continue
                if verdicts[bug.name] is None:
                    lone.append(bug)
                else:
                    told(bug, verdicts[bug.name], seconds / len(group), "together")
        for bug in lone:
            verdicts, seconds = plant(copy, [bug], log, True)
            told(bug, verdicts[bug.name], seconds, "alone")


if __name__ == "__main__":
    main()
