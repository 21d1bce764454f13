#!/usr/bin/env python3
"""Makes well-formed worlds at random, in the lines of the program `worlds` (docs/FORMAT.md).

    python3 oracle/worlds.py SEED COUNT [random|short|limits]

SEED is a number; the same seed makes the same worlds. COUNT is how many. `random` (without a third word) asks questions at
random, most of them along names that stand in places; `short` asks all paths of no name and of one, from every module, in
every mode, shadow mode and macro kind, and those of two names without a macro kind; `limits` makes worlds whose rows run
out, paths of 64 and 65 names, 255 and 256 `super`, and numbers that do not exist, each fifth one with paths that go to and
fro between the blocks of two crates.
"""
import random
import sys

EDITIONS = ("2015", "2018", "2021", "2024")
KINDS = ("fn", "struct", "union", "enum", "variant", "const", "static", "trait", "alias")


class Maker:
    def __init__(self, rng):
        self.rng = rng
        self.lines = []

    def say(self, *words):
        self.lines.append(" ".join(map(str, words)))

    def some(self, chance):
        return self.rng.random() < chance

    def tree(self, small):
        rng = self.rng
        crates = rng.choice((1, 1, 2, 2, 2, 3)) if small else rng.choice((1, 2, 2, 3, 4))
        self.editions = [rng.choice(EDITIONS) if self.some(0.7) else "2015" for _ in range(crates)]
        self.modules, self.blocks, self.outside = [], [], {}
        for krate in range(crates):
            self.modules.append((krate, None, None))
        count = rng.randint(2, 6) if small else rng.randint(4, 16)
        for _ in range(count):
            number = len(self.modules)
            # Deep trees of blocks: a late module is likelier to be built on.
            under = rng.choice(range(number)) if self.some(0.5) else number - 1 - rng.randrange(min(3, number))
            krate, block, _ = self.modules[under]
            if self.some(0.45):
                self.outside[number] = under
                self.modules.append((krate, len(self.blocks), None))
                self.blocks.append((number, under))
            else:
                self.modules.append((krate, block, under))
        self.roots = list(range(crates))
        self.maps = [f"c{krate}" for krate in range(crates)] + [f"b{block}" for block in range(len(self.blocks))]

    def outward(self, module):
        """The modules around a module, itself first."""
        found = []
        while module is not None:
            found.append(module)
            parent = self.modules[module][2]
            module = self.outside.get(module) if parent is None else parent
        return found

    def tables(self):
        rng = self.rng
        self.enums = rng.randint(1, 3)
        self.styles = [rng.choice(("f", "f", "a", "d", "fa", "ad", "fad", "-")) for _ in range(rng.randint(2, 5))]
        own = rng.randint(3, 5)
        self.count = 19 + own
        self.pool = list(range(19, self.count)) + rng.sample(range(19), rng.choice((1, 1, 2)))
        for edition in self.editions:
            self.say("crate", edition)
        for krate, block, parent in self.modules:
            self.say("module", krate, "-" if block is None else block, "-" if parent is None else parent)
        for root, outside in self.blocks:
            self.say("block", root, outside)
        self.say("names", self.count)
        self.say("enums", self.enums)
        for styles in self.styles:
            self.say("macro", styles)
        self.externs, self.preludes = {}, {}
        for krate in range(len(self.editions)):
            for name in self.pool:
                if self.some(0.3):
                    root = rng.choice(self.roots) if self.some(0.9) else rng.randrange(len(self.modules))
                    self.externs[krate, name] = root
                    self.say("extern", krate, name, root, rng.choice(("-", "-", 1, 2)))
        for map_ in self.maps:
            for name in self.pool:
                if self.some(0.25 if map_[0] == "c" else 0.1):
                    self.say("macrouse", map_, name, rng.randrange(len(self.styles)), rng.choice(("-", "-", 1, 2)))
            if self.some(0.6 if map_[0] == "c" else 0.15):
                # Mostly a module of another crate or of the crate's own map, which the Rust can look up.
                good = [module for module, (krate, block, _) in enumerate(self.modules)
                        if block is None or f"b{block}" == map_]
                self.preludes[map_] = rng.choice(good) if self.some(0.95) else rng.randrange(len(self.modules))
                self.say("prelude", map_, self.preludes[map_])
        for module in range(len(self.modules)):
            for name in self.pool:
                if self.some(0.07):
                    self.say("legacy", module, name, rng.randrange(len(self.styles)))
        variant = 0
        for enum in range(self.enums):
            for name in self.pool:
                if self.some(0.4):
                    self.say("variant", enum, name, variant, rng.randrange(2))
                    variant += 1

    def visibility(self, module):
        rng = self.rng
        turn = rng.random()
        if turn < 0.4:
            return "pub"
        if turn < 0.55:
            return f"crate:{self.modules[module][0]}"
        if turn < 0.6:
            return f"crate:{rng.randrange(len(self.editions))}"
        seen = rng.choice(self.outward(module)) if turn < 0.85 else rng.randrange(len(self.modules))
        return f"in:{seen}:{rng.choice('ei')}"

    def entry(self, module, namespace):
        rng = self.rng
        if namespace == 2:
            def_ = f"macro:{rng.randrange(len(self.styles))}"
        elif namespace == 0 and self.some(0.7):
            def_ = f"mod:{rng.randrange(len(self.modules))}"
        elif namespace == 0 and self.some(0.4):
            def_ = f"enum:{rng.randrange(self.enums)}"
        elif self.some(0.03):
            def_ = f"builtin:{rng.randrange(19)}"
        elif self.some(0.03):
            def_ = f"macro:{rng.randrange(len(self.styles))}"
        else:
            kind = rng.choice(KINDS)
            def_ = f"{kind}:{rng.randrange(self.enums if kind == 'enum' else 4)}"
        import_ = "-" if self.some(0.7) else rng.choice(("glob:1", "import:1", "import:2") + (("extern:1",) if namespace != 1 else ()))
        return f"{def_},{self.visibility(module)},{import_}"

    def deliver(self):
        rng = self.rng
        module = rng.randrange(len(self.modules))
        name = rng.choice(self.pool)
        if self.made and self.some(0.35):
            module, name = rng.choice(list(self.made))
        filled = rng.choice(((0,), (0,), (0,), (1,), (2,), (0, 1), (0, 1, 2), (1, 2)))
        entries = [self.entry(module, namespace) if namespace in filled else "-" for namespace in range(3)]
        import_ = rng.choice(("-", "-", "-", "glob:0", "glob:1", "import:0", "import:1", "import:1", "extern:0", "extern:1"))
        self.made.setdefault((module, name), set())
        if entries[0].startswith("mod:"):
            self.made[module, name].add(int(entries[0].split(",")[0][4:]))
        self.say("deliver", module, name, *entries, import_)

    def path(self, module):
        """A kind and names; most names are walked along the places."""
        rng = self.rng
        kind = rng.choice(("plain", "plain", "plain", "crate", "abs", "super", "super", "dollar"))
        length = rng.choice((0, 1, 1, 1, 2, 2, 2, 2, 3, 3, 3, 4, 5, 6))
        at = module
        if kind == "crate":
            at = self.roots[self.modules[module][0]]
        elif kind == "dollar":
            crate = rng.randrange(len(self.editions))
            at, kind = self.roots[crate], f"dollar:{crate}"
        elif kind == "super":
            level = rng.choice((0, 0, 0, 1, 1, 2, 3))
            for _ in range(level):
                at = self.modules[at][2] if self.modules[at][2] is not None else self.outside.get(at, at)
            kind = f"super:{level}"
        elif kind == "plain":
            at = rng.choice(self.outward(module))
        names = []
        for place in range(length):
            known = [name for (m, name) in self.made if m == at]
            if place == 0 and kind in ("abs", "plain") and self.some(0.6):
                known += [name for (krate, name) in self.externs if krate == self.modules[module][0]]
            name = rng.choice(known) if known and self.some(0.9) else rng.choice(self.pool)
            names.append(name)
            ways = list(self.made.get((at, name), ()))
            if place == 0 and kind in ("abs", "plain"):
                krate = self.modules[module][0]
                if (krate, name) in self.externs:
                    ways.append(self.externs[krate, name])
            if ways:
                at = rng.choice(ways)
        return kind, ".".join(map(str, names)) or "-"

    def ask(self, *words):
        self.say("ask", *words)

    def ask_random(self):
        rng = self.rng
        module = rng.randrange(len(self.modules))
        kind, names = self.path(module)
        expected = "-" if self.some(0.7) else rng.choice(("bang", "attr"))
        self.ask(rng.choice(("import", "other")), module, kind, names, rng.choice(("module", "other")), expected)

    def ask_short(self):
        kinds = ["plain", "abs", "crate", "super:0", "super:1", "super:2"]
        kinds += [f"dollar:{krate}" for krate in range(len(self.editions))]
        for module in range(len(self.modules)):
            for kind in kinds:
                for mode in ("import", "other"):
                    for expected in ("-", "bang", "attr"):
                        for shadow in ("module", "other"):
                            for names in ["-", *self.pool]:
                                self.ask(mode, module, kind, names, shadow, expected)
                    for one in self.pool:
                        for two in self.pool:
                            self.ask(mode, module, kind, f"{one}.{two}", "module", "-")

    def limits(self):
        """Questions and deliveries beside the limits, and past them."""
        rng = self.rng
        modules, names, crates = len(self.modules), self.count, len(self.editions)
        for length in (63, 64, 65):
            kind, start = self.path(rng.randrange(modules))
            walked = [] if start == "-" else start.split(".")
            while len(walked) < length:
                walked.append(str(rng.choice(self.pool)))
            self.ask("other", rng.randrange(modules), kind, ".".join(walked[:length]), "module", "-")
        for level in (254, 255, 256):
            self.ask("other", rng.randrange(modules), f"super:{level}", rng.choice(self.pool), "module", "-")
        self.ask("other", modules, "plain", rng.choice(self.pool), "module", "-")
        self.ask("other", 0, f"dollar:{crates}", "-", "module", "-")
        self.ask("other", 0, "plain", f"{self.pool[0]}.{names}", "module", "-")
        self.say("deliver", modules, self.pool[0], "fn:0,pub,-", "-", "-", "-")
        self.say("deliver", 0, names, "fn:0,pub,-", "-", "-", "-")
        self.say("deliver", 0, self.pool[0], "-", "-", "-", rng.choice(("-", "glob:0", "import:0")))
        self.say("deliver", 0, self.pool[0], f"mod:{modules},pub,-", "-", "-", "-")
        self.say("deliver", 0, self.pool[0], "-", f"fn:0,in:{modules}:e,-", "-", "-")
        self.say("deliver", 0, self.pool[0], "-", "-", f"macro:{len(self.styles)},pub,-", "-")
        self.say("deliver", 0, self.pool[0], f"enum:{self.enums},pub,-", "-", "-", "-")
        self.say("deliver", 0, self.pool[0], f"fn:0,crate:{crates},-", "-", "-", "-")
        self.say("sight", f"crate:{crates}", 0)
        self.say("sight", "pub", modules)


def knot(rng, label):
    """Paths to and fro between blocks of two crates, one within the other."""
    maker = Maker(rng)
    maker.say("world", label)
    for _ in range(2):
        maker.say("crate", rng.choice(EDITIONS))
    depth = rng.randint(1, 3)
    for krate in range(2):
        maker.say("module", krate, "-", "-")
    for turn in range(depth):
        for krate in range(2):
            maker.say("module", krate, 2 * turn + krate, "-")
    for turn in range(depth):
        for krate in range(2):
            maker.say("block", 2 * turn + krate + 2, 2 * turn + krate)
    maker.say("names", 20)
    maker.say("go")
    for module in range(2 * depth + 2):
        if module < 2 or rng.random() < 0.5:
            maker.say("deliver", module, 19, f"mod:{2 * depth + 1 - module % 2},{rng.choice(('pub', 'pub', f'crate:{module % 2}'))},-",
                      "-", "-", "-")
    for length in (1, 2, 3, 5, 8, 12, 20, 63, 64):
        for kind in ("crate", "plain", "super:0", "dollar:1"):
            maker.ask("other", rng.randrange(2 * depth + 2), kind, ".".join(["19"] * length), "module", "-")
    return maker.lines


def world(rng, label, kind):
    maker = Maker(rng)
    maker.made = {}
    maker.say("world", label)
    maker.tree(kind == "short")
    maker.tables()
    if rng.random() < 0.5:
        maker.say("make", "ledger")
    if kind == "limits":
        maker.say("rows", rng.randint(0, 20))
    maker.say("go")
    deliveries = rng.randint(6, 30) if kind == "short" else rng.randint(20, 90)
    if kind == "random":
        for _ in range(deliveries):
            maker.deliver()
            if rng.random() < 0.1:
                maker.ask_random()
        for _ in range(100):
            maker.ask_random()
    elif kind == "short":
        for _ in range(deliveries):
            maker.deliver()
        maker.ask_short()
    else:
        for turn in range(deliveries):
            maker.deliver()
        maker.limits()
        for _ in range(20):
            maker.ask_random()
    for module in range(len(maker.modules)):
        maker.say("place", module, rng.choice(maker.pool))
        maker.say("sight", maker.visibility(rng.randrange(len(maker.modules))), module)
    return maker.lines


def worlds(seed, count, kind="random"):
    rng = random.Random(f"{kind} {seed}")
    for number in range(count):
        label = f"{kind}-{seed}/{number}"
        yield knot(rng, label) if kind == "limits" and number % 5 == 4 else world(rng, label, kind)


def main():
    if len(sys.argv) not in (3, 4) or sys.argv[3:] not in ([], ["random"], ["short"], ["limits"]):
        sys.exit(__doc__)
    for lines in worlds(int(sys.argv[1]), int(sys.argv[2]), *sys.argv[3:]):
        print("\n".join(lines))


if __name__ == "__main__":
    main()
