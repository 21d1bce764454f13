"""Worlds for the benchmark: made by a seed, or read from lines of the program `worlds`, and written as numbers.

The numbers are what `crates/bench` and `driver.rs` read: counts before lists, 0 for nothing. A world has its tables, its deliveries,
groups of questions of one kind, and the places that each variant of a pile has of its own.
"""
import random

EDITIONS = {"2015", "2018", "2021", "2024"}
DEFS = ["-", "mod", "fn", "struct", "union", "enum", "variant", "const", "static", "trait", "alias", "builtin", "macro"]
IMPORTS = ["-", "glob", "import", "extern"]
KINDS = ["plain", "abs", "crate", "super", "dollar"]
BUILTINS = 19
# How often a group stands in the numbers. One time is short then, so that few are taken while another program has the processor.
COPIES = 8


class World:
    def __init__(self, name):
        self.name = name
        self.crates, self.modules, self.blocks = [], [], []
        self.names, self.enums, self.rows = BUILTINS, 0, 65536
        self.macros, self.externs, self.macro_uses, self.preludes, self.legacy, self.variants = [], [], [], [], [], []
        self.deliveries, self.groups, self.own = [], [], []

    def group(self, kind, questions, rounds, rust=True):
        """Questions of one kind, how often they are asked for one time, and whether the Rust can end them."""
        if questions:
            self.groups.append((kind, questions, rounds, rust))

    def lend(self):
        """Lends a row for each namespace that is filled, which is no fewer than the places that need one, and gives variants places."""
        self.rows = sum(entry is not None for one in self.deliveries for entry in one[2:5])
        self.own = self.deliveries[:60]

    def root(self, krate):
        return next(at for at, (of, block, parent) in enumerate(self.modules) if of == krate and block is None and parent is None)

    def numbers(self, for_rust):
        """The world in numbers, a line for each row."""
        lines = []

        def rows(rows):
            lines.append([len(rows)])
            lines.extend(rows)

        rows([[int(edition), self.root(at)] for at, edition in enumerate(self.crates)])
        rows([[krate, one_more(block), one_more(parent)] for krate, block, parent in self.modules])
        rows(self.blocks)
        lines.append([self.names, self.enums])
        rows([[styles] for styles in self.macros])
        rows([[krate, name, module, one_more(item)] for krate, name, module, item in self.externs])
        rows([[*map_, name, number, one_more(item)] for map_, name, number, item in self.macro_uses])
        rows([[*map_, module] for map_, module in self.preludes])
        rows(self.legacy)
        rows(self.variants)
        lines.append([self.rows])
        rows([delivery(*one) for one in self.deliveries])
        groups = [group for group in self.groups if group[3] or not for_rust]
        lines.append([len(groups) * COPIES])
        for _, questions, rounds, _ in groups:
            for _ in range(COPIES):
                lines.append([rounds])
                rows([question(*one) for one in questions])
        rows([delivery(*one) for one in self.own])
        return "\n".join(" ".join(map(str, line)) for line in lines) + "\n"


def one_more(number):
    return 0 if number is None else number + 1


def delivery(module, name, types, values, macros, import_):
    """Entries are (def kind, number, visibility), or None; a visibility is (0 public, 1 crate, 2 or 3 module; number)."""
    line = [module, name]
    for entry in (types, values, macros):
        line += [0] if entry is None else [DEFS.index(entry[0]), entry[1], *entry[2]]
    return line + ([0] if import_ is None else [IMPORTS.index(import_[0]), import_[1]])


def question(mode, module, shadow, expected, kind, argument, names):
    return [mode, module, shadow, expected, KINDS.index(kind), argument, len(names), *names]


# Real crates.


def read(name, text, rounds):
    """A world from its lines; its questions come in kinds by how their paths begin and how long they are."""
    world, asked = World(name), {}

    def optional(word):
        return None if word == "-" else int(word)

    def map_(word):
        return [int(word[0] == "b"), int(word[1:])]

    def entry(word):
        if word == "-":
            return None
        def_, vis, _ = word.split(",")
        kind, number = def_.split(":")
        vis = vis.split(":")
        level = {"pub": 0, "crate": 1}.get(vis[0], 2 if vis[-1] == "e" else 3)
        return kind, int(number), [level, int(vis[1]) if level else 0]

    for line in text.split("\n"):
        words = line.split(" ")
        rest = words[1:]
        if words[0] == "crate":
            world.crates.append(rest[0])
        elif words[0] == "module":
            world.modules.append((int(rest[0]), optional(rest[1]), optional(rest[2])))
        elif words[0] == "block":
            world.blocks.append([int(word) for word in rest])
        elif words[0] in ("names", "enums", "rows"):
            setattr(world, words[0], int(rest[0]))
        elif words[0] == "macro":
            world.macros.append(sum({"f": 1, "a": 2, "d": 4, "-": 0}[letter] for letter in rest[0]))
        elif words[0] == "extern":
            world.externs.append((int(rest[0]), int(rest[1]), int(rest[2]), optional(rest[3])))
        elif words[0] == "macrouse":
            world.macro_uses.append((map_(rest[0]), int(rest[1]), int(rest[2]), optional(rest[3])))
        elif words[0] == "prelude":
            world.preludes.append((map_(rest[0]), int(rest[1])))
        elif words[0] == "legacy":
            world.legacy.append([int(word) for word in rest])
        elif words[0] == "variant":
            world.variants.append([int(word) for word in rest])
        elif words[0] == "deliver":
            import_ = None if rest[5] == "-" else (rest[5].split(":")[0], int(rest[5].split(":")[1]))
            world.deliveries.append((int(rest[0]), int(rest[1]), *map(entry, rest[2:5]), import_))
        elif words[0] == "ask":
            kind, _, argument = rest[2].partition(":")
            names = [] if rest[3] == "-" else [int(name) for name in rest[3].split(".")]
            mode, shadow = int(rest[0] == "other"), int(rest[4] == "other")
            expected = {"-": 0, "bang": 1, "attr": 2}[rest[5]]
            if kind == "plain":
                what = "one name" if len(names) == 1 else "plain paths"
            else:
                what = "other paths"
            asked.setdefault(what, []).append((mode, int(rest[1]), shadow, expected, kind, int(argument or 0), names))
    for what in ("one name", "plain paths", "other paths"):
        world.group(what, asked.get(what), rounds)
    world.lend()
    return world


# Made worlds.


def make(name, crates, modules, blocks, places, questions, rounds, seed):
    """A world of so many crates with `crate a { mod b { fn .. } }` down to some depth, blocks in modules and in blocks, and globs."""
    rng = random.Random(seed)
    world = World(name)
    world.crates = ["2021"] * crates
    # In each module: its names by number, of modules and of functions; the way to it from the root by names.
    way, depth, children, functions = [], [], [], []

    def name_number():
        world.names += 1
        return world.names - 1

    def add(krate, block, parent, names, deep):
        world.modules.append((krate, block, parent))
        way.append(names)
        depth.append(deep)
        children.append({})
        functions.append([])
        return len(world.modules) - 1

    public, filled = [0, 0], 0
    roots = [add(krate, None, None, [], 0) for krate in range(crates)]
    # A pool of names, so that modules have names in common as in real crates.
    pool = [name_number() for _ in range(max(20, places // 12))]
    while len(world.modules) < modules - blocks:
        krate = rng.randrange(crates)
        parent = rng.choice([at for at in (rng.randrange(len(world.modules)) for _ in range(8)) if depth[at] < 12] or [roots[krate]])
        own = rng.choice(pool)
        if own in children[parent]:
            own = name_number()
        child = add(world.modules[parent][0], None, parent, way[parent] + [own], depth[parent] + 1)
        children[parent][own] = child
        world.deliveries.append((parent, own, ("mod", child, public), None, None, None))
        filled += 1
    plain = list(range(len(world.modules)))
    in_blocks, around = [], {}
    while len(world.modules) < modules:
        # Half of the blocks stand in blocks, six deep at most.
        outside = rng.choice(in_blocks) if in_blocks and rng.random() < 0.5 else rng.choice(plain)
        if around.get(outside, 0) >= 6:
            outside = rng.choice(plain)
        root = add(world.modules[outside][0], len(world.blocks), None, None, depth[outside])
        world.blocks.append([root, outside])
        around[root] = around.get(outside, 0) + 1
        in_blocks.append(root)
    everywhere = plain + in_blocks
    function, used = 0, set()
    while filled < places:
        module = rng.choice(everywhere)
        own = rng.choice(pool)
        if (module, own) in used or own in children[module]:
            continue
        used.add((module, own))
        vis = public if rng.random() < 0.5 else [1, world.modules[module][0]] if rng.random() < 0.5 else [3, module]
        kind = rng.choice(["fn", "fn", "struct", "trait"])
        entry = (kind, function, vis)
        function += 1
        both = kind == "struct" and rng.random() < 0.5
        by_glob = ("glob", function) if rng.random() < 0.2 else None
        types, values = (None, entry) if kind == "fn" else (entry, entry if both else None)
        world.deliveries.append((module, own, types, values, None, by_glob))
        functions[module].append(own)
        filled += 1
    for krate in range(crates):
        for other in range(crates):
            if other != krate:
                world.externs.append((krate, name_number(), roots[other], None))
    world.preludes = [([0, krate], roots[0]) for krate in range(1, crates)]
    # Deliveries that come to a held place and change nothing, as many as a tenth.
    world.deliveries += rng.sample(world.deliveries, len(world.deliveries) // 10)

    OTHER, MODULE, NONE = 1, 0, 0

    def ask(module, kind, names, argument=0):
        return OTHER, module, MODULE, NONE, kind, argument, names

    having = [at for at in plain if functions[at]]
    group = lambda make: [make() for _ in range(questions)]

    def one_name():
        module = rng.choice(having)
        return ask(module, "plain", [rng.choice(functions[module] if rng.random() < 0.7 else pool)])

    deepest = sorted(having, key=lambda at: depth[at])[-max(1, len(having) // 4):]

    def long_path():
        target = rng.choice(deepest)
        return ask(target, "crate", way[target] + [rng.choice(functions[target])])

    def foreign_path():
        krate, name, root, _ = rng.choice(world.externs)
        target = rng.choice(having)
        for _ in range(20):
            if world.modules[target][0] == world.modules[root][0]:
                break
            target = rng.choice(having)
        from_ = rng.choice([at for at in (rng.randrange(len(plain)) for _ in range(30)) if world.modules[at][0] == krate] or [roots[krate]])
        return ask(from_, "plain", [name] + way[target] + [rng.choice(functions[target])])

    deep = sorted(in_blocks, key=lambda at: around[at])[-max(1, len(in_blocks) // 4):]

    # A name of the module around all of a block's blocks.
    def from_block():
        block = at = rng.choice(deep)
        while world.modules[at][1] is not None:
            at = world.blocks[world.modules[at][1]][1]
        return ask(block, "plain", [rng.choice(functions[at] or pool)])

    world.group("one name", group(one_name), rounds)
    world.group("long paths", group(long_path), rounds)
    if crates > 1:
        world.group("foreign paths", group(foreign_path), rounds)
    if deep:
        world.group("deep blocks", group(from_block), rounds)
    # To and fro: in each of two crates the name stands for a block's root of the other.
    if crates > 1 and blocks > 1:
        own = name_number()
        ends = []
        for krate in (0, 1):
            root = next((at for at in in_blocks if world.modules[at][0] == krate and world.blocks[world.modules[at][1]][1] == roots[krate]), None)
            if root is None:
                root = add(krate, len(world.blocks), None, None, 0)
                world.blocks.append([root, roots[krate]])
            ends.append(root)
        world.deliveries.append((roots[0], own, ("mod", ends[1], public), None, None, None))
        world.deliveries.append((roots[1], own, ("mod", ends[0], public), None, None, None))
        for names in (4, 12, 64):
            world.group(f"to and fro, {names} names", [ask(roots[0], "crate", [own] * names)], 4, names < 64)
    world.lend()
    return world
