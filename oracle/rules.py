"""The written rules (docs/RESOLUTION.md, docs/MODEL.md) as a small model, with a switch for each named difference.

With no switch on it answers as the port should, with all of them as the Rust should. It is written from the rules, apart
from both programs: `compare.py` holds it against each on every line, and explains a difference by the smallest set of
switches that turns one answer into the other.
"""

LEAK = "private-to-a-block-module"
SUPER = "judged-where-super-leads"
HIDDEN = "hidden-prelude-items"
KIND = "preludes-of-any-macro-kind"
FOREIGN = "foreign-rest-judged-abroad"
ON = "asked-on-after-a-type"
SWITCHES = (LEAK, SUPER, HIDDEN, KIND, FOREIGN, ON)
ALL = frozenset(SWITCHES)
NONE = frozenset()

PANIC_PRELUDE = "panic-at-a-prelude-in-a-block"
PANIC_LAST = "panic-at-the-last-question"

BUILTINS = 19
NO_ENTRIES = (None, None, None)


class Panic(Exception):
    """Where the Rust gives up; the text is the name of its kind."""


class Refused(Exception):
    """A refusal of the port; the text is the answer."""


def empty(yes):
    return (None, None, None, yes, None, False, False)


def either(left, right):
    return (left[0] or right[0], left[1] or right[1], left[2] or right[2])


def merged(old, new):
    index = new[4] if old[4] is None else old[4] if new[4] is None else max(old[4], new[4])
    return (*either(old, new), old[3] or new[3], index, old[5] or new[5], old[6] or new[6])


def stored(entry, import_, namespace):
    """An entry as it comes under a delivery's import."""
    if namespace == 1 and import_.startswith("extern"):
        import_ = "-"
    return (entry[0], entry[1], import_)


class World:
    def __init__(self):
        self.editions = []
        self.modules = []  # crate, block or None, parent or None
        self.blocks = []  # root, outside
        self.names = self.enums = 0
        self.styles = []
        self.externs, self.macro_use, self.preludes, self.legacy, self.variants = {}, {}, {}, {}, {}
        self.ledger, self.left = False, 65536
        self.places = {}
        self.unresolved = set()
        self.given = {}

    # Tables.

    def row(self, words):
        n = lambda word: None if word == "-" else int(word)
        kind = words[0]
        if kind == "crate":
            self.editions.append(words[1])
        elif kind == "module":
            self.modules.append((int(words[1]), n(words[2]), n(words[3])))
        elif kind == "block":
            self.blocks.append((int(words[1]), int(words[2])))
        elif kind == "names":
            self.names = int(words[1])
        elif kind == "enums":
            self.enums = int(words[1])
        elif kind == "macro":
            self.styles.append(words[1])
        elif kind == "extern":
            self.externs[int(words[1]), int(words[2])] = (int(words[3]), words[4])
        elif kind == "macrouse":
            self.macro_use[words[1], int(words[2])] = (int(words[3]), words[4])
        elif kind == "prelude":
            self.preludes[words[1]] = int(words[2])
        elif kind == "legacy":
            self.legacy[int(words[1]), int(words[2])] = int(words[3])
        elif kind == "variant":
            self.variants[int(words[1]), int(words[2])] = (int(words[3]), words[4] == "1")
        elif kind == "make":
            self.ledger = words[1] == "ledger"
        elif kind == "rows":
            self.left = int(words[1])

    def go(self):
        self.roots = [None] * len(self.editions)
        for number, (krate, block, parent) in enumerate(self.modules):
            if block is None and parent is None and self.roots[krate] is None:
                self.roots[krate] = number
        self.outside = [None] * len(self.modules)
        for root, out in self.blocks:
            self.outside[root] = out
        self.maps = [f"c{krate}" if block is None else f"b{block}" for krate, block, _ in self.modules]

    # Deliveries, by the four steps.

    def dangling(self, entry):
        kind, number = entry[0].split(":")
        number = int(number)
        if kind == "mod" and number >= len(self.modules) or kind == "enum" and number >= self.enums:
            return True
        if kind == "macro" and number >= len(self.styles):
            return True
        seen = entry[1].split(":")
        return (seen[0] == "crate" and int(seen[1]) >= len(self.editions)
                or seen[0] == "in" and int(seen[1]) >= len(self.modules))

    def deliver(self, words, rust=False):
        """The answer; `rust` takes deliveries that the port refuses for rows or for filling nothing."""
        module, name, import_ = int(words[1]), int(words[2]), words[6]
        entries = [None if word == "-" else tuple(word.split(",")) for word in words[3:6]]
        if module >= len(self.modules):
            raise Refused("refused index 1 0")
        if name >= self.names:
            raise Refused("refused index 4 0")
        filled = sum(entry is not None for entry in entries)
        if filled == 0 and not rust:
            raise Refused("refused index 5 0")
        for namespace, entry in enumerate(entries):
            if entry is not None and self.dangling(entry):
                raise Refused(f"refused index 6 {namespace}")
        if self.left < filled and not rust:
            raise Refused(f"refused index 7 {self.left}")
        changed = False
        place = self.places.get((module, name), NO_ENTRIES)
        new = list(place)
        for namespace, entry in enumerate(entries):
            if entry is None:
                continue
            entry = stored(entry, import_, namespace)
            held, glob = place[namespace], import_.startswith("glob")
            again = held is not None and held[2] == entry[2] != "-" and held[0] != entry[0]
            if held is None or not glob and (held[2].startswith("glob") or again):
                new[namespace] = entry
                changed = True
            if self.ledger or held is None:
                self.left -= 1
        if filled:
            self.places[module, name] = tuple(new)
        elif (module, name) not in self.unresolved:
            self.unresolved.add((module, name))
            changed = True
        return "deliver changed" if changed else "deliver same"

    # Who may see.

    def sees(self, vis, judge, on):
        if vis == "pub":
            return True
        words = vis.split(":")
        target = int(words[1])
        if words[0] == "crate":
            return self.modules[judge][0] == target
        if LEAK in on:
            if judge == target:
                return True
            block = self.modules[judge][1]
            while self.modules[target][1] is not None and self.modules[target][1] != block:
                target = self.blocks[self.modules[target][1]][1]
        else:
            while self.outside[target] is not None:
                target = self.outside[target]
        while judge is not None:
            if judge == target:
                return True
            parent = self.modules[judge][2]
            judge = self.outside[judge] if parent is None else parent
        return False

    def sight(self, words, on):
        module, seen = int(words[2]), words[1].split(":")
        if module >= len(self.modules):
            raise Refused("refused tree 1 0")
        if self.dangling(("fn:0", words[1])):
            raise Refused("refused tree 6 0")
        return "sight 1 1" if self.sees(words[1], module, on) else "sight 0 0"

    # Questions.

    def ask(self, words, on, panics=False, long=False):
        """The answer to `ask ..`, with `panics` also where the Rust would give up; `long` takes paths of any length."""
        module, kind, names = int(words[2]), words[3], words[4]
        names = [] if names == "-" else [int(name) for name in names.split(".")]
        if module >= len(self.modules):
            raise Refused("refused path 1 0")
        if len(names) > 64 and not long:
            raise Refused("refused path 2 64")
        if kind.startswith("super:") and int(kind[6:]) > 255:
            raise Refused("refused path 2 255")
        if kind.startswith("dollar:") and int(kind[7:]) >= len(self.editions):
            raise Refused("refused path 3 0")
        for place, name in enumerate(names):
            if name >= self.names:
                raise Refused(f"refused path 4 {place}")
        return show(self.answer(words, names, on, panics))

    def answer(self, words, names, on, panics=False):
        kind, level = words[3], None
        if ":" in kind:
            kind, level = kind.split(":")
            level = int(level)
        question = Question(self, words[1] == "import", names, words[5], None if words[6] == "-" else words[6], on, panics)
        return question.asked(int(words[2]), kind, level, 0, None, question.expected)


def show(answer):
    entries = [",".join(entry) if entry else "-" for entry in answer[:3]]
    flags = ("d" if answer[5] else "") + ("e" if answer[6] else "") or "-"
    index = "-" if answer[4] is None else answer[4]
    return f"ask {' '.join(entries)} {'yes' if answer[3] else 'no'} {index} {flags}"


def module_entry(module):
    return ((f"mod:{module}", "pub", "-"), None, None)


class Question:
    def __init__(self, world, import_, names, shadow, expected, on, panics):
        self.world, self.import_, self.names, self.shadow, self.expected = world, import_, names, shadow, expected
        self.on, self.panics = on, panics
        self.known = {}

    # In the following, `at` is the place in the path where a walk begins, `judge` the module that judges, or None where
    # the module just asked does.

    def asked(self, module, kind, level, at, judge, expected):
        """The block rule."""
        world = self.world
        result, typed = self.single(module, kind, level, at, judge, expected)
        if world.modules[module][1] is None:
            return result
        several = kind == "plain" and len(self.names) > 1
        while True:
            if several and typed and ON not in self.on:
                return result
            block = world.modules[module][1]
            out = world.outside[module]
            if out is None:
                if block is not None:
                    result = merged(result, self.last(world.blocks[block][0], kind, at, expected))
                return result
            module = out
            new, typed = self.single(module, kind, level, at, judge, expected)
            result = merged(result, new)

    def again(self, module, at, judge, expected):
        """The rest from `at` on as a `self` path; its index counts from `at`."""
        key = (module, at, judge, expected)
        if key not in self.known:
            self.known[key] = self.asked(module, "super", 0, at, judge, expected)
        return self.known[key]

    def by_root(self, kind, edition):
        return edition == "2015" and (kind == "abs" or kind == "plain" and self.import_)

    def single(self, module, kind, level, at, judge, expected):
        """In one module: the answer, and whether the first name has a type there."""
        world, names = self.world, self.names
        krate, block, _ = world.modules[module]
        judging = module if judge is None else judge
        if kind == "crate":
            return self.rest(module, module_entry(world.roots[krate]), at, at, judging), False
        if kind == "dollar":
            return self.rest(module, module_entry(world.roots[level]), at, at, judging), False
        if kind == "super":
            found = self.out_of_blocks(module)
            for _ in range(level):
                found = world.modules[found][2]
                if found is None:
                    return empty(True), False
                found = self.out_of_blocks(found)
            if world.modules[found][1] != block:
                return self.again(found, at, None if SUPER in self.on else judging, expected), False
            return self.rest(module, module_entry(found), at, at, judging), False
        if not names:
            return empty(True), False
        if self.by_root(kind, world.editions[krate]):
            first = world.places.get((world.roots[krate], names[0]), NO_ENTRIES)
            if world.outside[module] is None:
                first = either(first, self.extern(krate, names[0]))
        elif kind == "abs":
            first = self.extern(krate, names[0])
            if first[0] is None:
                return empty(False), False
        else:
            first = self.sources(module, names[0], judging, expected)
        return self.rest(module, first, 1, 0, judging), first[0] is not None

    def out_of_blocks(self, module):
        while self.world.outside[module] is not None:
            module = self.world.outside[module]
        return module

    # The sources of a first name.

    def extern(self, krate, name):
        row = self.world.externs.get((krate, name))
        return NO_ENTRIES if row is None else ((f"mod:{row[0]}", "pub", extern_import(row[1])), None, None)

    def fits(self, entry, expected):
        if entry is None or expected is None:
            return entry
        styles = self.world.styles[int(entry[0][6:])]
        right = "f" in styles if expected == "bang" else "a" in styles or "d" in styles
        return entry if right else None

    def of_kind(self, entries, expected):
        return (entries[0], entries[1], self.fits(entries[2], expected))

    def macros(self, map_, name, expected):
        row = self.world.macro_use.get((map_, name))
        if row is None:
            return NO_ENTRIES
        entry = (f"macro:{row[0]}", "pub", extern_import(row[1]))
        return (None, None, entry if KIND in self.on else self.fits(entry, expected))

    def prelude(self, map_, krate, name, judge, expected):
        world = self.world
        module = world.preludes.get(map_)
        if module is None:
            return NO_ENTRIES
        if self.panics and world.modules[module][0] == krate and world.maps[module] != map_:
            raise Panic(PANIC_PRELUDE)
        entries = world.places.get((module, name), NO_ENTRIES)
        if KIND not in self.on:
            entries = self.of_kind(entries, expected)
        if HIDDEN not in self.on:
            entries = tuple(entry if entry and world.sees(entry[1], judge, self.on) else None for entry in entries)
        return entries

    def sources(self, module, name, judge, expected):
        world = self.world
        krate, block, _ = world.modules[module]
        map_, root_of_block = world.maps[module], world.outside[module] is not None
        legacy = world.legacy.get((module, name))
        found = NO_ENTRIES
        if legacy is not None:
            found = (None, None, self.fits((f"macro:{legacy}", "pub", "-"), expected))
        own = self.of_kind(world.places.get((module, name), NO_ENTRIES), expected)
        builtin = NO_ENTRIES
        if block is None and name < BUILTINS:
            builtin = ((f"builtin:{name}", "pub", "-"), None, None)
        if self.shadow == "other" and len(self.names) == 1 and own[0] and own[0][0].startswith("mod:"):
            own = either(builtin, own)
        else:
            own = either(own, builtin)
        found = either(found, own)
        if not root_of_block and not all(found):
            found = either(found, self.extern(krate, name))
        if not all(found):
            found = either(found, self.macros(map_, name, expected))
        if not root_of_block and not all(found):
            found = either(found, self.prelude(map_, krate, name, judge, expected))
        return found

    def last(self, root, kind, at, expected):
        """The last question, from the root of a block in the crate's map."""
        world, names = self.world, self.names
        krate = world.modules[root][0]
        if kind not in ("plain", "abs") or not names:
            return empty(True)
        if self.by_root(kind, world.editions[krate]):
            first = self.extern(krate, names[0])
        elif kind == "abs":
            first = self.extern(krate, names[0])
            if first[0] is None:
                return empty(False)
        else:
            map_ = f"c{krate}"
            first = self.extern(krate, names[0])
            first = either(first, self.macros(map_, names[0], expected))
            if not all(first):
                first = either(first, self.prelude(map_, krate, names[0], root, expected))
        return self.rest(root, first, 1, 0, root, last=True)

    # Further names.

    def rest(self, module, found, at, base, judge, last=False):
        """From the entries of what stands before `at`; places are told counted from `base`."""
        world, names = self.world, self.names
        krate = world.modules[module][0]
        while at < len(names):
            kept = found[0]
            if kept is None:
                return empty(False)
            kind, number = kept[0].split(":")
            number = int(number)
            if kind == "mod" and world.modules[number][0] == krate:
                found = world.places.get((number, names[at]), NO_ENTRIES)
                found = tuple(entry if entry and self.shown(entry[1], judge, last) else None for entry in found)
            elif kind == "mod":
                rest = self.again(number, at, None if FOREIGN in self.on else judge, None)
                index = None if rest[4] is None else rest[4] + at - base
                return (*rest[:3], True, index, True, rest[6])
            elif kind == "enum" and (number, names[at]) in world.variants:
                if at + 1 < len(names):
                    return empty(False)
                variant, constructor = world.variants[number, names[at]]
                entry = (f"variant:{variant}", kept[1], "-")
                return (entry, entry if constructor else None, None, True, None, False, True)
            else:
                return (kept, None, None, True, at - base, False, False)
            at += 1
        return (*found, True, None, False, False)

    def shown(self, vis, judge, last):
        if self.panics and last and vis.startswith("in:"):
            target = int(vis.split(":")[1])
            if target != judge and self.world.modules[target][0] == self.world.modules[judge][0]:
                raise Panic(PANIC_LAST)
        return self.world.sees(vis, judge, self.on)


def extern_import(word):
    return "-" if word == "-" else f"extern:{word}"
