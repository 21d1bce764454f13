#!/usr/bin/env python3
"""Builds the Rust's side of the comparison: python3 oracle/build.py SOURCES BUILD

SOURCES is a folder with the source files of ra_ap_hir_def 0.0.360 (lib.rs, nameres.rs and so on). BUILD is a folder
outside this repository; the program `rust_worlds` is made there. Nothing is needed beside python3 and rustc.

Files and items come into BUILD as they stand. WHOLE names the files that are taken whole, CUT the items that are taken
of the others; what is not named is left out. No letter of an item is changed.
"""
import hashlib
import pathlib
import shutil
import subprocess
import sys

# The files of version 0.0.360, by their SHA-256.
SUMS = {
    "builtin_type.rs": "0911c9980f0483f3e6b0d17a3b40f5b833df9c3812b594dd754a2106477eddbf",
    "item_scope.rs": "a162e2e46aa96e8ee87e95546f0f6e2e1f303ca35ebf303a0c0c08e881c611a1",
    "lib.rs": "6687811fd971ec24d3b953bb1c93cfdabbc59f34a94af3df5ab1e289531c1d84",
    "nameres.rs": "d14c64ca8b702e948d8d9f41ff163e0c37b741749b29cfc638e6e36ad1503b6d",
    "nameres/path_resolution.rs": "75b6d07c7a6a803c302e33af6f03aae3a5c1b0a9aa98741864d8a76416fbcf9f",
    "per_ns.rs": "286b3bbbeb64157c0aeb865f69873e73ff1fe6fa0383b5bb84ce353d9ff8db50",
    "visibility.rs": "9323b016541828dbe8b4203faa0071de204c42a1f72ca2d8f3bd2a343577842a",
}

WHOLE = ["builtin_type.rs", "per_ns.rs", "nameres/path_resolution.rs"]

# An item by how it begins; `Type::name` is a function or constant in any `impl Type`, and `impl_from! A B` the use of that
# macro that has A first and B last.
CUT = {
    "visibility.rs": [
        "enum Visibility",
        "Visibility::is_visible_from",
        "Visibility::is_visible_from_def_map",
        "Visibility::is_visible_from_def_map_",
    ],
    "item_scope.rs": [
        "struct PerNsGlobImports",
        "enum ImportOrExternCrate",
        "impl_from! ImportOrGlob ImportOrExternCrate",
        "impl ImportOrExternCrate",
        "enum ImportOrGlob",
        "impl ImportOrGlob",
        "enum ImportOrDef",
        "impl_from! ImportOrExternCrate ImportOrDef",
        "impl_from! ImportOrGlob ImportOrDef",
        "struct ImportId",
        "struct GlobId",
        "struct ItemScope",
        "struct DeriveMacroInvocation",
        "static BUILTIN_SCOPE",
        "enum BuiltinShadowMode",
        "ItemScope::get",
        "ItemScope::get_legacy_macro",
        "ItemScope::define_legacy_macro",
        "ItemScope::push_res_with_import",
        "enum ItemInNs",
    ],
    "nameres.rs": [
        "struct LocalDefMap",
        "LocalDefMap::EMPTY",
        "struct DefMap",
        "struct DefMapCrateData",
        "struct BlockInfo",
        "impl std::ops::Index<ModuleIdLt<'_>> for DefMap",
        "impl std::ops::IndexMut<ModuleId> for DefMap",
        "enum ModuleOrigin",
        "struct ModuleData",
        "ModuleData::new",
        "fn crate_def_map",
        "DefMap::krate",
        "DefMap::crate_root",
        "DefMap::root_module_id",
        "DefMap::parent",
        "DefMap::block_id",
        "DefMap::resolve_path",
        "enum MacroSubNs",
        "fn macro_styles_from_id",
        "fn sub_namespace_match",
        "struct ModulesMap",
        "impl ModulesMap",
        "impl Deref for ModulesMap",
        "impl DerefMut for ModulesMap",
        "impl Index<ModuleIdLt<'_>> for ModulesMap",
        "impl IndexMut<ModuleId> for ModulesMap",
    ],
    "lib.rs": [
        "type FxIndexMap",
        "enum MacroExpander",
        "ModuleIdLt::to_static",
        "ModuleIdLt::def_map",
        "ModuleIdLt::only_local_def_map",
        "ModuleId::to_db",
        "enum AdtId",
        "impl_from! StructId AdtId",
        "enum MacroId",
        "impl_from! Macro2Id MacroId",
        "enum ModuleDefId",
        "impl_from! MacroId ModuleDefId",
    ],
}


def skip(text, i):
    """The end of the comment, string or character that begins at `i`, or `i`."""
    two = text[i:i + 2]
    if two == "//":
        end = text.find("\n", i)
        return len(text) if end < 0 else end
    if two == "/*":
        return text.index("*/", i) + 2
    if text[i] == '"':
        i += 1
        while text[i] != '"':
            i += 2 if text[i] == "\\" else 1
        return i + 1
    if text[i] == "'":
        if text[i + 1] == "\\":
            return text.index("'", i + 2) + 1
        if text[i + 2] == "'":
            return i + 3
    return i


def head_of(item):
    """The item without its comments, attributes and visibility, its blanks as one."""
    i, out = 0, []
    while i < len(item):
        if item[i] == "#" and not out:
            depth, i = 0, item.index("[", i)
            while True:
                depth += {"[": 1, "]": -1}.get(item[i], 0)
                i += 1
                if depth == 0:
                    break
            continue
        j = skip(item, i)
        if j > i and item[i] == "/":
            i = j
            continue
        if j == i:
            j = i + 1
        if out or not item[i].isspace():
            out.append(item[i:j])
        i = j
    head = " ".join("".join(out).split())
    for word in ("pub(crate) ", "pub(super) ", "pub "):
        if head.startswith(word):
            head = head[len(word):]
    return head


def items(text):
    """The items of a file, or of the inside of an `impl`, each from its first comment or attribute on."""
    found, start, i, depth = [], 0, 0, 0
    while i < len(text):
        j = skip(text, i)
        if j > i:
            i = j
            continue
        c = text[i]
        i += 1
        if c in "([{":
            depth += 1
        elif c in ")]}":
            depth -= 1
        if depth == 0 and c in ";}":
            head = head_of(text[start:i])
            kind = head.split()[0]
            if c == "}" and (kind in ("use", "static", "type") or (kind == "const" and not head.startswith("const fn"))):
                continue
            if c == ";" and head.startswith("#"):
                continue
            found.append((head, text[start:i].lstrip("\n")))
            start = i
    return found


def inside(item):
    """What stands between the braces of an `impl`."""
    i = 0
    while item[i] != "{":
        i = max(skip(item, i), i + 1)
    return item[i + 1:item.rindex("}")]


def wanted(head, want):
    if want.startswith("impl_from!"):
        words = head.replace("(", " ").replace(")", " ").replace(",", " ").replace(";", " ").split()
        return words[:1] == ["impl_from!"] and [words[1], words[-1]] == want.split()[1:]
    word = head[len(want):len(want) + 1]
    return head.startswith(want) and not (word.isalnum() or word == "_")


def impl_of(head):
    """The type of an `impl` of its own functions, without parameters."""
    if not head.startswith("impl"):
        return None
    rest = head[4:]
    if rest.startswith("<"):
        rest = rest[rest.index(">") + 1:]
    rest = rest[:rest.index("{")].strip() if "{" in rest else ""
    return None if " for " in rest else rest


def cut(name, text, wants):
    all_items = items(text)
    out, parts = [], []
    for want in wants:
        owner, _, member = want.partition("::")
        if member and owner.isidentifier():
            hits = []
            for head, item in all_items:
                whole = impl_of(head)
                if whole and whole.partition("<")[0].strip() == owner:
                    for inner, body in items(inside(item)):
                        words = inner.replace("unsafe ", "")
                        if wanted(words, "fn " + member) or wanted(words, "const " + member):
                            lead = head[:head.index("{")].strip()
                            hits.append((lead, body))
        else:
            hits = [(None, item) for head, item in all_items if wanted(head, want)]
        if len(hits) != 1:
            sys.exit(f"{name}: {len(hits)} items `{want}`")
        lead, body = hits[0]
        assert body in text
        if lead is None:
            out.append(body)
        else:
            for part in parts:
                if part[0] == lead:
                    part[1].append(body)
                    break
            else:
                parts.append((lead, [body]))
    for lead, bodies in parts:
        out.append(lead + " {\n" + "\n\n".join(bodies) + "\n}")
    return "\n\n".join(out) + "\n"


def main():
    if len(sys.argv) != 3:
        sys.exit(__doc__)
    here = pathlib.Path(__file__).resolve().parent
    sources, build = pathlib.Path(sys.argv[1]), pathlib.Path(sys.argv[2])
    if here.parent in [build.resolve(), *build.resolve().parents]:
        sys.exit("the build folder must lie outside the repository")
    for name, sum_ in SUMS.items():
        if hashlib.sha256((sources / name).read_bytes()).hexdigest() != sum_:
            sys.exit(f"{sources / name} is not of version 0.0.360")
    build.mkdir(parents=True, exist_ok=True)
    for name in WHOLE:
        shutil.copyfile(sources / name, build / ("whole_" + pathlib.Path(name).name))
    for name, wants in CUT.items():
        text = (sources / name).read_text()
        (build / ("cut_" + name)).write_text(cut(name, text, wants))
    for file in sorted((here / "stand_ins").glob("*.rs")):
        shutil.copyfile(file, build / file.name)

    def rustc(*words):
        subprocess.run(["rustc", "--edition", "2024", "--cap-lints", "allow", *words], cwd=build, check=True)

    rustc("--crate-type", "proc-macro", "--crate-name", "marks", "marks.rs")
    rustc("-O", "--crate-name", "rust_worlds", "--extern", "tracing=libmarks.so", "--extern", "salsa=libmarks.so", "around.rs")
    print(build / "rust_worlds")


main()
