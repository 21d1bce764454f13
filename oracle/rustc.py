#!/usr/bin/env python3
"""Asks rustc about the small programs in which the port, the Rust and The Rust Reference may part.

    python3 oracle/rustc.py

Each program below is one or two crates. What rustc says is an error's number, or what the program prints. Where it says
otherwise than is written here, the place is printed and the status is 1.
"""
import os
import pathlib
import subprocess
import sys
import tempfile

# Name, edition, what rustc says, the other crate (`other`) or None, the program.
PROGRAMS = [
    ("private-to-a-block-module", "2021", "E0624", None, """
struct S;
fn f() { mod b { impl crate::S { fn x(&self) {} } } }
fn main() { S.x() }
"""),
    ("judged-where-super-leads", "2021", "p", None, """
mod a { fn p() { print!("p") } pub fn f() { mod b { pub fn q() { super::super::a::p(); } } b::q() } }
fn main() { a::f() }
"""),
    ("foreign-rest-judged-abroad", "2021", "E0603", "pub(crate) fn x() {}", """
fn main() { other::x() }
"""),
    ("asked-on-after-a-type", "2021", "E0425", None, """
mod outer { pub fn y() {} }
mod x { pub use crate::outer::*; }
fn main() { mod x {} x::y() }
"""),
    ("hidden-prelude-items", "2021", "E0425", "pub(crate) fn x() {}", """
#![feature(prelude_import)]
#[prelude_import] #[allow(unused)] use ::other::*;
fn main() { x() }
"""),
    ("preludes-of-any-macro-kind", "2021", "cannot find macro `Clone` in this scope", None, """
fn main() { Clone!() }
"""),
    ("built-in-type-before-extern-prelude", "2021", "f", 'pub fn f() { print!("f") }', """
fn main() { char::f() }
"""),
    ("built-in-type-before-a-module, of one name", "2021", "a", None, """
#[allow(non_camel_case_types)] mod char { }
fn main() { let c: char = 'a'; print!("{c}") }
"""),
    ("no-built-in-type-inside-a-block", "2021", "7", None, """
fn main() { mod m { pub fn f() -> u8 { 7 } } print!("{}", m::f()) }
"""),
    ("no-built-in-type-inside-a-block, of a module that the block imports", "2021", "7", None, """
fn main() { #[allow(unused_imports)] use std::u8; let n: u8 = 7; print!("{n}") }
"""),
    ("import-of-2015-in-the-extern-prelude", "2015", "E0432", "pub fn f() {}", """
use other::f;
fn main() { f() }
"""),
    ("absolute-path-of-2015-in-the-extern-prelude", "2015", "E0433", "pub fn f() {}", """
fn main() { ::other::f() }
"""),
    ("macros-of-2015s-crate-root-of-any-kind", "2015", "expected macro, found attribute macro `::x`", None, """
use std::prelude::v1::test as x;
fn main() { ::x!() }
"""),
    ("two-globs-of-one-name", "2021", "E0659", None, """
mod a { pub fn x() {} } mod b { pub fn x() {} }
use a::*; use b::*;
fn main() { x() }
"""),
    ("glob-beside-the-extern-prelude", "2021", "E0659", "pub fn f() {}", """
mod a { pub mod other { pub fn f() {} } }
use a::*;
use other::f;
fn main() { f() }
"""),
    ("legacy-macro-beside-a-paths", "2021", "E0659", None, """
mod a { #[macro_export] macro_rules! other_m { () => {} } pub use other_m as m; }
use a::*;
macro_rules! make { () => { macro_rules! m { () => {} } } }
make!();
m!();
fn main() {}
"""),
    ("names-after-a-variant", "2021", "E0433", None, """
enum E { V } mod m { }
fn main() { E::V::f() }
"""),
    ("names-after-a-variant, of an import", "2021", "E0433", None, """
enum E { V }
use E::V;
fn main() { V::f() }
"""),
    ("no-built-in-type-behind-a-module", "2021", "255", None, """
fn main() { #[allow(unused_imports)] use std::u8; print!("{}", u8::from_str_radix("ff", 16).unwrap()) }
"""),
    ("first-globs-visibility", "2021", "x", None, """
mod item { pub fn x() { print!("x") } }
mod all { use crate::item::*; pub mod wide { pub use crate::item::*; } pub use wide::*; }
fn main() { all::x() }
"""),
]


def says(room, name, edition, other, program):
    words = ["rustc", "--edition", edition, "--cap-lints", "allow"]
    if other is not None:
        (room / "other.rs").write_text(other)
        subprocess.run(["rustc", "--edition", "2021", "--cap-lints", "allow", "--crate-type", "rlib", "other.rs"], cwd=room, check=True)
        words += ["--extern", ("char" if name.endswith("before-extern-prelude") else "other") + "=libother.rlib"]
    (room / "program.rs").write_text(program)
    # `prelude_import` is no feature of a stable rustc.
    done = subprocess.run([*words, "program.rs"], cwd=room, capture_output=True, text=True, env={**os.environ, "RUSTC_BOOTSTRAP": "1"})
    if done.returncode:
        error = next(line for line in done.stderr.split("\n") if line.startswith("error"))
        return error[6:11] if error.startswith("error[") else error[7:]
    return subprocess.run([room / "program"], capture_output=True, text=True, check=True).stdout


def main():
    failed = False
    for name, edition, wanted, other, program in PROGRAMS:
        with tempfile.TemporaryDirectory() as room:
            said = says(pathlib.Path(room), name, edition, other, program)
        failed |= said != wanted
        print(f"{name}: {said}" + ("" if said == wanted else f"; written here: {wanted}"))
    sys.exit(failed)


if __name__ == "__main__":
    main()
