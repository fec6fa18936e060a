"""What the root files export: `bin/calls` prints it, so that `bin/try-docs` can compare it with the document."""

import shutil
import unittest

from tests.rooms import TOP, Room
from tool.documents.exports import Export, exported
from tool.refusal import Refusal

ROOT = """//! pub use prose::Nothing;
mod left;
mod right;

pub use left::{Kept, of};
pub use right::last;
"""
LEFT = """pub struct Kept {}
pub fn of(n: u64) -> u64
    ensures left { result ≡ n }
{
    n
}
pub fn last() -> u64
    ensures first { result ≡ 1 }
{
    1
}
"""
RIGHT = """pub fn last() -> u64
    ensures second { result ≡ 2 }
    ensures third { result ≡ 2 }
{
    2
}
pub fn hidden() -> u64
    ensures fourth { result ≡ 2 }
{
    2
}
"""
CALLS = "| Crate | Calls |\n|---|---|\n| pair | of (left), last (second, third) |\n\n| Crate | Exported besides |\n|---|---|\n| pair | Kept |\n"


class Names(unittest.TestCase):
    """What is exported, by the text of a root file."""

    def test_use_trees(self):
        for text, *wanted in (
            ("pub use a::b;", ("a", "b", "b")),
            ("pub use a::{b, c,};", ("a", "b", "b"), ("a", "c", "c")),
            ("pub use a::{\n    b, // one\n    c as d,\n};", ("a", "b", "b"), ("a", "c", "d")),
            ("pub use a::{b::{c, d as e}, f};", ("a::b", "c", "c"), ("a::b", "d", "e"), ("a", "f", "f")),
            ("pub use a::b as c;\npub use d::c as b;", ("a", "b", "c"), ("d", "c", "b")),
            ("pub mod a;\npub fn b() {}\npub const C: u64 = 1;\npub struct D {}", ("", "a", "a"), ("", "b", "b"), ("", "C", "C"), ("", "D", "D")),
            ("#[macro_export]\nmacro_rules! m {", ("", "m", "m")),
            ("use a::b;\nmod c;\npub(crate) use d::e;\npub(crate) fn f() {}\n    pub fn g() {}\n// pub use h::i;",),
        ):
            self.assertEqual([Export(*it) for it in wanted], exported(text), text)

    def test_names_that_nobody_writes_out(self):
        for text in ("pub use a::*;", "pub use a::{b, c::*};"):
            with self.assertRaises(Refusal):
                exported(text)


class Calls(Room):
    """The tables of a small checkout."""

    def setUp(self):
        super().setUp()
        self.top = f"{self.room}/top"
        shutil.copytree(f"{TOP}/bin", f"{self.top}/bin", ignore=shutil.ignore_patterns("tests", "__pycache__"))
        self.write("top/crates.txt", "pair: below\n\n# tests\n")
        self.source(ROOT)

    def source(self, root, left=LEFT, right=RIGHT):
        for name, text in (("lib", root), ("left", left), ("right", right)):
            self.write(f"top/crates/pair/src/{name}.rt", text)

    def tables(self):
        ran = self.run_script([f"{self.top}/bin/calls"])
        return ran.returncode, ran.out

    def test_tables(self):
        self.assertEqual((0, CALLS), self.tables())

    def test_each_change_of_an_export_changes_a_table(self):
        for what, old, new in (
            ("the function of another module", "right::last", "left::last"),
            ("one name fewer", "{Kept, of}", "of"),
            ("one name more", "right::last", "right::{hidden, last}"),
            ("another name", "right::last", "right::last as hidden"),
            ("two names exchanged", "{Kept, of};\npub use right::last", "{Kept, of as last};\npub use right::last as of"),
            ("another function under the name", "right::last", "right::hidden as last"),
            ("a type of another crate", "left::{Kept, of}", "below::Kept;\npub use left::of"),
            ("another type under the name", "{Kept, of}", "{Other as Kept, of}"),
            ("a module", "mod left;", "pub mod left;"),
        ):
            self.assertIn(old, ROOT)
            self.source(ROOT.replace(old, new))
            status, tables = self.tables()
            self.assertEqual(0, status, what)
            self.assertNotEqual(CALLS, tables, what)

    def test_a_call_without_a_clause(self):
        self.source(ROOT, LEFT.replace("    ensures left { result ≡ n }\n", ""))
        self.assertEqual(1, self.tables()[0])
