"""The record of refused edits: what `bin/mistakes --all` writes, goes on with, and tries again; and that `bin/release` wants it. A stand-in for the
kit refuses what it is told to."""

import os
import shutil

from tests.rooms import TOP, Room

# It refuses each edit but those whose text has `holds`; it has no result for those behind one with `dies`, as if it were killed there.
KIT = """#!/bin/sh
case $1 in
version) echo "rattle-kit-13f logic ${LOGIC:-abc}"; exit 0 ;;
must-fail) shift ;;
*) echo "$*" >>{log}; exit 1 ;;
esac
for crate; do
    for edit in crates/$crate/must-fail/*.edit; do
        [ -f "$edit" ] || continue
        name=$(basename "$edit")
        echo "$crate/$name" >>{log}
        if grep -q dies "$edit"; then kill -9 $$; fi
        if grep -q holds "$edit"; then word='NOT REFUSED'; else word=refused; fi
        if grep -q idle "$edit"; then rest=' only because a proof file names what the edit took away'; else rest=; fi
        echo "rt: must-fail $crate/$name: $word$rest"
    done
done
"""
EDIT = "file: src/lib.rt\nold: one\nnew: {}\n"
ALL = ["high/b.edit", "high/c.edit", "low/a.edit"]
EDITS = {"low/must-fail/a": "two", "high/must-fail/b": "two", "high/mistakes/c": "two"}


class Edits(Room):
    """A checkout with two crates, one above the other, and three edits."""

    def setUp(self):
        super().setUp()
        self.top = f"{self.room}/top"
        shutil.copytree(f"{TOP}/bin", f"{self.top}/bin", ignore=shutil.ignore_patterns("tests", "__pycache__"))
        self.write("top/HANDLES", "Handles allowed: none.\n")
        self.write("top/crates.txt", "low:\nhigh: low\nother:\ncabal_plan: high\nmodern_headers: low\n")
        for crate in ("low", "high", "other"):
            self.write(f"top/crates/{crate}/src/lib.rt", "one\n")
        for crate in ("cabal_plan", "modern_headers"):
            self.write(f"top/crates/{crate}/src/main.rt", "one\n")
        for path, new in EDITS.items():
            self.edit(path, new)
        self.script("bin/rt", KIT.replace("{log}", self.log))

    def edit(self, path, new):
        self.write(f"top/crates/{path}.edit", EDIT.format(new))

    def mistakes(self, *words, status=0, **more):
        """Tries edits, and returns those that the kit was asked for, in their order by name."""
        self.write("asked", "")
        ran = self.run_script([f"{self.top}/bin/mistakes", *words], environment=self.environment(**more))
        self.assertEqual(status, ran.returncode, ran.out + ran.err)
        return sorted(self.started())

    def release(self):
        self.write("asked", "")
        return self.run_script([f"{self.top}/bin/release", "0.9"])

    def is_wanting(self, *words):
        """Checks that a release is refused before anything is proved, in a line with these words."""
        self.is_failure(self.release(), *words, "bin/mistakes --all")
        self.assertEqual([], self.started())

    def is_proved(self):
        """Checks that a release gets as far as its proof, at which this kit fails."""
        self.is_failure(self.release(), "the proof failed")
        self.assertEqual(["ci cabal_plan modern_headers"], self.started())

    def test_a_release_wants_each_edit_refused(self):
        self.is_wanting("3 of 3 edits aren't recorded as refused")
        self.assertEqual(ALL, self.mistakes("--all"))
        self.is_proved()
        self.edit("high/mistakes/d", "two")
        self.is_wanting("1 of 4 edits", "the first high/mistakes/d.edit")

    def test_only_all_records(self):
        self.assertEqual(ALL, self.mistakes())
        self.assertEqual(["low/a.edit"], self.mistakes("low"))
        self.assertFalse(os.path.lexists(f"{self.top}/out"))
        self.is_wanting("3 of 3 edits")

    def test_what_is_not_refused_is_tried_again(self):
        for new in ("holds", "idle"):
            self.edit("high/mistakes/c", new)
            self.assertIn("high/c.edit", self.mistakes("--all", status=1))
            self.assertEqual(["high/c.edit"], self.mistakes("--all", status=1))
            self.is_wanting("1 of 3 edits", "the first high/mistakes/c.edit")
        self.edit("high/mistakes/c", "three")
        self.assertEqual(["high/c.edit"], self.mistakes("--all"))
        self.is_proved()
        self.assertEqual([], self.mistakes("--all"))

    def test_goes_on_where_it_was_killed(self):
        self.edit("high/mistakes/c", "dies")
        self.assertEqual(["high/b.edit", "high/c.edit"], self.mistakes("--all", status=1))
        self.is_wanting("2 of 3 edits")
        self.edit("high/mistakes/c", "two")
        self.assertEqual(["high/c.edit", "low/a.edit"], self.mistakes("--all"))
        self.is_proved()

    def test_changed_sources(self):
        """What is changed below a crate counts, what is changed beside it doesn't."""
        self.mistakes("--all")
        for path, again in (
            ("crates/high/src/lib.rt", ["high/b.edit", "high/c.edit"]),
            ("crates/high/specs/New.antt", ["high/b.edit", "high/c.edit"]),
            ("crates/low/proofs/New.antt", ALL),
            ("crates/other/src/lib.rt", []),
            ("HANDLES", ALL),
            ("crates.txt", ["high/b.edit", "high/c.edit"]),
        ):
            before = "low:\nhigh: low other\nother:\ncabal_plan: high\nmodern_headers: low\n" if path == "crates.txt" else "one two\n"
            self.write(f"top/{path}", before)
            self.is_wanting(f"{len(again)} of 3 edits") if again else self.is_proved()
            self.assertEqual(again, self.mistakes("--all"), path)
            self.is_proved()

    def test_another_logic(self):
        self.mistakes("--all")
        self.assertEqual([], self.mistakes("--all"))
        self.assertEqual(ALL, self.mistakes("--all", LOGIC="def"))
        self.is_proved()

    def test_a_moved_edit_is_the_same(self):
        self.mistakes("--all")
        os.rename(f"{self.top}/crates/low/must-fail", f"{self.top}/crates/low/mistakes")
        self.assertEqual([], self.mistakes("--all"))

    def test_a_torn_record(self):
        self.mistakes("--all")
        path = f"{self.top}/out/mistakes.txt"
        with open(path, "rb") as file:
            whole = file.read()
        self.assertEqual(3, whole.count(b"\n"))
        self.write("top/out/mistakes.txt", whole[:-5])
        self.is_wanting("1 of 3 edits")
        self.assertEqual(["low/a.edit"], self.mistakes("--all"))
        with open(path, "rb") as file:
            self.assertEqual(whole, file.read())
        self.write("top/out/mistakes.txt", b"\xff no line of it\n\n" + whole.replace(b" low a.edit", b" low x.edit"))
        self.is_wanting("1 of 3 edits", "low/must-fail/a.edit")

    def test_a_record_that_is_no_file(self):
        os.makedirs(f"{self.top}/out/mistakes.txt")
        self.is_failure(self.release(), "can't be read")
        os.rmdir(f"{self.top}/out/mistakes.txt")
        self.link("top/out/mistakes.txt", self.write("precious", "not to be lost\n"))
        self.mistakes("--all", status=70)
        with open(f"{self.room}/precious", encoding="utf-8") as file:
            self.assertEqual("not to be lost\n", file.read())

    def test_words(self):
        for words in (["--all", "low"], ["--all", "--fit"]):
            self.assertEqual([], self.mistakes(*words, status=64))

    def test_without_the_kit(self):
        os.remove(f"{self.room}/bin/rt")
        self.is_failure(self.release(), "rt isn't found")
        self.mistakes("--all", status=70)
