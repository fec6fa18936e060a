"""The frames of `modern-headers`: all kinds, damaged ones, and programs that end otherwise."""

import os

from tests.rooms import REWRITER, Room
from tool import modern
from tool.refusal import Refusal

OLDER = "cabal-version: >=1.10\nname: a\nversion: 1\n"
# A program that prints a file of its room for any words.
PRINTS = "#!/bin/sh\ncat {}/output\n"


class Frames(Room):
    """A program that answers for two files, `a.cabal` and `b.cabal`."""

    def setUp(self):
        super().setUp()
        self.write("older/a.cabal", OLDER)
        self.write("older/b.cabal", "cabal-version: 2.4\n")

    def frames(self, program, paths=("a.cabal", "b.cabal")):
        return list(modern.frames(program, f"{self.room}/older", list(paths)))

    def printed(self, output, further=""):
        """Returns the frames of a program that prints this, and then does what a shell is told."""
        self.write("output", output)
        return self.frames(self.script("prints", PRINTS.format(self.room) + further))

    def is_refused(self, call, *words):
        with self.assertRaises(Refusal) as found:
            call()
        for word in words:
            self.assertIn(word, str(found.exception))

    def test_all_frames(self):
        changes = [*modern.KINDS, *(f"{it} 12" for it in modern.KINDS_AT)]
        text = "cabal-version: 2.4\nbytes 3\n\nunchanged x\n"
        told = "".join(f"change {it}\n" for it in changes)
        one, two = self.printed(f"rewritten files/a.cabal\n{told}bytes {len(text)}\n{text}\nunchanged files/b.cabal\n")
        self.assertEqual(("a.cabal", "rewritten", text.encode()), (one.path, one.word, one.text))
        self.assertEqual([*modern.KINDS.values(), *modern.KINDS_AT.values()], list(one.kinds))
        self.assertEqual(("b.cabal", "unchanged", b"", ()), (two.path, two.word, two.text, two.kinds))
        one, two = self.printed("refused files/a.cabal:3 UnclosedBrace\nrefused files/b.cabal TooLarge\n")
        self.assertEqual(("a.cabal:3", "UnclosedBrace", 3), (one.place(), one.cause, one.line))
        self.assertEqual(("b.cabal", "TooLarge", 0), (two.place(), two.cause, two.line))
        one, two = self.printed("missing files/a.cabal\nrewritten files/b.cabal\nbytes 0\n\n")
        self.assertEqual(("missing", "rewritten", b"", [modern.LAYOUT]), (one.word, two.word, two.text, list(two.kinds)))

    def test_damaged_frames(self):
        whole = "unchanged files/a.cabal\nunchanged files/b.cabal\n"
        for output, said in (
            (whole + "x", "more than the frames"), (whole + whole, "more than the frames"), ("unchanged files/b.cabal\n" * 2, "isn't the frame of a.cabal"),
            ("changed files/a.cabal\n", "isn't the frame"), ("\n", "isn't the frame"), ("refused list0 NotUtf8\n", "refused list0 NotUtf8"),
            ("unchanged files/a.cabal\nunchanged files/a.cabal\n", "after 1 of 2 files"), ("refused files/a.cabal:x BadName\n", "has no cause"),
            ("refused files/a.cabal:1\n", "has no cause"), ("refused files/a.cabal BadName at 3\n", "has no cause"),
            ("rewritten files/a.cabal\nchange all\n", "isn't a change"), ("rewritten files/a.cabal\nchange header 3\n", "isn't a change"),
            ("rewritten files/a.cabal\nchange left-out\n", "isn't a change"), ("rewritten files/a.cabal\nbytes x\n", "isn't the size"),
            ("rewritten files/a.cabal\nbytes -1\n", "isn't the size"), ("rewritten files/a.cabal\nbytes 99999999999\n", "isn't the size"),
            ("rewritten files/a.cabal\nbytes 3\nabcd\n", "no line ends behind"), ("x" * 100_000, "too long"),
        ):  # fmt: skip
            with self.subTest(output[:60]):
                self.is_refused(lambda output=output: self.printed(output), "prints can't be used", said)

    def test_an_early_end(self):
        for output in ("", "unchanged files/a.cabal\n", "unchanged files/a.ca", "rewritten files/a.cabal\n", "rewritten files/a.cabal\nbytes 9\nabc"):
            with self.subTest(output):
                self.is_refused(lambda output=output: self.printed(output), "it ends early")

    def test_another_status(self):
        whole = "unchanged files/a.cabal\nunchanged files/b.cabal\n"
        for output in ("", whole[:20], whole):
            ran = lambda output=output: self.printed(output, "echo 'modern-headers: a file could not be read' >&2\nexit 4\n")
            self.is_refused(ran, "ends with status 4", "a file could not be read")
            self.is_refused(lambda output=output: self.printed(output, "kill -9 $$\n"), "ends with status 137")
        self.is_refused(lambda: self.printed("unchanged files/a.cabal\n", "exit 6\n"), "status 6 after 1 of 2 files")

    def test_programs_that_can_not_be_run(self):
        self.is_refused(lambda: self.frames(f"{self.room}/nowhere"), "can't be run")
        self.is_refused(lambda: self.frames(self.write("text", "no program\n")), "can't be run")

    def test_each_frame_is_handed_on_at_once(self):
        waits = self.script("waits", "#!/bin/sh\necho unchanged files/a.cabal\nexec sleep 60\n")
        frames = modern.frames(waits, f"{self.room}/older", ["a.cabal", "b.cabal"])
        self.assertEqual("unchanged", next(frames).word)
        frames.close()

    def test_names_that_a_list_can_not_have(self):
        program = self.script("rewriter", REWRITER)
        odd = ["a\nb.cabal", "c.cabal\r", " d .cabal", os.fsdecode(b"\xff.cabal"), "caf\u00e9.cabal", "-x/..y/e.cabal"]
        for path in odd:
            os.makedirs(os.path.dirname(f"{self.room}/older/{path}"), exist_ok=True)
            with open(f"{self.room}/older/{path}", "w", encoding="utf-8") as file:
                file.write(OLDER)
        found = self.frames(program, odd)
        self.assertEqual([(it, "rewritten") for it in odd], [(it.path, it.word) for it in found])
        self.assertTrue(all(it.text.startswith(b"cabal-version: 2.4\nname: a") for it in found))

    def test_many_files_need_several_lists(self):
        paths = [f"{'n' * 200}{it}.cabal" for it in range(6000)]
        contents = list(modern.lists(paths))
        self.assertGreater(len(contents), 1)
        self.assertTrue(all(len(it) <= modern.MOST_LIST for it in contents))
        self.assertEqual(paths, b"".join(contents).decode().split("\n")[:-1])

    def test_no_files(self):
        self.assertEqual([], self.frames(f"{self.room}/nowhere", []))
