"""The reader of Cabal text: the lines of values and entries, and texts that grow."""

import time
import unittest

from tool.elements import Field, Misread, Section, elements, entries, names, walk

TEXT = """cabal-version: 3.4
name: main

library
  build-depends: base >=4.1
      && <5,
    -- a comment
    a, b:{c, d}
     ^>={1, 2}

    , e
  if flag(x)
    build-depends:
      f
executable x { build-depends: { g, h
   , i } }
"""


def fields(text, name):
    return [it for it in walk(elements(text)) if isinstance(it, Field) and it.name == name]


class Lines(unittest.TestCase):
    """Each value and each entry has its own line."""

    def test_lines_of_values(self):
        told = [list(zip(it.values, it.lines)) for it in fields(TEXT, "build-depends")]
        self.assertEqual([("base >=4.1", 5), ("&& <5,", 6), ("a, b:{c, d}", 8), ("^>={1, 2}", 9), (", e", 11)], told[0])
        self.assertEqual([[("f", 14)], [("g, h", 15), (", i", 16)]], told[1:])

    def test_lines_of_entries(self):
        told = [entries(it) for it in fields(TEXT, "build-depends")]
        self.assertEqual([("base >=4.1 && <5", 5), ("a", 8), ("b:{c, d} ^>={1, 2}", 8), ("e", 11)], told[0])
        self.assertEqual([[("f", 14)], [("g", 15), ("h", 15), ("i", 16)]], told[1:])

    def test_a_comma_behind_an_open_brace(self):
        self.assertEqual([("a {1", 3), ("b", 4)], entries(Field("build-depends", ["a {1,", "b"], 3, [3, 4])))

    def test_names_between_blanks_and_commas(self):
        self.assertEqual(
            [("a", 1), ("b/*.cabal", 2), ("c", 2), ("d", 3)],
            [it for field in fields("packages: a\n  b/*.cabal, c\n  d\n", "packages") for it in names(field)],
        )

    def test_a_field_made_by_hand(self):
        self.assertEqual([("a", 0), ("b", 0)], entries(Field("build-depends", ["a, b"])))

    def test_line_ends_of_windows(self):
        self.assertEqual([("a", 2), ("b", 3)], entries(fields("library\r\n  build-depends: a,\r\n    b\r\n", "build-depends")[0]))

    def test_a_brace_that_nothing_closes(self):
        for text in ("library {", "build-depends: {\n a\n", "library {\n name: x\n"):
            with self.assertRaises(Misread):
                elements(text)


class Large(unittest.TestCase):
    """The time grows as the text does."""

    def test_one_long_line(self):
        begun = time.monotonic()
        found = elements("a {} " * 20000)
        self.assertEqual(20000, len(found))
        self.assertTrue(all(isinstance(it, Section) for it in found))
        self.assertEqual(50000, len(entries(Field("build-depends", ["a," * 50000]))))
        self.assertLess(time.monotonic() - begun, 10)
