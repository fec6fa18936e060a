"""The pages of a set: their data, their folder, and how they look and work in a browser."""

import itertools
import json
import os
import shutil
import subprocess
import unittest

from tests.browser import CHROMIUM, Browser
from tests.rooms import TOP, Room, listing
from tool.refusal import Refusal
from tool.set import page, page_data

STATUSES = {"plan": 0, "no plan": 1, "gave up": 2, "refused": 3, "failed": 70}
PLAN = """plan
skipped index/x/1/x.cabal:1 WrongCabalVersion
choose app 1 local
choose app:fast off
node installed base-4 lib base-4
node store text-2 lib text-2-{0} needs base-4
node local app-1 exe:app app-1-inplace-app needs base-4 text-2-{0}
visited 3 exhausted 0
""".format("0123456789abcdef" * 4)
REASON = "Because app 1 depends on text >=3 (app.cabal:5), there is no plan.\n\nhelp: app.cabal:5: widen `text >=3`\n"
ODD = ["<img src=x onerror=alert(1)>", "a&amp;b", "'\"`", "</script><script>alert(2)</script>", "<!--", "../../up", "a/b", "\u2028\x1b[31m\u202e", "CON", "é\udc80", ""]
CONTRAST = """(() => {
  const canvas = document.createElement("canvas").getContext("2d", { willReadFrequently: true });
  const rgb = text => { canvas.clearRect(0, 0, 1, 1); canvas.fillStyle = text; canvas.fillRect(0, 0, 1, 1); return [...canvas.getImageData(0, 0, 1, 1).data]; };
  const light = c => c.slice(0, 3).map(it => it / 255).map(it => it <= 0.04045 ? it / 12.92 : ((it + 0.055) / 1.055) ** 2.4)
    .reduce((sum, it, at) => sum + it * [0.2126, 0.7152, 0.0722][at], 0);
  const behind = it => { for (; it; it = it.parentElement) { const c = rgb(getComputedStyle(it).backgroundColor); if (c[3] > 250) return c; } };
  const of = it => { const a = light(rgb(getComputedStyle(it).color)), b = light(behind(it)); return (Math.max(a, b) + 0.05) / (Math.min(a, b) + 0.05); };
  const seen = [...document.querySelectorAll("body *")].filter(it => it.checkVisibility() && [...it.childNodes].some(at => at.nodeType === 3 && at.data.trim()));
  return Math.min(...seen.filter(it => !(it instanceof SVGElement)).map(of));
})()"""


def record(name="app", version="1", compiler="ghc-9.4.7", setting="newest", verdict="plan", **more):
    """Returns a record of a cell."""
    return {
        "key": "0" * 64, "target": "all", "name": name, "version": version, "compiler": compiler, "setting": setting, "wanted": True,
        "verdict": verdict, "status": STATUSES[verdict], "words": ["cabal-plan", "plan", f"--compiler={compiler}"], "seconds": 0.01,
        "output": PLAN if verdict == "plan" else f"{verdict}\n", "error": "", "reason": REASON if verdict == "no plan" else None,
        "changed": None, **more,
    }  # fmt: skip


def small():
    """Yields the records of a small set."""
    for name, compiler, setting in itertools.product(("aeson", "bytes", "text"), ("ghc-9.0.2", "ghc-9.4.7"), ("newest", "oldest")):
        is_bad = (name, compiler) == ("text", "ghc-9.0.2")
        yield record(name, "2.1", compiler, setting, "no plan" if is_bad else "plan", changed="broken" if is_bad and setting == "oldest" else None)
    yield record("bytes", "10.0", "ghc-9.4.7", "newest", "failed", wanted=False, error="out of memory\n")


class Pages(Room):
    def setUp(self):
        super().setUp()
        self.at = f"{self.room}/page"

    def data(self, path):
        """Returns what a script of data calls its function with last."""
        with open(f"{self.at}/{path}", encoding="ascii") as file:
            text = file.read()
        self.assertNotRegex(text, r"[<>&\x00-\x09\x0b-\x1f]")
        return json.loads("[" + text.partition("(")[2].rpartition(")")[0] + "]")[-1]


class Folders(Pages):
    """The folder of a page."""

    def test_the_same_cells_give_the_same_files(self):
        page.write(small(), self.at)
        first = listing(self.at)
        page.write(reversed(list(small())), self.at)
        del first[".made"]
        second = listing(self.at)
        del second[".made"]
        self.assertEqual(first, second)
        self.assertEqual(["page"], [it for it in os.listdir(self.room) if it.startswith("page")])

    def test_a_page_that_has_gone_is_removed(self):
        page.write([record("a"), record("b")], self.at)
        page.write([record("b")], self.at)
        self.assertEqual(["b.html"], os.listdir(f"{self.at}/packages"))

    def test_nothing_foreign_is_replaced(self):
        page.write(small(), self.at)
        shutil.copytree(self.at, f"{self.room}/copy")
        self.write("page/packages/note.txt", "mine\n")
        self.link("way", "page")
        before = listing(self.room)
        for name in ("page", "copy", "way", "src", "precious.txt/x", "none/x"):
            with self.assertRaises(Refusal, msg=name):
                page.write(small(), f"{self.room}/{name}")
        self.assertEqual(before, listing(self.room))

    def test_a_failure_changes_nothing(self):
        def broken():
            yield record("other")
            raise Refusal("the results can't be read")

        page.write(small(), self.at)
        before = listing(self.room)
        for records in (broken(), [record("a", verdict="plan", changed="odd")]):
            with self.assertRaises(Refusal):
                page.write(records, self.at)
        self.assertEqual(before, listing(self.room))

    def test_names_of_files(self):
        names = [*ODD, "text", "Text", "TEXT", "nul", "x" * 5000]
        found = [page_data.file_name(it) for it in names]
        self.assertEqual(len(names), len({it.lower() for it in found}))
        for it in found:
            self.assertRegex(it, r"\A[a-z0-9_-]{1,100}\Z")
        self.assertEqual("text", page_data.file_name("text"))


class Data(Pages):
    """What the pages load."""

    def test_a_plan(self):
        page.write([record(), record(compiler="ghc-9.0.2")], self.at)
        found = self.data("data/app.js")
        self.assertEqual([["ghc-9.0.2", "newest"], ["ghc-9.4.7", "newest"]], found["columns"])
        self.assertEqual([["base-4", 0, 0], ["text-2", 1, 0], ["app-1 exe:app", 2, 0]], found["units"])
        (plan,) = found["plans"]
        self.assertEqual([[0, 1], [1, 2, 0], [2, 0, 0, 1]], plan["nodes"])
        self.assertEqual(([2], ["app:fast off"]), (plan["roots"], plan["flags"]))
        self.assertEqual(["skipped index/x/1/x.cabal:1 WrongCabalVersion"], plan["notes"])

    def test_the_plan_of_the_program(self):
        ran = subprocess.run([f"{TOP}/dist/cabal-plan", "plan"], cwd=f"{TOP}/examples/project", stdout=subprocess.PIPE, check=True)
        page.write([record(output=ran.stdout.decode())], self.at)
        (plan,) = self.data("data/app.js")["plans"]
        self.assertEqual(ran.stdout.count(b"\nnode "), len(plan["nodes"]))
        self.assertEqual(["app:*test on", "core-lib:fast off"], plan["flags"])

    def test_no_cell_is_lost(self):
        page.write([record(), record(), record(version="10"), record(version="9")], self.at)
        self.assertEqual([["10", 0], ["9", 0], ["1", 0], ["1", 1]], [[it[1], it[3]] for it in self.data("table.js")["rows"]])

    def test_words_for_a_shell(self):
        words = ["plan", "it's", "a b", "$(x)", "line\nend\\'", "\x1b"]
        text = " ".join(map(page_data.word, words))
        ran = subprocess.run(["bash", "-c", f"printf '%s\\0' {text}"], stdout=subprocess.PIPE, check=True)
        self.assertEqual(words, ran.stdout.decode().split("\0")[:-1])


@unittest.skipUnless(CHROMIUM, "Chromium isn't installed")
class InBrowser(Pages):
    """The pages as a reader has them."""

    def setUp(self):
        super().setUp()
        self.browser = Browser(self.room)
        self.addCleanup(self.browser.close)
        self.value = self.browser.value

    def show(self, records, path="index.html"):
        page.write(records, self.at)
        self.browser.open(f"{self.at}/{path}")

    def names(self):
        return self.value("[...document.querySelectorAll('tbody th')].map(it => it.firstChild.textContent)")

    def is_quiet(self):
        """Checks that the console has no fault, and that nothing but files was asked for."""
        self.assertEqual([], self.browser.faults)
        self.assertEqual([], [it for it in self.browser.asked if not it.startswith((f"file://{self.at}/", "about:"))])

    def holds(self, text):
        self.assertTrue(self.browser.until(text), text)

    def test_order_search_and_filters(self):
        self.show(small())
        self.assertEqual(["text 2.1", "bytes 10.0", "aeson 2.1", "bytes 2.1"], self.names())
        self.browser.key("/")
        self.browser.write("BYT 2.")
        self.assertEqual(["bytes 2.1"], self.names())
        self.value("document.getElementById('search').select()")
        self.browser.write("nothing")
        self.assertIn("Nothing matches", self.value("document.getElementById('found').textContent"))
        self.value("(() => { const it = document.getElementById('search'); it.value = ''; it.dispatchEvent(new Event('input')); })()")
        self.value("document.querySelector('.kind.failed').click()")
        self.assertEqual(["bytes 10.0"], self.names())
        self.value("document.querySelector('.kind.broken').click()")
        self.assertEqual(["text 2.1", "bytes 10.0"], self.names())
        self.value("(() => { const it = document.getElementById('compiler'); it.value = 'ghc-9.4.7'; it.dispatchEvent(new Event('input')); })()")
        self.assertEqual(["bytes 10.0"], self.names())
        self.is_quiet()

    def test_a_cell_by_keys(self):
        self.show(small())
        self.browser.key("/")
        for key in ("ArrowDown", "ArrowDown", "ArrowDown", "ArrowRight", "ArrowRight"):
            self.browser.key(key)
        self.assertIn("solid", self.value("getComputedStyle(document.activeElement).outlineStyle"))
        self.browser.key("Enter")
        self.holds("document.querySelector('dialog[open] svg')")
        told = self.value("document.querySelector('dialog').innerText")
        for it in ("aeson 2.1", "ghc-9.0.2 · oldest", "app-1 exe:app (local)", "cabal-plan plan --compiler=ghc-9.0.2", "3 units", "wanted"):
            self.assertIn(it, told)
        self.assertEqual(3, self.value("document.querySelectorAll('svg rect').length"))
        self.browser.key("Escape")
        self.holds("!document.querySelector('dialog').open && location.hash === '' && document.activeElement.matches('td a')")
        self.is_quiet()

    def test_a_reason_and_the_page_of_a_package(self):
        self.show(small())
        self.value("document.querySelector('td .no-plan').click()")
        self.holds("document.querySelector('dialog[open] .help')")
        self.assertIn(REASON.split("\n", maxsplit=1)[0], self.value("document.querySelector('dialog pre').textContent"))
        self.value("document.querySelector('dialog .where a').click()")
        self.holds("document.querySelector('h1') && document.querySelector('h1').textContent === 'text' && document.body.dataset.drawn")
        self.assertEqual(2, self.value("document.querySelectorAll('#reasons .cells a').length"))
        self.value("document.querySelector('#reasons .cells a').click()")
        self.holds("document.querySelector('dialog[open] .help')")
        self.is_quiet()

    def test_odd_names(self):
        odd = [record(it, version=it, target=it, compiler=it, setting=it, verdict="no plan", reason=it, error=it, output=it, words=[it]) for it in ODD]
        for own in odd[:-1]:
            page.write(odd, self.at)
            self.browser.open(f"{self.at}/packages/{page_data.file_name(own['name'])}.html")
            self.assertEqual(page_data.text_of(own["name"]), self.value("document.querySelector('h1').textContent"))
            self.value("document.querySelector('td a').click()")
            self.holds("document.querySelector('dialog[open] pre')")
            self.assertEqual(0, self.value("document.querySelectorAll('img, body script').length"))
        self.browser.open(f"{self.at}/index.html")
        self.assertEqual(len(ODD), len(self.names()))
        self.is_quiet()

    def test_a_large_picture_says_what_is_left_out(self):
        nodes = [f"node store p{it}-1 lib p{it}-1-x" + (f" needs p{it // 2}-1-x" if it else "") for it in range(400)]
        self.show([record(output="\n".join(["plan", *nodes]))])
        self.value("document.querySelector('td a').click()")
        self.holds("document.querySelector('dialog[open] svg')")
        self.assertEqual(150, self.value("document.querySelectorAll('svg rect').length"))
        self.assertIn("of 400: a larger picture isn't drawn", self.value("document.querySelector('.note').textContent"))
        self.is_quiet()

    def test_sizes_themes_and_contrast(self):
        self.show(small())
        self.value("document.querySelector('td .no-plan').click()")
        self.holds("document.querySelector('dialog[open] .help')")
        for scheme in ("light", "dark"):
            self.browser.look(380, 800, scheme)
            self.assertGreaterEqual(self.value(CONTRAST), 4.5, scheme)
            self.assertLessEqual(self.value("document.documentElement.scrollWidth"), 380)
        self.value("document.querySelector('dialog').close()")
        self.assertEqual("rgb(21, 24, 27)", self.value("getComputedStyle(document.body).backgroundColor"))
        self.value("document.getElementById('theme').click()")
        self.assertEqual("rgb(251, 251, 250)", self.value("getComputedStyle(document.body).backgroundColor"))
        self.is_quiet()

    def test_many_cells_open_within_two_seconds(self):
        of = itertools.product(range(500), "12345", ("ghc-9.0.2", "ghc-9.4.7"), ("newest", "oldest", "tests", "all"))
        records = (record(f"package-{it}", version, compiler, setting, "plan" if it % 7 else "no plan") for it, version, compiler, setting in of)
        self.show(records)
        times = []
        for _ in range(3):
            self.browser.open(f"{self.at}/index.html")
            times.append(self.value("Number(document.body.dataset.drawn)"))
        self.assertIn("20,000 cells", self.value("document.getElementById('summary').textContent"))
        self.assertLess(min(times), 2000, times)
        self.value("document.querySelector('.kind.no-plan').click()")
        self.assertIn("360 of 2,500 rows", self.value("document.getElementById('found').textContent"))
        self.is_quiet()
