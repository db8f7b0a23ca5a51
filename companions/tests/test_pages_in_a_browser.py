"""The pages in Chromium, without a window: they show what the program answered, complain of nothing, load nothing and hide no line that a link leads to.

A picture of each page is left in the folder that WASSAIL_SCREENSHOTS names, for whoever changes a page to look at."""
import os
import struct
import subprocess
import unittest
import zlib
from pathlib import Path

import samples
from browser import Browser, found_browser
from support import BUILT, REPOSITORY, STUB, InFolder, companion, needs_program

from wassail_companions.answers import read_answer
from wassail_companions.program import Program

# The lines of a function's page: position, mark, class, whether it is seen, and whether its letters are bold.
LINES = """Array.from(document.querySelectorAll('#rows tbody tr'), row => {
    const cells = row.cells, box = row.getBoundingClientRect(), letters = getComputedStyle(cells[3]);
    return [cells[1].textContent, cells[0].textContent, row.className, box.height > 0 && box.width > 0, parseInt(letters.fontWeight) >= 600]; })"""
# Whether the line with this id is seen from its top on: at its points stands the line, and nothing that lies over it.
IS_ON_TOP = """(id => {
    const row = document.getElementById(id), cell = row.cells[3] || row.cells[0], box = cell.getBoundingClientRect();
    return [box.top + 2, Math.min(box.bottom, innerHeight) - 2].every(y => row.contains(document.elementFromPoint(box.left + 3, y))); })"""


def pixels(picture):
    """Width, height and the bytes of a PNG's lines, as its filters leave them."""
    assert picture[:8] == b"\x89PNG\r\n\x1a\n"
    at, data, size = 8, b"", None
    while at < len(picture):
        length, kind = struct.unpack(">I4s", picture[at : at + 8])
        contents = picture[at + 8 : at + 8 + length]
        if kind == b"IHDR":
            size = struct.unpack(">II", contents[:8])
        elif kind == b"IDAT":
            data += contents
        at += 12 + length
    return *size, zlib.decompress(data)


@unittest.skipUnless(found_browser(), "there is no chromium")
class PagesInABrowser(InFolder):
    @classmethod
    def setUpClass(cls):
        cls.browser = Browser()
        cls.addClassCleanup(cls.browser.close)

    def opened(self, script, data, *words, program=STUB, **window):
        """Opens the page that a companion writes of a module."""
        self.page = self.folder / f"{script}.html"
        said = companion(script, self.written(data), *words, "-o", self.page, program=program)
        self.assertEqual((said.status, said.output), (0, ""), said.error)
        self.browser.open(self.page, **window)

    def told(self, expression):
        return self.browser.told(expression)

    def look(self, name):
        """The page complains of nothing, loads nothing but itself, fits into the window's width, and its picture has something in it."""
        self.assertEqual(self.browser.complaints(), [])
        self.assertEqual(self.browser.addresses(), [self.page.as_uri()])
        # The width without the bar that moves a long page.
        room = self.told("document.documentElement.clientWidth")
        self.assertLessEqual(self.told("document.documentElement.scrollWidth"), room)
        picture = self.browser.screenshot()
        width, height, data = pixels(picture)
        self.assertEqual(width, room)
        self.assertGreater(height, 200)
        self.assertGreater(len(set(data)), 20)
        kept_in = os.environ.get("WASSAIL_SCREENSHOTS")
        if kept_in:
            Path(kept_in).mkdir(parents=True, exist_ok=True)
            (Path(kept_in) / f"{name}.png").write_bytes(picture)

    def marked(self):
        """The nodes that the page marks as kept, the criterion among them, all to be seen and in bold letters."""
        nodes = []
        for position, mark, kind, is_seen, is_bold in self.told(LINES):
            self.assertTrue(is_seen, position)
            if mark.startswith(("▶", "●", "○")):
                self.assertTrue("kept" in kind.split() and is_bold, (position, mark, kind))
                nodes.append(mark.split()[1] if mark.startswith("○") else position)
        return nodes

    def compare_marks(self, program, data, function, position):
        """The page marks what the program keeps."""
        kept = read_answer("kept", Program(program, "tests").ask(data, "kept", str(function), str(position)).text).nodes
        self.assertGreater(len(kept), 1)
        self.assertEqual(sorted(self.marked()), sorted(kept))

    def test_a_slice(self):
        data = samples.countdown()
        self.opened("view", data, "count", "13", "--args", "3")
        self.assertEqual(self.told("document.title"), "Function 0 count at position 13")
        self.compare_marks(STUB, data, 0, 13)
        self.assertEqual(self.told("document.querySelector('#rows tr.criterion').id"), "p13")
        # What the instruction takes and leaves is alike; the result may differ.
        rows = self.told("Array.from(document.querySelectorAll('tr'), row => [row.cells[0].textContent, row.lastChild.className])")
        self.assertEqual([kind for what, kind in rows if what.startswith("event")], ["alike"] * 6)
        self.look("view")

    def test_a_kept_end(self):
        data = samples.zeros()
        self.opened("view", data, "zeros", "6")
        self.compare_marks(STUB, data, 0, 6)
        self.look("view-zeros")

    def test_a_slice_through_calls(self):
        data = samples.library()
        self.opened("view", data, "print", "9")
        self.compare_marks(STUB, data, 2, 9)
        self.look("view-calls")

    def test_keys(self):
        self.opened("view", samples.countdown(), "count", "13", height=300)
        where = "document.activeElement.closest('tr').id"
        seen = []
        for key in "cjkkk":
            self.browser.press(key)
            self.browser.settle()
            seen.append(self.told(where))
            self.assertTrue(self.told(f"{IS_ON_TOP}({where})"), seen)
        self.assertEqual(seen, ["p13", "p14", "p13", "p12", "p11"])
        self.assertEqual(self.browser.complaints(), [])

    def test_what_is_cut_can_be_hidden(self):
        self.opened("view", samples.countdown(), "count", "13")
        heights = "Array.from(document.querySelectorAll('#rows tbody tr.cut'), row => row.getBoundingClientRect().height)"
        self.assertGreater(min(self.told(heights)), 0)
        self.told("document.getElementById('hide-cut').click()")
        self.assertEqual(set(self.told(heights)), {0})
        self.assertEqual(self.browser.complaints(), [])

    def follow_all(self, links):
        """No line that a link leads to lies below the head of its table, or out of sight."""
        self.assertGreater(len(links), 3)
        for link in links:
            self.browser.follow(link)
            self.assertEqual(self.told("location.hash"), link)
            self.assertTrue(self.told(f"{IS_ON_TOP}('{link[1:]}')"), link)

    LINKS = "Array.from(new Set(Array.from(document.querySelectorAll('td a'), link => link.getAttribute('href'))))"

    def test_links_of_a_slice(self):
        self.opened("view", samples.countdown(), "count", "13", height=220)
        self.follow_all(self.told(self.LINKS))

    def test_links_of_a_module(self):
        self.opened("overview", samples.recursive(), height=220, width=800)
        widths = self.told("Array.from(document.querySelectorAll('#functions th'), head => head.getBoundingClientRect().width)")
        self.assertGreater(min(widths), 40)
        self.told("document.getElementById('open').click()")
        self.browser.settle()
        links = self.told(self.LINKS)
        self.assertLessEqual({"#f0", "#f1", "#f2"}, set(links))
        self.follow_all(links)
        self.look("overview-narrow")

    def test_a_module(self):
        self.opened("overview", samples.library())
        numbers = "Array.from(document.querySelectorAll('#functions tbody tr:not(.away)'), row => row.cells[0].textContent)"
        self.assertEqual(self.told(numbers), ["0", "1", "2"])
        self.told("document.getElementById('open').click()")
        self.browser.settle()
        self.look("overview")
        self.told("document.querySelectorAll('#functions th a')[2].click()")
        self.assertEqual(self.told(numbers)[0], "2")
        self.told("filter.value = 'LENGTH'; filter.dispatchEvent(new Event('input'))")
        self.assertEqual(self.told(numbers), ["1"])
        self.assertEqual(self.told("told.textContent"), "1 of 3 functions")
        # A link to a line that the filter hides takes the filter away.
        self.browser.follow("#f0")
        self.assertEqual(self.told("[filter.value, document.querySelectorAll('tr.away').length]"), ["", 0])
        self.assertEqual(self.browser.complaints(), [])

    def test_two_thousand_functions_in_a_second(self):
        """A second of processor time for all that the page does to open. Of lines out of sight nothing is laid out but their height."""
        browser = Browser()
        self.addCleanup(browser.close)
        page = self.folder / "many.html"
        said = companion("overview", self.written(samples.many(2000)), "-o", page, program=self.ready_program(2000))
        self.assertEqual((said.status, said.output), (0, ""), said.error)
        browser.open(page)
        measures = browser.measures()
        self.assertLess(measures["TaskDuration"], 1.0)
        self.assertLess(measures["LayoutObjects"], 5 * 2000)
        # They are there all the same: a link leads to one, and their texts are found.
        browser.told("location.hash = 'f1500'")
        browser.settle()
        self.assertTrue(browser.told(f"{IS_ON_TOP}('f1500')"))
        self.assertTrue(browser.told("find('function_700')"))
        self.assertEqual(browser.told("document.querySelectorAll('#functions tbody tr').length"), 2000)

    def test_names_run_nothing(self):
        for script, words in (("view", ["0", "0"]), ("overview", [])):
            self.opened(script, samples.hostile(), *words)
            self.assertIn(samples.HOSTILE, self.told("document.body.innerText"))
            self.look(f"{script}-hostile")

    def test_refusals_are_shown(self):
        self.opened("overview", samples.invalid())
        self.assertIn("wassail: module refused: invalid function 0", self.told("document.body.innerText"))
        self.look("overview-refused")
        self.opened("view", samples.library(), "print", "9", program=self.without_slices())
        self.look("view-refused")

    def test_on_paper(self):
        """What needs a screen is left out, and the head stands on its page."""
        self.opened("view", samples.countdown(), "count", "13")
        self.browser.ask("Emulation.setEmulatedMedia", media="print")
        try:
            self.assertEqual(self.told("Array.from(document.querySelectorAll('.controls'), one => getComputedStyle(one).display)").count("none"), 3)
            self.assertEqual(self.told("getComputedStyle(document.querySelector('#rows th')).position"), "static")
            # On paper the functions are a table's rows, of which none is left out and whose head is repeated.
            self.opened("overview", samples.library())
            parts = "['#functions', '#functions thead', '#functions tbody tr', '#functions td']"
            kinds = f"{parts}.map(one => getComputedStyle(document.querySelector(one)).display)"
            self.assertEqual(self.told(kinds), ["table", "table-header-group", "table-row", "table-cell"])
            self.assertEqual(self.told("getComputedStyle(document.querySelector('#functions tbody tr')).contentVisibility"), "visible")
        finally:
            self.browser.ask("Emulation.setEmulatedMedia", media="")

    @needs_program()
    def test_the_built_program(self):
        for data, function, position in ((samples.countdown(), 0, 13), (samples.zeros(), 0, 6), (samples.library(), 2, 9)):
            self.opened("view", data, function, position, program=BUILT)
            self.compare_marks(BUILT, data, function, position)

    @needs_program()
    def test_a_real_module(self):
        made = subprocess.run([str(REPOSITORY / "tools" / "integer-library"), str(self.folder / "library.wasm")], capture_output=True, text=True, check=False)
        if made.returncode != 0:
            self.skipTest(made.stdout.strip())
        data = (self.folder / "library.wasm").read_bytes()
        self.opened("view", data, "l64a", "28", program=BUILT)
        function = int(self.told("document.title").split()[1])
        self.compare_marks(BUILT, data, function, 28)
        self.look("view-real")
        self.opened("overview", data, program=BUILT)
        self.assertGreater(self.told("document.querySelectorAll('#functions tbody tr').length"), 500)
        self.told(f"location.hash = 'f{function}'")
        self.browser.settle()
        self.assertTrue(self.told(f"{IS_ON_TOP}('f{function}')"))
        self.look("overview-real")
