"""`view`: offsets, reasons, the two listings side by side, and what the page must not take from names."""
import re
import unittest
from xml.etree import ElementTree

import samples
from support import InFolder, Page, companion, needs, objdump_offsets

from wassail_companions.alignment import aligned
from wassail_companions.answers import read_answer
from wassail_companions.module import read_module
from wassail_companions.offsets import line_offsets
from wassail_companions.reasons import reasons_of
from wassail_companions.slice_picture import SOFT, STRONG
from wassail_companions.structure import placed_lines

ZEROS = """0 block i32
1   i32.const 7
2   i32.const 0
3   local.get 0
4   i32.ne <- 2 3
5   br_if 0 <- 1 4
6   global.get 0
7   i32.add <- 1 6
. end <- 7
. end <- j0
"""
ZEROS_SLICED = """0 block i32
1   i32.const 0
2   i32.const 0
3   local.get 0
4   i32.ne <- 2 3
5   br_if 0 <- 1 4
6   global.get 0
7   drop <- 6
8   drop <- 1
9   i32.const 0
. end <- 9
. end <- j0
"""
LOOP = """0 block
1   loop
2     local.get 0
3     i32.eqz <- 2
4     br_if 1 <- 3
5     local.get 0
6     i32.const 1
7     i32.sub <- 5 6
8     local.set 0 <- 7
9     nop
10     br 0
.   end
. end
. end
"""
LOOP_SLICED = LOOP.replace("9     nop\n", "").replace("10     br", "9     br")
ARMS = """0 local.get 0
1 if i32 <- 0
2   i32.const 0
. else <- 2
3   i32.const 0
4   drop <- 3
5   i32.const 0
. end <- 5
6 drop <- j1
. end
"""


def placed(text):
    return placed_lines(read_answer("list", text).lines)


def nodes(words):
    return set(words.split())


def pairs_of(left, right, kept, criterion, moved_to):
    """The pairs as texts of lines, `=` between those that are the same."""
    pairs = aligned(placed(left), placed(right), nodes(kept), criterion, moved_to)
    if pairs is None:
        return None
    return [(one.left.line.text().strip() if one.left else "", "=" if one.is_same else "", one.right.line.text().strip() if one.right else "") for one in pairs]


class Alignment(unittest.TestCase):
    def test_a_kept_zero_beside_one_that_stands_in(self):
        pairs = pairs_of(ZEROS, ZEROS_SLICED, "0 2 3 4 5 6", 6, 6)
        self.assertEqual(pairs[1:4], [("1   i32.const 7", "", ""), ("", "", "1   i32.const 0"), ("2   i32.const 0", "=", "2   i32.const 0")])
        stand_ins = [("", "", "7   drop <- 6"), ("", "", "8   drop <- 1"), ("", "", "9   i32.const 0")]
        self.assertEqual(pairs[8:], [("7   i32.add <- 1 6", "", ""), *stand_ins, (". end <- 7", "=", ". end <- 9"), (". end <- j0", "=", ". end <- j0")])

    def test_only_one_line_is_cut(self):
        pairs = pairs_of(LOOP, LOOP_SLICED, "0 1 2 3 4 5 6 7 8 10", 5, 5)
        self.assertEqual([one for one in pairs if one[1] == ""], [("9     nop", "", "")])
        self.assertEqual(len(pairs), 14)

    def test_the_criterion_is_a_drop(self):
        pairs = pairs_of("0 i32.const 1\n1 drop <- 0\n2 i32.const 0\n3 drop <- 2\n. end\n", "0 i32.const 0\n1 drop <- 0\n. end\n", "2 3", 3, 1)
        self.assertEqual(pairs[2:4], [("2 i32.const 0", "=", "0 i32.const 0"), ("3 drop <- 2", "=", "1 drop <- 0")])

    def test_an_arm_that_is_empty_in_the_slice(self):
        left = "0 local.get 0\n1 if <- 0\n2   i32.const 1\n3   global.set 0 <- 2\n. else\n4   nop\n. end\n5 global.get 0\n. end <- 5\n"
        right = "0 local.get 0\n1 if <- 0\n2   i32.const 1\n3   global.set 0 <- 2\n. end\n4 global.get 0\n. end <- 4\n"
        pairs = pairs_of(left, right, "0 1 2 3 5", 5, 4)
        self.assertEqual([one for one in pairs if one[1] == ""], [(". else", "", ""), ("4   nop", "", "")])

    def test_listings_that_do_not_fit(self):
        self.assertIsNone(pairs_of(LOOP, LOOP_SLICED, "0 1 2 3 4 5 6 7 8 10", 5, 6))
        self.assertIsNone(pairs_of(LOOP, LOOP_SLICED, "0 1 2 3 4 5 6 7 8 9 10", 5, 5))
        self.assertIsNone(pairs_of(LOOP, ". end\n", "0 1 2", 2, 0))
        self.assertIsNone(pairs_of(LOOP, LOOP_SLICED, "0 1 2 3 4 5 6 7 8 10", 99, 5))


class Reasons(unittest.TestCase):
    def why(self, text, kept, criterion):
        found = reasons_of(placed(text), nodes(kept), criterion)
        return {node: [f"{reason.why} {' '.join(reason.nodes)}".strip() for reason in reasons] for node, reasons in found.items()}

    def test_loop(self):
        why = self.why(LOOP, "0 1 2 3 4 5 6 7 8 10", 5)
        self.assertEqual(why["5"], ["the criterion", "operand of 7"])
        self.assertEqual(why["2"], ["operand of 3"])
        self.assertEqual(why["4"], ["decides whether kept positions are passed"])
        self.assertEqual(why["8"], ["writes local 0, which is read at 2 5"])
        self.assertEqual(why["0"], ["around 1"])
        self.assertEqual(why["1"], ["around 2 3 4 5 6 7 8 10"])

    def test_carried_value_is_for_a_kept_end(self):
        self.assertEqual(self.why(ZEROS, "0 2 3 4 5 6", 6)["5"], ["decides whether kept positions are passed"])
        why = self.why(ZEROS, "0 j0 1 2 3 4 5 6 7", 7)
        self.assertEqual(why["1"], ["value carried to the end of 0, by 5", "operand of 7"])
        self.assertEqual(why["7"], ["the criterion", "value at the end of 0"])
        self.assertEqual(why["0"], ["around 1 2 3 4 5 6 7", "its end is kept: j0"])

    def test_the_criterion_keeps_what_it_carries(self):
        self.assertEqual(self.why(ZEROS, "0 1 2 3 4 5", 5)["1"], ["operand of 5"])

    def test_calls(self):
        """What a call keeps of its arguments isn't in its line."""
        why = self.why("0 local.get 0\n1 i32.const 4\n2 call 3 <- 0 1\n3 drop <- 2\n4 call 2\n5 global.get 0\n. end <- 5\n", "0 2 3 4", 3)
        self.assertEqual((why["0"], why["2"]), (["argument of the call at 2"], ["operand of 3"]))
        self.assertEqual(why["4"], ["writes what kept positions depend on"])

    def test_globals_that_a_call_may_read(self):
        text = "0 i32.const 4\n1 global.set 0 <- 0\n2 global.get 0\n3 drop <- 2\n4 call 2\n. end\n"
        self.assertEqual(self.why(text, "0 1 2 3", 3)["1"], ["writes global 0, which is read at 2"])
        self.assertEqual(self.why(text, "0 1 2 3 4", 3)["1"], ["writes global 0, which may be read at 2 4"])
        self.assertEqual(self.why(text, "0 1 4", 4)["1"], ["writes global 0, which may be read at 4"])

    def test_both_arms(self):
        why = self.why(ARMS, "0 1 j1 2 5 6", 6)
        self.assertEqual((why["2"], why["5"], why["j1"]), (["value at the end of 1"], ["value at the end of 1"], ["operand of 6"]))


class Offsets(InFolder):
    @needs("wasm-objdump")
    def test_as_objdump(self):
        for name, text in (("zeros", ZEROS), ("countdown", None)):
            data = getattr(samples, name)()
            dumped = objdump_offsets(self.written(data))[0]
            self.assertTrue(dumped)
            if text is not None:
                lines = read_answer("list", text).lines
                self.assertEqual(list(zip(line_offsets(data, read_module(data).functions[0].body, lines), (line.operation for line in lines))), dumped)

    def test_an_else_without_a_line(self):
        data = samples.module([(1, 0)], [(0, samples.body(bytes.fromhex("2000" "0440" "01" "05" "0b")))])
        body = read_module(data).functions[0].body
        lines = read_answer("list", "0 local.get 0\n1 if <- 0\n2   nop\n. end\n. end\n").lines
        self.assertEqual([at - body.code for at in line_offsets(data, body, lines)], [0, 2, 4, 6, 7])
        self.assertIsNone(line_offsets(data, body, lines[:-1]))
        self.assertIsNone(line_offsets(data, body, [*lines, lines[-1]]))


class View(InFolder):
    def page_of(self, data, *words, **more):
        out = self.folder / "view.html"
        said = companion("view", self.written(data), *words[:2], "-o", out, *words[2:], **more)
        self.assertEqual((said.status, said.output), (0, ""), said.error)
        return said, out.read_text(encoding="utf-8")

    def test_side_by_side(self):
        said, text = self.page_of(samples.countdown(), "count", "13", "--args", "3")
        self.assertEqual(said.error, "")
        page = Page(text)
        lines = [row for row in page.rows if len(row[1]) == 10 and row[1][0] != "mark"]
        kept = [row for kind, row in lines if kind.startswith("kept")]
        self.assertEqual([row[1] for row in kept if row[1]], ["0", "1", "2", "3", "4", "10", "11", "12", "13", "14"])
        self.assertTrue(all(row[3] == row[8] for row in kept), kept)
        self.assertEqual([row[0] for _, row in lines if row[0]].count("▶ criterion"), 1)
        self.assertIn("p13", page.ids)
        self.assertTrue(all(link[1:] in [*page.ids] for link in page.links), page.links)
        events = [row for _, row in page.rows if row and row[0].startswith("event")]
        self.assertEqual(events[0], ["event 1", "take 2", "take 2", "alike"])
        self.assertIn("wassail kept 0 13 < module.wasm", page.text)

    def test_a_kept_zero(self):
        _, text = self.page_of(samples.zeros(), "zeros", "6")
        rows = [row for _, row in Page(text).rows if len(row) == 10]
        self.assertIn(["● kept", "2", "000030", "  i32.const 0", "", "operand of 4", "2", "00004f", "  i32.const 0", ""], rows)

    def texts_of(self, data, *words):
        """The texts of a picture with their colours."""
        out = self.folder / "view.svg"
        said, _ = self.page_of(data, *words, "--picture", out)
        self.assertEqual(said.error, "")
        return [(one.text, one.get("fill")) for one in ElementTree.parse(out).iter("{http://www.w3.org/2000/svg}text")]

    def test_a_picture(self):
        texts = self.texts_of(samples.countdown(), "count", "13")
        self.assertEqual(texts[:2], [("function 0 count", STRONG), ("its slice", STRONG)])
        self.assertEqual(sum(text == "▶" for text, _ in texts), 1)
        self.assertEqual(sum(text == "●" for text, _ in texts), 9)
        self.assertIn(("local.set 1 (sum) <- 7", SOFT), texts)
        sets = [text for text, colour in texts if text.startswith("local.set 0") and colour == STRONG]
        self.assertEqual(sets, ["local.set 0 (left) <- 12", "local.set 0 (left) <- 7"])
        self.assertIn((f"function 0 {samples.HOSTILE}", STRONG), self.texts_of(samples.hostile(), "0", "0"))

    def test_a_slice_through_calls(self):
        """Of the function's two calls the one is kept whose answer is stored, and what it takes; the other is cut."""
        _, text = self.page_of(samples.library(), "print", "9")
        marks = {row[1]: row[0].split()[0] for _, row in Page(text).rows if len(row) == 10 and row[1].isdigit() and row[0]}
        self.assertEqual(marks, {position: "▶" if position == "9" else "●" for position in "012356789"})
        self.assertIn(["● kept", "7", "000084", "call 1 length", "6", "operand of 8"], [row[:6] for _, row in Page(text).rows])
        self.assertNotIn("query refused", text)

    def test_no_picture_without_a_slice(self):
        out = self.folder / "view.svg"
        said, _ = self.page_of(samples.library(), "print", "9", "--picture", out, program=self.without_slices())
        self.assertIn("view: there is no picture, since there is no slice", said.error)
        self.assertFalse(out.exists())

    def test_a_refused_slice_is_shown(self):
        said, text = self.page_of(samples.library(), "print", "9", program=self.without_slices())
        self.assertIn("view: slice: wassail: an allocation was refused", said.error)
        self.assertIn("wassail: an allocation was refused", Page(text).text)
        self.assertNotIn("in the slice", Page(text).text)

    def test_arguments_that_do_not_fit(self):
        said, text = self.page_of(samples.countdown(), "count", "13", "--args")
        self.assertIn("wassail: query refused: arguments do not fit", Page(text).text)
        self.assertIn("view: trace: wassail: query refused: arguments do not fit", said.error)

    def test_hostile_names(self):
        for position, function in (("0", "0"), ("0", "1")):
            _, text = self.page_of(samples.hostile(), function, position)
            page = Page(text)
            self.assertEqual(page.counts["script"], 1)
            self.assertNotIn("onload", page.attributes)
            self.assertNotIn("\x1b", text)
        self.assertIn("&lt;script&gt;", self.page_of(samples.hostile(), "0", "0")[1])

    def test_nothing_from_elsewhere(self):
        _, text = self.page_of(samples.countdown(), "count", "13")
        self.assertIsNone(re.search(r"https?:|//|\bsrc=|@import|url\(", text))
        self.assertIn("default-src 'none'", text)

    def test_refusals(self):
        module, out = self.written(samples.countdown()), self.folder / "out.html"
        self.assert_one_line(companion("view", module, "9", "0", "-o", out), 6, "wassail: query refused: no function 9")
        self.assert_one_line(companion("view", module, "count", "99", "-o", out), 6, "wassail: query refused: no instruction 99")
        self.assert_one_line(companion("view", module, "cout", "0", "-o", out), 2, "the nearest names: count (0)")
        self.assert_one_line(companion("view", module, "count", "x", "-o", out), 2, "POSITION is a number")
        self.assert_one_line(companion("view", module, "count", "0"), 2, "-o")
        self.assert_one_line(companion("view", module, "count", "13", "-o", out, "--args", "3", "x"), 2, "refuses these words of a run: 20000 3 x")
        self.assert_one_line(companion("view", module, "count", "13", "-o", out, "--budget", "-1"), 2, "--budget")
        self.assert_one_line(companion("view", self.written(b"\0asm\x01\0\0", "b.wasm"), "0", "0", "-o", out), 1, "wassail: module refused: no module header")
        self.assert_one_line(companion("view", module, "count", "13", "-o", self.folder / "no" / "view.html"), 2, "isn't written")
        self.assertFalse(out.exists())
