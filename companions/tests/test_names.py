"""Names: the reader of name sections, the table, and the function that a word means."""
import unittest

import samples
from samples import bench, name_map, part
from support import InFolder, companion

from wassail_companions.command_line import Complaint
from wassail_companions.module import Malformed, read_module
from wassail_companions.name_section import read_names
from wassail_companions.naming import naming_of, printable

TWO = name_map([(0, "zero"), (1, "one")])


class NameSection(unittest.TestCase):
    def test_whole(self):
        names = read_names(part(0, samples.text("m")) + part(1, TWO) + part(2, bench.counted([b"\1" + TWO])) + part(7, name_map([(3, "g")])))
        self.assertEqual((names.functions, names.locals, names.globals, names.problems), ({0: "zero", 1: "one"}, {1: {0: "zero", 1: "one"}}, {3: "g"}, []))

    def test_no_section(self):
        self.assertEqual(read_names(None).problems, [])

    def test_truncated_anywhere(self):
        whole = part(1, TWO) + part(2, bench.counted([b"\0" + TWO]))
        ends = {len(part(1, TWO)), len(whole)}
        for length in range(1, len(whole)):
            names = read_names(whole[:length])
            self.assertEqual(names.problems == [], length in ends, length)
            self.assertIn(names.functions, ({}, {0: "zero", 1: "one"}))
            self.assertEqual(names.locals, {})

    def test_part_shorter_than_its_names(self):
        names = read_names(b"\1" + bench.number(len(TWO) - 2) + TWO + part(7, name_map([(0, "g")])))
        self.assertEqual(names.functions, {})
        self.assertTrue(names.problems)

    def test_part_longer_than_its_names(self):
        names = read_names(part(1, TWO + b"\0"))
        self.assertEqual((names.functions, len(names.problems)), ({0: "zero", 1: "one"}, 1))

    def test_count_beyond_the_part(self):
        names = read_names(part(1, b"\xff\xff\xff\xff\x0f" + TWO[1:]) + part(7, name_map([(0, "g")])))
        self.assertEqual((names.functions, names.globals, len(names.problems)), ({}, {0: "g"}, 1))

    def test_number_of_too_many_bytes(self):
        self.assertEqual(read_names(part(1, b"\x80\x80\x80\x80\x80\x80\x00")).functions, {})
        self.assertEqual(read_names(part(1, b"\xff\xff\xff\xff\x7f")).functions, {})

    def test_bad_utf8(self):
        for bad in (b"\xff", b"\xc0\x80", b"\xed\xa0\x80", b"ok\xe2\x82"):
            names = read_names(part(1, name_map([(0, bad), (1, "one")])))
            self.assertEqual((names.functions, len(names.problems)), ({1: "one"}, 1))

    def test_repeated_numbers(self):
        names = read_names(part(1, name_map([(0, "a"), (1, "one"), (0, "b"), (0, "a")])))
        self.assertEqual((names.functions, len(names.problems)), ({1: "one"}, 1))

    def test_repeated_part_and_locals(self):
        names = read_names(part(1, TWO) + part(1, name_map([(0, "other")])) + part(2, bench.counted([b"\0" + TWO, b"\0" + TWO])))
        self.assertEqual((names.functions, names.locals, len(names.problems)), ({0: "zero", 1: "one"}, {}, 2))

    def test_any_changed_byte(self):
        whole = part(1, TWO) + part(2, bench.counted([b"\0" + TWO])) + part(7, TWO)
        for at in range(len(whole)):
            for byte in (0, 1, 0x7F, 0x80, 0xFF):
                read_names(whole[:at] + bytes([byte]) + whole[at + 1 :])


class Find(unittest.TestCase):
    def setUp(self):
        bodies = [(0, samples.body(b""))] * 6
        names = part(1, name_map([(0, "inflate"), (1, "inflate.wrapper"), (2, "twice"), (3, "twice"), (4, "inflateEnd")]))
        self.naming = naming_of(read_module(samples.module([(0, 0)], bodies, [("inflate", 1), ("42", 2), ("only", 5)], names)))

    def complaint(self, word):
        with self.assertRaises(Complaint) as raised:
            self.naming.find(word)
        self.assertEqual(raised.exception.status, 2)
        return raised.exception.line

    def test_number_goes_first(self):
        self.assertEqual(self.naming.find("42").number, 42)
        self.assertEqual(self.naming.find("003").number, 3)

    def test_name_and_export(self):
        self.assertEqual((self.naming.find("only").number, self.naming.find("only").note), (5, None))
        self.assertEqual(self.naming.find("inflateEnd").number, 4)

    def test_shown_name_goes_before_an_export(self):
        found = self.naming.find("inflate")
        self.assertEqual(found.number, 0)
        self.assertIn("1 (export)", found.note)

    def test_ambiguous(self):
        self.assertEqual(self.complaint("twice"), "more than one function is named 'twice': 2 (name), 3 (name); take a number")

    def test_missing_with_the_nearest(self):
        self.assertIn("the nearest names: inflate (0)", self.complaint("inflat"))
        self.assertIn("inflateEnd (4)", self.complaint("End"))
        self.assertIn("no name is near it", self.complaint("zzzz"))
        self.assertIn("no function is named ''", self.complaint(""))

    def test_no_names_at_all(self):
        self.naming = naming_of(read_module(samples.module([(0, 0)], [(0, samples.body(b""))])))
        self.assertIn("has no names", self.complaint("f"))

    def test_printable(self):
        self.assertEqual(printable("a\x1b[31m\n\u202eb ü"), "a\\u{1b}[31m\\u{a}\\u{202e}b ü")


class Table(InFolder):
    def test_table(self):
        said = companion("names", self.written(samples.library()))
        self.assertEqual(said.status, 0)
        self.assertEqual(
            said.output,
            "number  offset  bytes  positions  type              names\n"
            "     0  import      -          -  (i32 i32) -> i32  env.write (import)\n"
            "     1  00004f     36         16  (i32) -> i32      length (name)\n"
            "     2  000074     40         19  (i32) -> i32      print (export)\n",
        )

    def test_find(self):
        said = companion("names", self.written(samples.library()), "--find", "ENG")
        self.assertEqual([line.split()[0] for line in said.output.splitlines()], ["number", "1"])
        self.assert_one_line(companion("names", self.written(samples.library()), "--find", "zz"), 2, "no name holds 'zz'")

    def test_hostile_names_are_one_line_each(self):
        said = companion("names", self.written(samples.hostile()))
        self.assertEqual(len(said.output.splitlines()), 3)
        self.assertNotIn("\x1b", said.output)

    def test_broken_names_leave_numbers(self):
        whole = samples.library()
        at = whole.index(b"\x04name") + 5
        for broken in (whole[: at + 1] + b"\x7f" + whole[at + 2 :], whole[: at + 4] + b"\xff" + whole[at + 5 :], whole.replace(b"length", b"le\xffgth")):
            said = companion("names", self.written(broken))
            self.assertEqual(said.status, 0, said.error)
            self.assertIn("name section", said.error)
            self.assertIn("16  (i32) -> i32      -", said.output)

    def test_instruction_that_is_not_read(self):
        said = companion("names", self.written(samples.module([(0, 0)], [(0, samples.body(b"\xfd\x0c"))])))
        self.assertIn("?", said.output)

    def test_no_module(self):
        self.assert_one_line(companion("names", self.written(b"\0asm\1\0\0")), 1, "no module header")
        self.assert_one_line(companion("names", self.written(samples.library()[:60])), 1, "doesn't read as a module")
        self.assert_one_line(companion("names", self.folder / "nothing.wasm"), 2, "isn't read")

    def test_cut_anywhere(self):
        whole = samples.library()
        for length in range(len(whole)):
            try:
                naming_of(read_module(whole[:length]))
            except Malformed:
                pass

    def test_wrong_words(self):
        self.assert_one_line(companion("names"), 2, "MODULE")
        self.assert_one_line(companion("names", "a", "b"), 2, "b")
        self.assert_one_line(companion("names", self.written(samples.library()), "--nothing"), 2, "--nothing")

    def test_help(self):
        for name in ("names", "ask", "view", "overview"):
            said = companion(name, "--help")
            self.assertEqual((said.status, said.error), (0, ""))
            self.assertIn(f"usage: {name}", said.output)
