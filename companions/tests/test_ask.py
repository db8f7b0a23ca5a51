"""`ask` and the program's texts as values."""
import base64
import json
import unittest

import samples
from support import InFolder, companion

from wassail_companions.answers import read_answer
from wassail_companions.module import read_module
from wassail_companions.named_texts import from_json, named_lines, to_json
from wassail_companions.naming import naming_of

LISTING = """0 local.get 0
1 if i32 <- 0
2   local.get 0
3   i32.const -1
4   i32.sub <- 2 3
5   call 0 <- 4
. else <- 5
6   br_table 0 1 0 <- 2
7   block dead
.   end
. end <- 6
8 i32.store8 0 4294967295 <- j1 4
. end <- 8
"""
TEXTS = [
    ("summary", ""),
    ("summary", "f 0 result <- p0 p1 g12 mem size host\nf 0 g0 <-\nf 10 done <- p0\n"),
    ("list", LISTING),
    ("list", ". end\n"),
    ("kept", ""),
    ("kept", "0\n1\nj1\n12\n"),
    ("run", "returned 18446744073709551615\nturns 4294967295\n"),
    ("run", "returned\nturns 0\n"),
    ("run", "trapped memory out of bounds\nturns 3\n"),
    ("run", "start trapped host reply missing\nturns 0\n"),
    ("run", "element segment 0 does not fit\n"),
    ("run", "out of turns\n"),
    ("trace", "take 3 4\nleave 7\ntake\nleave\nreturned 7\nturns 0\n"),
]


class Texts(unittest.TestCase):
    def test_text_round_trip(self):
        for command, text in TEXTS:
            self.assertEqual(read_answer(command, text).text(), text)

    def test_json_round_trip(self):
        naming = naming_of(read_module(samples.library()))
        for command, text in TEXTS:
            value = read_answer(command, text)
            told = json.loads(json.dumps(to_json(naming, 1, value)))
            self.assertEqual(from_json(told).text(), text)

    def test_other_texts_are_no_values(self):
        for text in ("f 0 result p0\n", "f 0 result <- p0", "f 00 result <-\n"):
            self.assertIsNone(read_answer("summary", text), text)
        for command, text in (("list", "x nop\n"), ("kept", "a\n"), ("run", "returned 1\n2\n")):
            self.assertIsNone(read_answer(command, text), text)
        self.assertIsNone(read_answer("check", "valid\n"))

    def test_names_in_a_listing(self):
        naming = naming_of(read_module(samples.countdown()))
        lines = list(named_lines(naming, 0, read_answer("list", "0 local.get 0\n1 local.set 1 <- 0\n2 call 0\n3 global.get 0\n. end\n")))
        self.assertEqual(lines, ["0 local.get 0 (left)", "1 local.set 1 (sum) <- 0", "2 call 0 count", "3 global.get 0", ". end"])


class Ask(InFolder):
    def setUp(self):
        super().setUp()
        self.library = self.written(samples.library())

    def test_summary_with_names(self):
        said = companion("ask", self.library, "summary", "print")
        self.assertEqual((said.status, said.error), (0, ""))
        self.assertEqual(said.output.splitlines()[0], "f 2 print result <- p0 mem")
        self.assertEqual(said.output.splitlines()[1:3], ["f 2 print g0 (stack) <- g0 (stack)", "f 2 print mem <- p0 g0 (stack) mem size host"])
        self.assertEqual(len(companion("ask", self.library, "summary").output.splitlines()), 18)

    def test_summary_of_an_imported_function(self):
        said = companion("ask", self.library, "summary", "env.write")
        self.assertEqual((said.status, said.output.splitlines()[0]), (0, "f 0 env.write result <- p0 p1 mem size host"))

    def test_summary_as_json(self):
        said = companion("ask", "--json", self.library, "summary", "print")
        told = json.loads(said.output)
        self.assertEqual((told["asked"], told["status"], told["error"]), (["summary", "2"], 0, None))
        self.assertEqual(told["function"], {"number": 2, "names": [{"name": "print", "from": "export"}]})
        self.assertEqual(told["answer"]["rows"][1]["output"], {"output": "g0", "name": "stack"})
        self.assertEqual(from_json(told["answer"]).text().splitlines()[0], "f 2 result <- p0 mem")

    def test_status_and_line_of_the_program(self):
        self.assert_one_line(companion("ask", self.library, "summary", "9"), 6, "wassail: query refused: no function 9")
        told = json.loads(companion("ask", "--json", self.library, "summary", "9").output)
        self.assertEqual((told["status"], told["error"], "answer" in told), (6, "wassail: query refused: no function 9", False))

    def test_wrong_words(self):
        self.assert_one_line(companion("ask", self.library, "sumary"), 2, "no command is named 'sumary'")
        self.assert_one_line(companion("ask", self.library, "kept", "print"), 2, "kept FUNCTION POSITION")
        self.assert_one_line(companion("ask", self.library, "kept", "print", "x"), 2, "'x' is no number")
        self.assert_one_line(companion("ask", self.library, "run", "print", "--json"), 2, "'--json' is no number")
        self.assert_one_line(companion("ask", self.library, "check", "1"), 2, "the words are: check;")
        self.assert_one_line(companion("ask", self.library), 2, "COMMAND")
        self.assert_one_line(companion("ask", self.library, "list", "pront"), 2, "the nearest names: print (2)")
        self.assert_one_line(companion("ask", self.folder / "none", "list", "0"), 2, "isn't read")

    def test_no_program(self):
        self.assert_one_line(companion("ask", self.library, "list", "0", program=self.folder / "none"), 2, "there is no program")
        self.assert_one_line(companion("ask", self.library, "list", "0", program=self.folder), 2, "there is no program")
        failing = self.written(b"#!/bin/sh\nexit 77\n", "failing")
        failing.chmod(0o755)
        self.assert_one_line(companion("ask", self.library, "list", "0", program=failing), 2, "ended with status 77")


class Progress(InFolder):
    def test_a_step_of_more_than_a_second(self):
        slow = self.written(b"#!/bin/sh\nsleep 1.3\necho valid\n", "slow")
        slow.chmod(0o755)
        said = companion("ask", self.written(samples.library()), "check", program=slow, with_progress=True)
        self.assertEqual((said.status, said.output), (0, "valid\n"))
        self.assertRegex(said.error, r"\Aask: wassail check, 1 s\n(ask: wassail check, \d+ s\n)*ask: wassail check: done, \d+\.\d s\n\Z")


class Recorded(InFolder):
    """What the program answered when it was recorded."""

    def setUp(self):
        super().setUp()
        self.countdown = self.written(samples.countdown(), "countdown.wasm")
        self.broken = self.written(b"\0asm\x01\0\0", "broken.wasm")

    def test_check(self):
        said = companion("ask", self.countdown, "check")
        self.assertEqual((said.status, said.output), (0, "valid\n"))
        self.assertEqual(json.loads(companion("ask", "--json", self.countdown, "check").output)["answer"], {"text": "valid\n"})

    def test_a_module_that_does_not_read(self):
        for words in (["check"], ["list", "0"], ["list", "count"], ["summary"]):
            self.assert_one_line(companion("ask", self.broken, *words), 1, "wassail: module refused: no module header")

    def test_list(self):
        lines = companion("ask", self.countdown, "list", "count").output.splitlines()
        self.assertEqual((lines[2], lines[8]), ("2     local.get 0 (left)", "8     local.set 1 (sum) <- 7"))

    def test_kept(self):
        said = companion("ask", self.countdown, "kept", "count", "13")
        self.assertEqual(said.output.split(), ["0", "1", "2", "3", "4", "10", "11", "12", "13", "14"])

    def test_run_and_trace(self):
        said = companion("ask", self.countdown, "trace", "count", "13", "20000", "3")
        self.assertEqual(said.output.splitlines(), ["take 2", "leave", "take 1", "leave", "take 0", "leave", "returned 6", "turns 3"])
        told = json.loads(companion("ask", "--json", self.countdown, "run", "count", "20000", "3").output)
        self.assertEqual(told["answer"], {"events": [], "outcome": "returned 6", "turns": 3})
        self.assert_one_line(companion("ask", self.countdown, "run", "count", "20000"), 6, "wassail: query refused: arguments do not fit")

    def test_modules_are_handed_on(self):
        said = companion("ask", self.countdown, "slice", "count", "13", "s")
        self.assertEqual((said.status, said.bytes[:4]), (0, b"\0asm"))
        self.assertEqual(said.error, "function 1 instruction 8\n")
        told = json.loads(companion("ask", "--json", self.countdown, "slice", "count", "13", "s").output)
        self.assertEqual(base64.b64decode(told["answer"]["module_base64"]), said.bytes)
        self.assertEqual(companion("ask", self.countdown, "rewrite").bytes[:4], b"\0asm")

    def test_refused_queries(self):
        self.assert_one_line(companion("ask", self.countdown, "list", "9"), 6, "wassail: query refused: no function 9")
        self.assert_one_line(companion("ask", self.countdown, "kept", "count", "99"), 6, "wassail: query refused: no instruction 99, function has 16")

    def test_the_same_as_json(self):
        for words in (["list", "count"], ["summary"], ["summary", "count"], ["kept", "count", "13"], ["trace", "count", "13", "20000", "3"]):
            told = json.loads(companion("ask", "--json", self.countdown, *words).output)
            naming = naming_of(read_module(samples.countdown()))
            text = "".join(f"{line}\n" for line in named_lines(naming, 0, from_json(told["answer"])))
            self.assertEqual(text, companion("ask", self.countdown, *words).output)
