"""`overview`: groups, rows, what stands for a picture that can't be drawn, and time."""
import resource
import unittest
from unittest import mock

import samples
from support import InFolder, Page, companion, needs

from wassail_companions import call_graph
from wassail_companions.module import read_module
from wassail_companions.naming import naming_of


def processor_time():
    """The seconds that ended children of this process have taken."""
    used = resource.getrusage(resource.RUSAGE_CHILDREN)
    return used.ru_utime + used.ru_stime


class Groups(unittest.TestCase):
    def test_groups(self):
        groups = call_graph.groups_of([(0,), (2,), (1,), (0, 1, 2)])
        self.assertEqual([(group.members, group.calls_itself) for group in groups], [((0,), True), ((1, 2), True), ((3,), False)])
        self.assertEqual(call_graph.edges_between(groups, [(0,), (2,), (1,), (0, 1, 2)]), {(2, 0), (2, 1)})

    def test_long_chains_and_rings(self):
        count = 20000
        chain = [(number + 1,) for number in range(count - 1)] + [()]
        self.assertEqual(len(call_graph.groups_of(chain)), count)
        ring = [((number + 1) % count,) for number in range(count)]
        self.assertEqual([len(group.members) for group in call_graph.groups_of(ring)], [count])

    def test_against_reachability(self):
        calls = [(1,), (2, 4), (0, 3), (3, 5), (6,), (), (4, 7), ()]
        reached = {}
        for start in range(len(calls)):
            found, todo = set(), list(calls[start])
            while todo:
                one = todo.pop()
                if one not in found:
                    found.add(one)
                    todo += calls[one]
            reached[start] = found
        for group in call_graph.groups_of(calls):
            for member in group.members:
                self.assertEqual(set(group.members), {member} | {other for other in reached[member] if member in reached[other]})

    def test_the_chosen_ones_call_themselves(self):
        calls = [(0,), (2,), (1,), (0, 1, 2)]
        groups = call_graph.groups_of(calls)
        self.assertEqual([group.members for group in call_graph.chosen_groups(groups, call_graph.edges_between(groups, calls), 2)], [(0,), (1, 2)])

    def test_labels_keep_to_themselves(self):
        naming = naming_of(read_module(samples.hostile()))
        groups = call_graph.groups_of([(), (0,)])
        text = call_graph.dot_text(naming, groups, {(1, 0)})
        self.assertIn('label="1 \\" onload=\\"&amp;amp;\\\\n"', text)
        self.assertIn("n1 -> n0;", text)

    def test_no_dot(self):
        with mock.patch("shutil.which", return_value=None):
            drawn = call_graph.picture(naming_of(read_module(samples.hostile())), [], [], 10, "overview")
        self.assertEqual((drawn.svg, drawn.note), (None, "There is no picture, since dot (graphviz) isn't there."))

    @needs("dot")
    def test_drawn(self):
        module = read_module(samples.hostile())
        drawn = call_graph.picture(naming_of(module), call_graph.groups_of([(), (0,)]), [(), (0,)], 10, "overview")
        page = Page(drawn.svg)
        self.assertEqual((page.counts.get("script"), page.counts["svg"]), (None, 1))
        self.assertIn("&lt;script&gt;", drawn.svg)
        few = call_graph.picture(naming_of(module), call_graph.groups_of([(), (0,)]), [(), (0,)], 1, "overview")
        self.assertIn("1 of 2 groups are drawn", few.note)


class Overview(InFolder):
    def page_of(self, data, **more):
        out = self.folder / "overview.html"
        said = companion("overview", self.written(data), "-o", out, **more)
        self.assertEqual((said.status, said.output), (0, ""), said.error)
        return said, out.read_text(encoding="utf-8")

    def test_rows(self):
        page = Page(self.page_of(samples.library())[1])
        self.assertIn("mem ← p0, g0 (stack), mem, size, host", page.text)
        self.assertIn("only on itself each: g0 (stack), size", page.text)
        self.assertIn("Answer of wassail summary < module (status 0).", page.text)
        self.assertEqual({"f0", "f1", "f2"} - set(page.ids), set())
        self.assertTrue(all(link[1:] in page.ids for link in page.links))

    def test_a_module_that_is_refused(self):
        said, text = self.page_of(samples.invalid())
        self.assertEqual(said.error, "overview: wassail: module refused: invalid function 0\n")
        page = Page(text)
        self.assertIn("The program gives no answer to wassail summary < module: wassail: module refused: invalid function 0", page.text)
        self.assertIn("empty", page.text)

    def test_groups(self):
        page = Page(self.page_of(samples.recursive())[1])
        self.assertIn("2 groups reach themselves by calls", page.text)
        self.assertIn("g1", page.ids)

    def test_without_dot(self):
        said, text = self.page_of(samples.recursive(), path="/nowhere")
        self.assertNotIn("status 127", said.error)
        self.assertIn("dot (graphviz) isn't there", said.error)
        self.assertIn("dot (graphviz) isn't there", Page(text).text)

    def test_hostile_names(self):
        page = Page(self.page_of(samples.hostile())[1])
        self.assertEqual(page.counts["script"], 1)
        self.assertNotIn("onload", page.attributes)
        self.assertIn(samples.HOSTILE, page.text)

    def test_wrong_words(self):
        module = self.written(samples.countdown())
        self.assert_one_line(companion("overview", module), 2, "-o")
        self.assert_one_line(companion("overview", module, "-o", self.folder / "o.html", "--graph", "x"), 2, "--graph")
        broken = self.written(b"\0asm\x01\0\0", "broken.wasm")
        self.assert_one_line(companion("overview", broken, "-o", self.folder / "o.html"), 1, "wassail: module refused: no module header")

    def test_two_thousand_functions_in_a_second(self):
        """A second of processor time for the page and its picture. What answers has the rows ready, ten thousand of them."""
        ready = self.ready_program(2000)
        begun = processor_time()
        text = self.page_of(samples.many(2000), program=ready)[1]
        self.assertLess(processor_time() - begun, 1.0)
        self.assertLess(len(text), 4 << 20)
        page = Page(text)
        self.assertEqual(sum(one.startswith("f") and one[1:].isdigit() for one in page.ids), 2000)
        self.assertEqual(page.text.count("done ← p0, p1, g0, mem, size"), 2000)
