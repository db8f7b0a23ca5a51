"""Real modules: those of the folders in WASSAIL_MODULES, and the C library that tools/integer-library links."""
import json
import re
import shutil
import subprocess
import tempfile
import unittest
from pathlib import Path

from support import BUILT, REPOSITORY, InFolder, Page, companion, needs, needs_program, objdump_offsets, real_modules

from wassail_companions.alignment import aligned
from wassail_companions.answers import read_answer
from wassail_companions.code import instructions, survey
from wassail_companions.module import read_module
from wassail_companions.named_texts import from_json
from wassail_companions.offsets import line_offsets
from wassail_companions.program import Program
from wassail_companions.reasons import reasons_of
from wassail_companions.structure import placed_lines

FUNCTIONS, POSITIONS, VIEWS, OVERVIEW_CELLS = 12, 3, 4, 7


def spread(things, count):
    """So many of them, from the first to the last."""
    return sorted({things[index * (len(things) - 1) // max(count - 1, 1)] for index in range(count)}) if things else []


class RealModules(InFolder):
    @classmethod
    def setUpClass(cls):
        folder = Path(tempfile.mkdtemp())
        cls.addClassCleanup(shutil.rmtree, folder)
        library = folder / "library.wasm"
        made = subprocess.run([str(REPOSITORY / "tools" / "integer-library"), str(library)], capture_output=True, text=True, check=False)
        cls.modules = real_modules() + ([library] if made.returncode == 0 else [])
        if not cls.modules:
            raise unittest.SkipTest(f"WASSAIL_MODULES names no folder with modules, and {made.stdout.strip()}")

    @needs("wasm-objdump")
    def test_offsets_of_all_instructions(self):
        for path in self.modules:
            self.compare(path)

    def compare(self, path):
        module = read_module(path.read_bytes())
        dumped = objdump_offsets(path)
        for function in module.functions:
            if function.body is not None:
                ours = [at for at, _ in instructions(module.data, function.body.code, function.body.end)]
                self.assertEqual(ours, [at for at, _ in dumped[function.number]], f"{path.name}: function {function.number}")

    @needs_program()
    def test_slices_side_by_side(self):
        """Both listings of a sliced function fit together, each kept line stands beside the same words, and offsets and positions are the listing's."""
        program, slices = Program(BUILT, "tests"), 0
        for path in self.modules:
            data = path.read_bytes()
            module = read_module(data)
            own = [function.number for function in module.functions if function.body is not None]
            for function in spread(own, FUNCTIONS):
                listing = program.ask(data, "list", str(function))
                if listing.status != 0:
                    continue
                lines = read_answer("list", listing.text).lines
                self.assertIsNotNone(line_offsets(data, module.functions[function].body, lines))
                self.assertEqual(survey(data, module.functions[function].body).positions, sum(line.position is not None for line in lines))
                for position in spread([line.position for line in lines if line.position is not None and not line.is_dead], POSITIONS):
                    self.look(program, data, function, position, lines)
                    slices += 1
        self.assertGreater(slices, 0)

    def look(self, program, data, function, position, lines):
        where = f"function {function} at {position}"
        kept = program.ask(data, "kept", str(function), str(position))
        sliced = program.ask(data, "slice", str(function), str(position), "a slice of this test")
        self.assertEqual((kept.status, sliced.status), (0, 0), where)
        nodes = set(kept.text.split())
        new, moved_to = sliced.line.split()[1::2]
        others = read_answer("list", program.ask(sliced.output, "list", new).text).lines
        left, right = placed_lines(lines), placed_lines(others)
        pairs = aligned(left, right, nodes, position, int(moved_to))
        self.assertIsNotNone(pairs, where)
        self.assertEqual([pair.left for pair in pairs if pair.left], left)
        self.assertEqual([pair.right for pair in pairs if pair.right], right)
        same = {str(pair.left.line.position): str(pair.right.line.position) for pair in pairs if pair.is_same and pair.left.is_position}
        self.assertEqual(set(same), {node for node in nodes if not node.startswith("j")}, where)
        self.assertTrue(all(reasons_of(left, nodes, position).values()), where)

    @needs_program()
    def test_reasons(self):
        """What is said to be kept for a position is kept for it by the program, where that is the criterion."""
        program, compared = Program(BUILT, "tests"), 0
        for path in self.modules:
            data = path.read_bytes()
            small = [one.number for one in read_module(data).functions if one.body is not None and 15 < one.body.end - one.body.start < 150]
            for function in spread(small, 4):
                compared += self.compare_reasons(program, data, function)
        self.assertGreater(compared, 0)

    def compare_reasons(self, program, data, function):
        """How many reasons were compared."""

        def kept_for(position):
            return set(program.ask(data, "kept", str(function), position).text.split())

        lines = read_answer("list", program.ask(data, "list", str(function)).text).lines
        live = [line.position for line in lines if line.position is not None and not line.is_dead]
        if not live or not kept_for(str(live[-1])):
            return 0
        compared = 0
        for node, reasons in reasons_of(placed_lines(lines), kept_for(str(live[-1])), live[-1]).items():
            for reason in reasons:
                found = [node in kept_for(one) for one in reason.nodes if not one.startswith("j")]
                if found:
                    # A writer reaches one of the kept reads at least, or a call that may be kept for more than it is kept for as the criterion; the
                    # other reasons name each position that they are for.
                    holds = any(found) or "may be read" in reason.why if reason.why.startswith("writes") else all(found)
                    self.assertTrue(holds, f"function {function}: {node} {reason}")
                    compared += 1
        return compared

    @needs_program()
    def test_view_shows_the_program_s_answers(self):
        """The page has the lines of the listing, and marks as kept what the program answers."""
        program, marked = Program(BUILT, "tests"), 0
        for path in self.modules:
            data = path.read_bytes()
            if program.ask(data, "check").status == 0:
                own = [one.number for one in read_module(data).functions if one.body is not None]
                marked += sum(self.compare_view(program, path, data, function) for function in spread(own, VIEWS))
        self.assertGreater(marked, 0)

    def compare_view(self, program, path, data, function):
        """How many nodes are kept for the function's last live position."""
        lines = read_answer("list", program.ask(data, "list", str(function)).text).lines
        live = [line for line in lines if line.position is not None and not line.is_dead]
        if not live:
            return 0
        position, out = live[-1].position, self.folder / "view.html"
        said = companion("view", path, function, position, "-o", out, program=BUILT)
        self.assertEqual(said.status, 0, said.error)
        page = Page(out.read_text(encoding="utf-8"))
        self.assertIn(f"wassail list {function} < {path.name}", page.text)
        shown = {cells[1]: cells for _, cells in page.rows if len(cells) > 5 and cells[1].isdigit()}
        for line in live:
            self.assertTrue(shown[str(line.position)][3].strip().startswith(line.instruction), f"{path.name}: function {function}: {line}")
        nodes = program.ask(data, "kept", str(function), str(position)).text.split()
        kept = {at for at, cells in shown.items() if cells[0].startswith(("●", "▶"))}
        self.assertEqual(kept, {node for node in nodes if not node.startswith("j")} or {str(position)})
        return len(nodes)

    @needs_program()
    def test_summaries(self):
        """`ask` gives all rows as JSON, the page of a module has the same ones, and the rows of one function are those among them."""
        program, out = Program(BUILT, "tests"), self.folder / "overview.html"
        for path in self.modules:
            data = path.read_bytes()
            answer = program.ask(data, "summary")
            if answer.status != 0:
                self.assertEqual((answer.status, answer.line), (program.ask(data, "check").status, program.ask(data, "check").line))
                continue
            rows = read_answer("summary", answer.text).rows
            told = json.loads(companion("ask", "--json", path, "summary", program=BUILT).output)
            self.assertEqual(from_json(told["answer"]).rows, rows)
            said = companion("overview", path, "-o", out, program=BUILT)
            self.assertEqual(said.status, 0, said.error)
            page = Page(out.read_text(encoding="utf-8"))
            shown = {int(cells[0]): rows_told(cells[-1]) for _, cells in page.rows if len(cells) == OVERVIEW_CELLS and cells[0].isdigit()}
            expected = {number: {} for number in range(len(read_module(data).functions))}
            for row in rows:
                expected[row.function][row.output] = row.inputs
            self.assertEqual(shown, expected, path.name)
            one = rows[len(rows) // 2].function
            self.assertEqual(read_answer("summary", program.ask(data, "summary", str(one)).text).rows, [row for row in rows if row.function == one])


def rows_told(text):
    """The rows that a function's cell has, without names: outputs with their inputs."""
    rows = {}
    for line in re.sub(r" \([^()]*\)", "", re.sub(r"^\d+ outputs?", "", text)).splitlines():
        if line.startswith("only on itself each: "):
            rows |= {output: (output,) for output in line.removeprefix("only on itself each: ").split(", ")}
        elif " ← " in line:
            output, inputs = line.split(" ← ")
            rows[output] = () if inputs == "nothing" else tuple(inputs.split(", "))
    return rows
