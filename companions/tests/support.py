"""What the tests share: the folders, and running a companion beside the stub."""
import os
import re
import shutil
import subprocess
import sys
import tempfile
import unittest
from dataclasses import dataclass
from html.parser import HTMLParser
from pathlib import Path

TESTS = Path(__file__).resolve().parent
COMPANIONS = TESTS.parent
REPOSITORY = COMPANIONS.parent
sys.path.insert(0, str(COMPANIONS))
STUB = TESTS / "stub"
PYTHON = Path(sys.executable).parent
BUILT = Path(os.environ.get("WASSAIL_PROGRAM") or REPOSITORY / "crates" / "wassail" / "out" / "wassail")


@dataclass(frozen=True)
class Ended:
    """How a companion ended."""

    status: int
    output: str
    error: str
    bytes: bytes


# A machine with other work makes any step a long one.
PROGRESS = re.compile(r"^\w+: .*, \d+(\.\d)? s\n", re.MULTILINE)


def companion(name, *words, program=STUB, path=None, with_progress=False):
    """Runs a companion. `path` is the search path of the system's commands, where it is another one. Lines of progress are left out, unless asked for."""
    variables = os.environ | {"WASSAIL_PROGRAM": str(program), "PYTHONDONTWRITEBYTECODE": "1"}
    # The stub is to start with this interpreter.
    variables["PATH"] = f"{PYTHON}{os.pathsep}{os.environ['PATH'] if path is None else path}"
    ran = subprocess.run([sys.executable, str(COMPANIONS / name), *map(str, words)], capture_output=True, env=variables, check=False)
    error = ran.stderr.decode("utf-8", "replace")
    return Ended(ran.returncode, ran.stdout.decode("utf-8", "replace"), error if with_progress else PROGRESS.sub("", error), ran.stdout)


class InFolder(unittest.TestCase):
    """A test with a folder of its own."""

    def setUp(self):
        self.folder = Path(tempfile.mkdtemp())
        self.addCleanup(shutil.rmtree, self.folder)

    def written(self, data, name="module.wasm"):
        path = self.folder / name
        path.write_bytes(data)
        return path

    def ready_program(self, functions):
        """A program that has the rows of a module with so many functions ready, five of each."""
        rows = self.folder / "rows"
        outputs = ("result", "g0", "mem", "size", "done")
        rows.write_text("".join(f"f {number} {output} <- p0 p1 g0 mem size\n" for number in range(functions) for output in outputs))
        ready = self.written(f"#!/bin/sh\n[ $1 = check ] && echo valid || exec cat {rows}\n".encode(), "ready")
        ready.chmod(0o755)
        return ready

    def without_slices(self):
        """A program that is refused the memory for kept sets and slices."""
        line = "wassail: an allocation was refused"
        script = self.written(f"#!/bin/sh\ncase $1 in kept|slice) echo '{line}' >&2; exit 5;; esac\nexec '{STUB}' \"$@\"\n".encode(), "without")
        script.chmod(0o755)
        return script

    def assert_one_line(self, ended, status, holds):
        """It ended with the status and one line on standard error, which holds the text, and nothing on standard output."""
        self.assertEqual((ended.status, ended.output), (status, ""), ended.error)
        self.assertEqual(len(ended.error.splitlines()), 1, ended.error)
        self.assertIn(holds, ended.error)


def needs_program():
    return unittest.skipUnless(os.access(BUILT, os.X_OK), "there is no built program")


def needs(tool):
    return unittest.skipUnless(shutil.which(tool), f"there is no {tool}")


def real_modules():
    """The modules of the folders that WASSAIL_MODULES names."""
    folders = filter(None, os.environ.get("WASSAIL_MODULES", "").split(os.pathsep))
    return sorted(path for folder in folders for path in Path(folder).glob("*.wasm"))


OFFSET = re.compile(r" ([0-9a-f]+): [0-9a-f ]+\| +([a-z][a-z0-9_.]*)")
BODY = re.compile(r"[0-9a-f]+ func\[(\d+)\]")


def objdump_offsets(path):
    """For each function the offsets and names of its instructions, as wasm-objdump tells them."""
    told, found = {}, None
    for line in subprocess.run(["wasm-objdump", "-d", str(path)], capture_output=True, text=True, errors="replace", check=True).stdout.splitlines():
        body = BODY.match(line)
        if body:
            found = told.setdefault(int(body[1]), [])
        instruction = OFFSET.match(line)
        # Locals are told like instructions, as `local[0..1]`.
        if instruction and instruction[2] != "local":
            found.append((int(instruction[1], 16), instruction[2]))
    return told


class Page(HTMLParser):
    """A page's tables as rows of texts with their classes, its ids, its links, and how many elements of each kind it has."""

    def __init__(self, text):
        super().__init__()
        self.rows, self.ids, self.links, self.counts, self.text = [], [], [], {}, ""
        self.attributes, self.open = [], []
        self.feed(text)
        self.close()

    def handle_starttag(self, tag, attributes):
        found = dict(attributes)
        self.counts[tag] = self.counts.get(tag, 0) + 1
        self.attributes += [name for name, _ in attributes]
        if "id" in found:
            self.ids.append(found["id"])
        if "href" in found:
            self.links.append(found["href"])
        if tag == "tr":
            self.rows.append((found.get("class", ""), []))
        elif tag in ("td", "th") and self.rows:
            self.rows[-1][1].append("")
        if tag not in ("meta", "input"):
            self.open.append(tag)

    def handle_endtag(self, tag):
        if not self.open or self.open.pop() != tag:
            raise AssertionError(f"</{tag}> closes nothing")

    def handle_data(self, data):
        if "style" in self.open or "script" in self.open:
            return
        self.text += data
        if ("td" in self.open or "th" in self.open) and self.rows:
            self.rows[-1][1][-1] += data
