"""Asks the proved program. Each answer remembers the words that it answers."""
from __future__ import annotations

import subprocess
from dataclasses import dataclass
from pathlib import Path

from .command_line import Complaint
from .naming import printable
from .progress import step

WORDS_REFUSED = "wassail: words refused"
HAS_ANSWER = (0, 7, 8)
STATUSES = range(10)


@dataclass(frozen=True)
class Answer:
    """What the program wrote, and its status."""

    words: tuple[str, ...]
    status: int
    output: bytes
    error: bytes

    @property
    def has_answer(self) -> bool:
        """Statuses 0, 7 and 8 come with an answer on standard output."""
        return self.status in HAS_ANSWER

    @property
    def refuses_words(self) -> bool:
        return self.status == 2 and self.line == WORDS_REFUSED

    @property
    def text(self) -> str:
        return self.output.decode("utf-8", "backslashreplace")

    @property
    def line(self) -> str:
        """Its line on standard error."""
        return self.error.decode("utf-8", "backslashreplace").rstrip("\n")


@dataclass(frozen=True)
class Program:
    """The program at a path, for a companion that has a name."""

    path: Path
    companion: str

    def ask(self, module: bytes, *words: str) -> Answer:
        with step(self.companion, f"wassail {' '.join(words[:3])}"):
            try:
                ran = subprocess.run([str(self.path), *words], input=module, capture_output=True, check=False)
            except (OSError, ValueError) as why:
                raise Complaint(2, f"{self.path} doesn't start: {why}") from why
        answer = Answer(words, ran.returncode, ran.stdout, ran.stderr)
        if answer.status not in STATUSES:
            raise Complaint(2, f"{self.path} ended with status {answer.status}, which the program has not: {printable(answer.line)}")
        return answer
