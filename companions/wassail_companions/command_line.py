"""Words, complaints and statuses, alike in every companion: status 2 and one line where the words are wrong."""
from __future__ import annotations

import argparse
import io
import os
import sys
from collections.abc import Callable
from pathlib import Path
from typing import NoReturn

PROGRAM_VARIABLE = "WASSAIL_PROGRAM"
BUILT = Path(__file__).resolve().parents[2] / "crates" / "wassail" / "out" / "wassail"


class Complaint(Exception):
    """What ends a companion: a status and one line."""

    def __init__(self, status: int, line: str) -> None:
        super().__init__(line)
        self.status = status
        self.line = line


class Parser(argparse.ArgumentParser):
    """Tells of wrong words in one line."""

    def error(self, message: str) -> NoReturn:
        raise Complaint(2, f"{message} ({self.prog} --help tells the words)")


def number(text: str) -> int:
    """A word that is a number, for a parser."""
    if not (text.isascii() and text.isdigit()):
        raise argparse.ArgumentTypeError(f"'{text}' is no number")
    return int(text)


def add_program(parser: Parser) -> None:
    parser.add_argument(
        "--program", metavar="PATH", type=Path, default=None, help=f"the built program; else {PROGRAM_VARIABLE} names it, or it is crates/wassail/out/wassail"
    )


def program_path(given: Path | None) -> Path:
    path = given or Path(os.environ.get(PROGRAM_VARIABLE) or BUILT)
    if not os.access(path, os.X_OK) or path.is_dir():
        raise Complaint(2, f"there is no program at {path}; README.md, 'Setting up', builds it, and --program or {PROGRAM_VARIABLE} names another")
    return path


def read_file(path: Path) -> bytes:
    try:
        return path.read_bytes()
    except OSError as why:
        raise Complaint(2, f"{path} isn't read: {why.strerror}") from why


def write_file(path: Path, text: str) -> None:
    try:
        path.write_text(text, encoding="utf-8")
    except OSError as why:
        raise Complaint(2, f"{path} isn't written: {why.strerror}") from why


def run(name: str, main: Callable[[list[str]], int]) -> NoReturn:
    """Runs a companion, and ends the process with its status."""
    if isinstance(sys.stdout, io.TextIOWrapper):
        sys.stdout.reconfigure(errors="backslashreplace")
    try:
        status = main(sys.argv[1:])
        sys.stdout.flush()
    except Complaint as complaint:
        print(f"{name}: {complaint.line}", file=sys.stderr)
        status = complaint.status
    except BrokenPipeError:
        # Whoever read has enough; what is still in the buffer goes nowhere.
        os.dup2(os.open(os.devnull, os.O_WRONLY), sys.stdout.fileno())
        status = 0
    except KeyboardInterrupt:
        status = 130
    sys.exit(status)
