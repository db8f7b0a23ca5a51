"""The program's texts as values: each is read from the text, and written back as the same text.

The texts are those of docs/COMMANDS.md. A text that doesn't read so gives none."""
from __future__ import annotations

import re
from collections.abc import Iterable
from dataclasses import dataclass, field

LISTING_LINE = re.compile(r"(\d+|\.) ((?:  )*)([a-z].*?)(?: (dead)| <-((?: j?\d+)+))?")
ROW = re.compile(r"f (\d+) (\S+) <-((?: \S+)*)")
NODE = re.compile(r"j?\d+")
EVENT = re.compile(r"(take|leave)((?: \d+)*)")
OUTCOME = re.compile(r"(?:start )?trapped [a-z ]+|returned(?: \d+)?|(?:element|data) segment \d+ does not fit|out of turns")
TURNS = re.compile(r"turns (\d+)")


@dataclass(frozen=True)
class Row:
    """What one output of a function depends on."""

    function: int
    output: str
    inputs: tuple[str, ...]

    def text(self) -> str:
        return " ".join([f"f {self.function} {self.output} <-", *self.inputs])


@dataclass(frozen=True)
class ListingLine:
    """One line of a listing: a position with its instruction, or an `else` or `end`, which has no position."""

    position: int | None
    depth: int
    instruction: str
    makers: tuple[str, ...] = ()
    is_dead: bool = False

    @property
    def operation(self) -> str:
        return self.instruction.split(" ", 1)[0]

    @property
    def immediates(self) -> list[str]:
        return self.instruction.split(" ")[1:]

    def text(self) -> str:
        start = f"{'.' if self.position is None else self.position} {'  ' * self.depth}{self.instruction}"
        if self.is_dead:
            return start + " dead"
        return " ".join([start, "<-", *self.makers]) if self.makers else start


@dataclass(frozen=True)
class Event:
    """What an instruction took or left."""

    kind: str
    values: tuple[int, ...]

    def text(self) -> str:
        return " ".join([self.kind, *map(str, self.values)])


@dataclass(frozen=True)
class Summary:
    rows: list[Row]

    def text(self) -> str:
        return _lines(row.text() for row in self.rows)


@dataclass(frozen=True)
class Listing:
    lines: list[ListingLine]

    def text(self) -> str:
        return _lines(line.text() for line in self.lines)

    @property
    def positions(self) -> int:
        return sum(line.position is not None for line in self.lines)


@dataclass(frozen=True)
class Kept:
    """Nodes: a position as its number, the end of a block as `j` and the block's number."""

    nodes: list[str]

    def text(self) -> str:
        return _lines(self.nodes)


@dataclass(frozen=True)
class Run:
    """Events, how the run ended, and its turns where the text has them."""

    outcome: str
    turns: int | None
    events: list[Event] = field(default_factory=list)

    def text(self) -> str:
        turns = [] if self.turns is None else [f"turns {self.turns}"]
        return _lines([*(event.text() for event in self.events), self.outcome, *turns])


Value = Summary | Listing | Kept | Run


def _lines(lines: Iterable[str]) -> str:
    return "".join(f"{line}\n" for line in lines)


def read_answer(command: str, text: str) -> Value | None:
    """What a command's text says; none where it isn't a text that this script knows, word for word."""
    reader = {"summary": _summary, "list": _listing, "kept": _kept, "run": _run, "trace": _run}.get(command)
    value = None if reader is None else reader(text.splitlines())
    return value if value is not None and value.text() == text else None


def _summary(lines: list[str]) -> Summary | None:
    rows = []
    for line in lines:
        row = ROW.fullmatch(line)
        if row is None:
            return None
        rows.append(Row(int(row[1]), row[2], tuple(row[3].split())))
    return Summary(rows)


def _listing(lines: list[str]) -> Listing | None:
    listing = []
    for line in lines:
        read = LISTING_LINE.fullmatch(line)
        if read is None:
            return None
        position, blanks, instruction, dead, makers = read.groups()
        listing.append(ListingLine(None if position == "." else int(position), len(blanks) // 2, instruction, tuple((makers or "").split()), dead is not None))
    return Listing(listing)


def _kept(lines: list[str]) -> Kept | None:
    return Kept(lines) if all(NODE.fullmatch(line) for line in lines) else None


def _run(lines: list[str]) -> Run | None:
    events = []
    at = 0
    while at < len(lines) and (event := EVENT.fullmatch(lines[at])):
        events.append(Event(event[1], tuple(map(int, event[2].split()))))
        at += 1
    rest = lines[at:]
    if not 1 <= len(rest) <= 2 or OUTCOME.fullmatch(rest[0]) is None:
        return None
    if len(rest) == 1:
        return Run(rest[0], None, events)
    turns = TURNS.fullmatch(rest[1])
    return None if turns is None else Run(rest[0], int(turns[1]), events)
