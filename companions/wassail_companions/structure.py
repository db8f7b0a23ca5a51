"""The nesting that a listing shows: which blocks are around each of its lines, and which block an `else` or `end` belongs to."""
from __future__ import annotations

from dataclasses import dataclass

from .answers import ListingLine

OPENERS = ("block", "loop", "if")


@dataclass(frozen=True)
class Placed:
    """A line of a listing in its place. `around` are the blocks around it, the outermost first; `closes` is the block whose `else` or `end` it is, and
    none for the body's end."""

    line: ListingLine
    around: tuple[int, ...]
    closes: int | None = None

    @property
    def is_position(self) -> bool:
        return self.line.position is not None


def placed_lines(lines: list[ListingLine]) -> list[Placed]:
    placed: list[Placed] = []
    open_: tuple[int, ...] = ()
    for line in lines:
        if line.position is not None:
            placed.append(Placed(line, open_))
            if line.operation in OPENERS:
                open_ += (line.position,)
        elif line.instruction == "else":
            placed.append(Placed(line, open_[:-1], open_[-1]))
        else:
            placed.append(Placed(line, open_[:-1], open_[-1] if open_ else None))
            open_ = open_[:-1]
    return placed


def carried_to(placed: Placed) -> list[tuple[int | None, str]]:
    """Where a branch carries its value, with the value's maker: a block, or none for the body. A branch to a loop carries nothing."""
    line = placed.line
    if line.operation == "return":
        return [(None, maker) for maker in line.makers[:1]]
    has_condition = line.operation in ("br_if", "br_table")
    if line.operation != "br" and not has_condition:
        return []
    carried = line.makers[:-1] if has_condition else line.makers
    targets = []
    for label in dict.fromkeys(line.immediates):
        outward = int(label)
        targets.append(placed.around[-1 - outward] if outward < len(placed.around) else None)
    return [(target, maker) for target in targets for maker in carried[:1]]
