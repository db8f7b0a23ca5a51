"""Where the lines of a listing stand in the file."""
from __future__ import annotations

from .answers import ListingLine
from .code import ELSE, END, instructions
from .module import Body, Malformed


def line_offsets(data: bytes, body: Body, lines: list[ListingLine]) -> list[int] | None:
    """The offset of each line's instruction. None where the code doesn't read, or isn't the code of the listing."""
    offsets: list[int] = []
    try:
        for at, opcode in instructions(data, body.code, body.end):
            if len(offsets) == len(lines):
                return None
            line = lines[len(offsets)]
            if opcode == ELSE and line.instruction != "else":
                # An `else` before an empty arm has no line.
                continue
            if (line.instruction == "else") != (opcode == ELSE) or (line.instruction == "end") != (opcode == END):
                return None
            offsets.append(at)
    except (Malformed, IndexError):
        return None
    return offsets if len(offsets) == len(lines) else None
