"""Steps through the code of a body: where each instruction begins, and which functions it names in a call."""
from __future__ import annotations

from collections.abc import Iterator
from dataclasses import dataclass
from enum import IntEnum

from .module import Body, Malformed, Reader

ELSE, END, BR_TABLE, CALL, CALL_INDIRECT, PREFIX = 0x05, 0x0B, 0x0E, 0x10, 0x11, 0xFC


class Shape(IntEnum):
    """What follows an opcode."""

    NOTHING = 0
    NUMBER = 1
    TWO_NUMBERS = 2
    FOUR_BYTES = 3
    EIGHT_BYTES = 4
    TABLE = 5
    PREFIXED = 6
    UNKNOWN = 7


def _shape_of(opcode: int) -> Shape:
    if opcode in (0x00, 0x01, ELSE, END, 0x0F, 0x1A, 0x1B) or 0x45 <= opcode <= 0xC4:
        return Shape.NOTHING
    if opcode in (0x02, 0x03, 0x04, 0x0C, 0x0D, CALL, 0x3F, 0x40, 0x41, 0x42) or 0x20 <= opcode <= 0x24:
        return Shape.NUMBER
    if opcode == CALL_INDIRECT or 0x28 <= opcode <= 0x3E:
        return Shape.TWO_NUMBERS
    return {BR_TABLE: Shape.TABLE, 0x43: Shape.FOUR_BYTES, 0x44: Shape.EIGHT_BYTES, PREFIX: Shape.PREFIXED}.get(opcode, Shape.UNKNOWN)


SHAPES = [_shape_of(opcode) for opcode in range(256)]
# How many numbers follow the prefix and its number: conversions that saturate, memory.init, data.drop, memory.copy and memory.fill.
PREFIXED_NUMBERS = [0] * 8 + [2, 1, 2, 1]


def instructions(data: bytes, start: int, end: int) -> Iterator[tuple[int, int]]:
    """The offset and opcode of each instruction, `else` and `end` too. Raises `Malformed` at an unknown opcode, and where the code runs past its end."""
    at = start
    while at < end:
        opcode = data[at]
        yield at, opcode
        at += 1
        shape = SHAPES[opcode]
        if shape == Shape.NOTHING:
            continue
        if shape == Shape.NUMBER:
            while data[at] & 128:
                at += 1
            at += 1
        elif shape == Shape.TWO_NUMBERS:
            for _ in range(2):
                while data[at] & 128:
                    at += 1
                at += 1
        else:
            at = _behind(data, at, end, shape)
    if at != end:
        raise Malformed(f"the code that begins at offset {start:#x} runs past its end")


def _behind(data: bytes, at: int, end: int, shape: Shape) -> int:
    """The offset behind the immediates of a rarer shape."""
    if shape == Shape.FOUR_BYTES:
        return at + 4
    if shape == Shape.EIGHT_BYTES:
        return at + 8
    reader = Reader(data, at, end)
    if shape == Shape.TABLE:
        for _ in range(reader.number() + 1):
            reader.number()
        return reader.at
    if shape == Shape.PREFIXED:
        number = reader.number()
        if number < len(PREFIXED_NUMBERS):
            for _ in range(PREFIXED_NUMBERS[number]):
                reader.number()
            return reader.at
    raise Malformed(f"the opcode at offset {at - 1:#x} is unknown")


@dataclass(frozen=True)
class Code:
    """How many positions a body has, the functions that its calls name in order of their first one, and how many calls go through the table."""

    positions: int
    calls: tuple[int, ...]
    calls_through_table: int


def survey(data: bytes, body: Body) -> Code | None:
    """None where the code doesn't read."""
    positions = through_table = 0
    calls: dict[int, None] = {}
    try:
        for at, opcode in instructions(data, body.code, body.end):
            if opcode in (ELSE, END):
                continue
            positions += 1
            if opcode == CALL:
                calls[Reader(data, at + 1, body.end).number()] = None
            elif opcode == CALL_INDIRECT:
                through_table += 1
    except (Malformed, IndexError):
        return None
    return Code(positions, tuple(calls), through_table)
