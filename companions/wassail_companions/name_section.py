"""Reads the names that a `name` section gives to functions, locals and globals.

The section is a custom one, and any tool may have left it broken. What reads in it is taken, what doesn't has no name, and `problems` says what was
left out: a part whose sizes don't fit gives no names at all, and in a part that reads, a name that isn't UTF-8 or whose number is there twice is
left out."""
from __future__ import annotations

from dataclasses import dataclass, field

from .module import Malformed, Reader

FUNCTIONS, LOCALS, GLOBALS = 1, 2, 7


@dataclass
class NameSection:
    functions: dict[int, str] = field(default_factory=dict)
    locals: dict[int, dict[int, str]] = field(default_factory=dict)
    globals: dict[int, str] = field(default_factory=dict)
    problems: list[str] = field(default_factory=list)


def read_names(contents: bytes | None) -> NameSection:
    """The names of a section's contents; of none, where there is no section. Never raises."""
    section = NameSection()
    reader = Reader(contents or b"")
    seen: set[int] = set()
    while not reader.is_done():
        try:
            identity = reader.byte()
            part = reader.sized()
        except Malformed as why:
            section.problems.append(f"its parts: {why}")
            break
        if identity in seen:
            section.problems.append(f"part {identity} is there again, and is left out")
            continue
        seen.add(identity)
        _read_part(section, identity, part)
    return section


def _read_part(section: NameSection, identity: int, part: Reader) -> None:
    problems: list[str] = []
    try:
        if identity == FUNCTIONS:
            section.functions = _name_map(part, "function", problems)
        elif identity == LOCALS:
            section.locals = _local_names(part, problems)
        elif identity == GLOBALS:
            section.globals = _name_map(part, "global", problems)
        else:
            return
        if not part.is_done():
            problems.append(f"part {identity} is longer than its names")
    except Malformed as why:
        problems = [f"part {identity} gives no names: {why}"]
    section.problems += problems


def _name_map(part: Reader, what: str, problems: list[str]) -> dict[int, str]:
    names: dict[int, str] = {}
    repeated: set[int] = set()
    for _ in range(part.number()):
        number = part.number()
        text = part.sized().rest()
        if number in names:
            repeated.add(number)
        try:
            names[number] = text.decode("utf-8")
        except UnicodeDecodeError:
            problems.append(f"the name of {what} {number} is no UTF-8")
    for number in sorted(repeated):
        problems.append(f"{what} {number} is named twice, and stays without a name")
        del names[number]
    return names


def _local_names(part: Reader, problems: list[str]) -> dict[int, dict[int, str]]:
    names: dict[int, dict[int, str]] = {}
    repeated: set[int] = set()
    for _ in range(part.number()):
        function = part.number()
        if function in names:
            repeated.add(function)
        names[function] = _name_map(part, f"function {function}'s local", problems)
    for function in sorted(repeated):
        problems.append(f"the locals of function {function} are named twice, and stay without names")
        del names[function]
    return names
