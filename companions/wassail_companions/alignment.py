"""Sets a function's listing and its slice's side by side.

By the rules of the cut, kept instructions stay in their order with their words, and what is cut leaves at most drops and zero constants. So every
line of the slice that is neither is a kept line, in order. A kept zero constant is told from those that stand in by who takes it, which both
listings say."""
from __future__ import annotations

from bisect import bisect
from collections.abc import Iterator
from dataclasses import dataclass

from .structure import Placed

STAND_INS = ("drop", "i32.const 0", "i64.const 0")


@dataclass(frozen=True)
class Pair:
    """A line of the function and a line of the slice; one of them may be missing. Only where `is_same` they are the same instruction."""

    left: Placed | None
    right: Placed | None
    is_same: bool = False


def aligned(left: list[Placed], right: list[Placed], kept: set[str], criterion: int, moved_to: int) -> list[Pair] | None:
    """The lines in pairs; none where the two listings don't fit together. The criterion is a position of the function, `moved_to` of the slice."""
    same = _same_lines(left, right, kept, criterion, moved_to)
    return None if same is None else list(_pairs(left, right, same))


def _stays(one: Placed, kept: set[str]) -> bool:
    if one.is_position:
        return str(one.line.position) in kept
    return one.closes is None or str(one.closes) in kept


def _may_stand_in(one: Placed) -> bool:
    return one.line.instruction in STAND_INS


def _index_of(lines: list[Placed], position: int) -> int | None:
    return next((index for index, one in enumerate(lines) if one.line.position == position), None)


def _same_lines(left: list[Placed], right: list[Placed], kept: set[str], criterion: int, moved_to: int) -> dict[int, int] | None:
    """For each line of the function that stays, the line of the slice, both by their places in the listings."""
    same = _certain_lines(left, right, kept)
    from_, to = _index_of(left, criterion), _index_of(right, moved_to)
    if same is None or from_ is None or to is None or left[from_].line.instruction != right[to].line.instruction:
        return None
    same[from_] = to
    unsure = [index for index, one in enumerate(left) if _stays(one, kept) and _may_stand_in(one) and index not in same]
    _place_by_takers(left, right, same, unsure)
    if not _place_between(left, right, same, [index for index in unsure if index not in same]):
        return None
    places = [same[index] for index in sorted(same)]
    return same if all(one < other for one, other in zip(places, places[1:])) else None


def _certain_lines(left: list[Placed], right: list[Placed], kept: set[str]) -> dict[int, int] | None:
    """The lines that aren't drops or zero constants, one after the other. An `else` goes where the arm behind it is empty in the slice."""
    same = {}
    places = iter([place for place, one in enumerate(right) if not _may_stand_in(one)])
    place = next(places, None)
    for index, one in enumerate(left):
        if not _stays(one, kept) or _may_stand_in(one):
            continue
        if place is not None and right[place].line.instruction == one.line.instruction:
            same[index] = place
            place = next(places, None)
        elif one.line.instruction != "else":
            return None
    return same if place is None else None


def _place_by_takers(left: list[Placed], right: list[Placed], same: dict[int, int], unsure: list[int]) -> None:
    """Places what an aligned line takes: its operands are the same in both listings, in their order."""
    unplaced = {str(left[index].line.position): index for index in unsure}
    at = {str(one.line.position): place for place, one in enumerate(right) if one.is_position}
    for index, place in list(same.items()):
        makers, others = left[index].line.makers, right[place].line.makers
        if len(makers) == len(others):
            for maker, other in zip(makers, others):
                if maker in unplaced and other in at and right[at[other]].line.instruction == left[unplaced[maker]].line.instruction:
                    same[unplaced[maker]] = at[other]


def _place_between(left: list[Placed], right: list[Placed], same: dict[int, int], unplaced: list[int]) -> bool:
    """Places each of these lines at the first one of its words between what is placed around it; false where there is none."""
    settled = sorted(same)
    for index in unplaced:
        at = bisect(settled, index)
        before = same[settled[at - 1]] if at > 0 else -1
        behind = same[settled[at]] if at < len(settled) else len(right)
        place = next((place for place in range(before + 1, behind) if right[place].line.instruction == left[index].line.instruction), None)
        if place is None:
            return False
        same[index] = place
        settled.insert(at, index)
    return True


def _pairs(left: list[Placed], right: list[Placed], same: dict[int, int]) -> Iterator[Pair]:
    """Between lines that are the same: first what was cut, and then what stands in for it."""
    from_ = to = 0
    for index in [*sorted(same), len(left)]:
        place = same.get(index, len(right))
        yield from (Pair(one, None) for one in left[from_:index])
        yield from (Pair(None, one) for one in right[to:place])
        if index < len(left):
            yield Pair(left[index], right[place], True)
        from_, to = index + 1, place + 1
