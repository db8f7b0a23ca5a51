"""What each kept node is kept for, as far as the listing shows it.

Which nodes are kept is the program's answer. The rules of the kept set (docs/ANALYSES.md) name what the listing shows: operands, the value at a
block's end, values that branches carry, and what stands around what. A kept node with none of these reasons is kept by one of the two other rules,
and which one follows from its instruction: a branch is kept only for what it decides, anything else for what it writes."""
from __future__ import annotations

from collections.abc import Callable
from dataclasses import dataclass

from .answers import ListingLine
from .structure import OPENERS, Placed, carried_to

BRANCHES = ("br", "br_if", "br_table", "return")
CALLS = ("call", "call_indirect")
CALLED = ("call", "")
READERS = {"local.set": ("local.get",), "local.tee": ("local.get",), "global.set": ("global.get",)}


@dataclass(frozen=True)
class Reason:
    """Why, and the nodes that it is for."""

    why: str
    nodes: tuple[str, ...] = ()


def reasons_of(placed: list[Placed], kept: set[str], criterion: int) -> dict[str, list[Reason]]:
    """The reasons of each kept node that the listing has a line for."""
    found: dict[str, dict[str, list[str]]] = {node: {} for node in kept}

    def add(node: str, why: str, target: str | None = None) -> None:
        if node in found:
            nodes = found[node].setdefault(why, [])
            if target is not None and target not in nodes:
                nodes.append(target)

    add(str(criterion), "the criterion")
    for one in placed:
        position = one.line.position
        if position is None:
            if one.closes is not None and f"j{one.closes}" in kept:
                _add_end(add, one)
            continue
        if str(position) in kept:
            # A call needn't depend on each of its arguments, and its line doesn't say on which.
            why = "argument of the call at" if one.line.operation in CALLS else "operand of"
            for maker in _needed(one.line, position == criterion):
                add(maker, why, str(position))
        if str(position) in kept or f"j{position}" in kept:
            if one.around:
                add(str(one.around[-1]), "around", str(position))
        for target, maker in carried_to(one):
            if target is not None and f"j{target}" in kept and not one.line.is_dead:
                add(maker, f"value carried to the end of {target}, by", str(position))
    reads = _kept_reads(placed, kept)
    for one in placed:
        node = str(one.line.position)
        if one.is_position and node in kept and not found[node]:
            why, nodes = _by_elimination(one.line, reads)
            found[node][why] = nodes
    return {node: [Reason(why, tuple(nodes)) for why, nodes in whys.items()] for node, whys in found.items()}


def _add_end(add: Callable[[str, str, str], None], one: Placed) -> None:
    block = str(one.closes)
    add(block, "its end is kept:", f"j{block}")
    for maker in one.line.makers:
        add(maker, "value at the end of", block)


def _needed(line: ListingLine, is_criterion: bool) -> tuple[str, ...]:
    """The makers of the operands that a kept instruction keeps: a branch that isn't the criterion doesn't keep what it carries."""
    if is_criterion or line.operation not in BRANCHES:
        return line.makers
    return line.makers[-1:] if line.operation in ("br_if", "br_table") else ()


def _kept_reads(placed: list[Placed], kept: set[str]) -> dict[tuple[str, str], list[str]]:
    """The kept positions that get a local or global, by the instruction and its number, and those that call."""
    reads: dict[tuple[str, str], list[str]] = {}
    for one in placed:
        if str(one.line.position) in kept and one.line.operation in ("local.get", "global.get"):
            reads.setdefault((one.line.operation, one.line.immediates[0]), []).append(str(one.line.position))
        elif str(one.line.position) in kept and one.line.operation in CALLS:
            reads.setdefault(CALLED, []).append(str(one.line.position))
    return reads


def _by_elimination(line: ListingLine, reads: dict[tuple[str, str], list[str]]) -> tuple[str, list[str]]:
    """Why a position is kept for which the listing shows no reason."""
    if line.operation in BRANCHES or line.operation in OPENERS:
        return "decides whether kept positions are passed", []
    if line.operation in READERS:
        variable = f"{line.operation.split('.')[0]} {line.immediates[0]}"
        nodes = [node for reader in READERS[line.operation] for node in reads.get((reader, line.immediates[0]), [])]
        # What the functions called read doesn't stand in the listing.
        if line.operation == "global.set" and CALLED in reads:
            return f"writes {variable}, which may be read at", nodes + reads[CALLED]
        return f"writes {variable}, which is read at" if nodes else f"writes {variable}", nodes
    return "writes what kept positions depend on", []
