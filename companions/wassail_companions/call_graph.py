"""Groups of functions that call each other, and a picture of the calls between groups."""
from __future__ import annotations

import shutil
import subprocess
from dataclasses import dataclass

from .naming import Naming, printable, shortened
from .progress import step

MOST_SECONDS, NAME_WIDTH, MOST_MEMBERS = 20, 32, 6


@dataclass(frozen=True)
class Group:
    """Functions that reach each other by calls. A function that reaches none that reaches it back is a group by itself."""

    number: int
    members: tuple[int, ...]
    calls_itself: bool

    @property
    def anchor(self) -> str:
        """Where the page tells of it: the function, or the group where it has more than one."""
        return f"f{self.members[0]}" if len(self.members) == 1 else f"g{self.number}"


@dataclass(frozen=True)
class Picture:
    """An SVG, or none, and a line that says what it leaves out or why there is none."""

    svg: str | None
    note: str


def groups_of(calls: list[tuple[int, ...]]) -> list[Group]:
    """The strongly connected components of the calls, each after the ones that it calls (Tarjan's search, with its stack as a list)."""
    order: dict[int, int] = {}
    low: dict[int, int] = {}
    waiting: list[int] = []
    is_waiting: set[int] = set()
    groups: list[Group] = []
    for root in range(len(calls)):
        if root in order:
            continue
        path = [(root, iter(calls[root]))]
        order[root] = low[root] = len(order)
        waiting.append(root)
        is_waiting.add(root)
        while path:
            function, rest = path[-1]
            called = next((one for one in rest if one not in order or one in is_waiting), None)
            if called is None:
                path.pop()
                if path:
                    low[path[-1][0]] = min(low[path[-1][0]], low[function])
                if low[function] == order[function]:
                    members = _cut_off(waiting, function)
                    is_waiting.difference_update(members)
                    groups.append(Group(len(groups), members, len(members) > 1 or function in calls[function]))
            elif called in order:
                low[function] = min(low[function], order[called])
            else:
                order[called] = low[called] = len(order)
                waiting.append(called)
                is_waiting.add(called)
                path.append((called, iter(calls[called])))
    return groups


def _cut_off(waiting: list[int], function: int) -> tuple[int, ...]:
    """Takes the function and all that waits above it."""
    members = [waiting.pop()]
    while members[-1] != function:
        members.append(waiting.pop())
    return tuple(sorted(members))


def edges_between(groups: list[Group], calls: list[tuple[int, ...]]) -> set[tuple[int, int]]:
    """Which group calls which other group."""
    group_of = {member: group.number for group in groups for member in group.members}
    return {(group_of[caller], group_of[called]) for caller, all_called in enumerate(calls) for called in all_called if group_of[caller] != group_of[called]}


def chosen_groups(groups: list[Group], edges: set[tuple[int, int]], most: int) -> list[Group]:
    """So many at most: those that call themselves first, then those with the most other groups that they call or that call them."""
    degrees = [0] * len(groups)
    for caller, called in edges:
        degrees[caller] += 1
        degrees[called] += 1
    ranked = sorted(groups, key=lambda group: (not group.calls_itself, -degrees[group.number], group.number))
    return sorted(ranked[:most], key=lambda group: group.number)


def picture(naming: Naming, groups: list[Group], calls: list[tuple[int, ...]], most: int, companion: str) -> Picture:
    """The calls between groups, drawn by dot."""
    dot = shutil.which("dot")
    if dot is None:
        return Picture(None, "There is no picture, since dot (graphviz) isn't there.")
    edges = edges_between(groups, calls)
    chosen = chosen_groups(groups, edges, most)
    with step(companion, "drawing the call graph"):
        try:
            drawn = subprocess.run([dot, "-Tsvg"], input=dot_text(naming, chosen, edges), capture_output=True, text=True, check=True, timeout=MOST_SECONDS)
        except subprocess.TimeoutExpired:
            slow = f"dot took longer than {MOST_SECONDS} seconds for {len(chosen)} groups"
            return Picture(None, f"There is no picture, since {slow}; --graph takes a smaller number.")
        except (OSError, subprocess.CalledProcessError) as why:
            return Picture(None, f"There is no picture, since dot failed: {why}.")
    note = f"All {len(groups)} groups are drawn."
    if len(chosen) < len(groups):
        which = "those that call themselves first, then those with the most neighbours"
        note = f"{len(chosen)} of {len(groups)} groups are drawn, {which}; the table of functions has all calls."
    return Picture(drawn.stdout[drawn.stdout.index("<svg") :], note)


def dot_text(naming: Naming, chosen: list[Group], edges: set[tuple[int, int]]) -> str:
    """The graph in dot's language. Groups of more than one function have a double frame, a function that calls itself a thick one."""
    lines = [
        "digraph calls {",
        "rankdir=LR; ranksep=0.6; nodesep=0.12;",
        'node [shape=box, fontname="sans-serif", fontsize=10, height=0.25, margin="0.08,0.03"];',
        'edge [arrowsize=0.5, color="#777777"];',
    ]
    for group in chosen:
        frame = "peripheries=2" if len(group.members) > 1 else "penwidth=2" if group.calls_itself else "penwidth=0.7"
        lines.append(f'n{group.number} [label="{_label(naming, group)}", tooltip=" ", URL="#{group.anchor}", {frame}];')
    drawn = {group.number for group in chosen}
    lines += [f"n{caller} -> n{called};" for caller, called in sorted(edges) if caller in drawn and called in drawn]
    return "\n".join([*lines, "}"])


def _label(naming: Naming, group: Group) -> str:
    names = [_quoted(shortened(naming.titled(member), NAME_WIDTH)) for member in group.members[:MOST_MEMBERS]]
    if len(group.members) > MOST_MEMBERS:
        names.append(f"and {len(group.members) - MOST_MEMBERS} more")
    return "\\n".join(names)


def _quoted(text: str) -> str:
    """For a label: dot reads escapes behind backslashes, and entities behind ampersands."""
    return printable(text).replace("&", "&amp;").replace("\\", "\\\\").replace('"', '\\"')
