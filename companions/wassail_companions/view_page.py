"""The page of one slice: a function's listing with what is kept, the slice's listing beside it, and what runs of both show."""
from __future__ import annotations

from collections.abc import Iterator
from dataclasses import dataclass
from itertools import zip_longest

from .alignment import Pair, aligned
from .answers import Event, Kept, Listing, ListingLine, Run, Value
from .naming import Naming
from .named_texts import instruction_with_name
from .page import cell, command_of, escaped, frame, sources, table_head
from .program import Answer
from .reasons import Reason, reasons_of
from .structure import Placed, placed_lines

MOST_NODES, MOST_EVENTS = 6, 200

@dataclass
class Side:
    """A listing with the offset in the file of each of its lines; none where they aren't known."""

    listing: Listing
    offsets: list[int] | None

    def __post_init__(self) -> None:
        self.placed = placed_lines(self.listing.lines)

    def offset_of(self, index: int) -> str:
        return "" if self.offsets is None else f"{self.offsets[index]:06x}"


@dataclass(frozen=True)
class Asked:
    """An answer of the program, and what its text says; none where it has no answer, or one that isn't a text."""

    answer: Answer
    value: Value | None

    @property
    def as_listing(self) -> Listing | None:
        return self.value if isinstance(self.value, Listing) else None

    @property
    def as_run(self) -> Run | None:
        return self.value if isinstance(self.value, Run) else None


@dataclass(frozen=True)
class Sliced:
    """The answer to `slice`, and what is known of the slice where there is one: its number, the criterion's position, its listing and its runs."""

    answer: Asked
    number: int | None = None
    criterion: int | None = None
    listing: Asked | None = None
    side: Side | None = None
    runs: list[Asked] | None = None


@dataclass(frozen=True)
class View:
    """All that the page shows."""

    module: str
    size: int
    function: int
    type: str
    criterion: int
    naming: Naming
    listing: Asked
    side: Side
    kept: Asked
    sliced: Sliced
    runs: list[Asked] | None

    @property
    def kept_nodes(self) -> set[str] | None:
        return set(self.kept.value.nodes) if isinstance(self.kept.value, Kept) else None


SLICED_MODULE = "sliced"


def view_page(view: View) -> str:
    title = f"Function {view.naming.titled(view.function)} at position {view.criterion}"
    return frame(title, "view", [*_head(view, title), *_listings(view), *_runs(view), *_asked(view)])


def _head(view: View, title: str) -> Iterator[str]:
    yield '<a class="skip" href="#listing">To the listing</a>\n'
    yield f"<header>\n<h1>{escaped(title)}</h1>\n"
    names = ", ".join(f"{name} ({origin})" for name, origin in view.naming.names_of(view.function)) or "none"
    yield f'<p class="soft">{escaped(view.module)}, {view.size} bytes. Names: {escaped(names)}. Type: <code>{escaped(view.type)}</code>.</p>\n'
    if view.kept_nodes is not None:
        positions = sum(not node.startswith("j") for node in view.kept_nodes)
        yield f"<p>{positions} of {view.side.listing.positions} positions are kept."
        if view.sliced.side is not None:
            yield f" The slice is function {view.sliced.number} of the sliced module, with {view.sliced.side.listing.positions} positions;"
            yield f" the instruction stands there at position {view.sliced.criterion}."
        yield "</p>\n"
    yield "</header>\n"


def _listings(view: View) -> Iterator[str]:
    slice_side = view.sliced.side
    pairs = pairs_of(view)
    yield '<main id="listing">\n<h2>' + ("The function and its slice" if slice_side else "The function") + "</h2>\n"
    yield sources(*_answers_shown(view))
    yield from _legend(view, pairs is not None)
    reasons: dict[str, list[Reason]] = {}
    if view.kept_nodes is not None:
        reasons = reasons_of(view.side.placed, view.kept_nodes, view.criterion)
        yield '<input type="checkbox" id="hide-cut" class="controls"> <label class="controls" for="hide-cut">hide what is cut</label>\n'
    columns = [("mark", ""), ("position", "number"), ("offset", "number"), ("instruction", ""), ("operands from", ""), ("kept for", "")]
    if slice_side is not None:
        columns += [("position", "slice number"), ("offset", "number"), ("in the slice", ""), ("operands from", "")]
    yield '<table id="rows">\n' + table_head(*columns)
    yield from _rows(view, pairs, reasons)
    yield "</tbody></table>\n</main>\n"


def _answers_shown(view: View) -> Iterator[tuple[Answer, str]]:
    yield from ((one.answer, "module") for one in (view.listing, view.kept, view.sliced.answer))
    if view.sliced.listing is not None:
        yield view.sliced.listing.answer, SLICED_MODULE


def _legend(view: View, is_aligned: bool) -> Iterator[str]:
    yield f'<p class="controls"><a href="#p{view.criterion}">To the criterion</a>.'
    if view.kept_nodes is not None:
        yield " Keys: <kbd>c</kbd> to the criterion, <kbd>j</kbd> and <kbd>k</kbd> to the next and the previous kept line."
    yield "</p>\n"
    if view.kept_nodes is not None:
        yield "<p>▶ is the criterion, ● is kept, ○ with j and a number is the kept end of that block (its value); a line without a mark is cut, if it"
        yield " isn't the end of a kept block. What is kept is the program's answer. What it is kept <em>for</em> is read off the listing by the rules in"
        yield " docs/ANALYSES.md; there may be further reasons.</p>\n"
    if view.sliced.side is not None:
        if is_aligned:
            yield "<p>A line of the slice beside a kept line is the same instruction. Lines of the slice in italics, drops and zero constants, stand in"
            yield " for what was cut above them.</p>\n"
        else:
            yield '<p class="refusal">The two listings could not be set side by side: which lines are the same isn\'t shown.</p>\n'
    if view.side.offsets is None:
        yield '<p class="refusal">The code has an instruction that this script doesn\'t read, so no offsets are shown.</p>\n'
    else:
        yield '<p class="source">Offsets are those of <code>wasm-objdump -d</code>, in each file; they are no answer of the program.</p>\n'


def pairs_of(view: View) -> list[Pair] | None:
    """The function's lines and the slice's, side by side; none where there is no slice, or the two don't fit together."""
    sliced = view.sliced
    if sliced.side is None or sliced.criterion is None or view.kept_nodes is None:
        return None
    return aligned(view.side.placed, sliced.side.placed, view.kept_nodes, view.criterion, sliced.criterion)


def _rows(view: View, pairs: list[Pair] | None, reasons: dict[str, list[Reason]]) -> Iterator[str]:
    right = view.sliced.side
    shown = pairs
    if shown is None:
        shown = [Pair(one, other) for one, other in zip_longest(view.side.placed, right.placed if right is not None else [])]
    left_index = right_index = 0
    for pair in shown:
        cells = "<td></td>" * 6
        if pair.left is not None:
            cells = _left_cells(view, pair.left, view.side.offset_of(left_index), reasons)
            left_index += 1
        if pair.right is not None and right is not None:
            cells += _right_cells(view, pair, pair.right.line, right.offset_of(right_index), pairs is not None)
            right_index += 1
        elif right is not None:
            cells += '<td class="slice"></td><td></td><td></td><td></td>'
        name = f' id="p{pair.left.line.position}"' if pair.left is not None and pair.left.is_position else ""
        yield f'<tr class="{_kind_of(view, pair)}"{name}>{cells}</tr>\n'


def _kind_of(view: View, pair: Pair) -> str:
    """How a line is set: the criterion, kept with what stays around it, or cut; all alike where the program told no kept set."""
    if pair.left is not None and pair.left.line.position == view.criterion:
        return "kept criterion"
    if view.kept_nodes is None or pair.left is None:
        return "plain"
    return "kept" if is_kept(view, pair) else "cut"


def is_kept(view: View, pair: Pair) -> bool:
    """Whether a line of the function stays, as what is kept or around it."""
    return pair.is_same or (pair.left is not None and _node_of(pair.left) in (view.kept_nodes or ()))


def _node_of(one: Placed) -> str:
    """The node of a line: a position, or the end of a block; an `else` and the body's end have none."""
    if one.is_position:
        return str(one.line.position)
    return f"j{one.closes}" if one.line.instruction == "end" and one.closes is not None else ""


def mark_of(view: View, one: Placed) -> str:
    """A sign and a word for a line of the function; nothing where it is cut."""
    if one.line.position == view.criterion:
        return "▶ criterion"
    node = _node_of(one)
    if view.kept_nodes is not None and node in view.kept_nodes:
        return "● kept" if one.is_position else f"○ {node}"
    return "dead" if one.line.is_dead else ""


def _link(node: str) -> str:
    """A link to a node's line: the end of a block is found at its beginning."""
    return f'<a href="#p{node.removeprefix("j")}">{node}</a>'


def _links(nodes: tuple[str, ...]) -> str:
    more = f" and {len(nodes) - MOST_NODES} more" if len(nodes) > MOST_NODES else ""
    return ", ".join(_link(node) for node in nodes[:MOST_NODES]) + more


def _position(line: ListingLine) -> str:
    return "" if line.position is None else str(line.position)


def _left_cells(view: View, one: Placed, offset: str, reasons: dict[str, list[Reason]]) -> str:
    line = one.line
    why = "; ".join(f"{escaped(reason.why)} {_links(reason.nodes)}".rstrip() for reason in reasons.get(_node_of(one), []))
    place = cell(mark_of(view, one), "mark") + cell(_position(line), "number") + cell(offset, "number soft")
    text = cell("  " * line.depth + escaped(instruction_with_name(view.naming, view.function, line)), "code")
    return place + text + cell(" ".join(_link(maker) for maker in line.makers), "code") + cell(why, "why")


def _right_cells(view: View, pair: Pair, line: ListingLine, offset: str, is_aligned: bool) -> str:
    kind = "code stand-in" if is_aligned and not pair.is_same else "code"
    # The slice has the function's own locals, so they have the same names.
    text = "  " * line.depth + escaped(instruction_with_name(view.naming, view.function, line))
    return cell(_position(line), "slice number") + cell(offset, "number soft") + cell(text, kind) + cell(" ".join(line.makers), kind)


def _runs(view: View) -> Iterator[str]:
    if view.runs is None:
        return
    yield "<h2>Runs</h2>\n"
    if view.sliced.runs is not None:
        yield "<p>Where the function returns, the slice returns within no more turns, and the instruction takes and leaves the same values in order."
        yield " The slice's own result may differ.</p>\n"
    for one, other in zip_longest(view.runs, view.sliced.runs or []):
        yield sources((one.answer, "module"), *([(other.answer, SLICED_MODULE)] if other is not None else []))
        yield from _run_table(one.as_run, None if other is None else other.as_run, other is not None)


def _run_table(left: Run | None, right: Run | None, has_slice: bool) -> Iterator[str]:
    if left is None and right is None:
        return
    yield "<table>" + table_head(("what", ""), ("the function", ""), *([("its slice", ""), ("both", "")] if has_slice else []))
    events = list(zip_longest(left.events if left else [], right.events if right else []))
    for number, (one, other) in enumerate(events[:MOST_EVENTS], 1):
        yield _run_row(f"event {number}", _event_text(one), _event_text(other), has_slice)
    if len(events) > MOST_EVENTS:
        rest = events[MOST_EVENTS:]
        yield _run_row(f"{len(rest)} more events", "", "" if all(one == other for one, other in rest) else "some differ", has_slice)
    yield _run_row("outcome", left.outcome if left else "", right.outcome if right else "", has_slice)
    yield _run_row("turns", _turns(left), _turns(right), has_slice)
    yield "</tbody></table>\n"


def _event_text(event: Event | None) -> str:
    return "" if event is None else event.text()


def _turns(run: Run | None) -> str:
    return "" if run is None or run.turns is None else str(run.turns)


def _run_row(what: str, left: str, right: str, has_slice: bool) -> str:
    cells = [cell(what), cell(escaped(left), "code")]
    if has_slice:
        both = "alike" if left == right else "differ"
        cells += [cell(escaped(right), "code"), cell(both, both)]
    return f"<tr>{''.join(cells)}</tr>\n"


def _asked(view: View) -> Iterator[str]:
    yield "<h2>What was asked</h2>\n<p>Every answer on this page is the proved program's, to one of these commands. The sliced module is what"
    yield " <code>slice</code> wrote.</p>\n"
    yield "<table>" + table_head(("command", ""), ("status", "number"), ("line on standard error", ""))
    of_module = [view.listing, view.kept, view.sliced.answer, *(view.runs or [])]
    of_slice = [*([view.sliced.listing] if view.sliced.listing is not None else []), *(view.sliced.runs or [])]
    for module, all_asked in ((view.module, of_module), (SLICED_MODULE, of_slice)):
        for answer in (one.answer for one in all_asked):
            command = cell(escaped(command_of(answer, module)), "code")
            yield f"<tr>{command}{cell(str(answer.status), 'number')}{cell(escaped(answer.line), 'code')}</tr>\n"
    yield "</tbody></table>\n"
