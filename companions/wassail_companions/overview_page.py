"""The page of a whole module: sizes, calls by groups, and what the outputs of each function depend on."""
from __future__ import annotations

from collections.abc import Iterable, Iterator
from dataclasses import dataclass

from .answers import Row, Summary
from .call_graph import Group, Picture
from .code import Code
from .module import Module
from .named_texts import beside, name_of_variable
from .naming import Naming, shortened
from .page import cell, escaped, frame, sources, table_head
from .program import Answer

NAME_WIDTH, LARGEST, BAR = 90, 15, 160

@dataclass(frozen=True)
class Overview:
    """All that the page shows. `codes` has none for an imported function, and for one whose code doesn't read."""

    title: str
    module: Module
    naming: Naming
    check: Answer
    summary: Answer
    rows: Summary | None
    codes: list[Code | None]
    groups: list[Group]
    picture: Picture


def overview_page(overview: Overview) -> str:
    return frame(f"Overview of {overview.title}", "overview", [*_head(overview), *_largest(overview), *_graph(overview), *_functions(overview)])


def _head(overview: Overview) -> Iterator[str]:
    functions = overview.module.functions
    imported = sum(function.body is None for function in functions)
    yield '<a class="skip" href="#functions">To the functions</a>\n'
    yield f"<header><h1>Overview of {escaped(overview.title)}</h1>\n"
    yield f'<p class="soft">{len(overview.module.data)} bytes, {len(functions)} functions, {imported} of them imported.</p>\n'
    yield sources((overview.check, "module"))
    if overview.check.status == 0:
        yield "<p>The module is valid, says the program.</p>\n"
    yield from (f'<p class="refusal">{escaped(problem)}</p>\n' for problem in overview.naming.problems)
    yield "</header>\n"


def _size(overview: Overview, number: int) -> int:
    body = overview.module.functions[number].body
    return 0 if body is None else body.end - body.start


def _function_link(overview: Overview, number: int) -> str:
    return f'<a href="#f{number}">{escaped(shortened(overview.naming.titled(number), NAME_WIDTH))}</a>'


def _largest(overview: Overview) -> Iterator[str]:
    numbers = sorted(range(len(overview.module.functions)), key=lambda number: (-_size(overview, number), number))[:LARGEST]
    most = max((_size(overview, number) for number in numbers), default=0)
    total = sum(_size(overview, number) for number in range(len(overview.module.functions)))
    yield f'<main>\n<h2>Sizes</h2>\n<p class="source">Read from the file: the bytes of all bodies are {total}, and these functions have the most.</p>\n'
    yield "<table>" + table_head(("function", ""), ("bytes", "number"), ("share", ""))
    for number in numbers:
        size = _size(overview, number)
        if size > 0:
            width = max(1, size * BAR // most)
            share = f'<span class="bar" style="width:{width}px"></span> {100 * size / total:.1f} %'
            yield f"<tr>{cell(_function_link(overview, number), 'name')}{cell(str(size), 'number')}{cell(share)}</tr>\n"
    yield "</tbody></table>\n"


def _graph(overview: Overview) -> Iterator[str]:
    yield "<h2>Calls, by groups of mutual recursion</h2>\n"
    yield '<p class="source">Read from the file: each <code>call</code> as it stands in the code, in code that no run reaches too.'
    yield " Calls through the table aren't drawn.</p>\n"
    yield f"<p>{escaped(overview.picture.note)}"
    if overview.picture.svg is not None:
        yield " A double frame has a group of more than one function, a thick one a function that calls itself."
    yield "</p>\n"
    if overview.picture.svg is not None:
        yield f'<div class="graph" tabindex="0" role="group" aria-label="Calls between groups of functions">{overview.picture.svg}</div>\n'
    recursive = [group for group in overview.groups if group.calls_itself]
    if not recursive:
        yield "<p>No function reaches itself by such calls.</p>\n"
        return
    yield "<p>One group reaches itself" if len(recursive) == 1 else f"<p>{len(recursive)} groups reach themselves"
    yield " by calls:</p>\n"
    yield "<table>" + table_head(("group", "number"), ("functions", "number"), ("members", ""))
    for group in sorted(recursive, key=lambda group: (-len(group.members), group.number)):
        members = ", ".join(_function_link(overview, member) for member in group.members)
        numbers = cell(str(group.number), "number") + cell(str(len(group.members)), "number")
        yield f'<tr id="g{group.number}">{numbers}{cell(members, "name")}</tr>\n'
    yield "</tbody></table>\n"


def _functions(overview: Overview) -> Iterator[str]:
    rows = _rows_by_function(overview.rows)
    called_by = _called_by(overview.codes)
    yield "<h2>Functions</h2>\n"
    yield sources((overview.summary, "module"))
    if overview.rows is not None:
        yield "<p>Each line names an output, and the inputs that it depends on at most: parameters <code>p</code>, globals <code>g</code>, the memory's"
        yield " bytes <code>mem</code>, its <code>size</code>, and the <code>host</code>. In runs that return, an input that a line leaves out has no"
        yield " influence on its output. <code>done</code> is that the function returns: where starts differ only in what its line leaves out, and one run"
        yield " returns, the other does.</p>\n"
    yield '<p class="source">Numbers, names, types, bytes, positions and calls are read from the file.</p>\n'
    yield '<p class="controls"><label for="filter">Filter by name or number:</label> <input type="search" id="filter"> '
    yield '<span id="told" role="status" class="soft"></span> '
    yield '<button type="button" id="open">open all shown</button> <button type="button" id="close">close all</button></p>\n'
    columns = [(head, "" if head == "names" else "number") for head in ("number", "names", "bytes", "positions", "calls", "called by")]
    # Links and no buttons, since a head of buttons isn't repeated on the pages of a printed table.
    sorted_by = [(f'<a href="#functions" role="button">{head}</a>', kind) for head, kind in columns]
    yield '<table id="functions">\n' + table_head(*sorted_by, ("more" if overview.rows is None else "what depends on what", ""))
    for number in range(len(overview.module.functions)):
        yield _function_row(overview, number, called_by[number], rows.get(number, []))
    yield "</tbody></table>\n</main>\n"


def _rows_by_function(summary: Summary | None) -> dict[int, list[Row]]:
    rows: dict[int, list[Row]] = {}
    for row in summary.rows if summary is not None else []:
        rows.setdefault(row.function, []).append(row)
    return rows


def _called_by(codes: list[Code | None]) -> list[list[int]]:
    callers: list[list[int]] = [[] for _ in codes]
    for caller, code in enumerate(codes):
        for called in code.calls if code is not None else ():
            if called < len(callers):
                callers[called].append(caller)
    return callers


def _function_row(overview: Overview, number: int, callers: list[int], rows: list[Row]) -> str:
    function, code = overview.module.functions[number], overview.codes[number]
    names = ", ".join(dict.fromkeys(name for name, _ in overview.naming.names_of(number)))
    cut = shortened(names, NAME_WIDTH)
    title = f' title="{escaped(names)}"' if cut != names else ""
    size = "import" if function.body is None else str(_size(overview, number))
    positions = "" if function.body is None else "?" if code is None else str(code.positions)
    calls = code.calls if code is not None else ()
    counts = "".join(cell(str(one), "number") for one in (size, positions, len(calls) or "", len(callers) or ""))
    name = f'<td class="name"{title}>{escaped(cut)}</td>'
    return f'<tr id="f{number}">{cell(str(number), "number")}{name}{counts}{cell(_details(overview, number, callers, rows))}</tr>\n'


def _details(overview: Overview, number: int, callers: list[int], rows: list[Row]) -> str:
    """One text for each function, since a page with an element for each line opens slowly. The script makes links of numbers when it is opened."""
    code = overview.codes[number]
    lines = [_row_line(overview.naming, row) for row in rows if row.inputs != (row.output,)]
    alone = [row.output for row in rows if row.inputs == (row.output,)]
    if alone:
        named = ", ".join(escaped(beside(word, name_of_variable(overview.naming, number, word))) for word in alone)
        lines.append(f"only on itself each: {named}")
    kind = escaped(overview.module.functions[number].type)
    if rows:
        lines.append(f"type {kind}")
    if code is not None and code.calls:
        lines.append(f"calls {_numbers(code.calls)}")
    if code is not None and code.calls_through_table:
        lines.append(f"calls through the table: {code.calls_through_table}")
    if callers:
        lines.append(f"called by {_numbers(callers)}")
    what = kind if not rows else "1 output" if len(rows) == 1 else f"{len(rows)} outputs"
    newline = "\n"
    return f"<details><summary>{what}</summary><pre>{newline.join(lines)}</pre></details>" if lines else what


def _row_line(naming: Naming, row: Row) -> str:
    inputs = ", ".join(escaped(beside(word, name_of_variable(naming, row.function, word))) for word in row.inputs) or "nothing"
    return f"{escaped(beside(row.output, name_of_variable(naming, row.function, row.output)))} ← {inputs}"


def _numbers(numbers: Iterable[int]) -> str:
    return f"<i>{' '.join(map(str, numbers))}</i>"
