"""The program's answers with names beside their numbers, as text and as JSON."""
from __future__ import annotations

from collections.abc import Iterator
from typing import Any

from .answers import Event, Kept, Listing, ListingLine, Row, Run, Summary, Value
from .naming import Naming, printable


def name_of_variable(naming: Naming, function: int, word: str) -> str | None:
    """The name of a parameter or global that a row calls `pN` or `gN`; none for `mem` and the like, and where there is no name."""
    kind, number = word[:1], word[1:]
    if not number.isdigit():
        return None
    return {"p": naming.local(function, int(number)), "g": naming.global_(int(number))}.get(kind)


def name_of_immediate(naming: Naming, function: int, line: ListingLine) -> str | None:
    """The name of what an instruction names by number: a function, a local or a global."""
    number = line.immediates[0] if line.immediates else ""
    if not number.isdigit():
        return None
    if line.operation == "call":
        return naming.function(int(number))
    if line.operation.startswith("local."):
        return naming.local(function, int(number))
    if line.operation.startswith("global."):
        return naming.global_(int(number))
    return None


def beside(text: str, name: str | None) -> str:
    return text if name is None else f"{text} ({printable(name)})"


def instruction_with_name(naming: Naming, function: int, line: ListingLine) -> str:
    name = name_of_immediate(naming, function, line)
    if name is None:
        return line.instruction
    return f"{line.instruction} {printable(name)}" if line.operation == "call" else beside(line.instruction, name)


def row_text(naming: Naming, row: Row) -> str:
    inputs = [beside(word, name_of_variable(naming, row.function, word)) for word in row.inputs]
    return " ".join([f"f {naming.titled(row.function)} {beside(row.output, name_of_variable(naming, row.function, row.output))} <-", *inputs])


def listing_line_text(naming: Naming, function: int, line: ListingLine) -> str:
    return ListingLine(line.position, line.depth, instruction_with_name(naming, function, line), line.makers, line.is_dead).text()


def named_lines(naming: Naming, function: int | None, value: Value) -> Iterator[str]:
    """The lines of an answer; the function is the one that was asked about."""
    if isinstance(value, Summary):
        yield from (row_text(naming, row) for row in value.rows)
    elif isinstance(value, Listing) and function is not None:
        yield from (listing_line_text(naming, function, line) for line in value.lines)
    else:
        yield from value.text().splitlines()


def _with_name(value: dict[str, Any], name: str | None) -> dict[str, Any]:
    return value if name is None else value | {"name": name}


def to_json(naming: Naming, function: int | None, value: Value) -> dict[str, Any]:
    """The answer with names. Values of a run are decimal texts, since many readers of JSON round whole numbers over 2^53."""
    if isinstance(value, Summary):
        return {"rows": [_row_to_json(naming, row) for row in value.rows]}
    if isinstance(value, Listing):
        return {"lines": [_line_to_json(naming, function, line) for line in value.lines]}
    if isinstance(value, Kept):
        return {"nodes": value.nodes}
    events = [{"kind": event.kind, "values": [str(one) for one in event.values]} for event in value.events]
    return {"events": events, "outcome": value.outcome, "turns": value.turns}


def _row_to_json(naming: Naming, row: Row) -> dict[str, Any]:
    inputs = [_with_name({"input": word}, name_of_variable(naming, row.function, word)) for word in row.inputs]
    output = _with_name({"output": row.output}, name_of_variable(naming, row.function, row.output))
    return {"function": _with_name({"number": row.function}, naming.function(row.function)), "output": output, "inputs": inputs}


def _line_to_json(naming: Naming, function: int | None, line: ListingLine) -> dict[str, Any]:
    value = {"position": line.position, "depth": line.depth, "instruction": line.instruction, "operands": list(line.makers), "dead": line.is_dead}
    return _with_name(value, None if function is None else name_of_immediate(naming, function, line))


def from_json(value: dict[str, Any]) -> Value:
    """The answer that `to_json` wrote, without the names."""
    if "rows" in value:
        return Summary(
            [Row(row["function"]["number"], row["output"]["output"], tuple(one["input"] for one in row["inputs"])) for row in value["rows"]]
        )
    if "lines" in value:
        return Listing(
            [ListingLine(line["position"], line["depth"], line["instruction"], tuple(line["operands"]), line["dead"]) for line in value["lines"]]
        )
    if "nodes" in value:
        return Kept(value["nodes"])
    events = [Event(event["kind"], tuple(int(one) for one in event["values"])) for event in value["events"]]
    return Run(value["outcome"], value["turns"], events)
