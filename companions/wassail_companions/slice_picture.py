"""A picture of one slice: the lines of the page without its links, offsets and reasons, for a text that can show a picture and no page."""
from __future__ import annotations

from collections.abc import Iterator

from .answers import ListingLine
from .named_texts import instruction_with_name
from .page import escaped
from .view_page import View, is_kept, mark_of, pairs_of

# A letter of the font is some 0.6 of its size wide.
SIZE, LETTER, LINE, MARGIN = 12, 7.25, 17, 12
STRONG, SOFT, SHADE = "#1c1c1a", "#85857f", "#ecebe2"


def slice_picture(view: View) -> str | None:
    """An SVG that needs nothing else; none where there is no slice, or its lines don't fit beside the function's."""
    pairs, slice_side = pairs_of(view), view.sliced.side
    if pairs is None or slice_side is None:
        return None
    digits = len(str(max(view.side.listing.positions, slice_side.listing.positions))) + 1
    left = 3 + digits
    widest = max(_width(view, one.line) for one in view.side.placed)
    right = left + widest + 4 + digits
    width = MARGIN * 2 + LETTER * (right + max(_width(view, one.line) for one in slice_side.placed))
    height = MARGIN * 2 + LINE * (len(pairs) + 2)
    title = f"Function {view.naming.titled(view.function)}, what is kept for position {view.criterion}, and its slice"
    return "".join(
        [
            f'<svg xmlns="http://www.w3.org/2000/svg" width="{width:.0f}" height="{height}" viewBox="0 0 {width:.0f} {height}" role="img" ',
            f'font-family="ui-monospace, Menlo, Consolas, \'DejaVu Sans Mono\', monospace" font-size="{SIZE}">\n',
            f'<title>{escaped(title)}</title>\n<rect width="100%" height="100%" fill="#fff"/>\n',
            _text(left, 0, f"function {view.naming.titled(view.function)}", STRONG),
            _text(right, 0, "its slice", STRONG),
            *_lines(view, left, right),
            "</svg>\n",
        ]
    )


def _lines(view: View, left: int, right: int) -> Iterator[str]:
    for row, pair in enumerate(pairs_of(view) or [], 2):
        if pair.left is not None:
            colour = STRONG if is_kept(view, pair) else SOFT
            if pair.left.line.position == view.criterion:
                yield f'<rect y="{MARGIN + LINE * row + 1}" width="100%" height="{LINE}" fill="{SHADE}"/>\n'
            yield _text(0, row, mark_of(view, pair.left)[:1], STRONG)
            yield from _line(view, left, row, pair.left.line, colour)
        if pair.right is not None:
            yield from _line(view, right, row, pair.right.line, STRONG, "" if pair.is_same else ' font-style="italic"')


def _line(view: View, column: int, row: int, line: ListingLine, colour: str, more: str = "") -> Iterator[str]:
    if line.position is not None:
        yield _text(column - 1, row, str(line.position), colour, ' text-anchor="end"')
    yield _text(column + 2 * line.depth, row, _words(view, line), colour, more)


def _words(view: View, line: ListingLine) -> str:
    return " ".join([instruction_with_name(view.naming, view.function, line), *(["<-", *line.makers] if line.makers else [])])


def _width(view: View, line: ListingLine) -> int:
    return 2 * line.depth + len(_words(view, line))


def _text(column: int, row: int, text: str, colour: str, more: str = "") -> str:
    """A text whose first letter, or the end of whose last one, stands at the column."""
    return f'<text x="{MARGIN + LETTER * column:.1f}" y="{MARGIN + LINE * row + SIZE}" fill="{colour}"{more}>{escaped(text)}</text>\n' if text else ""
