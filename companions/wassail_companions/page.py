"""The frame of a page: one file that takes nothing from elsewhere, calm to read, and as good in black and white, by keyboard and on paper."""
from __future__ import annotations

import base64
import hashlib
import html
import shlex
from collections.abc import Iterable
from pathlib import Path

from .naming import printable
from .program import Answer

ASSETS = Path(__file__).resolve().parent / "assets"


def escaped(text: object) -> str:
    """Text for a page, attributes included."""
    return html.escape(printable(str(text)), quote=True)


def frame(title: str, kind: str, body: Iterable[str]) -> str:
    """A whole page, with the style and script of its kind. Its policy lets nothing be loaded, and no other script run than the page's own."""
    style = (ASSETS / "page.css").read_text(encoding="utf-8") + (ASSETS / f"{kind}.css").read_text(encoding="utf-8")
    script = (ASSETS / f"{kind}.js").read_text(encoding="utf-8")
    digest = base64.b64encode(hashlib.sha256(script.encode("utf-8")).digest()).decode("ascii")
    policy = f"default-src 'none'; style-src 'unsafe-inline'; script-src 'sha256-{digest}'"
    return "".join(
        [
            '<!DOCTYPE html>\n<html lang="en">\n<head>\n<meta charset="utf-8">\n',
            f'<meta http-equiv="Content-Security-Policy" content="{policy}">\n',
            '<meta name="viewport" content="width=device-width, initial-scale=1">\n',
            f"<title>{escaped(title)}</title>\n<style>\n{style}</style>\n</head>\n<body>\n",
            *body,
            f"<script>{script}</script>\n</body>\n</html>\n",
        ]
    )


def cell(contents: str, kind: str = "") -> str:
    """A cell of a table: its contents are HTML already."""
    return f'<td class="{kind}">{contents}</td>' if kind else f"<td>{contents}</td>"


def table_head(*columns: tuple[str, str]) -> str:
    """A table's beginning, to where its rows stand: each column's head and class."""
    heads = "".join(f'<th scope="col" class="{kind}">{head}</th>' if kind else f'<th scope="col">{head}</th>' for head, kind in columns)
    return f"<thead><tr>{heads}</tr></thead>\n<tbody>\n"


def command_of(answer: Answer, module: str = "module") -> str:
    return f"wassail {printable(shlex.join(answer.words))} < {printable(shlex.quote(module))}"


def sources(*answers: tuple[Answer, str]) -> str:
    """The line that says which answers of the program, about which module each, are shown; and for those that it gave none, what it said instead."""
    given = [f"<code>{escaped(command_of(answer, module))}</code> (status {answer.status})" for answer, module in answers if answer.has_answer]
    lines = [f'<p class="source">{"Answer" if len(given) == 1 else "Answers"} of {", ".join(given)}.</p>\n'] if given else []
    for answer, module in answers:
        if not answer.has_answer:
            said = answer.line or f"status {answer.status}, and no line"
            command = escaped(command_of(answer, module))
            lines.append(f'<p class="refusal">The program gives no answer to <code>{command}</code>: <code>{escaped(said)}</code></p>\n')
    return "".join(lines)
