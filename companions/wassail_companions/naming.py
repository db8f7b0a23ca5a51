"""The names that a module has for its functions, globals and locals, and the function that a word means."""
from __future__ import annotations

import difflib
from dataclasses import dataclass, field

from .command_line import Complaint
from .module import Module
from .name_section import NameSection, read_names

NEAREST = 4


def printable(text: str) -> str:
    """The text with an escape for each character that would move the cursor, change the direction of writing or show nothing."""
    return "".join(c if c.isprintable() else f"\\u{{{ord(c):x}}}" for c in text)


def shortened(text: str, width: int) -> str:
    return text if len(text) <= width else text[: width - 1] + "…"


@dataclass(frozen=True)
class Found:
    """The number of the function that a word means, and a line to say where the word could mean another one."""

    number: int
    note: str | None = None


@dataclass
class Naming:
    """Names by number. A function's names stand in the order name section, exports, import, each with where it comes from."""

    functions: list[list[tuple[str, str]]]
    globals: dict[int, str]
    locals: dict[int, dict[int, str]]
    problems: list[str] = field(default_factory=list)

    def names_of(self, number: int) -> list[tuple[str, str]]:
        """A function's names with where they come from; none of a function that isn't there."""
        return self.functions[number] if number < len(self.functions) else []

    def function(self, number: int) -> str | None:
        """The name that stands beside the number."""
        names = self.names_of(number)
        return names[0][0] if names else None

    def global_(self, number: int) -> str | None:
        return self.globals.get(number)

    def local(self, function: int, number: int) -> str | None:
        return self.locals.get(function, {}).get(number)

    def titled(self, number: int) -> str:
        """The number with its name, as people read it."""
        name = self.function(number)
        return f"{number}" if name is None else f"{number} {printable(name)}"

    def find(self, word: str) -> Found:
        """The function that a word means: digits are its number, anything else is one of its names, whole. A name that stands beside a number in what
        the companions print goes before another one, since compilers export a function by the name of the one that it wraps. Complains where no
        function has the name, or more than one."""
        if word.isascii() and word.isdigit():
            return Found(int(word))
        shown = [number for number, names in enumerate(self.functions) if names and names[0][0] == word]
        found = [number for number, names in enumerate(self.functions) if any(word == name for name, _ in names)]
        if len(shown) == 1:
            others = [number for number in found if number != shown[0]]
            return Found(shown[0], f"'{printable(word)}' is function {shown[0]}; it is a name also of {self._each(others, word)}" if others else None)
        if len(found) == 1:
            return Found(found[0])
        if found:
            raise Complaint(2, f"more than one function is named '{printable(word)}': {self._each(found, word)}; take a number")
        raise Complaint(2, f"no function is named '{printable(word)}'{self._nearest(word)}")

    def _each(self, numbers: list[int], word: str) -> str:
        """The first few of these functions, with where they have the name from."""
        each = [f"{number} ({', '.join(dict.fromkeys(origin for name, origin in self.functions[number] if name == word))})" for number in numbers[:NEAREST]]
        more = f" and {len(numbers) - NEAREST} more" if len(numbers) > NEAREST else ""
        return ", ".join(each) + more

    def _nearest(self, word: str) -> str:
        numbers: dict[str, int] = {}
        for number, names in enumerate(self.functions):
            for name, _ in names:
                numbers.setdefault(name, number)
        near = difflib.get_close_matches(word, numbers, NEAREST)
        near += [name for name in numbers if word.lower() in name.lower() and name not in near]
        if not near:
            return "; no name is near it" if numbers else "; the module has no names of functions"
        return "; the nearest names: " + ", ".join(f"{shortened(printable(name), 60)} ({numbers[name]})" for name in near[:NEAREST])

    def matching(self, text: str) -> list[int]:
        """The functions one of whose names holds the text, capital or not."""
        wanted = text.lower()
        return [number for number, names in enumerate(self.functions) if any(wanted in name.lower() for name, _ in names)]


def naming_of(module: Module) -> Naming:
    section = read_names(module.names)
    globals_ = {number: f"{source}.{name}" for number, (source, name) in enumerate(module.imported_globals)}
    names: list[list[tuple[str, str]]] = [[] for _ in module.functions]
    for number, name in section.functions.items():
        if number < len(names):
            names[number].append((name, "name"))
    for export in module.exports:
        if export.kind == "function" and export.number < len(names):
            names[export.number].append((export.name, "export"))
        elif export.kind == "global":
            globals_[export.number] = export.name
    for function in module.functions:
        if function.imported is not None:
            source, name = function.imported
            names[function.number] += [(f"{source}.{name}", "import"), (name, "import")]
    return Naming(names, globals_ | section.globals, section.locals, _problems(section, len(names)))


def _problems(section: NameSection, functions: int) -> list[str]:
    problems = [f"name section: {problem}" for problem in section.problems]
    beyond = sum(number >= functions for number in section.functions)
    if beyond:
        problems.append(f"name section: {beyond} names are of functions that aren't there")
    return problems
