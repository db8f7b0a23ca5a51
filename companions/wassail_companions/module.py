"""Reads what a module says about itself: types, imports, functions, globals, exports, and where each body stands in the file.

It reads, and decides nothing: whether a module is valid, and what its code does, only the program says."""
from __future__ import annotations

from dataclasses import dataclass, field

MAGIC = b"\0asm\x01\0\0\0"
CUSTOM, TYPE, IMPORT, FUNCTION, GLOBAL, EXPORT, CODE = 0, 1, 2, 3, 6, 7, 10
KINDS = ("function", "table", "memory", "global")
VALUE_TYPES = {0x7F: "i32", 0x7E: "i64", 0x7D: "f32", 0x7C: "f64"}


class Malformed(Exception):
    """The bytes don't read as what should stand there."""


class Reader:
    """Reads a part of the bytes from front to end, and raises `Malformed` at its end."""

    def __init__(self, data: bytes, at: int = 0, end: int | None = None) -> None:
        self.data = data
        self.at = at
        self.end = len(data) if end is None else end

    def is_done(self) -> bool:
        return self.at >= self.end

    def byte(self) -> int:
        if self.at >= self.end:
            raise Malformed(f"ends at offset {self.at:#x}, where more is due")
        self.at += 1
        return self.data[self.at - 1]

    def number(self) -> int:
        """An unsigned number of at most 32 bits."""
        value = shift = 0
        while True:
            byte = self.byte()
            value |= (byte & 127) << shift
            if byte < 128:
                break
            shift += 7
            if shift > 28:
                raise Malformed(f"a number at offset {self.at:#x} is too long")
        if value >> 32:
            raise Malformed(f"a number at offset {self.at:#x} is too large")
        return value

    def part(self, size: int) -> Reader:
        """So many bytes, to be read on their own."""
        if size > self.end - self.at:
            raise Malformed(f"{size} bytes are due at offset {self.at:#x}, and {self.end - self.at} are left")
        self.at += size
        return Reader(self.data, self.at - size, self.at)

    def sized(self) -> Reader:
        return self.part(self.number())

    def rest(self) -> bytes:
        begin, self.at = self.at, self.end
        return self.data[begin : self.end]

    def name(self) -> str:
        """A name. Bytes that aren't UTF-8 are shown as escapes: such a module is refused by the program, and can still be looked at."""
        return self.sized().rest().decode("utf-8", "backslashreplace")


@dataclass(frozen=True)
class FunctionType:
    parameters: tuple[str, ...]
    results: tuple[str, ...]

    def __str__(self) -> str:
        return f"({' '.join(self.parameters)}) -> {' '.join(self.results) or '()'}"


@dataclass(frozen=True)
class Body:
    """Where a body stands in the file: its first byte, its first instruction, and the byte behind it."""

    start: int
    code: int
    end: int


@dataclass(frozen=True)
class Function:
    number: int
    type: FunctionType
    imported: tuple[str, str] | None = None
    body: Body | None = None


@dataclass(frozen=True)
class Export:
    name: str
    kind: str
    number: int


@dataclass(frozen=True)
class Module:
    """What a module says about itself. `names` is the contents of its first `name` section, if it has one."""

    data: bytes = field(repr=False)
    functions: list[Function]
    imported_globals: list[tuple[str, str]]
    exports: list[Export]
    names: bytes | None = field(repr=False)


def read_module(data: bytes) -> Module:
    """Raises `Malformed` where the bytes don't read as a module."""
    if data[: len(MAGIC)] != MAGIC:
        raise Malformed("no module header")
    reader = Reader(data, len(MAGIC))
    types: list[FunctionType] = []
    imported: list[tuple[int, str, str]] = []
    imported_globals: list[tuple[str, str]] = []
    type_numbers: list[int] = []
    exports: list[Export] = []
    bodies: list[Body] = []
    names = None
    while not reader.is_done():
        section = reader.byte()
        contents = reader.sized()
        if section == CUSTOM:
            if contents.name() == "name" and names is None:
                names = contents.rest()
        elif section == TYPE:
            types = [_function_type(contents) for _ in range(contents.number())]
        elif section == IMPORT:
            for _ in range(contents.number()):
                _import(contents, imported, imported_globals)
        elif section == FUNCTION:
            type_numbers = [contents.number() for _ in range(contents.number())]
        elif section == EXPORT:
            exports = [_export(contents) for _ in range(contents.number())]
        elif section == CODE:
            bodies = [_body(contents.sized()) for _ in range(contents.number())]
    if len(type_numbers) != len(bodies):
        raise Malformed("function and code sections differ in count")
    functions = [Function(number, _type_of(types, kind), (module, name)) for number, (kind, module, name) in enumerate(imported)]
    for kind, body in zip(type_numbers, bodies):
        functions.append(Function(len(functions), _type_of(types, kind), None, body))
    return Module(data, functions, imported_globals, exports, names)


def _type_of(types: list[FunctionType], number: int) -> FunctionType:
    if number >= len(types):
        raise Malformed(f"there is no type {number}")
    return types[number]


def _value_type(reader: Reader) -> str:
    byte = reader.byte()
    return VALUE_TYPES.get(byte, f"{byte:#04x}")


def _function_type(reader: Reader) -> FunctionType:
    if reader.byte() != 0x60:
        raise Malformed("a type is no function type")
    parameters = tuple(_value_type(reader) for _ in range(reader.number()))
    return FunctionType(parameters, tuple(_value_type(reader) for _ in range(reader.number())))


def _skip_limits(reader: Reader) -> None:
    has_most = reader.byte() & 1
    reader.number()
    if has_most:
        reader.number()


def _import(reader: Reader, functions: list[tuple[int, str, str]], globals_: list[tuple[str, str]]) -> None:
    module, name = reader.name(), reader.name()
    kind = _kind(reader)
    if kind == "function":
        functions.append((reader.number(), module, name))
    elif kind == "table":
        reader.byte()
        _skip_limits(reader)
    elif kind == "memory":
        _skip_limits(reader)
    else:
        reader.byte()
        reader.byte()
        globals_.append((module, name))


def _export(reader: Reader) -> Export:
    name = reader.name()
    kind = _kind(reader)
    return Export(name, kind, reader.number())


def _kind(reader: Reader) -> str:
    kind = reader.byte()
    if kind >= len(KINDS):
        raise Malformed(f"no kind has the byte {kind:#04x}")
    return KINDS[kind]


def _body(reader: Reader) -> Body:
    start = reader.at
    for _ in range(reader.number()):
        reader.number()
        reader.byte()
    return Body(start, reader.at, reader.end)
