"""Small modules to test with, written byte by byte with the writers of bench/modules.py."""
import sys
from pathlib import Path

REPOSITORY = Path(__file__).resolve().parents[2]
sys.path.insert(0, str(REPOSITORY / "bench"))
import modules as bench  # noqa: E402

I32, I64 = b"\x7f", b"\x7e"


def text(name):
    """A name, of a text or of bytes that needn't be UTF-8."""
    return bench.sized(name.encode() if isinstance(name, str) else name)


def function_type(parameters, results):
    return b"\x60" + bench.counted([I32] * parameters) + bench.counted([I32] * results)


def body(code, locals_=0):
    """A body's bytes, with so many locals of i32."""
    return bench.counted([bench.number(locals_) + I32] if locals_ else []) + bytes(code) + b"\x0b"


def name_map(names):
    """Pairs of a number and a name."""
    return bench.counted([bench.number(number) + text(name) for number, name in names])


def part(identity, contents):
    return bytes([identity]) + bench.sized(contents)


def name_section(contents):
    return bench.section(0, text("name") + contents)


def module(types, bodies, exports=(), names=None, imports=(), memory=False, globals_=0):
    """Types as pairs of counts, bodies with their type's number, exports of functions as names with numbers, imports as module, name and type. A memory
    is exported."""
    parts = [bench.HEADER, bench.section(1, bench.counted([function_type(*one) for one in types]))]
    if imports:
        parts.append(bench.section(2, bench.counted([text(source) + text(name) + b"\0" + bench.number(kind) for source, name, kind in imports])))
    parts.append(bench.section(3, bench.counted([bench.number(kind) for kind, _ in bodies])))
    if memory:
        parts.append(bench.section(5, bench.counted([b"\0\x01"])))
    if globals_:
        parts.append(bench.section(6, bench.counted([I32 + b"\x01\x41\x00\x0b"] * globals_)))
    exported = [text(name) + b"\0" + bench.number(number) for name, number in exports] + [text("memory") + b"\2\0"] * memory
    if exported:
        parts.append(bench.section(7, bench.counted(exported)))
    parts.append(bench.section(10, bench.counted([bench.sized(one) for _, one in bodies])))
    if names is not None:
        parts.append(name_section(names))
    return b"".join(parts)


# A loop that counts its parameter down and stores a sum on the way, in which the sum and a `nop` aren't needed for the count; local 1 is the sum.
COUNT_DOWN = bytes.fromhex(
    "0240" "0340"  # 0 block, 1 loop
    "2000" "45" "0d01"  # 2 to 4: left where the parameter is 0
    "2001" "2000" "6a" "2101"  # 5 to 8: the sum
    "01"  # 9 nop
    "2000" "4101" "6b" "2100"  # 10 to 13: counted down
    "0c00" "0b" "0b"  # 14
    "2001"  # 15
)
# A kept branch carries a value that isn't needed (1), so a zero constant stands in for it, right before a zero constant that is kept (2).
ZEROS = bytes.fromhex(
    "027f"  # 0 block
    "4107" "4100" "2000" "47" "0d00"  # 1 to 5: a value, carried where 0 isn't the parameter
    "2300" "6a" "0b"  # 6 and 7
)
HOSTILE = '<script>alert("x")</script>'


def countdown():
    names = part(1, name_map([(0, "count")])) + part(2, bench.counted([b"\0" + name_map([(0, "left"), (1, "sum")])]))
    return module([(1, 1)], [(0, body(COUNT_DOWN, 1))], [("count", 0)], names)


def zeros():
    return module([(1, 1)], [(0, body(ZEROS))], [("zeros", 0)], globals_=1)


def hostile():
    """Names that a page and a terminal must not take as they are."""
    bodies = [(0, body(b"\x20\x00")), (0, body(b"\x20\x00\x10\x00"))]
    return module([(1, 1)], bodies, [(HOSTILE, 0), ("line\nbreak \x1b[31m", 1)], part(1, name_map([(1, '" onload="&amp;\\n')])))


def library():
    """As a compiler lays out a module: an imported function, two own ones that call, and names of functions."""
    length = bytes.fromhex("20002101" "02400340" "20012d0000" "45" "0d01" "2001" "4101" "6a" "2101" "0c00" "0b0b" "2001" "2000" "6b")
    show = bytes.fromhex("2300" "4110" "6b" "2201" "2400" "2001" "2000" "1001" "2202" "36020c" "2000" "2002" "1000" "1a" "2001" "4110" "6a" "2400" "2002")
    return module(
        [(2, 1), (1, 1)],
        [(1, body(length, 1)), (1, body(show, 2))],
        [("print", 2)],
        part(1, name_map([(1, "length")])) + part(7, name_map([(0, "stack")])),
        [("env", "write", 0)],
        memory=True,
        globals_=1,
    )


def recursive():
    """Function 0 calls itself, 1 and 2 call each other, 3 calls all of them."""
    calls = [b"\x10\x00", b"\x10\x02", b"\x10\x01", b"\x10\x00\x10\x01\x10\x02"]
    return module([(0, 0)], [(0, body(code)) for code in calls], [("top", 3)])


def invalid():
    """A function that leaves no value where it has to."""
    return module([(0, 1)], [(0, body(b""))], [("empty", 0)])


def many(count):
    """So many functions, each with control, memory and arithmetic, and with a name."""
    one = bench.sized(bench.mixed_body(1))
    names = part(1, name_map([(number, f"function_{number}") for number in range(count)]))
    return b"".join(
        [
            bench.HEADER,
            bench.section(1, bench.counted([bench.BINARY])),
            bench.section(3, bench.counted([b"\0"] * count)),
            bench.section(5, bench.counted([b"\0\x01"])),
            bench.section(10, bench.number(count) + one * count),
            name_section(names),
        ]
    )
