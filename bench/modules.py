"""Modules to measure with, written byte by byte."""


def number(value):
    """An unsigned number in its shortest spelling."""
    text = bytearray()
    while value >= 128:
        text.append(value % 128 + 128)
        value //= 128
    text.append(value)
    return bytes(text)


def sized(contents):
    return number(len(contents)) + contents


def section(identity, contents):
    return bytes([identity]) + sized(contents)


def counted(items):
    return number(len(items)) + b"".join(items)


HEADER = b"\0asm\x01\0\0\0"
BINARY = b"\x60\x02\x7f\x7f\x01\x7f"


def module(bodies):
    """One type, `(i32 i32) -> i32`, and a function of it for each body (locals and code)."""
    return (
        HEADER
        + section(1, counted([BINARY]))
        + section(3, counted([b"\0"] * len(bodies)))
        + section(10, counted([sized(body) for body in bodies]))
    )


def flat(positions):
    """One function of so many positions, an odd number: a sum of `local.get 0` and constants."""
    code = bytearray(b"\x20\x00")
    for place in range((positions - 1) // 2):
        code += (b"\x41" + bytes([place % 64]) if place % 2 else b"\x20\x01") + b"\x6a"
    return module([b"\0" + bytes(code) + b"\x0b"])


# Blocks, a loop, branches, a load and a store, and numbers of several lengths; the stack is empty before and after.
MIXED = (
    b"\x02\x40\x03\x40"
    b"\x20\x00\x45\x0d\x01"
    b"\x20\x00\x41\xc8\x01\x6a\x21\x02"
    b"\x20\x02\x20\x01\x41\x80\x80\x80\x01\x71\x6a\x21\x03"
    b"\x20\x01\x20\x03\x36\x02\x00"
    b"\x20\x01\x2d\x00\x08\x21\x04"
    b"\x20\x00\x41\x01\x6b\x21\x00\x0c\x00\x0b\x0b"
)
# A value from two arms.
LAST = b"\x20\x02\x04\x7f\x20\x03\x05\x20\x04\x0b\x0b"


def mixed_body(copies):
    """A body of three more locals, with so many copies of the mixed code."""
    return b"\x01\x03\x7f" + MIXED * copies + LAST


def many_functions(size, most=10000):
    """Nearly so many bytes, of at most so many functions with control, memory and arithmetic."""
    copies = 1
    while len(sized(mixed_body(copies))) * most < size - 64:
        copies += 1
    body = sized(mixed_body(copies))
    count = max(1, (size - 64) // (len(body) + 1))
    return (
        HEADER
        + section(1, counted([BINARY]))
        + section(3, counted([b"\0"] * count))
        + section(5, counted([b"\0\x01"]))
        + section(10, number(count) + body * count)
    )


def nested(positions, depth=1024):
    """One function of nearly so many positions, in so many nested blocks."""
    filler = b"\x20\x00\x20\x01\x6a\x1a" * ((positions // depth - 1) // 4)
    return module([b"\0" + (b"\x02\x40" + filler) * depth + b"\x0b" * depth + b"\x20\x00\x0b"])


def not_a_module(size):
    """A header, and then what no section begins with."""
    return HEADER + b"\x7f" * (size - len(HEADER))


def one_custom_section(size):
    """A header and one custom section of zeros, of so many bytes in all."""
    for length in range(1, 6):
        contents = size - len(HEADER) - 1 - length
        if len(number(contents)) == length:
            return HEADER + section(0, b"\x01x" + b"\0" * (contents - 2))
    raise ValueError(size)


def many_locals(sets, locals_=8192):
    """One function `() -> ()` with so many locals, which sets them in turn, each to 1, and reads the first: two positions a set, and two more."""
    code = bytearray()
    for place in range(sets):
        code += b"\x41\x01\x21" + number(place % locals_)
    code += b"\x20\x00\x1a"
    body = counted([number(locals_) + b"\x7f"]) + bytes(code) + b"\x0b"
    return HEADER + section(1, counted([b"\x60\x00\x00"])) + section(3, counted([b"\0"])) + section(10, counted([sized(body)]))


def loops_with_locals(copies, locals_=8192):
    """One function `(i32) -> (i32)` of thirteen positions a copy and four more: a loop of loops with branches, in each of which a local is written where the
    parameter isn't zero. Of so many locals besides the parameter one in two is written, once, and the others never."""
    code = bytearray(b"\x03\x40")
    for place in range(copies):
        code += b"\x02\x40\x03\x40\x20\x00\x45\x0d\x01\x20\x00\x04\x40"
        code += b"\x41\x01\x21" + number(2 * place + 1) if 2 * place < locals_ else b"\x41\x01\x1a"
        code += b"\x05\x20\x00\x1a\x0b\x20\x00\x0d\x00\x0b\x0b"
    code += b"\x20\x00\x0d\x00\x0b\x20\x00"
    body = counted([number(locals_) + b"\x7f"]) + bytes(code) + b"\x0b"
    return calling(taking(1), [body])


def nops(count):
    """One function `() -> ()` of so many `nop`."""
    return HEADER + section(1, counted([b"\x60\x00\x00"])) + section(3, counted([b"\0"])) + section(10, counted([sized(b"\0" + b"\x01" * count + b"\x0b")]))


def calling(type_, bodies, in_table=False, globals_=0):
    """One type, a function of it for each body (locals and code), all of them in a table where that is asked for, and so many mutable i32 globals."""
    count = len(bodies)
    text = HEADER + section(1, counted([type_])) + section(3, counted([b"\0"] * count))
    if in_table:
        text += section(4, b"\x01\x70\x00" + number(count))
    if globals_:
        text += section(6, counted([b"\x7f\x01\x41\x00\x0b"] * globals_))
    if in_table:
        text += section(9, b"\x01\x00\x41\x00\x0b" + counted([number(func) for func in range(count)]))
    return text + section(10, counted([sized(body) for body in bodies]))


def taking(params):
    """The type of functions that take so many i32 and leave one."""
    return b"\x60" + counted([b"\x7f"] * params) + b"\x01\x7f"


def passing_on(call, params=1):
    """A body that answers its first parameter, or what a call answers of all of them, turned round by one place."""
    passed = b"".join(b"\x20" + number((place + 1) % params) for place in range(params))
    return b"\0\x20\x00\x04\x7f" + passed + call + b"\x05\x20\x00\x0b\x0b"


def chain(count, down=False):
    """So many functions, each of which calls the next one, or the one before it where that is asked for; the last one calls none."""
    bodies = [passing_on(b"\x10" + number(func + 1)) for func in range(count - 1)] + [b"\0\x20\x00\x0b"]
    if down:
        bodies = [b"\0\x20\x00\x0b"] + [passing_on(b"\x10" + number(func)) for func in range(count - 1)]
    return calling(taking(1), bodies)


def ring(count, params=1):
    """So many functions, each of which calls the next one, and the last one the first."""
    return calling(taking(params), [passing_on(b"\x10" + number((func + 1) % count), params) for func in range(count)])


def web(count):
    """So many functions, each of which calls the next one and a far one, so that all of them call one another."""
    bodies = []
    for func in range(count):
        near, far = number((func + 1) % count), number((func * 7919 + 13) % count)
        bodies.append(b"\0\x20\x00\x04\x7f\x20\x00\x10" + near + b"\x10" + far + b"\x05\x20\x00\x0b\x0b")
    return calling(taking(1), bodies)


def through_table(count):
    """So many functions of one type, all in the table, each of which calls through it."""
    return calling(taking(1), [passing_on(b"\x20\x00\x11\x00\x00")] * count, in_table=True)


def wide(copies, params=64, globals_=128):
    """One function of four positions a copy and one more: each copy adds a parameter and a global into another global."""
    code = bytearray()
    for place in range(copies):
        code += b"\x20" + number(place % params) + b"\x23" + number((place * 5 + 1) % globals_) + b"\x6a\x24" + number(place % globals_)
    return calling(taking(params), [b"\0" + bytes(code) + b"\x20\x00\x0b"], globals_=globals_)


def wide_loop(copies, params=64, globals_=128):
    """One function of six positions a copy and four more: a loop of copies, each of which writes one global from another where a parameter isn't zero."""
    code = bytearray(b"\x03\x40")
    for place in range(copies):
        code += b"\x20" + number(place % params) + b"\x04\x40\x20" + number(place * 3 % params)
        code += b"\x23" + number((place * 5 + 1) % globals_) + b"\x6a\x24" + number(place % globals_) + b"\x0b"
    return calling(taking(params), [b"\0" + bytes(code) + b"\x20\x01\x0d\x00\x0b\x20\x00\x0b"], globals_=globals_)


def number_at(bytes_, at):
    """The unsigned number that is spelled there, and what stands behind it."""
    value = shift = 0
    while True:
        byte = bytes_[at]
        value |= (byte & 127) << shift
        at, shift = at + 1, shift + 7
        if byte < 128:
            return value, at


def sections(bytes_):
    """The sections of a module: what each is, and where its contents begin."""
    at = len(HEADER)
    while at < len(bytes_):
        identity = bytes_[at]
        size, at = number_at(bytes_, at + 1)
        yield identity, at
        at += size


def imported_functions(bytes_, at):
    """How many functions an import section has."""

    def behind(at):
        size, at = number_at(bytes_, at)
        return at + size

    def limits(at):
        has_most = bytes_[at] & 1
        _, at = number_at(bytes_, at + 1)
        return number_at(bytes_, at)[1] if has_most else at

    imported = 0
    count, at = number_at(bytes_, at)
    for _ in range(count):
        at = behind(behind(at))
        kind, at = bytes_[at], at + 1
        imported += kind == 0
        at = {0: lambda at: number_at(bytes_, at)[1], 1: lambda at: limits(at + 1), 2: limits, 3: lambda at: at + 2}[kind](at)
    return imported


def bodies_of(bytes_):
    """How many functions are imported, and of each body where it begins and its size."""
    imported, bodies = 0, []
    for identity, at in sections(bytes_):
        if identity == 2:
            imported = imported_functions(bytes_, at)
        elif identity == 10:
            count, at = number_at(bytes_, at)
            for _ in range(count):
                size, at = number_at(bytes_, at)
                bodies.append((at, size))
                at += size
    return imported, bodies


def functions_by_size(bytes_):
    """The numbers of the functions that have bodies, imported functions counted, those with most bytes first."""
    imported, bodies = bodies_of(bytes_)
    return [imported + place for place in sorted(range(len(bodies)), key=lambda place: -bodies[place][1])]


def locals_of(bytes_, func):
    """How many locals a function with a body has, its parameters left out."""
    imported, bodies = bodies_of(bytes_)
    runs, at = number_at(bytes_, bodies[func - imported][0])
    found = 0
    for _ in range(runs):
        count, at = number_at(bytes_, at)
        found, at = found + count, at + 1
    return found


def largest_function(bytes_):
    """The number of the function whose body has most bytes, imported functions counted; none where there is no body."""
    found = functions_by_size(bytes_)
    return found[0] if found else None


def loop_text(laps, lap, before="", locals_of="(local $i i32) (local $x i32) (local $y i32)"):
    """The text of a module whose function `run` makes so many laps, and answers its local x."""
    return f"""(module
  (type $two (func (param i32 i32) (result i32)))
  (memory 1)
  {before}
  (func (export "run") (result i32) {locals_of}
    (local.set $i (i32.const {laps}))
    (loop $again
      {lap}
      (br_if $again (local.tee $i (i32.sub (local.get $i) (i32.const 1)))))
    (local.get $x)))
"""


STEP = "(local.set $x (i32.add (i32.mul (local.get $x) (i32.const 1664525)) (i32.const 1013904223)))"


def arithmetic_text(laps, steps=1):
    """Laps of arithmetic on locals, each with so many steps."""
    return loop_text(laps, STEP * steps + "(local.set $y (i32.xor (local.get $y) (i32.shr_u (local.get $x) (i32.const 7))))")


def memory_text(laps):
    """Laps of a load and a store."""
    at = "(local.set $y (i32.and (i32.mul (local.get $i) (i32.const 4)) (i32.const 65532)))"
    return loop_text(laps, at + "(i32.store (local.get $y) (local.tee $x (i32.add (i32.load (local.get $y)) (local.get $i))))")


CALLED = """(func $plus (type $two) (i32.add (local.get 0) (i32.mul (local.get 1) (i32.const 3))))
  (func $minus (type $two) (i32.sub (local.get 0) (i32.mul (local.get 1) (i32.const 5))))
  (table funcref (elem $plus $minus))"""


def calls_text(laps):
    """Laps of a call."""
    return loop_text(laps, "(local.set $x (call $plus (local.get $x) (local.get $i)))", CALLED)


def table_text(laps):
    """Laps of a call through the table."""
    index = "(i32.and (local.get $i) (i32.const 1))"
    return loop_text(laps, f"(local.set $x (call_indirect (type $two) (local.get $x) (local.get $i) {index}))", CALLED)


def deep_text(laps, depth):
    """Laps of a call that calls itself down to a depth."""
    down = """(func $down (param i32) (result i32)
    (if (result i32) (local.get 0) (then (i32.add (call $down (i32.sub (local.get 0) (i32.const 1))) (i32.const 1))) (else (i32.const 0))))"""
    return loop_text(laps, f"(local.set $x (i32.add (local.get $x) (call $down (i32.const {depth}))))", down)


ENDLESS = "(module (func (export \"run\") call 0))"
