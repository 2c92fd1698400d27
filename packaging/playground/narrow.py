"""Makes of a module whose memory has addresses of 64 bits one whose memory has addresses of 32.

Many browsers have no memory of 64 bits. Addresses stay as wide as they are wherever they are kept
and counted with, and are cut to 32 bits where memory is reached: that is right as long as memory
ends below 4 GiB, which the heap sees to. Functions and exports keep their types. A module with
something that has no rule here is refused.
"""
from binary import Reader, Refused, listed, number, signed, sized

HEAD = b"\0asm\1\0\0\0"
TYPES, IMPORTS, FUNCTIONS, TABLES, MEMORIES, ELEMENTS, CODE, DATA = 1, 2, 3, 4, 5, 9, 10, 11
I32, I64, F32, F64 = KINDS = 0x7F, 0x7E, 0x7D, 0x7C
FUNCTION_TYPE, BOUNDED, WIDE, MOST_PAGES = 0x60, 1, 4, 1 << 16
# Instructions: 64 bits to 32; 32 to 64, without and with a sign; a local put and taken.
WRAP, EXTEND, EXTEND_SIGNED, PUT, GET = b"\xa7", b"\xad", b"\xac", b"\x21", b"\x20"
I32_CONST, I64_CONST, END = 0x41, 0x42, 0x0B
BRANCH_TABLE, CALL_INDIRECT, SIZE, GROW, TWO_BYTES = 0x0E, 0x11, 0x3F, 0x40, 0xFC
LAST_CONVERSION, COPY, FILL = 7, 10, 11
LOADS_AND_STORES = range(0x28, 0x3F)
# What an instruction that stores takes beside an address.
STORED = {0x36: I32, 0x37: I64, 0x38: F32, 0x39: F64, 0x3A: I32, 0x3B: I32, 0x3C: I64, 0x3D: I64,
          0x3E: I64}
# The instructions behind which nothing stands, a number, and so many bytes.
PLAIN = {0x00, 0x01, 0x05, END, 0x0F, 0x1A, 0x1B, *range(0x45, 0xC5)}
NUMBERED = {*range(0x02, 0x05), 0x0C, 0x0D, 0x10, *range(0x20, 0x25), I32_CONST, I64_CONST}
CONSTANTS = {0x43: 4, 0x44: 8}


class Function:
    """Narrows the code of one function, which gets a local of each type to keep values in."""

    def __init__(self, body, params, wide_tables):
        self.reader, self.wide_tables = Reader(body), wide_tables
        groups, count = [], params
        for _ in range(self.reader.number()):
            size = self.reader.number()
            groups.append(number(size) + self.reader.take(1))
            count += size
        self.spare = {kind: number(count + at) for at, kind in enumerate(KINDS)}
        self.locals = listed([*groups, *(b"\1" + bytes([kind]) for kind in KINDS)])

    def put(self, kind):
        """Keeps what is on top."""
        return PUT + self.spare[kind]

    def get(self, kind):
        """Gives back what was kept."""
        return GET + self.spare[kind]

    def cut_below(self, kind):
        """Cuts the address below a value of a type."""
        return self.put(kind) + WRAP + self.get(kind)

    def reached(self, code):
        """What a load or a store becomes."""
        align, distance = self.reader.number(), self.reader.number()
        if align >= 64 or distance >> 32:
            raise Refused(f"a memory beside the first, or a distance of {distance}")
        cut = self.cut_below(STORED[code]) if code in STORED else WRAP
        return cut + bytes([code]) + number(align) + number(distance)

    def of_two_bytes(self):
        """What stands before an instruction of two bytes."""
        code = self.reader.number()
        if code <= LAST_CONVERSION:
            return b""
        if code == COPY:
            self.reader.take(2)
            return WRAP + self.put(I32) + self.cut_below(I64) + WRAP + self.get(I32)
        if code == FILL:
            self.reader.take(1)
            return self.put(I64) + self.cut_below(I32) + self.get(I64) + WRAP
        raise Refused(f"the instruction fc {code:02x}")

    def around(self, code):
        """What stands before an instruction and after it; it is read to its end."""
        if code in NUMBERED:
            self.reader.number()
        elif code == BRANCH_TABLE:
            for _ in range(self.reader.number() + 1):
                self.reader.number()
        elif code == CALL_INDIRECT:
            self.reader.number()
            return (WRAP if self.reader.number() in self.wide_tables else b""), b""
        elif code in (SIZE, GROW):
            self.reader.take(1)
            return (b"", EXTEND) if code == SIZE else (WRAP, EXTEND_SIGNED)
        elif code == TWO_BYTES:
            return self.of_two_bytes(), b""
        elif code in CONSTANTS:
            self.reader.take(CONSTANTS[code])
        elif code not in PLAIN:
            raise Refused(f"the instruction {code:02x}")
        return b"", b""

    def instruction(self):
        """What the next instruction becomes."""
        start = self.reader.at
        code = self.reader.byte()
        if code in LOADS_AND_STORES:
            return self.reached(code)
        before, after = self.around(code)
        return before + self.reader.data[start : self.reader.at] + after

    def narrowed(self):
        """The whole code."""
        out = bytearray(self.locals)
        while not self.reader.is_over():
            out += self.instruction()
        return bytes(out)


def limits(reader):
    """Limits, narrowed, and whether they were wide."""
    flags, least = reader.byte(), reader.number()
    most = min(reader.number(), MOST_PAGES) if flags & BOUNDED else None
    narrow = bytes([flags & ~WIDE]) + number(least) + (b"" if most is None else number(most))
    return narrow, bool(flags & WIDE)


def place(reader, narrow):
    """A constant place, up to its end."""
    code = reader.byte()
    if code not in (I32_CONST, I64_CONST):
        raise Refused(f"a place by the instruction {code:02x}")
    value = reader.signed()
    if reader.byte() != END:
        raise Refused("a place that is counted")
    return bytes([I32_CONST if narrow else code]) + signed(value) + bytes([END])


class Module:
    """A module, narrowed section by section."""

    def __init__(self):
        self.params, self.functions, self.wide_tables = [], [], set()

    def types(self, reader):
        """Keeps how many words each type of function takes."""
        for _ in range(reader.number()):
            if reader.byte() != FUNCTION_TYPE:
                raise Refused("a type that is no function's")
            self.params.append(len(reader.sized()))
            reader.sized()
        return reader.data

    def types_of_functions(self, reader):
        """Keeps the type of each function."""
        self.functions = [reader.number() for _ in range(reader.number())]
        return reader.data

    def tables(self, reader):
        """Tables, of which those that were wide are kept."""
        made = []
        for at in range(reader.number()):
            kind = reader.take(1)
            narrow, is_wide = limits(reader)
            made.append(kind + narrow)
            if is_wide:
                self.wide_tables.add(at)
        return listed(made)

    def memories(self, reader):
        """Memories."""
        return listed([limits(reader)[0] for _ in range(reader.number())])

    def plain(self, reader):
        """Looks that something is for the first table or memory, and where it stands is told."""
        if reader.number() != 0:
            raise Refused("elements or data of another kind")

    def elements(self, reader):
        """What is in tables."""
        made = []
        for _ in range(reader.number()):
            self.plain(reader)
            at = place(reader, 0 in self.wide_tables)
            found = [number(reader.number()) for _ in range(reader.number())]
            made.append(number(0) + at + listed(found))
        return listed(made)

    def code(self, reader):
        """Functions."""
        made = []
        for at in range(reader.number()):
            params = self.params[self.functions[at]]
            made.append(sized(Function(reader.sized(), params, self.wide_tables).narrowed()))
        return listed(made)

    def data(self, reader):
        """What is in memory at first."""
        made = []
        for _ in range(reader.number()):
            self.plain(reader)
            made.append(number(0) + place(reader, True) + sized(reader.sized()))
        return listed(made)

    def imports(self, reader):
        """Nothing is taken from elsewhere."""
        raise Refused("imports")

    def section(self, kind, content):
        """A section."""
        rules = {TYPES: self.types, IMPORTS: self.imports, FUNCTIONS: self.types_of_functions,
                 TABLES: self.tables, MEMORIES: self.memories, ELEMENTS: self.elements,
                 CODE: self.code, DATA: self.data}
        return rules[kind](Reader(content)) if kind in rules else content


def narrowed(data):
    """A whole module, narrowed."""
    if data[: len(HEAD)] != HEAD:
        raise Refused("something else than a module")
    reader, module, out = Reader(data, len(HEAD)), Module(), bytearray(HEAD)
    while not reader.is_over():
        kind = reader.byte()
        out += bytes([kind]) + sized(module.section(kind, reader.sized()))
    return bytes(out)
