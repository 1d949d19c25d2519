"""A chunk that luac5.4 has compiled, without its lines and its name: what two texts that differ in their lines share.

The format is that of ldump.c of Lua 5.4. `luac5.4 -s` would leave the lines on which a function begins and ends.
"""
HEADER = 31  # the signature, the version and format, LUAC_DATA, three sizes, an integer and a float
CONSTANT_SIZES = {0x00: 0, 0x01: 0, 0x11: 0, 0x03: 8, 0x13: 8}  # nil, false, true, integer, float
STRINGS = (0x04, 0x14)


class Reader:
    """Reads a chunk from its front on; `kept` are the stretches that are no lines."""

    def __init__(self, chunk):
        self.chunk, self.at, self.kept = chunk, 0, []

    def number(self):
        """A number in groups of seven bits, the last of which has its high bit set."""
        value = 0
        while True:
            byte = self.chunk[self.at]
            self.at += 1
            value = value << 7 | byte & 0x7F
            if byte & 0x80:
                return value

    def skip(self, size):
        self.at += size

    def string(self):
        self.skip(max(self.number() - 1, 0))

    def counted(self, size):
        self.skip(self.number() * size)

    def constant(self):
        kind = self.chunk[self.at]
        self.at += 1
        if kind in STRINGS:
            self.string()
        else:
            self.skip(CONSTANT_SIZES[kind])

    def each(self, read):
        for _ in range(self.number()):
            read()

    def keep(self, read):
        start = self.at
        read()
        self.kept.append(self.chunk[start:self.at])

    def front_of_function(self):
        self.at += 3  # parameters, whether it takes more, registers
        self.counted(4)  # instructions
        self.each(self.constant)
        self.counted(3)  # upvalues

    def local(self):
        self.string()
        self.number()
        self.number()

    def names(self):
        self.each(self.local)
        self.each(self.string)  # the names of upvalues

    def lines(self):
        self.counted(1)
        self.each(lambda: (self.number(), self.number()))

    def function(self):
        self.string()
        self.number()  # the line on which it begins
        self.number()  # and ends
        self.keep(self.front_of_function)
        inner = self.number()
        self.kept.append(b"functions:%d" % inner)
        for _ in range(inner):
            self.function()
        self.lines()
        self.keep(self.names)


def without_lines(chunk):
    """The stretches of a chunk that are no lines: instructions, constants, upvalues, names."""
    reader = Reader(chunk)
    reader.at = HEADER + 1  # and the count of upvalues of the main function
    reader.function()
    if reader.at != len(chunk):
        raise ValueError("the chunk is longer than its function")
    return reader.kept
