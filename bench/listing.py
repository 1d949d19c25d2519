"""What `luac5.4 -l -l` prints of a chunk, by what `luafmt list` writes of it, so that the two can be compared.

A listing becomes lines that both have: of a function its parameters, registers and lines; of an instruction its operation and
the operands that luac prints (PrintCode of luac.c); each constant as luac prints it; of an upvalue where it is found.
"""
import re
import struct

# The operands that luac prints, for each operation: fields of the word, `sb` and `sc` with an excess of 127, `k` as 0 or 1,
# and `k?` as a letter behind the last. Those that are not named have the fields a, b and c.
OPERANDS = {
    "a": "LOADKX LOADFALSE LFALSESKIP LOADTRUE CLOSE TBC RETURN1 VARARGPREP",
    "a b": "MOVE LOADNIL GETUPVAL SETUPVAL UNM BNOT NOT LEN CONCAT",
    "a c": "TFORCALL VARARG",
    "a k": "TEST",
    "a b k": "EQ LT LE EQK TESTSET",
    "a sb k": "EQI LTI LEI GTI GEI",
    "a b sc": "ADDI SHRI SHLI",
    "a b c k": "MMBINK",
    "a sb c k": "MMBINI",
    "a b c k?": "SETTABUP SETTABLE SETI SETFIELD SELF TAILCALL RETURN",
    "": "RETURN0",
}
FIELDS = {name: fields.split() for fields, names in OPERANDS.items() for name in names.split()}
# Those whose line has the operands as they are.
PLAIN = set("LOADI LOADF LOADK FORLOOP FORPREP TFORPREP TFORLOOP CLOSURE JMP EXTRAARG".split())
EXCESS = 127
C_ESCAPES = {ord(c): "\\" + e for c, e in zip('"\\\a\b\f\n\r\t\v', '"\\abfnrtv')}
OURS_HEAD = re.compile(r"function [0-9.]+ params (\d+) vararg ([01]) stack (\d+) lines (\d+) (\d+)")
LUAC_HEAD = re.compile(r"(?:main|function) <.*:(\d+),(\d+)> \(\d+ instructions? at ")
LUAC_SIZES = re.compile(r"(\d+)(\+?) params?, (\d+) slots?, ")


def printed(name, operands):
    """The operands of an instruction as luac prints them."""
    if name in PLAIN:
        return " ".join(operands)
    letter = operands[-1] == "k"
    a, b, c = ([int(operand) for operand in operands if operand != "k"] + [0, 0])[:3]
    values = {"a": a, "b": b, "c": c, "sb": b - EXCESS, "sc": c - EXCESS, "k": int(letter)}
    fields = FIELDS.get(name, ["a", "b", "c"])
    text = " ".join(str(values[field]) for field in fields if field != "k?")
    return text + "k" if letter and "k?" in fields else text


def float_printed(word):
    """A float as PrintConstant of luac.c prints it."""
    text = "%.14g" % struct.unpack("<d", struct.pack("<Q", int(word, 16)))[0]
    return text if text.strip("-0123456789") else text + ".0"


def string_printed(text):
    """A string as PrintString of luac.c prints it."""
    raw = re.sub(rb"\\(\d{3}|.)", lambda m: bytes([int(m[1])]) if len(m[1]) == 3 else m[1], text.encode("ascii"))
    return "".join(C_ESCAPES.get(b) or (chr(b) if 32 <= b <= 126 else f"\\{b:03d}") for b in raw)


def constant(words):
    kind, _, rest = words.partition(" ")
    if kind in ("nil", "true", "false"):
        return ("N" if kind == "nil" else "B") + " " + kind
    if kind == "int":
        return "I " + rest
    if kind == "word":
        return "F " + float_printed(rest)
    return 'S "' + string_printed(rest[1:-1]) + '"'


def of_luafmt(listing):
    """The lines of a listing in the common form."""
    for line in listing.decode("ascii").split("\n")[:-1]:
        head = OURS_HEAD.fullmatch(line)
        if head:
            yield "function " + " ".join(head.groups())
        elif line.startswith("k "):
            _, index, words = line.split(" ", 2)
            yield f"k {index} {constant(words)}"
        elif line.startswith("u "):
            yield line.rsplit(" ", 1)[0]
        else:
            position, name, *operands = line.split(" ")
            yield f"{position} {name} {printed(name, operands)}".rstrip()


def of_luac(listing):
    """The lines of `luac5.4 -l -l` in the common form."""
    lines, part = iter(listing.decode("latin-1").split("\n")), None
    for line in lines:
        head = LUAC_HEAD.match(line)
        if head:
            sizes = LUAC_SIZES.match(next(lines))
            yield f"function {sizes[1]} {int(sizes[2] == '+')} {sizes[3]} {head[1]} {head[2]}"
            part = "code"
        elif line.startswith(("constants (", "locals (", "upvalues (")):
            part = line.split(" ", 1)[0]
        elif line.startswith("\t"):
            words = line.split("\t")
            if part == "code":
                yield f"{int(words[1]) - 1} {words[3].strip()} {words[4]}".rstrip()
            elif part == "constants":
                yield f"k {words[1]} {words[2]} {words[3]}"
            elif part == "upvalues":
                yield f"u {words[1]} {words[-2]} {words[-1]}"
