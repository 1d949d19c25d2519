"""`luafmt minify` on small statements, which have the most tokens for each byte.

A source is statements of one shape: "tight" is `local NAME = VALUE` with single spaces and in one line, "wide" has a line
for each of them and runs of 24 blanks. "assign" and "empty" are the shortest statements that there are, `a=1` and `;`,
which take the most memory for each byte. Lua allows 200 local variables at a time, and 32,767 in a function, so what
luac5.4 reads has each 100 of the same statements in `do .. end`, and each 30,000 in a function. That adds a percent at
most, but 7 for "empty".
"""
import tempfile

from measure import SIZES, print_head, print_row

TIGHT = "local {name} = {value} "
WIDE = TIGHT.strip().replace(" ", " " * 24) + "\n"
SHAPES = {"tight": TIGHT, "wide": WIDE, "assign": "a=1 ", "empty": ";"}
VALUES = ["123", "a7", "nil", "true", "false"]


def write_sources(size, shape, plain, grouped):
    """Writes as many statements as `size` bytes hold: alone into `plain`, in blocks into `grouped`."""
    with open(plain, "w") as alone, open(grouped, "w") as blocks:
        blocks.write("function f() do\n")
        number = written = 0
        while True:
            value = VALUES[number % len(VALUES)]
            statement = SHAPES[shape].format(name=f"a{number % 1000}", value=value)
            written += len(statement)
            if written > size:
                break
            alone.write(statement)
            blocks.write(statement)
            number += 1
            if number % 30000 == 0:
                blocks.write("end end function f() do\n")
            elif number % 100 == 0:
                blocks.write("end do\n")
        blocks.write("end end\n")


def main():
    print_head()
    with tempfile.TemporaryDirectory() as folder:
        plain, grouped = f"{folder}/plain.lua", f"{folder}/grouped.lua"
        for shape in SHAPES:
            before = None
            for size in SIZES:
                write_sources(size, shape, plain, grouped)
                before = print_row(shape, plain, grouped, before)


main()
