"""`luafmt format` on sources of the whole language, and on what is hard to lay out.

"ordinary" and "real" are those of lexis.py. "chain" is one expression of additions, "table" one table, "calls" one call behind
another, "comments" a short comment a line, "empty" and "assign" the shortest statements. "deep" has 200 tables in one another
and the items in the innermost, "levels" the same number of items in each of them. A text that is larger than the limit is
refused when all of it has been laid out: then the row has "!" behind its shape, and luac5.4 is measured all the same. luac5.4
reads neither of the last two.
"""
import glob
import os
import sys
import tempfile

import lexis
import measure
from measure import MIB, SIZES, print_head, print_row

LIMIT = 4 * MIB
LEVELS = 200
REFUSED = 3


def repeated(front, item, end, size):
    return front + item * ((size - len(front) - len(end)) // len(item)) + end


def levels(size):
    item = "1," * ((size - 2 * LEVELS - 2) // (2 * LEVELS))
    return "x=" + ("{" + item) * LEVELS + "}" * LEVELS


# Each shape with what makes it, and with the bytes of its text for each byte of a large source, where these are known to
# be more than one.
SHAPES = {
    "ordinary": (lambda size: lexis.text_of("ordinary", size), 1),
    "real": (lambda size: lexis.text_of("real", size * 9 // 10), 1),
    "chain": (lambda size: repeated("return 1", "+1", "", size), 2.5),
    "table": (lambda size: repeated("return {", "1,", "}", size), 2),
    "calls": (lambda size: repeated("f", "()", "", size), 1),
    "comments": (lambda size: repeated("", "--\n", "", size), 1),
    "empty": (lambda size: repeated("", ";", "", size), 0),
    "assign": (lambda size: repeated("", "a=1 ", "", size), 1.5),
    "deep": (lambda size: repeated("x=" + "{" * LEVELS, "1,", "}" * LEVELS, size), LEVELS / 2),
    "levels": (levels, LEVELS / 4),
}
WITHOUT_LUAC = {"deep", "levels"}


def main():
    measure.LUAFMT = [sys.argv[1], "format"]
    print_head(luac="<= 3", memory="<= 150")
    with tempfile.TemporaryDirectory() as folder:
        source = f"{folder}/source.lua"
        for shape, (make, growth) in SHAPES.items():
            if shape == "real" and not (measure.LUAC and glob.glob(lexis.CORPUS)):
                continue
            before = None
            for size in SIZES:
                with open(source, "w", encoding="latin-1", newline="") as file:
                    file.write(make(size))
                refused = growth * os.path.getsize(source) > LIMIT
                for_luac = None if shape in WITHOUT_LUAC else source
                name = shape + "!" * refused
                before = print_row(name, source, for_luac, before, REFUSED if refused else 0)


main()
