"""`luafmt check` on sources that are hard on names and jumps, each of 0.5, 1, 2 and 4 MiB.

"nested" is 200 functions in one another with 200 locals each, and references under them; "listed" is one `local` with a list of
names and as many values; "labels" is labels of one block, "gotos" gotos to one label, "jumps" gotos to labels each, "sisters"
blocks that each have the same label and a goto to it, "long" four names of a quarter of the source each. luac5.4 has limits of
its own on most of them, so that only the growth and the memory are told; of "plain", which is small functions, luac's
seconds too.
"""
import sys
import tempfile

import measure
from measure import SIZES, print_head, print_row


def nested(size):
    inner = "local " + ",".join(f"a{n}" for n in range(200)) + " "
    front = ("function f() " + inner) * 198
    back = "end " * 198
    words = " ".join(f"a{n % 200}=a{n * 7 % 200}" for n in range(max(0, size - len(front) - len(back)) // 10))
    return front + words[: size - len(front) - len(back)].rsplit(" ", 1)[0] + " " + back


def repeated(front, item, size):
    return front + item * ((size - len(front)) // len(item))


def numbered(form, size):
    count = size // len(form.format(1000000))
    return "".join(form.format(1000000 + n) for n in range(count))


SHAPES = {
    "plain": lambda size: repeated("", "function f(a,b) local c=a a=b b=c end ", size),
    "nested": nested,
    "listed": lambda size: "local " + ",".join(["x"] * (size // 4 - 4)) + "=" + ",".join(["x"] * (size // 4 - 4)),
    "labels": lambda size: numbered("::l{}::", size),
    "gotos": lambda size: repeated("::l:: ", "goto l ", size),
    "jumps": lambda size: numbered("goto l{0} ::l{0}:: ", size),
    "sisters": lambda size: repeated("", "do ::l:: goto l end ", size),
    "long": lambda size: " ".join("local " + c * (size // 4 - 8) for c in "abcd"),
}


def main():
    measure.LUAFMT = [sys.argv[1], "check"]
    luac = measure.LUAC
    print_head()
    with tempfile.TemporaryDirectory() as folder:
        source = f"{folder}/source.lua"
        for shape, make in SHAPES.items():
            before = None
            measure.LUAC = luac if shape == "plain" else None
            for size in SIZES:
                with open(source, "w") as file:
                    file.write(make(size))
                before = print_row(shape, source, source, before)


main()
