"""`luafmt minify` where names are hard to give. luac5.4 reads none of these sources: it allows 200 local variables in a
function and 255 upvalues.

"deep" has functions in functions, each with 200 local variables that are all referred to innermost, over as many different
short globals as the size has room for. "again" has `local` statements of one block's 200 names over and over. "labels" has
labels of one block, each with a name of its own.
"""
import itertools
import string
import tempfile

from measure import SIZES, print_head, print_row

LETTERS = string.ascii_letters + "_"
WORDS = {"and", "end", "for", "nil", "not"}
PER_FUNCTION = 200


def deep(size):
    functions = min(99, max(1, size // 30000))
    count = functions * PER_FUNCTION
    opened = []
    for number in range(count):
        if number % PER_FUNCTION == 0:
            opened.append("do local function q() ")
        opened.append(f"local v{number}=0 ")
    uses = [f"f(v{number}) " for number in range(count)]
    names = map("".join, itertools.product(LETTERS, LETTERS + string.digits, LETTERS + string.digits))
    left = size - sum(map(len, opened)) - sum(map(len, uses)) - len("end end ") * functions
    globals_there = itertools.islice((f"{name}() " for name in names if name not in WORDS), left // len("abc() "))
    return "".join([*opened, *globals_there, *uses, "end end " * functions])


def again(size):
    statements = "".join(f"local a{number}=a{number * 7 % 200} " for number in range(200))
    return statements * (size // len(statements))


def labels(size):
    return "do " + "".join(f"::l{number}:: " for number in range(size // 12)) + "end"


def main():
    print_head()
    with tempfile.TemporaryDirectory() as folder:
        source = f"{folder}/source.lua"
        for make in (deep, again, labels):
            before = None
            for size in SIZES:
                with open(source, "w") as file:
                    file.write(make(size - 1))
                before = print_row(make.__name__, source, None, before)


main()
