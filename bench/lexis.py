"""`luafmt minify` on sources of the whole language.

"ordinary" is made Lua of functions, loops, calls, tables, strings and comments; "real" is files that real.sh has fetched,
each in a function, and is left out where there are none; "string" and "comment" are one long string and one long comment;
"escapes" is short strings full of escapes.
"""
import glob
import os
import random
import subprocess
import tempfile

from measure import LUAC, SIZES, print_head, print_row

CORPUS = os.path.join(os.environ.get("TMPDIR", "/tmp"), "luafmt-real")
ESCAPES = ["\\n", "\\t", "\\065", "\\x41", "\\u{20AC}", "\\\\", "\\\"", "\\z  ", "text"]


def ordinary_function(number, dice):
    """A function of some lines, with an index by which its names differ."""
    name = f"handle_{number % 5000}"
    lines = [f"-- {name} sums what its table holds, from {dice.randrange(100)} on", f"function {name}(items, limit)"]
    lines.append(f"  local total, names = {dice.randrange(1000)}, {{}}")
    for step in range(dice.randrange(2, 6)):
        key = dice.choice(["count", "width", "label", "owner", "depth"])
        lines.append(f"  for index = 1, #items do")
        lines.append(f"    local item = items[index] or {{ {key} = {dice.randrange(100)}.5, kind = 'plain' }}")
        lines.append(f"    if item.{key} ~= nil and index <= limit then")
        lines.append(f"      total = total + (item.{key} * 0x{dice.randrange(4096):X} - {dice.randrange(10)}) // {step + 1}")
        lines.append(f'      names[#names + 1] = string.format("%s: %d\\n", item.kind, total) .. "{key}"')
        lines.append("    else -- nothing to add")
        lines.append("      names[index] = false")
        lines.append("    end")
        lines.append("  end")
    lines += ["  return total, names", "end", "", ""]
    return "\n".join(lines)


def real_functions():
    """Real files, each as the body of a function in a block, so that no two share their local variables."""
    paths = sorted(path for path in glob.glob(CORPUS + "/**/*.lua", recursive=True) if os.path.isfile(path))
    random.Random(54).shuffle(paths)
    for path in paths:
        with open(path, encoding="latin-1", newline="") as file:
            text = f"do local function read(...)\n{file.read()}\nend end\n"
        if not subprocess.run(LUAC, input=text.encode("latin-1"), capture_output=True).returncode:
            yield text


def joined(texts, size):
    parts, written = [], 0
    for text in texts:
        if written + len(text) <= size:
            parts.append(text)
            written += len(text)
        if written > size * 0.99:
            break
    return "".join(parts)


def repeated(make, size):
    parts, written = [], 0
    while True:
        part = make(len(parts))
        written += len(part)
        if written > size:
            return "".join(parts)
        parts.append(part)


def text_of(shape, size):
    dice = random.Random(54)
    if shape == "ordinary":
        return repeated(lambda number: ordinary_function(number, dice), size)
    if shape == "real":
        return joined(real_functions(), size)
    if shape == "string":
        return "s = [==[" + repeated(lambda _: "a line of a long string ]] with brackets\n", size - 100) + "]==]\n"
    if shape == "comment":
        return "--[==[" + repeated(lambda _: "a line of a long comment ]] with brackets\n", size - 100) + "]==] s = ''\n"
    return repeated(lambda _: 's = "' + "".join(dice.choice(ESCAPES) for _ in range(20)) + '"\n', size)


def main():
    print_head()
    with tempfile.TemporaryDirectory() as folder:
        source = f"{folder}/source.lua"
        real = ["real"] if LUAC and os.path.isdir(CORPUS) else []
        for shape in ["ordinary", *real, "string", "comment", "escapes"]:
            before = None
            for size in SIZES:
                with open(source, "w", encoding="latin-1", newline="") as file:
                    file.write(text_of(shape, size))
                before = print_row(shape, source, source, before)


if __name__ == "__main__":
    main()
