"""Where `luafmt check` and luac5.4 stop in sources with one wrong token: do they name the same one?

    refused.py LUAFMT FOLDER [COUNT]

Of each Lua file below FOLDER that has at most 64 KiB, COUNT copies (3 where it is not given) are made in which one token is gone, doubled, or
another word. Where both refuse a copy and luac names a token, the token at luafmt's place is compared with it. What differs is counted
by luac's message, with an example each: luac checks names, jumps and limits while it reads, and stops there first. It needs
luac5.4.
"""
import collections
import concurrent.futures
import os
import random
import re
import subprocess
import sys

TOKEN = re.compile(
    rb"--\[(=*)\[.*?\]\1\]|--[^\r\n]*|\[(=*)\[.*?\]\2\]|\"(?:\\.|[^\"\\])*\"|'(?:\\.|[^'\\])*'"
    rb"|[A-Za-z_]\w*|\.?\d(?:[eEpP][+-]|[\w.])*|\.\.\.|\.\.|==|~=|<=|>=|//|::|<<|>>|\S",
    re.DOTALL,
)
WORDS = [b"end", b"(", b")", b"=", b"then", b"x", b"1", b",", b"local", b"function", b"}", b"..", b"do", b"::"]
MOST = 1 << 16


def spans(text):
    """The tokens of a text, without its comments."""
    return [match.span() for match in TOKEN.finditer(text) if not match.group().startswith(b"--")]


def changed(text, places, pick):
    """A copy in which one token is gone, doubled or another one."""
    start, end = pick.choice(places)
    word = pick.choice([b" ", text[start:end] + b" " + text[start:end], b" " + pick.choice(WORDS) + b" "])
    return text[:start] + word + text[end:]


def refusal(command, text):
    return subprocess.run(command, input=text, capture_output=True).stderr.decode("latin-1").strip()


def token_at(text, line, column):
    """What stands at a place: a token, or nothing at the end."""
    starts = [0] + [match.end() for match in re.finditer(rb"\r\n|\n\r|\r|\n", text)]
    match = TOKEN.match(text, starts[line - 1] + column - 1)
    return match.group().decode("latin-1") if match else "<eof>"


def compare(text):
    """Whether both name one token; or why there is nothing to compare; and what luac says."""
    theirs = refusal(["luac5.4", "-p", "-"], text)
    ours = re.fullmatch(r"-:(\d+):(\d+): (\w+)", refusal([sys.argv[1], "check"], text))
    near = re.search(r"stdin:\d+: (.*) near (?:'(.*)'|(<eof>))$", theirs, re.DOTALL)
    if not ours or not near or ours.group(3) != "Syntax":
        return "no token to compare", theirs
    found = token_at(text, int(ours.group(1)), int(ours.group(2)))
    said = near.group(2) or near.group(3)
    return ("same" if found.startswith(said) or said.startswith(found) else "other"), f"{near.group(1)} near {said}; luafmt: {found}"


def main():
    count = int(sys.argv[3]) if len(sys.argv) > 3 else 3
    pick = random.Random(1)
    copies = []
    for where, _, names in sorted(os.walk(sys.argv[2])):
        for name in sorted(names):
            with open(os.path.join(where, name), "rb") as file:
                text = file.read(MOST + 1)
            places = spans(text) if len(text) <= MOST and text[:1] not in (b"\x1b", b"#", b"\xef") else []
            copies += [changed(text, places, pick) for _ in range(count) if places]
    kinds, examples = collections.Counter(), {}
    with concurrent.futures.ThreadPoolExecutor(4) as pool:
        for kind, said in pool.map(compare, copies):
            kinds[kind] += 1
            if kind == "other":
                message = re.sub(r"'.*?'|line \d+", "..", said.partition(" near ")[0])
                examples.setdefault(message, []).append(said)
    for message, all_said in sorted(examples.items(), key=lambda item: -len(item[1])):
        print(f"{len(all_said):6} {message}: {all_said[0][:120]}")
    print(", ".join(f"{number} {kind}" for kind, number in kinds.most_common()))


main()
