"""`luafmt minify` or `luafmt format` on the Lua files of a folder, beside luac5.4.

    real.py LUAFMT FOLDER JOB [WORDS..]

JOB is `minify` or `format`; WORDS stand behind it, as `--config narrow.toml`.

- luafmt takes a file exactly where luac5.4 does. Told apart are: where luac refuses for a limit of its own, where luafmt does,
  and compiled chunks, which are no Lua.
- The text of a file is compiled to the same stripped chunk, without lines (chunk.py). Where luac refuses the file for a limit of
  its own, it refuses its text for the same.
- A minified text is never longer than the file, but for the line feed of a `#` line. A formatted text has the comments of the
  file in their order, short ones without the blanks at their end.
- How often a text is its own text is counted: of a minified text that is no promise.
"""
import collections
import concurrent.futures
import os
import re
import subprocess
import sys

from chunk import without_lines

JOB = sys.argv[3]
LUAFMT = [sys.argv[1], *sys.argv[3:]]
LUAC = ["luac5.4", "-s", "-o", "-", "-"]
OWN_LIMITS = ("TooLarge", "TooDeep", "ResultTooLarge")
# What luac refuses by its rules on names and jumps, and by its own limits, by its messages in lparser.c, lcode.c, ldo.c
# and lstate.c.
SCOPE = re.compile(
    "break outside|no visible label|jumps into the scope|label '.*' already defined|cannot use '...' outside"
    "|attempt to assign to const|unknown attribute|multiple to-be-closed"
)
LIMIT = re.compile("too many |C stack overflow|chunk has too many|control structure too long|constants? overflow")
RULE = "{:<22} {}".format
# A comment, or a string, which may hold what looks like one.
COMMENT = re.compile(
    rb"(?P<long>--\[(?P<a>=*)\[.*?\](?P=a)\])|(?P<short>--[^\r\n]*)"
    rb"|\[(?P<b>=*)\[.*?\](?P=b)\]|\"(?:\\.|[^\"\\])*\"|'(?:\\.|[^'\\])*'",
    re.DOTALL,
)


def run(command, text):
    return subprocess.run(command, input=text, capture_output=True)


def cause(message):
    """The message of luac, without the name of the source, without lines and without the token that it stopped at."""
    message = message.decode("utf-8", "replace").strip().removeprefix("luac5.4: ").partition(" near ")[0]
    return re.sub(r"(at )?line \d+", "line", re.sub(r"^stdin:\d+: ", "", message))


def compare_refusal(luac, made):
    """luac refuses, and luafmt has this answer."""
    why = cause(luac.stderr)
    if made.returncode == 3:
        return "refused by both", why
    if not LIMIT.search(why):
        return "DIFFERENCE", f"luac: {why}; luafmt: status {made.returncode}"
    again = cause(run(LUAC, made.stdout).stderr)
    if again != why:
        return "DIFFERENCE", f"luac: {why}; of the text: {again}"
    return "luac alone refuses", why


def comments(text):
    """The comments of a text behind its `#` line, in order."""
    text = text.removeprefix(b"\xef\xbb\xbf")
    if text.startswith(b"#"):
        text = text[re.match(rb"[^\r\n]*", text).end():]
    found = (match.group("long") or (match.group("short") or b"").rstrip(b" \t\v\f") for match in COMMENT.finditer(text))
    return [comment for comment in found if comment]


def wrong_text(text, made):
    """What is wrong with a text that was made of a file, by itself."""
    if JOB == "minify":
        longest = len(text) + text.startswith((b"#", b"\xef\xbb\xbf#"))
        return "the minified text is longer" if len(made) > longest else None
    return "the formatted text has other comments" if comments(text) != comments(made) else None


def compare(path):
    """What there is to tell of a file: its kind, and a text."""
    with open(path, "rb") as file:
        text = file.read()
    if text.startswith(b"\x1bLua"):
        return "compiled chunk", ""
    luac, made = run(LUAC, text), run(LUAFMT, text)
    if made.returncode not in (0, 3):
        return "DIFFERENCE", f"luafmt: status {made.returncode}"
    if luac.returncode != 0:
        return compare_refusal(luac, made)
    if made.returncode == 3:
        refusal = made.stderr.decode().strip()
        limit = refusal.endswith(OWN_LIMITS)
        return "luafmt alone refuses" if limit else "DIFFERENCE", f"luac takes it; luafmt: {refusal}"
    wrong = wrong_text(text, made.stdout)
    if wrong:
        return "DIFFERENCE", wrong
    compiled = run(LUAC, made.stdout)
    if compiled.returncode != 0:
        return "DIFFERENCE", f"luac on the text: {cause(compiled.stderr)}"
    if without_lines(luac.stdout) != without_lines(compiled.stdout):
        return "DIFFERENCE", "the text is compiled to another chunk"
    again = run(LUAFMT, made.stdout).stdout == made.stdout
    return "accepted", f"{len(text)} {len(made.stdout)} {again:d}"


def main():
    folder = sys.argv[2]
    paths = sorted(os.path.join(where, name) for where, _, names in os.walk(folder) for name in names)
    count, before, after, once = collections.Counter(), 0, 0, 0
    with concurrent.futures.ThreadPoolExecutor(2) as pool:
        for path, (kind, text) in zip(paths, pool.map(compare, paths)):
            count[kind] += 1
            if kind == "accepted":
                sizes = text.split()
                before, after, once = before + int(sizes[0]), after + int(sizes[1]), once + int(sizes[2])
            elif kind != "refused by both":
                print(RULE(kind, f"{os.path.relpath(path, folder)}: {text}"), flush=True)
    print(f"{before} bytes accepted, to {after}; {once} of the texts are their own texts")
    print(
        f"{len(paths)} files: {count['accepted']} accepted, {count['refused by both']} refused by both, "
        f"{count['luac alone refuses']} refused by luac alone for no cause of grammar, "
        f"{count['luafmt alone refuses']} above a limit of luafmt, "
        f"{count['compiled chunk']} compiled chunks, {count['DIFFERENCE']} differences"
    )
    sys.exit(1 if count["DIFFERENCE"] else 0)


main()
