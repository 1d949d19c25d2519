"""Keeps the Lua files of a tar archive on standard input: those with the name of one, or with `lua` in their `#!` line."""
import os
import sys
import tarfile

LUA_NAMES = (".lua", ".nse")


def is_lua(name, text):
    first_line = text[:200].split(b"\n", 1)[0]
    return name.endswith(LUA_NAMES) or (first_line.startswith(b"#!") and b"lua" in first_line)


def main():
    folder = sys.argv[1]
    os.makedirs(folder)
    with tarfile.open(fileobj=sys.stdin.buffer, mode="r|") as archive:
        for member in archive:
            if not member.isfile():
                continue
            text = archive.extractfile(member).read()
            if is_lua(member.name, text):
                path = os.path.join(folder, os.path.normpath(member.name).lstrip("./"))
                os.makedirs(os.path.dirname(path), exist_ok=True)
                with open(path, "wb") as file:
                    file.write(text)


main()
