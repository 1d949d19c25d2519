"""`luafmt list` on chunks that luac5.4 has compiled, beside `luac5.4 -l -l`.

    list.py LUAFMT MUTANTS FOLDER..

- Each Lua file of the folders is compiled, with and without what only debugging reads. The listings of both programs, in
  the common form of listing.py, have the same functions, operations, operands, constants and upvalues.
- So many chunks with changed bytes are listed or refused, and no run ends otherwise. A refusal is at a byte of the chunk, and
  at its end only where the bytes end before a field does.
- Counts that are far too large take no more memory than an empty chunk.
- Of a chunk of 4 MiB it prints the processor seconds beside those of `luac5.4 -l` and `luac5.4 -l -l`, and the memory.
"""
import collections
import concurrent.futures
import itertools
import os
import random
import re
import subprocess
import sys
import tempfile

from listing import of_luac, of_luafmt
from measure import MIB, TIME, medians, peak_bytes

LUAFMT = [sys.argv[1], "list"]
COMPILE = {"whole": ["luac5.4", "-o", "-", "-"], "stripped": ["luac5.4", "-s", "-o", "-", "-"]}
LUAC_LISTS = ["luac5.4", "-p", "-l", "-l", "-"]
REFUSAL = re.compile(rb"-:(\d+): (BadHeader|Short|BadSize|BadTag|Nested|Trailing)\n")
LARGEST_COUNT = b"\x07\x7f\x7f\x7f\xff"
SMALL = 4096  # bytes of a chunk that is mutated
WORKERS = 4


def run(command, text):
    return subprocess.run(command, input=text, capture_output=True)


def compare(path):
    """What there is to tell of a file, for each way in which it is compiled; and its chunks."""
    with open(path, "rb") as file:
        text = file.read()
    told = []
    for how, command in COMPILE.items():
        compiled = run(command, text)
        if compiled.returncode != 0 or text.startswith(b"\x1bLua"):
            return [("not compiled", "", b"")]
        ours, theirs = run(LUAFMT, compiled.stdout), run(LUAC_LISTS, compiled.stdout)
        if ours.returncode != 0:
            told.append(("DIFFERENCE", f"{how}: status {ours.returncode} {ours.stderr.decode()}", b""))
            continue
        pairs = itertools.zip_longest(of_luafmt(ours.stdout), of_luac(theirs.stdout))
        differ = next((pair for pair in pairs if pair[0] != pair[1]), None)
        kind, why = ("DIFFERENCE", f"{how}: {differ[0]!r}, luac: {differ[1]!r}") if differ else (how, "")
        told.append((kind, why, compiled.stdout))
    return told


def mutated(chunk, dice):
    """A chunk with one to three changes: a bit, a byte, a stretch that is left out or repeated, a large count, or an end."""
    chunk = bytearray(chunk)
    for _ in range(dice.choice([1, 1, 1, 2, 3])):
        at = dice.randrange(len(chunk)) if chunk else 0
        change = dice.randrange(7)
        if change == 0 and chunk:
            chunk[at] ^= 1 << dice.randrange(8)
        elif change == 1 and chunk:
            chunk[at] = dice.choice([0, 1, 4, 0x13, 0x14, 0x7F, 0x80, 0x81, 0xFF, dice.randrange(256)])
        elif change == 2:
            del chunk[at:at + dice.randrange(1, 9)]
        elif change == 3:
            chunk[at:at] = chunk[at:at + dice.randrange(1, 9)]
        elif change == 4:
            chunk[at:at + 1] = dice.choice([LARGEST_COUNT, b"\x7f" * 8 + b"\xff", b"\x01" + b"\x7f" * 8 + b"\xff", b"\x00\x80"])
        elif change == 5:
            del chunk[at:]
        else:
            chunk += bytes([dice.randrange(256)])
    return bytes(chunk)


def try_mutant(chunk):
    """The word of the refusal, `listed`, or a difference with what is wrong."""
    ran = run(LUAFMT, chunk)
    if ran.returncode == 0:
        listed = ran.stdout.startswith(b"function 0 params ") and ran.stdout.endswith(b"\n") and not ran.stderr
        return "listed" if listed else f"DIFFERENCE: status 0, {ran.stdout[:80]!r} {ran.stderr!r}"
    refusal = REFUSAL.fullmatch(ran.stderr)
    if ran.returncode != 3 or ran.stdout or not refusal:
        return f"DIFFERENCE: status {ran.returncode}, {ran.stderr!r}"
    at, word = int(refusal[1]), refusal[2].decode()
    if at > len(chunk) or (at == len(chunk) and word not in ("Short", "Nested")):
        return f"DIFFERENCE: {word} at {at} of {len(chunk)} bytes"
    return word


def compare_all(pool, folders):
    """Prints the differences, and how many files there are of each kind. The chunks come back, and whether all is well."""
    paths = sorted(os.path.join(where, name) for f in folders for where, _, names in os.walk(f) for name in names)
    count, chunks = collections.Counter(), []
    for path, told in zip(paths, pool.map(compare, paths)):
        for kind, why, chunk in told:
            count[kind] += 1
            if kind == "DIFFERENCE":
                print(f"{path}: {why}", flush=True)
            elif chunk:
                chunks.append(chunk)
    print(f"{len(paths)} files, {sum(map(len, chunks))} bytes of chunks: {count['whole']} listed whole and "
          f"{count['stripped']} stripped as luac lists them, {count['not compiled']} not compiled by luac, "
          f"{count['DIFFERENCE']} differences", flush=True)
    return chunks, count["DIFFERENCE"] == 0


def mutate_all(pool, chunks, number):
    dice = random.Random(5)
    small = [chunk for chunk in chunks if len(chunk) <= SMALL]
    count = collections.Counter()
    mutants = (mutated(dice.choice(small), dice) for _ in range(number))
    while batch := list(itertools.islice(mutants, 1000)):
        for chunk, answer in zip(batch, pool.map(try_mutant, batch)):
            if answer.startswith("DIFFERENCE"):
                print(answer, chunk.hex(), flush=True)
                answer = "DIFFERENCE"
            count[answer] += 1
    print(f"{number} mutants of {len(small)} chunks:", dict(count.most_common()), flush=True)
    return count["DIFFERENCE"] == 0


def large_source(lines):
    """So many lines of functions, calls, tables and loops, in functions of 100 lines, and each with a number of its own."""
    shapes = [
        "t{0} = {{ {0}, \"q{0}\", k = 'r', [x] = {0}.5 }}", "x = function(y, z) return y + z * {0}, y .. \"s{0}\" end",
        "for i = 1, {0} do if i == x then break end x.a.b(i, {0}) end", "x = y and {0} or z < {0} and not x",
    ]
    return "\n".join(
        ("function f(x, y, z)\n" if n % 100 == 0 else "") + shapes[n % len(shapes)].format(n) + ("\nend" if n % 100 == 99 else "")
        for n in range(lines - lines % 100)
    ).encode()


def measure(folder):
    """The largest chunk within 4 MiB of such lines, with what the listing takes."""
    path, lines = f"{folder}/large", 10000
    for _ in range(4):
        chunk = run(COMPILE["stripped"], large_source(lines)).stdout
        if len(chunk) <= 4 * MIB and 4 * MIB - len(chunk) < MIB // 32:
            break
        lines = lines * 4 * MIB // len(chunk) * 99 // 100
    with open(path, "wb") as file:
        file.write(chunk)
    one, two = ["luac5.4", "-p", "-l", "-"], LUAC_LISTS
    ours, once, twice = medians([(LUAFMT, path), (one, path), (two, path)])
    print(f"{len(chunk)} bytes of chunk, {len(run(LUAFMT, chunk).stdout)} of listing: luafmt {ours:.3f} s, luac -l {once:.3f} s "
          f"({ours / once:.2f} times), luac -l -l {twice:.3f} s ({ours / twice:.2f} times)")
    if os.path.exists(TIME):
        print(f"memory: {peak_bytes(LUAFMT, path) / len(chunk):.1f} bytes a byte")


def hostile(folder):
    """The memory that an empty chunk takes, and the most that it takes with a count far too large, wherever that stands."""
    empty = run(COMPILE["stripped"], b"").stdout
    peaks = []
    for chunk in [empty] + [empty[:at] + LARGEST_COUNT + empty[at + 1:] for at in range(31, len(empty))]:
        with open(f"{folder}/hostile", "wb") as file:
            file.write(chunk)
        peaks.append(peak_of(f"{folder}/hostile"))
    print(f"memory: an empty chunk takes {peaks[0] // 1024} KiB, with a count of 2^31 - 1 at most {max(peaks) // 1024} KiB")
    return max(peaks) < peaks[0] + MIB


def peak_of(path):
    with open(path) as stdin:
        how = {"stdin": stdin, "stdout": subprocess.DEVNULL, "stderr": subprocess.PIPE}
        return 1024 * int(subprocess.run([TIME, "-q", "-f", "%M", *LUAFMT], text=True, **how).stderr.splitlines()[-1])


def main():
    number, folders = int(sys.argv[2]), sys.argv[3:]
    with concurrent.futures.ThreadPoolExecutor(WORKERS) as pool:
        chunks, same = compare_all(pool, folders)
        sound = mutate_all(pool, chunks, number)
    with tempfile.TemporaryDirectory() as folder:
        sound = (hostile(folder) if os.path.exists(TIME) else True) and sound
        measure(folder)
    sys.exit(0 if same and sound else 1)


main()
