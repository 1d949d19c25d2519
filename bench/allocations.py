"""Refuses each allocation in turn, and looks at what is answered.

    allocations.py [TESTS [LUAFMT]]

TESTS are the built tests of luf_rows, and LUAFMT is the built program; without them, both are proved and built first. Each
test of crates/luf_rows/src/memory.rt is run once for each of its allocations, which is refused then: the test has to end with
the name of the call that had no memory, which it does only where all that comes after the refusal is right. Where a block was
to be cut down to what it holds, the test may as well pass. Then each command of the program is run so: it has to answer 6,
write nothing on its streams, and leave each file as it was or, of two files, the first rewritten; or to answer as with memory,
where it can do without that block. The status is 1 if something else happens, which is printed.

It needs gdb, which runs it: a breakpoint stands at the two functions by which a program takes memory, and there malloc or
realloc gives nothing.
"""
import collections
import os
import shlex
import subprocess
import sys
import tempfile
import time

try:
    import gdb
except ImportError:
    words = [os.path.abspath(sys.argv[0]), *map(os.path.abspath, sys.argv[1:])]
    os.execvp("gdb", ["gdb", "-q", "-nx", "-batch", "-ex", f"python import sys; sys.argv = {words!r}", "-x", words[0]])

CRATES = os.path.join(os.path.dirname(sys.argv[0]), "..", "crates")
TAKERS = {"rattle_alloc": "malloc", "rattle_realloc": "realloc"}
REFUSED, NOT_CUT, DONE_WITHOUT = "refused", "not cut down", "done without"
NAMED = "no memory: "
ABORTED, NO_MEMORY = -6, 6
SOURCE = b"""#!lua
local a <const>, b = 'x', [[y]] -- said
local function f(x, ...)
  if x then return ... elseif b then goto out else f{1, k = 2; [3] = f'y'} end
  for i = 1, 2 do a1.b:m(-x ^ 2 .. "a'b")[i] = nil break end
  ::out::
end
"""
# What luac5.4 -s writes of an empty source.
CHUNK = bytes.fromhex("1b4c7561540019930d0a1a0a0408087856" + 11 * "00" + "287740018080800001028251000000460001018081010000" + 5 * "80")
OPTIONS = b'column_width = 40\nquote_style = "ForceSingle"\n'
FILES = {"s.lua": SOURCE, "t.lua": b"f  ( )", "o.toml": OPTIONS, "c.luac": CHUNK}
COMMANDS = [
    "check", "minify", "format", "format --config o.toml", "list", "check s.lua t.lua", "format --check t.lua",
    "format --config o.toml --write t.lua s.lua", "list c.luac", "format --nothing", "check none.lua",
]


def tell(*commands):
    for command in commands:
        gdb.execute(command, to_string=True)


def built(crate, command, program):
    """A program of a crate, proved and built."""
    folder = os.path.join(CRATES, crate)
    subprocess.run(["rt", *command], cwd=folder, stdin=subprocess.DEVNULL, stdout=subprocess.DEVNULL, check=True)
    return os.path.join(folder, "out", program)


def refuse(taker):
    """The call of `taker` at which the program stands finds no memory. Whether it was to have more than is kept of a block."""
    kept, wanted = (int(gdb.newest_frame().read_register(name)) for name in ("rsi", "rdx"))
    tell(f"advance *'{TAKERS[taker]}@plt'", "return (void *) 0")
    return NOT_CUT if taker == "rattle_realloc" and wanted == kept else REFUSED


class Runs:
    """Runs of a program, each in a new folder with the same files."""

    def __init__(self, program, files):
        self.files = files
        tell(f"file {shlex.quote(program)}")

    def run(self, words, given=b"", taker=None, number=0):
        """What a run answers (its status, what it writes, the files behind it), and what became of this call of a taker."""
        with tempfile.TemporaryDirectory() as place:
            folder = os.path.join(place, "files")
            os.mkdir(folder)
            for name, content in [*((f"files/{name}", content) for name, content in self.files.items()), ("in", given)]:
                with open(os.path.join(place, name), "wb") as file:
                    file.write(content)
            stop = gdb.Breakpoint(f"*{taker}") if taker else None
            if stop:
                stop.ignore_count = number - 1
            tell(f"set cwd {folder}", f"run {words} < {place}/in > {place}/out 2> {place}/err")
            told = None
            if gdb.selected_inferior().pid:
                told = refuse(taker)
                stop.enabled = False
                tell("continue")
            if stop:
                stop.delete()
            signal, code = gdb.convenience_variable("_exitsignal"), gdb.convenience_variable("_exitcode")
            status = int(code) if signal is None else -int(signal)
            out, err = (open(os.path.join(place, name), "rb").read() for name in ("out", "err"))
            return (status, out, err, {entry.name: open(entry.path, "rb").read() for entry in os.scandir(folder)}), told

    def sweep(self, words, given=b""):
        """Yields the answer where each call of a taker is refused in turn, with what became of that call."""
        for taker in TAKERS:
            number, told = 0, REFUSED
            while told:
                number += 1
                answer, told = self.run(words, given, taker, number)
                if told:
                    yield f"{words}, {taker} {number}", answer, told


def call_of(said):
    """The call that a test named as it ended."""
    lines = [line for line in said.decode().splitlines() if NAMED in line]
    return lines[0].split(NAMED)[1] if len(lines) == 1 else None


def sweep_test(runs, name):
    """How often each call was refused, and the faults."""
    counts, faults = collections.Counter(), []
    if runs.run(name)[0][0] != 0:
        return counts, [f"{name} fails with memory"]
    for which, answer, told in runs.sweep(name):
        status, _, said, _ = answer
        if status == ABORTED and call_of(said):
            counts[call_of(said)] += 1
        elif status == 0 and told == NOT_CUT:
            counts[NOT_CUT] += 1
        else:
            faults.append(f"{which}, {told}: {answer[:3]!r}")
    return counts, faults


def is_refusal(answer, usual):
    """No memory: nothing is told, and what is written of the files is all that has come to its turn."""
    status, out, err, held = answer
    whole = all(held[name] in (FILES[name], usual[3][name]) for name in FILES)
    return (status, out, err) == (NO_MEMORY, b"", b"") and held.keys() == FILES.keys() and whole


def sweep_command(runs, command):
    """What became of the allocations, and the faults."""
    counts, faults = collections.Counter(), []
    given = FILES["c.luac" if command == "list" else "s.lua"]
    usual, _ = runs.run(command, given)
    for which, answer, told in runs.sweep(command, given):
        if is_refusal(answer, usual):
            counts[REFUSED] += 1
        elif answer == usual:
            counts[NOT_CUT if told == NOT_CUT else DONE_WITHOUT] += 1
        else:
            faults.append(f"{which}, {told}: {answer[:3]!r}")
    return counts, faults


def main():
    began = time.time()
    report = os.fdopen(os.dup(1), "w")
    # What gdb itself says goes nowhere.
    os.dup2(os.open(os.devnull, os.O_WRONLY), 1)
    tests = sys.argv[1] if len(sys.argv) > 1 else built("luf_rows", ["test"], "luf_rows_tests")
    luafmt = sys.argv[2] if len(sys.argv) > 2 else built("luafmt", ["run", "--", "minify"], "luafmt")
    tell("set confirm off", "set pagination off", "set debug-file-directory /none", "handle all nostop noprint pass")
    listed = subprocess.run([tests, "--list"], capture_output=True, check=True).stdout.decode().split()
    sweeps = [(tests, {}, sweep_test, word[:-1]) for word in listed if word.startswith("memory::")]
    sweeps += [(luafmt, FILES, sweep_command, command) for command in COMMANDS]
    faults = []
    for program, files, sweep, words in sweeps:
        counts, more = sweep(Runs(program, files), words)
        faults += more
        print(f"{words}:", ", ".join(f"{what} {count}" for what, count in sorted(counts.items())), file=report, flush=True)
    print(*(f"FAULT {fault}" for fault in faults), f"{time.time() - began:.0f} s", sep="\n", file=report, flush=True)
    tell(f"quit {1 if faults else 0}")


if __name__ == "__main__":
    main()
