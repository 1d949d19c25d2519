"""What the measurements share: the programs, their seconds and their memory."""
import os
import shutil
import statistics
import subprocess
import sys

MIB = 1 << 20
SIZES = [MIB // 2, MIB, 2 * MIB, 4 * MIB]
RUNS = 7
TIME = "/usr/bin/time"
# the program and its job, and what stands behind it
LUAFMT = [sys.argv[1], *(sys.argv[2:] or ["minify"])]
LUAC = ["luac5.4", "-p", "-"] if shutil.which("luac5.4") else None
ROW = "{:>8} {:>9} {:>9} {:>9} {:>9} {:>7} {:>7} {:>7} {:>7}".format


def seconds(command, source, status_wanted=0):
    """The processor time of one run, which has to end with this status."""
    with open(source) as stdin:
        child = subprocess.Popen(command, stdin=stdin, stdout=subprocess.DEVNULL, stderr=subprocess.DEVNULL)
        _, status, used = os.wait4(child.pid, 0)
    child.returncode = os.waitstatus_to_exitcode(status)
    if child.returncode != status_wanted:
        sys.exit(f"{' '.join(command)}: status {child.returncode}")
    return used.ru_utime + used.ru_stime


def medians(jobs):
    """The median seconds of each job. The jobs take turns, so that other work on the machine slows each of them alike."""
    rounds = [[seconds(*job) for job in jobs] for _ in range(RUNS)]
    return [statistics.median(times) for times in zip(*rounds)]


def peak_bytes(command, source):
    """The peak of resident memory. (What wait4 tells begins at Python's own, so it would not do.)"""
    with open(source) as stdin:
        how = {"stdin": stdin, "stdout": subprocess.DEVNULL, "stderr": subprocess.PIPE}
        ran = subprocess.run([TIME, "-f", "%M", *command], text=True, **how)
    return 1024 * int(ran.stderr.splitlines()[-1])


def cell(value, digits=1):
    return "-" if value is None else f"{value:.{digits}f}"


def print_head(luac="<= 2.5", memory="<= 100"):
    if not LUAC:
        print("luac5.4 is not installed: its columns are left out")
    if not os.path.exists(TIME):
        print(f"{TIME} is not installed: the memory column is left out")
    print(ROW("bytes", "shape", "luafmt s", "luac s", "cat s", "/luac", "/cat", "growth", "memory"))
    print(ROW("", "", "", "", "", luac, "", "2", memory))


def print_row(shape, source, for_luac, before, status_wanted=0):
    """Measures the programs on a source, and prints their row. luac is left out where it has no source of its own. The seconds of luafmt
    come back."""
    size = os.path.getsize(source)
    jobs = [(LUAFMT, source, status_wanted), (["cat"], source)] + ([(LUAC, for_luac)] if LUAC and for_luac else [])
    luafmt, cat, luac = (medians(jobs) + [None])[:3]
    memory = peak_bytes(LUAFMT, source) / size if os.path.exists(TIME) else None
    print(ROW(
        size, shape, cell(luafmt, 4), cell(luac, 4), cell(cat, 4),
        cell(luac and luafmt / luac, 2), cell(luafmt / cat),
        cell(before and luafmt / before, 2), cell(memory),
    ), flush=True)
    return luafmt
