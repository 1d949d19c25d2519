#!/usr/bin/env python3
"""Runs the gate, and says what each crate's proof, tests and edits took of it.

    bench/gate.py [COMMAND..]

COMMAND is `rt ci`, or as `rt ci luf_text`; it runs as it would alone, with its output and its status. Its lines are
printed as they come, each behind the seconds since the start. Behind them stands a table with a row a crate, the dearest
first: processor seconds of its proof, of its tests' proof, and of its must-fail edits, and the seconds on the clock from
the first of these to the last. What an earlier run proved is not proved again, and so has no time.

Twice a second it reads from /proc which checks run below COMMAND: the crate is named in the check's words, those of tests
have `--test`, and those of edits run in a folder `rt-edit-..`. What a check does after the last look is not counted.
It needs Linux and python3.
"""

import os
import subprocess
import sys
import threading
import time

TICK = os.sysconf("SC_CLK_TCK")
KINDS = ("proof", "tests", "edits")


def processes():
    """Yields each process: its number, its parent's, and the processor seconds that it and its ended children took."""
    for name in os.listdir("/proc"):
        if name.isdigit():
            try:
                with open(f"/proc/{name}/stat") as file:
                    fields = file.read().rsplit(")", 1)[1].split()
            except OSError:
                continue
            yield int(name), int(fields[1]), sum(map(int, fields[11:15])) / TICK


def job_of(process):
    """Returns the crate and the kind of a check, or None for any other process."""
    try:
        with open(f"/proc/{process}/cmdline") as file:
            words = file.read().split("\0")
        folder = os.readlink(f"/proc/{process}/cwd")
    except OSError:
        return None
    if len(words) < 2 or os.path.basename(words[0]) != "rattle" or "--crate-name" not in words:
        return None
    crate = words[words.index("--crate-name") + 1]
    if "rt-edit-" in folder:
        return crate, "edits"
    return crate, "tests" if "--test" in words else "proof"


def watch(root, took, seen, ended):
    """Notes until the end what the outermost checks below a process took, and when each crate's were seen."""
    jobs = {}
    while not ended.wait(0.5):
        now, found = time.time(), {name: (parent, seconds) for name, parent, seconds in processes()}
        below = {root}
        while more := {name for name, (parent, _) in found.items() if parent in below and name not in below}:
            below |= more
        for name in below & found.keys():
            parent, seconds = found[name]
            job = jobs.get(name) or job_of(name)
            if job and not jobs.get(parent):
                jobs[name] = job
                took[name] = (*job, seconds)
                first, _ = seen.get(job[0], (now, now))
                seen[job[0]] = (first, now)


def main(command):
    start = time.time()
    gate = subprocess.Popen(command, stdout=subprocess.PIPE, stderr=subprocess.STDOUT, text=True, errors="replace")
    took, seen, ended = {}, {}, threading.Event()
    watcher = threading.Thread(target=watch, args=(gate.pid, took, seen, ended))
    watcher.start()
    for line in gate.stdout:
        print(f"{time.time() - start:8.1f} {line}", end="", flush=True)
    status = gate.wait()
    ended.set()
    watcher.join()
    rows = {}
    for crate, kind, seconds in took.values():
        row = rows.setdefault(crate, dict.fromkeys(KINDS, 0.0))
        row[kind] += seconds
    print(f"\n{'crate':16}" + "".join(f"{kind:>10}" for kind in KINDS) + f"{'all':>10}{'clock':>10}")
    for crate, row in sorted(rows.items(), key=lambda it: -sum(it[1].values())):
        first, last = seen[crate]
        print(f"{crate:16}" + "".join(f"{row[kind]:10.0f}" for kind in KINDS) + f"{sum(row.values()):10.0f}{last - first:10.0f}")
    every = [sum(row[kind] for row in rows.values()) for kind in KINDS]
    print(f"{'all':16}" + "".join(f"{it:10.0f}" for it in every) + f"{sum(every):10.0f}{time.time() - start:10.0f}")
    return status


if __name__ == "__main__":
    sys.exit(main(sys.argv[1:] or ["rt", "ci"]))
