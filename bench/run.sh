#!/usr/bin/env bash
# Measures `luafmt minify`, `luafmt check` and `luafmt format` beside `luac5.4 -p`, which parses, and `cat`, which only copies.
#
#     bench/run.sh
#
# It proves and builds luafmt first (`rt run`: minutes in a new checkout, else a second), makes its sources of 0.5, 1, 2
# and 4 MiB in a temporary directory, and prints five tables, each with its targets in the second line: minify.py takes
# small statements, names.py what is hard on new names, lexis.py the whole language, scopes.py what is hard on names and
# jumps, format.py the whole language and what is hard to lay out. It is no test: its status is 0 whatever the numbers are.
# It needs rt and python3; luac5.4 and /usr/bin/time are left out where they are missing, and so are real files where
# real.sh has fetched none. It needs no network.
#
# Seconds are of the processor (user and system), the median of 7 runs that take turns, with output to /dev/null. Other work
# on the machine still changes them by half: read the ratios, and no time by itself. /luac and /cat are luafmt's seconds over
# theirs, growth its seconds over those at half the size, memory its peak in bytes for each byte of source.
set -euo pipefail
cd "$(dirname "$0")"
(cd ../crates/luafmt && rt run -- minify </dev/null >/dev/null)
for table in minify names lexis scopes format; do
    PYTHONDONTWRITEBYTECODE=1 python3 "$table.py" ../crates/luafmt/out/luafmt
done
