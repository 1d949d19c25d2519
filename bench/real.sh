#!/usr/bin/env bash
# Minifies real Lua, and compares it with what luac5.4 says: the Lua files of the Debian packages of corpus.sh.
#
#     bench/real.sh [LUAFMT]
#
# It unpacks them into ${TMPDIR:-/tmp}/luafmt-real, where they stay and are not fetched
# again, and runs real.py on them, whose head says what is compared. LUAFMT is a built program; without it, luafmt is proved
# and built first. Its status is 1 if there is a difference. It needs python3, and is skipped where apt-get, dpkg-deb or
# luac5.4 is missing, or where no package can be fetched.
set -euo pipefail
cd "$(dirname "$0")"
. ./corpus.sh

need apt-get apt-cache dpkg-deb luac5.4
fetch "${packages[@]}"
if [ -z "$(ls -A "$corpus")" ]; then
    echo "real.sh: skipped, no package could be fetched"
    exit 0
fi
luafmt="${1:-../crates/luafmt/out/luafmt}"
[ $# -gt 0 ] || (cd ../crates/luafmt && rt run -- minify </dev/null >/dev/null)
export PYTHONDONTWRITEBYTECODE=1
python3 real.py "$luafmt" "$corpus" minify
python3 real.py "$luafmt" "$corpus" format
printf "column_width = 20\n" >"$corpus.toml"
python3 real.py "$luafmt" "$corpus" format --config "$corpus.toml"
