#!/usr/bin/env bash
# Lists chunks that luac5.4 has compiled of real Lua, wrong ones, and one of 4 MiB, beside `luac5.4 -l -l`.
#
#     bench/list.sh [LUAFMT [MUTANTS]]
#
# It takes the Lua files of the packages of corpus.sh whose names begin with lua-, which it fetches where they are missing, and
# runs list.py on them, whose head says what is compared. LUAFMT is a built program; without it, luafmt is proved and built
# first. MUTANTS is how many wrong chunks are tried, 20,000 if it is not given. Its status is 1 if there is a difference. It
# needs python3 and /usr/bin/time, and is skipped where apt-get, dpkg-deb or luac5.4 is missing, or where no package can be
# fetched.
set -euo pipefail
cd "$(dirname "$0")"
. ./corpus.sh

need apt-get apt-cache dpkg-deb luac5.4
mapfile -t lua_packages < <(printf '%s\n' "${packages[@]}" | grep '^lua-')
fetch "${lua_packages[@]}"
if ! compgen -G "$corpus/lua-*" >/dev/null; then
    echo "list.sh: skipped, no package could be fetched"
    exit 0
fi
luafmt="${1:-../crates/luafmt/out/luafmt}"
[ $# -gt 0 ] || (cd ../crates/luafmt && rt run -- minify </dev/null >/dev/null)
PYTHONDONTWRITEBYTECODE=1 python3 list.py "$luafmt" "${2:-20000}" "$corpus"/lua-*
