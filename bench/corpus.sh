# The Lua files of some Debian packages, for scripts that source this one. It needs apt-get, apt-cache, dpkg-deb and python3.
corpus="${TMPDIR:-/tmp}/luafmt-real"
packages=(
    awesome awesome-extra conky-all context darktable enigma-data freeciv-data freeciv-server
    knot-resolver libquvi-scripts-0.9 lmod lua-argparse lua-basexx lua-busted lua-check lua-cliargs lua-compat53
    lua-copas lua-cosmo lua-cqueues lua-dkjson lua-http lua-inifile lua-inspect lua-json lua-ldoc lua-leg lua-lemock lua-lgi
    lua-ljsyscall lua-logging lua-lpeg lua-lpeg-patterns lua-luassert lua-markdown lua-mediator
    lua-messagepack lua-moses lua-nginx-cookie lua-nginx-dns lua-nginx-kafka lua-nginx-memcached lua-nginx-redis
    lua-nginx-redis-connector lua-nginx-string lua-nginx-websocket lua-nvim lua-orbit lua-penlight lua-posix lua-redis
    lua-resty-core lua-resty-lrucache lua-rings lua-say lua-sec lua-soap lua-socket lua-socket-dev lua-unit lua-uri lua-wsapi
    lua-xmlrpc luakit luarocks minetest-data minetest-mod-3d-armor minetest-mod-ethereal minetest-mod-homedecor
    minetest-mod-mesecons minetest-mod-mobs-redo minetest-mod-pipeworks minetest-mod-worldedit minetest-mod-xdecor
    neovim-runtime nmap-common prosody prosody-modules rspamd scite texlive-luatex vis vlc-data
    wesnoth-1.16-data
)

# Ends the script where a program that it needs is missing.
need() {
    local program
    for program in "$@"; do
        if ! command -v "$program" >/dev/null; then
            echo "$(basename "$0"): skipped, $program is missing"
            exit 0
        fi
    done
}

# Fetches those of the packages named that are not there yet, in one call, and keeps of each its Lua files alone.
fetch() {
    local archives package archive wanted known
    archives="$(mktemp -d)"
    trap 'rm -rf "$archives"' RETURN
    mkdir -p "$corpus"
    mapfile -t wanted < <(printf '%s\n' "$@" | while read -r package; do
        [ -d "$corpus/$package" ] || echo "$package"
    done)
    [ ${#wanted[@]} -gt 0 ] || return 0
    mapfile -t known < <(printf '%s\n' "${wanted[@]}" | sort | comm -12 - <(apt-cache pkgnames | sort))
    [ ${#known[@]} -gt 0 ] || return 0
    echo "$(basename "$0"): fetching ${#known[@]} packages into $corpus" >&2
    (cd "$archives" && apt-get -qq download "${known[@]}") >/dev/null 2>&1 || true
    for archive in "$archives"/*.deb; do
        [ -e "$archive" ] || continue
        package="$(basename "$archive")"
        package="${package%%_*}"
        dpkg-deb --fsys-tarfile "$archive" | python3 unpack.py "$archives/$package"
        mv "$archives/$package" "$corpus/$package"
        rm "$archive"
    done
}
