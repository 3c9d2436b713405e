# shellcheck shell=bash
# MINPACK-1, from Debian's package minpack-dev for amd64: the installed one, or one taken by apt and unpacked below target/tools, where it
# stays. Nothing is installed, root is not needed. Sourced after common.sh.
unpacked=$repo/target/tools/minpack
archive_name=usr/lib/x86_64-linux-gnu/libminpack.a

need_minpack() {
    [ -f "/$archive_name" ] || [ -f "$unpacked/$archive_name" ] || {
        need apt-get apt
        need dpkg-deb dpkg
    }
}

# By the machine's package lists or, where these have none for amd64, by lists of its own.
fetch() {
    local own=(-o APT::Architecture=amd64 -o APT::Architectures::=amd64 -o APT::Sandbox::User=root)
    own+=(-o "Dir::State::lists=$room/lists" -o "Dir::State::status=$room/status" -o "Dir::Cache=$room/cache")
    cd "$room"
    if ! apt-get -q download minpack-dev:amd64; then
        mkdir -p lists/partial cache/archives/partial
        touch status
        apt-get -q "${own[@]}" update
        apt-get -q "${own[@]}" download minpack-dev:amd64
    fi
}

# Prints where the archive is. It is unpacked under a name of its own first: another may be doing the same.
archive() {
    local deb
    if [ -f "/$archive_name" ]; then
        echo "/$archive_name"
        return
    fi
    if [ ! -f "$unpacked/$archive_name" ]; then
        echo "$me: taking Debian's package minpack-dev for amd64 by apt" >&2
        (fetch) >"$room/log" 2>&1 || true
        deb=$(echo "$room"/minpack-dev_*_amd64.deb)
        [ -f "$deb" ] || { tail -n 3 "$room/log" >&2; trouble "apt could not get Debian's package minpack-dev for amd64"; }
        mkdir -p "$unpacked.$$"
        dpkg-deb -x "$deb" "$unpacked.$$"
        dpkg-deb -f "$deb" Version >"$unpacked.$$/version"
        [ -f "$unpacked/$archive_name" ] || { rm -rf "$unpacked" && mv -T "$unpacked.$$" "$unpacked"; }
        rm -rf "$unpacked.$$"
    fi
    echo "$unpacked/$archive_name"
}

version() {
    dpkg-query -W -f '${Version}' minpack-dev:amd64 2>/dev/null || cat "$unpacked/version" 2>/dev/null || echo unknown
}
