# shellcheck shell=bash
# What every command here shares: words, arguments, packages, the kit. Sourced, not run; a command sets `me`, its name, first.
# A command ends with status 2 for trouble, wrong usage too; what 0 and 1 mean it says itself.
repo=$(cd "$(dirname "${BASH_SOURCE[0]}")/.." && pwd)

trouble() {
    printf '%s: %s\n' "$me" "$*" >&2
    exit 2
}

# ---- arguments

# The lines of the command's own head, up to the first that is no comment.
usage() {
    awk 'NR > 1 && !/^#/ { exit } NR > 1 { sub(/^# ?/, ""); print }' "$0"
}

help_asked() { # WORDS..
    case ${1:-} in -h | --help) usage; exit 0 ;; esac
}

wrong() { # [WHAT]
    [ $# = 0 ] || printf '%s: %s\n' "$me" "$*" >&2
    usage >&2
    exit 2
}

# 18 digits are what bash, awk and the oracle all count with.
is_count() { # NAME WORD
    [[ $2 =~ ^[0-9]{1,18}$ ]] && [ "$2" -gt 0 ] || wrong "$1 is a whole number from 1 on, of 18 digits at most, and not '$2'"
}

is_seed() { # NAME WORD
    [[ $2 =~ ^[0-9]{1,18}$ ]] || wrong "$1 is a whole number of 18 digits at most, and not '$2'"
}

# ---- what a command needs: all of it is looked for before anything is built, so that one run tells all that is missing

missing=()

lacks() { # WHAT
    local known
    for known in "${missing[@]}"; do [ "$known" != "$1" ] || return 0; done
    missing+=("$1")
}

need() { # COMMAND PACKAGE
    command -v "$1" >/dev/null || lacks "$1 (Debian: $2)"
}

# The kit, and what it builds, is for x86-64.
need_kit() {
    command -v rt >/dev/null || lacks "rt (the Rattle kit, with its bin in PATH)"
    need flock util-linux
    [ "$(uname -m)" = x86_64 ] || need qemu-x86_64 qemu-user
}

# Of a file that it does not have a compiler prints the bare name. Where the compiler is missing too, Debian's places are looked at.
need_library() { # COMPILER FILE PACKAGE PLACE
    local file=$4/$2
    if command -v "$1" >/dev/null; then
        file=$("$1" -print-file-name="$2") || file=$2
    fi
    [[ $file == /* && -e $file ]] || lacks "the C library for $1 (Debian: $3)"
}

# A compiler for x86-64 that links statically, in `compiler`; on another processor also what runs its programs.
need_compiler() {
    if [ "$(uname -m)" = x86_64 ]; then
        compiler=gcc
        need gcc gcc
        need_library gcc libc.a libc6-dev /usr/lib/x86_64-linux-gnu
    else
        compiler=x86_64-linux-gnu-gcc
        need "$compiler" gcc-x86-64-linux-gnu
        need_library "$compiler" libc.a libc6-dev-amd64-cross /usr/x86_64-linux-gnu/lib
        need qemu-x86_64 qemu-user
    fi
}

# For tools/insns, which builds a plugin for this processor.
need_counter() {
    need qemu-x86_64 qemu-user
    need gcc gcc
    need_library gcc crti.o libc6-dev "/usr/lib/$(uname -m)-linux-gnu"
}

all_there() {
    local list
    [ ${#missing[@]} = 0 ] && return
    list=$(printf ', %s' "${missing[@]}")
    trouble "missing: ${list#, }. Nothing was built"
}

compile() { # WORDS..
    local math
    read -ra math < <("$repo/tools/libm" "$compiler")
    "$compiler" -std=gnu11 -O2 -Wall -Wextra -static "$@" "${math[@]}"
}

# ---- a run

# A folder for what is read and printed. A command that fails without a word of its own is trouble, and never status 1.
begin() {
    set -E
    trap 'exit 2' ERR
    room=$(mktemp -d)
    trap 'rm -rf "$room"' EXIT
}

# Where the kit is, in `kit`: the one that `rt` lies in. In `tools` what it links programs with.
find_kit() {
    command -v rt >/dev/null ||
        trouble "rt, the command of the Rattle kit, is not in PATH: install the kit, or put its bin into PATH"
    kit=$(cd "$(dirname "$(readlink -f "$(command -v rt)")")/.." && pwd -P)
    tools=$kit/toolchain
    [ -f "$tools/lib/ld-linux-x86-64.so.2" ] || trouble "$(command -v rt) is no command of a Rattle kit: see PATH"
}

# Passes on what `rt` says, and behind each crate's verdict its seconds: `rt: NAME proved (N s)`, which `rt` does not say itself.
by_crate() {
    local line name='' since=$SECONDS
    while IFS= read -r line; do
        printf '%s\n' "$line"
        case $line in
        '== summary') name='' ;;
        '== '*) name=${line#== } ;;
        'crate '*': modules '*) name=${line#crate } name=${name%%:*} ;;
        'logic=proved '*)
            [ -z "$name" ] || printf 'rt: %s proved (%d s)\n' "$name" $((SECONDS - since))
            since=$SECONDS
            ;;
        esac
    done
}

# Tells of each crate that is proved now. What has not changed comes at once and is not told; two seconds without a line are a proof.
progress() { # WHAT, and how long it takes
    local line='' part='' state told=''
    while :; do
        state=0
        IFS= read -r -t 2 part || state=$?
        line+=$part
        if [ "$state" = 0 ] && [[ ! $line =~ ^rt:\ [a-z_0-9]+\ proved\ \([0-9]+\ s\)$ ]]; then
            line=''
            continue
        fi
        [ "$state" = 0 ] || [ "$state" -gt 128 ] || break
        [ -n "$told" ] || echo "$me: $1. By crate:" >&2
        told=yes
        if [ "$state" = 0 ]; then
            echo "$me: ${line#rt: }" >&2
            line=''
        fi
    done
}
