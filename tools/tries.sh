# shellcheck shell=bash
# What the tries of the commands share: a line for each try, a made-up kit, and a checkout over it. Sourced after common.sh, with a folder in
# `room`; the made-up checkout is $room/tree/made.
passed=0 failed=0
made=$room/tree/made
rt=$room/tree/kit/bin

verdict() { # WHAT OK [MORE..]
    if [ "$2" = yes ]; then
        passed=$((passed + 1))
        echo "ok: $1"
    else
        failed=$((failed + 1))
        echo "FAILED: $1"
        shift 2
        printf '    %s\n' "$@"
    fi
}

same() { # WHAT EXPECTED GOT
    if [ "$2" = "$3" ]; then verdict "$1" yes; else verdict "$1" no "expected: $2" "got:      $3"; fi
}

ended() {
    echo "$passed passed, $failed failed"
    [ "$failed" = 0 ]
}

bytes() { # HEX
    printf '%b' "$(sed 's/../\\x&/g' <<<"$1")"
}

digits_of() { # FILE
    sed 's/#.*//' "$1" | tr -d ' \t\r\n'
}

# A sheet and what is printed for it: what the made-up program answers by, and what the real one must print.
know() { # NAME HEX OUTPUT
    bytes "$2" >"$room/table/$1.bin"
    printf '%s\n' "$3" >"$room/table/$1.out"
}

know_examples() {
    local example name
    mkdir "$room/table"
    : >"$room/table/none.out"
    for example in "$repo"/examples/*.hex; do
        name=$(basename "$example" .hex)
        know "$name" "$(digits_of "$example")" "$(cat "$repo/examples/$name.out")"
    done
}

# What the made-up `rt` says from now on, a line each: `wait`, `rest` and `stay` are waits, and a digit is its status.
says() { # LINES..
    printf '%s\n' "$@" >"$rt/says.new"
    mv "$rt/says.new" "$rt/says"
}

# Waits until a command holds, some 20 seconds at most, so that a try that goes wrong ends.
patiently() { # COMMAND..
    local tries=0
    until "$@" || [ $((tries += 1)) -gt 200 ]; do sleep 0.1; done
}

unchanged=('rt: nothing has changed since the last proved build, by out/fitstep.stamp, so nothing is checked now' 0)

# `rt` as far as the commands see it: it notes what it was asked, fails where two run at once, builds a program again only where the source or
# the program has changed since its own stamp, puts the source into the program, so that one can see of which it is, and runs it. What it says
# itself comes on standard error then.
make_rt() {
    echo 'made-up kit 1' >"$room/tree/kit/KIT-ID"
    says "${unchanged[@]}"
    : >"$rt/asked"
    cat >"$rt/rt" <<'RT'
#!/bin/sh
here=$(dirname "$(readlink -f "$0")")
[ "$1" != version ] || exec cat "$here/../KIT-ID"
echo "$*" >>"$here/asked"
exec 3>&1
[ "$1" != run ] || exec >&2
source=$(cat src/main.rt 2>/dev/null)
mkdir "$here/busy" 2>/dev/null || { echo 'logic=not-proved: two at once'; exit 1; }
trap 'rmdir "$here/busy"' EXIT
while read -r line; do
    case $line in wait) sleep 2.5 ;; rest) sleep 1 ;; stay) echo $$ >"$here/stays"; sleep 60 ;; [1-9]) exit "$line" ;; 0) ;; *) echo "$line" ;; esac
done <"$here/says"
[ "$1" = run ] || exit 0
[ -n "$source" ] || { echo 'rt: no crate here'; exit 2; }
name=$(basename "$PWD")
mkdir -p out
if [ ! -f "out/$name" ] || [ "$(cat "out/$name.stamp" 2>/dev/null)" != "$source $(cksum <"out/$name")" ]; then
    sed "s/@SOURCE@/$source/g" "$here/../programs/$name" >"out/$name.new"
    chmod +x "out/$name.new"
    mv "out/$name.new" "out/$name"
    echo "$source $(cksum <"out/$name")" >"out/$name.stamp"
fi
echo "rt: running out/$name; to give it other input, run that file yourself"
"out/$name" >&3
RT
    chmod +x "$rt/rt"
}

# The program looks the sheet's bytes up in the table and prints what stands there; of another source than `one` it prints the source. The
# run that finds a file `hold` takes it, and stays until there is a file `done`. Case F is stored beside it, to be run on.
make_kit() {
    local tools=$room/tree/kit/toolchain name
    mkdir -p "$rt" "$room/tree/kit/programs" "$tools/lib"
    for name in fitstep sheetrun; do
        mkdir -p "$made/crates/$name/src" "$made/crates/$name/must-fail"
        echo one >"$made/crates/$name/src/main.rt"
    done
    cp "$room/table/f.bin" "$made/crates/fitstep/stdin"
    cp -R "$repo/fitstep" "$repo/tools" "$made/"
    echo 'fitstep: sheet' >"$made/crates.txt"
    printf '%s\n' '#!/bin/sh' 'shift 2' 'exec "$@"' >"$tools/lib/ld-linux-x86-64.so.2"
    make_rt
    cat >"$room/tree/kit/programs/fitstep" <<PROGRAM
#!/bin/sh
cat >"$room/came.\$\$"
tries=0
if mv "$room/hold" "$room/holds" 2>/dev/null; then until [ -e "$room/done" ] || [ \$((tries += 1)) -gt 200 ]; do sleep 0.1; done; fi
[ @SOURCE@ = one ] || { echo 'source @SOURCE@'; exit; }
for known in "$room"/table/*.bin; do
    if cmp -s "\$known" "$room/came.\$\$"; then cat "\${known%.bin}.out"; exit; fi
done
exit 3
PROGRAM
    chmod +x "$tools/lib/ld-linux-x86-64.so.2"
}

# A folder for PATH that has no more than these commands and those of every system that bash, awk and the shell's tools come with.
make_narrow() { # FOLDER COMMANDS..
    local folder=$1 name
    shift
    mkdir -p "$folder"
    for name in bash sh awk sed head tail od tr wc cat tee mkdir mktemp rm mv readlink realpath dirname basename uname find sort sha256sum cmp "$@"; do
        ln -s "$(type -P "$name")" "$folder/$name"
    done
}
