# shellcheck shell=bash
# The check of a program that a command is about to run: one at a time in a checkout, and only where something has changed. Sourced after
# common.sh; `proved` is what commands call. The lock and the verdicts are files below target/. `rt` called by hand takes no lock.
held=''    # the descriptor of the lock
waited=''  # whether it was said that this command waits
sources='' # what a verdict stands on beside the program: one sum of the kit, the processor and every file of the crates

# Takes the lock of this checkout: -s for those who run what is proved, -x for the one that proves. The kernel gives it back when the process
# and all that it started have ended, however they end: a command that is killed leaves none behind, and a proof that outlives its command
# still keeps others from proving beside it. Who removes target/ removes the lock's file too: then it is taken anew.
lock() { # -s or -x
    local file=$repo/target/lock
    while :; do
        [ -z "$held" ] || exec {held}>&-
        { mkdir -p "$repo/target/log" "$repo/target/verdict" && : >>"$file"; } || trouble "cannot write $file"
        exec {held}>>"$file"
        if ! flock -n "$1" "$held"; then
            [ -n "$waited" ] || echo "$me: waiting for other commands in $repo, which prove or run what is to be built anew" >&2
            waited=yes
            flock "$1" "$held" || trouble "cannot lock $file"
        fi
        [ ! "/dev/fd/$held" -ef "$file" ] || return 0
    done
}

# The files that `rt` reads. What it makes itself, the folders out/, is none of them.
each_source() { # WORDS FOR find..
    find -L crates.txt crates -regextype posix-extended -regex 'crates/[^/]+/out' -prune -o -type f "$@"
}

look_at_sources() {
    sources=$({ rt version && uname -m && cd "$repo" && each_source -exec sha256sum {} + | LC_ALL=C sort; } | sha256sum) ||
        trouble "cannot read the sources, or 'rt version' failed"
    sources=${sources%% *}
}

# What the check of NAME leaves to be run or linked.
made_of() { # NAME
    if [ "$1" = root_c ]; then echo "$repo/crates/root_c/out/libroot_c.a"; else echo "$repo/crates/$1/out/$1"; fi
}

verdict_on() { # NAME
    cat "$repo/target/verdict/$1" 2>/dev/null || true
}

# Whether the last verdict on NAME stands: kit and sources are the same, and the program is the one that came of it.
stands() { # NAME
    local program
    program=$(made_of "$1")
    [ -f "$program" ] && [ "$(verdict_on "$1")" = "$sources $(sha256sum <"$program")" ]
}

# By the seconds of the older kit in docs/COST.md, along the crates that wait for one another.
minutes_of() { # NAME
    case $1 in root_c) echo 'a minute' ;; leafrun) echo '2 minutes' ;; fitstep | speed) echo '7 minutes' ;; *) echo '8 minutes' ;; esac
}

# In the crate's folder: what `rt` says on standard output. A program is also run, on what is stored beside it; its own lines go to OUT.
ask_rt() { # NAME OUT
    local input=/dev/null
    [ ! -f stdin ] || input=stdin
    if [ "$1" = root_c ]; then rt lib 2>&1 </dev/null; else rt run 2>&1 >"$2" <"$input"; fi
}

# Proves and builds NAME, and leaves the verdict. The lock is held alone.
check() { # NAME
    local log=$repo/target/log/$1.log out=$repo/target/log/$1.out verb=run status=0 program
    program=$(made_of "$1")
    [ "$1" != root_c ] || verb=lib
    [ -d "$repo/crates/$1" ] || trouble "there is no crate $repo/crates/$1"
    # A program that is gone, or is not the one that came of these sources, is built anew.
    if [ ! -f "$program" ] || [[ $(verdict_on "$1") == "$sources "* ]]; then rm -f "$program" "$program.stamp"; fi
    rm -f "$repo/target/verdict/$1"
    { : >"$log" && : >"$out"; } || trouble "cannot write $log"
    (cd "$repo/crates/$1" && ask_rt "$1" "$out") | by_crate | tee "$log" |
        progress "proving and building $1 first, once: about $(minutes_of "$1") on two processors, by the older kit's seconds, if nothing is proved yet" ||
        status=${PIPESTATUS[0]}
    if [ "$status" != 0 ]; then
        tail -n 5 "$log" >&2
        trouble "the program is not built: 'rt $verb' in crates/$1 ended with status $status. All it said is in $log"
    fi
    [ -f "$program" ] || trouble "'rt $verb' in crates/$1 ended well and left no $program"
    if [ -f "$repo/crates/$1/stdout" ]; then
        cmp -s "$out" "$repo/crates/$1/stdout" || trouble "$1 wrote something else than crates/$1/stdout on what is stored beside it: see $out"
    fi
    # A source that was another for a moment would not show in the sum.
    [ -z "$(cd "$repo" && each_source -cnewer target/verdict/began -print -quit)" ] ||
        trouble "the sources changed while 'rt $verb' ran in crates/$1: run this again"
    echo "$sources $(sha256sum <"$program")" >"$repo/target/verdict/$1"
}

all_stand() { # NAMES..
    local name
    look_at_sources
    for name; do stands "$name" || return 1; done
}

# Sees to it that every NAME is proved and built from the sources as they are, and keeps the lock with others, so that no one builds it
# anew while it runs. Between the two locks another may have worked, so it is looked at again after each.
proved() { # NAMES..
    local name
    find_kit
    need flock util-linux
    all_there
    while :; do
        lock -s
        if all_stand "$@"; then return; fi
        lock -x
        : >"$repo/target/verdict/began"
        look_at_sources
        for name; do stands "$name" || check "$name"; done
    done
}
