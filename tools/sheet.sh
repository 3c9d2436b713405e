# shellcheck shell=bash
# What every command on job sheets shares: `fitstep` and those to come. Sourced, not run; a command sets `me`, its name, first.
# Exit status of such a command: 0 answered, 1 refused, 2 trouble, which is everything else. Standard output has the program's lines alone.
. "$(dirname "${BASH_SOURCE[0]}")/common.sh"
. "$(dirname "${BASH_SOURCE[0]}")/proved.sh"
longest=17555               # bytes of the longest sheet: m 128, n 16, call 1
most=$((longest + 1))       # what the programs read: a longer input has the lines of its first $most bytes (`overlong` in crates/sheet/proofs)
limit=$((64 * 1024 * 1024)) # more than this is not looked through: it is no sheet, and a pipe may never end
hex='' decimals=''          # the options -x and -d
note=''                     # what is to be said of this sheet should it be refused

# Reads the options and leaves in `words` what is behind them. COUNT words must be there.
options() { # COUNT WORDS..
    local count=$1 option
    shift
    help_asked "$@"
    while getopts :dxh option; do
        case $option in
        d) decimals=yes ;;
        x) hex=yes ;;
        h) usage; exit 0 ;;
        *) wrong ;;
        esac
    done
    shift $((OPTIND - 1))
    words=("$@")
    [ $# = "$count" ] || wrong
}

# ---- a sheet

# What WORD means, as it is, into $room/given; in `name` what to call it, in `form` whether it is text for sure.
given() { # WORD
    form=''
    if [ -n "$hex" ]; then
        digits_given "$1"
    elif [ "$1" = - ]; then
        name='standard input'
        head -c $((limit + 1)) >"$room/given" || trouble "cannot read standard input"
    elif [ -d "$1" ]; then
        trouble "$1 is a directory"
    elif [ -e "$1" ]; then
        name=$1
        [ -r "$1" ] || trouble "$1 may not be read by this user"
        head -c $((limit + 1)) <"$1" >"$room/given" || trouble "cannot read $1"
    else
        no_file "$1"
    fi
    [ "$(wc -c <"$room/given")" -le "$limit" ] || trouble "$name has over 64 MB and is not looked through: the longest sheet has $longest bytes"
}

digits_given() { # DIGITS
    name='the command line' form=text
    printf '%s' "$1" >"$room/given"
}

# A word that is no file may be a sheet, mistyped too, where it begins as one.
no_file() { # WORD
    local missing="there is no such file: '$1'" other='[^0-9A-Fa-fxX[:space:]]'
    [ ${#1} -le 60 ] || missing="there is no such file: '${1:0:57}...'"
    case $1 in
    1[123]* | 0[xX]1[123]*)
        digits_given "$1"
        [[ ! $1 =~ $other ]] || name="$missing; as hex digits"
        ;;
    *)
        [ -z "$1" ] || [[ $1 =~ $other ]] || missing+=' (hex digits that do not begin with 11, 12 or 13, as a sheet does, go behind -x)'
        trouble "$missing"
        ;;
    esac
}

# No text has a NUL or begins with the byte 11, 12 or 13, which a sheet of call 1, 2 or 3 begins with.
is_binary() { # FILE
    case $(od -An -tx1 -N1 "$1" | tr -d ' ') in 11 | 12 | 13) return 0 ;; esac
    [ "$(tr -d '\0' <"$1" | wc -c)" != "$(wc -c <"$1")" ] || return 1
    note="$name has a NUL byte, so it was taken as a binary sheet and not as text"
}

# The hex digits of a text, those of $most bytes at most, in one line; then how many there are in all. The text is looked through to its end,
# and the first character that does not belong there is told with its place: status 3. `0x` before digits becomes blanks, so that places stay.
digits() { # FILE
    ME=$me NAME=$name LC_ALL=C awk -v most=$((2 * most)) '
        function wrong(text, at,    c, i) {
            c = substr(text, at, 1)
            for (i = 1; i < 256 && sprintf("%c", i) != c; i++) continue
            c = i > 32 && i < 127 ? "`" c "`" : sprintf("the byte 0x%02X", i)
            tell(", line " line ", character " at ": " c " is no hex digit")
        }
        function tell(what) { print ENVIRON["ME"] ": " ENVIRON["NAME"] what > "/dev/stderr"; bad = 1; exit 3 }
        function take(text,    was, lone, at) {
            line++
            sub(/#.*/, "", text)
            was = text
            if (text ~ /(^|[ \t])0[xX]([ \t]|$)/) lone = match(text, /0[xX]([ \t]|$)/) + 1
            sub(/^0[xX]/, "  ", text)
            gsub(/[ \t]0[xX]/, "   ", text)
            at = match(text, /[^0-9A-Fa-f \t]/)
            if (lone && (!at || lone < at)) at = lone
            if (at) wrong(was, at)
            gsub(/[ \t]+/, "", text)
            count += length(text)
            if (kept >= most) return
            text = substr(text, 1, most - kept)
            kept += length(text)
            printf "%s", text
        }
        NR == 1 { sub(/^\357\273\277/, "") }
        { sub(/\r$/, "") }
        !/\r/ { take($0); next }
        { n = split($0, part, "\r"); for (k = 1; k <= n; k++) take(part[k]) }
        END {
            if (bad) exit 3
            if (count % 2) tell(" has " count " hex digits, an odd number: a byte is two")
            printf "\n%d\n", count
        }' "$1"
}

# The bytes of the sheet that WORD means, at most $most, into FILE; in `bytes` how many it has.
sheet() { # WORD FILE
    local text
    note=''
    given "$1"
    if [ -z "$form" ] && is_binary "$room/given"; then
        head -c "$most" "$room/given" >"$2"
        bytes=$(wc -c <"$room/given")
    else
        digits "$room/given" >"$room/digits" || exit 2
        { read -r text; read -r bytes; } <"$room/digits"
        bytes=$((bytes / 2))
        printf '%b' "$(sed 's/../\\x&/g' <<<"$text")" >"$2"
    fi
    if [ ! -s "$room/given" ]; then note="$name is empty"
    elif [ "$bytes" = 0 ]; then note="$name has no hex digit, only blanks and comments"
    elif [ "$bytes" -gt "$longest" ]; then note="this sheet has $bytes bytes, the longest there is $longest"
    fi
}

# ---- the program

# What the refusals mean and what to do: README.md's table, word for word. A sheet is never refused 4 or 5.
meaning() { # NUMBER
    case $1 in
    1) echo "the sheet has under 3 bytes, its version is not 1, or its call is not 1 or 2"
        echo "check the first byte: 11 or 12; an empty sheet means that nothing was sent" ;;
    2) echo "m is not 1 to 128 or n not 1 to 16"
        echo "send fewer samples or fit fewer parameters; m and n exchanged, or the head read from the wrong end, also show here" ;;
    3) echo "the sheet's length is not the one that call, m and n ask for"
        echo "count the doubles; a sheet cut in transmission, or a missing lambda or step bound, shows here" ;;
    6) echo "a number is NaN or infinite"
        echo "look at the model: a division by zero, an overflow, or a sensor's gap passed on as NaN" ;;
    7) echo "radius or step bound is not above zero, lambda is below zero, or a scaling entry is zero"
        echo "set the radius or the step bound above zero and lambda to 0; replace a zero scaling entry by 1" ;;
    8) echo "the working leaves the range of doubles: in the factoring, the scaling (a radius rounded to zero too) or the search"
        echo "scale the model: parameters and residuals of very different sizes, or near 1e±300, are the usual cause" ;;
    *) echo "no number that this program refuses with"; echo "tell the maintainers" ;;
    esac
}

explain() { # NUMBER
    local what todo
    { read -r what; read -r todo; } < <(meaning "$1")
    if [ -z "$note" ] && [ "$1" = 3 ]; then note="this sheet has $bytes bytes"; fi
    echo "$me: refused $1: $what${note:+ ($note)}. What to do: $todo" >&2
}

# Behind each line that ends in a double, the shortest decimal that reads back to its bits. The double is built from its bits by exact
# steps. At a power of two the nearest decimal of so many digits may miss where the one above it does not. Every number of an answer is
# finite (a radius, lambda or norm that is not is refused 8, and a step with such an entry has such a norm); others are named all the same.
decimal() {
    LC_ALL=C awk '
        function value(digits,    i, v) {
            for (i = 1; i <= length(digits); i++) v = 16 * v + index("0123456789ABCDEF", substr(digits, i, 1)) - 1
            return v
        }
        function plain(s,    e, p, d) { # d.ddde+xx in a form to read
            p = index(s, "e"); e = substr(s, p + 1) + 0; d = substr(s, 1, p - 1); sub(/\./, "", d); sub(/0+$/, "", d)
            if (e < -5 || e > 15) { if (length(d) > 1) d = substr(d, 1, 1) "." substr(d, 2); return d "e" e }
            while (length(d) <= e) d = d "0"
            if (e < 0) { while (++e < 0) d = "0" d; return "0." d }
            return length(d) == e + 1 ? d : substr(d, 1, e + 1) "." substr(d, e + 2)
        }
        function shortest(digits,    top, e, x, sign, p, s, last) {
            top = value(substr(digits, 1, 8)); x = (top % 1048576) * 4294967296 + value(substr(digits, 9))
            sign = top >= 2147483648 ? "-" : ""; e = int(top / 1048576) % 2048
            if (e == 2047) return x == 0 ? sign "infinity" : "NaN"
            if (e > 0) x += 4503599627370496; else e = 1
            if (x == 0) return sign "0"
            for (e -= 1075; e > 0; e--) x *= 2
            for (; e < 0; e++) x /= 2
            for (p = 0; p < 17; p++) {
                s = sprintf("%." p "e", x)
                if (s + 0 == x) break
                last = index(s, "e") - 1
                if (substr(s, last, 1) == 9) continue
                s = substr(s, 1, last - 1) (substr(s, last, 1) + 1) substr(s, last + 1)
                if (s + 0 == x) break
            }
            return sign plain(s)
        }
        length($NF) == 16 && $NF !~ /[^0-9A-F]/ { print $0 "  # " shortest($NF); next }
        { print }'
}

# Runs the program on FILE, prints its lines, explains a refusal, and ends the command.
answer() { # PROGRAM FILE
    local status=0 first='' second=''
    "$repo/tools/run" "$1" <"$2" >"$room/out" || status=$?
    [ "$status" = 0 ] || trouble "the program ended with status $status"
    if [ -n "$decimals" ]; then decimal <"$room/out"; else cat "$room/out"; fi || trouble "cannot write the answer"
    read -r first second _ <"$room/out" || trouble "the program printed nothing"
    [ "$first" = refused ] || exit 0
    explain "$second"
    exit 1
}
