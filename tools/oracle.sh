# shellcheck shell=bash
# What the comparisons with the oracle share. Sourced after common.sh.

# Builds the oracle, which is then in `oracle`. CARGO_TARGET_DIR counts, as for cargo.
build_oracle() {
    echo "$me: building the oracle, a minute at most" >&2
    (cd "$repo" && cargo build --release --offline --locked --manifest-path oracle/Cargo.toml -p oracle) >"$room/log" 2>&1 || {
        tail -n 5 "$room/log" >&2
        trouble "the oracle is not built"
    }
    oracle=$(cd "$repo" && realpath "${CARGO_TARGET_DIR:-oracle/target}")/release/oracle
}

# Holds what the proved PROGRAM printed against what the oracle did, case by case, and names the first place that differs. A case ends with
# a line `.`; one that either side does not print counts as one that differs. Last line: 'N compared, K differ'; status 1 where K > 0.
compare() { # KIND COUNT EXPECTED GOT PROGRAM
    awk -v kind="$1" -v count="$2" -v expected="$3" -v got="$4" -v program="$5" '
        function next_case(file,    line) {
            text = ""
            while ((getline line < file) > 0) {
                if (line == ".") return 1
                text = text line "\n"
            }
            return 0
        }
        # The first place of two lists, taken apart at `by`, that differs.
        function first(a, b, by,    x, y, i) {
            split(a, x, by)
            split(b, y, by)
            for (i = 1; (i in x) && (i in y) && x[i] == y[i]; i++) continue
            left = x[i]
            right = y[i]
            return i
        }
        function tell(n, a, b,    line, word, title) {
            line = first(a, b, "\n")
            title = substr(left, 1, index(left " ", " ") - 1)
            word = first(left, right, " ")
            printf "%s %d differs in line %d (%s), word %d: oracle \"%s\", %s \"%s\"\n", kind, n, line, title, word, left, program, right
        }
        BEGIN {
            for (n = 1; n <= count; n++) {
                a = next_case(expected); want = text
                b = next_case(got); have = text
                if (a && b && want == have) continue
                if (!differ++) tell(n, want, have)
            }
            printf "%d compared, %d differ\n", count, differ
            exit differ > 0
        }'
}
