# shellcheck shell=bash
# The kit's own verdict as `.ci/run` takes it. Sourced, not run.

# Runs `rt ci` over the checkout as it stands and passes on what it says. It fails where that fails, where its line `rt: ok` counts bad must-fail
# edits, which `rt ci` itself lets pass, and where there is no such line. The last line is the one of `rt ci`, 'N passed, M failed'.
whole_verdict() {
    rt ci | without_bad_edits
}

without_bad_edits() {
    local line last='' ok='' bad=', [1-9][0-9]* bad'
    while IFS= read -r line; do
        case $line in
        [0-9]*' passed, '[0-9]*' failed'*) last=$line ;;
        *)
            [[ $line != 'rt: ok'* ]] || ok=$line
            printf '%s\n' "$line"
            ;;
        esac
    done
    if [[ $ok =~ $bad ]]; then
        echo 'gate: FAILED: a bad must-fail edit shows nothing of a contract: bring it to the text as it stands'
        ok=''
    elif [ -z "$ok" ]; then
        echo "gate: FAILED: 'rt ci' printed no line 'rt: ok'"
    fi
    printf '%s\n' "$last"
    [ -n "$ok" ]
}
