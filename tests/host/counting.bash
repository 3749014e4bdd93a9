# Counts tests for a script whose last line is 'N passed, M failed'. Sets `work`, a folder of its own that goes away with the script.
passed=0 failed=0
work=$(mktemp -d)
trap 'rm -rf "$work"' EXIT

one() { # NAME COMMAND..
    local name=$1
    shift
    if "$@" >"$work/log" 2>&1; then
        passed=$((passed + 1))
        echo "passed  $name"
    else
        failed=$((failed + 1))
        echo "FAILED  $name"
        cat "$work/log"
    fi
}

finish() {
    echo "$passed passed, $failed failed"
    [ "$failed" -eq 0 ]
    exit
}
