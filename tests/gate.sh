# The gate can't be fooled: .ci/run itself, with a stand-in for rt, on small repositories that are right or wrong in one way. A wrong one
# must end with a status other than 0 and with no '0 failed' in its last line.
top=$PWD
work=$(mktemp -d)
trap 'rm -rf "$work"' EXIT
passed=0 failed=0

# A repository with one listed crate and one host test that passes; the stand-in proves it and has its one must-fail edit refused.
fresh() {
    rm -rf "$work/repo"
    mkdir -p "$work/repo/.ci" "$work/repo/crates/one" "$work/repo/tests" "$work/repo/bin"
    cd "$work/repo" || exit 1
    cp "$top/.ci/run" .ci/run
    echo 'one:' >crates.txt
    printf 'echo "3 passed, 0 failed"\n' >tests/good.sh
    stand_in 0 "$ok" '2 passed, 0 failed'
}
ok='rt: ok; handles allowed: none; must-fail edits: 1 refused; every proof and must-fail edit was done in this run'

# The gate calls `rt ci`, in the repository as it is, and nothing else of rt.
stand_in() { # STATUS LINE..
    local status=$1
    shift
    printf '%s\n' "$@" >bin/said
    cat >bin/rt <<END
#!/bin/sh
[ "\$*" = ci ] && [ -d crates/one ] && [ -f crates.txt ] && [ -f tests/good.sh ] || { echo "rt: not the gate: \$*"; exit 2; }
echo "rt: one proved"
cat bin/said
exit $status
END
    chmod +x bin/rt
}

# The fresh repository counts 2 of rt, 3 of the host test and 2 of the gate's own: the list of crates, and that no edit is bad.
expect() { # NAME STATUS LAST-LINE
    local out status last
    out=$(PATH=$work/repo/bin:$PATH bash .ci/run 2>&1)
    status=$?
    last=$(tail -n 1 <<<"$out")
    if [ "$status" -eq "$2" ] && [ "$last" = "$3" ]; then
        passed=$((passed + 1))
    else
        echo "gate: $1: status $status and '$last', not $2 and '$3'"
        failed=$((failed + 1))
    fi
    fresh
}

fresh
expect "all is right" 0 "7 passed, 0 failed"
stand_in 0 "${ok/; every*/, 1 of them only by a limit; every proof was kept}" '2 passed, 0 failed (all but 2 of it kept)'
expect "words behind the count" 0 "7 passed, 0 failed"
echo 'one staticlib: base' >crates.txt
expect "a static library" 0 "7 passed, 0 failed"
echo '# nothing but one:' >crates.txt
expect "a crate of which only a comment speaks" 1 "6 passed, 1 failed"
mkdir crates/two
expect "a crate that is not listed" 1 "6 passed, 1 failed"
mkdir crates/on
expect "a crate whose name begins a listed one's" 1 "6 passed, 1 failed"
stand_in 1 'rt: one NOT PROVED' 'rt: FAILED: one' '1 passed, 1 failed'
expect "a proof that fails" 1 "5 passed, 1 failed"
stand_in 1 "rt: run rt fmt in the crate's folder" 'rt: one NOT PROVED' 'rt: FAILED: one' '0 passed, 1 failed'
expect "a file that is not in the layout" 1 "4 passed, 1 failed"
stand_in 3 'rt: the prover could not tell'
expect "rt ci without a count" 1 "4 passed, 1 failed"
stand_in 0
expect "rt ci that says nothing and ends well" 1 "4 passed, 2 failed"
stand_in 2 '2 passed, 0 failed'
expect "rt ci with a bad status" 1 "6 passed, 1 failed"
stand_in 0 "${ok/refused/refused, 3 bad}" 'rt: note: bad must-fail edits, as told above: 3' '2 passed, 0 failed'
expect "must-fail edits that are bad" 1 "6 passed, 1 failed"
stand_in 0 "${ok/1 refused/20 refused, 2 of them only by a limit, 10 bad}" '2 passed, 0 failed'
expect "ten of them beside others" 1 "6 passed, 1 failed"
stand_in 0 '2 passed, 0 failed'
expect "rt ci that does not say how its edits came out" 1 "6 passed, 1 failed"
stand_in 0 "$ok" '2 passed, 0 failed (one and the crates below alone: not the gate)'
expect "rt ci of some of the crates" 1 "5 passed, 1 failed"
stand_in 0 "$ok" '2 passed, 1 failed (of 3)'
expect "a failure with words behind it" 1 "7 passed, 1 failed"
printf 'echo "3 passed, 2 failed"\nexit 1\n' >tests/bad.sh
expect "a host test that fails" 1 "10 passed, 2 failed"
printf 'echo "3 passed, 0 failed"\nexit 1\n' >tests/bad.sh
expect "a host test with a bad status" 1 "10 passed, 1 failed"
printf 'echo all is well\n' >tests/bad.sh
expect "a host test without a count" 1 "7 passed, 1 failed"
printf 'echo "3 passed, 0 failed (of 3)"\n' >tests/bad.sh
expect "a host test with words behind its count" 1 "7 passed, 1 failed"
printf 'echo "no tool"\nexit 77\n' >tests/other.sh
expect "a host test whose tool can't be had is not counted" 0 "7 passed, 0 failed"

echo "$passed passed, $failed failed"
[ "$failed" -eq 0 ]
