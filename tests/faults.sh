# The tests of the C calls (tests/engine) can fail. Each fault of tests/faults is planted in a copy of the second simulator, alone, and
# the tests must find it: an answer or a lent place that is not as it must be. The copy without a fault must pass all of them. Where
# programs need an emulator each of these takes seconds: then one fault in six is tried, and that the copy passes is left to engine.sh.
#
# SCHOONLEECH_LIB  an archive to test instead of the proved one
. tests/host/counting.bash
. tests/host/x86_64.bash
. tests/host/library.bash
. tests/faults/planting.bash

prove_or_finish

top=$PWD
mkdir "$work/engine" "$work/simulator"
# a planted line may have several statements
compile="$cc -std=c99 -O1 -Wall -Wextra -Werror -Wno-misleading-indentation -I$top/tests/simulator -c"

compile_all() {
    local sources
    sources=$(ls "$top"/tests/engine/*.c | grep -v header_use)
    (cd "$work/engine" && $compile $sources) && (cd "$work/simulator" && $compile "$top"/tests/simulator/*.c)
}

one "tests and second simulator compile" compile_all
[ "$failed" -eq 0 ] || finish

# The tests that are about a file. They come first, so that most faults are found at once.
about() { # FILE
    case $1 in
    instructions.c) echo instructions flow ;;
    board.c) echo boards board_refusals random_boards ;;
    lent.c) echo refusals ;;
    simulator.c) echo refusals step_refusals walk_refusals walks reads writes ;;
    walks.c) echo walk_refusals walks ;;
    images.c) echo reads writes read_refusals ;;
    esac
}

# A fault may make a test go on for ever, and one that is found takes seconds. The copy without a fault goes through all tests.
seconds_planted=100 seconds_unchanged=1000
[ -z "$emulator" ] || seconds_planted=1000

# Links the tests with the given objects and runs them to the first one that fails.
run_tests() { # SECONDS PROGRAM WORDS OBJECT..
    local seconds=$1 program=$2 words=$3
    shift 3
    $cc -o "$program" "$work"/engine/*.o "$@" "$library" && timeout "$seconds" $emulator "$program" first $words
}

show_end() { # OUTPUT
    tail -n 3 "$1" | sed 's/^/        /'
}

# Why the tests failed must be a comparison: not a page that can't be touched, and not something that came too rarely.
try() { # FAULT
    local name file folder
    name=$(basename "$1" .fault)
    file=$(fault_line "$1" file)
    folder=$work/$name
    mkdir "$folder"
    if ! plant "$1" "$folder" || ! $compile -o "$folder/${file%.c}.o" "$folder/$file"; then
        echo "FAILED  $name: it can't be planted"
        return
    fi
    cp -n "$work"/simulator/*.o "$folder"
    run_tests $seconds_planted "$folder/tests" "$(about "$file")" "$folder"/*.o >"$folder/out" 2>&1
    if grep -qE '^    .* (answers|leaves) .*, not ' "$folder/out" && grep -q '^FAILED' "$folder/out"; then
        sed -n "s/^FAILED  \(.*\)/passed  $name: found by \"\1\"/p" "$folder/out"
    else
        echo "FAILED  $name: not found"
        show_end "$folder/out"
    fi
}

without_a_fault() {
    if run_tests $seconds_unchanged "$work/tests" "" "$work"/simulator/*.o >"$work/out" 2>&1; then
        echo "passed  the copy without a fault: nothing is found"
    else
        echo "FAILED  the copy without a fault: something is found"
        show_end "$work/out"
    fi
}

faults=(tests/faults/*.fault)
if [ -z "$emulator" ]; then
    tried="unchanged"
    without_a_fault >"$work/unchanged.result" &
else
    tried=
    for place in "${!faults[@]}"; do
        [ $((place % 6)) -eq 0 ] || unset "faults[place]"
    done
fi
tried+=" $(basename -a -s .fault "${faults[@]}")"
for fault in "${faults[@]}"; do
    while [ "$(jobs -rp | wc -l)" -ge 2 ]; do wait -n; done
    try "$fault" >"$work/$(basename "$fault" .fault).result" 2>&1 &
done
wait

cat "$work"/*.result >"$work/results"
cat "$work/results"
passed=$((passed + $(grep -c '^passed' "$work/results"))) failed=$((failed + $(grep -c '^FAILED' "$work/results")))

one_result_each() {
    local name
    for name in $tried; do
        [ "$(grep -c '^passed\|^FAILED' "$work/$name.result")" = 1 ] || { echo "$name has none, or more than one"; return 1; }
    done
}
one "each of ${#faults[@]} faults has a result" one_result_each
finish
