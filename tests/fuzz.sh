# A fuzzer that is guided by coverage (libFuzzer, target in tests/fuzz) lends the engine and the second simulator what it made of its
# bytes, and both must answer alike and leave every lent place alike. The coverage is that of the second simulator, which also runs under
# the address and the undefined-behaviour sanitizer; the proved archive is linked as it is, between guard pages. Then the fuzzer must find
# faults that are planted in the second simulator.
#
# SCHOONLEECH_LIB           an archive to test instead of the proved one
# SCHOONLEECH_FUZZ_SECONDS  how long to look for a difference, instead of the fixed number of inputs
. tests/host/counting.bash
. tests/host/installing.bash
. tests/host/library.bash
. tests/faults/planting.bash

sanitizers=address,undefined
planted="lone_cr_ends_a_line leaving_word_is_the_first"
inputs=50000 fewest_inputs=10000 seconds_most=20 seconds_to_find=10
fewest_edges=350 # some 400 are reached; most of the others are the sanitizers' own, and no input should reach those

links_a_target() {
    echo 'int LLVMFuzzerTestOneInput(const char *data, unsigned long size) { return data == 0 && size > 0; }' |
        clang -fsanitize=fuzzer,$sanitizers -x c -o "$work/trial" - >/dev/null 2>&1
}

# Of the compiler and its two runtime libraries any may be missing, so a link is tried.
[ "$(uname -m)" = x86_64 ] || { echo "the fuzzer can be built on x86-64 alone"; exit 77; }
links_a_target || install_packages clang libclang-rt-dev
links_a_target || { echo "there is no clang with libFuzzer here and it can't be installed"; exit 77; }

prove_or_finish

top=$PWD
mkdir "$work/simulator" "$work/target" "$work/seeds"
compile="clang -std=c99 -O1 -g -Wall -Wextra -Werror -fno-sanitize-recover=all -I$top/tests/simulator -c"
compile_covered="$compile -fsanitize=fuzzer-no-link,$sanitizers"

compile_target() {
    local name sources=
    for name in areas check comparing drawing hand images places returns; do
        sources+=" $top/tests/engine/$name.c"
    done
    (cd "$work/simulator" && $compile_covered "$top"/tests/simulator/*.c) &&
        (cd "$work/target" && $compile -fsanitize=$sanitizers $sources "$top"/tests/fuzz/*.c)
}

link_target() { # PROGRAM SIMULATOR-OBJECT..
    local program=$1
    shift
    clang -fsanitize=fuzzer,$sanitizers -o "$program" "$work"/target/*.o "$@" "$library"
}

# For each call some inputs without a meaning. Then those for the numbers that would come late: texts to read (call 4; 9 is the second
# one, repeated), and stores to check (call 3; no word, and a circle).
make_seeds() {
    local call stride place byte seed number=0
    for call in {0..9}; do
        for stride in 1 37 89; do
            seed="\\x0$call"
            for ((place = 0; place < 500; place++)); do
                printf -v byte '\\x%02x' $((place * place * stride % 251))
                seed+=$byte
            done
            printf "$seed" >"$work/seeds/$call-$stride"
        done
    done
    for seed in '\x04\x00\x00:0400000000000010EC\n:00000001FF\n' '\x04\xff\x00:0000000000\n' '\x04\x00\x00:0400000000000010ED\n' \
        '\x04\x00\x00:00000002FE\n' '\x04\x00\x00:0100000000FF\n' '\x04\x00\x00' '\x04\x00\x00:00000400FC\n:0000000000\n' \
        '\x03\xff\x00\x00' '\x03\x81\x01\x01\x01\x01'; do
        number=$((number + 1))
        printf "$seed" >"$work/seeds/known-$number"
    done
}

# All programs start from the same seeds: the inputs that one adds to them go into a folder of its own. A find is written beside it.
fuzz() { # PROGRAM WORDS..
    local program=$1
    shift
    mkdir "$program.corpus"
    "$program" -seed=1 -max_len=1024 -len_control=0 -timeout=20 -detect_leaks=0 -print_final_stats=1 -artifact_prefix="$program-" "$@" \
        "$program.corpus" "$work/seeds" >"$program.out" 2>&1
}

nothing_is_found() { # STATUS PROGRAM
    [ "$1" -eq 0 ] && return
    grep -vE '^(#|INFO|stat| *NEW_FUNC)' "$2.out"
    head -c 1024 "$2"-* | od -A d -t x1
    return 1
}

every_number_is_answered() {
    ! grep '^no input was answered with' "$work/fuzz.out" && grep -q '^answers: ' "$work/fuzz.out"
}

is_found() { # PROGRAM
    link_target "$1" "$1".objects/*.o && ! fuzz "$1" -max_total_time=$seconds_to_find && grep -q '^differs: ' "$1.out"
}

one "target and second simulator compile" compile_target
[ "$failed" -eq 0 ] || finish
make_seeds
one "they can be linked with the engine" link_target "$work/fuzz" "$work"/simulator/*.o
[ "$failed" -eq 0 ] || finish

if [ -n "${SCHOONLEECH_FUZZ_SECONDS:-}" ]; then
    fuzz "$work/fuzz" -max_total_time="$SCHOONLEECH_FUZZ_SECONDS"
else
    fuzz "$work/fuzz" -runs=$inputs -max_total_time=$seconds_most
fi
status=$?
executed=$(sed -n 's/^stat::number_of_executed_units: *//p' "$work/fuzz.out")
edges=$(sed -n 's/^#.* cov: \([0-9]*\) .*/\1/p' "$work/fuzz.out" | tail -n 1)
one "engine and second simulator agree on ${executed:-too few} inputs" nothing_is_found $status "$work/fuzz"
[ "$failed" -eq 0 ] || finish
[ -n "${SCHOONLEECH_FUZZ_SECONDS:-}" ] || one "these are not below $fewest_inputs" test "${executed:-0}" -ge $fewest_inputs
one "these reach ${edges:-no} edges of the second simulator, not below $fewest_edges" test "${edges:-0}" -ge $fewest_edges
one "every number from 0 to 18 is answered:$(sed -n 's/^answers://p' "$work/fuzz.out")" every_number_is_answered

for name in $planted; do
    file=$(fault_line "tests/faults/$name.fault" file)
    one "$name is planted" plant "tests/faults/$name.fault" "$work/$name.objects"
    one ".. and compiles" $compile_covered -o "$work/$name.objects/${file%.c}.o" "$work/$name.objects/$file"
    cp -n "$work"/simulator/*.o "$work/$name.objects"
    one ".. and is found within $seconds_to_find s" is_found "$work/$name"
    sed -n 's/^differs: /        differs: /p' "$work/$name.out"
done
finish
