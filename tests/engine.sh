# The engine's C calls (include/schoonleech.h): answers worked out by hand, and seeded random comparisons with the second simulator
# (tests/simulator), with every lent place between guard pages.
#
# SCHOONLEECH_LIB     an archive to test instead of the proved one
# SCHOONLEECH_ROUNDS  how many times the usual number of random cases; 1, and 1/4 where programs need an emulator
. tests/host/counting.bash
. tests/host/x86_64.bash
. tests/host/library.bash

prove_or_finish

strict="-O2 -Wall -Wextra -Werror"
use=tests/engine/header_use.c

one "the header is C99 without extensions" $cc -std=c99 -pedantic-errors $strict -o "$work/use-c" $use "$library"
one ".. and its calls and numbers fit in C" $emulator "$work/use-c"
one "the header is C++" $cxx -pedantic-errors $strict -o "$work/use-cpp" -x c++ $use -x none "$library"
one ".. and its calls and numbers fit in C++" $emulator "$work/use-cpp"

# What is compared with the library decodes by itself, from the page: of these only header_use knows the header's names for bits, fields and
# codes. No code of grader and display serves here either; tests/grader/garbage.c has the grader's, since it is about the grader.
names='AVM_(VERSION|WALK_MOST|REQUEST_|PSW_|BITS|INSTRUCTION_|MICROWORD_|FIELD|SHFT_|ALU_|SRCA_|SRCB_|TRGT_|COND_|JOP_)'
share_no_names() {
    grep -rnE "$names" tests bench --include='*.[ch]' --exclude=header_use.c
    [ $? -eq 1 ]
}
share_no_code() {
    grep -rnE '#include.*(common|grader|display)/' tests bench --include='*.[ch]' --exclude=garbage.c
    [ $? -eq 1 ]
}
one "tests and measurements decode by themselves" share_no_names
one "tests and measurements share no code with grader and display" share_no_code

sources=$(ls tests/engine/*.c | grep -v header_use)
one "tests and second simulator compile" $cc -std=c99 $strict -o "$work/tests" $sources tests/simulator/*.c "$library"
[ -x "$work/tests" ] || finish

[ -z "$emulator" ] || export SCHOONLEECH_ROUNDS=${SCHOONLEECH_ROUNDS:-1/4}
$emulator "$work/tests" >"$work/out" 2>&1
status=$?
sed '$d' "$work/out"
last=$(tail -n 1 "$work/out")
if [[ $last =~ ^([0-9]+)\ passed,\ ([0-9]+)\ failed$ ]]; then
    passed=$((passed + BASH_REMATCH[1])) failed=$((failed + BASH_REMATCH[2]))
else
    echo "$last"
    echo "engine: the tests ended with status $status and without a count"
    failed=$((failed + 1))
fi
finish
