# Sets `library`, the archive of the C calls (include/schoonleech.h) that a script links. `prove_library` proves it and writes it where it
# is not there, or a crate or the kit changed since it was begun: several scripts need it, and one proof serves all.
#
# SCHOONLEECH_LIB  an archive to use instead of the proved one; rt is then not run
#
# Without the kit's rt the script that reads this file ends with 77 where nothing stands in for the archive.

. tests/host/alone.bash

library=${SCHOONLEECH_LIB:-crates/schoonleech/out/libschoonleech.a}

# A sum of all that the archive is made from: the kit, and each file of the crates but what rt made of them, crates/NAME/out.
sum_of_sources() {
    {
        rt version && readlink -f "$(command -v rt)"
        find crates crates.txt -regex 'crates/[^/]*/out' -prune -o -type f -print0 | LC_ALL=C sort -z | xargs -0 sha256sum
    } | sha256sum
}

# Beside an archive stands the sum of what it was begun with, so that a change during the proof makes it stale.
is_fresh() { # SUM
    [ -f "$library" ] && [ "$(cat "$library.sources" 2>/dev/null)" = "$1" ]
}

prove_if_stale() {
    local sum
    sum=$(sum_of_sources)
    is_fresh "$sum" && return
    rm -f "$library" "$library.sources"
    (cd crates/schoonleech && rt lib) && [ -f "$library" ] && echo "$sum" >"$library.sources"
}

prove_library() {
    [ -n "${SCHOONLEECH_LIB:-}" ] || alone prove_if_stale
}

# The same as the first test of a script that counts (counting.bash), which ends where it fails.
prove_or_finish() {
    [ -n "${SCHOONLEECH_LIB:-}" ] || one "the library is proved" prove_library
    [ "$failed" -eq 0 ] || finish
}

[ -n "${SCHOONLEECH_LIB:-}" ] || command -v rt >/dev/null || { echo "the Rattle kit's rt is not on the PATH"; exit 77; }
