# A count on one clock can't be given for a count on the other: each exchange below is refused by the compiler, for its types, before
# anything is proved.
. tests/host/counting.bash
. tests/host/copying.bash

refused_for_its_types() { # CRATE FILE OLD NEW [OLD NEW]..
    local crate=$1 file=crates/$1/$2 copy=$work/copy
    shift 2
    build_crate "$crate" || return 1
    rm -rf "$copy"
    copy_crates "$copy" || return 1
    while [ $# -gt 0 ]; do
        grep -qF "$1" "$file" || { echo "$file has no '$1'"; return 1; }
        sed -i "s/$1/$2/" "$copy/$file"
        shift 2
    done
    if (cd "$copy/crates/$crate" && rt check) >"$work/said" 2>&1; then
        echo "accepted"
        return 1
    fi
    grep -q 'error\[mismatched-types\]: expected `\(Microcycles\|Steps\)`, found `\(Microcycles\|Steps\)`' "$work/said" && return
    echo "refused for something else:"
    head -5 "$work/said"
    return 1
}

one "a run that exchanges its clocks" refused_for_its_types micro_level src/run_loop.rt \
    'microcycles: Microcycles { count: at as u64 },' 'microcycles: steps,' \
    '                steps,' '                steps: Microcycles { count: at as u64 },'
one "a C call that exchanges them" refused_for_its_types micro_call src/lib.rt \
    'answer_of(end, microcycles, steps)' 'answer_of(end, steps, microcycles)'
finish
