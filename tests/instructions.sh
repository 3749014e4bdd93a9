# docs/INSTRUCTIONS.md can't go stale. Each instruction and the interrupt step have one entry, with the opcode, format, transfers, pages and
# flags of docs/AVM1.md, and a row of the overview that agrees. The laws are theorems of crates/macro_meaning/proofs, and each theorem of a
# file of laws is on the page. The microcycles are those that a run of the published microprogram takes.
#
# SCHOONLEECH_LIB  an archive to test with instead of the proved one
. tests/host/counting.bash
. tests/host/x86_64.bash
. tests/host/library.bash

page=docs/INSTRUCTIONS.md source=docs/AVM1.md crate=macro_meaning
laws=crates/$crate/proofs
names=()
declare -A opcode format transfers pages flags # what the source has, by name
declare -A microcycles                         # what the page has, by opcode or entry

same() { # WHAT FOUND WANTED
    if [ "$2" = "$3" ]; then passed=$((passed + 1)); else failed=$((failed + 1)); echo "instructions: $1: '$2' and not '$3'"; fi
}

# The rows of the tables under a heading, up to the next heading, without heads and rulers. A bar stands between two cells, and no blank
# beside it.
rows() { # FILE HEADING
    awk -v heading="$2" '
        /^#/ { here = $0 == heading; body = 0; next }
        !here || !/^\|/ { body = 0; next }
        /^\|-/ { body = 1; next }
        body { sub(/^\| */, ""); sub(/ *\|$/, ""); gsub(/ *\| */, "|"); print }' "$1"
}

# The line under a heading that begins so.
line_under() { # FILE HEADING BEGINNING
    awk -v heading="$2" -v beginning="$3" '/^#/ { here = $0 == heading } here && index($0, beginning) == 1' "$1"
}

read_instructions() {
    local name form code values changed most other others
    local origin='\((pp\. [0-9-]+), ([A-Z]+) (pp\. [0-9-]+);'
    while IFS='|' read -r name form code _; do
        names+=("$name") format[$name]=$form opcode[$name]=$code
    done < <(rows "$source" "### The instructions (table 5.3, p. 67)")
    [[ $(line_under "$source" "## 3. What each instruction does" "Source:") =~ $origin ]]
    most=${BASH_REMATCH[1]:-} other=${BASH_REMATCH[2]:-none} others=${BASH_REMATCH[3]:-}
    while IFS='|' read -r name values changed; do
        transfers[$name]=$values flags[$name]=$changed pages[$name]=$most
    done < <(rows "$source" "## 3. What each instruction does")
    pages[$other]=$others
}

# The source has the interrupt step in a table of its own, a row for each part of the state and names for two values. Its new PSW shows that
# the four flags stay.
read_interrupt_step() {
    local heading part value values='' where
    heading=$(grep -x '### EINT, .*' "$source")
    where=$(line_under "$source" "$heading" "Local names: ")
    where=${where#Local names: }
    while IFS='|' read -r part value; do
        part=${part//\`/} value=${value//\`/}
        case $value in
        "memory with "*) values+="; \`${value#memory with }\`" ;;
        *) values+="; \`$part' = $value\`" ;;
        esac
    done < <(rows "$source" "$heading")
    names+=(EINT)
    opcode[EINT]="entry $(sed -nE 's/^\| `macro_inst_list` .* ([0-9]+) is EINT\..*/\1/p' "$source")" format[EINT]=none
    transfers[EINT]="${values#; }, where ${where%.}"
    pages[EINT]=$(sed -E 's/.*\((pp\. [0-9-]+)\)$/\1/' <<<"$heading")
    [[ $where != *"v(psw), n(psw), c(psw), z(psw)"* ]] || flags[EINT]=none
}

# Leaves the entry's row of the overview in `overview`, and its microcycles by each of its opcodes.
check_entry() { # NAME
    local name=$1 code form values where changed cycles each
    same "entries of $name" "$(grep -cx "### $name" "$page")" 1
    same "rows of $name" "$(rows "$page" "### $name" | wc -l)" 1
    IFS='|' read -r code form values where changed cycles < <(rows "$page" "### $name")
    same "$name, opcode" "$code" "${opcode[$name]}"
    same "$name, format" "$form" "${format[$name]}"
    same "$name, new values" "$values" "${transfers[$name]}"
    same "$name, pages" "$where" "${pages[$name]}"
    same "$name, flags" "$changed" "${flags[$name]}"
    same "$name, lines that begin its laws" "$(line_under "$page" "### $name" '**Laws**' | grep -cF '(#laws-of-every-instruction)')" 1
    overview+=("[$name](#${name,,})|$code|$form|$changed|$cycles")
    for each in ${code//,/}; do microcycles[$each]=$cycles; done
}

check_entries() {
    local head='| Opcode | Format | New values | Pages | Flags | Microcycles |' overview=() shown=() k
    for name in "${names[@]}"; do check_entry "$name"; done
    same "entries, in their order" \
        "$(awk '/^## / { here = $0 == "## The instructions" } here && sub(/^### /, "")' "$page" | xargs)" "${names[*]}"
    same "heads of entries" "$(grep -cxF "$head" "$page")" "${#names[@]}"
    mapfile -t shown < <(rows "$page" "## All steps")
    same "rows of the overview" "${#shown[@]}" "${#overview[@]}"
    for k in "${!overview[@]}"; do same "overview, row $((k + 1))" "${shown[k]:-}" "${overview[k]}"; done
}

# The rows are those of the source's table, and one holds where its law is not a counterexample.
check_synthesized() {
    local wanted holds law
    same "synthesized instructions" "$(rows "$page" "## Synthesized instructions" | cut -d '|' -f 1,2)" \
        "$(rows "$source" "### Synthesized instructions (table 5.6, p. 75)" | cut -d '|' -f 1,2)"
    while IFS='|' read -r wanted _ holds law _; do
        same "$wanted holds" "$holds" "$([[ $law == *_fails\` ]] && echo no || echo yes)"
    done < <(rows "$page" "## Synthesized instructions")
}

# The public theorems of a file. A public field of a record looks like one, but stands further in than the record's first line.
theorems() { # FILE
    awk '
        /^ *$/ { next }
        { match($0, /^ */) }
        inside && RLENGTH > depth { next }
        { inside = 0 }
        /^ *(pub )?record [A-Z]/ { inside = 1; depth = RLENGTH; next }
        $1 == "pub" && $3 == ":" { print $2 }' "$1"
}

# A file of laws is one that crates/macro_meaning/proofs/Lib.antt lists behind its line '-- laws': the prover reads no other.
check_laws() {
    local cited cite file name listed
    cited=$(grep -oE "\`$crate/proofs/[^\`]*\`" "$page" | tr -d '`' | sort -u)
    listed=$(sed -n '/^-- laws/,$s/^pub mod //p' "$laws/Lib.antt")
    [ -n "$listed" ] || same "files of laws that Lib.antt lists" none some
    for cite in $cited; do
        file=${cite%%.antt#*} file=${file#"$crate"/proofs/} name=${cite#*#}
        same "$cite is listed" "$(grep -cxF -- "$file" <<<"$listed")" 1
        same "$cite is a theorem" "$([ ! -f "$laws/$file.antt" ] || theorems "$laws/$file.antt" | grep -xF -- "$name")" "$name"
    done
    for file in $listed; do
        [[ $cited == *"$crate/proofs/$file.antt#"* ]] || same "laws of $file.antt on the page" none some
        for name in $(theorems "$laws/$file.antt"); do
            same "$file.antt, $name is on the page" "$(grep -cxF -- "$crate/proofs/$file.antt#$name" <<<"$cited")" 1
        done
    done
    for cite in $(grep -oE "\`$crate/specs/[^\`]*\`" "$page" | tr -d '`' | sort -u); do
        same "$cite is defined" "$(grep -cE "((abbrev|unfoldable) pub|record|data) ${cite#*#} " "crates/${cite%%#*}")" 1
    done
}

# An entry has a law of each file that speaks of its opcode (`Does 11`, `OnRegister 29`, `Operates 18 26`), and none of a file that speaks of
# other opcodes alone. `entry s request ≡ 2`, by which a law of all steps leaves one out or takes it in, does for the second.
check_laws_of_entries() {
    local listed file name code cited must may
    local -A spoken named
    listed=$(sed -n '/^-- laws/,$s/^pub mod //p' "$laws/Lib.antt")
    for file in $listed; do
        spoken[$file]=" $(grep -v '^ *--' "$laws/$file.antt" | grep -oE '(Does|On|OnRegister) [0-9]+|Operates [0-9]+ [0-9]+' | grep -oE '[0-9]+' | xargs) "
        named[$file]=" $(grep -oE 'entry s request ≡ [0-9]+' "$laws/$file.antt" | grep -oE '[0-9]+' | xargs) "
    done
    cited=$(awk -v folder="$crate/proofs/" '/^## / { here = $0 == "## The instructions" } sub(/^### /, "") { name = $0 }
        here {
            while (match($0, folder "[A-Za-z]+")) {
                print name, substr($0, RSTART + length(folder), RLENGTH - length(folder))
                $0 = substr($0, RSTART + RLENGTH)
            }
        }' "$page")
    for name in "${names[@]}"; do
        for file in $listed; do
            must=no may=no
            [[ $name != EINT && ${spoken[$file]} =~ [0-9] ]] || may=yes
            for code in ${opcode[$name]//,/}; do
                [[ ${spoken[$file]} != *" $code "* ]] || must=yes
                [[ ${named[$file]} != *" $code "* ]] || may=yes
            done
            if [ "$must" = yes ]; then
                same "laws of $file.antt under $name" "$(grep -qxF "$name $file" <<<"$cited" && echo some || echo none)" some
            elif grep -qxF "$name $file" <<<"$cited"; then
                same "$file.antt speaks of $name" "$may" yes
            fi
        done
    done
}

# 33 entries, in two modes, with two kinds of operands
check_microcycles() {
    local lines=0 entry mode operands counted
    while read -r entry mode operands counted; do
        lines=$((lines + 1))
        same "microcycles of $entry, $mode mode, operands $operands" "${microcycles[$entry]:-none}" "$counted"
    done < <($emulator "$work/microcycles")
    same "steps that were run" "$lines" 132
}

read_instructions
read_interrupt_step
check_entries
check_synthesized
check_laws
check_laws_of_entries

[ -n "${SCHOONLEECH_LIB:-}" ] || one "the library is proved" prove_library
one "the program that counts microcycles is C99" $cc -std=c99 -pedantic-errors -O2 -Wall -Wextra -Werror -o "$work/microcycles" \
    tests/instructions/microcycles.c "$library"
[ ! -x "$work/microcycles" ] || check_microcycles
finish
