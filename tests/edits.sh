# Each must-fail edit was refused because a fact fails. The first error that `rt must-fail` gives of it is about a proof, and not about the
# compiler, a name, a field, a missing goal, a loop's invariant or measure, the text's form, a limit of the prover or a rewriting that found
# nothing to rewrite, which would only show that the edit made the proof file unfit for the code. An edit with a line '# refused: TEXT' is
# refused with that text in its first error.
#
# A goal is named by the conditions that lead to it, so an edit of a condition can leave a goal open to which the proof file has no answer.
# Where rt names such a goal of a function that has a proof file, and found no values at which it is false, the crate is checked with the
# edit, and the first error of all that the check says decides: there one about a name comes before the goal. A function without a proof
# file proves by search, and has no names to lose.
. tests/host/counting.bash
. tests/host/copying.bash

other='error\[|named from here|not in scope|has no field|has no `|no record|projects from a record|was not admitted|was not checked'
other+='|is no name|operand is missing|expected the end|cannot continue|Parse|ran out of|outgrew|step limit'
other+='|error: `(invariant|decreases)-|expected type `goal\.|no occurrence|has an instance|no part of the goal'

fail() {
    echo "edits: $1"
    failed=$((failed + 1))
}

# Writes the crate's files anew as the edit has them: lines 'file: PATH', and pairs of 'old: TEXT' and 'new: TEXT'.
apply() { # EDIT CRATE-FOLDER
    local line file old text
    while IFS= read -r line; do
        case $line in
        "file: "*) file=$2/${line#file: } ;;
        "old: "*) old=${line#old: } ;;
        "new:"*)
            line=${line#new:} text=$(<"$file")
            printf '%s\n' "${text/"$old"/"${line# }"}" >"$file"
            ;;
        esac
    done <"$1"
}

# The first error of a whole check with the edit, with the indented lines that go on with it.
first_of_all() { # EDIT CRATE
    local copy=$work/copy
    rm -rf "$copy"
    build_crate "$2" >"$work/log" 2>&1 && copy_crates "$copy" && apply "$1" "$copy/crates/$2" || { echo "error[copy]: $1 can't be tried"; return; }
    (cd "$copy/crates/$2" && rt check) 2>&1 |
        awk '!found && /: error|^note: .*it is not proved/ { found = 1; print; next } found { if (/^ /) print; else exit }'
}

# The function of a place in the crate: a line of the function's body, or the line at which the function or its attribute begins.
function_at() { # CRATE-FOLDER PLACE, as src/lib.rt:55:1
    local file line column names='s/.*fn \([a-z_0-9]*\)[(<].*/\1/p'
    IFS=: read -r file line column <<<"$2"
    if sed -n "${line}p" "$1/$file" | grep -q '^ *#\['; then
        tail -n "+$line" "$1/$file" | sed -n "$names" | head -n 1
    else
        head -n "$line" "$1/$file" | sed -n "$names" | tail -n 1
    fi
}

# Whether there is a folder with the proof of a function that the edit names, or of that in which the note has found a goal open.
has_proof_file() { # EDIT CRATE NOTE
    local function open=
    [[ ! $3 =~ ^'note: '([^: ]+:[0-9]+:[0-9]+)': ' ]] || open=$(function_at "crates/$2" "${BASH_REMATCH[1]}")
    for function in $(sed -n "s/^# of: $2\/.*#//p" "$1") $open; do
        [ -z "$(find "crates/$2/proofs" -type d -name "$function" 2>/dev/null)" ] || return 0
    done
    return 1
}

rt must-fail >"$work/tried" 2>&1
for edit in crates/*/must-fail/*.edit; do
    crate=$(cut -d/ -f2 <<<"$edit")
    name="rt: must-fail $crate/$(basename "$edit"): "
    said=$(grep -F -m 1 -- "$name" "$work/tried") said=${said#"$name"}
    first=${said#refused, as it must be: }
    if [[ $first == "note: "*"it is not proved"* && $first != *"(\`returns\`)"* && $first != *"; the facts known "* ]] &&
        has_proof_file "$edit" "$crate" "$first"; then
        first=$(first_of_all "$edit" "$crate")
    fi
    if [ "$first" = "$said" ] || [ -z "$first" ]; then
        fail "$edit is not refused with an error: ${said:-rt must-fail does not name it}"
    elif grep -qE "$other" <<<"$first"; then
        fail "$edit is refused by something other than a fact: $first"
    elif wanted=$(sed -n 's/^# refused: //p' "$edit") && [ -n "$wanted" ] && ! grep -qF -- "$wanted" <<<"$first"; then
        fail "$edit is not refused with '$wanted': $first"
    else
        passed=$((passed + 1))
    fi
done
finish
