# docs/PROMISES.md can't go stale: each `crate/path#name` and each .edit in it exists. What a must-fail edit tries stands in the edit, in
# lines '# of: crate/path#name': each edit has one, and what it names exists. The public contracts are the functions that docs/DECISIONS.md
# lists under H32: every exported function is among them, and each is tried by two edits or more. A public function, listed or not, has an
# `ensures` and no `requires`, and none but the board's two calls takes a reference to a struct. A conversion says what it gives.
shopt -s extglob
page=docs/PROMISES.md decisions=docs/DECISIONS.md
passed=0 failed=0

fail() {
    echo "promises: $1"
    failed=$((failed + 1))
}

exists() { # WHO-SAYS-SO crate/path[#name]
    local file=crates/${2%%#*} name=${2#*#}
    if [ ! -f "$file" ]; then
        fail "$1: $2: there is no $file"
    elif [ "$name" != "$2" ] && ! grep -qE "(^|[[:space:]])((fn )?$name( :| \{|\()|(record|data) $name )" "$file"; then
        fail "$1: $2: $file declares no $name"
    else
        passed=$((passed + 1))
    fi
}

path='[a-z0-9_]+/(specs|src|proofs|must-fail)/[A-Za-z0-9_/]+\.[a-z]+' part='#[A-Za-z0-9_-]+'

for cite in $(grep -oE "\`$path($part)?\`" "$page" | tr -d '`' | sort -u); do exists "$page" "$cite"; done

for edit in $(grep -L '^# of:' crates/*/must-fail/*.edit); do fail "$edit has no line '# of: crate/path#name'"; done

while IFS=: read -r edit line; do
    if [[ $line =~ ^'# of: '($path$part)$ ]]; then
        exists "$edit" "${BASH_REMATCH[1]}"
    else
        fail "$edit: '$line' is not '# of: crate/path#name'"
    fi
done < <(grep -H '^# of:' crates/*/must-fail/*.edit)

# a `&` or `&mut`, with or without a lifetime, of a type whose name is capitalized, with or without its crate, or of self
struct_reference="&('[a-z_]+ )?(mut )?(([a-z_0-9]+::)*[A-Z]|self)"

# the public functions of the libraries; a function's head runs up to the body's brace
functions=
while IFS=: read -r file number line; do
    name=${line#*fn } name=${name%%[^a-z_0-9]*}
    functions+=${file#crates/}#$name$'\n'
    head=$(tail -n "+$number" "$file" | sed -n '1,/^ *{$/p')
    if grep -q '^ *ensures' <<<"$head" && ! grep -q '^ *requires' <<<"$head"; then
        passed=$((passed + 1))
    else
        fail "$file: $name has no ensures, or a requires"
    fi
    if [[ $file#$name == crates/schoonleech/src/lib.rt#avm_board_@(microcycle|instruction) ]] || ! grep -qE "$struct_reference" <<<"$head"; then
        passed=$((passed + 1))
    else
        fail "$file: $name takes a reference to a struct"
    fi
done < <(grep -rnE '^[[:space:]]*pub (extern "C" )?fn ' crates/*/src)

# the conversions: what an `impl From` has before its function says what it gives
while IFS=: read -r file number line; do
    if tail -n "+$number" "$file" | sed -n '1,/^ *fn from(/p' | grep -q '^ *ghost from_gives = '; then
        passed=$((passed + 1))
    else
        fail "$file: '$line' does not say what it gives"
    fi
done < <(grep -rnE '^[[:space:]]*impl From<' crates/*/src)

# the public contracts: an entry of the decisions runs up to the next one or to a heading
contracts=$(awk '/^(- \*\*|#)/ { on = /^- \*\*H32[^0-9]/ } on' "$decisions" |
    grep -oE '`[a-z0-9_]+/src/[a-z0-9_/]+\.rt#[a-z0-9_]+`' | tr -d '`' | sort -u)
[ -n "$contracts" ] || fail "$decisions lists no public contract under H32"

for contract in $contracts; do
    edits=$(grep -lxF "# of: $contract" crates/*/must-fail/*.edit | wc -l)
    if ! grep -qxF "$contract" <<<"$functions"; then
        fail "$decisions: H32 lists $contract, which is no public function"
    elif [ "$edits" -lt 2 ]; then
        fail "$contract is tried by fewer than two edits: $edits"
    else
        passed=$((passed + 1))
    fi
done

# the function behind each mark of an exported one
while IFS=: read -r file name; do
    contract=${file#crates/}#$name
    if grep -qxF "$contract" <<<"$contracts"; then passed=$((passed + 1)); else fail "$contract is exported and not listed under H32"; fi
done < <(grep -rlE '^ *#\[.*no_mangle' crates/*/src | xargs -r awk '
    /^ *#\[.*no_mangle/ { marked = 1 }
    marked && /(^| )fn / { sub(/.*fn /, ""); sub(/[^a-z_0-9].*/, ""); print FILENAME ":" $0; marked = 0 }')

echo "$passed passed, $failed failed"
[ "$failed" -eq 0 ]
