# Plants a fault in a copy of one file of the second simulator. A fault is a file of four lines:
#
#   # what is wrong
#   file: the file of tests/simulator, a .c file
#   old: a piece of one of its lines, which occurs exactly once in the file
#   new: what takes its place

fault_line() { # FAULT KEY
    sed -n "s/^$2: //p" "$1"
}

# Writes the changed file into the folder. Where that can't be done it says why, and its status is 1.
plant() { # FAULT FOLDER
    local file old text before behind
    file=$(fault_line "$1" file) old=$(fault_line "$1" old)
    [[ $file == *.c ]] && [ -f "tests/simulator/$file" ] || { echo "$1 names no .c file of tests/simulator"; return 1; }
    [ -n "$old" ] || { echo "$1 has no old text"; return 1; }
    text=$(<"tests/simulator/$file")
    before=${text%%"$old"*} behind=${text#*"$old"}
    [ "$before" != "$text" ] || { echo "the old text of $1 is not in $file"; return 1; }
    [ "${behind#*"$old"}" = "$behind" ] || { echo "the old text of $1 is more than once in $file"; return 1; }
    mkdir -p "$2" && printf '%s%s%s\n' "$before" "$(fault_line "$1" new)" "$behind" >"$2/$file"
}
