# The program image: Intel HEX on standard input into 16 words of zero, and the image of them, or the refusal, on standard output. It takes
# 65536 bytes at most.
#
# SCHOONLEECH_IMAGE  a program to test instead of crates/image/out/image, which rt ci leaves there, or else rt run
. tests/host/counting.bash
. tests/host/emulator.bash
image=${SCHOONLEECH_IMAGE:-crates/image/out/image}
prove_and_run() {
    (cd crates/image && rt run) </dev/null
}
[ -x "$image" ] || [ -n "${SCHOONLEECH_IMAGE:-}" ] || alone prove_and_run >"$work/log" 2>&1 || cat "$work/log"
[ -x "$image" ] || { echo "image: there is no $image"; failed=1; finish; }

# The lines of an image of zeros, the scope's record, and the first line of an image with it.
first=:1000000000000000000000000000000000000000F0
second=:1000100000000000000000000000000000000000E0
third=:1000200000000000000000000000000000000000D0
fourth=:1000300000000000000000000000000000000000C0
end=:00000001FF
example=:0400000000000010EC
example_first=:1000000000000010000000000000000000000000E0

run() {
    $emulator "$image" >"$work/out" 2>"$work/complaints"
}

# Expects exactly these lines on standard output, nothing beside them, and status 0, which the program has whatever it prints
# (docs/DECISIONS.md, I10).
has_shown() { # STATUS LINE..
    printf '%s\n' "${@:2}" >"$work/wanted"
    cmp "$work/wanted" "$work/out" && [ ! -s "$work/complaints" ] && [ "$1" -eq 0 ] && return
    echo "status $1, on standard output and error:"
    head -c 1000 "$work/out" "$work/complaints"
    return 1
}

prints() { # COMMAND-THAT-MAKES-INPUT LINE..
    eval "$1" | run
    has_shown "${PIPESTATUS[1]}" "${@:2}"
}

prints_for_file() { # FILE LINE..
    run <"$1"
    has_shown $? "${@:2}"
}

input() { # NAME TEXT LINE..
    text=$2
    one "$1" prints 'printf "$text"' "${@:3}"
}

has_bytes() { # BYTES FILE
    [ "$(stat -c %s "$2")" -eq "$1" ]
}

# A text of that many bytes: records of no data with LF and, for what is left over, with CR LF; then one word for the last place and the
# end record without an end, so that no byte of it can be missed.
long_text() { # BYTES
    awk -v left=$(($1 - 31)) 'BEGIN {
        for (longer = left % 12; longer > 0; longer--) { printf ":0000000000\r\n"; left -= 13 }
        for (; left > 0; left -= 12) printf ":0000000000\n"
        printf ":04003C00DEADBEEF88\n:00000001FF"
    }'
}

in_pieces() { # BYTES-A-PIECE PAUSE FILE
    local at=0 size
    size=$(stat -c %s "$3")
    while [ $at -lt "$size" ]; do
        tail -c +$((at + 1)) "$3" | head -c "$1"
        at=$((at + $1))
        sleep "$2"
    done
}

last_word=:10003000000000000000000000000000DEADBEEF88

input "the scope's example gives the scope's image" "$example\n$end\n" $example_first $second $third $fourth $end
one ".. which has 188 bytes" has_bytes 188 "$work/out"
input "an end record alone gives an image of zeros" "$end\n" $first $second $third $fourth $end
input "CR LF ends lines" "$example\r\n$end\r\n" $example_first $second $third $fourth $end
input "the last line needs no end" "$example\n$end" $example_first $second $third $fourth $end
input "digits may be in lower case" ":0400000000000010ec\n:00000001ff\n" $example_first $second $third $fourth $end
input "words stand with their most significant byte first" ":08000400123456789abcdef0bc\n$end" \
    :1000000000000000123456789ABCDEF000000000B8 $second $third $fourth $end
cp "$work/out" "$work/image"
one "an image that it wrote is given back" prints 'cat "$work/image"' \
    :1000000000000000123456789ABCDEF000000000B8 $second $third $fourth $end

input "10: a blank line" "$example\n\n$end\n" "refused 10 line 2"
input "10: a line that is no record" "hello\n" "refused 10 line 1"
input "10: a CR without LF" "$example\r$end\n" "refused 10 line 1"
input "10: a CR at the end" "$example\n$end\r" "refused 10 line 2"
input "10: a byte of 0" "$example\n:00000001F\\000\n" "refused 10 line 2"
input "11: a wrong sum" ":0400000000000010ED\n$end\n" "refused 11 line 1"
input "11: a wrong sum in the third line" "$example\n:00000400FC\n:0000000100\n" "refused 11 line 3"
input "12: a record of type 04" ":020000040000FA\n$example\n$end\n" "refused 12 line 1"
input "13: a word beyond the sixteenth" "$example\n:0400400000000010AC\n$end\n" "refused 13 line 2"
input "13: a count that is no multiple of 4" ":020000000000FE\n$end\n" "refused 13 line 1"
input "14: no end record" "$example\n" "refused 14 line 1"
input "14: something after the end record" "$example\n$end\n\n" "refused 14 line 3"
input "14: an empty input" "" "refused 14 line 0"
one "14: /dev/null" prints_for_file /dev/null "refused 14 line 0"
input "15: a record that starts before the end of the last" "$example\n$example\n$end\n" "refused 15 line 2"
one "an input that can't be read is at its end" prints_for_file / "refused 14 line 0"

written_nowhere() { # PLACE
    (
        [ "$1" = closed ] && exec >&- || exec >"$1"
        $emulator "$image"
    ) <"$work/image" 2>"$work/complaints" && [ ! -s "$work/complaints" ]
}
one "an output that can't be written leaves the status 0, and nothing is said" written_nowhere /dev/full
one ".. nor where it is closed" written_nowhere closed

long_text 65536 >"$work/long"
one "a text has 65536 bytes" has_bytes 65536 "$work/long"
one "65536 bytes are taken" prints 'cat "$work/long"' $first $second $third $last_word $end
one "65536 bytes of a file are taken" prints_for_file "$work/long" $first $second $third $last_word $end
one "65536 bytes in pieces are taken" prints 'in_pieces 10007 0.02 "$work/long"' $first $second $third $last_word $end
one "9: one line end more" prints 'cat "$work/long"; echo' "refused 9 line 0"
one "9: in pieces, the last of one byte" prints 'in_pieces 16384 0.02 "$work/long"; sleep 0.1; echo' "refused 9 line 0"
one "9 comes before what is wrong with a line" prints 'echo; cat "$work/long"' "refused 9 line 0"
one "9: much more" prints 'head -c 3000000 /dev/zero' "refused 9 line 0"
one "65535 bytes are taken" prints 'long_text 65535' $first $second $third $last_word $end

printf '%s\n' $example $end >"$work/small"
one "an input that comes byte by byte is read to its end" prints 'in_pieces 1 0.01 "$work/small"' \
    $example_first $second $third $fourth $end
one "a refusal far down has its line" prints 'long_text 65000 | sed "s/^:04003C00/:04003D00/"' "refused 11 line 5415"
finish
