# Real tools agree with the image calls: objcopy of binutils and srec_cat of srecord. For images of every legal size, what they write is
# read to the same memory, and what is written they read to the same bytes. What is missing is installed; where that can't be done, the
# status is 77.
#
# The calls know record types 00 and 01 alone. objcopy keeps to these by itself: a binary file has no start address (types 03 and 05), and
# an image of 65536 bytes at most needs no upper address bits (types 02 and 04). srec_cat begins with a record of type 04 even for a small
# image, unless -address-length=2 says that 16 bits of address are enough. Then it writes 00 and 01 alone, and refuses larger images.
#
# SCHOONLEECH_LIB  an archive to test instead of the proved one
. tests/host/counting.bash
. tests/host/x86_64.bash
. tests/host/library.bash
install_or_skip objcopy binutils
install_or_skip srec_cat srecord

prove_or_finish
one "the program over the library compiles" $cc -std=c99 -O2 -Wall -Wextra -Werror -o "$work/convert" tests/tools/convert.c \
    tests/engine/check.c "$library"
[ "$failed" -eq 0 ] || finish
convert="$emulator $work/convert"

# The images of a size: drawn ones, nothing but zeros, and nothing but ones.
make_images() { # M
    local kind
    $convert draw "$1" "$1" "$work/drawn" && $convert draw "1$1" "$1" "$work/drawn_too" || return 1
    head -c $((4 * $1)) /dev/zero >"$work/zeros"
    tr '\0' '\377' <"$work/zeros" >"$work/ones"
    for kind in $images; do
        [ "$(stat -c %s "$work/$kind")" -eq $((4 * $1)) ] || return 1
    done
}
images="drawn drawn_too zeros ones"

objcopy_text() { objcopy -I binary -O ihex "$1" "$2"; }
objcopy_binary() { objcopy -I ihex -O binary "$1" "$2"; }
srec_cat_text() { srec_cat "$1" -binary "${@:3}" -o "$2" -intel -address-length=2; }
srec_cat_binary() { srec_cat "$1" -intel -o "$2" -binary; }

answers() { # ANSWER COMMAND..
    local want=$1 got
    shift
    got=$("$@")
    [ "$got" = "$want" ] || { echo "'$got', not '$want', from: $*"; return 1; }
}

# The text is read over a memory that holds something else.
gives() { # TEXT IMAGE
    $convert draw 7 $(($(stat -c %s "$2") / 4)) "$work/memory"
    answers "0 0" $convert read "$1" "$work/memory" && cmp "$2" "$work/memory"
}

written_by() { # TOOL [OPTION..]
    local kind
    for kind in $images; do
        "$1_text" "$work/$kind" "$work/text" "${@:2}" && gives "$work/text" "$work/$kind" || return 1
    done
}

read_by() { # TOOL M
    local kind
    for kind in $images; do
        answers "0 $((11 * $2 + 12))" $convert write "$work/$kind" "$work/text" &&
            "$1_binary" "$work/text" "$work/binary" && cmp "$work/$kind" "$work/binary" || return 1
    done
}

# Two parts of the image are in the text; between and behind them memory keeps its words.
with_words_left_out() {
    srec_cat_text "$work/drawn" "$work/text" -crop 8 24 40 60 && cp "$work/drawn_too" "$work/memory" &&
        answers "0 0" $convert read "$work/text" "$work/memory" || return 1
    cp "$work/drawn_too" "$work/binary"
    dd if="$work/drawn" of="$work/binary" bs=4 skip=2 seek=2 count=4 conv=notrunc status=none
    dd if="$work/drawn" of="$work/binary" bs=4 skip=10 seek=10 count=5 conv=notrunc status=none
    cmp "$work/binary" "$work/memory"
}

refused() { # ANSWER
    cp "$work/drawn_too" "$work/memory"
    answers "$1" $convert read "$work/text" "$work/memory" && cmp "$work/drawn_too" "$work/memory"
}

type_04_first() {
    srec_cat "$work/drawn" -binary -o "$work/text" -intel && answers ":020000040000FA" head -n 1 "$work/text" && refused "12 1"
}

too_long() {
    srec_cat_text "$work/drawn" "$work/text" -output-block-size=4 && refused "9 0"
}

for ((m = 16; m <= 16384; m *= 2)); do
    one "M = $m: images of every kind" make_images $m
    one "M = $m: what objcopy writes is read to the same memory" written_by objcopy
    one "M = $m: what srec_cat writes is read to the same memory" written_by srec_cat
    one "M = $m: so it is with CR LF and 252 bytes a record" written_by srec_cat -line-termination=crlf -output-block-size=252
    [ $m -eq 16384 ] || one "M = $m: and with 4 bytes a record" written_by srec_cat -output-block-size=4
    one "M = $m: objcopy reads what is written to the same bytes" read_by objcopy $m
    one "M = $m: srec_cat reads what is written to the same bytes" read_by srec_cat $m
    one "M = $m: words that srec_cat leaves out keep their value" with_words_left_out
    one "M = $m: srec_cat's own first line, of type 04, is refused with 12 at line 1" type_04_first
done
one "4 bytes a record make the text of the largest image too long, which is 9 at 0" too_long
finish
