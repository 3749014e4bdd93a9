# The example grader (grader/): its messages and statuses, its marks, its story, and the first program of docs/GRADER.md.
#
# SCHOONLEECH_LIB  an archive to test with instead of the proved one
. tests/host/counting.bash
. tests/host/x86_64.bash
. tests/host/library.bash

prove_or_finish

strict="-std=c99 -pedantic-errors -O2 -Wall -Wextra -Werror -Iinclude"
sanitizers="-fsanitize=address,undefined -fno-sanitize-recover=all"
pieces=$(ls grader/*.c common/*.c | grep -v main.c)
story=grader/story
files=$work/files
mkdir "$files" && cp $story/* "$files"
builds=plain

one "the grader is C99 without extensions" $cc $strict -o "$work/plain" grader/*.c common/*.c "$library"
[ -x "$work/plain" ] || finish

# Sanitizers need a library of the compiler's, and the emulator can't run them.
compile_with_sanitizers() {
    mkdir "$work/objects" && for piece in $pieces; do
        $cc $strict $sanitizers -c -o "$work/objects/$(basename "$piece" .c).o" "$piece" || return 1
    done
    $cc $strict $sanitizers -o "$work/sanitized" grader/main.c "$work"/objects/*.o "$library" &&
        $cc $strict $sanitizers -o "$work/garbage" tests/grader/garbage.c "$work"/objects/*.o "$library"
}
echo 'int main(void) { return 0; }' >"$work/empty.c"
if [ -z "$emulator" ] && $cc $sanitizers -o "$work/empty" "$work/empty.c" 2>/dev/null && "$work/empty"; then
    one "the grader compiles with sanitizers" compile_with_sanitizers
    builds="plain sanitized"
fi

# Leaves what a build gives in $work/out and $work/complaints, and its status in `status`.
run() { # BUILD ARGUMENT..
    local build=$1
    shift
    (cd "$files" && $emulator "$work/$build" "$@") >"$work/out" 2>"$work/complaints"
    status=$?
}

# Expects a status, and on standard output and error exactly what $work/wanted and $work/wanted-complaints hold, of every build.
gives() { # STATUS ARGUMENT..
    local wanted=$1 build
    shift
    for build in $builds; do
        run "$build" "$@"
        [ "$status" -eq "$wanted" ] && cmp "$work/wanted" "$work/out" && cmp "$work/wanted-complaints" "$work/complaints" && continue
        echo "$build: status $status, not $wanted; on standard output and error:"
        head -c 3000 "$work/out" "$work/complaints"
        return 1
    done
}

refuses() { # STATUS MESSAGE ARGUMENT..
    : >"$work/wanted"
    echo "$2" >"$work/wanted-complaints"
    gives "$1" "${@:3}"
}

# Standard input is what is expected on standard output.
prints() { # NAME STATUS ARGUMENT..
    cat >"$work/wanted"
    : >"$work/wanted-complaints"
    one "$1" gives "${@:2}"
}

contains() { # STATUS TEXT ARGUMENT..
    run plain "${@:3}"
    [ "$status" -eq "$1" ] && grep -qF -- "$2" "$work/out" && return
    echo "status $status, and not: $2"
    head -c 3000 "$work/out" "$work/complaints"
    return 1
}

file() { # NAME TEXT, as printf has it
    printf "$2" >"$files/$1"
}

# A bad file among the story's good ones.
bad() { # KIND TEXT MESSAGE [STATUS]
    local arguments="published.microprogram sum.hex on_time.requests sum.expected"
    file "bad.$1" "$2"
    case $1 in
    microprogram) arguments=${arguments/published.microprogram/bad.microprogram} ;;
    hex) arguments=${arguments/sum.hex/bad.hex} ;;
    requests) arguments=${arguments/on_time.requests/bad.requests} ;;
    expected) arguments=${arguments/sum.expected/bad.expected} ;;
    esac
    one "bad.$1$3" refuses "${4:-3}" "bad.$1$3" $arguments
}

# The command line.

for line in "0 every mark is right" "1 a mark is wrong" "2 the command line" "3 a file" "4 the microprogram is refused" "5 the output"; do
    one "--help has status $line" contains 0 " $line" --help
done
command_line() { # MESSAGE ARGUMENT..
    one "$1" refuses 2 "grader: $1; 'grader --help' says how it is called" "${@:2}"
}
four="MICROPROGRAM IMAGE REQUESTS EXPECTED"
command_line "expected $four"
command_line "expected $four" sum.hex
command_line "expected $four" --brief a b c
command_line "one file too many: e" a b c d e
command_line "no such option: --quiet" --quiet a b c d
command_line "no such option: -h" -h
command_line "expected MICROPROGRAM IMAGE REQUESTS" --record a b c d
command_line "expected no file" --published a
command_line "expected no file" --help a
command_line "--brief is for marking alone" --record --brief a b c
command_line "--microcycles is for marking and recording alone" --published --microcycles
command_line "one option too many: --record" --help --record

# Files that can't be read.

good="published.microprogram sum.hex on_time.requests sum.expected"
one "a file that is not there" refuses 3 "none: can't be read: No such file or directory" ${good/sum.hex/none}
one "a folder" refuses 3 ".: can't be read: Is a directory" ${good/sum.expected/.}
head -c 67108864 /dev/zero >"$files/large"
one "a file of 64 MiB" refuses 3 "large: expected fewer than 67108864 bytes, found at least that many" ${good/on_time.requests/large}
rm "$files/large"

# Microprograms. 742D800040 leads to word 0 alone; its last three digits are COND and ADDR, and 742D8 are the codes of no operation.

back=742D800040
bad microprogram "$back\nxyz\n" ":2: expected a microword of 1 to 16 hexadecimal digits, found 'xyz'"
bad microprogram "# only this\n0x\n" ":2: expected a microword of 1 to 16 hexadecimal digits, found '0x'"
bad microprogram "00000000000000001\n" ":1: expected a microword of 1 to 16 hexadecimal digits, found '00000000000000001'"
bad microprogram "$back $back\n" ":1: expected the end of the line, found '$back'"
bad microprogram "\\001\n" ":1: expected a microword of 1 to 16 hexadecimal digits, found '?'"
bad microprogram "$(yes $back | head -n 70)\nxyz\n" ":71: expected a microword of 1 to 16 hexadecimal digits, found 'xyz'"
number_4="the microprogram has too few or too many words (number 4): expected 1 to 64, found"
bad microprogram "" ": $number_4 0" 4
bad microprogram "# nothing\n\n" ": $number_4 0" 4
bad microprogram "$(yes $back | head -n 65)" ":65: $number_4 65" 4
bad microprogram "# first\n$(yes $back | head -n 5000)" ":66: $number_4 5000" 4
number_5="the microword has a bit or a code that no table names (number 5): expected"
bad microprogram "$back\n\n1$back\n" ":3: $number_5 no bit above 39 in word 1, found 0x1$back" 4
bad microprogram "FEDCBA9876543210\n" ":1: $number_5 no bit above 39 in word 0, found 0xFEDCBA9876543210" 4
bad microprogram "0xfedcba9876543210\n" ":1: $number_5 no bit above 39 in word 0, found 0xFEDCBA9876543210" 4
bad microprogram "762D800040\n" ":1: $number_5 a code from 0 to 10 in field ALU of word 0, found 11" 4
bad microprogram "7435800040\n" ":1: $number_5 a code from 0 to 5 in field SRCA of word 0, found 6" 4
bad microprogram "742F800040\n" ":1: $number_5 a code from 0 to 2 in field SRCB of word 0, found 3" 4
bad microprogram "742DC00040\n" ":1: $number_5 a code from 0 to 6 in field TRGT of word 0, found 7" 4
bad microprogram "742D800140\n" ":1: $number_5 a code from 0 to 4 in field COND of word 0, found 5" 4
number_17="the microprogram can go on to a word that it does not have (number 17): its words are 0 to"
advice="; change COND or ADDR there, or add what is missing"
bad microprogram "742D800000\n" ":1: $number_17 0, and word 0 can lead to word 1$advice" 4
bad microprogram "742D800000\n742D80006F\n" ":2: $number_17 1, and word 1 can lead to word 47$advice" 4
bad microprogram "742D800080\n" ":1: $number_17 0, and word 0 can lead to word 4$advice" 4
bad microprogram "742D800080\n$(yes $back | head -n 9)" ":1: $number_17 9, and word 0 can lead to word 10$advice" 4
bad microprogram "742D8000C1\n742D8000C0\n" ":2: $number_17 1, and word 1 can lead to word 2$advice" 4
bad microprogram "742D8000F1\n$back\n" ":1: $number_17 1, and word 0 can lead to word 49$advice" 4
number_18="a walk can be away from fetch for more than 64 microcycles (number 18): it goes in a circle, and after exactly 64 microcycles"
bad microprogram "# word 1 leads to itself\n742D800000\n742D800041\n" \
    ":3: $number_18 it can stand on word 1; make every way from there lead to word 0" 4

# Images.

data=:0400000000000010EC end=:00000001FF
number_10="this line is not a record (number 10): expected a colon and then pairs of hexadecimal digits, five and as many more as the"
bad hex "hello\n" ":1: $number_10 first pair says, found 'hello'"
bad hex "$data\n\n$end\n" ":2: $number_10 first pair says, found a blank line"
bad hex "$data\r\n\r\n$end\n" ":2: $number_10 first pair says, found a blank line"
bad hex "$data\n${data}\t\n$end\n" ":2: $number_10 first pair says, found '$data?'"
bad hex "$(printf ':%060d' 0)\n" ":1: $number_10 first pair says, found ':000000000000000000000000000000000000000..'"
number_11="the bytes of this record do not add up to 0 modulo 256 (number 11): expected the checksum"
bad hex ":0400000000000010ED\n$end\n" ":1: $number_11 EC, found ED"
bad hex "$data\n:00000000ff\n" ":2: $number_11 00, found FF"
bad hex ":020000040000FA\n" ":1: this type of record is not read (number 12): expected 00 (data) or 01 (end), found 04"
number_13="the count, the address or the end of this record is wrong (number 13): expected"
bad hex ":0400FC0000000010F0\n:0401000000000010EB\n$end\n" \
    ":2: $number_13 multiples of 4, and an end of at most 256 for 64 words, found count 4, address 256, end 260"
bad hex ":020000000000FE\n" ":1: $number_13 multiples of 4, and an end of at most 256 for 64 words, found count 2, address 0, end 2"
bad hex ":00010001FE\n" ":1: $number_13 count 0 and address 0 in the end record, found count 0 and address 256"
number_14="the end record is missing or is not the last line (number 14): expected"
bad hex "" ": $number_14 :00000001FF as the last line, found no end record"
bad hex "$data\n" ":1: $number_14 :00000001FF as the last line, found no end record"
bad hex "$data\n$end\n$end\n" ":3: $number_14 nothing after the end record, found this line"
bad hex "$data\n$data\n$end\n" \
    ":2: this record starts before the end of the one before it (number 15): expected an address of 4 or more, found 0"
bad hex "%0262145d" ": the text is too long (number 9): expected at most 262144 bytes, found 262145"

# Request logs.

bad requests "" ": expected a last line with until, found the end of the file"
bad requests "from 1 none\n\n# no more\n" ":3: expected a last line with until, found the end of the file"
bad requests "hello\n" ":1: expected words, pc, psw, ivec, register, from or until, found 'hello'"
bad requests "words 24\n" ":1: expected a power of two from 16 to 16384, found '24'"
bad requests "words 8\n" ":1: expected a power of two from 16 to 16384, found '8'"
bad requests "words 32768\n" ":1: expected a power of two from 16 to 16384, found '32768'"
bad requests "words\n" ":1: expected a power of two from 16 to 16384, found the end of the line"
bad requests "words 16 words\n" ":1: expected the end of the line, found 'words'"
bad requests "pc 4294967296\n" ":1: expected a number from 0 to 4294967295, found '4294967296'"
bad requests "ivec 0x100000000\n" ":1: expected a number from 0 to 4294967295, found '0x100000000'"
bad requests "pc -1\n" ":1: expected a number from 0 to 4294967295, found '-1'"
bad requests "pc 1f\n" ":1: expected a number from 0 to 4294967295, found '1f'"
bad requests "pc\n" ":1: expected a number from 0 to 4294967295, found the end of the line"
bad requests "psw 64\n" ":1: expected a number from 0 to 63, found '64'"
bad requests "psw 1\npc 2\npsw 1\n" ":3: expected each setting once, found 'psw'"
bad requests "words 16\nwords 16\n" ":2: expected each setting once, found 'words'"
bad requests "register 0 1\n" ":1: expected a register from 1 to 31, found '0'"
bad requests "register 32 1\n" ":1: expected a register from 1 to 31, found '32'"
bad requests "register 31\n" ":1: expected a number from 0 to 4294967295, found the end of the line"
bad requests "register 1 1\nregister 31 1\nregister 0x1F 1\n" ":3: expected each register once, found '0x1F'"
bad requests "from 2 none\n" ":1: expected microcycle 1, found '2'"
bad requests "from 1\n" ":1: expected none, interrupt, reset or both, found the end of the line"
bad requests "from 1 up\n" ":1: expected none, interrupt, reset or both, found 'up'"
bad requests "from 1 none\nfrom 5 none\nfrom 5 reset\n" ":3: expected a microcycle from 6 to 1000000000, found '5'"
bad requests "from 1 none\nfrom 1000000001 none\n" ":2: expected a microcycle from 2 to 1000000000, found '1000000001'"
bad requests "from 1 none\nfrom 999999999 none\nfrom 5 none\n" ":3: expected microcycle 1000000000, found '5'"
last_from="from 1 none\nfrom 1000000000 none\n"
bad requests "${last_from}from 1000000001 none\n" ":3: expected until, since no microcycle comes after 1000000000, found 'from'"
bad requests "${last_from}pc 1\n" ":3: expected until, since no microcycle comes after 1000000000, found 'pc'"
bad requests "${last_from}until 999999999\n" ":3: expected microcycle 1000000000, found '999999999'"
bad requests "from 1 none\npc 1\n" ":2: expected from or until, since the starting state comes before them, found 'pc'"
bad requests "until 9\n" ":1: expected a line 'from 1' before it, found 'until'"
bad requests "from 1 none\nfrom 9 none\nuntil 8\n" ":3: expected a microcycle from 9 to 1000000000, found '8'"
bad requests "from 1 none\nuntil 1000000001\n" ":2: expected a microcycle from 1 to 1000000000, found '1000000001'"
bad requests "from 1 none\nuntil 9\nfrom 10 none\n" ":3: expected nothing after until, found 'from'"
bad requests "from 1 none\nuntil 9\nuntil 9\n" ":3: expected nothing after until, found 'until'"
bad requests "from 1 none\runtil 9\n" ":1: expected none, interrupt, reset or both, found 'none?until'"

# Expected logs, for 64 words of memory.

bad expected "" ": expected a line 'fetch 1', found the end of the file"
bad expected "microcycle 1 pc 1\n# and no more\n" ":2: expected a line 'fetch 1', found the end of the file"
bad expected "point 1\n" ":1: expected fetch or microcycle, found 'point'"
bad expected "fetch\n" ":1: expected fetch point 1, found the end of the line"
bad expected "fetch 0\n" ":1: expected fetch point 1, found '0'"
bad expected "fetch 1\nfetch 3\n" ":2: expected fetch point 2, found '3'"
bad expected "fetch 1\nmicrocycle 2\n" ":2: expected microcycle 1, found '2'"
bad expected "fetch 1 mpc 0\n" ":1: expected pc, psw, r1 to r31 or m0 to m63, found 'mpc'"
bad expected "fetch 1 r0 0\n" ":1: expected pc, psw, r1 to r31 or m0 to m63, found 'r0'"
bad expected "fetch 1 r32 0\n" ":1: expected pc, psw, r1 to r31 or m0 to m63, found 'r32'"
bad expected "fetch 1 m64 0\n" ":1: expected pc, psw, r1 to r31 or m0 to m63, found 'm64'"
bad expected "fetch 1 m 0\n" ":1: expected pc, psw, r1 to r31 or m0 to m63, found 'm'"
bad expected "microcycle 1 ivec 8\n" ":1: expected pc, psw, ir, mar, mbr, mpc, ireq, r1 to r31 or m0 to m63, found 'ivec'"
bad expected "fetch 1 r8 1 pc 1 r8 1\n" ":1: expected each part once in a line, found 'r8'"
bad expected "fetch 1 r8\n" ":1: expected a number from 0 to 4294967295, found the end of the line"
bad expected "fetch 1 r8 pc\n" ":1: expected a number from 0 to 4294967295, found 'pc'"
bad expected "fetch 1 r8 4294967296\n" ":1: expected a number from 0 to 4294967295, found '4294967296'"
bad expected "fetch 1 psw 64\n" ":1: expected a number from 0 to 63, found '64'"
bad expected "microcycle 1 mpc 64\n" ":1: expected a number from 0 to 63, found '64'"
bad expected "microcycle 1 ireq 2\n" ":1: expected a number from 0 to 1, found '2'"

# Marks. The program of three words puts 7 into register 8, stores it in memory word 12, and stays where it is.

file hand.hex ":0C000000610000073D00000C01C0000280\n:00000001FF\n"
file hand.requests "words 16\nfrom 1 none\nuntil 14\n"
file hand.expected "# by hand\r\n\r\nfetch 1\tr8 0x7 pc 1\r\n  fetch 2 m12 07 pc 2 # stored\nfetch 3 psw 0"
judged() { # EXPECTED-FILE MICROCYCLES POINTS
    echo "microprogram  published.microprogram: accepted: back at fetch within 7 microcycles"
    echo "image         hand.hex: read into 16 words of memory"
    echo "requests      hand.requests: $2 microcycles to run"
    echo "expected      $1: $3"
}
hand="published.microprogram hand.hex hand.requests"

prints "a log written by hand is right" 0 $hand hand.expected <<END
$(judged hand.expected 14 "3 fetch points, 0 microcycles")

fetch point 1, after microcycle 4, ADDI at 0: right
    register 8         expected 7                        shown 7
    program counter    expected 1                        shown 1
fetch point 2, after microcycle 10, STI at 1: right
    memory word 12     expected 7                        shown 7
    program counter    expected 2                        shown 2
fetch point 3, after microcycle 14, JMP at 2: right
    status word        expected no flag                  shown no flag
right: all 3 fetch points are as expected
END
prints ".. and brief" 0 --brief $hand hand.expected <<END
right: all 3 fetch points are as expected
END
prints ".. and beside microcycles that have no lines" 0 --brief --microcycles $hand hand.expected <<END
microcycle by microcycle                         | at fetch points
microcycle  part    expected       shown         |   point  step            mark
no lines to compare with                         | right: all 3 fetch points are as expected
END

file wrong.expected "fetch 1 pc 1 psw 0x3F r8 70000\nfetch 2 pc 2\nfetch 3 psw 0 r8 7 m12 7\n"
prints "wrong values and a change that no line names" 1 --brief $hand wrong.expected <<END
fetch point 1, after microcycle 4, ADDI at 0: wrong
    program counter    expected 1                        shown 1
    status word        expected sm ie v n c z            shown no flag        differs
    register 8         expected 0x11170                  shown 7              differs
fetch point 2, after microcycle 10, STI at 1: wrong
    program counter    expected 2                        shown 2
    status word        expected sm ie v n c z as before  shown no flag        differs
    register 8         expected 0x11170 as before        shown 7              differs
    memory word 12     expected 0 as before              shown 7              differs
wrong: 2 of 3 fetch points are not as expected; the first is fetch point 1
END
prints ".. in columns" 1 --microcycles --brief $hand wrong.expected <<END
microcycle by microcycle                         | at fetch points
microcycle  part    expected       shown         |   point  step            mark
         4                                       |       1  ADDI at 0       wrong
                                                 |          psw     sm ie v n c z  no flag
                                                 |          r8      0x11170        7
        10                                       |       2  STI at 1        wrong
                                                 |          psw     sm ie v n c z  no flag
                                                 |          r8      0x11170        7
                                                 |          m12     0              7
no lines to compare with                         | wrong: 2 of 3 fetch points differ
END

file short.expected "fetch 1 pc 1 r8 7\n"
prints "points beyond the log are said once" 0 $hand short.expected <<END
$(judged short.expected 14 "1 fetch point, 0 microcycles")

fetch point 1, after microcycle 4, ADDI at 0: right
    program counter    expected 1                        shown 1
    register 8         expected 7                        shown 7
not marked: fetch points from 2 to 3, which the expected log does not have
right: 1 fetch point is as expected
END
prints ".. in columns" 0 --microcycles $hand short.expected <<END
$(judged short.expected 14 "1 fetch point, 0 microcycles")

microcycle by microcycle                         | at fetch points
microcycle  part    expected       shown         |   point  step            mark
         4                                       |       1  ADDI at 0       right
                                                 | from 2 to 3: not in the log
no lines to compare with                         | right: 1 fetch point is as expected
END

file r8.expected "fetch 1 pc 1 r8 1\n"
prints "the only point is wrong" 1 --brief $hand r8.expected <<END
fetch point 1, after microcycle 4, ADDI at 0: wrong
    program counter    expected 1                        shown 1
    register 8         expected 1                        shown 7              differs
wrong: 1 of 1 fetch point is not as expected; it is fetch point 1
END

file hand.requests "words 16\nfrom 1 none\nuntil 9\n"
prints "a point that is not reached is wrong" 1 --brief $hand hand.expected <<END
fetch point 2: wrong, not reached: the run ended after 9 microcycles at fetch point 1
fetch point 3: wrong, not reached: the run ended after 9 microcycles at fetch point 1
wrong: 2 of 3 fetch points are not as expected; the first is fetch point 2
END
file both.expected "fetch 1 r8 7 pc 1\nfetch 2\nmicrocycle 1 mbr 0x61000007 mpc 1\nmicrocycle 2 ir 0x61000007 mpc 3 ireq 1\n$(
    printf 'microcycle %d mpc 2 ireq 0\\n' 3 4 5 6 7 8 9 10 11)"
prints "what is not reached, in columns" 1 --microcycles $hand both.expected <<END
$(judged both.expected 9 "2 fetch points, 11 microcycles")

microcycle by microcycle                         | at fetch points
microcycle  part    expected       shown         |   point  step            mark
         2  mpc     3              2             |
            ireq    1              0             |
         3  pc      0              1             |
            mpc     2              28            |
         4  pc      0              1             |       1  ADDI at 0       right
            mpc     2              0             |
            r8      0              7             |
         5  pc      0              1             |
            mar     0              1             |
            mbr     0x61000007     0x3D00000C    |
            mpc     2              1             |
            r8      0              7             |
         6  pc      0              1             |
            ir      0x61000007     0x3D00000C    |
            mar     0              1             |
            mbr     0x61000007     0x3D00000C    |
            r8      0              7             |
         7  pc      0              2             |
            ir      0x61000007     0x3D00000C    |
            mar     0              1             |
            mbr     0x61000007     0x3D00000C    |
            mpc     2              19            |
            r8      0              7             |
         8  pc      0              2             |
            ir      0x61000007     0x3D00000C    |
            mar     0              12            |
            mbr     0x61000007     0x3D00000C    |
            mpc     2              47            |
            r8      0              7             |
         9  pc      0              2             |
            ir      0x61000007     0x3D00000C    |
            mar     0              12            |
            mbr     0x61000007     7             |
            mpc     2              48            |
            r8      0              7             |
            from 10 to 11: not reached           |
                                                 |       2  not reached     wrong
wrong: 10 of 11 microcycles differ               | wrong: 1 of 2 fetch points differs
END

# A microprogram of one word is back at fetch after each microcycle. The last request may begin with the last microcycle.
file one.microprogram "0x000000742d800040 # to itself\n"
file one.requests "words 16\nfrom 1 none\nfrom 2 both\nuntil 2\n"
file one.expected "fetch 1\nfetch 2\nmicrocycle 1\nmicrocycle 2 ireq 1\n"
prints "the smallest microprogram" 0 --microcycles one.microprogram hand.hex one.requests one.expected <<END
microprogram  one.microprogram: accepted: back at fetch within 1 microcycle
image         hand.hex: read into 16 words of memory
requests      one.requests: 2 microcycles to run
expected      one.expected: 2 fetch points, 2 microcycles

microcycle by microcycle                         | at fetch points
microcycle  part    expected       shown         |   point  step            mark
         1                                       |       1  ADDI at 0       right
         2                                       |       2  ADDI at 0       right
right: all 2 microcycles are as expected         | right: all 2 fetch points are as expected
END

# What a step is called: each opcode by its name in docs/AVM1.md, bit 31 ignored, and the interrupt step where request and ie say so.

first_step() { # SETTINGS REQUEST WORD
    local sum=4 k
    for k in 0 2 4 6; do sum=$((sum + 16#${3:k:2})); done
    file step.hex "$(printf ':04000000%s%02X\\n:00000001FF\\n' "$3" $((-sum & 255)))"
    file step.requests "words 16\n$1from 1 $2\nuntil 7\n"
    run plain --record published.microprogram step.hex step.requests
    sed -n 's/^fetch 1 .*, //p' "$work/out"
}
every_opcode() {
    local opcode name bit told count=0
    while read -r opcode name; do
        for bit in 0 1; do
            told=$(first_step "" none "$(printf %08X $((bit << 31 | opcode << 26)))")
            [ "$told" = "$name at 0" ] || { echo "opcode $opcode is called $told"; return 1; }
        done
        count=$((count + 1))
    done < <(sed -n 's/^| [01][01]xxx | \(.*\) |$/\1/p' docs/AVM1.md | tr ',' '\n')
    [ "$count" -eq 32 ] || { echo "docs/AVM1.md lists $count opcodes"; return 1; }
}
step_is() { # TOLD SETTINGS REQUEST
    local told
    told=$(first_step "$2" "$3" 61000007)
    [ "$told" = "$1" ] || { echo "it is called $told"; return 1; }
}
one "a step has its mnemonic, for every opcode" every_opcode
one "an interrupt with ie set is the interrupt step" step_is "interrupt step" "psw 0x10\n" interrupt
one ".. with reset too" step_is "interrupt step" "psw 0x3F\n" both
one ".. and with ie clear it is the instruction" step_is "ADDI at 0" "psw 0x2F\n" interrupt
one ".. and so it is with reset alone" step_is "ADDI at 0" "psw 0x10\n" reset
one "the address is taken modulo the words of memory" step_is "JMP at 1" "pc 49\n" none

# Recording.

record_then_mark() { # OPTION..
    run plain --record "$@" published.microprogram sum.hex late.requests && cp "$work/out" "$files/recorded.expected" &&
        contains 0 "right: all 13 fetch points" "$@" published.microprogram sum.hex late.requests recorded.expected
}
late_changes_ireq_alone() {
    run plain --record --microcycles published.microprogram sum.hex late.requests
    ! cmp -s $story/sum.expected "$work/out" && diff <(sed 's/ ireq [01]//' $story/sum.expected) <(sed 's/ ireq [01]//' "$work/out")
}
one "what is recorded is right" record_then_mark
one ".. with microcycles too" record_then_mark --microcycles

no_point="the run ends before its first fetch point, and a log needs one; let it run longer"
file no_point.requests "words 16\n\nfrom 1 none\nuntil 3 # of the 4 that ADDI takes\n# no more\n"
no_point_is_told() { # OPTION..
    refuses 3 "no_point.requests:4: $no_point" --record "$@" published.microprogram hand.hex no_point.requests
}
one "a run without a fetch point is not recorded" no_point_is_told
one ".. with microcycles neither" no_point_is_told --microcycles
file one_point.requests "words 16\nfrom 1 none\nuntil 4\n"
prints "a run to the first fetch point is recorded" 0 --record published.microprogram hand.hex one_point.requests <<END
# A line names what changed since the line of its kind before it; all that it does not name is as it was there.
fetch 1 pc 1 r8 7                                 # after microcycle 4, ADDI at 0
END
one "a late request changes ireq and nothing else" late_changes_ireq_alone

# Output: its width, where it can't be written, and progress on a terminal.

# Every part differs in every row, with the longest values.
wide_rows_fit() {
    local all="pc 0xFFFFFFFF psw 63 r31 0xFFFFFFFF m16383 0xFFFFFFFF"
    file wide.requests "psw 0x2F\nfrom 1 none\nuntil 14\n"
    file wide.expected "fetch 1 $all\nmicrocycle 1 $all ir 0xFFFFFFFF mar 0xFFFFFFFF mbr 0xFFFFFFFF mpc 63 ireq 1\nfetch 2\nfetch 3\n"
    run plain --microcycles published.microprogram hand.hex wide.requests wide.expected
    [ "$(grep -c 'm16383  0xFFFFFFFF     0' "$work/out")" -eq 4 ] && awk 'length > 100 { print; long = 1 } END { exit long }' "$work/out"
}
one "two columns have at most 100 characters" wide_rows_fit

output_lost() { # ARGUMENT..
    local place
    for place in /dev/full closed; do
        (
            [ "$place" = closed ] && exec >&- || exec >"$place"
            cd "$files" && $emulator "$work/plain" "$@"
        ) 2>"$work/complaints"
        [ $? -eq 5 ] && grep -qx "grader: the output can't be written" "$work/complaints" || { echo "$place"; return 1; }
    done
}
one "marks that can't be written" output_lost $good
one "a record that can't be written" output_lost --record published.microprogram sum.hex on_time.requests
one "help that can't be written" output_lost --help

# Work of about one and a half seconds, by the time that a million microcycles take here.
long_requests() { # MICROCYCLES
    file long.requests "from 1 none\nuntil $1\n"
}
long_work="--brief published.microprogram hand.hex long.requests short.expected"
long_requests 1000000
began=${EPOCHREALTIME/[.,]/}
run plain $long_work
long_requests $((1000000 * 1500000 / (${EPOCHREALTIME/[.,]/} - began)))
progress_on_a_terminal() {
    (cd "$files" && script -qec "$emulator $work/plain $long_work >/dev/null" "$work/typescript" >/dev/null </dev/null) || return 1
    tr '\r' '\n' <"$work/typescript" >"$work/lines"
    grep -qx 'microcycle [0-9]* of [0-9]*, [0-9]* %' "$work/lines" && grep -qx ' \{50\}' "$work/lines" && return
    cat "$work/lines"
    return 1
}
no_progress_in_a_pipe() {
    run plain $long_work
    [ "$status" -eq 0 ] && [ ! -s "$work/complaints" ]
}
if command -v script >/dev/null; then
    one "long work shows its progress on a terminal, and wipes it" progress_on_a_terminal
else
    echo "there is no script here, so progress on a terminal is not tested"
fi
one ".. and nowhere else" no_progress_in_a_pipe

# A library that breaks its promises, and damaged files.

one "the grader with a broken library" \
    $cc $strict -Wl,--wrap=avm_run -o "$work/broken" grader/*.c common/*.c tests/grader/broken_run.c "$library"
broken_library_is_told() { # OPTION..
    run broken "$@"
    [ "$status" -eq 4 ] && ! grep -q '^right\|^wrong' "$work/out" &&
        grep -qx "grader: the library refused microcycle 5: a microcycle would leave the microprogram (number 8)" "$work/complaints"
}
one ".. says so when it marks" broken_library_is_told $good
one ".. in columns" broken_library_is_told --microcycles $good
one ".. and when it records" broken_library_is_told --record published.microprogram sum.hex on_time.requests
damaged_files() {
    (cd "$files" && "$work/garbage" $good)
}
[ ! -x "$work/garbage" ] || one "thousands of damaged files are told or marked" damaged_files

# The story, and where it is shown.

story_is_printed() {
    SCHOONLEECH_LIB=$library bash grader/story.sh >"$work/story" && cmp $story/output "$work/story"
}
one "the story prints grader/story/output" story_is_printed
one "the story's microprogram is the published one" cmp <(run plain --published; cat "$work/out") $story/published.microprogram
one "the story's expected log is what is recorded with the request on time" \
    cmp <(run plain --record --microcycles published.microprogram sum.hex on_time.requests; cat "$work/out") $story/sum.expected
words_of() { # MICROPROGRAM
    sed 's/#.*//; s/ //g; /^$/d' "$1"
}
one_word_is_changed() {
    diff <(words_of $story/published.microprogram) <(words_of $story/mistake.microprogram) >"$work/changed"
    [ "$(grep -c '^[<>]' "$work/changed")" -eq 2 ] && grep -qx '48c48' "$work/changed"
}
one "the mistake is word 47 and nothing else" one_word_is_changed

# The words of an image, a line 'ADDRESS WORD' each.
image_words() { # IMAGE
    local line count address k
    while read -r line; do
        count=$((16#${line:1:2})) address=$((16#${line:3:4}))
        for ((k = 0; k < count; k += 4)); do echo "$(((address + k) / 4)) ${line:9 + 2 * k:8}"; done
    done <"$1"
}
listing() { # FILE
    sed -n 's/^#\{0,1\} *\([0-9]\{1,2\}\)  \([0-9A-F]\{8\}\)  \([A-Z].*\)$/\1 \2 \3/p' "$1"
}
one "the listing of the story's program has the words of its image" \
    cmp <(listing $story/on_time.requests | cut -d ' ' -f 1,2) <(image_words $story/sum.hex)
one "docs/GRADER.md has the same listing" cmp <(listing $story/on_time.requests) <(listing docs/GRADER.md)

readme_has_the_story() {
    awk 'NR == FNR { story[++lines] = $0; next }
        { page[++last] = $0 == "" ? "" : substr($0, 1, 4) == "    " ? substr($0, 5) : "not indented" }
        END {
            for (first = 0; first + lines <= last; first++) {
                for (k = 1; k <= lines && page[first + k] == story[k]; k++) continue
                if (k > lines) exit 0
            }
            print "README.md has not the lines of grader/story/output, as one block indented by four spaces. They are:"
            for (k = 1; k <= lines; k++) print (story[k] == "" ? "" : "    ") story[k]
            exit 1
        }' $story/output README.md
}
one "README.md shows what the story prints" readme_has_the_story

# docs/GRADER.md: its first program is the first block of C, and what it prints is the block after that.
block() { # NUMBER, counted from the first block of C on
    awk -v wanted="$1" '
    /^```/ { inside = !inside; if (inside && (count > 0 || $0 == "```c")) count++; next }
    inside && count == wanted' docs/GRADER.md
}
block 1 >"$work/first.c"
block 2 >"$work/first-output"
one "the first program of docs/GRADER.md compiles" $cc $strict -o "$work/first" "$work/first.c" "$library"
first_program() {
    [ -s "$work/first-output" ] && $emulator "$work/first" >"$work/out" && cmp "$work/first-output" "$work/out"
}
one ".. and prints what the page says" first_program

# The page says what it prints with another word 47.
first_program_with_the_mistake() {
    local mistake
    mistake=$(words_of $story/mistake.microprogram | sed -n 48p)
    sed "s/= avm_published(k);/= k == 47 ? 0x$mistake : avm_published(k);/" "$work/first.c" >"$work/mistaken.c"
    ! cmp -s "$work/first.c" "$work/mistaken.c" && $cc $strict -o "$work/mistaken" "$work/mistaken.c" "$library" &&
        $emulator "$work/mistaken" >"$work/out" && cmp <(sed '/point [23]/s/right/wrong/' "$work/first-output") "$work/out"
}
one ".. and with the story's mistake fetch points 2 and 3 are wrong" first_program_with_the_mistake

# The page's examples: the first indented lines of a section.
example() { # SECTION
    awk -v section="### $1" '
    /^#/ { inside = $0 == section }
    inside && /^    / { print substr($0, 5); found = 1; next }
    inside && found { exit }' docs/GRADER.md
}
example "Microprograms" >"$work/begins"
example "Request logs" >"$files/page.requests"
example "Expected logs" >"$files/page.expected"
example "What it prints" >"$work/mark"
begins_as_published() {
    [ -s "$work/begins" ] && cmp "$work/begins" <(head -n "$(wc -l <"$work/begins")" $story/published.microprogram)
}
page_logs_are_right() {
    contains 0 "right: all 4 fetch points are as expected" published.microprogram sum.hex page.requests page.expected &&
        contains 0 "right: 1 microcycle is as expected" --microcycles published.microprogram sum.hex page.requests page.expected
}
mark_is_from_the_story() {
    run plain --brief mistake.microprogram sum.hex on_time.requests sum.expected
    [ -s "$work/mark" ] && cmp "$work/mark" <(head -n "$(wc -l <"$work/mark")" "$work/out")
}
one "the page's microprogram is how the published one begins" begins_as_published
one "the page's request log and expected log are taken, and right" page_logs_are_right
one "the page's mark is one of the story" mark_is_from_the_story
finish
