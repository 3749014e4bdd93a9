# The example display (display/): its messages and statuses, its frames, the refused calls that it shows, its first run, and what it does
# to a terminal.
#
# SCHOONLEECH_LIB  an archive to test with instead of the proved one
. tests/host/counting.bash
. tests/host/x86_64.bash
. tests/host/library.bash

prove_or_finish

strict="-std=c99 -pedantic-errors -O2 -Wall -Wextra -Werror -Iinclude"
sanitizers="-fsanitize=address,undefined -fno-sanitize-recover=all"
story=grader/story
first=display/first
files=$work/files
mkdir "$files" && cp $story/published.microprogram $story/sum.hex $first/light.hex "$files"
builds=plain

one "the display is C99 without extensions" $cc $strict -fsyntax-only display/*.c common/*.c
one "display/build.sh builds it" env SCHOONLEECH_LIB="$library" bash display/build.sh
cp target/host/display "$work/plain" || finish

# Sanitizers need a library of the compiler's, and the emulator can't run them.
echo 'int main(void) { return 0; }' >"$work/empty.c"
if [ -z "$emulator" ] && $cc $sanitizers -o "$work/empty" "$work/empty.c" 2>/dev/null && "$work/empty"; then
    one "the display compiles with sanitizers" $cc $strict $sanitizers -o "$work/sanitized" display/*.c common/*.c "$library"
    builds="plain sanitized"
fi

# Leaves what a build gives in $work/out and $work/complaints, and its status in `status`. The keys are the display's standard input.
run() { # BUILD KEYS ARGUMENT..
    local build=$1 keys=$2
    shift 2
    (cd "$files" && printf -- "$keys" | $emulator "$work/$build" "$@") >"$work/out" 2>"$work/complaints"
    status=$?
}

# Expects a status, and on standard output and error exactly what $work/wanted and $work/wanted-complaints hold, of every build.
gives() { # STATUS KEYS ARGUMENT..
    local wanted=$1 build
    shift
    for build in $builds; do
        run "$build" "$@"
        [ "$status" -eq "$wanted" ] && cmp "$work/wanted" "$work/out" && cmp "$work/wanted-complaints" "$work/complaints" && continue
        echo "$build: status $status, not $wanted; on standard output and error:"
        head -c 5000 "$work/out" "$work/complaints"
        return 1
    done
}

refuses() { # STATUS MESSAGE ARGUMENT..
    : >"$work/wanted"
    echo "$2" >"$work/wanted-complaints"
    gives "$1" "" "${@:3}"
}

# The last frame, without those before it.
last_frame() { # KEYS ARGUMENT..
    run plain "$@"
    [ "$status" -eq 0 ] && [ ! -s "$work/complaints" ] && tail -n 24 "$work/out" >"$work/frame"
}

# Standard input is the last frame that is expected.
frame_is() { # NAME KEYS ARGUMENT..
    cat >"$work/wanted-frame"
    one "$1" same_frame "${@:2}"
}
same_frame() { # KEYS ARGUMENT..
    last_frame "$@" && diff "$work/wanted-frame" "$work/frame"
}

# The two lines of the message in the last frame.
says() { # FIRST SECOND KEYS ARGUMENT..
    last_frame "${@:3}" || return 1
    [ "$(sed -n 22,23p "$work/frame")" = "$1${2:+$'\n'}$2" ] && return
    cat "$work/frame"
    return 1
}

# The last key leaves all but the message as it was.
keeps_all() { # KEYS ARGUMENT..
    last_frame "$@" && sed 22,23d "$work/frame" | diff <(tail -n 49 "$work/out" | head -n 24 | sed 22,23d) -
}

# The same for a key that is a move: nothing is marked then.
changes_nothing() { # KEYS ARGUMENT..
    last_frame "$@" && sed 22,23d "$work/frame" | diff <(tail -n 49 "$work/out" | head -n 24 | sed '22,23d; s/[*]/ /g') -
}

file() { # NAME TEXT, as printf has it
    printf "$2" >"$files/$1"
}

# The command line.

help_has() { # LINE
    run plain "" --help
    [ "$status" -eq 0 ] && [ ! -s "$work/complaints" ] && grep -qF -- "$1" "$work/out"
}
for line in "  0 ended by q" "  2 the command line" "  3 a file" "  4 the microprogram is refused" "  5 the output"; do
    one "--help has status$line" help_has "$line"
done
for option in "--words M" "--pc VALUE" --psw --ivec --mpc "--register N=VALUE" --unchecked --frames --published; do
    one "--help has $option" help_has "$option"
done
command_line() { # MESSAGE ARGUMENT..
    one "$1" refuses 2 "display: $1; 'display --help' says how it is called" "${@:2}"
}
command_line "expected MICROPROGRAM IMAGE"
command_line "expected MICROPROGRAM IMAGE" light.hex
command_line "expected IMAGE" --published
command_line "expected IMAGE" --published published.microprogram light.hex
command_line "one file too many: c" a b c
command_line "no such option: --quiet" --quiet a b
command_line "no such option: -h" -h
command_line "--unchecked is for a microprogram from a file" --unchecked --published light.hex

bad_value() { # OPTION EXPECTED FOUND ARGUMENT..
    one "$1 with $3" refuses 2 "display: $1: expected $2, found $3" --published light.hex "$1" "${@:4}"
}
power="a power of two from 16 to 16384"
bad_value --words "$power" "'24'" 24
bad_value --words "$power" "'8'" 8
bad_value --words "$power" "'32768'" 32768
bad_value --words "$power" nothing
word="a number from 0 to 4294967295"
bad_value --pc "$word" "'4294967296'" 4294967296
bad_value --pc "$word" "'-1'" -1
bad_value --pc "$word" "''" ""
bad_value --pc "$word" nothing
bad_value --ivec "$word" "'0x'" 0x
bad_value --psw "a number from 0 to 63" "'64'" 64
bad_value --mpc "a number from 0 to 63" "'64'" 64
register="N=VALUE, a register from 0 to 31 and a number from 0 to 4294967295"
bad_value --register "$register" "'32=1'" 32=1
bad_value --register "$register" "'1=4294967296'" 1=4294967296
bad_value --register "$register" "'1'" 1
bad_value --register "$register" "'=1'" =1
bad_value --register "$register" nothing

# Files, in the words that the grader has for them too.

one "a file that is not there" refuses 3 "none: can't be read: No such file or directory" none light.hex
one "an image that is not there" refuses 3 "none: can't be read: No such file or directory" --published none
file bad.microprogram "742D800040\nxyz\n"
one "a microprogram that is none" refuses 3 "bad.microprogram:2: expected a microword of 1 to 16 hexadecimal digits, found 'xyz'" \
    bad.microprogram light.hex
one ".. is none unchecked either" refuses 3 "bad.microprogram:2: expected a microword of 1 to 16 hexadecimal digits, found 'xyz'" \
    --unchecked bad.microprogram light.hex
file leaves.microprogram "742D800000 # to the next word\n742D800000\n"
number_17="the microprogram can go on to a word that it does not have (number 17): its words are 0 to 1, and word 1 can lead to word 2"
one "a microprogram that is refused" refuses 4 "leaves.microprogram:2: $number_17; change COND or ADDR there, or add what is missing" \
    leaves.microprogram light.hex
file bad.hex ":0400000000000010ED\n"
number_11="the bytes of this record do not add up to 0 modulo 256 (number 11): expected the checksum EC, found ED"
one "an image that is none" refuses 3 "bad.hex:1: $number_11" --published bad.hex
file high.hex ":0400400000000010AC\n:00000001FF\n"
number_13="the count, the address or the end of this record is wrong (number 13): expected multiples of 4, and an end of at most 64 for"
one "an image beyond the words" refuses 3 "high.hex:1: $number_13 16 words, found count 4, address 64, end 68" \
    --published --words 16 high.hex

# Frames. The light's first two words are ADDI r8 r0 1, of 4 microcycles, and STI r8 r0 20, of 6.

light="--published --words 32 --psw 0x10 --ivec 8 --register 1=24 light.hex"
frame_is "the first run is display/first/output" ffrf $light <$first/output
frame_is "the frame at the start" "" $light <<'END'
Schoonleech: the published microprogram on light.hex
microcycles 0   steps 0   request down   paused, 4 microcycles a second
     +0       +1       +2       +3       +4       +5       +6       +7
r0   00000000 00000018 00000000 00000000 00000000 00000000 00000000 00000000
r8   00000000 00000000 00000000 00000000 00000000 00000000 00000000 00000000
r16  00000000 00000000 00000000 00000000 00000000 00000000 00000000 00000000
r24  00000000 00000000 00000000 00000000 00000000 00000000 00000000 00000000
PC 00000000  IR 00000000  MAR 00000000  MBR 00000000  IVEC 00000008  MPC 0
PSW 10   sm 0   ie 1   v 0   n 0   c 0   z 0

at PC   ADDI r8 r0 1                    in IR   JMP 0 r0 0
at MPC  0   756D8004F1  COND jint  ADDR 49  RD
            TRGT noreg  SHFT nsh  ALU nop  SRCA pc  SRCB ir
            MAR PMUX
memory around PC                        around MAR          stack before r1
    30  00000000  JMP 0 r0 0                30  00000000        20  00000000
    31  00000000  JMP 0 r0 0                31  00000000        21  00000000
>    0  61000001  ADDI r8 r0 1          >    0  61000001        22  00000000
     1  3D000014  STI r8 r0 20               1  3D000014        23  00000000
     2  21080000  LSL r8 r8 r0               2  21080000    >   24  00000000
     3  00200001  JMP 1 r0 1                 3  00200001        25  00000000
the microprogram is back at fetch within 7 microcycles

m microcycle  i step  f fetch  r request  space run  +- speed  ? keys  q quit
END
frame_is "three microcycles, and no step from there" mmmi $light <<'END'
Schoonleech: the published microprogram on light.hex
microcycles 3   steps 0   request down   paused, 4 microcycles a second
     +0       +1       +2       +3       +4       +5       +6       +7
r0   00000000 00000018 00000000 00000000 00000000 00000000 00000000 00000000
r8   00000000 00000000 00000000 00000000 00000000 00000000 00000000 00000000
r16  00000000 00000000 00000000 00000000 00000000 00000000 00000000 00000000
r24  00000000 00000000 00000000 00000000 00000000 00000000 00000000 00000000
PC*00000001  IR 61000001  MAR 00000000  MBR 61000001  IVEC 00000008  MPC*28
PSW 10   sm 0   ie 1   v 0   n 0   c 0   z 0

at PC   STI r8 r0 20                    in IR   ADDI r8 r0 1
at MPC  28  600403E040  COND jmp  ADDR 0
            TRGT reg_file  SHFT nsh  ALU add  SRCA reg_file  SRCB ir
            LD.C LD.V LD.N LD.Z CSRC
memory around PC                        around MAR          stack before r1
    31  00000000  JMP 0 r0 0                30  00000000        20  00000000
     0  61000001  ADDI r8 r0 1              31  00000000        21  00000000
>    1  3D000014  STI r8 r0 20          >    0  61000001        22  00000000
     2  21080000  LSL r8 r8 r0               1  3D000014        23  00000000
     3  00200001  JMP 1 r0 1                 2  21080000    >   24  00000000
     4  01C00000  JMP 14 r0 0                3  00200001        25  00000000
no step: MPC is at 28, in the middle of an instruction
f goes to the next fetch point, and from there a step can be done
m microcycle  i step  f fetch  r request  space run  +- speed  ? keys  q quit
END
frame_is "five steps: the second time that the light is stored" iiiii $light <<'END'
Schoonleech: the published microprogram on light.hex
microcycles 0   steps 5   request down   paused, 4 microcycles a second
     +0       +1       +2       +3       +4       +5       +6       +7
r0   00000000 00000018 00000000 00000000 00000000 00000000 00000000 00000000
r8   00000002 00000000 00000000 00000000 00000000 00000000 00000000 00000000
r16  00000000 00000000 00000000 00000000 00000000 00000000 00000000 00000000
r24  00000000 00000000 00000000 00000000 00000000 00000000 00000000 00000000
PC*00000002  IR 00000000  MAR 00000000  MBR 00000000  IVEC 00000008  MPC 0
PSW 10   sm 0   ie 1   v 0   n 0   c 0   z 0
changed in memory  20 *00000002
at PC   LSL r8 r8 r0                    in IR   JMP 0 r0 0
at MPC  0   756D8004F1  COND jint  ADDR 49  RD
            TRGT noreg  SHFT nsh  ALU nop  SRCA pc  SRCB ir
            MAR PMUX
memory around PC                        around MAR          stack before r1
     0  61000001  ADDI r8 r0 1              30  00000000        20 *00000002
     1  3D000014  STI r8 r0 20              31  00000000        21  00000000
>    2  21080000  LSL r8 r8 r0          >    0  61000001        22  00000000
     3  00200001  JMP 1 r0 1                 1  3D000014        23  00000000
     4  01C00000  JMP 14 r0 0                2  21080000    >   24  00000000
     5  00000000  JMP 0 r0 0                 3  00200001        25  00000000
a step

m microcycle  i step  f fetch  r request  space run  +- speed  ? keys  q quit
END
frame_is "the highest values" mm --published --register 1=0xFFFFFFFF --register 31=4294967295 --pc 0xFFFFFFFF --psw 63 --ivec 0x12345678 \
    light.hex <<'END'
Schoonleech: the published microprogram on light.hex
microcycles 2   steps 0   request down   paused, 4 microcycles a second
     +0       +1       +2       +3       +4       +5       +6       +7
r0   00000000 FFFFFFFF 00000000 00000000 00000000 00000000 00000000 00000000
r8   00000000 00000000 00000000 00000000 00000000 00000000 00000000 00000000
r16  00000000 00000000 00000000 00000000 00000000 00000000 00000000 00000000
r24  00000000 00000000 00000000 00000000 00000000 00000000 00000000 FFFFFFFF
PC FFFFFFFF  IR 00000000  MAR FFFFFFFF  MBR 00000000  IVEC 12345678  MPC*2
PSW 3F   sm 1   ie 1   v 1   n 1   c 1   z 1

at PC   JMP 0 r0 0                      in IR   JMP 0 r0 0
at MPC  2   642D000080  COND jop  ADDR 0
            TRGT pc  SHFT nsh  ALU inc  SRCA pc  SRCB ir

memory around PC                        around MAR          stack before r1
 16381  00000000  JMP 0 r0 0             16381  00000000     16379  00000000
 16382  00000000  JMP 0 r0 0             16382  00000000     16380  00000000
>16383  00000000  JMP 0 r0 0            >16383  00000000     16381  00000000
     0  61000001  ADDI r8 r0 1               0  61000001     16382  00000000
     1  3D000014  STI r8 r0 20               1  3D000014    >16383  00000000
     2  21080000  LSL r8 r8 r0               2  21080000         0  61000001
a microcycle

m microcycle  i step  f fetch  r request  space run  +- speed  ? keys  q quit
END

# One frame behind the other, a blank line between two of them. The end of a line is no key, and after q there are no more frames.
frames_follow() {
    local keys
    : >"$work/wanted-complaints"
    last_frame "" $light && cp "$work/frame" "$work/wanted"
    for keys in f ff ffr ffrf; do
        last_frame $keys $light && { echo && cat "$work/frame"; } >>"$work/wanted"
    done
    [ "$(wc -l <"$work/wanted")" -eq 124 ] && gives 0 "ffrf" $light && gives 0 "ff\nr\r\nf\n" $light && gives 0 "ffrfqmm" $light &&
        gives 0 "ffrf" --frames $light
}
one "a frame for the start and for each key" frames_follow
frames_have_room() {
    run plain "$(printf 'f%.0s' {1..40})" $light
    [ "$(wc -l <"$work/out")" -eq $((41 * 25 - 1)) ] &&
        awk 'length > 80 || / $/ || /[^ -~]/ { print; bad = 1 } END { exit bad }' "$work/out"
}
one "lines have at most 80 characters, and no blank at their end" frames_have_room
name_is_cut() {
    local name
    name=$(printf 'n%.0s' {1..60})
    cp "$files/light.hex" "$files/$name" && cp "$files/light.hex" "$files/"$'a\033b' || return 1
    last_frame "" --published "./$name" && grep -qx "Schoonleech: the published microprogram on ${name:0:28}" "$work/frame" &&
        last_frame "" --published $'a\033b' && grep -qx "Schoonleech: the published microprogram on a?b" "$work/frame"
}
one "a long name is cut, and one with control characters is harmless" name_is_cut

# What is marked is what changed: the story's log, which the grader recorded, names that for each microcycle and each fetch point. The log's
# lines are given with all values as eight digits, and those of the frames alike, a line for each frame in which a clock has gone on.
log_lines() { # KIND PARTS
    awk -v kind="$1" -v parts="$2" '
    function digits(number) { return number ~ /^0x/ ? substr("00000000", length(number) - 1) substr(number, 3) : sprintf("%08X", number) }
    $1 == kind {
        line = ""
        for (k = 3; k < NF && $k !~ /^#/; k += 2) if ($k ~ parts) line = line " " $k " " digits($(k + 1))
        print $2 line
    }' $story/sum.expected
}
marked_lines() { # CLOCK PARTS
    awk -v clock="$1" -v parts="$2" '
    function add(part, value) {
        if (part !~ parts || part in marked) return
        marked[part] = 1
        line = line " " part " " value
    }
    /^microcycles / { count = clock == "microcycle" ? $2 : $4 }
    /^r[0-9]/ {
        for (k = 0; k < 8; k++)
            if (substr($0, 5 + 9 * k, 1) == "*") add("r" (substr($1, 2) + k), substr($0, 6 + 9 * k, 8))
    }
    /^PC/ { for (k = 1; k <= NF; k++) if (split($k, value, "*") == 2) state[tolower(value[1])] = value[2] }
    /^PSW/ {
        if (split($1, value, "*") == 2) state["psw"] = "000000" value[2]
        if ("mpc" in state) state["mpc"] = sprintf("%08X", state["mpc"])
        registers = line
        line = ""
        split("pc psw ir mar mbr mpc", names, " ")
        for (k = 1; k <= 6; k++) if (names[k] in state) add(names[k], state[names[k]])
        line = line registers
        split("", state)
    }
    /^[ >] *[0-9]+ [ *]/ || /^changed/ {
        for (rest = $0; match(rest, /[0-9]+ \*[0-9A-F]*/); rest = substr(rest, RSTART + RLENGTH)) {
            split(substr(rest, RSTART, RLENGTH), value, " [*]")
            add("m" value[1], value[2])
        }
    }
    /^m microcycle/ {
        if (count > before) print (before = count) line
        split("", marked); line = ""
    }' "$work/out"
}
marks_follow() { # KEYS KIND PARTS
    run plain "$1" --words 64 --psw 0x10 --ivec 8 --register 1=40 published.microprogram sum.hex
    log_lines "$2" "$3" >"$work/wanted"
    [ "$(wc -l <"$work/wanted")" -ge 13 ] && diff "$work/wanted" <(marked_lines "$2" "$3")
}
times() { # COUNT KEY
    printf "%0$1d" 0 | tr 0 "$2"
}
seen="^(pc|psw|r[0-9]*|m[0-9]*)\$"
one "the marks of microcycles are what the story's log names" \
    marks_follow "$(times 9 m)r$(times 8 m)r$(times 40 m)" microcycle "^(pc|psw|ir|mar|mbr|mpc|r[0-9]*|m[0-9]*)\$"
one ".. those of steps too" marks_follow "iiirir$(times 9 i)" fetch "$seen"
one ".. and those from one fetch point to the next" marks_follow "fffrfr$(times 9 f)" fetch "$seen"

# The other keys.

speed_is() { # SPEED KEYS
    last_frame "$2" $light && grep -q " paused, $1 a second\$" "$work/frame" || { cat "$work/frame"; return 1; }
}
one "+ doubles the speed" speed_is "8 microcycles" +
one "- halves it" speed_is "2 microcycles" -
one "it is 64 at most" speed_is "64 microcycles" +++++++
one ".. and 1 at least" speed_is "1 microcycle" ------
one "without a terminal nothing runs" says "nothing runs by itself without a terminal" "" " " $light
one ".. and nothing is changed" keeps_all "mm " $light
one "a key that is none" says "no such key: x" "? shows the keys" x $light
one ".. and one that can't be printed" says "no such key: code 200" "? shows the keys" '\310' $light
one ".. changes nothing" keeps_all fmx $light
one "a microcycle is told" says "a microcycle" "" m $light
one ".. and one that is back at fetch" says "a microcycle, and back at fetch" "" mmmm $light
one "a step is told" says "a step" "" i $light
one "no step in the middle of an instruction" says "no step: MPC is at 1, in the middle of an instruction" \
    "f goes to the next fetch point, and from there a step can be done" mi $light
one ".. and nothing is changed" keeps_all mmi $light
one "from the middle of an instruction to fetch" says "at fetch after 2 microcycles" "" mmf $light
one "from fetch to the next fetch point" says "at fetch after 4 microcycles" "" f $light
request_turns() {
    last_frame frr $light && diff <(head -n 49 "$work/out" | tail -n 24) "$work/frame" &&
        [ "$(diff "$work/frame" <(tail -n 49 "$work/out" | head -n 24) | sed -n 's/^>.*request \(up\|down\) .*/\1/p')" = up ]
}
one "the request line goes up and down" request_turns
file one.microprogram "742D800040 # to itself\n"
one "the smallest microprogram" says "the microprogram is back at fetch within 1 microcycle" "" "" one.microprogram light.hex
one ".. is at fetch at once" says "at fetch after 1 microcycle" "" f one.microprogram light.hex
file circle.microprogram "742D800000\n742D800041 # to itself\n"
circle="--unchecked circle.microprogram light.hex"
one "f gives up after 64 microcycles" says "not at fetch after 64 microcycles" "" f $circle

one "a key of code 0" says "no such key: code 0" "? shows the keys" '\000' $light

# Three words for each store: MBR gets PC, MAR gets PC, and then MBR is stored and PC goes on. So f changes as many words as there are
# stores.
stores() { # COUNT
    local k
    for ((k = 1; k < $1; k++)); do printf '74AD800000\n752D800000\n642D000200\n'; done
    printf '74AD800000\n752D800000\n642D000240\n'
}
changed_is() { # COUNT WORDS
    stores "$1" >"$files/stores.microprogram"
    last_frame f --words 32 --pc 5 stores.microprogram light.hex && diff <(echo "changed in memory  $2") <(sed -n 10p "$work/frame")
}
four="5 *00000005  6 *00000006  7 *00000007  8 *00000008"
one "two words that change are shown" changed_is 2 "5 *00000005  6 *00000006"
one ".. and four" changed_is 4 "$four"
one ".. and of five the first four, and that there are more" changed_is 5 "$four  .."

help_frame() {
    last_frame "m?" $light && cp "$work/frame" "$work/help" && last_frame "m??" $light && cp "$work/frame" "$work/back" &&
        last_frame m $light && cmp "$work/back" "$work/frame" && last_frame "m?m" $light && ! cmp -s "$work/help" "$work/frame" || return 1
    run plain "" --help
    for key in m i f r space "+ -" "?" q; do
        grep -q "^    [$key]* *[a-z]" "$work/help" && grep -qFx -f <(grep "^    ${key/\?/[?]} " "$work/help") "$work/out" || return 1
    done
}
one "? shows the keys, and shows the bench again" help_frame

# Refused calls: the number and what it means, and nothing is changed.

refused() { # NUMBER MEANING CALL KEYS ARGUMENT..
    one "$3 refused with $1" says "$3 was refused with $1 and changed nothing:" "$2" "${@:4}"
    one ".. and nothing is changed" changes_nothing "${@:4}"
}
number_3="register 0 does not hold 0"
refused 3 "$number_3" "the microcycle" m --register 0=1 $light
refused 3 "$number_3" "the step" i --register 0=1 $light
file empty.microprogram "# no word\n"
refused 4 "the microprogram has too few or too many words" "the microcycle" im --unchecked empty.microprogram light.hex
file long.microprogram "$(times 5000 x | sed 's/x/742D800040\\n/g')"
refused 4 "the microprogram has too few or too many words" "the microcycle" im --unchecked long.microprogram light.hex
file code.microprogram "742D800040\n762D800040\n"
refused 5 "word 1: the microword has a bit or a code that no table names" "the microcycle" im --unchecked code.microprogram light.hex
refused 6 "MPC stands outside the microprogram, or the phase number is above 3" "the microcycle" m --mpc 1 one.microprogram light.hex
leaves="--unchecked leaves.microprogram light.hex"
refused 8 "a microcycle would leave the microprogram" "the microcycle" mm $leaves
refused 8 "a microcycle would leave the microprogram" "microcycle 1 of these" mf $leaves
one "the second microcycle of f is refused" says "microcycle 2 of these was refused with 8 and changed nothing:" \
    "a microcycle would leave the microprogram" f $leaves
counts_are() { # MICROCYCLES STEPS KEYS ARGUMENT..
    last_frame "${@:3}" && grep -q "^microcycles $1   steps $2   " "$work/frame" || { cat "$work/frame"; return 1; }
}
one ".. and the first was done" counts_are 1 0 f $leaves
one "each clock counts its own" counts_are 9 4 fiifmi $light
one "what the check says is told at the start" says "the microprogram was refused with 17 by the check:" \
    "word 1: the microprogram can go on to a word that it does not have" "" $leaves
one ".. of a circle too" says "the microprogram was refused with 18 by the check:" \
    "word 1: a walk can be away from fetch for more than 64 microcycles" "" $circle

# Names. docs/AVM1.md has the instructions with their formats: each opcode is shown once with bit 31 and once without, while a microprogram
# of one word moves PC from word to word. docs/MICROPROGRAM.md has the fields of each microword by their mnemonics.

opcodes() { # lines 'OPCODE MNEMONIC FORMAT', by opcode
    local name format codes code
    sed -n '/^### The instructions/,/^### Opcodes/s/^| \([A-Z]*\) | \([1-4]\) | \([0-9, ]*\) | .*/\1 \2 \3/p' docs/AVM1.md | tr -d , |
        while read -r name format codes; do for code in $codes; do echo "$code $name $format"; done; done | sort -n
}
record() { # ADDRESS WORD, both in digits, as a line of an image
    local bytes="04${1}00$2" sum=0 k
    for ((k = 0; k < ${#bytes}; k += 2)); do sum=$((sum + 16#${bytes:k:2})); done
    printf ':%s%02X\n' "$bytes" $((-sum & 255))
}
every_instruction() {
    local operands=("" " r21 r10 r27" " r21 r10 55297" " r21" "") bit code name format
    for bit in 0 1; do
        while read -r code name format; do
            record "$(printf %04X $((128 * bit + 4 * code)))" "$(printf %08X $((bit << 31 | code << 26 | 21 << 21 | 10 << 16 | 55297)))"
            echo "$name${operands[format]}" | sed 's/^JMP r/JMP /' >&3
        done < <(opcodes)
    done >"$files/every.hex" 3>"$work/wanted"
    echo ":00000001FF" >>"$files/every.hex"
    run plain "$(times 63 m)" --words 64 next.microprogram every.hex
    [ "$(wc -l <"$work/wanted")" -eq 64 ] && diff "$work/wanted" <(sed -n 's/^at PC   \(.*[^ ]\)  *in IR.*/\1/p' "$work/out")
}
file next.microprogram "642D000040 # PC goes on\n"
one "each instruction has its name and its operands" every_instruction

# The page's words, a line each: number, bits, operation, PSW and signals, parted by tabs.
page_words() {
    awk -F ' *[|] *' -v OFS='\t' '$2 ~ /^[0-9]+$/ && $6 ~ /^Oper/ { print $2, $5, $6, $7, $8 }' docs/MICROPROGRAM.md
}
fields_of_page() { # three lines for each word
    page_words | awk -F '\t' '
    function has(text, name) { return text ~ ("[(, ]" name "[,)]") }
    function bit(is, name) { if (is) bits = bits (bits == "" ? "" : " ") name }
    {
        gsub(/Oper\(|\)/, "", $3); split($3, oper, ", ")
        bits = ""
        bit(has($5, "i_ack"), "IACK"); bit(has($5, "in_fetch"), "FTCH"); bit(has($5, "rd"), "RD"); bit(has($5, "wr"), "WR")
        print $1 ": COND step  ADDR 0" (bits == "" ? "" : "  ") bits
        a = oper[3] == "noreg" || oper[3] == "mbr" ? "pc" : oper[3]; b = oper[5] == "noreg" ? "ir" : oper[5]
        print $1 ": TRGT " oper[1] "  SHFT " oper[2] "  ALU " oper[4] "  SRCA " a "  SRCB " b
        bits = ""
        bit(oper[3] == "mbr", "AMUX"); bit(oper[6] ~ /^mar/, "MAR"); bit(oper[6] == "mbr", "MBR"); bit(oper[6] == "mar_gets_pc", "PMUX")
        bit(has($4, "set_sm"), "S.SM"); bit(has($4, "clr_sm"), "C.SM"); bit(has($4, "set_ie"), "S.IE"); bit(has($4, "clr_ie"), "C.IE")
        bit(has($4, "ld_from_alu") || has($4, "ld_from_shifter"), "LD.C"); bit(has($4, "ld_vf"), "LD.V"); bit(has($4, "ld_nf"), "LD.N")
        bit(has($4, "ld_zf"), "LD.Z"); bit(has($4, "ld_from_alu"), "CSRC")
        print $1 ":" (bits == "" ? "" : " ") bits
    }'
}
# COND and ADDR are made 0 in each word, so that MPC goes from one to the next.
every_microword() {
    local word bits rest
    while read -r word bits rest; do printf '%010X\n' $((16#$bits & ~511)); done < <(page_words) >"$files/steps.microprogram"
    echo 742D800040 >>"$files/steps.microprogram"
    run plain "$(times 52 m)" --words 32 steps.microprogram light.hex
    fields_of_page >"$work/wanted"
    [ "$(wc -l <"$work/wanted")" -eq 159 ] && diff "$work/wanted" <(awk '
        /^at MPC/ { word = $3; left = 3; sub(/^at MPC +[0-9]+ +[0-9A-F]+/, "") }
        left-- > 0 { sub(/^ +/, ""); print word ":" ($0 == "" ? "" : " ") $0 }' "$work/out")
}
one "each microword has its fields" every_microword

microword_is() { # ARGUMENT.. ; standard input has the three lines
    last_frame "" "$@" && diff - <(sed -n 12,14p "$work/frame")
}
condition_is() { # CONDITION WORD
    file condition.microprogram "742D800040\n$2\n"
    last_frame "" --mpc 1 --unchecked condition.microprogram light.hex && grep -qx "at MPC  1   $2  $1" "$work/frame" && return
    cat "$work/frame"
    return 1
}
one "a microword that steps" condition_is "COND step  ADDR 1" 742D800001
one ".. that jumps" condition_is "COND jmp  ADDR 63" 742D80007F
one ".. that jumps by the opcode" condition_is "COND jop  ADDR 0" 742D800080
one ".. that jumps by the request" condition_is "COND jint  ADDR 49  RD" 742D8004F1
one ".. that jumps by sm" condition_is "COND jsm  ADDR 32  WR" 742D800320
file full.microprogram "FFFFFFFFFFFFFFFF\n"
one "a microword with every bit set, and with codes that have no name" microword_is --unchecked full.microprogram light.hex <<'END'
at MPC  0   FFFFFFFFFFFFFFFF  COND 7  ADDR 63  IACK FTCH RD WR
            TRGT 7  SHFT nsh  ALU 15  SRCA 7  SRCB 3
            AMUX MAR MBR PMUX S.SM C.SM S.IE C.IE LD.C LD.V LD.N LD.Z CSRC
END
one "an MPC that has no microword" microword_is --mpc 1 one.microprogram light.hex <<'END'
at MPC  1   no word


END

# Output that can't be written.

output_lost() { # ARGUMENT..
    local place
    for place in /dev/full closed; do
        (
            [ "$place" = closed ] && exec >&- || exec >"$place"
            cd "$files" && printf mm | $emulator "$work/plain" "$@"
        ) 2>"$work/complaints"
        [ $? -eq 5 ] && grep -qx "display: the output can't be written" "$work/complaints" || { echo "$place"; return 1; }
    done
}
one "frames that can't be written" output_lost $light
one "help that can't be written" output_lost --help

# Input that can't be read, after the frame of the start.

input_lost() {
    last_frame "" $light || return 1
    (cd "$files" && $emulator "$work/plain" $light </) >"$work/out" 2>"$work/complaints"
    [ $? -eq 3 ] && cmp "$work/frame" "$work/out" && grep -qx "display: standard input can't be read" "$work/complaints"
}
one "keys that can't be read" input_lost

# The first run, and where it is shown.

command=$(sed -n 's/^    \$ //p' display/README.md)
readme_run() {
    [[ $command == printf*target/host/display*light.hex* ]] && (eval "${command/target/$emulator target}") >"$work/out" &&
        cmp $first/output "$work/out"
}
one "README.md's command prints display/first/output" readme_run
readme_has() { # LINES
    [ -n "$1" ] && [[ $(<display/README.md) == *$'\n'"$1"$'\n'* ]]
}
one ".. and README.md shows that" readme_has "    \$ $command"$'\n'"$(sed 's/./    &/' $first/output)"
run plain "" --help
one "README.md has the keys" readme_has "$(sed -n '/^    m  /,/^    q  /p' "$work/out")"
listing_is_the_image() {
    sed -n 's/^ *\([0-9]*\)  \([0-9A-F]\{8\}\)  \([A-Z]*\( *[r0-9]*[0-9]\)*\)   .*/\1 \2 \3/p' $first/light.txt | tr -s ' ' >"$work/wanted"
    run plain "$(times 11 m)" --words 32 next.microprogram light.hex
    [ "$(wc -l <"$work/wanted")" -eq 9 ] &&
        diff "$work/wanted" <(sed -n 's/^> *\([0-9]*\)  \([0-9A-F]\{8\}\)  \(.*[^ ]\)  *>.*/\1 \2 \3/p' "$work/out" | grep -v ' 00000000 ')
}
one "the listing has the words of the image, by their names" listing_is_the_image

# A terminal. tests/display/terminal.c says what the commands of its scripts mean.

# Where only one of the two is a terminal, or frames are asked for, frames are printed. script(1) gives the terminal.
frames_in() { # COMMAND TYPED ; what the command prints on the terminal, or in $work/printed, must be the frame of the start
    rm -f "$work/printed"
    (cd "$files" && printf "$2" | script -qec "$1" "$work/typescript") >/dev/null || return 1
    [ -f "$work/printed" ] || tr -d '\r' <"$work/typescript" >"$work/printed"
    ! grep -q $'\033' "$work/printed" && grep -qx "Schoonleech: the published microprogram on light.hex" "$work/printed" && return
    cat -v "$work/printed"
    return 1
}
if command -v script >/dev/null; then
    one "keys from a terminal, and output to a file" frames_in "$emulator $work/plain $light >$work/printed" "q\n"
    one "keys from a pipe, and output to a terminal" frames_in "echo q | $emulator $work/plain $light" ""
    one "frames on a terminal" frames_in "$emulator $work/plain --frames $light" "q\n"
else
    echo "there is no script here, so frames on a terminal are not tested"
fi

one "the pseudo-terminal's driver compiles" $cc $strict -o "$work/terminal" tests/display/*.c
on_terminal() { # BUILD COLUMNS ROWS ARGUMENT.. ; standard input is the script
    (cd "$files" && $emulator "$work/terminal" "$2" "$3" $emulator "$work/$1" "${@:4}")
}
follows() { # NAME ARGUMENT.. ; standard input is the script, for a terminal of 80 columns and 24 rows
    local build name=$1
    shift
    cat >"$work/script"
    for build in $builds; do
        one "$name ($build)" on_terminal $build 80 24 "$@" <"$work/script"
    done
}
run plain "mfrif??x" $light
for key in 0 1 2 3 4 5 6 7 8; do
    tail -n +$((25 * key + 1)) "$work/out" | head -n 24 >"$files/frame.$key"
done
follows "the screen is the plain frame after each key, and q gives the terminal back" $light <<'END'
taken
screen frame.0
type m
screen frame.1
type f
screen frame.2
type r
screen frame.3
type i
screen frame.4
type f
screen frame.5
type ?
screen frame.6
type ?
screen frame.7
type x
screen frame.8
taken
type q
ended 0
END
follows "space runs and pauses, + makes it faster, m, i and f pause too, and help stops it for a while" $light <<'END'
taken
line paused, 4 microcycles a second
code 32
line running, 4 microcycles a second
line microcycles 2   steps
type ++++
line running, 64 microcycles a second
line microcycles 20   steps
code 32
line paused, 64 microcycles a second
still
code 32
line running
type ?
line these keys, or back
still
type ?
line running
type m
line paused
still
code 32
line running
type f
line paused
still
code 32
line running
type i
line paused
still
type q
ended 0
END
follows "a run goes on while the request line moves, and a refused microcycle ends it" --unchecked leaves.microprogram light.hex <<'END'
taken
type ----r
line request up   paused, 1 microcycle a second
type ++++++
code 32
line microcycles 1   steps 0   request up   paused, 64 microcycles a second
line the microcycle was refused with 8 and changed nothing:
still
type q
ended 0
END
for ending in "signal 15,143" "signal 2,130" "signal 1,129" "code 3,130"; do
    follows "the terminal is given back after ${ending%,*}" $light <<END
taken
type ++++
code 32
line microcycles 1   steps
${ending%,*}
ended ${ending#*,}
END
done
follows "the key that would stop it does not" $light <<'END'
taken
code 26
line no such key: code 26
code 19
line no such key: code 19
type q
ended 0
END
follows "a smaller terminal gets a message and moves nothing, a higher one shows more memory" $light <<'END'
taken
type m
line microcycles 1   steps
resize 80 23
line 80x24 needed, this is 80x23 (q quits)
resize 79 24
line 80x24 needed, this is 79x24 (q quits)
resize 20 3
line 80x24 needed, this
erased 2
type mm
erased 4
resize 80 25
line microcycles 1   steps
line      4  01C00000  JMP 14 r0 0
resize 132 60
row 47     29  00000000  JMP 0 r0 0                29  00000000        19  00000000
row 48
row 58 a microcycle
row 60 m microcycle  i step  f fetch  r request  space run  +- speed  ? keys  q quit
type ++++
code 32
line running
resize 10 5
line 80x24 nee
still
resize 80 24
line running
resize 10 5
line 80x24 nee
type q
ended 0
END
finish
