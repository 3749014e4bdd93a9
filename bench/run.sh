# Measures the proved library against plain C and against objcopy; bench/README.md says what and how. Its status is 0, or 1 where two of
# them give different answers, something is slower than it may be, or something can't be built, or 77 where a tool can't be had.
#
# SCHOONLEECH_LIB  an archive to measure instead of the proved one; rt is then not run
set -u
cd "$(dirname "$0")/.." || exit 1
. tests/host/x86_64.bash
. tests/host/library.bash
install_or_skip objcopy binutils
prove_library >&2 || { echo "bench: the library is not proved"; exit 1; }

work=$(mktemp -d)
trap 'rm -rf "$work"' EXIT

build() { # NAME SOURCE..
    $cc -std=c99 -O2 -Wall -Wextra -Werror -o "$work/$1" "${@:2}" "$library" || exit 1
}

build checks bench/checks.c bench/plain_check.c bench/timing.c
build runs bench/runs.c bench/plain_run.c bench/timing.c
build images bench/images.c bench/timing.c
build hex_to_binary bench/hex_to_binary.c
build processes bench/processes.c bench/timing.c
build convert tests/tools/convert.c tests/engine/check.c

# The largest image by this library's reader and by objcopy, as whole processes. An emulator's time is not to be compared with objcopy's.
whole_processes() {
    [ -z "$emulator" ] || { echo "whole processes are not compared where the library needs an emulator"; return 0; }
    "$work/convert" draw 1 16384 "$work/image" && "$work/convert" write "$work/image" "$work/text" >/dev/null || return 1
    echo "the largest image from Intel HEX to binary, hex_to_binary and objcopy:"
    "$work/processes" "$work/hex_to_binary" "$work/text" "$work/ours" -- objcopy -I ihex -O binary "$work/text" "$work/theirs" &&
        cmp "$work/image" "$work/ours" && cmp "$work/image" "$work/theirs"
}

$emulator "$work/runs" && $emulator "$work/checks" && $emulator "$work/images" && whole_processes
