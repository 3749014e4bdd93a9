# To build an example program from its folder and common/: proves the library where that is not done yet, then compiles and links.
#
# SCHOONLEECH_LIB  an archive to link instead of the proved one; rt is then not run
. tests/host/x86_64.bash
. tests/host/library.bash

build_example() { # FOLDER, which is the program's name too
    prove_library >&2 || { echo "build: the library is not proved" >&2; return 1; }
    mkdir -p target/host
    $cc -std=c99 -pedantic -O2 -Wall -Wextra -Werror -Iinclude -o "target/host/$1" "$1"/*.c common/*.c "$library"
}
