# To try a change of a crate in a copy. `build_crate` has rt prove the crate, and build it and those below it where they are libraries, and
# `copy_crates` copies the crates with the libraries that were built, and with nothing else that rt made.
. tests/host/alone.bash

prove_and_build() { # CRATE
    local verb=lib
    [ ! -f "crates/$1/src/main.rt" ] || verb=check
    (cd "crates/$1" && rt $verb)
}

build_crate() { # CRATE
    alone prove_and_build "$1"
}

copy_crates() { # FOLDER
    mkdir -p "$1" && tar -cf - --exclude='crates/*/out/incremental' crates crates.txt | tar -xf - -C "$1"
}
