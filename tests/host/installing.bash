# What a script needs and is not here is installed with apt-get; where that can't be done, the script that reads this file ends with 77.

. tests/host/alone.bash

update_and_install() { # PACKAGE..
    apt-get update && DEBIAN_FRONTEND=noninteractive apt-get install -y --no-install-recommends "$@"
}

install_packages() { # PACKAGE..
    alone update_and_install "$@" >/dev/null 2>&1
}

install_or_skip() { # COMMAND PACKAGE..
    local tool=$1
    shift
    command -v "$tool" >/dev/null && return
    install_packages "$@"
    command -v "$tool" >/dev/null || { echo "there is no $tool here and it can't be installed"; exit 77; }
}
