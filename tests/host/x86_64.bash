# To build programs for x86-64 and run them. Sets `cc` and `cxx`, cross compilers on another processor, and `emulator` (emulator.bash).
. tests/host/emulator.bash

if [ "$(uname -m)" = x86_64 ]; then
    cc=cc cxx=c++
    install_or_skip cc gcc libc6-dev
    install_or_skip c++ g++
else
    cc=x86_64-linux-gnu-gcc cxx=x86_64-linux-gnu-g++
    install_or_skip $cc gcc-x86-64-linux-gnu libc6-dev-amd64-cross
    install_or_skip $cxx g++-x86-64-linux-gnu
fi
