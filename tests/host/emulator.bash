# Programs and proved libraries are for x86-64. Sets `emulator`, the words before a program's name that run it: none on x86-64 itself; on
# another processor qemu, and the C library that programs are linked with when they start.
. tests/host/installing.bash

emulator=
if [ "$(uname -m)" != x86_64 ]; then
    emulator="qemu-x86_64 -L /usr/x86_64-linux-gnu"
    install_or_skip qemu-x86_64 qemu-user
    install_or_skip /usr/x86_64-linux-gnu/lib64/ld-linux-x86-64.so.2 libc6-amd64-cross
fi
