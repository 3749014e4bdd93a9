# Host tests run beside each other. `alone` runs a command while no other script does: to install something, or to prove the archive.
alone() { # COMMAND..
    mkdir -p target && (flock 9 && "$@") 9>target/host.lock
}
