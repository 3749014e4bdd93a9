# The story: a request that comes one microcycle late, where the machine does not look, and a microprogram with a real mistake. The first
# must not cost a mark and the second must. grader/story/output is what it prints; its status is 0 if the marks come out like that.
#
# SCHOONLEECH_LIB  an archive to link instead of the proved one; rt is then not run
set -u
cd "$(dirname "$0")" || exit 1
bash build.sh || exit
cd .. && . tests/host/emulator.bash && cd grader/story || exit 1

run() { # ARGUMENT..
    $emulator ../../target/host/grader "$@"
}

# A row about the microcycles 8 to 14 of a log on standard input: where the machine fetches, or where the request latch is set.
row() { # NAME fetch|ireq
    awk -v name="$1" -v kind="$2" '
    $1 == "fetch" { fetches = 1 }
    $1 == "microcycle" {
        for (k = 3; k < NF; k += 2) if ($k == "ireq") request = $(k + 1)
        if ($2 >= 8 && $2 <= 14) cells = cells sprintf("%7s", kind == "fetch" ? (fetches ? "fetch" : "-") : (request ? "up" : "-"))
        fetches = 0
    }
    END { printf "    %-20s%s\n", name, cells }'
}

mark() { # ARGUMENT.. ; shows the command, its output and keeps output and status
    echo "\$ ../../target/host/grader $*"
    output=$(run "$@")
    status=$?
    echo "$output"
}

cat <<'END'
A program adds 2 and 1 and is interrupted once (its listing is in on_time.requests). The expected
log has the request rise in microcycle 10. In the run that is marked it rises one microcycle later.
The machine looks at the request while it fetches and at no other time: in microcycles 9 and 13.
A fetch point is the moment before a fetch, when an instruction has just ended.

    microcycle                8      9     10     11     12     13     14
END
row "the machine" fetch <sum.expected
row "expected request" ireq <sum.expected
run --record --microcycles published.microprogram sum.hex late.requests | row "request of the run" ireq
echo

mark --microcycles published.microprogram sum.hex late.requests sum.expected
[ "$status" -eq 0 ] && [[ ${output##*$'\n'} == wrong:*"| right:"* ]] || { echo "story: the late request is marked otherwise"; exit 1; }

cat <<'END'

Compared microcycle by microcycle (ireq is the latch that holds the request), a right microprogram
would lose its mark. At fetch points it is right. A microprogram with a real mistake is still marked
wrong: here word 47 takes another register, so that the sum is not stored.

END
mark --brief mistake.microprogram sum.hex on_time.requests sum.expected
[ "$status" -eq 1 ] && [[ $output == *"STI at 4: wrong"* ]] || { echo "story: the mistake is marked otherwise"; exit 1; }
