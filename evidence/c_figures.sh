#!/bin/sh
# What an exchange costs, in one run on one processor: two endpoints of examples/c over the static library, one of them and usrsctp, and
# usrsctp with itself, in turn, ROUNDS times; of each the fastest. Then the instructions of a message more, from two runs under valgrind,
# and the functions in which most of them are, in the longer run.
#
#     evidence/c_figures.sh [ROUNDS]
#
# It is run by hand, and needs Debian's packages libusrsctp-dev and valgrind, gcc or the CC given, and the archive
# crates/sctp_c/out/libsctp_c.a, which packaging/archive.py writes.
set -eu
cd "$(dirname "$0")/.."
CC=${CC:-gcc}
ROUNDS=${1:-5}
BUILD=$(mktemp -d)
trap 'rm -rf "$BUILD"' EXIT
$CC -std=gnu99 -Wall -Wextra -Werror -pedantic -O2 -g -Iinclude -Iexamples/c c_tests/interop/figures.c examples/c/endpoint.c \
    examples/c/network.c packaging/memory.c crates/sctp_c/out/libsctp_c.a -l:libusrsctp.a -lpthread -o "$BUILD/figures"

# Lengths of messages, how many of them, and how many of 10,000 datagrams are lost.
for row in '64 100000 0' '1000 50000 0' '16384 4000 0' '1000 50000 200'; do
    # shellcheck disable=SC2086
    set -- $row
    round=0
    while [ "$round" -lt "$ROUNDS" ]; do
        for pair in ours mixed usrsctp; do taskset -c 0 "$BUILD/figures" "$pair" "$@"; done
        round=$((round + 1))
    done >"$BUILD/lines"
    for pair in ours mixed usrsctp; do
        grep "^figures: $pair," "$BUILD/lines" | sed 's/.* \([0-9]*\) messages.s,.*/\1 &/' | sort -n -r | sed 's/^[0-9]* //;q'
    done
done

# The instructions of a run.
instructions() {
    valgrind --tool=callgrind --callgrind-out-file="$BUILD/$1.$2.$3.$4" "$BUILD/figures" "$@" 2>&1 | sed -n 's/.*Collected : //p'
}
for row in '64 4000 0' '1000 2000 0' '16384 200 0' '1000 2000 200'; do
    # shellcheck disable=SC2086
    set -- $row
    for pair in ours mixed usrsctp; do
        less=$(instructions "$pair" "$@")
        more=$(instructions "$pair" "$1" $((3 * $2)) "$3")
        echo "instructions: $pair, $1 bytes, lost $3: $(((more - less) / (4 * $2))) a message"
    done
done
for lost in 0 200; do
    for pair in ours usrsctp; do
        echo "profile: $pair, 1000 bytes, lost $lost"
        callgrind_annotate "$BUILD/$pair.1000.6000.$lost" | sed -n '/file:function/,$p' | sed -n '3,14p' | sed 's| \[.*||; s|[^ ]*:||'
    done
done
