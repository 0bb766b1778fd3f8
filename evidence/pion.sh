#!/bin/sh
# Lets the endpoint of examples/c and pion/sctp exchange messages, RUNS runs that write for SECONDS each, in real time, at a loss of LOST of
# 10,000 datagrams, with seeds from SEED on.
#
#     evidence/pion.sh [RUNS] [SECONDS] [SEED] [LOST]
#
# It is run by hand. It needs Debian's packages golang-go and golang-github-pion-sctp-dev, gcc or the CC given, and the archive
# crates/sctp_c/out/libsctp_c.a, which packaging/archive.py writes. The status is 0 where no fault was found.
set -eu
cd "$(dirname "$0")/.."
CC=${CC:-gcc}
RUNS=${1:-1}
SECONDS_EACH=${2:-10}
SEED=${3:-1}
LOST=${4:-1000}
BUILD=$(mktemp -d)
trap 'rm -rf "$BUILD"' EXIT
$CC -std=c99 -Wall -Wextra -Werror -pedantic -O2 -Iinclude -Iexamples/c c_tests/interop/pion.c c_tests/interop/legal.c \
    examples/c/endpoint.c examples/c/network.c examples/c/messages.c packaging/memory.c crates/sctp_c/out/libsctp_c.a -o "$BUILD/ours"
env -C c_tests/interop/pion GO111MODULE=off GOPATH=/usr/share/gocode GOCACHE="$BUILD/cache" go build -o "$BUILD/theirs" .
mkfifo "$BUILD/to" "$BUILD/from"

failed=0
i=0
while [ "$i" -lt "$RUNS" ]; do
    "$BUILD/theirs" "$BUILD/to" "$BUILD/from" &
    theirs=$!
    "$BUILD/ours" "$BUILD/to" "$BUILD/from" $((SEED + i)) "$SECONDS_EACH" "$LOST" 100 500 20 || failed=$((failed + 1))
    wait "$theirs" || true
    i=$((i + 1))
done
[ "$failed" -eq 0 ]
