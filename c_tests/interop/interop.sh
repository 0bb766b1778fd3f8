#!/bin/sh
# Builds c_tests/interop on the static library, and lets the endpoint of examples/c and usrsctp exchange messages: RUNS runs that write for
# TICKS ticks of 10 ms each, in no real time, with seeds from SEED on. Before them both reset streams and add some: four runs with
# a few messages, and two with messages of each mode. First what tells usrsctp's own faults is tested (known.h).
#
#     c_tests/interop/interop.sh [RUNS] [TICKS] [SEED]
#
# It needs Debian's package libusrsctp-dev, gcc or the CC given, and the archive crates/sctp_c/out/libsctp_c.a, which packaging/archive.py writes.
# tools/c_tests.sh runs it, five short runs; longer ones are run by hand. A seed's run is the same each time. Each run's line says which of
# usrsctp's faults it met, and the last line sums the runs up; the status is 0 where no fault of ours was found.
set -eu
cd "$(dirname "$0")/../.."
CC=${CC:-gcc}
RUNS=${1:-5}
TICKS=${2:-10000}
SEED=${3:-1}
BUILD=$(mktemp -d)
trap 'rm -rf "$BUILD"' EXIT
ARCHIVE=${ARCHIVE:-crates/sctp_c/out/libsctp_c.a}

# Builds a program of the files given.
build() {
    name=$1
    shift
    $CC -std=gnu99 -Wall -Wextra -Werror -pedantic -O2 -Iinclude -Iexamples/c "$@" examples/c/endpoint.c examples/c/network.c \
        packaging/memory.c "$ARCHIVE" -l:libusrsctp.a -lpthread -o "$BUILD/$name"
}
build usrsctp c_tests/interop/usrsctp.c c_tests/interop/legal.c c_tests/interop/known.c examples/c/messages.c -Wl,--wrap=read_random
build usrsctp_faults c_tests/interop/usrsctp_faults.c c_tests/interop/known.c
build reconfig c_tests/interop/reconfig.c c_tests/interop/known.c -Wl,--wrap=read_random
$CC -std=gnu99 -Wall -Wextra -Werror -pedantic -g -O1 -fsanitize=address,undefined c_tests/interop/known_test.c c_tests/interop/known.c \
    -o "$BUILD/known_test"
failed=0
"$BUILD/known_test" || failed=$((failed + 1))
"$BUILD/usrsctp_faults" || failed=$((failed + 1))
for seed in 0 1 2 3; do "$BUILD/reconfig" "$seed" || failed=$((failed + 1)); done

# By the seed two runs at 2 % loss, one at 10 %, one with messages of one and of several chunks mixed, and one whose stream sequence numbers
# pass 65,535.
one() {
    case $(($1 % 5)) in
    2) "$BUILD/usrsctp" "$1" "$TICKS" 1000 200 1000 50 ;;
    3) "$BUILD/usrsctp" "$1" "$TICKS" 200 100 500 20 mixed ;;
    4) "$BUILD/usrsctp" "$1" $((TICKS > 20000 ? TICKS : 20000)) 200 100 500 20 short ;;
    *) "$BUILD/usrsctp" "$1" "$TICKS" 200 100 500 20 ;;
    esac
}
# A run's log is shown where it has a fault; where one of usrsctp's ended it, the status is 3.
run() {
    status=0
    "$@" >"$BUILD/log" || status=$?
    case $status in
    0 | 3) ;;
    *) failed=$((failed + 1)) && cat "$BUILD/log" ;;
    esac
    tail -1 "$BUILD/log" | tee -a "$BUILD/lines"
}
for seed in 1 2; do run "$BUILD/usrsctp" "$seed" 4000 200 100 500 20 resets; done
i=0
while [ "$i" -lt "$RUNS" ]; do
    run one $((SEED + i))
    i=$((i + 1))
done
awk '/^usrsctp:/ { runs++; messages += $6; bytes += $8; faults += $10; ended += / ended the run/; own += / own: / }
     END { printf "interop: %d runs, %.0f messages, %.0f bytes, %d faults; usrsctp had faults in %d runs, and ended %d\n",
               runs, messages, bytes, faults, own, ended }' "$BUILD/lines"
[ "$failed" -eq 0 ]
