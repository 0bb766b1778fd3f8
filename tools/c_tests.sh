#!/bin/sh
# Builds the static library for C out of the proved crate sctp_c, installs it into a folder of its own, and runs on it
#   - the tests in C, with sanitizers and an allocator that refuses: eight million calls in any order, 13,000 sessions with hostile
#     peers, the heap against its bound, and the worst packets by the clock
#   - the endpoints of examples/c: with one another, and with usrsctp
#   - the wrappers for C++, Rust and Go: their tests, and the echo, which prints the same in each
# and on the programs sctpdump and assocrun, where rt ci or rt run has built them, what dump_tests/dump_tests.py, c_tests/assoc_tests.py and, with
# valgrind, c_tests/worst_packets.py test.
# The last line is 'N passed, M failed'; the status is 0 where nothing failed. It needs the kit's command rt, gcc and g++, or the CC and CXX
# given. What else it asks for are Debian's packages libusrsctp-dev, libsctp-dev, valgrind, golang-go, make and pkgconf: as root it installs
# those that are missing, unless C_TESTS_INSTALL=no. Where one can't be had, and where there is no cargo, a line that begins with
# 'left out:' says what is not run; that is no failure.
set -eu
cd "$(dirname "$0")/.."
CC=${CC:-gcc}
CXX=${CXX:-g++}
KIT=$(dirname "$(dirname "$(readlink -f "$(command -v rt)")")")
BUILD=$(mktemp -d)
trap 'rm -rf "$BUILD"' EXIT
PREFIX=$BUILD/prefix
export PKG_CONFIG_PATH="$PREFIX/lib/pkgconfig"
passed=0
failed=0

try() {
    if "$@"; then passed=$((passed + 1)); else failed=$((failed + 1)); fi
}

# The same for what prints much: its output is shown where it fails.
quietly() {
    if "$@" >"$BUILD/quiet.log" 2>&1; then return 0; fi
    cat "$BUILD/quiet.log"
    return 1
}

leave_out() {
    echo "left out: $1, since $2"
}

# ---- Packages ----------------------------------------------------------------------------------------------------------------

may_install=${C_TESTS_INSTALL:-yes}
if [ "$(id -u)" != 0 ] || ! command -v apt-get >/dev/null; then may_install=no; fi
is_updated=no

apt_get() {
    timeout 180 env DEBIAN_FRONTEND=noninteractive apt-get -o Acquire::Retries=1 -o Acquire::http::Timeout=20 "$@" >>"$BUILD/apt.log" 2>&1
}

# Whether a package is there: the command behind its name says so. It is installed where it is not, at the second try at the latest.
has() {
    package=$1
    shift
    for attempt in 1 2; do
        if "$@" >/dev/null 2>&1; then return 0; fi
        if [ "$may_install" = no ]; then return 1; fi
        if [ "$is_updated" = no ] && ! apt_get update && ! apt_get update; then
            may_install=no
            return 1
        fi
        is_updated=yes
        apt_get install -y --no-install-recommends "$package" || true
    done
    "$@" >/dev/null 2>&1
}
has libusrsctp-dev test -e /usr/include/usrsctp.h && usrsctp=yes || usrsctp=no
has valgrind command -v valgrind && valgrind=yes || valgrind=no
has golang-go command -v go && go=yes || go=no
has make command -v make && make=yes || make=no
has pkgconf command -v pkg-config && pkg_config=yes || pkg_config=no
has libsctp-dev test -e /usr/include/netinet/sctp.h || leave_out "netinet/sctp.h beside the header" "there is no libsctp-dev"

# ---- The library -------------------------------------------------------------------------------------------------------------

# Of the libraries that rt ci has just proved here none is proved again, sctp_c neither.
python3 c_tests/built_libraries.py
CC="$CC" python3 packaging/archive.py >"$BUILD/lib.log" 2>&1 || { tail -20 "$BUILD/lib.log"; echo "0 passed, 1 failed"; exit 1; }
ARCHIVE=crates/sctp_c/out/libsctp_c.a
sed -n '/^typedef uint32_t sctpr_code;/,/^};/s/^    \(SCTPR_[A-Z0-9_]*\) = [0-9]*,*$/ROW(\1)/p' include/sctpr.h >"$BUILD/codes.inc"

# What takes a minute or two goes on beside the rest, and is counted at the end.
if [ "$usrsctp" = yes ]; then
    c_tests/interop/interop.sh 5 14000 1 >"$BUILD/interop.log" 2>&1 &
    interop=$!
fi
if [ -x crates/sctpdump/out/sctpdump ]; then
    python3 dump_tests/dump_tests.py >"$BUILD/dump_tests.log" 2>&1 &
    dump_tests=$!
fi
if [ -x crates/assocrun/out/assocrun ]; then
    command -v tshark >/dev/null && with_tshark=--tshark || with_tshark=
    # shellcheck disable=SC2086
    python3 c_tests/assoc_tests.py $with_tshark >"$BUILD/assoc_tests.log" 2>&1 &
    assoc_tests=$!
    if [ "$valgrind" = yes ]; then
        python3 c_tests/worst_packets.py >"$BUILD/worst_packets.log" 2>&1 &
        worst_packets=$!
    fi
fi

# The header is C++ too, and the kit's memory calls serve.
try "$CXX" -std=c++11 -Wall -Wextra -Werror -pedantic -fsyntax-only -x c++ include/sctpr.h
printf '#include "sctpr.h"\nint main(void) { size_t n; uint8_t out[4]; return (int)sctpr_write_chunk(SCTPR_COOKIE_ACK, NULL, 0, out, 4, &n); }\n' >"$BUILD/one.c"
try $CC -std=c99 -Iinclude "$BUILD/one.c" "$ARCHIVE" "$KIT/c/liblibc_c.a" -o "$BUILD/one"
try "$BUILD/one"

# Takes a test's counts from its log's line 'NAME: N passed, M failed'.
count() {
    cat "$BUILD/$1.log"
    counts=$(sed -n "s/^$1: \([0-9]*\) passed, \([0-9]*\) failed\$/\1 \2/p" "$BUILD/$1.log")
    if [ -z "$counts" ]; then
        failed=$((failed + 1))
        return
    fi
    passed=$((passed + ${counts% *}))
    failed=$((failed + ${counts#* }))
}

# The library's names are its own.
CC="$CC" CXX="$CXX" c_tests/headers.sh "$ARCHIVE" >"$BUILD/headers.log" 2>&1 || true
count headers

# What each call does with NULL, from the header's list of calls.
python3 c_tests/nulls.py "$BUILD/nulls.c"
for test in c_tests/*.c "$BUILD/nulls.c"; do
    name=$(basename "$test" .c)
    [ "$name" = memory ] && continue
    if ! $CC -std=c99 -Wall -Wextra -Werror -g -O1 -fsanitize=address,undefined -Iinclude -Ic_tests -I"$BUILD" "$test" c_tests/memory.c "$ARCHIVE" \
        -o "$BUILD/$name"; then
        failed=$((failed + 1))
        continue
    fi
    "$BUILD/$name" >"$BUILD/$name.log" 2>&1 || true
    count "$name"
done

# The archive is not compiled with a sanitizer: valgrind sees what it reads and writes.
if [ "$valgrind" = yes ]; then
    try $CC -std=c99 -g -O1 -Iinclude c_tests/any_calls.c c_tests/memory.c "$ARCHIVE" -o "$BUILD/any_calls_plain"
    valgrind -q --error-exitcode=1 --leak-check=full "$BUILD/any_calls_plain" 400000 2 exact >"$BUILD/memcheck.log" 2>&1 &
    memcheck=$!
else
    leave_out "any calls under valgrind" "there is no valgrind"
fi

# Two endpoints over a network that loses, repeats, delays and damages; each of three runs is a test.
if $CC -std=c99 -Wall -Wextra -Werror -pedantic -g -O1 -fsanitize=address,undefined -Iinclude examples/c/*.c c_tests/memory.c "$ARCHIVE" \
    -o "$BUILD/exchange"; then
    for seed in 1 2 3; do
        if "$BUILD/exchange" "$seed" 400 >"$BUILD/exchange.log" 2>&1; then
            passed=$((passed + 1))
            tail -1 "$BUILD/exchange.log"
        else
            failed=$((failed + 1))
            cat "$BUILD/exchange.log"
        fi
    done
else
    failed=$((failed + 1))
fi

# ---- Installed ---------------------------------------------------------------------------------------------------------------

# What the wrappers repeat of the header, versions too, is what it says.
try python3 tools/c_bindings.py --check

# Whether a program prints the line of the echo in C.
prints_echo() {
    "$@" >"$BUILD/echo.out" && cmp "$BUILD/echo.out" "$BUILD/echo.want"
}

# Whether pkg-config tells the header's version.
tells_version() {
    told=$(pkg-config --modversion sctp-rattle)
    [ "$told" = "$(sed -n 's/^.define SCTPR_VERSION_[A-Z]* \([0-9]*\)$/\1/p' include/sctpr.h | paste -sd .)" ]
}

# Whether nothing is left of the install.
is_gone() {
    [ -z "$(find "$PREFIX" ! -type d)" ]
}

try_cpp() {
    flags=$(pkg-config --cflags --libs sctp-rattle)
    # shellcheck disable=SC2086
    if $CXX -std=c++20 -Wall -Wextra -Werror -pedantic -fno-exceptions -g -O1 -fsanitize=address,undefined c_tests/wrapper.cpp $flags \
        -o "$BUILD/wrapper"; then
        "$BUILD/wrapper" >"$BUILD/wrapper.log" 2>&1 || true
        count wrapper
    else
        failed=$((failed + 1))
    fi
    # shellcheck disable=SC2086
    try $CXX -std=c++20 -Wall -Wextra -Werror -pedantic -O2 examples/echo/echo.cpp $flags -o "$BUILD/echo_cpp"
    try prints_echo "$BUILD/echo_cpp"
}

try_rust() {
    export CARGO_TARGET_DIR="$BUILD/target"
    manifest=wrappers/rust/Cargo.toml
    try quietly cargo test -q --offline --manifest-path "$manifest"
    try quietly cargo build -q --offline --no-default-features -p sctp-rattle --manifest-path "$manifest"
    try quietly cargo build -q --offline --examples --manifest-path "$manifest"
    try prints_echo "$BUILD/target/debug/examples/echo"
}

try_go() {
    export GOCACHE="$BUILD/go" GOFLAGS=-mod=mod GOPROXY=off
    try quietly env -C wrappers/go go vet ./...
    try quietly env -C wrappers/go go test ./...
    try quietly env -C wrappers/go go build -o "$BUILD/echo_go" ./echo
    try prints_echo "$BUILD/echo_go"
}

# The shared library, in a folder of another name: what pkg-config tells of it, the echo on it, its name and its names.
try_shared() {
    shared=$PREFIX/shared
    try quietly make install PREFIX="$shared" LIBDIR="$shared/lib64" SHARED=yes OUT="$BUILD/shared_out" CC="$CC"
    told=$(PKG_CONFIG_PATH="$shared/lib64/pkgconfig" pkg-config --cflags --libs sctp-rattle | sed 's/ *$//')
    try [ "$told" = "-I$shared/include/sctp-rattle -L$shared/lib64 -lsctp-rattle" ]
    # shellcheck disable=SC2086
    try $CC -std=c99 -O2 examples/echo/echo.c $told -o "$BUILD/echo_shared"
    try prints_echo env LD_LIBRARY_PATH="$shared/lib64" "$BUILD/echo_shared"
    try [ "$(dynamic SONAME "$shared/lib64/libsctp-rattle.so")" = libsctp-rattle.so.0 ]
    try [ "$(dynamic NEEDED "$BUILD/echo_shared" | head -1)" = libsctp-rattle.so.0 ]
    try exports_its_own "$shared/lib64/libsctp-rattle.so"
    try quietly make uninstall PREFIX="$shared" LIBDIR="$shared/lib64" OUT="$BUILD/shared_out"
}

# What an object says of itself under a word: one a line.
dynamic() {
    objdump -p "$2" | awk -v word="$1" '$1 == word { print $2 }'
}

# The names that the header declares.
declared() {
    sed -n 's/^\(sctpr_code\|uint8_t\|uint32_t\|size_t\|void\) \(sctpr_[a-z0-9_]*\)(.*/\2/p' include/sctpr.h
}

# Whether a shared library exports the calls of the header, and no other name but that of its version.
exports_its_own() {
    nm -D --defined-only "$1" | awk '$2 != "A" { sub("@.*", "", $3); print $3 }' | sort >"$BUILD/exported"
    declared | sort | diff - "$BUILD/exported"
}

# Whether the installed archive defines the calls of the header, the proved ones behind them, the three memory calls, and no other name.
defines_its_own() {
    nm -g --defined-only "$1" 2>/dev/null | awk 'NF == 3 { print $3 }' | sed 's/^sctpr_proved_/sctpr_/;s/_free_handle$/_free/' | sort -u >"$BUILD/defined"
    { declared && printf 'rattle_alloc\nrattle_dealloc\nrattle_realloc\n'; } | sort | diff - "$BUILD/defined"
}

# Whether a program of one call takes of the archive what it calls: fewer bytes than docs/C.md says.
is_small() {
    # shellcheck disable=SC2086
    $CC -std=c99 -Wl,--gc-sections "$BUILD/one.c" $flags -o "$BUILD/one_small"
    [ "$(size "$BUILD/one_small" | awk 'NR == 2 { print $4 }')" -lt 65536 ]
}

# Whether a word for a build without a proof is refused, with the reason.
refuses_no_proof() {
    ! make PROVE=no OUT="$BUILD/no_out" >"$BUILD/no.log" 2>&1 && grep -q 'no build without a proof' "$BUILD/no.log"
}

try_installed() {
    flags=$(pkg-config --cflags --libs sctp-rattle)
    try tells_version
    # shellcheck disable=SC2086
    try $CC -std=c99 -Wall -Wextra -Werror -O2 examples/echo/echo.c $flags -o "$BUILD/echo"
    try "$BUILD/echo"
    "$BUILD/echo" >"$BUILD/echo.want" || true
    # a program's own memory calls go before those of the archive
    # shellcheck disable=SC2086
    try $CC -std=c99 c_tests/halves.c c_tests/memory.c $flags -o "$BUILD/own_memory"
    try quietly "$BUILD/own_memory"
    try defines_its_own "$PREFIX/lib/libsctp-rattle.a"
    try is_small
    try refuses_no_proof
    try_shared
    try_cpp
    if command -v cargo >/dev/null; then try_rust; else leave_out "the wrapper for Rust" "there is no cargo"; fi
    if [ "$go" = yes ]; then try_go; else leave_out "the wrapper for Go" "there is no go"; fi
    try quietly make uninstall PREFIX="$PREFIX" OUT="$BUILD/out"
    try is_gone
}

if [ "$make" = no ] || [ "$pkg_config" = no ]; then
    leave_out "what is installed, and the wrappers" "there is no make or no pkg-config"
elif quietly make install PREFIX="$PREFIX" OUT="$BUILD/out" CC="$CC"; then
    try_installed
else
    failed=$((failed + 1))
fi

# ---- sctpdump ----------------------------------------------------------------------------------------------------------------

# Frames, recorded runs and the version, on the program that rt ci has built.
if [ -x crates/sctpdump/out/sctpdump ]; then
    wait "$dump_tests" || true
    sed '$s/^/sctpdump: /' "$BUILD/dump_tests.log" >"$BUILD/sctpdump.log"
    count sctpdump
else
    leave_out "the runs of sctpdump" "rt ci has not built it"
fi

# Exchanges with an association, on the program that rt ci has built.
if [ -x crates/assocrun/out/assocrun ]; then
    wait "$assoc_tests" || true
    sed '$s/^/assocrun: /' "$BUILD/assoc_tests.log" >"$BUILD/assocrun.log"
    count assocrun
else
    leave_out "the scripts of assocrun" "rt ci has not built it"
fi

# ---- valgrind, usrsctp -------------------------------------------------------------------------------------------------------

# Whether valgrind found no fault: its output is shown where it did.
is_clean() {
    wait "$memcheck" || { cat "$BUILD/memcheck.log"; return 1; }
}
if [ "$valgrind" = yes ]; then
    try is_clean
    if [ -x crates/assocrun/out/assocrun ]; then
        wait "$worst_packets" || true
        count worst_packets
    fi
fi

# What tells usrsctp's faults from ours, each of them with usrsctp, and the runs: six that reset streams, and five more that exchange messages.
if [ "$usrsctp" = yes ]; then
    wait "$interop" || true
    cat "$BUILD/interop.log"
    grep '^known: ' "$BUILD/interop.log" >"$BUILD/known.log" || true
    count known
    good=$(grep -c '^\(usrsctp\|reconfig\): .* 0 faults\|^usrsctp_faults: .*\(and told\|not done\)$' "$BUILD/interop.log" || true)
    passed=$((passed + good))
    failed=$((failed + 19 - good))
else
    leave_out "the exchange with usrsctp" "there is no libusrsctp-dev"
fi
echo "$passed passed, $failed failed"
[ "$failed" -eq 0 ]
