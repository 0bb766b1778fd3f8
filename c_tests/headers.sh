#!/bin/sh
# Whether the names of the library are its own:
#   - include/sctpr.h, and sctpr.hpp, compile before and behind each header that has the names of RFC 6458, with all warnings as errors:
#     usrsctp.h, netinet/sctp.h (Debian's libsctp-dev) and linux/sctp.h, as many as are there. These three declare sctp_assoc_t in two ways,
#     so that no file can have usrsctp.h and another one
#   - the header declares no name, and defines no macro, that does not begin with sctpr_ or SCTPR_
#   - the archive defines the calls that the header declares, the proved ones behind them (packaging/checks.c), and no other name
#
#     c_tests/headers.sh [ARCHIVE]
#
# The last line is 'headers: N passed, M failed'.
set -u
cd "$(dirname "$0")/.."
CC=${CC:-gcc}
CXX=${CXX:-g++}
BUILD=$(mktemp -d)
trap 'rm -rf "$BUILD"' EXIT
passed=0
failed=0
WARNINGS="-Wall -Wextra -Wconversion -pedantic -Werror"

try() {
    if "$@"; then
        passed=$((passed + 1))
    else
        failed=$((failed + 1))
        echo "failed: $*"
    fi
}

# Compiles a file that includes these headers in this order, and takes a constant and a type of ours. linux/sctp.h asks for others first.
compiles() {
    ours=$1
    shift
    {
        case $* in *linux/*) printf '#include <netinet/in.h>\n#include <stdint.h>\n#include <sys/socket.h>\n' ;; esac
        for header in "$@"; do echo "#include <$header>"; done
    } >"$BUILD/order.c"
    echo 'typedef char is_six[SCTPR_ABORT == 6 ? 1 : -1];' >>"$BUILD/order.c"
    echo 'sctpr_code order(struct sctpr_head *head, is_six *six);' >>"$BUILD/order.c"
    echo 'sctpr_code order(struct sctpr_head *head, is_six *six) { return head != NULL && six != NULL ? SCTPR_OK : SCTPR_INVALID; }' \
        >>"$BUILD/order.c"
    # shellcheck disable=SC2086
    case $ours in
    sctpr.h)
        $CC -std=c99 $WARNINGS -Iinclude -fsyntax-only "$BUILD/order.c" &&
            $CXX -std=c++17 $WARNINGS -Iinclude -fsyntax-only -x c++ "$BUILD/order.c"
        ;;
    *) $CXX -std=c++20 $WARNINGS -Iinclude -fsyntax-only -x c++ "$BUILD/order.c" ;;
    esac
}

for ours in sctpr.h sctpr.hpp; do
    try compiles "$ours" "$ours" "$ours"
    for other in usrsctp.h netinet/sctp.h linux/sctp.h; do
        [ -e "/usr/include/$other" ] || continue
        try compiles "$ours" "$other" "$ours"
        try compiles "$ours" "$ours" "$other"
        try compiles "$ours" "$other" "$ours" "$other" "$ours"
    done
done

# The header's names: macros, and what is declared, tags and enumerators with it.
are_ours() {
    $CC -std=c99 -Iinclude -E -dM include/sctpr.h | sed 's/^#define \([A-Za-z0-9_]*\).*/\1/' | sort >"$BUILD/all"
    printf '#include <stddef.h>\n#include <stdint.h>\n' | $CC -std=c99 -E -dM -x c - | sed 's/^#define \([A-Za-z0-9_]*\).*/\1/' | sort >"$BUILD/theirs"
    comm -23 "$BUILD/all" "$BUILD/theirs" | grep -v '^SCTPR_' && return 1
    sed 's|/\*[^*]*\*/||g' include/sctpr.h | grep -E '\b(sctp|SCTP)_' && return 1
    return 0
}
try are_ours

# The calls that the header declares, one a line.
declared() {
    sed -n 's/^\(sctpr_code\|uint8_t\|uint32_t\|size_t\|void\|const char \*\) *\(sctpr_[a-z0-9_]*\)(.*/\2/p' include/sctpr.h | sort
}

defines_the_calls() {
    declared >"$BUILD/declared"
    nm -g --defined-only "$1" 2>"$BUILD/nm" | awk 'NF == 3 { print $3 }' | sed 's/^sctpr_proved_/sctpr_/;s/_free_handle$/_free/' | sort -u >"$BUILD/defined"
    diff "$BUILD/declared" "$BUILD/defined"
}
if [ $# -gt 0 ]; then try defines_the_calls "$1"; fi
echo "headers: $passed passed, $failed failed"
[ "$failed" -eq 0 ]
