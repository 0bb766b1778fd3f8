#!/bin/sh
# The Rust side of docs/BENCHMARKS.md: builds, offline, a program that does the rows of crates/bench over the sources of the crate sctp-proto 0.10.8.
#
#     evidence/rust_side.sh DIR OUT
#
# DIR is the folder of the crate as crates.io has it, or a flat one in which src--queue--payload_queue.rs.txt is src/queue/payload_queue.rs.
# OUT, outside this repository, gets the build, and the programs sum0, crc32c and heap, each also with -lto: evidence/rust_side/main.rs says how
# to run them. Debian's rustc or a newer one with cargo is needed, and its packages librust-bytes-dev, librust-log-dev and librust-rand-dev.
#
# The modules below the crate's association are private. So they are copied to OUT and made public there, and these stand in for the rest:
# - `Error`: the names that the modules use, without texts. No `Result` is larger for it than the crate's own.
# - `Side`, `AssociationId`, the files queue/mod.rs and association/mod.rs; the handle `Stream`, which needs an association, is cut off.
# - The crate `crc`, which Debian has in an older version: sixteen tables (evidence/rust_side/crc), or a sum of 0 in the program sum0.
# - `bytes` is Debian's 1.2.1; so is `rand`, 0.8, whose thread_rng has the place of `rng`. It is in no row.
set -eu
HERE=$(cd "$(dirname "$0")/rust_side" && pwd)
DIR=$(cd "$1" && pwd)
mkdir -p "$2"
OUT=$(cd "$2" && pwd)
case $OUT/ in "$(dirname "$(dirname "$HERE")")"/*) echo "rust_side.sh: $OUT is in the repository" >&2; exit 2 ;; esac
SRC=$OUT/sctp_proto/src
rm -rf "$OUT/sctp_proto" "$OUT/crc" "$OUT/rows"
mkdir -p "$SRC/association" "$SRC/chunk" "$SRC/param" "$SRC/queue" "$OUT/crc" "$OUT/rows" "$OUT/.cargo"

# Copies the sources, with everything public.
for path in "$DIR"/src/*.rs "$DIR"/src/*/*.rs "$DIR"/src--*.rs.txt; do
    name=$(printf %s "${path#"$DIR"/}" | sed 's/\.txt$//; s|--|/|g; s|^src/||')
    case $path:$name in
    *'*'*) ;;
    *:packet.rs | *:util.rs | *:association/stream.rs | *:chunk/*_test.rs | *:param/*_test.rs | *:queue/*_test.rs | *:chunk/* | *:param/* | *:queue/*)
        sed 's/pub(crate)/pub/g; s/^    fn packetize/    pub fn packetize/; s/rand::rng()/rand::thread_rng()/; /^#\[cfg(test)\]$/,/;$/d' "$path" >"$SRC/$name" ;;
    esac
done
[ -f "$SRC/queue/payload_queue.rs" ] || { echo "rust_side.sh: $DIR has no src/queue/payload_queue.rs" >&2; exit 2; }
sed -i '/^\/\/\/ Stream represents an SCTP stream$/,/^#\[derive(Debug, Copy, Clone, Eq, PartialEq, Default)\]$/{/^#\[derive/!d}' "$SRC/association/stream.rs"
sed -i '/^use crate::association::/d' "$SRC/association/stream.rs"

# Writes what stands in for the rest.
echo 'pub mod stream;' >"$SRC/association/mod.rs"
echo 'pub type AssociationId = u32;' >"$SRC/shared.rs"
for queue in outbound payload pending reassembly; do echo "pub mod ${queue}_queue;"; done >"$SRC/queue/mod.rs"
{
    echo '#[derive(Debug, Clone, PartialEq)]'
    echo 'pub enum Error {'
    cat "$SRC"/*.rs "$SRC"/*/*.rs | grep -o 'Error::Err[A-Za-z0-9]*' | sort -u | sed 's/Error::\(.*\)/    \1,/; s/Unhandled,/Unhandled { typ: u16 },/'
    echo '}'
    echo 'pub type Result<T> = std::result::Result<T, Error>;'
} >"$SRC/error.rs"
cp "$HERE/lib.rs" "$SRC/lib.rs"
cp "$HERE/crc/lib.rs" "$OUT/crc/lib.rs"
cp "$HERE"/main.rs "$HERE"/parts.rs "$HERE"/exchange.rs "$HERE"/limit.rs "$HERE"/heap.rs "$OUT/rows/"
cp "$HERE/workspace.toml" "$OUT/Cargo.toml"
for crate in crc sctp_proto rows; do cp "$HERE/$crate.toml" "$OUT/$crate/Cargo.toml"; done
cat >"$OUT/.cargo/config.toml" <<'END'
[source.crates-io]
replace-with = "debian"
[source.debian]
directory = "/usr/share/cargo/registry"
[net]
offline = true
END

cd "$OUT"
for profile in release lto; do
    for features in zero '' heap; do
        cargo build -q --profile "$profile" -p rows --features "$features" --target-dir "target/$profile-$features"
        case $features in zero) name=sum0 ;; '') name=crc32c ;; *) name=$features ;; esac
        [ "$profile" = release ] || name=$name-$profile
        cp "target/$profile-$features/$profile/rows" "$name"
    done
done
ls -l "$OUT/sum0" "$OUT/crc32c" "$OUT/heap" "$OUT/sum0-lto" "$OUT/crc32c-lto" "$OUT/heap-lto"
