#!/bin/sh
# usage: oracle/build.sh SOURCES [BUILD]
#
# Builds the original receiver with rustc alone, nothing downloaded: SOURCES is a folder of its sources, either named src--src--a--b.rs.txt
# or as a tree src/a/b.rs (NetrexMC/RakNet, commit 799a339d53); BUILD is where the results go (target/oracle of this repository).
# Every original that is used is copied as it is and compared afterwards; a line with its sha256 is printed for each. The crate that the
# originals lean on, binary_util, is not at hand: shim/ has its names, and every body there panics.
#
# Then our static libraries (bindings/libraries.sh) and the driver, which links all: BUILD/compare.
# RUSTC_FLAGS="-C overflow-checks=on" builds an oracle that stops at any overflow.
set -eu
HERE=$(cd "$(dirname "$0")" && pwd)
ROOT=$(dirname "$HERE")
SRC=${1:?usage: oracle/build.sh SOURCES [BUILD]}
B=${2:-$ROOT/target/oracle}
RC="rustc --edition 2021 -C opt-level=3 ${RUSTC_FLAGS:-}"
mkdir -p "$B/lib/connection/controller" "$B/lib/connection/queue" "$B/lib/protocol" "$B/lib/server" "$B/lib/util"

original() { # a path below src/, as protocol/ack.rs
  f="$SRC/src--src--$(echo "$1" | sed 's,/,--,g').txt"
  [ -f "$f" ] || f="$SRC/src/$1"
  [ -f "$f" ] || { echo "no such original: $1" >&2; exit 1; }
  echo "$f"
}

for p in connection/controller/window.rs connection/queue/mod.rs connection/queue/recv.rs \
         protocol/ack.rs protocol/frame.rs protocol/reliability.rs protocol/mod.rs util/debug.rs; do
  f=$(original "$p")
  cp "$f" "$B/lib/$p"
  cmp "$f" "$B/lib/$p"
  echo "unchanged $(sha256sum "$B/lib/$p" | cut -c1-16) $p"
done
# current_epoch: the original's own text, from its first line to the closing brace
f=$(original server/mod.rs)
sed -n '/^pub(crate) fn current_epoch() -> u64 {$/,/^}$/p' "$f" > "$B/lib/server/mod.rs"
[ "$(wc -l < "$B/lib/server/mod.rs")" = 6 ] || { echo "current_epoch not found" >&2; exit 1; }
echo "cut out 6 lines of server/mod.rs (current_epoch)"
# Lists of modules, and empty files for modules that nothing here uses.
echo 'pub(crate) mod debug;' > "$B/lib/util/mod.rs"
printf 'pub mod controller;\npub mod queue;\n' > "$B/lib/connection/mod.rs"
echo 'pub mod window;' > "$B/lib/connection/controller/mod.rs"
for p in connection/queue/send.rs protocol/magic.rs protocol/packet.rs protocol/mcpe.rs; do : > "$B/lib/$p"; done
cp "$HERE/root/lib.rs" "$B/lib/lib.rs"

$RC --crate-type proc-macro --crate-name binary_util_derive "$HERE/shim/binary_util_derive.rs" --out-dir "$B"
$RC --crate-type rlib --crate-name binary_util "$HERE/shim/binary_util.rs" --out-dir "$B" -L "$B" \
    --extern binary_util_derive="$B/libbinary_util_derive.so"
$RC -A warnings --crate-type rlib --crate-name rak_rs "$B/lib/lib.rs" --out-dir "$B" -L "$B" \
    --extern binary_util="$B/libbinary_util.rlib"
echo "built $B/librak_rs.rlib"

"$ROOT/bindings/libraries.sh"
$RC --crate-name compare "$HERE/driver/main.rs" -o "$B/compare" -L "$B" --extern rak_rs="$B/librak_rs.rlib" \
    -L "native=$ROOT/target/staticlib" -l static=exports -l static=exports_frames -l static=exports_queue
echo "built $B/compare"
