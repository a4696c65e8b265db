#!/bin/sh
# usage: bindings/compare.sh [RECORDING ..]
#
# Builds the static libraries (libraries.sh), sees by `nm` that they need no name from outside but memcpy and memset, builds the program
# `trace` (`rt run` in crates/trace), then with gcc and rustc the C and the Rust programs of this folder, all under target/bindings.
# fields.c and fields.rs make every call and must both print fields.txt. The examples of README.md must print the same. replay.c and
# replay.rs must print, byte for byte, what `trace` prints on each recording (crates/trace/stdin where none is named); so must replay.c
# where it stops after every 5 datagrams, saves the receiver, and goes on from the image.
set -eu
HERE=$(cd "$(dirname "$0")" && pwd)
ROOT=$(dirname "$HERE")
LIBS="$ROOT/target/staticlib"
B="$ROOT/target/bindings"
TRACE="$ROOT/crates/trace"
[ $# -gt 0 ] || set -- "$TRACE/stdin"

"$HERE/libraries.sh"
for c in exports exports_frames exports_queue; do
  nm -u "$LIBS/lib$c.a" > "$B/$c.needs"
  [ $c = exports_frames ] && may='^$' || may='^mem(cpy|set)$'
  awk -v c=$c -v may="$may" '/ U / && $2 !~ may { print c " needs " $2; wrong = 1 } END { exit wrong }' "$B/$c.needs"
done
echo "libraries: from outside exports_frames needs nothing, the others memcpy and memset"
(cd "$TRACE" && rt run < stdin) > "$B/stored.txt" 2> "$B/trace.log" || { tail -n 20 "$B/trace.log"; exit 1; }
cmp "$TRACE/stdout" "$B/stored.txt"
cp "$HERE"/*.c "$HERE"/*.rs "$B"
sed -n '/^```c$/,/^```$/p' "$HERE/README.md" | sed '/^```/d' > "$B/example.c"
sed -n '/^```rust$/,/^```$/p' "$HERE/README.md" | sed '/^```/d' > "$B/example.rs"
for p in fields example replay; do
  gcc -std=c11 -O2 -Wall -Wextra -Werror -I "$ROOT/include" "$B/$p.c" -o "$B/${p}_c" -L "$LIBS" \
      -lexports_queue -lexports_frames -lexports
  rustc --edition 2021 -O -D warnings "$B/$p.rs" -o "$B/${p}_rust" -L "native=$LIBS" \
      -l static=exports_queue -l static=exports_frames -l static=exports
done

for language in c rust; do
  "$B/fields_$language" > "$B/fields_$language.txt"
  cmp "$HERE/fields.txt" "$B/fields_$language.txt"
  "$B/example_$language" > "$B/example_$language.txt"
done
echo "fields: C and Rust print fields.txt, $(wc -l < "$HERE/fields.txt") lines"
cmp "$B/example_c.txt" "$B/example_rust.txt"
echo "examples: C and Rust print the same: $(paste -s -d ';' "$B/example_c.txt")"

for recording; do
  "$TRACE/out/trace" < "$recording" > "$B/trace.txt"
  for language in c rust; do
    "$B/replay_$language" < "$recording" > "$B/replay_$language.txt"
    cmp "$B/trace.txt" "$B/replay_$language.txt"
  done
  echo "replay: trace, C and Rust print the same, $(wc -l < "$B/trace.txt") lines, on $recording"
  FROM=-
  PARTS=0
  : > "$B/parts.txt"
  while "$B/replay_c" "$FROM" "$B/image" 5 > "$B/part.txt" && [ -s "$B/part.txt" ]; do
    cat "$B/part.txt" >> "$B/parts.txt"
    FROM="$B/image"
    PARTS=$((PARTS + 1))
  done < "$recording"
  cmp "$B/trace.txt" "$B/parts.txt"
  echo "replay: the same in $PARTS parts, each resumed from the image that the one before saved"
done
