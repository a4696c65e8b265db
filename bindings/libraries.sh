#!/bin/sh
# usage: bindings/libraries.sh [NAME ..]
#
# Builds static libraries (`rt lib` in the crate's folder: proves and compiles) into target/staticlib/libNAME.a, where one is missing or older
# than the code: exports, exports_frames and exports_queue where none is named. What a library of ours exports stands in a crate of its own,
# NAME_c.
set -eu
cd "$(dirname "$0")/.."
[ $# -gt 0 ] || set -- exports exports_frames exports_queue
mkdir -p target/bindings target/staticlib
for c; do
  a=target/staticlib/lib$c.a
  [ -f $a ] && [ -z "$(find crates -name out -prune -o -name '*.rt' -newer $a -print | head -n 1)" ] && continue
  crate=$c
  [ -d "crates/${c}_c" ] && crate=${c}_c
  (cd "crates/$crate" && rt lib) > "target/bindings/$c.log" 2>&1 || { tail -n 20 "target/bindings/$c.log"; exit 1; }
  cp "crates/$crate/out/lib$crate.a" "$a"
  echo "built $a"
done
