#!/usr/bin/env bash
# examples.sh SEED N: checks N random examples of each kind against the definitions, by computation, in a copy of the repository in a folder
# of its own, which goes at the end; crates that are proved already are not proved again. The few that crates/examples keeps say in their
# heads which seed made them.
set -eu
cd "$(dirname "$0")/.."
copy=$(mktemp -d)
trap 'rm -rf "$copy"' EXIT
crates="$(sed -n 's/^examples: //p' crates.txt) examples"
mkdir "$copy/crates"
for crate in $crates; do
  cp -a "crates/$crate" "$copy/crates/"
  grep "^$crate:" crates.txt >> "$copy/crates.txt"
done
for kind in cells bytes sound values images; do
  target/model/model examples "$kind" "$1" "$2" > "$copy/crates/examples/proofs/${kind^}.antt"
done
cd "$copy/crates/examples"
rt check
