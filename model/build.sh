#!/usr/bin/env bash
# Builds the model with rustc alone into target/model/model.
set -eu
cd "$(dirname "$0")/.."
mkdir -p target/model
rustc --edition 2021 -O -C overflow-checks=on -D warnings -o target/model/model model/src/main.rs
