#!/usr/bin/env bash
# Compares the static library with the second solver, byte for byte. Arguments go
# to the program: --quick, --seed 7, --forms (the second solver's forms alone).
set -eu
cd "$(dirname "$0")/.."
tests/second/archive.sh
# Overflow stops the second solver, so that its arithmetic is exact or fails.
rustc --edition 2021 -O -C overflow-checks=on -L native=target/staticlib \
    -o target/second/compare tests/second/compare.rs
target/second/compare "$@"
