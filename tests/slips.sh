#!/usr/bin/env bash
# Runs the method with each slip of document 01 on a small floor, beside the right method, and prints what both give. Fails if a slip no longer
# breaks what docs/GUARANTEE.md says. With a DIMACS file and a precision it tries every slip on that floor: bash tests/slips.sh examples/feeders.max 16
set -eu
from=$PWD
cd "$(dirname "$0")/.."
mkdir -p target/second
# Overflow stops it, so that its arithmetic is exact or fails.
rustc --edition 2021 -O -C overflow-checks=on -o target/second/slips tests/second/slips.rs
cd "$from"
"$OLDPWD/target/second/slips" "$@"
