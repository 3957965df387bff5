#!/usr/bin/env bash
# How the library's time grows with m, k and q: prints the tables of docs/SPEED.md
# and writes the plot to the SVG file named, if one is, seen from the root; a minute
# and a half.
set -eu
cd "$(dirname "$0")/.."
tests/second/archive.sh
rustc --edition 2021 -O -L native=target/staticlib -o target/second/growth bench/growth.rs
target/second/growth "$@"
