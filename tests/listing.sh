#!/usr/bin/env bash
# The listing program and the second solver: every stored listing, of tests/listing/ and examples/, then thousands of generated files.
# Stored listings were written by the second solver (listings --list); page.csv is document 01's own.
set -eu
cd "$(dirname "$0")/.."
program=target/bin/listing
second=target/second/listings
mkdir -p target/second
rustc --edition 2021 -O -C overflow-checks=on -o "$second" tests/second/listings.rs
./build listing 2>target/second/listing.log || { tail -n 20 target/second/listing.log; exit 1; }
files=0
for floor in tests/listing/*.max examples/*.max; do
    if ! "$program" <"$floor" | cmp - "${floor%.max}.csv" || ! "$second" --list <"$floor" | cmp - "${floor%.max}.csv"; then
        echo "listing: $floor is listed otherwise than stored"
        exit 1
    fi
    files=$((files + 1))
done
echo "listing: $files stored listings, all alike"

"$second" "$program"
