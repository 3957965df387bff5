#!/usr/bin/env bash
# Compiles the header as C99 and as C++17, compares what each C example prints with
# tests/NAME.expected, which is what the second solver says it should print
# (tests/second), meets every refusal from C (tests/refusals.c), holds the whole totes of
# pairs to their amounts (tests/totes.c) and sites to their floors sent singly
# (tests/site.c), and tries what the header adds to the calls (tests/helpers.c), and the
# floor that README has in two ways. The header's times are those of docs/SPEED.md. The
# archive asks a host without libc for memcpy and memset, and for nothing more.
set -eu
cd "$(dirname "$0")/.."
tests/second/archive.sh
made=target/second
archive=target/staticlib/libvithmork.a

nm --defined-only "$archive" | awk 'NF == 3 { print $3 }' | sort -u >"$made/defined"
lacking=$(nm --undefined-only "$archive" | awk '$1 == "U" { print $2 }' | sort -u | comm -13 "$made/defined" - | tr '\n' ' ')
if [ "$lacking" != "memcpy memset " ]; then
    echo "c_example: the archive asks for $lacking"
    exit 1
fi

strict=(-Wall -Wextra -Wpedantic -Werror -Iinclude)
echo '#include "vithmork.h"' >"$made/header.cpp"
c++ -std=c++17 "${strict[@]}" -c -o "$made/header.o" "$made/header.cpp"
rustc --edition 2021 -O -C overflow-checks=on -o "$made/expected" tests/second/expected.rs
for program in examples/*.c; do
    name=$(basename "$program" .c)
    "$made/expected" "$name" | diff "tests/$name.expected" -
    cc -std=c99 "${strict[@]}" -o "$made/$name" "$program" "$archive"
    "$made/$name" | diff "tests/$name.expected" -
done
cc -std=c99 "${strict[@]}" -o "$made/refusals" tests/refusals.c "$archive"
"$made/refusals"
cc -std=c99 "${strict[@]}" -o "$made/totes" tests/totes.c "$archive"
"$made/totes"
cc -std=c99 "${strict[@]}" -o "$made/sites" tests/site.c "$archive"
"$made/sites"
cc -std=c99 "${strict[@]}" -o "$made/helpers" tests/helpers.c "$archive"
"$made/helpers"
c++ -x c++ -std=c++17 "${strict[@]}" -o "$made/helpers" tests/helpers.c -x none "$archive"
"$made/helpers"

# README's floor in two ways: the file's column is examples/cross.max, and the column of C, solved, gives that file's listing.
columns=$(sed -n '/^    in a file  *from C$/,/^    \.\/list/p' README.md)
cut -c5-32 <<<"$columns" | sed 's/ *$//' | grep '^[pna] ' | diff <(grep -v '^c' examples/cross.max) -
mkdir -p "$made/beside"
grep -o 'vithmork_put_.*;' <<<"$columns" >"$made/beside/column.h"
grep -oE '`vithmork_put_[^`]*`' README.md | sed 's/`\(.*\)`/\1;/' >"$made/beside/table.h"
cc -std=c99 "${strict[@]}" -I"$made/beside" -o "$made/beside/program" tests/beside.c "$archive"
"$made/beside/program" | diff <(sed -n 2,3p examples/cross.csv) -

# slowest Q: the greatest time of the library, in ms, of the page's table for that precision
slowest() {
    awk -F'|' -v section="### q = $1" '
        /^##/ { inside = $0 == section }
        inside && $4 + 0 > most { most = $4 + 0 }
        END { print most }' docs/SPEED.md
}
cost=$(awk -v at4="$(slowest 4)" -v at16="$(slowest 16)" 'BEGIN { printf "%.0f ms at q = 4 and %.1f s at q = 16", at4, at16 / 1000 }')
if ! tr -s '\n *' ' ' <include/vithmork.h | grep -qF "the slowest took $cost"; then
    echo "c_example: docs/SPEED.md has other times than the header: $cost"
    exit 1
fi
echo "c_example: the header is C99 and C++17, the examples print what they should, and refusals, totes and sites read as they should"
