#!/usr/bin/env bash
# Holds listings against GLPK's exact optimum, which must lie between total and bound: on the samples that GLPK brings with it and
# on examples/ and the network of such a sample. Then the library and the second solver, on linear programs of small floors with
# reversible belts, limited stations and several pairs; arguments go to that program (tests/second/lp.rs): --seed 7, --forms (without
# the library).
# Exit status 77 says that glpsol (Debian's glpk-utils) is absent.
set -eu
cd "$(dirname "$0")/.."
if ! command -v glpsol >/dev/null; then
    echo "glpsol: not installed here, so nothing is held against it"
    exit 77
fi
program=target/bin/listing
mkdir -p target/second
./build listing 2>target/second/listing.log || { tail -n 20 target/second/listing.log; exit 1; }
work=$(mktemp -d)
trap 'rm -rf "$work"' EXIT
samples=0 held=0

# field NAME N: field N of the row NAME
field() { tr -d '\r' <"$work/rows" | awk -F, -v row="$1" -v n="$2" '$1 == row { print $n; exit }'; }

for floor in /usr/share/doc/glpk*/examples/*.max* examples/*.max tests/listing/glpk_sample.max; do
    [ -e "$floor" ] || continue
    case $floor in
    *.gz) gunzip -c "$floor" >"$work/floor" ;;
    *) cp "$floor" "$work/floor" ;;
    esac
    "$program" <"$work/floor" >"$work/rows"
    [ -n "$(field total 4)" ] || continue
    glpsol --maxflow "$work/floor" -o "$work/report" >"$work/log" 2>&1
    most=$(sed -n 's/^Objective:.* \([0-9][0-9]*\) (MAX.*/\1/p' "$work/report")
    if [ -z "$most" ]; then
        tail -n 5 "$work/log"
        echo "glpsol: no optimum for $floor"
        exit 1
    fi
    # The optimum is whole, as capacities are; no product passes 2^63.
    if [ "$(field total 4)" -gt "$((most * $(field total 5)))" ] || [ "$((most * $(field bound 5)))" -gt "$(field bound 4)" ]; then
        echo "glpsol: $floor carries $most, which is not between total and bound:"
        head -n 3 "$work/rows"
        exit 1
    fi
    held=$((held + 1))
    case $floor in /usr/*) samples=$((samples + 1)) ;; esac
done
echo "glpsol: optimum between total and bound on $held floors, $samples of them GLPK's own samples"
[ "$held" -gt 0 ]

tests/second/archive.sh
rustc --edition 2021 -O -C overflow-checks=on -L native=target/staticlib -o target/second/lp tests/second/lp.rs
target/second/lp "$work" "$@"
